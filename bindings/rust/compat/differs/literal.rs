// A node that no load made: not with this crate, whose nodes know their place in a blob.
extern crate device_tree;

fn main() {
    let node = device_tree::Node { name: "made".to_owned(), props: Vec::new(), children: Vec::new() };
    println!("{:?}", node);
}
