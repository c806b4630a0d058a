// A node's fields with no `..`: not with this crate, whose nodes have two more.
extern crate device_tree;

fn main() {
    let dt = device_tree::DeviceTree::load(&[]);
    if let Ok(dt) = dt {
        let device_tree::Node { name, props, children } = dt.root;
        println!("{} {} {}", name, props.len(), children.len());
    }
}
