// The original's documentation example, with the blob's path from the command line.
extern crate device_tree;

use std::fs;
use std::io::Read;

fn main() {
    // read file into memory
    let mut input = fs::File::open(std::env::args().nth(1).unwrap()).unwrap();
    let mut buf = Vec::new();
    input.read_to_end(&mut buf).unwrap();

    let dt = device_tree::DeviceTree::load(buf.as_slice ()).unwrap();
    println!("{:?}", dt);
    println!("{:#?}", dt);
}
