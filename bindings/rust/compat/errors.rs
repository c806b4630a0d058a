// Every error: matched with no case left over, made, converted and printed.
extern crate device_tree;

use device_tree::util::{SliceRead, SliceReadError};
use device_tree::{DeviceTree, DeviceTreeError, Node, PropError};

fn of_load(e: &DeviceTreeError) -> String {
    match *e {
        DeviceTreeError::InvalidMagicNumber => "no blob".to_owned(),
        DeviceTreeError::SizeMismatch => "size".to_owned(),
        DeviceTreeError::SliceReadError(SliceReadError::UnexpectedEndOfInput) => "end".to_owned(),
        DeviceTreeError::ParseError(at) => format!("token at {}", at),
        DeviceTreeError::Utf8Error => "text".to_owned(),
        DeviceTreeError::VersionNotSupported => "version".to_owned(),
    }
}

fn of_prop(e: PropError) -> &'static str {
    match e {
        PropError::NotFound => "none",
        PropError::Utf8Error => "text",
        PropError::Missing0 => "zero",
        PropError::SliceReadError(SliceReadError::UnexpectedEndOfInput) => "short",
    }
}

fn word(b: &[u8], at: usize) -> Result<u32, DeviceTreeError> {
    Ok(b.read_be_u32(at)?)
}

fn text(b: &[u8]) -> Result<String, PropError> {
    let part = b.read_bstring0(0)?;
    Ok(std::str::from_utf8(part)?.to_owned())
}

fn number(node: &Node, name: &str) -> Result<u64, PropError> {
    if node.has_prop(name) {
        node.prop_u64(name)
    } else {
        Err(PropError::NotFound)
    }
}

fn main() {
    let b = std::fs::read(std::env::args().nth(1).unwrap()).unwrap();
    for len in (0..64).chain(b.len() - 4..b.len()) {
        println!("{} {:?}", len, DeviceTree::load(&b[..len]).map(|_| ()).map_err(|e| of_load(&e)));
        println!("{:?} {:?}", word(&b[..len], 4), text(&b[..len]));
    }
    for at in (0..b.len().min(6000)).step_by(4) {
        let mut bad = b.clone();
        bad[at + 3] = 0x85;
        println!("{} {:?}", at, DeviceTree::load(&bad).map(|dt| dt.root.props.len()).map_err(|e| of_load(&e)));
    }
    match DeviceTree::load(&b) {
        Ok(dt) => {
            for &(ref name, _) in &dt.root.props {
                println!("{:?} {:?}", number(&dt.root, name).map_err(of_prop), dt.root.prop_str(name).map_err(of_prop));
            }
            println!("{:?} {:?}", number(&dt.root, "no such").map_err(of_prop), dt.root.prop_str("no such"));
        }
        Err(e) => println!("{:?}", e),
    }
    println!("{:?} {:?}", DeviceTreeError::from(SliceReadError::UnexpectedEndOfInput), PropError::Missing0);
}
