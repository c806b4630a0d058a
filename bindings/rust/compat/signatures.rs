// Every public name with its type, and the traits that the original's types have.
extern crate device_tree;

use device_tree::util::{align, SliceRead, SliceReadError, SliceReadResult};
use device_tree::util::{convert, fmt, option, result, str};
use device_tree::{DeviceTree, DeviceTreeError, Node, PropError};
use std::panic::{RefUnwindSafe, UnwindSafe};

fn common<T: std::fmt::Debug + Send + Sync + Unpin + UnwindSafe + RefUnwindSafe + 'static>() {}

fn reader<T: SliceRead>() {
    let _: fn(&T, usize) -> SliceReadResult<u32> = T::read_be_u32;
    let _: fn(&T, usize) -> SliceReadResult<u64> = T::read_be_u64;
    let _: for<'a> fn(&'a T, usize) -> SliceReadResult<&'a [u8]> = T::read_bstring0;
    let _: for<'a> fn(&'a T, usize, usize) -> SliceReadResult<&'a [u8]> = T::subslice;
}

fn object(r: &dyn SliceRead) -> bool {
    r.read_be_u32(0).is_ok()
}

fn fields(dt: &mut DeviceTree) {
    let _: &mut u32 = &mut dt.version;
    let _: &mut u32 = &mut dt.boot_cpuid_phys;
    let _: &mut Vec<(u64, u64)> = &mut dt.reserved;
    let root: &mut Node = &mut dt.root;
    let _: &mut String = &mut root.name;
    let _: &mut Vec<(String, Vec<u8>)> = &mut root.props;
    let _: &mut Vec<Node> = &mut root.children;
}

fn main() {
    common::<DeviceTree>();
    common::<Node>();
    common::<DeviceTreeError>();
    common::<PropError>();
    common::<SliceReadError>();
    common::<option::Option<Node>>();
    reader::<&[u8]>();

    let _: fn(&[u8]) -> Result<DeviceTree, DeviceTreeError> = DeviceTree::load;
    let _: for<'a, 'b> fn(&'a DeviceTree, &'b str) -> Option<&'a Node> = DeviceTree::find;
    let _: for<'a, 'b> fn(&'a Node, &'b str) -> Option<&'a Node> = Node::find;
    let _: for<'a, 'b> fn(&'a Node, &'b str) -> bool = Node::has_prop;
    let _: for<'a, 'b> fn(&'a Node, &'b str) -> Result<&'a str, PropError> = Node::prop_str;
    let _: for<'a, 'b> fn(&'a Node, &'b str) -> Option<&'a Vec<u8>> = Node::prop_raw;
    let _: for<'a, 'b> fn(&'a Node, &'b str) -> Result<u64, PropError> = Node::prop_u64;
    let _: for<'a, 'b> fn(&'a Node, &'b str) -> Result<u32, PropError> = Node::prop_u32;
    let _: fn(usize, usize) -> usize = align;
    let _: fn(&mut DeviceTree) = fields;
    let _: fn(usize) -> DeviceTreeError = DeviceTreeError::ParseError;
    let _: fn(SliceReadError) -> DeviceTreeError = DeviceTreeError::SliceReadError;
    let _: fn(SliceReadError) -> PropError = PropError::SliceReadError;
    let _: fn(SliceReadError) -> DeviceTreeError = convert::From::from;
    let _: fn(SliceReadError) -> PropError = convert::From::from;
    let _: fn(str::Utf8Error) -> DeviceTreeError = convert::From::from;
    let _: fn(str::Utf8Error) -> PropError = convert::From::from;
    let _: result::Result<(), fmt::Error> = Ok(());
    let bytes: &[u8] = &[0; 4];
    println!("{}", object(&bytes));
}
