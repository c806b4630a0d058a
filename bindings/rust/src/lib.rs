//! Reads flattened device trees (`.dtb`) by Dangrisuk's proved code.
//!
//! The names and types are those of the crate device_tree 1.1.0, so a program that uses it changes a line of its `Cargo.toml`
//! and no line of its own. `load` and every lookup are calls of the static library that `rt lib` makes in `crates/capi`; this crate
//! copies names and values into the tree's fields and turns numbers into the original's errors. The folder's `README.md` says
//! what differs.
//!
//! The crate uses `core` and `alloc`, not `std`.
//!
//! # Examples
//!
//! ```
//! use std::fs;
//! use std::io::Read;
//!
//! fn main() {
//!     // read file into memory
//!     let mut input = fs::File::open("../../samples/enclosure.dtb").unwrap();
//!     let mut buf = Vec::new();
//!     input.read_to_end(&mut buf).unwrap();
//!
//!     let dt = device_tree::DeviceTree::load(buf.as_slice ()).unwrap();
//!     println!("{:?}", dt);
//! }
//! ```
#![no_std]
#![deny(unsafe_code, unsafe_op_in_unsafe_fn)]

#[cfg(not(target_pointer_width = "64"))]
compile_error!("Dangrisuk's promises are about 64-bit machines.");

extern crate alloc;

mod ffi;
mod tables;
pub mod util;

use alloc::borrow::ToOwned;
use alloc::string::String;
use alloc::sync::Arc;
use alloc::vec::Vec;
use core::{fmt, str};
use tables::{Head, Tables};
use util::SliceReadError;

/// Why a blob is refused.
#[derive(Debug)]
pub enum DeviceTreeError {
    /// The blob does not start with `d00dfeed`.
    InvalidMagicNumber,

    /// The blob is not as long as its header says.
    SizeMismatch,

    /// Something that has to be read is not all inside the blob.
    SliceReadError(SliceReadError),

    /// The word at this position is not one that may stand there.
    ///
    /// Also where nodes are nested more than 64 deep, which the original has no error for: the word at the position is then 1,
    /// the token that opens a node, as it never is otherwise.
    ParseError(usize),

    /// The name of a node or a property is not UTF-8.
    Utf8Error,

    /// The version is not 17.
    VersionNotSupported,
}

/// A loaded device tree.
#[derive(Debug)]
pub struct DeviceTree {
    /// The version that the header says: 17.
    pub version: u32,

    /// The CPU that the system boots from.
    pub boot_cpuid_phys: u32,

    /// The memory reservations, `(offset, size)`, with the last one, whose size is 0.
    pub reserved: Vec<(u64, u64)>,

    /// The root node.
    pub root: Node,
}

/// A node of a device tree.
///
/// The public fields are copies of what the blob holds. The lookups read the blob itself, of which the nodes of a tree share a
/// copy: a change to the fields does not change what they find. (A node that was taken out of `children`, and a property that
/// was taken out of `props` or renamed there, is not handed out.)
pub struct Node {
    /// The name, with its unit address.
    pub name: String,

    /// The properties, `(name, value)`.
    pub props: Vec<(String, Vec<u8>)>,

    /// The child nodes.
    pub children: Vec<Node>,

    tables: Arc<Tables>,
    row: usize,
}

/// Why a property's value is not handed out.
#[derive(Debug)]
pub enum PropError {
    /// The node has no property of that name.
    NotFound,
    /// The value is not UTF-8.
    Utf8Error,
    /// The value does not end in a zero byte.
    Missing0,
    /// The value is shorter than the number.
    SliceReadError(SliceReadError),
}

impl From<SliceReadError> for DeviceTreeError {
    fn from(e: SliceReadError) -> DeviceTreeError {
        DeviceTreeError::SliceReadError(e)
    }
}

impl From<str::Utf8Error> for DeviceTreeError {
    fn from(_: str::Utf8Error) -> DeviceTreeError {
        DeviceTreeError::Utf8Error
    }
}

impl From<SliceReadError> for PropError {
    fn from(e: SliceReadError) -> PropError {
        PropError::SliceReadError(e)
    }
}

impl From<str::Utf8Error> for PropError {
    fn from(_: str::Utf8Error) -> PropError {
        PropError::Utf8Error
    }
}

// The original's error for a refused load. 8, 9 and 10 cannot come: the tables have the room that `measure` found.
fn refused(a: ffi::Answer) -> DeviceTreeError {
    match a[0] {
        1 => DeviceTreeError::InvalidMagicNumber,
        2 => DeviceTreeError::SizeMismatch,
        3 => DeviceTreeError::SliceReadError(SliceReadError::UnexpectedEndOfInput),
        4 | 7 => DeviceTreeError::ParseError(a[1] as usize),
        5 => DeviceTreeError::Utf8Error,
        6 => DeviceTreeError::VersionNotSupported,
        _ => ffi::stray("load", &a),
    }
}

// The original's error for a property. 15 cannot come: the rows are those of a load.
fn withheld(call: &str, a: &ffi::Answer) -> PropError {
    match a[0] {
        5 => PropError::Utf8Error,
        11 => PropError::NotFound,
        12 => PropError::Missing0,
        13 => PropError::SliceReadError(SliceReadError::UnexpectedEndOfInput),
        _ => ffi::stray(call, a),
    }
}

// The row that a path leads to.
fn found(a: ffi::Answer) -> Option<usize> {
    match a[0] {
        0 => Some(a[1] as usize),
        11 => None,
        _ => ffi::stray("find", &a),
    }
}

impl DeviceTree {
    /// Loads a device tree from a blob, of which it keeps a copy.
    pub fn load(buffer: &[u8]) -> Result<DeviceTree, DeviceTreeError> {
        let (Head { version, boot_cpuid_phys, reserved }, tables) = Tables::load(buffer).map_err(refused)?;
        let root = Node::of(&Arc::new(tables), 0)?;
        Ok(DeviceTree { version, boot_cpuid_phys, reserved, root })
    }

    /// The node that a path leads to from the root, such as `/soc/i2c@7e205000`. The path has to start with `/`; names are
    /// compared whole, and the first child of a name counts.
    pub fn find<'a>(&'a self, path: &str) -> Option<&'a Node> {
        // A program may have put another node in the root's place.
        if self.root.row != 0 {
            return self.root.find(path.strip_prefix('/')?);
        }
        self.root.below(found(self.root.tables.find(path))?)
    }
}

impl Node {
    // The node of a row, and all below it: as many levels as the library loads.
    fn of(tables: &Arc<Tables>, row: usize) -> Result<Node, str::Utf8Error> {
        let mut props = Vec::with_capacity(tables.props(row).len());
        for (name, value) in tables.props(row) {
            props.push((str::from_utf8(name)?.to_owned(), value.to_owned()));
        }
        let children = tables.children(row).map(|child| Node::of(tables, child)).collect::<Result<_, _>>()?;
        Ok(Node { name: str::from_utf8(tables.name(row))?.to_owned(), props, children, tables: tables.clone(), row })
    }

    // The child of a row: in its place, unless the program has moved the children about.
    fn child(&self, row: usize) -> Option<&Node> {
        let is = |child: &&Node| child.row == row && Arc::ptr_eq(&child.tables, &self.tables);
        self.children.get(self.tables.place(row)).filter(is).or_else(|| self.children.iter().find(is))
    }

    // The node of a row at or below this one, by its parents' rows.
    fn below(&self, row: usize) -> Option<&Node> {
        if row == self.row {
            return Some(self);
        }
        self.below(self.tables.parent(row)?)?.child(row)
    }

    /// The node that a path leads to from this one, such as `i2c@7e205000/sensor@48`. The empty path is this node.
    pub fn find<'a>(&'a self, path: &str) -> Option<&'a Node> {
        self.below(found(self.tables.find_from(self.row, path))?)
    }

    /// Whether the node has a property.
    pub fn has_prop(&self, name: &str) -> bool {
        let a = self.tables.has_prop(self.row, name);
        match a[0] {
            0 => true,
            11 => false,
            _ => ffi::stray("has_prop", &a),
        }
    }

    /// A property's value as text: without its last byte, which has to be 0.
    pub fn prop_str<'a>(&'a self, name: &str) -> Result<&'a str, PropError> {
        let a = self.tables.prop_str(self.row, name);
        match a[0] {
            0 => Ok(str::from_utf8(self.tables.part(&a))?),
            _ => Err(withheld("prop_str", &a)),
        }
    }

    /// A property's value. The first property of a name counts.
    pub fn prop_raw<'a>(&'a self, name: &str) -> Option<&'a Vec<u8>> {
        let a = self.tables.prop_raw(self.row, name);
        match a[0] {
            0 => {
                let (key, value) = self.props.get(self.tables.prop_at(self.row, a[1])?)?;
                (key == name).then_some(value)
            }
            11 => None,
            _ => ffi::stray("prop_raw", &a),
        }
    }

    /// The number that a property's first 8 bytes are.
    pub fn prop_u64(&self, name: &str) -> Result<u64, PropError> {
        let a = self.tables.prop_u64(self.row, name);
        match a[0] {
            0 => Ok(a[1]),
            _ => Err(withheld("prop_u64", &a)),
        }
    }

    /// The number that a property's first 4 bytes are.
    pub fn prop_u32(&self, name: &str) -> Result<u32, PropError> {
        let a = self.tables.prop_u32(self.row, name);
        match a[0] {
            0 => Ok(a[1] as u32),
            _ => Err(withheld("prop_u32", &a)),
        }
    }
}

// As the original derives it: the public fields.
impl fmt::Debug for Node {
    fn fmt(&self, f: &mut fmt::Formatter<'_>) -> fmt::Result {
        f.debug_struct("Node").field("name", &self.name).field("props", &self.props).field("children", &self.children).finish()
    }
}
