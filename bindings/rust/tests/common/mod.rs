// Frame S and blobs made of words.
#![allow(dead_code)]
use device_tree::{DeviceTree, DeviceTreeError};

// S, 102 bytes: a root with a property `u` of 42 and a child `b`.
pub fn s() -> Vec<u8> {
    #[rustfmt::skip]
    let words: [u32; 25] = [
        0xd00dfeed, 0x66, 0x38, 0x64, 0x28, 0x11, 0x10, 0, 2, 0x2c,
        0, 0, 0, 0,
        1, 0, 3, 4, 0, 0x2a, 1, 0x62000000, 2, 2, 9,
    ];
    [bytes(&words), vec![0x75, 0]].concat()
}

pub fn bytes(words: &[u32]) -> Vec<u8> {
    words.iter().flat_map(|word| word.to_be_bytes()).collect()
}

// S with words changed.
pub fn with(words: &[(usize, u32)]) -> Vec<u8> {
    let mut blob = s();
    words.iter().for_each(|&(at, word)| blob[at..at + 4].copy_from_slice(&word.to_be_bytes()));
    blob
}

// A blob that says its own length: header, one reservation (0, 0), the structure block from byte 56 on, then the strings.
pub fn blob(structure: &[u8], strings: &[u8]) -> Vec<u8> {
    let at = 56 + structure.len() as u32;
    let header = [0xd00dfeed, at + strings.len() as u32, 56, at, 40, 17, 16, 0, 0, 0, 0, 0, 0, 0];
    [&bytes(&header), structure, strings].concat()
}

// A load's error as the original prints it, or "loaded".
pub fn said(blob: &[u8]) -> String {
    match DeviceTree::load(blob) {
        Ok(_) => "loaded".to_owned(),
        Err(why) => format!("{why:?}"),
    }
}

pub fn loaded(blob: &[u8]) -> DeviceTree {
    DeviceTree::load(blob).expect("a good blob")
}

pub fn refused(blob: &[u8]) -> DeviceTreeError {
    DeviceTree::load(blob).expect_err("a bad blob")
}

pub const END_OF_INPUT: &str = "SliceReadError(UnexpectedEndOfInput)";
