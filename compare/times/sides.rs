// Who is timed: the original, the static library, libfdt, and a sum of the blob's bytes.
use crate::calls::{dangrisuk_find, dangrisuk_load, dangrisuk_measure};
use device_tree::{DeviceTree, Node};
use std::ffi::{c_char, c_int, CString};

extern "C" {
    fn fdt_check_full(blob: *const u8, blob_len: usize) -> c_int;
    fn fdt_path_offset(blob: *const u8, path: *const c_char) -> c_int;
}

// The floor: every byte is read once.
pub fn scan(b: &[u8]) -> u64 {
    b.iter().map(|byte| *byte as u64).sum()
}

pub fn original(b: &[u8]) -> DeviceTree {
    DeviceTree::load(b).ok().expect("the original loads it")
}

// The paths of a tree's nodes, in the order of the rows.
pub fn paths(node: &Node, above: &str, all: &mut Vec<String>) {
    for child in &node.children {
        let path = format!("{above}/{}", child.name);
        all.push(path.clone());
        paths(child, &path, all);
    }
}

pub fn measure(b: &[u8]) -> [u64; 6] {
    let mut answer = [0; 6];
    unsafe { dangrisuk_measure(b.as_ptr(), b.len(), answer.as_mut_ptr(), answer.len()) }
    answer
}

// Tables of exactly the room that a blob needs. A load allocates nothing.
pub struct Lent {
    reserved: Vec<u64>,
    pub nodes: Vec<u32>,
    props: Vec<u32>,
    count: usize,
}

impl Lent {
    pub fn to(b: &[u8]) -> Lent {
        let [number, _, _, reserved, nodes, props] = measure(b).map(|n| n as usize);
        assert_eq!(number, 0, "measure");
        Lent { reserved: vec![0; reserved * 2], nodes: vec![0; nodes * 7], props: vec![0; props * 4], count: nodes }
    }

    pub fn count(&self) -> usize {
        self.count
    }

    pub fn props(&self) -> usize {
        self.props.len() / 4
    }

    #[rustfmt::skip]
    pub fn load(&mut self, b: &[u8]) -> u64 {
        let (reserved, nodes, props) = (&mut self.reserved, &mut self.nodes, &mut self.props);
        let mut answer = [0u64; 6];
        unsafe {
            dangrisuk_load(
                b.as_ptr(), b.len(), reserved.as_mut_ptr(), reserved.len(), nodes.as_mut_ptr(), nodes.len(),
                props.as_mut_ptr(), props.len(), answer.as_mut_ptr(), answer.len(),
            )
        }
        answer[0]
    }

    #[rustfmt::skip]
    pub fn find(&self, b: &[u8], path: &str) -> Option<usize> {
        let mut answer = [0u64; 2];
        unsafe {
            dangrisuk_find(
                b.as_ptr(), b.len(), self.nodes.as_ptr(), self.nodes.len(), self.count(),
                path.as_ptr(), path.len(), answer.as_mut_ptr(), answer.len(),
            )
        }
        (answer[0] == 0).then_some(answer[1] as usize)
    }

    // The place and the bytes of a row's name.
    pub fn name<'a>(&self, b: &'a [u8], row: usize) -> (usize, &'a [u8]) {
        let [offset, length] = [self.nodes[row * 7], self.nodes[row * 7 + 1]].map(|n| n as usize);
        (offset, &b[offset..offset + length])
    }
}

// libfdt's whole check: 0 where it is content.
pub fn check_full(b: &[u8]) -> i32 {
    unsafe { fdt_check_full(b.as_ptr(), b.len()) }
}

// The offset of a node in the structure block, by libfdt, which takes a path that ends in a zero byte.
pub fn path_offset(b: &[u8], path: &CString) -> i32 {
    unsafe { fdt_path_offset(b.as_ptr(), path.as_ptr()) }
}
