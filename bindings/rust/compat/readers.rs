// The readers, on slices and on a type of the program's own.
extern crate device_tree;

use device_tree::util::{align, SliceRead, SliceReadError, SliceReadResult};

struct File(Vec<u8>);

impl SliceRead for File {
    fn read_be_u32(&self, pos: usize) -> SliceReadResult<u32> {
        self.0.as_slice().read_be_u32(pos)
    }
    fn read_be_u64(&self, pos: usize) -> SliceReadResult<u64> {
        (&self.0[..]).read_be_u64(pos)
    }
    fn read_bstring0(&self, pos: usize) -> SliceReadResult<&[u8]> {
        self.0[..].iter().skip(pos).position(|b| *b == 0).map(|n| &self.0[pos..pos + n]).ok_or(SliceReadError::UnexpectedEndOfInput)
    }
    fn subslice(&self, start: usize, len: usize) -> SliceReadResult<&[u8]> {
        if len < self.0.len() {
            Ok(&self.0[start..len])
        } else {
            Err(SliceReadError::UnexpectedEndOfInput)
        }
    }
}

fn sum<R: SliceRead>(r: &R, to: usize) -> u64 {
    (0..to).map(|pos| r.read_be_u64(pos).unwrap_or(1).wrapping_add(r.read_be_u32(pos).unwrap_or(2) as u64)).fold(0, u64::wrapping_add)
}

fn main() {
    let b = std::fs::read(std::env::args().nth(1).unwrap()).unwrap();
    let slice = b.as_slice();
    for pos in (0..200).chain(slice.len() - 20..slice.len() + 20) {
        println!("{:?} {:?}", slice.read_be_u32(pos), slice.read_be_u64(pos));
        println!("{:?} {:?}", slice.read_bstring0(pos), slice.subslice(pos, pos + 5));
        println!("{} {}", align(pos, 4), align(pos, 7));
    }
    let file = File(b.clone());
    println!("{} {}", sum(&slice, slice.len()), sum(&file, slice.len() + 9));
    println!("{:?} {:?}", file.read_bstring0(0), file.subslice(0, 4));
}
