//! The readers: numbers, strings and parts at a position of a byte slice.
pub use core::{convert, fmt, option, result, str};

use crate::ffi;

/// Rounds `val` up to a multiple of `to`.
///
/// # Panics
///
/// If `to` is 0 or the multiple is past `usize::MAX`, in every build. (The original wraps in builds without overflow checks.)
///
/// ```
/// use device_tree::util::align;
/// assert_eq!((align(5, 4), align(8, 4)), (8, 8));
/// ```
#[inline]
pub fn align(val: usize, to: usize) -> usize {
    let a = ffi::align(val, to);
    match a[0] {
        0 => a[1] as usize,
        3 => panic!("no multiple of {to} from {val} on"),
        _ => ffi::stray("align", &a),
    }
}

/// Why a reader refuses.
#[derive(Debug)]
pub enum SliceReadError {
    /// What was asked for is not all inside the slice.
    UnexpectedEndOfInput,
}

pub type SliceReadResult<T> = Result<T, SliceReadError>;

/// Reading at positions of a byte slice. No position panics.
///
/// ```
/// use device_tree::util::SliceRead;
/// let bytes: &[u8] = &[0, 0, 0, 42, b'b', 0];
/// assert_eq!(bytes.read_be_u32(0).unwrap(), 42);
/// assert_eq!(bytes.read_bstring0(4).unwrap(), b"b");
/// assert!(bytes.subslice(4, 6).is_err()); // it would end at the last byte
/// ```
pub trait SliceRead {
    /// The big-endian number of the 4 bytes at `pos`.
    fn read_be_u32(&self, pos: usize) -> SliceReadResult<u32>;
    /// The big-endian number of the 8 bytes at `pos`.
    fn read_be_u64(&self, pos: usize) -> SliceReadResult<u64>;
    /// The bytes from `pos` up to, not with, the first zero byte.
    fn read_bstring0(&self, pos: usize) -> SliceReadResult<&[u8]>;
    /// The bytes from `start` up to, not with, `len`, which is an end. It must lie before the slice's end.
    fn subslice(&self, start: usize, len: usize) -> SliceReadResult<&[u8]>;
}

// What a reader answered, got out of the answer where it is 0.
fn read<T>(call: &str, a: ffi::Answer, got: impl FnOnce(&ffi::Answer) -> T) -> SliceReadResult<T> {
    match a[0] {
        0 => Ok(got(&a)),
        3 => Err(SliceReadError::UnexpectedEndOfInput),
        _ => ffi::stray(call, &a),
    }
}

impl SliceRead for &[u8] {
    fn read_be_u32(&self, pos: usize) -> SliceReadResult<u32> {
        read("read_be_u32", ffi::read_be_u32(self, pos), |a| a[1] as u32)
    }

    fn read_be_u64(&self, pos: usize) -> SliceReadResult<u64> {
        read("read_be_u64", ffi::read_be_u64(self, pos), |a| a[1])
    }

    fn read_bstring0(&self, pos: usize) -> SliceReadResult<&[u8]> {
        read("read_bstring0", ffi::read_bstring0(self, pos), |a| ffi::part(self, a))
    }

    fn subslice(&self, start: usize, end: usize) -> SliceReadResult<&[u8]> {
        read("subslice", ffi::subslice(self, start, end), |a| ffi::part(self, a))
    }
}
