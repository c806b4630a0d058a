// util's readers at their limits. Where the original panics a reader here answers UnexpectedEndOfInput, and `align`, which has no
// error, panics in every build.
use device_tree::util::{align, SliceRead, SliceReadError, SliceReadResult};
use std::panic::catch_unwind;

// A buffer of its own for each length, so that a read past it can be seen.
fn buffer(len: usize) -> Vec<u8> {
    (1..=len as u8).collect()
}

fn end<T: std::fmt::Debug>(r: SliceReadResult<T>) -> bool {
    matches!(r, Err(SliceReadError::UnexpectedEndOfInput))
}

#[test]
fn aligned() {
    for (val, to, due) in [(0, 4, 0), (1, 4, 4), (4, 4, 4), (5, 4, 8), (5, 1, 5), (7, 3, 9), (1, 100, 100), (6, 5, 10)] {
        assert_eq!(align(val, to), due);
    }
    assert_eq!(align(usize::MAX - 3, 4), usize::MAX - 3);
    assert_eq!(align(usize::MAX, 1), usize::MAX);
    assert_eq!(align(1, usize::MAX), usize::MAX);
}

#[test]
fn align_panics_where_there_is_no_multiple() {
    for (val, to) in [(5, 0), (0, 0), (usize::MAX, 4), (usize::MAX - 2, 4), (usize::MAX, 2), (usize::MAX, usize::MAX - 1)] {
        assert!(catch_unwind(|| align(val, to)).is_err(), "align({val}, {to})");
    }
}

#[test]
fn numbers() {
    for len in 0..20 {
        let buffer = buffer(len);
        let b = buffer.as_slice();
        for pos in (0..24).chain(usize::MAX - 9..=usize::MAX) {
            match pos.checked_add(4) {
                Some(to) if to <= len => {
                    assert_eq!(b.read_be_u32(pos).unwrap(), u32::from_be_bytes(b[pos..to].try_into().unwrap()))
                }
                _ => assert!(end(b.read_be_u32(pos)), "u32 at {pos} of {len}"),
            }
            match pos.checked_add(8) {
                Some(to) if to <= len => {
                    assert_eq!(b.read_be_u64(pos).unwrap(), u64::from_be_bytes(b[pos..to].try_into().unwrap()))
                }
                _ => assert!(end(b.read_be_u64(pos)), "u64 at {pos} of {len}"),
            }
        }
    }
    let ones: &[u8] = &[0xff; 8];
    assert_eq!((ones.read_be_u32(4).unwrap(), ones.read_be_u64(0).unwrap()), (u32::MAX, u64::MAX));
}

#[test]
fn strings() {
    let b: &[u8] = b"ab\0\0c";
    for (pos, due) in [(0, "ab"), (1, "b"), (2, ""), (3, "")] {
        assert_eq!(b.read_bstring0(pos).unwrap(), due.as_bytes());
        assert!(std::ptr::eq(b.read_bstring0(pos).unwrap(), &b[pos..pos + due.len()]));
    }
    for pos in [4, 5, 6, usize::MAX - 1, usize::MAX] {
        assert!(end(b.read_bstring0(pos)), "at {pos}");
    }
    let none: &[u8] = &[];
    assert!(end(none.read_bstring0(0)));
}

#[test]
fn parts() {
    for len in 0..9 {
        let buffer = buffer(len);
        let b = buffer.as_slice();
        for start in (0..11).chain([usize::MAX - 1, usize::MAX]) {
            for to in (0..11).chain([usize::MAX - 1, usize::MAX]) {
                if start <= to && to < len {
                    assert!(std::ptr::eq(b.subslice(start, to).unwrap(), &b[start..to]));
                } else {
                    assert!(end(b.subslice(start, to)), "{start} to {to} of {len}");
                }
            }
        }
    }
}

// The trait can be implemented for other types, as the original's can.
#[test]
fn own_readers() {
    struct Twice<'a>(&'a [u8]);
    impl SliceRead for Twice<'_> {
        fn read_be_u32(&self, pos: usize) -> SliceReadResult<u32> {
            self.0.read_be_u32(2 * pos)
        }
        fn read_be_u64(&self, pos: usize) -> SliceReadResult<u64> {
            self.0.read_be_u64(2 * pos)
        }
        fn read_bstring0(&self, pos: usize) -> SliceReadResult<&[u8]> {
            self.0.read_bstring0(2 * pos)
        }
        fn subslice(&self, start: usize, len: usize) -> SliceReadResult<&[u8]> {
            self.0.subslice(2 * start, 2 * len)
        }
    }
    assert_eq!(Twice(&buffer(8)).read_be_u32(2).unwrap(), 0x05060708);
}
