//! The static library's calls as safe functions on slices. Nothing else in this crate is unsafe.
//!
//! A slice goes as a pointer and a count of its elements. Every call is total: it takes any bytes, numbers and tables, reads and
//! writes nothing outside the slices that it is lent, keeps none of them, and does not unwind.
#![allow(unsafe_code)]
#![deny(unsafe_op_in_unsafe_fn, clippy::undocumented_unsafe_blocks)]

/// An answer's number and then what it carries; the places that a call has no use for are 0.
pub(crate) type Answer = [u64; 6];

const BEFORE: Answer = [0; 6];

#[rustfmt::skip]
extern "C" {
    fn dangrisuk_measure(blob: *const u8, blob_len: usize, answer: *mut u64, answer_len: usize);
    fn dangrisuk_load(
        blob: *const u8, blob_len: usize, reserved: *mut u64, reserved_len: usize, nodes: *mut u32, nodes_len: usize,
        props: *mut u32, props_len: usize, answer: *mut u64, answer_len: usize,
    );
    fn dangrisuk_find(
        blob: *const u8, blob_len: usize, nodes: *const u32, nodes_len: usize, node_count: usize,
        path: *const u8, path_len: usize, answer: *mut u64, answer_len: usize,
    );
    fn dangrisuk_find_from(
        blob: *const u8, blob_len: usize, nodes: *const u32, nodes_len: usize, node_count: usize, row: usize,
        path: *const u8, path_len: usize, answer: *mut u64, answer_len: usize,
    );
    fn dangrisuk_has_prop(
        blob: *const u8, blob_len: usize, nodes: *const u32, nodes_len: usize, node_count: usize,
        props: *const u32, props_len: usize, prop_count: usize, row: usize,
        name: *const u8, name_len: usize, answer: *mut u64, answer_len: usize,
    );
    fn dangrisuk_prop_raw(
        blob: *const u8, blob_len: usize, nodes: *const u32, nodes_len: usize, node_count: usize,
        props: *const u32, props_len: usize, prop_count: usize, row: usize,
        name: *const u8, name_len: usize, answer: *mut u64, answer_len: usize,
    );
    fn dangrisuk_prop_str(
        blob: *const u8, blob_len: usize, nodes: *const u32, nodes_len: usize, node_count: usize,
        props: *const u32, props_len: usize, prop_count: usize, row: usize,
        name: *const u8, name_len: usize, answer: *mut u64, answer_len: usize,
    );
    fn dangrisuk_prop_u32(
        blob: *const u8, blob_len: usize, nodes: *const u32, nodes_len: usize, node_count: usize,
        props: *const u32, props_len: usize, prop_count: usize, row: usize,
        name: *const u8, name_len: usize, answer: *mut u64, answer_len: usize,
    );
    fn dangrisuk_prop_u64(
        blob: *const u8, blob_len: usize, nodes: *const u32, nodes_len: usize, node_count: usize,
        props: *const u32, props_len: usize, prop_count: usize, row: usize,
        name: *const u8, name_len: usize, answer: *mut u64, answer_len: usize,
    );
    fn dangrisuk_align(val: usize, to: usize, answer: *mut u64, answer_len: usize);
    fn dangrisuk_read_be_u32(buf: *const u8, buf_len: usize, pos: usize, answer: *mut u64, answer_len: usize);
    fn dangrisuk_read_be_u64(buf: *const u8, buf_len: usize, pos: usize, answer: *mut u64, answer_len: usize);
    fn dangrisuk_read_bstring0(buf: *const u8, buf_len: usize, pos: usize, answer: *mut u64, answer_len: usize);
    fn dangrisuk_subslice(
        buf: *const u8, buf_len: usize, start: usize, end: usize, answer: *mut u64, answer_len: usize,
    );
}

/// What the tables of a load would hold: 0, version, boot CPU, counts of reservation, node and property rows; or 1 to 7.
pub(crate) fn measure(blob: &[u8]) -> Answer {
    let mut a = BEFORE;
    // SAFETY: both pointers come with the count of their own slice; the answer is borrowed by this call alone.
    unsafe { dangrisuk_measure(blob.as_ptr(), blob.len(), a.as_mut_ptr(), a.len()) };
    a
}

/// The rows of a blob into lent tables: as `measure`, or 8, 9, 10 where a table has too few places. A refusal writes no row.
pub(crate) fn load(blob: &[u8], reserved: &mut [[u64; 2]], nodes: &mut [[u32; 7]], props: &mut [[u32; 4]]) -> Answer {
    let (reserved, nodes, props) = (reserved.as_flattened_mut(), nodes.as_flattened_mut(), props.as_flattened_mut());
    let mut a = BEFORE;
    // SAFETY: each pointer comes with the count of its own slice. The tables and the answer are borrowed mutably, so no two of
    // the five slices overlap; all are filled, and any bits are a number.
    unsafe {
        dangrisuk_load(
            blob.as_ptr(),
            blob.len(),
            reserved.as_mut_ptr(),
            reserved.len(),
            nodes.as_mut_ptr(),
            nodes.len(),
            props.as_mut_ptr(),
            props.len(),
            a.as_mut_ptr(),
            a.len(),
        )
    };
    a
}

/// A tree path: 0 and the row, or 11.
pub(crate) fn find(blob: &[u8], nodes: &[[u32; 7]], path: &[u8]) -> Answer {
    let (table, mut a) = (nodes.as_flattened(), BEFORE);
    // SAFETY: each pointer comes with the count of its own slice; the answer is borrowed by this call alone. The count of rows
    // may be any number: the library judges it.
    unsafe {
        dangrisuk_find(
            blob.as_ptr(),
            blob.len(),
            table.as_ptr(),
            table.len(),
            nodes.len(),
            path.as_ptr(),
            path.len(),
            a.as_mut_ptr(),
            a.len(),
        )
    };
    a
}

/// A path from a row: 0 and the row, or 11.
pub(crate) fn find_from(blob: &[u8], nodes: &[[u32; 7]], row: usize, path: &[u8]) -> Answer {
    let (table, mut a) = (nodes.as_flattened(), BEFORE);
    // SAFETY: as in `find`. The row may be any number: the library judges it.
    unsafe {
        dangrisuk_find_from(
            blob.as_ptr(),
            blob.len(),
            table.as_ptr(),
            table.len(),
            nodes.len(),
            row,
            path.as_ptr(),
            path.len(),
            a.as_mut_ptr(),
            a.len(),
        )
    };
    a
}

// The property calls all take the same.
macro_rules! property_calls {
    ($($(#[$says:meta])* $name:ident by $call:ident;)*) => {$(
        $(#[$says])*
        pub(crate) fn $name(blob: &[u8], nodes: &[[u32; 7]], props: &[[u32; 4]], row: usize, name: &[u8]) -> Answer {
            let (node_table, prop_table, mut a) = (nodes.as_flattened(), props.as_flattened(), BEFORE);
            // SAFETY: each pointer comes with the count of its own slice; the answer is borrowed by this call alone. The counts
            // of rows and the row may be any numbers: the library judges them.
            unsafe {
                $call(
                    blob.as_ptr(),
                    blob.len(),
                    node_table.as_ptr(),
                    node_table.len(),
                    nodes.len(),
                    prop_table.as_ptr(),
                    prop_table.len(),
                    props.len(),
                    row,
                    name.as_ptr(),
                    name.len(),
                    a.as_mut_ptr(),
                    a.len(),
                )
            };
            a
        }
    )*};
}

property_calls! {
    /// Whether the row has a property: 0, or 11.
    has_prop by dangrisuk_has_prop;
    /// Where its value lies: 0, offset and length, or 11.
    prop_raw by dangrisuk_prop_raw;
    /// Where its text lies: 0, offset and length, or 5, 11, 12.
    prop_str by dangrisuk_prop_str;
    /// Its first 4 bytes: 0 and the number, or 11, 13.
    prop_u32 by dangrisuk_prop_u32;
    /// Its first 8 bytes: 0 and the number, or 11, 13.
    prop_u64 by dangrisuk_prop_u64;
}

/// A multiple of `to`: 0 and the number, or 3.
pub(crate) fn align(val: usize, to: usize) -> Answer {
    let mut a = BEFORE;
    // SAFETY: the answer's pointer comes with its count and is borrowed by this call alone.
    unsafe { dangrisuk_align(val, to, a.as_mut_ptr(), a.len()) };
    a
}

/// 4 bytes at a position: 0 and the number, or 3.
pub(crate) fn read_be_u32(buf: &[u8], pos: usize) -> Answer {
    let mut a = BEFORE;
    // SAFETY: both pointers come with the count of their own slice; the answer is borrowed by this call alone. The position may
    // be any number: the library judges it.
    unsafe { dangrisuk_read_be_u32(buf.as_ptr(), buf.len(), pos, a.as_mut_ptr(), a.len()) };
    a
}

/// 8 bytes at a position: 0 and the number, or 3.
pub(crate) fn read_be_u64(buf: &[u8], pos: usize) -> Answer {
    let mut a = BEFORE;
    // SAFETY: as in `read_be_u32`.
    unsafe { dangrisuk_read_be_u64(buf.as_ptr(), buf.len(), pos, a.as_mut_ptr(), a.len()) };
    a
}

/// The part from a position to the first zero byte: 0, offset and length, or 3.
pub(crate) fn read_bstring0(buf: &[u8], pos: usize) -> Answer {
    let mut a = BEFORE;
    // SAFETY: as in `read_be_u32`.
    unsafe { dangrisuk_read_bstring0(buf.as_ptr(), buf.len(), pos, a.as_mut_ptr(), a.len()) };
    a
}

/// The part between two positions: 0, offset and length, or 3.
pub(crate) fn subslice(buf: &[u8], start: usize, end: usize) -> Answer {
    let mut a = BEFORE;
    // SAFETY: as in `read_be_u32`, of both positions.
    unsafe { dangrisuk_subslice(buf.as_ptr(), buf.len(), start, end, a.as_mut_ptr(), a.len()) };
    a
}

/// The part that an answer tells by offset and length.
pub(crate) fn part<'a>(buf: &'a [u8], a: &Answer) -> &'a [u8] {
    &buf[a[1] as usize..][..a[2] as usize]
}

/// A number that the call never answers: the archive is not this crate's.
#[cold]
pub(crate) fn stray(call: &str, a: &Answer) -> ! {
    panic!("libcapi.a answered {} to {call}: it is not the archive of this crate", a[0])
}
