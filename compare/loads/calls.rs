// The static library's calls as C has them: a slice goes as a pointer and a count of its elements.
#[rustfmt::skip]
extern "C" {
    pub fn dangrisuk_load(
        blob: *const u8, blob_len: usize, reserved: *mut u64, reserved_len: usize, nodes: *mut u32, nodes_len: usize,
        props: *mut u32, props_len: usize, answer: *mut u64, answer_len: usize,
    );
    pub fn dangrisuk_measure(blob: *const u8, blob_len: usize, answer: *mut u64, answer_len: usize);
    pub fn dangrisuk_find(
        blob: *const u8, blob_len: usize, nodes: *const u32, nodes_len: usize, node_count: usize,
        path: *const u8, path_len: usize, answer: *mut u64, answer_len: usize,
    );
    pub fn dangrisuk_find_from(
        blob: *const u8, blob_len: usize, nodes: *const u32, nodes_len: usize, node_count: usize, row: usize,
        path: *const u8, path_len: usize, answer: *mut u64, answer_len: usize,
    );
}

// The property calls all take the same.
#[rustfmt::skip]
pub type Property = unsafe extern "C" fn(
    *const u8, usize, *const u32, usize, usize, *const u32, usize, usize, usize, *const u8, usize, *mut u64, usize,
);

macro_rules! property_calls {
    ($($call:ident)*) => {
        extern "C" {
            $(pub fn $call(
                blob: *const u8, blob_len: usize, nodes: *const u32, nodes_len: usize, node_count: usize,
                props: *const u32, props_len: usize, prop_count: usize, row: usize,
                name: *const u8, name_len: usize, answer: *mut u64, answer_len: usize,
            );)*
        }
        pub const PROPERTIES: [Property; 5] = [$($call),*];
    };
}

property_calls! { dangrisuk_has_prop dangrisuk_prop_raw dangrisuk_prop_str dangrisuk_prop_u32 dangrisuk_prop_u64 }
