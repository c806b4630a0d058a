// The answers of the lookups, whoever gives them.

// A number of document 01, then what it carries.
pub type Answer = Vec<u64>;

pub trait Lookups {
    // From the tree, by a path with its `/`.
    fn find(&self, path: &[u8]) -> Answer;

    // From the node of a row.
    fn find_from(&self, row: usize, path: &[u8]) -> Answer;

    // has_prop, prop_raw, prop_str, prop_u32 and prop_u64 of the node of a row.
    fn properties(&self, row: usize, name: &[u8]) -> [Answer; 5];
}
