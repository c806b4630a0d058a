//! Document 01's lookups on lent rows, in plain loops: a second opinion beside
//! the proved lookups. The rows, the counts and the starting row may be
//! anything at all; every call ends with one of document 01's answers. Quoted
//! comments are document 01's own words, from "Finding a node and a property"
//! where no other section is named.

use crate::answer::{Answer, Lookups};
use crate::scope::NONE;

/// A blob with a node table and a property table lent to a lookup, and the
/// counts of rows that the caller says they hold.
pub struct Lent<'a> {
    pub b: &'a [u8],
    pub nodes: &'a [u32],
    pub node_count: usize,
    pub props: &'a [u32],
    pub prop_count: usize,
}

// "When the reader says no": the refusals a lookup can give.
const NOT_UTF8: u64 = 5;
const NOTHING_FOUND: u64 = 11;
const MISSING_0: u64 = 12;
const TOO_SHORT: u64 = 13;
const NOT_USABLE: u64 = 15;

// "What a load writes": "Node row, 7 numbers of 32 bits: name offset, name
// length, parent, first child, next sibling, first property row, property
// count." The parent is never read here.
const NODE_WIDTH: usize = 7;
const FIRST_CHILD: usize = 3;
const NEXT_SIBLING: usize = 4;
const FIRST_PROPERTY: usize = 5;
const PROPERTY_COUNT: usize = 6;

// "What a load writes": "Property row, 4 numbers of 32 bits: name offset, name
// length, value offset, value length".
const PROP_WIDTH: usize = 4;

/// What was looked for, or the number of the refusal.
type Found<T> = Result<T, u64>;

/// A part of the blob: its offset and its bytes.
type Part<'a> = (u64, &'a [u8]);

/// The two links of a node row that kept their rule.
struct Links {
    child: Option<usize>,
    sibling: Option<usize>,
}

impl Lookups for Lent<'_> {
    fn find(&self, path: &[u8]) -> Answer {
        row_answer(self.tree_path(path))
    }

    fn find_from(&self, start: usize, path: &[u8]) -> Answer {
        row_answer(self.node_path(start, path))
    }

    fn properties(&self, start: usize, name: &[u8]) -> [Answer; 5] {
        let value = self.value(start, name);
        [
            has_answer(&value),
            part_answer(value),
            part_answer(value.and_then(text)),
            number_answer(value, 4),
            number_answer(value, 8),
        ]
    }
}

impl<'a> Lent<'a> {
    fn tree_path(&self, path: &[u8]) -> Found<usize> {
        // "a starting row, 0 for a tree path"; the counts and the starting row
        // are judged "before the path is looked at".
        self.judge_nodes(0)?;
        // "Then a tree path without its `/` gives 11, and only then is the
        // starting row reached." "the leading `/` is dropped."
        match path.split_first() {
            Some((b'/', rest)) => self.walk(0, rest),
            _ => Err(NOTHING_FOUND),
        }
    }

    fn node_path(&self, start: usize, path: &[u8]) -> Found<usize> {
        self.judge_nodes(start)?;
        self.walk(start, path)
    }

    /// "15 is given exactly when: such a count exceeds its capacity, or the
    /// starting row is not below the node count". "A path lookup reads the node
    /// table", so the property count is not judged here.
    fn judge_nodes(&self, start: usize) -> Found<()> {
        // "What a load writes": "A table's capacity is its length divided by
        // 2, 7 or 4, rounded down."
        let fits = self.node_count <= self.nodes.len() / NODE_WIDTH;
        usable(fits && start < self.node_count)
    }

    /// The path from a starting row that is below the node count.
    fn walk(&self, start: usize, path: &[u8]) -> Found<usize> {
        // "A path lookup reaches the starting row, and each child in turn up to
        // and with the first match." "but for the starting row", the name too
        // is judged: so of this row only the links.
        let mut links = self.links(start)?;
        let mut row = start;
        let mut left = path;
        // "From a node, the empty path is that node. Otherwise the text before
        // the first `/` names the first child with exactly those bytes, and the
        // rest is looked up from it, with no return to a later child of that
        // name."
        while !left.is_empty() {
            let (name, rest) = split_at_slash(left);
            (row, links) = self.child_named(links.child, name)?;
            left = rest;
        }
        Ok(row)
    }

    /// The first row of that name among `first` and the siblings after it.
    fn child_named(&self, first: Option<usize>, name: &[u8]) -> Found<(usize, Links)> {
        let mut next = first;
        while let Some(row) = next {
            // A row reached is judged "before comparing".
            let links = self.links(row)?;
            let fields = self.node(row);
            // "its name lies in the blob"
            let (_, own_name) = self.part(fields[0], fields[1])?;
            // "Names are compared whole, unit address included."
            if own_name == name {
                return Ok((row, links));
            }
            // The rule of links makes this a greater row, so the loop ends.
            next = links.sibling;
        }
        Err(NOTHING_FOUND)
    }

    /// "It judges both links of a row reached".
    fn links(&self, row: usize) -> Found<Links> {
        let fields = self.node(row);
        let child = self.link(row, fields[FIRST_CHILD])?;
        let sibling = self.link(row, fields[NEXT_SIBLING])?;
        Ok(Links { child, sibling })
    }

    /// "none, or greater than that row and below the count". "What a load
    /// writes": "\"None\" is 4294967295."
    fn link(&self, row: usize, to: u32) -> Found<Option<usize>> {
        if u64::from(to) == NONE {
            return Ok(None);
        }
        let to = to as usize;
        usable(row < to && to < self.node_count)?;
        Ok(Some(to))
    }

    /// The value of the first property of that name: what `prop_raw` finds.
    fn value(&self, start: usize, name: &[u8]) -> Found<Part<'a>> {
        // "a property lookup reads both", so both counts are judged.
        self.judge_nodes(start)?;
        usable(self.prop_count <= self.props.len() / PROP_WIDTH)?;
        // "A property lookup judges of its node only that first property plus
        // count is within the property count."
        let first = u64::from(self.node(start)[FIRST_PROPERTY]);
        let end = first + u64::from(self.node(start)[PROPERTY_COUNT]);
        usable(end <= self.prop_count as u64)?;
        // "It reaches that node's property rows in turn up to and with the
        // first match". "The first property of a name counts."
        for row in first as usize..end as usize {
            let fields = &self.props[row * PROP_WIDTH..][..PROP_WIDTH];
            // "and judges that name and value lie in the blob, before comparing"
            let (_, own_name) = self.part(fields[0], fields[1])?;
            let value = self.part(fields[2], fields[3])?;
            if own_name == name {
                return Ok(value);
            }
        }
        Err(NOTHING_FOUND)
    }

    /// The seven numbers of a row that is below a node count within capacity.
    fn node(&self, row: usize) -> &'a [u32] {
        &self.nodes[row * NODE_WIDTH..][..NODE_WIDTH]
    }

    /// "lies in the blob (offset plus length at most its length)". "What a load
    /// writes": "Offsets count from the start of the blob."
    fn part(&self, offset: u32, length: u32) -> Found<Part<'a>> {
        let end = u64::from(offset) + u64::from(length);
        usable(end <= self.b.len() as u64)?;
        Ok((u64::from(offset), &self.b[offset as usize..end as usize]))
    }
}

/// "15 is given exactly when: ... a row reached breaks a rule."
fn usable(kept: bool) -> Found<()> {
    if kept {
        Ok(())
    } else {
        Err(NOT_USABLE)
    }
}

/// "the text before the first `/`" and "the rest", which is empty where there
/// is no `/`.
fn split_at_slash(path: &[u8]) -> (&[u8], &[u8]) {
    match path.iter().position(|&byte| byte == b'/') {
        Some(at) => (&path[..at], &path[at + 1..]),
        None => (path, &[]),
    }
}

/// "`prop_str` needs a last byte 0 (12), then UTF-8 before it (5), and hands
/// back the part before it; inner zeros pass." An empty value has no last byte.
fn text((offset, value): Part<'_>) -> Found<Part<'_>> {
    let Some((0, before)) = value.split_last() else {
        return Err(MISSING_0);
    };
    // "Order of the port": "the Rust calls `core::str::from_utf8`."
    match core::str::from_utf8(before) {
        Ok(_) => Ok((offset, before)),
        Err(_) => Err(NOT_UTF8),
    }
}

/// "`prop_u32` and `prop_u64` read the first 4 or 8 bytes of longer values."
/// 13 is "value shorter than 4 or 8". The document's opening: "All integers in
/// a blob are big-endian."
fn number_answer(value: Found<Part<'_>>, width: usize) -> Answer {
    let bytes = match value {
        Ok((_, value)) => value.get(..width).ok_or(TOO_SHORT),
        Err(number) => Err(number),
    };
    match bytes {
        Ok(bytes) => vec![
            0,
            bytes.iter().fold(0, |n, &byte| (n << 8) | u64::from(byte)),
        ],
        Err(number) => vec![number],
    }
}

/// "`has_prop` says yes where it does, no where it gives 11": yes is 0, no is
/// 11, and a 15 stays one.
fn has_answer(value: &Found<Part<'_>>) -> Answer {
    match value {
        Ok(_) => vec![0],
        Err(number) => vec![*number],
    }
}

/// "`prop_raw` hands back that very part of the caller's blob". "What must
/// change shape": "it carries offset and length".
fn part_answer(part: Found<Part<'_>>) -> Answer {
    match part {
        Ok((offset, bytes)) => vec![0, offset, bytes.len() as u64],
        Err(number) => vec![number],
    }
}

/// A path lookup's answer: 0 and the row, or the refusal.
fn row_answer(row: Found<usize>) -> Answer {
    match row {
        Ok(row) => vec![0, row as u64],
        Err(number) => vec![number],
    }
}
