// The original's answers as document 01's numbers and rows. 7 to 10 are not the original's: they come from its tree.
use crate::scope::{self, align, Refusal, Rows, DEPTH, NONE};
use device_tree::util::SliceReadError;
use device_tree::{DeviceTree, DeviceTreeError, Node};
use std::panic::{catch_unwind, set_hook, AssertUnwindSafe};

// A panic of the original is an answer; any other is said.
pub fn quiet() {
    set_hook(Box::new(|why| {
        if !why.location().map_or(false, |at| at.file().contains("device_tree")) {
            eprintln!("{why}");
        }
    }));
}

// What a call of the original gives. A panic, which no input is known to cause, has a number that nothing else has.
pub fn given<T>(call: impl FnOnce() -> T) -> Result<T, Refusal> {
    catch_unwind(AssertUnwindSafe(call)).map_err(|_| vec![99])
}

fn tree(b: &[u8]) -> Result<DeviceTree, Refusal> {
    given(|| DeviceTree::load(b))?.map_err(|why| match why {
        DeviceTreeError::InvalidMagicNumber => vec![1],
        DeviceTreeError::SizeMismatch => vec![2],
        DeviceTreeError::SliceReadError(SliceReadError::UnexpectedEndOfInput) => vec![3],
        DeviceTreeError::ParseError(pos) => vec![4, pos as u64],
        DeviceTreeError::Utf8Error => vec![5],
        DeviceTreeError::VersionNotSupported => vec![6],
    })
}

fn word(b: &[u8], pos: usize) -> usize {
    u32::from_be_bytes([b[pos], b[pos + 1], b[pos + 2], b[pos + 3]]) as usize
}

// The rows that the original's tree comes to. It keeps no positions: they follow from the lengths of names and values.
struct Laid<'a> {
    b: &'a [u8],
    rows: Rows,
}

impl<'a> Laid<'a> {
    // The rows of a node that stands at a position. Returns what follows it, or 7 and where the depth is passed.
    fn node(&mut self, node: &Node, pos: usize, depth: usize, parent: u64) -> Result<usize, Refusal> {
        if DEPTH < depth {
            return Err(vec![7, pos as u64]);
        }
        let (row, first) = (self.rows.nodes.len(), self.rows.props.len());
        self.rows.nodes.push([
            (pos + 4) as u64,
            node.name.len() as u64,
            parent,
            NONE,
            NONE,
            first as u64,
            node.props.len() as u64,
        ]);
        let mut at = align(pos + 4 + node.name.len() + 1);
        for (name, value) in &node.props {
            let from = word(self.b, 12) + word(self.b, at + 8);
            // The name and the value are those bytes of the blob.
            assert_eq!(name.as_bytes(), &self.b[from..from + name.len()]);
            assert_eq!(value[..], self.b[at + 12..at + 12 + value.len()]);
            self.rows.props.push([from as u64, name.len() as u64, (at + 12) as u64, value.len() as u64]);
            at = align(at + 12 + value.len());
        }
        let mut before = None;
        for child in &node.children {
            let next = self.rows.nodes.len();
            match before {
                None => self.rows.nodes[row][3] = next as u64,
                Some(sibling) => self.rows.nodes[sibling as usize][4] = next as u64,
            }
            before = Some(next);
            at = self.node(child, at, depth + 1, row as u64)?;
        }
        assert_eq!(node.name.as_bytes(), &self.b[pos + 4..pos + 4 + node.name.len()]);
        Ok(at + 4)
    }
}

// What the original loaded, and the rows that its tree comes to.
pub struct Loaded {
    pub tree: DeviceTree,
    pub rows: Rows,
}

// What is due, by the original, where there is room enough.
pub fn read(b: &[u8]) -> Result<Loaded, Refusal> {
    match tree(b) {
        Ok(tree) => {
            let mut laid = Laid { b, rows: Rows::default() };
            laid.rows.boot = tree.boot_cpuid_phys as u64;
            laid.rows.reserved = tree.reserved.iter().map(|(offset, size)| [*offset, *size]).collect();
            laid.node(&tree.root, word(b, 8), 1, NONE)?;
            Ok(Loaded { rows: laid.rows, tree })
        }
        // A refusal that the original meets below the depth is not ours: document 01's reading says whether it is.
        Err(why) => match scope::read(b, DEPTH) {
            Err(deep) if deep[0] == 7 && scope::read(b, usize::MAX).err() == Some(why.clone()) => Err(deep),
            _ => Err(why),
        },
    }
}
