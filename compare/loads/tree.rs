// The original's lookups in a tree that it loaded, as document 01's numbers.
use crate::answer::{Answer, Lookups};
use crate::original::{given, Loaded};
use device_tree::util::SliceReadError;
use device_tree::{Node, PropError};

pub struct Tree<'a> {
    b: &'a [u8],
    loaded: &'a Loaded,
    // In the order of opening tokens: a node's place here is its row.
    nodes: Vec<&'a Node>,
}

fn gather<'a>(node: &'a Node, to: &mut Vec<&'a Node>) {
    to.push(node);
    node.children.iter().for_each(|child| gather(child, to));
}

// "One that isn't UTF-8 finds nothing": the original can't be asked for it.
fn utf8(text: &[u8]) -> Result<&str, Answer> {
    std::str::from_utf8(text).map_err(|_| vec![11])
}

fn refusal(why: PropError) -> Answer {
    match why {
        PropError::NotFound => vec![11],
        PropError::Missing0 => vec![12],
        PropError::Utf8Error => vec![5],
        PropError::SliceReadError(SliceReadError::UnexpectedEndOfInput) => vec![13],
    }
}

impl<'a> Tree<'a> {
    pub fn of(loaded: &'a Loaded, b: &'a [u8]) -> Tree<'a> {
        let mut nodes = Vec::new();
        gather(&loaded.tree.root, &mut nodes);
        Tree { b, loaded, nodes }
    }

    // The row of a node that the original found, by its address.
    fn row(&self, found: Option<&Node>) -> Result<Answer, Answer> {
        let node = found.ok_or(vec![11])?;
        let row = self.nodes.iter().position(|one| std::ptr::eq(*one, node));
        Ok(vec![0, row.expect("a node of the tree") as u64])
    }

    // The value of a name, and its offset in the blob. The original keeps none: it is the property row's.
    fn value(&self, row: usize, name: &str) -> Result<(u64, &'a [u8]), Answer> {
        let node = self.nodes[row];
        let value = given(|| node.prop_raw(name))?.ok_or(vec![11])?;
        let place = node.props.iter().position(|(_, one)| std::ptr::eq(one, value)).expect("a value of the node");
        let [_, _, offset, length] = self.loaded.rows.props[self.loaded.rows.nodes[row][5] as usize + place];
        assert_eq!(value[..], self.b[offset as usize..(offset + length) as usize]);
        Ok((offset, value))
    }

    fn raw(&self, row: usize, name: &str) -> Result<Answer, Answer> {
        let (offset, value) = self.value(row, name)?;
        Ok(vec![0, offset, value.len() as u64])
    }

    // A string is a part of its value: its offset follows from both addresses.
    fn string(&self, row: usize, name: &str) -> Result<Answer, Answer> {
        let text = given(|| self.nodes[row].prop_str(name))?.map_err(refusal)?;
        let (offset, value) = self.value(row, name)?;
        let before = text.as_ptr() as usize - value.as_ptr() as usize;
        Ok(vec![0, offset + before as u64, text.len() as u64])
    }

    fn has(&self, row: usize, name: &str) -> Result<Answer, Answer> {
        Ok(vec![if given(|| self.nodes[row].has_prop(name))? { 0 } else { 11 }])
    }

    fn u32(&self, row: usize, name: &str) -> Result<Answer, Answer> {
        Ok(vec![0, given(|| self.nodes[row].prop_u32(name))?.map_err(refusal)? as u64])
    }

    fn u64(&self, row: usize, name: &str) -> Result<Answer, Answer> {
        Ok(vec![0, given(|| self.nodes[row].prop_u64(name))?.map_err(refusal)?])
    }
}

fn either(answer: Result<Answer, Answer>) -> Answer {
    answer.unwrap_or_else(|why| why)
}

impl Lookups for Tree<'_> {
    fn find(&self, path: &[u8]) -> Answer {
        either(utf8(path).and_then(|path| self.row(given(|| self.loaded.tree.find(path))?)))
    }

    fn find_from(&self, row: usize, path: &[u8]) -> Answer {
        either(utf8(path).and_then(|path| self.row(given(|| self.nodes[row].find(path))?)))
    }

    fn properties(&self, row: usize, name: &[u8]) -> [Answer; 5] {
        let calls = [Self::has, Self::raw, Self::string, Self::u32, Self::u64];
        calls.map(|call| either(utf8(name).and_then(|name| call(self, row, name))))
    }
}
