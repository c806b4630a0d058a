// What is looked up in a blob that loads: the paths and names of its nodes and properties, and others close to them.
use crate::lookups::Asked;
use crate::random::Random;
use crate::scope::Rows;

fn part(b: &[u8], offset: u64, length: u64) -> &[u8] {
    &b[offset as usize..(offset + length) as usize]
}

// The path from a row above another down to it, by parents.
pub fn path(b: &[u8], rows: &Rows, above: usize, row: usize) -> Vec<u8> {
    let mut names = Vec::new();
    let mut at = row;
    while at != above {
        let [offset, length, parent, ..] = rows.nodes[at];
        names.push(part(b, offset, length));
        at = parent as usize;
    }
    // The empty path is the row itself, so that a `/` has to follow an empty name.
    let empty_last = names.first() == Some(&&b""[..]);
    names.reverse();
    let mut path = names.join(&b'/');
    path.extend(empty_last.then_some(b'/'));
    path
}

// The path of a row from the tree.
pub fn tree_path(b: &[u8], rows: &Rows, row: usize) -> Vec<u8> {
    [b"/", &path(b, rows, 0, row)[..]].concat()
}

// The name of a property row.
pub fn name<'a>(b: &'a [u8], rows: &Rows, prop: usize) -> &'a [u8] {
    part(b, rows.props[prop][0], rows.props[prop][1])
}

// Texts close to one: a byte or a `/` more or less, a byte changed, a first part.
pub fn close(text: &[u8]) -> Vec<Vec<u8>> {
    let mut all: Vec<Vec<u8>> =
        [&b"/"[..], b"//", b"x", b"/x", b"\0", b"\xff"].map(|end| [text, end].concat()).to_vec();
    all.extend([&b"/"[..], b"x"].map(|start| [start, text].concat()));
    let slashes = (0..text.len()).filter(|k| text[*k] == b'/').take(20);
    for k in slashes.chain([0, text.len() / 2, text.len().saturating_sub(1)]).filter(|k| *k < text.len()) {
        let (before, after) = (&text[..k], &text[k + 1..]);
        all.extend([
            before.to_vec(),
            text[..k + 1].to_vec(),
            text[k..].to_vec(),
            after.to_vec(),
            [before, after].concat(),
        ]);
        all.extend([&[text[k]; 2][..], &[text[k] ^ 1], b"/", b"\x80"].map(|middle| [before, middle, after].concat()));
    }
    all.sort();
    all.dedup();
    all
}

pub fn one_close(r: &mut Random, text: &[u8]) -> Vec<u8> {
    let mut all = close(text);
    all.swap_remove(r.below(all.len()))
}

// A path and a name, mostly of a property that is there, at times close to one; of at most so many bytes each.
pub fn some(r: &mut Random, b: &[u8], rows: &Rows, most: usize) -> Asked {
    let prop = r.below(rows.props.len());
    let owner = |[.., first, count]: &[u64; 7]| (*first..first + count).contains(&(prop as u64));
    let owner = rows.nodes.iter().position(owner).filter(|_| !r.once_in(4));
    let row = owner.unwrap_or_else(|| r.below(rows.nodes.len()));
    let name = if rows.props.is_empty() { b"" } else { name(b, rows, prop) };
    let [path, name] = [&tree_path(b, rows, row)[..], name].map(|text| {
        let mut text = if r.once_in(3) { one_close(r, text) } else { text.to_vec() };
        text.truncate(most);
        text
    });
    Asked { path, name }
}
