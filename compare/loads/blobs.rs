// Blobs to load: trees laid out in usual and unusual ways, and changed copies of them.

use crate::random::Random;
use crate::scope::DEPTH;

#[derive(Clone, Default)]
pub struct Node {
    pub name: Vec<u8>,
    pub props: Vec<(Vec<u8>, Vec<u8>)>,
    pub children: Vec<Node>,
}

pub fn node(name: &[u8], props: &[(&[u8], &[u8])], children: &[Node]) -> Node {
    Node {
        name: name.to_vec(),
        props: props.iter().map(|(name, value)| (name.to_vec(), value.to_vec())).collect(),
        children: children.to_vec(),
    }
}

// Nodes one inside another; the innermost has what is given.
pub fn chain(depth: usize, inner: Node) -> Node {
    (1..depth).fold(inner, |below, _| node(b"n", &[], &[below]))
}

// The same, each behind a node that holds nothing: deep only at its end.
pub fn comb(depth: usize, inner: Node) -> Node {
    (1..depth).fold(inner, |below, _| node(b"n", &[], &[node(b"a", &[], &[]), below]))
}

// Where the blocks stand and what fills the gaps.
#[derive(Clone)]
pub struct Layout {
    // Bytes before each of the three blocks, and after the last.
    pub gaps: [usize; 4],
    // The order of reservations, structure and strings.
    pub order: [usize; 3],
    // What padding and gaps hold.
    pub fill: u8,
    // Whether END follows the root.
    pub end: bool,
    // Property names counted from here instead of the strings block, where it is not past it.
    pub strings_from: Option<usize>,
    pub boot: u32,
}

impl Layout {
    pub const USUAL: Layout =
        Layout { gaps: [0; 4], order: [0, 1, 2], fill: 0, end: true, strings_from: None, boot: 0 };
}

pub fn put_word(b: &mut [u8], pos: usize, word: u32) {
    b[pos..pos + 4].copy_from_slice(&word.to_be_bytes());
}

// Says the blob's true length in its header, where it has one.
pub fn fix_size(b: &mut [u8]) {
    if 8 <= b.len() {
        put_word(b, 4, b.len() as u32);
    }
}

// The first bytes of a blob, saying their own length.
pub fn first_part(b: &[u8], len: usize) -> Vec<u8> {
    let mut part = b[..len].to_vec();
    fix_size(&mut part);
    part
}

struct Built {
    b: Vec<u8>,
    fill: u8,
    strings: Vec<u8>,
    // Where name offsets are to be written, and the names' places in the strings.
    uses: Vec<(usize, usize)>,
}

impl Built {
    fn word(&mut self, word: usize) {
        self.b.extend((word as u32).to_be_bytes());
    }

    fn aligned(&mut self) {
        while self.b.len() % 4 != 0 {
            self.b.push(self.fill);
        }
    }

    // A name's place in the strings: where it already stands, as a name or as the end of one, or at their end.
    fn string(&mut self, name: &[u8]) -> usize {
        let ended = [name, &[0]].concat();
        if let Some(at) = self.strings.windows(ended.len()).position(|part| part == &ended[..]) {
            return at;
        }
        self.strings.extend(&ended);
        self.strings.len() - ended.len()
    }

    fn node(&mut self, node: &Node) {
        self.word(1);
        self.b.extend(&node.name);
        self.b.push(0);
        self.aligned();
        for (name, value) in &node.props {
            self.word(3);
            self.word(value.len());
            let place = self.string(name);
            self.uses.push((self.b.len(), place));
            self.word(0);
            self.b.extend(value);
            self.aligned();
        }
        node.children.iter().for_each(|child| self.node(child));
        self.word(2);
    }
}

// The tree and the reservations as a blob.
pub fn build(root: &Node, reservations: &[(u64, u64)], layout: &Layout) -> Vec<u8> {
    let mut built = Built { b: vec![0; 40], fill: layout.fill, strings: Vec::new(), uses: Vec::new() };
    let mut begins = [0; 3];
    // The strings are known once the structure is: where they stand before it, they are gathered in a first round.
    if layout.order.iter().position(|x| *x == 2) < layout.order.iter().position(|x| *x == 1) {
        built.node(root);
        built.b.truncate(40);
        built.uses.clear();
    }
    for (k, block) in layout.order.iter().enumerate() {
        built.b.extend(vec![layout.fill; layout.gaps[k]]);
        begins[*block] = built.b.len();
        match block {
            0 => reservations.iter().for_each(|(offset, size)| {
                built.b.extend(offset.to_be_bytes());
                built.b.extend(size.to_be_bytes());
            }),
            1 => {
                built.node(root);
                if layout.end {
                    built.word(9);
                }
            }
            _ => built.b.extend(built.strings.clone()),
        }
    }
    built.b.extend(vec![layout.fill; layout.gaps[3]]);
    let from = layout.strings_from.filter(|from| *from <= begins[2]).unwrap_or(begins[2]);
    for (at, place) in &built.uses {
        put_word(&mut built.b, *at, (begins[2] - from + place) as u32);
    }
    let mut b = built.b;
    let words = [begins[1], from, begins[0], 17, 16, layout.boot as usize, built.strings.len(), 0];
    put_word(&mut b, 0, 0xd00dfeed);
    words.iter().enumerate().for_each(|(k, word)| put_word(&mut b, 8 + 4 * k, *word as u32));
    fix_size(&mut b);
    b
}

// ---- random trees

const NAMES: [&[u8]; 20] = [
    b"",
    b"a",
    b"b",
    b"ab",
    b"reg",
    b"cpu@0",
    b"cpu@1",
    b"memory",
    b"compatible",
    b"\xc3\xa9",
    b"\xe2\x82\xac",
    b"\xf0\x9f\x98\x80",
    b"#size-cells",
    b"a/b",
    b"long-name,with-everything_in.it+1234567890",
    b"\x01",
    b"\x7f",
    b"aab",
    b"ed",
    b"\xed\x9f\xbf",
];

const BAD_NAMES: [&[u8]; 8] =
    [b"\xff", b"\x80", b"a\xc3", b"\xc0\x80", b"\xed\xa0\x80", b"\xf4\x90\x80\x80", b"\xe0\x80\x80", b"b\xf0\x9f\x98"];

// One in so many is not UTF-8.
fn random_name(r: &mut Random, bad: usize) -> Vec<u8> {
    if r.once_in(bad) {
        r.pick(&BAD_NAMES).to_vec()
    } else {
        r.pick(&NAMES).to_vec()
    }
}

fn random_value(r: &mut Random) -> Vec<u8> {
    let size = if r.once_in(20) { r.below(60) } else { r.below(9) };
    // Values that look like tokens are worth more than others.
    (0..size).map(|k| if r.once_in(3) { r.next() as u8 } else { [0, 0, 0, 1 + r.below(4) as u8][k % 4] }).collect()
}

// A tree of about so many nodes, to a depth; one name in so many is bad.
pub fn random_tree(r: &mut Random, nodes: usize, depth: usize, bad: usize) -> Node {
    let props = r.below(4);
    let mut tree = Node { name: random_name(r, bad), ..Node::default() };
    tree.props = (0..props).map(|_| (random_name(r, bad), random_value(r))).collect();
    let mut left = nodes.saturating_sub(1);
    while 0 < left && 1 < depth {
        let part = if r.once_in(3) { left } else { 1 + r.below(left) };
        tree.children.push(random_tree(r, part, depth - 1, bad));
        left -= part;
    }
    tree
}

pub fn random_layout(r: &mut Random) -> Layout {
    let orders = [[0, 1, 2], [0, 2, 1], [1, 0, 2], [1, 2, 0], [2, 0, 1], [2, 1, 0]];
    let mut gaps = [0; 4];
    if !r.once_in(3) {
        gaps.iter_mut().for_each(|gap| *gap = if r.once_in(2) { r.below(8) } else { 0 });
    }
    Layout {
        gaps,
        order: orders[if r.once_in(2) { 0 } else { r.below(6) }],
        fill: if r.once_in(2) { 0 } else { r.next() as u8 },
        end: !r.once_in(4),
        strings_from: if r.once_in(4) { Some(r.below(64)) } else { None },
        boot: if r.once_in(2) { 0 } else { r.next() as u32 },
    }
}

pub fn random_reservations(r: &mut Random) -> Vec<(u64, u64)> {
    let count = if r.once_in(50) { r.below(70) } else { r.below(4) };
    let mut list: Vec<(u64, u64)> =
        (0..count).map(|_| (r.next() >> r.below(64), 1 + (r.next() >> 1 >> r.below(63)))).collect();
    list.push((if r.once_in(3) { r.next() } else { 0 }, 0));
    list
}

pub fn random_blob(r: &mut Random) -> Vec<u8> {
    let most = if r.once_in(10) { 40 } else { 8 };
    let nodes = 1 + r.below(most);
    let depth = if r.once_in(8) { 20 } else { 6 };
    let bad = if r.once_in(6) { 8 } else { 2000 };
    let tree = random_tree(r, nodes, depth, bad);
    let tree = if r.once_in(12) { chain(DEPTH - 4 + r.below(6), tree) } else { tree };
    let (reservations, layout) = (random_reservations(r), random_layout(r));
    let mut b = build(&tree, &reservations, &layout);
    // Blocks that overlap, and names and reservations in odd places.
    if r.once_in(6) {
        let at = 8 + 4 * r.below(3);
        let pos = r.below(b.len() + 4);
        put_word(&mut b, at, pos as u32);
    }
    b
}

// ---- changed copies

// Words that mean something somewhere in a blob of this length.
pub fn telling_words(len: usize) -> Vec<u32> {
    let near = |n: usize| (n.saturating_sub(5)..n + 3).map(|x| x as u32);
    let mut words: Vec<u32> =
        (0..14).chain([16, 17, 18, 20, 28, 32, 36, 40, 41, 44, 56, 57, 58, 60, 64, 80, 100]).collect();
    words.extend(near(len).chain(near(len.saturating_sub(16))));
    words.extend([0xff, 0x100, 0xffff, 0x10000, 0x01000000, 0x02000000, 0x03000000, 0x62000000, 0x6200, 0x620000]);
    words.extend([0x7fffffff, 0x80000000, 0x80000001, 0xfffffffb, 0xfffffffc, 0xfffffffd, 0xfffffffe, 0xffffffff]);
    words.extend([0xd00dfeed, 0xedfe0dd0, 0xff000000, 0x61ff0000, 0xc3a90000, 0xeda08000, 0x00ff0000]);
    words.sort();
    words.dedup();
    words
}

// One to four changes.
pub fn damaged(r: &mut Random, good: &[u8]) -> Vec<u8> {
    let mut b = good.to_vec();
    for _ in 0..1 + r.below(4) {
        if b.len() < 12 {
            break;
        }
        let words = telling_words(b.len());
        let at = r.below(b.len() - 4);
        let aligned = at / 4 * 4;
        match r.below(9) {
            0 => b[at] = r.next() as u8,
            1 => b[at] ^= 1 << r.below(8),
            2 | 3 => put_word(&mut b, aligned, words[r.below(words.len())]),
            4 => put_word(&mut b, at, words[r.below(words.len())]),
            5 => put_word(&mut b, aligned, 1 + r.below(4) as u32),
            6 => {
                let to = (at + 1 + r.below(16)).min(b.len());
                b.drain(at..to);
            }
            7 => {
                let part: Vec<u8> = b[aligned..(aligned + 4 * (1 + r.below(6))).min(b.len())].to_vec();
                let to = r.below(b.len() / 4 + 1) * 4;
                b.splice(to..to, part);
            }
            _ => b.truncate(b.len() - r.below(12).min(b.len())),
        }
    }
    if !r.once_in(8) {
        fix_size(&mut b);
    }
    b
}
