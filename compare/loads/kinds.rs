// The kinds of input: each hands every one of its blobs, or lines, to the comparison.
use crate::asks;
use crate::blobs::*;
use crate::compare::Comparison;
use crate::lines::{hex, FRAME};
use crate::lookups::Asked;
use crate::scope::{self, DEPTH};

pub fn frame_s() -> Vec<u8> {
    let words: [u32; 25] = [
        0xd00dfeed, 0x66, 0x38, 0x64, 0x28, 0x11, 0x10, 0, 2, 0x2c, 0, 0, 0, 0, 1, 0, 3, 4, 0, 0x2a, 1, 0x62000000, 2,
        2, 9,
    ];
    let mut b: Vec<u8> = words.iter().flat_map(|word| word.to_be_bytes()).collect();
    b.extend([0x75, 0]);
    b
}

pub fn with_word(b: &[u8], pos: usize, word: u32) -> Vec<u8> {
    let mut b = b.to_vec();
    put_word(&mut b, pos, word);
    b
}

pub fn with_byte(b: &[u8], pos: usize, byte: u8) -> Vec<u8> {
    let mut b = b.to_vec();
    b[pos] = byte;
    b
}

// The entry that ends a reservation list.
pub const LAST: (u64, u64) = (0, 0);

// S and some twenty other good blobs, each with something that the others have not.
pub fn varied() -> Vec<Vec<u8>> {
    let leaf = |name: &[u8]| node(name, &[], &[]);
    let twins = node(b"", &[(b"p", b"1"), (b"p", b"2")], &[leaf(b"t"), leaf(b"t"), node(b"t", &[(b"q", b"")], &[])]);
    let wide = node(b"", &[], &(0..9).map(|k| leaf(&[b'a' + k])).collect::<Vec<_>>());
    let values =
        node(b"root", &[(b"a", b""), (b"ba", b"1"), (b"cba", b"12"), (b"", b"123"), (b"a", b"\0\0\0\x01")], &[]);
    let text =
        node(b"\xc3\xa9", &[(b"\xe2\x82\xac", b"\xff\xfe"), (b"\xf0\x9f\x98\x80", b"x\0")], &[leaf(b"\xed\x9f\xbf")]);
    let tokens = node(b"", &[(b"v", b"\0\0\0\x01\0\0\0\x02\0\0\0\x03\0\0\0\x09")], &[leaf(b"x"), leaf(b"y")]);
    let mixed =
        node(b"", &[(b"m", b"abc")], &[node(b"c", &[(b"m", b"d")], &[leaf(b"")]), node(b"", &[(b"n", b"")], &[])]);
    let usual = Layout::USUAL;
    let gaps = |gaps| Layout { gaps, fill: 0xff, ..usual.clone() };
    let order = |order| Layout { order, gaps: [0, 0, 0, 1], boot: 0xffffffff, ..usual.clone() };
    let three = [(1, 2), (u64::MAX, u64::MAX), (4096, 0)];
    let mut all = vec![
        frame_s(),
        build(&twins, &[LAST], &usual),
        build(&wide, &[LAST], &usual),
        build(&values, &three, &usual),
        build(&text, &[LAST], &usual),
        build(&tokens, &[LAST], &usual),
        build(&mixed, &[LAST], &usual),
        build(&chain(DEPTH, leaf(b"in")), &[LAST], &usual),
        build(&chain(DEPTH + 1, leaf(b"in")), &[LAST], &usual),
        build(&mixed, &[LAST], &order([1, 2, 0])),
        build(&values, &three, &order([2, 1, 0])),
        build(&twins, &[LAST], &order([0, 2, 1])),
        build(&tokens, &[LAST], &Layout { end: false, ..usual.clone() }),
        build(&mixed, &three, &Layout { strings_from: Some(0), ..usual.clone() }),
        build(&leaf(b"a-name-of-its-own"), &[LAST], &usual),
    ];
    // The structure and the reservations at every alignment.
    for k in 1..4 {
        all.push(build(&mixed, &[LAST], &gaps([0, k, 0, 0])));
        all.push(build(&values, &three, &gaps([k, 5 - k, 2, k])));
    }
    // A reservation list in the zero bytes of the header, and names in the structure.
    let overlapping = build(&mixed, &[LAST], &usual);
    all.push(with_word(&with_word(&overlapping, 16, 28), 12, 60));
    all
}

pub fn short(c: &mut Comparison) {
    c.blob(vec![]);
    for size in 1..4 {
        for n in 0..1u32 << (8 * size) {
            c.blob(n.to_be_bytes()[4 - size..].to_vec());
        }
    }
}

// Headers cut anywhere, with the length that they say one off, right, and one over.
pub fn headers(c: &mut Comparison) {
    for size in 4..72 {
        for said in size as u32 - 1..size as u32 + 2 {
            for version in [16, 17, 18] {
                for offset in
                    [0, 8, 24, 32, (size as u32).saturating_sub(16), (size as u32).saturating_sub(15), 0xffffffff]
                {
                    let mut b = vec![0; 72];
                    for (k, word) in [0xd00dfeed, said, offset, 0, offset, version].iter().enumerate() {
                        put_word(&mut b, 4 * k, *word);
                    }
                    b.truncate(size);
                    c.blob(b);
                }
            }
        }
    }
}

// Every byte of the varied blobs set to every value.
pub fn single_bytes(c: &mut Comparison) {
    for good in varied() {
        for pos in 0..good.len() {
            (0..=255).for_each(|byte| c.blob(with_byte(&good, pos, byte)));
        }
    }
}

// The varied blobs cut anywhere, saying their old length or the new one.
pub fn cut(c: &mut Comparison) {
    for good in varied() {
        for len in 0..=good.len() {
            c.blob(good[..len].to_vec());
            c.blob(first_part(&good, len));
        }
    }
}

// Every word of the varied blobs, at every position, set to each word that means something.
pub fn single_words(c: &mut Comparison) {
    for good in varied() {
        let words = telling_words(good.len());
        for pos in 0..good.len() - 3 {
            words.iter().for_each(|word| c.blob(with_word(&good, pos, *word)));
        }
    }
}

// Every two words of S set to words that mean something.
pub fn two_words(c: &mut Comparison) {
    let s = frame_s();
    let words = [0, 1, 2, 3, 4, 9, 16, 28, 40, 57, 84, 97, 98, 101, 102, 0xff, 0x62000000, 0xff000000, 0xffffffff];
    for one in (8..100).step_by(4) {
        for two in (one + 4..100).step_by(4) {
            for x in words {
                words.iter().for_each(|y| c.blob(with_word(&with_word(&s, one, x), two, *y)));
            }
        }
    }
}

// Names that are not UTF-8 and values that end anywhere: a structure that ends the blob, cut anywhere, each word changed.
pub fn endings(c: &mut Comparison) {
    let names: [&[u8]; 3] = [b"ok", b"\xff", b"\xc3\xa9"];
    for (outer, inner, first) in names.iter().flat_map(|x| names.iter().flat_map(move |y| names.map(|z| (*x, *y, z)))) {
        let tree = node(
            outer,
            &[(first, b"one")],
            &[node(inner, &[(b"p", b""), (outer, b"fours")], &[]), node(first, &[(inner, b"12345678")], &[])],
        );
        for order in [[0, 2, 1], [2, 0, 1]] {
            let good = build(&tree, &[LAST], &Layout { order, end: false, ..Layout::USUAL });
            for len in 40..=good.len() {
                c.blob(first_part(&good, len));
            }
            for pos in (56..good.len() - 3).step_by(4) {
                let rest = (good.len() - pos) as u32;
                (0..12).chain(rest.saturating_sub(16)..rest).for_each(|word| c.blob(with_word(&good, pos, word)));
            }
        }
    }
}

pub fn trees(c: &mut Comparison) {
    for _ in 0..c.portion(500_000) {
        let b = random_blob(&mut c.random);
        c.take(b);
    }
}

pub fn damaged_copies(c: &mut Comparison) {
    let good = varied();
    for _ in 0..c.portion(1_000_000) {
        let r = &mut c.random;
        let from = if r.once_in(2) { good[r.below(good.len())].clone() } else { random_blob(r) };
        let b = damaged(r, &from);
        c.take(b);
    }
}

// Trees so deep: a chain with a good name, a bad one, or a value inside; one with nodes on both sides; one that is deep at its end.
// Two with a bad name outside the deepest node: a node's, which is judged after what it holds, and a property's, before.
pub fn nested(depth: usize) -> Vec<Node> {
    let leaf = |name: &[u8]| node(name, &[], &[]);
    let inner = [leaf(b"in"), node(b"\xff", &[(b"p", b"1")], &[]), node(b"", &[(b"p", b"12345")], &[])];
    let beside = [leaf(b"first"), chain(depth - 1, leaf(b"q")), leaf(b"last")];
    let bad_node = chain(2, node(b"\xff", &[], &[chain(depth - 2, leaf(b"in"))]));
    let bad_property = chain(depth - 1, node(b"n", &[(b"\xff", b"")], &[leaf(b"in")]));
    let mut all = inner.map(|inner| chain(depth, inner)).to_vec();
    all.extend([node(b"", &[(b"p", b"x")], &beside), comb(depth, leaf(b"in")), bad_node, bad_property]);
    all
}

// From two levels below the limit to two above it: at each alignment, each word changed, cut anywhere.
pub fn depths(c: &mut Comparison) {
    for tree in (DEPTH - 2..=DEPTH + 2).flat_map(nested) {
        for gap in 0..4 {
            let good = build(&tree, &[LAST], &Layout { gaps: [0, gap, 0, 0], ..Layout::USUAL });
            c.blob(good.clone());
            for pos in (8..good.len() - 3).step_by(4) {
                [0, 1, 2, 3, 4, 0xff000000].iter().for_each(|word| c.blob(with_word(&good, pos, *word)));
            }
            for len in 0..good.len() {
                c.blob(first_part(&good, len));
            }
        }
    }
}

// So many nodes under a root of so many properties; both counts include the root's.
pub fn crowd(nodes: usize, props: usize) -> Node {
    node(b"", &vec![(&b"p"[..], &b""[..]); props], &vec![node(b"", &[], &[]); nodes - 1])
}

pub fn reservations(count: usize) -> Vec<(u64, u64)> {
    (1..count as u64).map(|k| (k, k)).chain([(7, 0)]).collect()
}

// Just below, at and above the room of each table, alone and together, and as much as a frame holds.
pub fn rooms(c: &mut Comparison) {
    for rows in [1, 2, 63, 64, 65, 66, 100] {
        for (nodes, props) in [
            (1, 0),
            (510, 1),
            (511, 0),
            (512, 0),
            (513, 0),
            (514, 9),
            (1, 511),
            (1, 512),
            (1, 513),
            (2, 514),
            (300, 250),
        ] {
            for gap in 0..2 {
                let layout = Layout { gaps: [gap, gap, 0, 0], ..Layout::USUAL };
                let good = build(&crowd(nodes, props), &reservations(rows), &layout);
                if FRAME < good.len() {
                    continue;
                }
                c.blob(good.clone());
                // A refusal that comes before the room.
                let last = good.len() - if props == 0 { 8 } else { 10 };
                (last - 40..last).step_by(4).for_each(|pos| c.blob(with_word(&good, pos, 7)));
                c.blob(first_part(&good, last - 8));
            }
        }
    }
    for nodes in 640..684 {
        c.blob(build(&crowd(nodes, 0), &[LAST], &Layout::USUAL));
    }
}

// Lines that are no frames, and frames written in other ways.
pub fn lines(c: &mut Comparison) {
    let s = hex(&frame_s());
    for pos in 0..s.len() {
        for byte in (0..=255).filter(|byte| *byte != b'\n') {
            c.line(with_byte(&s, pos, byte));
        }
        c.line(s[..pos].to_vec());
        c.line(s[pos..].to_vec());
    }
    for size in [16382, 16383, 16384, 16385, 16386, 16387, 20000, 32768, 65535, 65536, 65537, 70000, 131072, 200000] {
        for byte in [b'0', b'f', b'F', b'x'] {
            c.line(vec![byte; size]);
            c.line(s.clone());
        }
    }
    for _ in 0..c.portion(20_000) {
        let r = &mut c.random;
        let blob = random_blob(r);
        let mut line = hex(&blob);
        line.iter_mut().for_each(|b| {
            if r.once_in(2) {
                *b = b.to_ascii_uppercase()
            }
        });
        if r.once_in(2) {
            let at = r.below(line.len());
            line[at] = *r.pick(&[
                &b'g', &b'G', &b' ', &b'\r', &b'\t', &b'/', &b':', &b'@', &b'`', &0, &0x80, &0xff, &b'-', &b'x',
            ]);
        }
        if r.once_in(8) {
            line.pop();
        }
        c.line(line);
    }
}

// Blobs in which a wrong lookup finds something else: twins of which only a later one has what is sought, names that begin with one
// another or are empty or have a `/`, values of every kind.
fn findable() -> Vec<Vec<u8>> {
    let leaf = |name: &[u8]| node(name, &[], &[]);
    let inner = [leaf(b"x"), node(b"x", &[(b"q", b"text\0")], &[leaf(b"y")])];
    let twins = node(
        b"",
        &[(b"p", b""), (b"q", b"1\0"), (b"p", b"a\0b\0"), (b"q", b"12345678")],
        &[leaf(b"t"), node(b"t", &[(b"p", b"2")], &inner), node(b"u", &[], &inner), node(b"", &[], &inner), leaf(b"")],
    );
    let names = node(
        b"root",
        &[
            (b"reg-names", b"\xc3\xa9\0"),
            (b"re", b"\xff\0"),
            (b"reg", b"\0\0\0\x09\xff"),
            (b"", b"\0"),
            (b"a/b", b"123"),
        ],
        &[
            leaf(b"abc"),
            leaf(b"ab"),
            node(b"a", &[(b"reg", b"abcdefg")], &[leaf(b"b")]),
            leaf(b"a/b"),
            leaf(b"ab@1"),
            leaf(b"ab@10"),
        ],
    );
    [twins, names].map(|tree| build(&tree, &[LAST], &Layout::USUAL)).to_vec()
}

// Every path and every name of the varied blobs, of some for the purpose and of random ones, and those close to them.
pub fn lookups(c: &mut Comparison) {
    for b in [findable(), varied()].concat() {
        if c.my_turn() {
            every_lookup(c, &b);
        }
    }
    for _ in 0..c.portion(40) {
        let b = random_blob(&mut c.random);
        every_lookup(c, &b);
    }
}

fn every_lookup(c: &mut Comparison, b: &[u8]) {
    let Ok(rows) = scope::read(b, DEPTH) else { return };
    let paths = with_close((0..rows.nodes.len()).map(|row| asks::tree_path(b, &rows, row)).collect());
    let names = (0..rows.props.len()).map(|prop| asks::name(b, &rows, prop).to_vec());
    let names = with_close(names.chain([b"u".to_vec()]).collect());
    for path in &paths {
        let asked = names.iter().map(|name| Asked { path: path.clone(), name: name.clone() });
        c.ask(b.to_vec(), asked.collect());
    }
}

fn with_close(texts: Vec<Vec<u8>>) -> Vec<Vec<u8>> {
    let mut all: Vec<Vec<u8>> = texts.iter().flat_map(|text| asks::close(text)).chain(texts.clone()).collect();
    all.sort();
    all.dedup();
    all
}
