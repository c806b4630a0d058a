// The lines that crates/frames is run on: document 01's cases, the limits, and frames over every answer.
use crate::blobs::*;
use crate::kinds::*;
use crate::lines::{hex, FRAME};
use crate::random::Random;
use crate::scope::DEPTH;

// A tree whose last block ends the blob, with so many bytes after it.
fn ending(tree: &Node, order: [usize; 3], after: usize) -> Vec<u8> {
    build(tree, &[LAST], &Layout { order, gaps: [0, 0, 0, after], end: false, ..Layout::USUAL })
}

// A blob of one property whose name is not UTF-8, cut where its value ends and so many bytes later.
fn value_at_the_end(name: &[u8], after: usize) -> Vec<u8> {
    let mut b = ending(&node(b"", &[(name, b"four")], &[]), [0, 2, 1], 0);
    b.truncate(b.len() - 4);
    b.extend(vec![0; after]);
    fix_size(&mut b);
    b
}

// "Frame S and its neighbours", in its order.
fn neighbours() -> Vec<Vec<u8>> {
    let s = frame_s();
    let bad_name = with_byte(&s, 84, 0xff);
    let mut all = vec![s.clone(), vec![], vec![0; 4], vec![0xd0, 0x0d, 0xfe, 0xee], b"tree".to_vec()];
    all.push([0xd00dfeed_u32.to_be_bytes(), 8_u32.to_be_bytes()].concat());
    all.push(s[..101].to_vec());
    all.push(with_word(&s, 20, 16));
    for (pos, word) in [(80, 4), (68, 5), (88, 9), (96, 0), (96, 1), (96, 4), (96, 0xffffffff), (88, 3)] {
        all.push(with_word(&s, pos, word));
    }
    all.push(bad_name.clone());
    all.push(with_word(&bad_name, 88, 4));
    all.push(with_word(&s, 44, 4096));
    all.extend([DEPTH, DEPTH + 1].map(|depth| build(&chain(depth, node(b"in", &[], &[])), &[LAST], &Layout::USUAL)));
    all
}

// Nodes one inside another: the sample of 23, and trees around the limit. Then the token that opens one too deep, its name not
// UTF-8 or without a zero byte, and the blob cut from that token on: 7 comes before the name is read.
fn depths() -> Vec<Vec<u8>> {
    let mut all = vec![include_bytes!("../../samples/daisy-chain.dtb").to_vec()];
    let trees = (DEPTH - 2..=DEPTH + 2).flat_map(nested);
    all.extend(trees.map(|tree| build(&tree, &[LAST], &Layout::USUAL)));
    let token = 56 + 8 * DEPTH;
    for name in [&b"in"[..], b"\xff"] {
        let b = build(&chain(DEPTH + 1, node(name, &[], &[])), &[LAST], &Layout::USUAL);
        for len in token..token + 9 {
            all.push(first_part(&b, len));
        }
    }
    all
}

// "Errors a porter would make", and the departures from the Specification that a blob can show.
fn porters() -> Vec<Vec<u8>> {
    let s = frame_s();
    let leaf = |name: &[u8]| node(name, &[], &[]);
    let nested = node(b"r", &[(b"p", b"abc")], &[node(b"c", &[(b"q", b"")], &[leaf(b"g")]), leaf(b"d")]);
    let mut all = Vec::new();
    // A value that ends at the last byte, one before it, and with nothing to follow; the name good and bad.
    for name in [&b"ok"[..], b"\xff"] {
        all.extend((0..6).map(|after| value_at_the_end(name, after)));
    }
    // A structure offset of 56 to 59.
    for gap in 0..4 {
        all.push(build(&nested, &[LAST], &Layout { gaps: [0, gap, 0, 0], fill: 0xee, ..Layout::USUAL }));
    }
    // A bad name outside a later refusal: 4, then 3, then a bad name inside, then good.
    for bad in [node(b"\xff", &[], &[leaf(b"x")]), node(b"", &[], &[leaf(b"\xff"), leaf(b"x")])] {
        let b = build(&bad, &[LAST], &Layout::USUAL);
        all.push(with_word(&b, b.len() - 8, 4));
        all.push(with_word(&b, b.len() - 8, 3));
        all.push(b);
    }
    all.push(build(&node(b"\xff", &[(b"\xfe", b"")], &[]), &[LAST], &Layout::USUAL));
    // Twins, NOP, no END, a named root, names outside the strings, blocks in each other.
    all.push(build(&node(b"", &[(b"p", b"1"), (b"p", b"2")], &[leaf(b"t"), leaf(b"t")]), &[LAST], &Layout::USUAL));
    all.extend([56, 64, 80, 92].map(|pos| with_word(&s, pos, 4)));
    all.push(build(&nested, &[LAST], &Layout { end: false, ..Layout::USUAL }));
    all.push(with_word(&s, 12, 84));
    all.push(with_word(&s, 16, 24));
    all.push(with_word(&s, 8, 80));
    all.extend(varied());
    all
}

// The room of each table, and one row more of each; 8 before 9 and 10.
fn limits() -> Vec<Vec<u8>> {
    let of = |rows, nodes, props| build(&crowd(nodes, props), &reservations(rows), &Layout::USUAL);
    let mut all = vec![of(63, 2, 1), of(64, 2, 1), of(65, 2, 1), of(66, 2, 1), of(1, 512, 0), of(1, 513, 0)];
    all.extend([of(1, 1, 512), of(1, 1, 513), of(64, 512, 1), of(65, 513, 1), of(65, 1, 513)]);
    // The longest frame, and one byte more.
    let most = of(1, 3, 3);
    for size in [FRAME, FRAME + 1] {
        let mut b = most.clone();
        b.resize(size, 0xaa);
        fix_size(&mut b);
        all.push(b);
    }
    all
}

// S with each word changed, cut anywhere, and random blobs, good and damaged.
fn changed() -> Vec<Vec<u8>> {
    let s = frame_s();
    let mut all = Vec::new();
    for pos in (0..100).step_by(4) {
        all.extend([0, 1, 2, 3, 4, 17, 97, 102, 0xff000000, 0xffffffff].map(|word| with_word(&s, pos, word)));
    }
    for len in 0..102 {
        all.push(first_part(&s, len));
    }
    let mut r = Random(1);
    all.extend((0..60).map(|_| random_blob(&mut r)));
    all.extend((0..150).map(|_| {
        let b = random_blob(&mut r);
        damaged(&mut r, &b)
    }));
    all.retain(|b| b.len() < 600);
    all
}

// Lines that are no frames, and S written in other ways.
fn lines() -> Vec<Vec<u8>> {
    let s = hex(&frame_s());
    let upper = s.to_ascii_uppercase();
    let mixed = s.iter().enumerate().map(|(k, b)| if k % 3 == 0 { b.to_ascii_uppercase() } else { *b }).collect();
    let mut all = vec![upper, mixed, b"Ff".to_vec(), b"abcdefABCDEF".to_vec(), s[1..].to_vec(), b"0".to_vec()];
    for byte in [b'g', b'G', b'/', b':', b'@', b'`', b'x', b'-', b' ', b'\t', b'\r', 0, 0x7f, 0x80, 0xff] {
        all.push(with_byte(&s, 0, byte));
        all.push(with_byte(&s, 101, byte));
        all.push(with_byte(&s, 203, byte));
        all.push(vec![byte]);
        all.push([&s[..], &[byte]].concat());
        all.push([&s[..], &[byte], b"0"].concat());
    }
    for size in [2 * FRAME, 2 * FRAME + 1, 2 * FRAME + 2, 4 * FRAME, 70000] {
        all.push(vec![b'0'; size]);
        // The next line counts again.
        all.push(s.clone());
    }
    all.extend([vec![], vec![], b"d00dfeed".to_vec()]);
    all
}

// The last line has no line end.
pub fn text() -> Vec<u8> {
    let blobs = [neighbours(), depths(), porters(), limits(), changed()].concat();
    let mut all: Vec<Vec<u8>> = blobs.iter().map(|b| hex(b)).collect();
    all.extend(lines());
    all.push(hex(&frame_s()));
    all.join(&b'\n')
}
