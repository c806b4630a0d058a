// The trees that are timed, of some number of nodes with four properties each.
use crate::blobs::{build, put_word, Layout, Node};
use crate::random::Random;
use crate::scope::DEPTH;

const PROPERTIES: [&[u8]; 8] =
    [b"compatible", b"reg", b"status", b"interrupts", b"clocks", b"#size-cells", b"phandle", b"label"];

// A node of so many properties.
pub fn of(props: usize, name: String, number: usize, children: Vec<Node>) -> Node {
    let prop = |k: usize| (PROPERTIES[(number + k) % 8].to_vec(), vec![number as u8; 4 + 4 * (k % 4)]);
    Node { name: name.into_bytes(), props: (0..props).map(prop).collect(), children }
}

fn named(name: String, number: usize, children: Vec<Node>) -> Node {
    of(4, name, number, children)
}

// All nodes under the root.
pub fn wide(nodes: usize) -> Node {
    named(String::new(), 0, (1..nodes).map(|i| named(format!("bay@{i:x}"), i, vec![])).collect())
}

// Chains under the root, as deep as loads.
pub fn deep(nodes: usize) -> Node {
    let hub =
        |i: usize, d: usize, below: Option<Node>| named(format!("hub@{:x}", i * DEPTH + d), i, Vec::from_iter(below));
    let chain = |i: usize| (1..DEPTH).rev().fold(None, |below, d| Some(hub(i, d, below)));
    named(String::new(), 0, (0..nodes / (DEPTH - 1)).filter_map(chain).collect())
}

// Buses with devices, some of which have parts of their own; no two alike.
pub fn realistic(nodes: usize) -> Node {
    const NAMES: [&str; 7] = ["soc", "i2c", "sensor", "temperature-sensor", "fan", "gpio-controller", "bay"];
    let (mut r, mut made) = (Random(1), 1);
    let mut next = |children: Vec<Node>, r: &mut Random| {
        made += 1;
        (named(format!("{}@{:x}", NAMES[r.below(7)], made * 0x40), made, children), made)
    };
    let mut buses = vec![];
    loop {
        let mut devices = vec![];
        for _ in 0..1 + r.below(14) {
            let parts = (0..r.below(12)).map(|_| next(vec![], &mut r).0).collect();
            devices.push(next(parts, &mut r).0);
        }
        let (bus, made) = next(devices, &mut r);
        buses.push(bus);
        if nodes <= made {
            return named(String::new(), 0, buses);
        }
    }
}

// Expanders with bays, each with its sensors and lights: what a backplane says.
pub fn enclosure() -> Node {
    let part = |name: &str, i: usize| named(format!("{name}@{:x}", 0x40 + i % 8), i, vec![]);
    let twice = |name: &str, i: usize| [part(name, i), part(name, i + 1)];
    let parts = |i: usize| [twice("temperature-sensor", i), twice("led", i)].concat();
    let bays = |e: usize| (0..100).map(|i| named(format!("bay@{:x}", 0x100 * e + i), i, parts(i))).collect();
    named(String::new(), 0, (1..5).map(|e| named(format!("expander@{e}"), e, bays(e))).collect())
}

// A tree as a blob that every side takes: libfdt also reads the structure's size, which the reader and the original don't.
pub fn blob(tree: &Node) -> Vec<u8> {
    let mut b = build(tree, &[(0, 0)], &Layout::USUAL);
    let word = |pos: usize| u32::from_be_bytes([b[pos], b[pos + 1], b[pos + 2], b[pos + 3]]);
    let size = word(12) - word(8);
    put_word(&mut b, 36, size);
    b
}
