// Whole blobs from files through the static library: loads with different room, copies cut short and damaged, every lookup.
use crate::blobs::{damaged, fix_size};
use crate::compare::Comparison;
use crate::found::{self, Sides};
use crate::original::{self, Loaded};
use crate::rows::Lent;
use crate::scope::Room;
use crate::tree::Tree;

// How many copies of each file are cut short, and how many are changed.
const COPIES: usize = 20;

pub fn real(c: &mut Comparison, files: &[String]) {
    for name in files {
        if c.my_turn() {
            let b = std::fs::read(name).expect(name);
            file(c, name, &b);
        }
    }
}

fn file(c: &mut Comparison, name: &str, b: &[u8]) {
    let mut much = Room { reservations: 64, nodes: 512, props: 512 };
    if let Ok(loaded) = original::read(b) {
        let [reservations, nodes, props] =
            [loaded.rows.reserved.len(), loaded.rows.nodes.len(), loaded.rows.props.len()];
        much = Room { reservations: reservations + 1, nodes: nodes + 9, props: props + 9 };
        rooms(c, b, Room { reservations, nodes, props });
        lookups(c, name, b, &loaded);
    }
    c.within(b.to_vec(), much);
    for _ in 0..COPIES {
        let cut = cut(c, b);
        c.within(cut, much);
        let changed = damaged(&mut c.random, b);
        c.within(changed, much);
    }
}

// Exactly the room that is needed, and a row less of each kind.
fn rooms(c: &mut Comparison, b: &[u8], exact: Room) {
    let Room { reservations, nodes, props } = exact;
    c.within(b.to_vec(), exact);
    c.within(b.to_vec(), Room { reservations: reservations - 1, ..exact });
    c.within(b.to_vec(), Room { nodes: nodes - 1, ..exact });
    c.within(b.to_vec(), Room { props: props.saturating_sub(1), ..exact });
}

// A first part, which says the old length or its own.
fn cut(c: &mut Comparison, b: &[u8]) -> Vec<u8> {
    let mut first = b[..c.random.below(b.len())].to_vec();
    if !c.random.once_in(4) {
        fix_size(&mut first);
    }
    first
}

// Every node and property, in the rows of the load and in rows with one number changed.
fn lookups(c: &mut Comparison, name: &str, b: &[u8], loaded: &Loaded) {
    let (nodes, props) = loaded.rows.tables();
    let (node_count, prop_count) = (loaded.rows.nodes.len(), loaded.rows.props.len());
    let lent = Lent { b, nodes: &nodes, node_count, props: &props, prop_count };
    let sides = Sides { what: name, lent, original: Some(&Tree::of(loaded, b)) };
    sides.all(&loaded.rows, &mut c.random, &mut c.counts);
    found::damaged(name, b, &loaded.rows, &mut c.random, &mut c.counts);
}
