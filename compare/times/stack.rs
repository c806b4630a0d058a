// The stack that a call uses: the space below the caller is painted, and afterwards looked at from its far end.
use crate::blobs::Node;
use crate::scope::DEPTH;
use crate::sides::{measure, Lent};
use crate::trees::{blob, of};
use std::hint::black_box;
use std::ptr::read_volatile;

const PAINTED: usize = 1 << 16;
const PAINT: u8 = 0xa5;

#[inline(never)]
fn paint() {
    black_box(&mut [PAINT; PAINTED]);
}

// The bytes from the caller's frame down to the last one that was written.
#[inline(never)]
fn used(call: &mut dyn FnMut()) -> usize {
    paint();
    call();
    let here = black_box(&mut 0u8) as *const u8 as usize;
    // The far end itself is left out: it may lie below what was painted.
    let written = |below: &usize| unsafe { read_volatile((here - below) as *const u8) } != PAINT;
    (1..PAINTED - 4096).rev().find(written).unwrap_or(0)
}

// So many nodes one inside another.
fn chain(depth: usize) -> Vec<u8> {
    let inside = |below: Option<Node>, _| Some(of(4, "n".to_string(), 1, Vec::from_iter(below)));
    blob(&(0..depth).fold(None, inside).expect("a chain"))
}

// The deepest that loads, and one node deeper, which is refused.
pub fn print() {
    let (b, deeper, path) = (chain(DEPTH), chain(DEPTH + 1), "/n".repeat(DEPTH - 1));
    let mut lent = Lent::to(&b);
    let load = used(&mut || assert_eq!(black_box(lent.load(black_box(&b))), 0));
    let refused = used(&mut || assert_eq!(black_box(lent.load(black_box(&deeper))), 7));
    let measured = used(&mut || _ = black_box(measure(black_box(&b))));
    let find = used(&mut || _ = black_box(lent.find(&b, black_box(&path))).expect("find"));
    let nothing = used(&mut || ());
    println!("bytes of stack at depth {DEPTH}, the caller's {nothing} included:");
    println!("load {load}, measure {measured}, find {find}; load that refuses a node deeper {refused}");
    println!();
}
