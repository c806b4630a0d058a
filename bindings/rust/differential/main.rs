// The original beside this crate.
//   differential [--seed N] [--copies N] FILE..
//   differential --time FILE..
#[path = "../../../compare/loads/random.rs"]
#[allow(dead_code)]
mod random;
mod sides;
mod time;

use random::Random;
use sides::{mine, theirs};

#[derive(Default)]
struct Counts {
    loads: u64,
    accepted: u64,
    deep: u64,
    nodes: u64,
    props: u64,
    finds: u64,
    asked: u64,
    reads: u64,
    panics: u64,
    differ: u64,
}

impl Counts {
    fn same<T: PartialEq + std::fmt::Debug>(&mut self, what: &str, due: T, got: T) {
        if due != got {
            self.differ += 1;
            if self.differ < 20 {
                println!("differs: {what}: original {due:?}, ours {got:?}");
            }
        }
    }
}

// How deep nodes may nest; the root is at depth 1.
const DEPTH: usize = 64;

// Whether our refusal is that of the depth: a ParseError where a node opens.
fn too_deep(b: &[u8], why: &str) -> bool {
    let at = why.strip_prefix("ParseError(").and_then(|rest| rest.strip_suffix(")")).and_then(|n| n.parse::<usize>().ok());
    at.is_some_and(|at| b.get(at..at + 4) == Some(&[0, 0, 0, 1]))
}

fn depth(node: &original::Node) -> usize {
    1 + node.children.iter().map(depth).max().unwrap_or(0)
}

// Names and paths close to one.
fn near(name: &str) -> [String; 5] {
    let mut shorter = name.to_owned();
    shorter.pop();
    [format!("{name}x"), format!("{name}/"), format!("/{name}"), name.to_uppercase(), shorter]
}

struct Both<'a> {
    what: &'a str,
    theirs: theirs::Tree<'a>,
    mine: mine::Tree<'a>,
    // The parent of each row, and its path in the tree.
    above: Vec<usize>,
    paths: Vec<String>,
}

impl<'a> Both<'a> {
    // Both trees, where all fields are the same.
    fn of(what: &'a str, t: &'a original::DeviceTree, m: &'a ours::DeviceTree, c: &mut Counts) -> Option<Both<'a>> {
        let before = c.differ;
        c.same(what, (t.version, t.boot_cpuid_phys, &t.reserved), (m.version, m.boot_cpuid_phys, &m.reserved));
        let (theirs, mine) = (theirs::Tree::of(t), mine::Tree::of(m));
        c.same(what, theirs.nodes.len(), mine.nodes.len());
        for (due, got) in theirs.nodes.iter().zip(&mine.nodes) {
            c.nodes += 1;
            c.props += due.props.len() as u64;
            c.same(what, theirs::fields(due), mine::fields(got));
        }
        if before < c.differ {
            return None;
        }
        let (mut above, mut paths, mut open) = (vec![], vec![], Vec::<(usize, usize)>::new());
        for (row, node) in theirs.nodes.iter().enumerate() {
            while open.last().is_some_and(|&(_, left)| left == 0) {
                open.pop();
            }
            match open.last_mut() {
                Some((parent, left)) => {
                    *left -= 1;
                    above.push(*parent);
                    paths.push(format!("{}/{}", paths[*parent], node.name));
                }
                None => {
                    above.push(0);
                    paths.push(String::new());
                }
            }
            open.push((row, node.children.len()));
        }
        Some(Both { what, theirs, mine, above, paths })
    }

    fn find(&self, path: &str, c: &mut Counts) {
        c.finds += 1;
        c.same(path, self.theirs.find(path), self.mine.find(path));
    }

    fn find_from(&self, row: usize, path: &str, c: &mut Counts) {
        c.finds += 1;
        c.same(path, self.theirs.find_from(row, path), self.mine.find_from(row, path));
    }

    fn ask(&self, row: usize, name: &str, c: &mut Counts) {
        c.asked += 5;
        c.same(name, self.theirs.asked(row, name), self.mine.asked(row, name));
    }

    // A node by its path from the tree and from each node above it, its properties, and what is close to them.
    fn node(&self, row: usize, c: &mut Counts) {
        let path = &self.paths[row];
        self.find(path, c);
        near(path).iter().for_each(|path| self.find(path, c));
        let mut from = row;
        while from != 0 {
            from = self.above[from];
            self.find_from(from, &path[self.paths[from].len() + 1..], c);
        }
        let name = &self.theirs.nodes[row].name;
        near(name).iter().for_each(|path| self.find_from(self.above[row], path, c));
        self.find_from(row, "", c);
        self.ask(row, "", c);
        self.ask(row, "no-such-property", c);
        for (name, _) in &self.theirs.nodes[row].props {
            self.ask(row, name, c);
            near(name).iter().for_each(|name| self.ask(row, name, c));
        }
    }
}

// A load by both, and then lookups: of every node and property, or of four nodes.
fn compare(what: &str, b: &[u8], whole: bool, random: &mut Random, c: &mut Counts) {
    c.loads += 1;
    match (theirs::load(b), mine::load(b)) {
        (Ok(t), Ok(m)) => {
            c.accepted += 1;
            let Some(both) = Both::of(what, &t, &m, c) else { return };
            let many = both.paths.len();
            if whole {
                c.same(both.what, format!("{t:?}"), format!("{m:?}"));
                (0..many).for_each(|row| both.node(row, c));
            } else {
                (0..many.min(4)).for_each(|_| both.node(random.below(many), c));
            }
        }
        (Ok(t), Err(why)) if too_deep(b, &why) && DEPTH < depth(&t.root) => c.deep += 1,
        (Err(_), Err(why)) if too_deep(b, &why) => c.deep += 1,
        (t, m) => c.same(what, t.map(|_| "loaded"), m.map(|_| "loaded")),
    }
}

// A damaged copy; one that is cut and says its own length gets further.
fn damaged(b: &[u8], random: &mut Random) -> Vec<u8> {
    let mut copy = b.to_vec();
    let at = if random.once_in(8) { random.below(b.len().min(72)) } else { random.below(b.len()) };
    match random.below(6) {
        0..=2 => copy[at] ^= 1 << random.below(8),
        3 => copy[at] = random.below(256) as u8,
        4 => {
            let word = (random.below(12) as u32).to_be_bytes();
            copy.iter_mut().skip(at / 4 * 4).zip(word).for_each(|(to, byte)| *to = byte);
        }
        _ => copy.truncate(at),
    }
    if copy.len() < b.len() && 8 <= copy.len() && random.once_in(2) {
        let size = (copy.len() as u32).to_be_bytes();
        copy[4..8].copy_from_slice(&size);
    }
    copy
}

fn words(words: &[u32]) -> Vec<u8> {
    words.iter().flat_map(|word| word.to_be_bytes()).collect()
}

// Frame S; every byte of it set to every value, and every four bytes to words that mean something; chains around the limit.
fn made(random: &mut Random, c: &mut Counts) {
    #[rustfmt::skip]
    let s = [words(&[
        0xd00dfeed, 0x66, 0x38, 0x64, 0x28, 0x11, 0x10, 0, 2, 0x2c, 0, 0, 0, 0,
        1, 0, 3, 4, 0, 0x2a, 1, 0x62000000, 2, 2, 9,
    ]), vec![0x75, 0]].concat();
    compare("S", &s, true, random, c);
    for at in 0..s.len() {
        let mut copy = s.clone();
        for byte in 0..=255 {
            copy[at] = byte;
            compare("S", &copy, true, random, c);
        }
    }
    for at in 0..s.len() - 3 {
        for word in (0..110).chain([0x61626300, 0xff000000, 0x7fffffff, 0x80000000, 0xfffffffe, u32::MAX]) {
            let mut copy = s.clone();
            copy[at..at + 4].copy_from_slice(&word.to_be_bytes());
            compare("S", &copy, true, random, c);
        }
    }
    for depth in DEPTH - 2..=DEPTH + 3 {
        let size = 56 + 12 * depth as u32 + 2;
        let header = words(&[0xd00dfeed, size, 56, 56, 40, 17, 16, 0, 0, 0, 0, 0, 0, 0]);
        let blob = [header, words(&[1, 0x61000000].repeat(depth)), words(&vec![2; depth]), vec![0; 2]].concat();
        compare("chain", &blob, true, random, c);
    }
}

// The readers on short slices. Where the original panics, ours refuses, but for `align`, which has nothing to refuse by.
fn readers(random: &mut Random, c: &mut Counts) {
    let some = |random: &mut Random, len: usize| match random.below(4) {
        0 => usize::MAX - random.below(12),
        1 => len.wrapping_sub(random.below(10)),
        _ => random.below(len + 4),
    };
    for _ in 0..200_000 {
        let b: Vec<u8> = (0..random.below(40)).map(|_| (random.below(4) * random.below(86)) as u8).collect();
        let (pos, end) = (some(random, b.len()), some(random, b.len()));
        let (due, got) = (theirs::read(&b, pos, end), mine::read(&b, pos, end));
        for (k, (due, got)) in due.into_iter().zip(got).enumerate() {
            c.reads += 1;
            let panics = due.as_ref().is_err_and(|why| why == "panic");
            c.panics += panics as u64;
            let due = if panics && k < 4 { Err("UnexpectedEndOfInput".to_owned()) } else { due };
            c.same(&format!("reader {k} of {b:?} at {pos}, {end}"), due, got);
        }
    }
}

fn main() {
    sides::quiet();
    let (mut seed, mut copies, mut files) = (1, 50, vec![]);
    let mut args = std::env::args().skip(1);
    let mut timed = false;
    while let Some(arg) = args.next() {
        let mut number = || args.next().and_then(|n| n.parse::<u64>().ok()).expect("a number");
        match arg.as_str() {
            "--seed" => seed = number(),
            "--copies" => copies = number(),
            "--time" => timed = true,
            _ => files.push(arg),
        }
    }
    if timed {
        return time::report(&files);
    }
    let (mut random, mut c) = (Random(seed), Counts::default());
    made(&mut random, &mut c);
    readers(&mut random, &mut c);
    for name in &files {
        let b = std::fs::read(name).expect(name);
        compare(name, &b, true, &mut random, &mut c);
        (0..copies).for_each(|_| compare(name, &damaged(&b, &mut random), false, &mut random, &mut c));
    }
    println!(
        "compared {} files: {} loads ({} accepted, {} too deep), {} nodes and {} properties by their fields, {} paths, {} property \
         answers; {} reads ({} where the original panics); differences {}",
        files.len(),
        c.loads,
        c.accepted,
        c.deep,
        c.nodes,
        c.props,
        c.finds,
        c.asked,
        c.reads,
        c.panics,
        c.differ
    );
    std::process::exit((0 < c.differ) as i32);
}
