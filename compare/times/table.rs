// A tree's times, and the two tables of them.
use crate::random::Random;
use crate::sides::{check_full, measure, original, path_offset, paths, scan, Lent};
use crate::timing::{again, clock, first_asked, in_turns, medians, Side};
use device_tree::DeviceTree;
use std::ffi::CString;
use std::hint::black_box;

const LOOKUPS: usize = 200;

// Nanoseconds: of a load, and of a lookup.
pub struct Times {
    label: String,
    sizes: [usize; 3],
    scan: f64,
    check: f64,
    load: [f64; 2],
    measure: f64,
    path_offset: f64,
    find: [f64; 2],
    again: [f64; 2],
    first: [f64; 2],
}

impl Times {
    pub fn ratios(&self) -> (f64, f64) {
        (self.load[1] / self.load[0], self.find[1] / self.find[0])
    }
}

struct Path {
    text: String,
    ended: CString,
}

impl Path {
    fn of(text: &str) -> Path {
        Path { text: text.to_string(), ended: CString::new(text).expect("no zero byte") }
    }
}

// Both find the same node: its place in the blob.
fn agree(b: &[u8], tree: &DeviceTree, lent: &Lent, path: &Path) -> usize {
    let (offset, name) = lent.name(b, lent.find(b, &path.text).expect("find"));
    assert_eq!(tree.find(&path.text).map(|node| node.name.as_bytes()), Some(name), "{}", path.text);
    offset - 4
}

// libfdt finds it too.
fn agrees(b: &[u8], path: &Path, offset: usize) {
    let structure = u32::from_be_bytes([b[8], b[9], b[10], b[11]]) as usize;
    assert_eq!(path_offset(b, &path.ended), (offset - structure) as i32, "{}", path.text);
}

fn loads(b: &[u8], lent: &mut Lent, runs: usize) -> [f64; 5] {
    let sides: Vec<Side> = vec![
        Box::new(|_| clock(|| scan(black_box(b)))),
        Box::new(|_| clock(|| check_full(black_box(b)))),
        Box::new(|_| clock(|| original(black_box(b)))),
        Box::new(|_| clock(|| lent.load(black_box(b)))),
        Box::new(|_| clock(|| measure(black_box(b)))),
    ];
    medians(in_turns(runs), sides).try_into().expect("five sides")
}

// A run over a set of paths: the nanoseconds of a lookup.
fn each<T>(paths: &[Path], mut look: impl FnMut(&Path) -> T) -> f64 {
    clock(|| paths.iter().for_each(|path| _ = black_box(look(black_box(path))))) / LOOKUPS as f64
}

// Both sides in turns, libfdt, both sides each again and again, and both sides asked for the first time.
fn finds(b: &[u8], tree: &DeviceTree, lent: &Lent, sets: &[Vec<Path>], runs: usize) -> [Vec<f64>; 4] {
    let own = || -> Side { Box::new(|set| each(&sets[set], |path| lent.find(b, &path.text))) };
    let theirs = || -> Side { Box::new(|set| each(&sets[set], |path| tree.find(&path.text).is_some())) };
    let fdt: Side = Box::new(|set| each(&sets[set], |path| path_offset(b, &path.ended)));
    [
        medians(in_turns(runs), vec![theirs(), own()]),
        medians(in_turns(7), vec![fdt]),
        medians(again(runs), vec![theirs(), own()]),
        medians(first_asked(runs), vec![theirs(), own()]),
    ]
}

// The first set is every so-manieth node in the order of the rows; the others are drawn, two for each run.
fn sets(all: &[String], runs: usize) -> Vec<Vec<Path>> {
    let mut r = Random(2);
    let even = (0..LOOKUPS).map(|i| Path::of(&all[i * all.len() / LOOKUPS])).collect();
    let mut drawn = || (0..LOOKUPS).map(|_| Path::of(&all[r.below(all.len())])).collect();
    std::iter::once(even).chain((0..2 * runs).map(|_| drawn())).collect()
}

// All times of a blob, with as many runs as its size allows.
pub fn times(label: &str, b: &[u8]) -> Times {
    let tree = original(b);
    let mut lent = Lent::to(b);
    let runs = if lent.count() < 5000 { 41 } else { 9 };
    assert_eq!((lent.load(b), check_full(b)), (0, 0), "{label}: load, fdt_check_full");
    let mut all = vec![];
    paths(&tree.root, "", &mut all);
    let sets = sets(&all, runs);
    sets.iter().flatten().for_each(|path| _ = agree(b, &tree, &lent, path));
    sets[0].iter().for_each(|path| agrees(b, path, agree(b, &tree, &lent, path)));
    let [scan, check, theirs, own, measure] = loads(b, &mut lent, runs);
    let [turns, fdt, again, first] = finds(b, &tree, &lent, &sets, runs);
    Times {
        label: label.to_string(),
        sizes: [lent.count(), lent.props(), b.len()],
        scan,
        check,
        load: [theirs, own],
        measure,
        path_offset: fdt[0],
        find: [turns[0], turns[1]],
        again: [again[0], again[1]],
        first: [first[0], first[1]],
    }
}

pub fn print(all: &[Times]) {
    println!("microseconds of a load");
    println!("| tree | nodes | properties | bytes | byte scan | fdt_check_full | original | load | ratio | measure |");
    println!("|---|--:|--:|--:|--:|--:|--:|--:|--:|--:|");
    for Times { label, sizes: [nodes, props, bytes], scan, check, load: [theirs, own], measure, .. } in all {
        let [scan, check, a, o, m] = [scan, check, theirs, own, measure].map(|ns| format!("{:.1}", ns / 1000.0));
        println!(
            "| {label} | {nodes} | {props} | {bytes} | {scan} | {check} | {a} | {o} | {:.2} | {m} |",
            own / theirs
        );
    }
    println!();
    println!("nanoseconds of a lookup");
    println!("| tree | nodes | fdt_path_offset | original | find | ratio | over and over: original | find | ratio | first asked: original | find | ratio |");
    println!("|---|--:|--:|--:|--:|--:|--:|--:|--:|--:|--:|--:|");
    for Times { label, sizes: [nodes, ..], path_offset, find, again, first, .. } in all {
        let pairs = [find, again, first].map(|[a, o]| format!(" {a:.1} | {o:.1} | {:.2} |", o / a)).concat();
        println!("| {label} | {nodes} | {path_offset:.0} |{pairs}");
    }
    println!();
}
