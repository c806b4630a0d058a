// How long load, measure and 200 path lookups take: the original, the static library and libfdt, in one process, warm, in turns.
//   times [FILE.dtb ..]    made trees, and each file: the stack used, instructions, two tables, and the ratios of the realistic tree
//   times --counted        makes the calls whose instructions callgrind counts
extern crate device_tree;

#[allow(dead_code)]
#[path = "../loads/blobs.rs"]
mod blobs;
#[allow(dead_code)]
#[path = "../loads/calls.rs"]
mod calls;
mod counts;
#[allow(dead_code)]
#[path = "../loads/random.rs"]
mod random;
#[allow(dead_code)]
#[path = "../loads/scope.rs"]
mod scope;
mod sides;
mod stack;
mod table;
mod timing;
mod trees;

use table::{print, times, Times};

// The made trees by label; the second realistic one is the one that the last line is about.
fn made() -> Vec<Times> {
    let mut all = vec![];
    for size in [200, 2000, 20_000] {
        let of = [("realistic", trees::realistic(size)), ("deep", trees::deep(size)), ("wide", trees::wide(size))];
        all.extend(of.map(|(label, tree)| times(label, &trees::blob(&tree))));
    }
    all
}

fn main() {
    let args: Vec<String> = std::env::args().skip(1).collect();
    if args.first().is_some_and(|arg| arg == "--counted") {
        return counts::make();
    }
    stack::print();
    counts::print();
    let mut all = made();
    let (load, find) = all[3].ratios();
    all.push(times("enclosure", &trees::blob(&trees::enclosure())));
    for file in args {
        let label = file.rsplit('/').next().unwrap_or(&file);
        all.push(times(label, &std::fs::read(&file).expect("read")));
    }
    print(&all);
    println!("load {load:.2} find {find:.2}");
}
