// Instructions of a property, a node, a sibling passed and a hop, by callgrind: two calls that differ in so many of them.
use crate::blobs::Node;
use crate::sides::{check_full, measure, original, path_offset, Lent};
use crate::trees::{blob, of};
use std::ffi::CString;
use std::hint::black_box;
use std::process::{Command, Stdio};

// callgrind counts inside this function and writes a file at the end of each call.
#[no_mangle]
#[inline(never)]
pub fn counted(call: &mut dyn FnMut()) {
    call()
}

// So many nodes of so many properties under the root.
fn crowd(nodes: usize, props: usize) -> Vec<u8> {
    let bay = |i: usize| of(props, format!("bay@{:x}", 0x1000 + i), i, vec![]);
    blob(&of(0, String::new(), 0, (0..nodes).map(bay).collect()))
}

fn chain() -> Vec<u8> {
    let hub = |below: Option<Node>, i: usize| Some(of(4, format!("hub@{i:x}"), i, Vec::from_iter(below)));
    blob(&of(0, String::new(), 0, Vec::from_iter((1..16).rev().fold(None, hub))))
}

fn chain_path(depth: usize) -> String {
    (1..=depth).map(|i| format!("/hub@{i:x}")).collect()
}

// The original, the library, libfdt, in this order.
fn finds(b: &[u8], path: &str) {
    let (tree, mut lent, ended) = (original(b), Lent::to(b), CString::new(path).expect("no zero byte"));
    lent.load(b);
    counted(&mut || _ = black_box(tree.find(black_box(path))));
    counted(&mut || _ = black_box(lent.find(b, black_box(path))));
    counted(&mut || _ = black_box(path_offset(b, black_box(&ended))));
}

fn loads(b: &[u8]) {
    let (mut tree, mut lent) = (None, Lent::to(b));
    counted(&mut || tree = Some(original(black_box(b))));
    counted(&mut || _ = black_box(lent.load(black_box(b))));
    counted(&mut || _ = black_box(check_full(black_box(b))));
    counted(&mut || _ = black_box(measure(black_box(b))));
}

const SAME: &str = "/bay@zzzz";
const OTHER: &str = "/bay@zzzzz";

// Each line: what is counted, how many of it lie between its two calls, how many sides are asked.
const LINES: [(&str, f64, usize); 5] = [
    ("load, a property", 4000.0, 4),
    ("load, a node", 1000.0, 4),
    ("find, a sibling of another length", 1000.0, 3),
    ("find, a sibling of the same length", 1000.0, 3),
    ("find, a hop to an only child", 10.0, 3),
];

// The calls of each line: all sides with less, all sides with more.
pub fn make() {
    [4, 8].iter().for_each(|props| loads(&crowd(1000, *props)));
    [1000, 2000].iter().for_each(|nodes| loads(&crowd(*nodes, 0)));
    [1000, 2000].iter().for_each(|nodes| finds(&crowd(*nodes, 4), OTHER));
    [1000, 2000].iter().for_each(|nodes| finds(&crowd(*nodes, 4), SAME));
    [5, 15].iter().for_each(|depth| finds(&chain(), &chain_path(*depth)));
}

// The instructions of a call, from the file that callgrind wrote of it.
fn instructions(file: &str) -> f64 {
    let text = std::fs::read_to_string(file).unwrap_or_else(|why| panic!("{file}: {why}"));
    let total = text.lines().find_map(|line| line.strip_prefix("totals: ").or(line.strip_prefix("summary: ")));
    total.and_then(|n| n.trim().parse().ok()).unwrap_or_else(|| panic!("{file}: no totals"))
}

// This program again, under callgrind.
fn run(file: &str) -> bool {
    Command::new("valgrind")
        .args(["--tool=callgrind", "--toggle-collect=counted", "--dump-after=counted"])
        .arg(format!("--callgrind-out-file={file}"))
        .arg(std::env::current_exe().expect("this program"))
        .arg("--counted")
        .stderr(Stdio::null())
        .status()
        .is_ok_and(|status| status.success())
}

pub fn print() {
    let file = format!("{}.counted", std::env::current_exe().expect("this program").display());
    if !run(&file) {
        return println!("no valgrind: instructions are not counted\n");
    }
    println!("instructions");
    println!("| of | original | library | libfdt | measure |");
    println!("|---|--:|--:|--:|--:|");
    let mut call = 0;
    for (what, count, sides) in LINES {
        let of = |k: usize| instructions(&format!("{file}.{}", call + k));
        let each = |k: usize| format!(" {:.1} |", (of(sides + k) - of(k)) / count);
        println!("| {what} |{}{}", (1..=sides).map(each).collect::<String>(), &" |"[..(4 - sides) * 2]);
        call += 2 * sides;
    }
    println!();
}
