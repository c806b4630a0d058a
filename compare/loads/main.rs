// The original beside the new reader, at scale. BLOB is a file, or a folder with .dtb files.
//   loads library SEED SCALE [BLOB..]                         ask the static library, where it is built in
//   loads compare PROGRAM frames|queries SEED SCALE [BLOB..]   ask PROGRAM, by that program's lines
//   loads stored                                              write the stored lines
//   loads answer                                              answer lines by the original
extern crate device_tree;

#[allow(dead_code)]
mod answer;
mod asks;
mod blobs;
#[cfg(library)]
mod calls;
mod compare;
#[cfg(library)]
mod files;
#[cfg(library)]
mod found;
mod kinds;
#[cfg(library)]
mod library;
mod lines;
mod lookups;
mod original;
mod ours;
mod random;
mod rows;
mod scope;
mod stored;
mod tree;

use compare::{Comparison, Counts, Share};
use ours::{Ours, Program, Speaks};
use std::io::{self, BufRead, BufWriter, Write};
use std::path::Path;
use std::thread;

// The original goes one call deeper for each node inside another.
const STACK: usize = 1 << 28;

// The kinds of input, all that the side that is asked can be asked.
fn made(c: &mut Comparison, speaks: Speaks) {
    c.run("headers", 1, kinds::headers);
    c.run("cut", 1, kinds::cut);
    c.run("two words", 1, kinds::two_words);
    c.run("endings", 1, kinds::endings);
    c.run("depths", 1, kinds::depths);
    c.run("rooms", 4, kinds::rooms);
    c.run("single words", 1, kinds::single_words);
    c.run("single bytes", 1, kinds::single_bytes);
    c.run("trees", if speaks == Speaks::Library { 1 } else { 4 }, kinds::trees);
    c.run("damaged", 1, kinds::damaged_copies);
    if speaks != Speaks::Frames {
        c.run("lookups", 1, kinds::lookups);
    }
    if speaks == Speaks::Frames {
        c.run("lines", 1, kinds::lines);
    }
    if speaks != Speaks::Queries {
        c.run("short", 1, kinds::short);
    }
}

fn compare(args: &[String]) {
    let [program, speaks, seed, scale, real @ ..] = args else {
        panic!("compare PROGRAM frames|queries SEED SCALE [BLOB..]")
    };
    let speaks = if speaks == "queries" { Speaks::Queries } else { Speaks::Frames };
    let ours: Box<dyn Ours> = Box::new(Program::start(program, speaks));
    let (seed, scale) = (seed.parse().expect("a seed"), scale.parse().expect("a scale"));
    let mut c = Comparison::new(ours, Share { mine: 0, of: 1 }, seed, scale);
    made(&mut c, speaks);
    let files = files_of(real);
    if !files.is_empty() {
        c.run("real", 1, |c| c.real(&files));
    }
    report(&[c.counts]);
}

// Two threads, each with its half of every kind.
#[cfg(library)]
fn linked(args: &[String]) {
    let [seed, scale, real @ ..] = args else { panic!("library SEED SCALE [BLOB..]") };
    let (seed, scale) = (seed.parse().expect("a seed"), scale.parse().expect("a scale"));
    let files = &files_of(real);
    let half = |mine: usize| {
        let mut c = Comparison::new(Box::new(library::Linked::with(lines::ROOM)), Share { mine, of: 2 }, seed, scale);
        if !files.is_empty() {
            c.run("real", 10, |c| files::real(c, files));
        }
        made(&mut c, Speaks::Library);
        c.counts
    };
    let halves = thread::scope(|scope| {
        let start = |mine| thread::Builder::new().stack_size(STACK).spawn_scoped(scope, move || half(mine)).unwrap();
        [0, 1].map(start).map(|half| half.join().unwrap_or_else(|_| std::process::exit(2)))
    });
    println!("real files: {}", files.len());
    report(&halves);
}

#[cfg(not(library))]
fn linked(_: &[String]) {
    panic!("built without the static library");
}

// The files given, and those in the folders given.
fn files_of(given: &[String]) -> Vec<String> {
    let mut files = Vec::new();
    for name in given {
        match std::fs::read_dir(name) {
            Err(_) => files.push(name.clone()),
            Ok(folder) => {
                let inside = folder.map(|entry| entry.expect(name).path());
                let wanted = |path: &Path| path.is_dir() || path.extension().is_some_and(|end| end == "dtb");
                let mut names: Vec<String> =
                    inside.filter(|path| wanted(path)).map(|path| path.display().to_string()).collect();
                names.sort();
                files.extend(files_of(&names));
            }
        }
    }
    files
}

// How often each number came.
fn numbered(parts: &[Counts], of: fn(&Counts) -> &[usize; 17]) -> String {
    let count = |number: usize| parts.iter().map(|part| of(part)[number]).sum::<usize>();
    let counts = (0..17).map(|number| (number, count(number))).filter(|(_, count)| *count != 0);
    counts.map(|(number, count)| format!("{number}: {count}")).collect::<Vec<_>>().join(", ")
}

fn report(parts: &[Counts]) {
    let kind = |k: usize| parts.iter().map(|part| part.kinds[k].1).sum::<usize>();
    let kinds: Vec<(&str, usize)> = (0..parts[0].kinds.len()).map(|k| (parts[0].kinds[k].0, kind(k))).collect();
    let listed: Vec<String> = kinds.iter().map(|(kind, count)| format!("{kind} {count}")).collect();
    let lookups: usize = parts.iter().flat_map(|part| part.lookups).sum();
    println!("answers: {}", numbered(parts, |part| &part.answers));
    if lookups != 0 {
        println!("lookups' answers: {}", numbered(parts, |part| &part.lookups));
    }
    let all: usize = kinds.iter().map(|(_, count)| count).sum();
    println!("compared {all}: {}; lookups {lookups}; differences 0", listed.join(", "));
}

fn answer() -> io::Result<()> {
    let mut out = BufWriter::new(io::stdout().lock());
    // A line end closes a line; what follows the last one is a line where it isn't empty.
    for line in io::stdin().lock().split(b'\n') {
        writeln!(out, "{}", compare::due(&line?))?;
    }
    out.flush()
}

fn main() {
    let args: Vec<String> = std::env::args().skip(1).collect();
    original::quiet();
    let work = thread::Builder::new().stack_size(STACK).spawn(move || match args.first().map(String::as_str) {
        Some("library") => linked(&args[1..]),
        Some("compare") => compare(&args[1..]),
        Some("stored") => io::stdout().write_all(&stored::text()).unwrap(),
        Some("answer") => answer().unwrap(),
        _ => panic!("library, compare, stored or answer"),
    });
    if work.unwrap().join().is_err() {
        std::process::exit(2);
    }
}
