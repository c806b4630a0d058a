// Answers query lines beside the program `queries`: the readers, loads and lookups of the crate device_tree, and for rows from
// elsewhere, which it doesn't have, document 01's lookups.
// Each line of standard input is answered by one line: 0 and values, a refusal, or 16 for a bad line; parts by ` ; `.
extern crate device_tree;

#[path = "loads/answer.rs"]
mod answer;
#[allow(dead_code)]
#[path = "loads/lines.rs"]
mod lines;
#[path = "loads/lookups.rs"]
mod lookups;
#[path = "loads/original.rs"]
mod original;
#[path = "loads/rows.rs"]
mod rows;
#[path = "loads/scope.rs"]
mod scope;
#[path = "loads/tree.rs"]
mod tree;

use answer::{Answer, Lookups};
use device_tree::util::{align, SliceRead};
use lines::{digit, spelled, FRAME, NAME, ROOM};
use lookups::Asked;
use rows::Lent;
use std::io::{self, BufRead, BufWriter, Write};
use std::panic::catch_unwind;

// A byte string of at most so many bytes: `-` for none, or hexadecimal.
fn bytes(field: &[u8], most: usize) -> Option<Vec<u8>> {
    match field {
        b"" => None,
        b"-" => Some(Vec::new()),
        _ => spelled(field, most),
    }
}

// A table of at most so many numbers, each of 8 digits.
fn table(field: &[u8], most: usize) -> Option<Vec<u32>> {
    let b = bytes(field, 4 * most)?;
    (b.len() % 4 == 0).then(|| b.chunks(4).map(|word| u32::from_be_bytes(word.try_into().unwrap())).collect())
}

// A number: 1 to 20 decimal digits that fit 64 bits.
fn number(field: &[u8]) -> Option<usize> {
    if field.is_empty() || 20 < field.len() {
        return None;
    }
    field.iter().try_fold(0usize, |sum, b| sum.checked_mul(10)?.checked_add(digit(*b, 10)? as usize))
}

// Runs a reader of the original. None is a refusal, and so is a panic.
fn ask<F: FnOnce() -> Option<Answer> + std::panic::UnwindSafe>(reader: F) -> Answer {
    match catch_unwind(reader) {
        Ok(Some(values)) => [vec![0], values].concat(),
        _ => vec![3],
    }
}

// A part that the original handed out, by its offset in the buffer and its length.
fn place(buf: &[u8], part: &[u8]) -> Vec<u64> {
    vec![(part.as_ptr() as usize - buf.as_ptr() as usize) as u64, part.len() as u64]
}

// A reader's answer. None is a bad line.
fn reader(letter: &[u8], fields: &[&[u8]]) -> Option<Answer> {
    let bytes = |field| bytes(field, FRAME);
    Some(match (letter, fields) {
        (b"A", [val, to]) => {
            let (val, to) = (number(val)?, number(to)?);
            ask(move || Some(vec![align(val, to) as u64]))
        }
        (b"W", [text, pos]) => {
            let (buf, pos) = (bytes(text)?, number(pos)?);
            ask(move || Some(vec![(&buf[..]).read_be_u32(pos).ok()? as u64]))
        }
        (b"L", [text, pos]) => {
            let (buf, pos) = (bytes(text)?, number(pos)?);
            ask(move || Some(vec![(&buf[..]).read_be_u64(pos).ok()?]))
        }
        (b"Z", [text, pos]) => {
            let (buf, pos) = (bytes(text)?, number(pos)?);
            ask(move || Some(place(&buf, (&buf[..]).read_bstring0(pos).ok()?)))
        }
        (b"S", [text, start, end]) => {
            let (buf, start, end) = (bytes(text)?, number(start)?, number(end)?);
            ask(move || Some(place(&buf, (&buf[..]).subslice(start, end).ok()?)))
        }
        (b"U", [text]) => vec![if std::str::from_utf8(&bytes(text)?).is_ok() { 0 } else { 5 }],
        _ => return None,
    })
}

// A blob loaded, a path found in it, and the properties there.
fn loaded(blob: &[u8], path: &[u8], name: &[u8]) -> Option<Vec<Answer>> {
    let (b, path, name) = (bytes(blob, FRAME)?, bytes(path, NAME)?, bytes(name, NAME)?);
    Some(lookups::due(&b, ROOM, Some(&[Asked { path, name }])))
}

// Lookups in rows from elsewhere, by document 01's words.
fn lent(fields: [&[u8]; 8]) -> Option<Vec<Answer>> {
    let [blob, nodes, node_count, props, prop_count, start, path, name] = fields;
    let (b, nodes, props) = (bytes(blob, FRAME)?, table(nodes, 7 * ROOM.nodes)?, table(props, 4 * ROOM.props)?);
    let (node_count, prop_count, start) = (number(node_count)?, number(prop_count)?, number(start)?);
    let (path, name) = (bytes(path, NAME)?, bytes(name, NAME)?);
    let lent = Lent { b: &b, nodes: &nodes, node_count, props: &props, prop_count };
    Some([vec![lent.find(&path), lent.find_from(start, &path)], lent.properties(start, &name).to_vec()].concat())
}

// The parts of a line's answer. None is a bad line.
fn answer(line: &[u8]) -> Option<Vec<Answer>> {
    let fields: Vec<&[u8]> = line.split(|b| *b == b' ').collect();
    match (fields[0], &fields[1..]) {
        (b"T", [blob, path, name]) => loaded(blob, path, name),
        (b"R", fields) => lent((*fields).try_into().ok()?),
        (letter, fields) => Some(vec![reader(letter, fields)?]),
    }
}

fn main() -> io::Result<()> {
    original::quiet();
    let mut out = BufWriter::new(io::stdout().lock());
    // A line end closes a line; what follows the last one is a line where it isn't empty.
    for line in io::stdin().lock().split(b'\n') {
        let parts = answer(&line?).unwrap_or(vec![vec![16]]);
        writeln!(out, "{}", lines::text(&parts))?;
    }
    out.flush()
}
