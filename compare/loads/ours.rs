// The new reader, asked many inputs at a time; a program through a pipe, line by line.
use crate::lines::{hex, text};
use crate::lookups::{Asked, Said};
use crate::scope::Room;
use std::io::{BufRead, BufReader, Write};
use std::process::{Child, ChildStdout, Command, Stdio};
use std::sync::mpsc::{channel, Sender};
use std::thread;

#[derive(Clone)]
pub enum Input {
    // What may be no frame.
    Line(Vec<u8>),
    // A blob, the tables' room, and what is looked up, where rows and lookups are told.
    Blob { b: Vec<u8>, room: Room, asked: Option<Vec<Asked>> },
}

// Who is asked.
#[derive(Clone, Copy, PartialEq)]
pub enum Speaks {
    // A program that reads a frame a line and answers by its numbers.
    Frames,
    // A program that reads `T BLOB PATH NAME` and answers by numbers, rows and lookups.
    Queries,
    // The static library: blobs of any size, all numbers of the tables, any number of lookups after a load.
    Library,
}

// What the new reader says: a program's line, or the library's numbers.
#[cfg_attr(not(library), allow(dead_code))]
pub enum Told {
    Line(String),
    Said(Said),
}

impl Told {
    pub fn is(&self, due: &Said) -> bool {
        match self {
            Told::Line(line) => *line == text(&due.parts),
            Told::Said(said) => said == due,
        }
    }

    pub fn text(&self) -> String {
        match self {
            Told::Line(line) => line.clone(),
            Told::Said(said) => said_text(said),
        }
    }
}

pub fn said_text(said: &Said) -> String {
    format!("{} (measure {})", text(&said.parts), text(&[said.measured.clone()]))
}

pub trait Ours {
    fn speaks(&self) -> Speaks;

    // The answers to some inputs, in order.
    fn ask(&mut self, inputs: &[Input]) -> Vec<Told>;
}

pub struct Program {
    speaks: Speaks,
    child: Child,
    input: Option<Sender<Vec<u8>>>,
    output: BufReader<ChildStdout>,
}

// A field of a line: no bytes are `-`.
fn field(digits: &[u8]) -> &[u8] {
    if digits.is_empty() {
        b"-"
    } else {
        digits
    }
}

impl Input {
    // A blob's or a line's bytes.
    pub fn bytes(&self) -> &[u8] {
        match self {
            Input::Line(bytes) | Input::Blob { b: bytes, .. } => bytes,
        }
    }

    // The same question about other bytes.
    pub fn with(&self, bytes: Vec<u8>) -> Input {
        match self {
            Input::Line(_) => Input::Line(bytes),
            Input::Blob { room, asked, .. } => Input::Blob { b: bytes, room: *room, asked: asked.clone() },
        }
    }

    // Which of two inputs is the smaller: the shorter, then the one with fewer bytes that are not 0.
    pub fn size(&self) -> (usize, usize) {
        (self.bytes().len(), self.bytes().iter().filter(|byte| **byte != 0).count())
    }

    fn put(&self, to: &mut Vec<u8>) {
        match self {
            Input::Line(line) => to.extend(line),
            Input::Blob { b, asked, .. } => match asked.as_deref() {
                Some([Asked { path, name }]) => {
                    to.extend([b"T", field(&hex(b)), field(&hex(path)), field(&hex(name))].join(&b' '))
                }
                _ => to.extend(hex(b)),
            },
        }
        to.push(b'\n');
    }
}

impl Program {
    pub fn start(path: &str, speaks: Speaks) -> Program {
        let mut child = Command::new(path)
            .stdin(Stdio::piped())
            .stdout(Stdio::piped())
            .spawn()
            .unwrap_or_else(|why| panic!("{path} does not start: {why}"));
        let output = BufReader::with_capacity(1 << 16, child.stdout.take().unwrap());
        // What is written has its own thread, so that neither side waits for the other.
        let mut pipe = child.stdin.take().unwrap();
        let (input, lines) = channel::<Vec<u8>>();
        thread::spawn(move || lines.iter().try_for_each(|text| pipe.write_all(&text)));
        Program { speaks, child, input: Some(input), output }
    }
}

impl Ours for Program {
    fn speaks(&self) -> Speaks {
        self.speaks
    }

    fn ask(&mut self, inputs: &[Input]) -> Vec<Told> {
        let mut text = Vec::new();
        inputs.iter().for_each(|input| input.put(&mut text));
        self.input.as_ref().unwrap().send(text).expect("the program reads no more");
        let mut next = || {
            let mut line = String::new();
            let got = self.output.read_line(&mut line).expect("the program's answers");
            assert!(0 < got, "the program ended before its input");
            line.truncate(line.trim_end_matches('\n').len());
            Told::Line(line)
        };
        inputs.iter().map(|_| next()).collect()
    }
}

impl Drop for Program {
    fn drop(&mut self) {
        self.input = None;
        let _ = self.child.wait();
    }
}
