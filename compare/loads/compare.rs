// Asks the original, document 01's reading and the new reader for each input, and stops at the first difference.
use crate::asks;
use crate::blobs::{damaged, fix_size};
use crate::lines::{hex, spelled, text, FRAME, NAME, ROOM};
use crate::lookups::{self, by_original, by_scope, Asked, Said};
use crate::ours::{said_text, Input, Ours, Speaks, Told};
use crate::random::Random;
use crate::scope::{self, Room, DEPTH};

// How many inputs of each kind; how often each number was load's answer, and a lookup's.
#[derive(Default)]
pub struct Counts {
    pub kinds: Vec<(&'static str, usize)>,
    pub answers: [usize; 17],
    pub lookups: [usize; 17],
}

// Which part of the inputs is asked here: one of so many.
#[derive(Clone, Copy)]
pub struct Share {
    pub mine: usize,
    pub of: usize,
}

pub struct Comparison {
    pub random: Random,
    pub counts: Counts,
    // How many lookups of a path and a name follow each accepted load, where they are told.
    pub asks: usize,
    scale: usize,
    share: Share,
    turn: usize,
    ours: Box<dyn Ours>,
    waiting: Vec<Input>,
    kind: &'static str,
    seen: usize,
}

// The answer that is stored for a frame.
pub fn due(line: &[u8]) -> String {
    text(&spelled(line, FRAME).map_or(vec![vec![16]], |b| lookups::due(&b, ROOM, None)))
}

struct Difference {
    input: Input,
    original: Said,
    scope: Said,
    ours: Told,
}

impl Comparison {
    pub fn new(ours: Box<dyn Ours>, share: Share, seed: u64, scale: usize) -> Comparison {
        Comparison {
            random: Random(seed.wrapping_mul(share.of as u64).wrapping_add(share.mine as u64)),
            counts: Counts::default(),
            asks: 1,
            scale,
            share,
            turn: 0,
            ours,
            waiting: Vec::new(),
            kind: "",
            seen: 0,
        }
    }

    pub fn run(&mut self, kind: &'static str, asks: usize, inputs: impl FnOnce(&mut Comparison)) {
        (self.kind, self.asks) = (kind, asks);
        let begun = std::time::Instant::now();
        inputs(self);
        self.flush();
        if self.share.of == 1 {
            println!("{kind}: {} compared, {:.1} s", self.seen, begun.elapsed().as_secs_f64());
        }
        self.counts.kinds.push((kind, self.seen));
        self.seen = 0;
    }

    // Blobs from files, whole and damaged. One that is too long for a line is to be refused as no frame.
    pub fn real(&mut self, files: &[String]) {
        self.asks = 100;
        let good: Vec<Vec<u8>> = files.iter().map(|file| std::fs::read(file).expect(file)).collect();
        good.iter().for_each(|b| self.blob(b.clone()));
        self.asks = 4;
        for b in good.iter().filter(|b| b.len() <= FRAME) {
            for _ in 0..100 * self.scale {
                let changed = damaged(&mut self.random, b);
                self.blob(changed);
            }
        }
    }

    // This part's share of so many random inputs.
    pub fn portion(&self, count: usize) -> usize {
        self.scale * count / self.share.of
    }

    // Whether what comes next is this part's, where every part goes through all of it.
    pub fn my_turn(&mut self) -> bool {
        self.turn += 1;
        self.turn % self.share.of == self.share.mine
    }

    // One of the blobs that every part goes through.
    pub fn blob(&mut self, b: Vec<u8>) {
        if self.my_turn() {
            self.take(b);
        }
    }

    // A blob, and where lookups are told what is looked up in it.
    pub fn take(&mut self, b: Vec<u8>) {
        if self.ours.speaks() == Speaks::Frames {
            return self.input(Input::Blob { b, room: ROOM, asked: None });
        }
        let asked = self.asked(&b, ROOM);
        self.ask(b, asked);
    }

    // Some lookups in a blob that loads, given room.
    fn asked(&mut self, b: &[u8], room: Room) -> Vec<Asked> {
        match scope::read(b, DEPTH).ok().filter(|rows| b.len() <= self.longest() && scope::room(rows, room).is_ok()) {
            None => vec![Asked { path: b"/".to_vec(), name: Vec::new() }],
            Some(rows) => (0..self.asks).map(|_| asks::some(&mut self.random, b, &rows, NAME)).collect(),
        }
    }

    pub fn line(&mut self, line: Vec<u8>) {
        self.input(Input::Line(line));
    }

    pub fn ask(&mut self, b: Vec<u8>, asked: Vec<Asked>) {
        if self.ours.speaks() == Speaks::Library {
            return self.input(Input::Blob { b, room: ROOM, asked: Some(asked) });
        }
        for one in asked {
            self.input(Input::Blob { b: b.clone(), room: ROOM, asked: Some(vec![one]) });
        }
    }

    // A blob with another room, for the library.
    #[cfg(library)]
    pub fn within(&mut self, b: Vec<u8>, room: Room) {
        let asked = Some(self.asked(&b, room));
        self.input(Input::Blob { b, room, asked });
    }

    fn input(&mut self, input: Input) {
        self.waiting.push(input);
        if self.waiting.len() == 2048 {
            self.flush();
        }
    }

    fn flush(&mut self) {
        let inputs = std::mem::take(&mut self.waiting);
        self.seen += inputs.len();
        let differing = self.differences(inputs);
        if let Some(smallest) = differing.into_iter().min_by_key(|d| d.input.size()) {
            let smallest = self.shrink(smallest);
            self.stop(smallest);
        }
    }

    // The most bytes of a blob that are no bad line.
    fn longest(&self) -> usize {
        if self.ours.speaks() == Speaks::Library {
            usize::MAX
        } else {
            FRAME
        }
    }

    // What the original and document 01's reading say of an input.
    fn both(&self, input: &Input) -> (Said, Said) {
        let said = |b: &[u8], room, asked| (by_original(b, room, asked), by_scope(b, room, asked));
        let bad = || (Said::only(vec![16]), Said::only(vec![16]));
        match input {
            Input::Line(line) => spelled(line, FRAME).map_or_else(bad, |b| said(&b, ROOM, None)),
            Input::Blob { b, .. } if self.longest() < b.len() => bad(),
            Input::Blob { b, room, asked } => said(b, *room, asked.as_deref()),
        }
    }

    fn differences(&mut self, inputs: Vec<Input>) -> Vec<Difference> {
        let told = self.ours.ask(&inputs);
        let mut differing = Vec::new();
        for (input, ours) in inputs.into_iter().zip(told) {
            let (original, scope) = self.both(&input);
            self.counts.answers[original.parts[0][0].min(16) as usize] += 1;
            original.parts.iter().skip(4).for_each(|answer| self.counts.lookups[answer[0].min(16) as usize] += 1);
            if original != scope || !ours.is(&original) {
                differing.push(Difference { input, original, scope, ours });
            }
        }
        differing
    }

    // A smaller input that still differs: fewer lookups, parts of the blob left out, from large to small, then bytes set to 0, as
    // long as anything helps.
    fn shrink(&mut self, from: Difference) -> Difference {
        let Input::Blob { b, room, asked } = from.input.clone() else { return from };
        let mut least = from;
        let each = asked.iter().flatten().map(|one| Some(vec![one.clone()]));
        for asked in [Some(vec![])].into_iter().chain(each).filter(|_| asked.is_some()) {
            if let Some(less) = self.differences(vec![Input::Blob { b: b.clone(), room, asked }]).pop() {
                least = less;
                break;
            }
        }
        let mut tries = 0;
        loop {
            let before = least.input.size();
            for size in [4096, 1024, 256, 64, 16, 4, 1, 0] {
                least = self.without_parts(least, size, &mut tries);
            }
            if least.input.size() == before {
                return least;
            }
        }
    }

    // Parts of one size left out, one after the other, wherever a difference remains.
    fn without_parts(&mut self, from: Difference, size: usize, tries: &mut usize) -> Difference {
        let (mut least, mut pos) = (from, 0);
        while pos + size.max(1) <= least.input.bytes().len() && *tries < 50_000 {
            *tries += 1;
            match self.smaller(&least.input, pos, size) {
                Some(less) => least = less,
                None => pos += size.max(1),
            }
        }
        least
    }

    // The difference that is left without a part, with the length right or as it was; a part of size 0 is a byte set to 0.
    fn smaller(&mut self, input: &Input, pos: usize, size: usize) -> Option<Difference> {
        let mut left = |less: Vec<u8>| self.differences(vec![input.with(less)]).pop();
        let mut less = input.bytes().to_vec();
        if size == 0 {
            if less[pos] == 0 {
                return None;
            }
            less[pos] = 0;
            return left(less);
        }
        less.drain(pos..pos + size);
        let as_it_was = less.clone();
        fix_size(&mut less);
        left(less).or_else(|| left(as_it_was))
    }

    fn stop(&self, d: Difference) -> ! {
        println!("{}: a difference at this input:", self.kind);
        match &d.input {
            Input::Line(line) => println!("{}", String::from_utf8_lossy(line)),
            Input::Blob { b, room, asked } => {
                println!("{}", String::from_utf8_lossy(&hex(b)));
                println!(
                    "room:        {} reservations, {} nodes, {} properties",
                    room.reservations, room.nodes, room.props
                );
                for Asked { path, name } in asked.iter().flatten() {
                    println!("path, name:  {}, {}", path.escape_ascii(), name.escape_ascii());
                }
            }
        }
        println!("original:    {}", said_text(&d.original));
        println!("document 01: {}", said_text(&d.scope));
        println!("ours:        {}", d.ours.text());
        println!("stopped at the first difference");
        std::process::exit(1);
    }
}
