// The static library's calls on plain slices: a slice goes as a pointer and a count of its elements. An answer has room for 6 numbers.
use crate::answer::{Answer, Lookups};
use crate::calls::{dangrisuk_find, dangrisuk_find_from, dangrisuk_load, dangrisuk_measure, Property, PROPERTIES};
use crate::lookups::{self, Asked, Said};
use crate::ours::{Input, Ours, Speaks, Told};
use crate::rows::Lent;
use crate::scope::Room;

// What stands in an answer before a call and in the places that a call leaves alone, and what follows an answer where a load wrote more
// than its rows: no number of any answer.
const UNSAID: u64 = 0x9999_9999_9999_9999;

// The numbers that a call wrote, from the first place on.
fn told(call: impl FnOnce(*mut u64, usize)) -> Answer {
    let mut answer = vec![UNSAID; 6];
    call(answer.as_mut_ptr(), answer.len());
    let said = answer.iter().rposition(|n| *n != UNSAID).map_or(0, |last| last + 1);
    answer.truncate(said);
    answer
}

// What stands in every table before a load, and in what a load leaves alone.
const BEFORE: u32 = 7;

#[derive(Default, PartialEq)]
pub struct Tables {
    reserved: Vec<u64>,
    nodes: Vec<u32>,
    props: Vec<u32>,
}

impl Tables {
    // So many rows of each and a part of one, as before a load.
    fn before(room: Room) -> Tables {
        let reserved = vec![BEFORE as u64; room.reservations * 2 + 1];
        Tables { reserved, nodes: vec![BEFORE; room.nodes * 7 + 3], props: vec![BEFORE; room.props * 4 + 3] }
    }

    // The numbers of so many rows of each, which are then set back.
    fn take(&mut self, [reservations, nodes, props]: [usize; 3]) -> Vec<Answer> {
        vec![
            taken(&mut self.reserved, reservations, 2, BEFORE as u64),
            taken(&mut self.nodes, nodes, 7, BEFORE),
            taken(&mut self.props, props, 4, BEFORE),
        ]
    }
}

fn taken<T: Copy + Into<u64>>(table: &mut [T], rows: usize, width: usize, before: T) -> Answer {
    let used = rows.saturating_mul(width).min(table.len());
    let numbers = table[..used].iter().map(|n| (*n).into()).collect();
    table[..used].fill(before);
    numbers
}

fn load(b: &[u8], t: &mut Tables) -> Answer {
    let (reserved, nodes, props) = (&mut t.reserved, &mut t.nodes, &mut t.props);
    told(|answer, room| unsafe {
        dangrisuk_load(
            b.as_ptr(),
            b.len(),
            reserved.as_mut_ptr(),
            reserved.len(),
            nodes.as_mut_ptr(),
            nodes.len(),
            props.as_mut_ptr(),
            props.len(),
            answer,
            room,
        )
    })
}

fn measure(b: &[u8]) -> Answer {
    told(|answer, room| unsafe { dangrisuk_measure(b.as_ptr(), b.len(), answer, room) })
}

// The library's lookups in lent tables.
pub struct Library<'a>(pub &'a Lent<'a>);

impl Library<'_> {
    fn property(&self, call: Property, row: usize, name: &[u8]) -> Answer {
        let Lent { b, nodes, node_count, props, prop_count } = *self.0;
        told(|answer, room| unsafe {
            call(
                b.as_ptr(),
                b.len(),
                nodes.as_ptr(),
                nodes.len(),
                node_count,
                props.as_ptr(),
                props.len(),
                prop_count,
                row,
                name.as_ptr(),
                name.len(),
                answer,
                room,
            )
        })
    }
}

impl Lookups for Library<'_> {
    fn find(&self, path: &[u8]) -> Answer {
        let Lent { b, nodes, node_count, .. } = *self.0;
        let (blob, table, text) = (b.as_ptr(), nodes.as_ptr(), path.as_ptr());
        told(|answer, room| unsafe {
            dangrisuk_find(blob, b.len(), table, nodes.len(), node_count, text, path.len(), answer, room)
        })
    }

    fn find_from(&self, row: usize, path: &[u8]) -> Answer {
        let Lent { b, nodes, node_count, .. } = *self.0;
        let (blob, table, text) = (b.as_ptr(), nodes.as_ptr(), path.as_ptr());
        told(|answer, room| unsafe {
            dangrisuk_find_from(blob, b.len(), table, nodes.len(), node_count, row, text, path.len(), answer, room)
        })
    }

    fn properties(&self, row: usize, name: &[u8]) -> [Answer; 5] {
        PROPERTIES.map(|call| self.property(call, row, name))
    }
}

// The library asked in process. Its tables are as before a load whenever none is under way.
pub struct Linked {
    room: Room,
    tables: Tables,
    before: Tables,
}

impl Linked {
    pub fn with(room: Room) -> Linked {
        Linked { room, tables: Tables::before(room), before: Tables::before(room) }
    }

    fn said(&mut self, b: &[u8], room: Room, asked: &[Asked]) -> Said {
        if room != self.room {
            *self = Linked::with(room);
        }
        let answer = load(b, &mut self.tables);
        let (mut found, mut counts) = (vec![], [0; 3]);
        if let [0, _, _, reservations, nodes, props] = answer[..] {
            counts = [reservations, nodes, props].map(|n| n as usize);
            let Tables { nodes, props, .. } = &self.tables;
            let lent = Lent { b, nodes, node_count: counts[1], props, prop_count: counts[2] };
            found.extend(asked.iter().flat_map(|one| lookups::found(&Library(&lent), one)));
        }
        let rows = self.tables.take(counts);
        let mut parts = vec![answer];
        parts.extend(rows.into_iter().filter(|_| counts != [0; 3]).chain(found));
        // "No refusal writes anything", and an accepted load nothing but its rows.
        if self.tables != self.before {
            parts.push(vec![UNSAID]);
            self.tables = Tables::before(room);
        }
        Said { measured: measure(b), parts }
    }
}

impl Ours for Linked {
    fn speaks(&self) -> Speaks {
        Speaks::Library
    }

    fn ask(&mut self, inputs: &[Input]) -> Vec<Told> {
        let mut said = |input: &Input| match input {
            Input::Blob { b, room, asked } => Told::Said(self.said(b, *room, asked.as_deref().unwrap_or(&[]))),
            Input::Line(_) => panic!("the library reads no lines"),
        };
        inputs.iter().map(|input| said(input)).collect()
    }
}
