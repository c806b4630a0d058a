// What is said of a blob and of the lookups after its load: by the original, and by document 01's words.
use crate::answer::{Answer, Lookups};
use crate::lines::{hex, text};
use crate::original;
use crate::rows::Lent;
use crate::scope::{self, Room, Rows, DEPTH};
use crate::tree::Tree;

// What is looked up in a loaded blob: a path, and a name at the row found.
#[derive(Clone)]
pub struct Asked {
    pub path: Vec<u8>,
    pub name: Vec<u8>,
}

// What a reader says of a blob: measure's answer, and the parts of the answer to a load and the lookups after it.
#[derive(Clone, PartialEq)]
pub struct Said {
    pub measured: Answer,
    pub parts: Vec<Answer>,
}

impl Said {
    // Neither a load nor a measure.
    pub fn only(answer: Answer) -> Said {
        Said { measured: answer.clone(), parts: vec![answer] }
    }

    // Of what loads, given room: load's answer and the rows; for each thing asked find's answer, and where that is 0 those of the
    // property found there. Where nothing may be asked, load's answer alone.
    fn of(rows: &Rows, lookups: &dyn Lookups, room: Room, asked: Option<&[Asked]>) -> Said {
        let measured = rows.numbers();
        let parts = match (scope::room(rows, room), asked) {
            (Err(why), _) => vec![why],
            (Ok(()), None) => vec![measured.clone()],
            (Ok(()), Some(asked)) => {
                let tables = [rows.reserved.concat(), rows.nodes.concat(), rows.props.concat()];
                let found = asked.iter().flat_map(|one| found(lookups, one));
                [measured.clone()].into_iter().chain(tables).chain(found).collect()
            }
        };
        Said { measured, parts }
    }
}

// Find's answer to a path, and where that is 0, those of the property of a name there.
pub fn found(lookups: &dyn Lookups, asked: &Asked) -> Vec<Answer> {
    let mut answers = vec![lookups.find(&asked.path)];
    if answers[0][0] == 0 {
        answers.extend(lookups.properties(answers[0][1] as usize, &asked.name));
    }
    answers
}

pub fn by_original(b: &[u8], room: Room, asked: Option<&[Asked]>) -> Said {
    match original::read(b) {
        Err(why) => Said::only(why),
        Ok(loaded) => Said::of(&loaded.rows, &Tree::of(&loaded, b), room, asked),
    }
}

// The same by document 01's reading, its lookups in the rows that its load writes.
pub fn by_scope(b: &[u8], room: Room, asked: Option<&[Asked]>) -> Said {
    match scope::read(b, DEPTH) {
        Err(why) => Said::only(why),
        Ok(rows) => {
            let (nodes, props) = rows.tables();
            let (node_count, prop_count) = (rows.nodes.len(), rows.props.len());
            Said::of(&rows, &Lent { b, nodes: &nodes, node_count, props: &props, prop_count }, room, asked)
        }
    }
}

// The parts of the answer, which both give.
pub fn due(b: &[u8], room: Room, asked: Option<&[Asked]>) -> Vec<Answer> {
    let (original, scope) = (by_original(b, room, asked).parts, by_scope(b, room, asked).parts);
    assert!(
        original == scope,
        "{}: {} by the original, {} by document 01",
        String::from_utf8_lossy(&hex(b)),
        text(&original),
        text(&scope)
    );
    original
}
