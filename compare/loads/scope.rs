// Document 01's reading of a blob, written from its words: the answer's numbers and the rows of the three tables.

pub const NONE: u64 = 4294967295;

// How deep nodes may nest; the root is at depth 1.
pub const DEPTH: usize = 64;

// How many rows each table has room for.
#[derive(Clone, Copy, PartialEq)]
pub struct Room {
    pub reservations: usize,
    pub nodes: usize,
    pub props: usize,
}

// The rows of an accepted blob, and its boot CPU.
#[derive(Clone, Default, PartialEq)]
pub struct Rows {
    pub boot: u64,
    pub reserved: Vec<[u64; 2]>,
    pub nodes: Vec<[u64; 7]>,
    pub props: Vec<[u64; 4]>,
}

impl Rows {
    // What an accepted load answers.
    pub fn numbers(&self) -> Vec<u64> {
        let counts = [self.reserved.len(), self.nodes.len(), self.props.len()].map(|n| n as u64);
        [&[0, 17, self.boot], &counts[..]].concat()
    }

    // The node table and the property table of exactly these rows.
    pub fn tables(&self) -> (Vec<u32>, Vec<u32>) {
        let table = |numbers: Vec<u64>| numbers.into_iter().map(|n| n as u32).collect();
        (table(self.nodes.concat()), table(self.props.concat()))
    }
}

// A refusal: its number, then what it carries.
pub type Refusal = Vec<u64>;

struct Reader<'a> {
    b: &'a [u8],
    strings: usize,
    depth: usize,
    rows: Rows,
}

pub fn align(pos: usize) -> usize {
    (pos + 3) / 4 * 4
}

impl<'a> Reader<'a> {
    // "An unreadable position gives 3."
    fn number(&self, pos: usize, size: usize) -> Result<u64, Refusal> {
        let part = self.b.get(pos..pos + size).ok_or(vec![3])?;
        Ok(part.iter().fold(0, |n, x| n * 256 + *x as u64))
    }

    fn word(&self, pos: usize) -> Result<u64, Refusal> {
        self.number(pos, 4)
    }

    // The length of the string at a position, which has to end in a zero byte.
    fn string(&self, pos: usize) -> Result<usize, Refusal> {
        let rest = self.b.get(pos..).ok_or(vec![3])?;
        rest.iter().position(|x| *x == 0).ok_or(vec![3])
    }

    fn utf8(&self, pos: usize, len: usize) -> Result<(), Refusal> {
        std::str::from_utf8(&self.b[pos..pos + len]).map(|_| ()).map_err(|_| vec![5])
    }

    fn reservations(&mut self, from: usize) -> Result<(), Refusal> {
        let mut pos = from;
        loop {
            let (offset, size) = (self.number(pos, 8)?, self.number(pos + 8, 8)?);
            self.rows.reserved.push([offset, size]);
            if size == 0 {
                return Ok(());
            }
            pos += 16;
        }
    }

    // The property whose word 3 stands at a position. Returns what follows it.
    fn property(&mut self, pos: usize) -> Result<usize, Refusal> {
        let size = self.word(pos + 4)? as usize;
        let name = self.strings + self.word(pos + 8)? as usize;
        let value = pos + 12;
        // "A value may not end at the blob's last byte."
        if self.b.len() <= value + size {
            return Err(vec![3]);
        }
        let len = self.string(name)?;
        self.utf8(name, len)?;
        self.rows.props.push([name as u64, len as u64, value as u64, size as u64]);
        Ok(align(value + size))
    }

    // The node at a position, at a depth; the root is at depth 1. Returns what follows it.
    fn node(&mut self, pos: usize, depth: usize, parent: u64) -> Result<usize, Refusal> {
        if self.word(pos)? != 1 {
            return Err(vec![4, pos as u64]);
        }
        if self.depth < depth {
            return Err(vec![7, pos as u64]);
        }
        let (name, row, first) = (pos + 4, self.rows.nodes.len(), self.rows.props.len());
        let len = self.string(name)?;
        self.rows.nodes.push([name as u64, len as u64, parent, NONE, NONE, first as u64, 0]);
        let mut at = align(name + len + 1);
        while self.word(at)? == 3 {
            at = self.property(at)?;
            self.rows.nodes[row][6] += 1;
        }
        // Where the next child's row is to be written: the node's first child, then that child's next sibling.
        let mut link = (row, 3);
        while self.word(at)? == 1 {
            let child = self.rows.nodes.len();
            at = self.node(at, depth + 1, row as u64)?;
            self.rows.nodes[link.0][link.1] = child as u64;
            link = (child, 4);
        }
        if self.word(at)? != 2 {
            return Err(vec![4, at as u64]);
        }
        self.utf8(name, len)?;
        Ok(at + 4)
    }

    fn blob(&mut self) -> Result<(), Refusal> {
        if self.word(0)? != 0xd00dfeed {
            return Err(vec![1]);
        }
        if self.word(4)? != self.b.len() as u64 {
            return Err(vec![2]);
        }
        if self.word(20)? != 17 {
            return Err(vec![6]);
        }
        let (structure, strings, reservations) = (self.word(8)?, self.word(12)?, self.word(16)?);
        self.rows.boot = self.word(28)?;
        self.strings = strings as usize;
        self.reservations(reservations as usize)?;
        self.node(structure as usize, 1, NONE)?;
        Ok(())
    }
}

// Everything but the room, to a depth.
pub fn read(b: &[u8], depth: usize) -> Result<Rows, Refusal> {
    let mut reader = Reader { b, strings: 0, depth, rows: Rows::default() };
    reader.blob()?;
    Ok(reader.rows)
}

// "Room is judged after everything else has passed, in the order 8, 9, 10."
pub fn room(rows: &Rows, room: Room) -> Result<(), Refusal> {
    for (number, needed, has) in [
        (8, rows.reserved.len(), room.reservations),
        (9, rows.nodes.len(), room.nodes),
        (10, rows.props.len(), room.props),
    ] {
        if has < needed {
            return Err(vec![number, needed as u64]);
        }
    }
    Ok(())
}
