// Lookups in the rows of one blob by all who answer them: document 01's words, the library, and the original where the rows are those
// of its load.
use crate::answer::{Answer, Lookups};
use crate::asks;
use crate::compare::Counts;
use crate::library::Library;
use crate::random::Random;
use crate::rows::Lent;
use crate::scope::{Rows, NONE};
use crate::tree::Tree;

enum Question<'a> {
    Find(&'a [u8]),
    FindFrom(usize, &'a [u8]),
    Properties(usize, &'a [u8]),
}

impl Question<'_> {
    fn put(&self, to: &dyn Lookups) -> Vec<Answer> {
        match self {
            Question::Find(path) => vec![to.find(path)],
            Question::FindFrom(row, path) => vec![to.find_from(*row, path)],
            Question::Properties(row, name) => to.properties(*row, name).to_vec(),
        }
    }

    fn text(&self) -> String {
        match self {
            Question::Find(path) => format!("path {}", path.escape_ascii()),
            Question::FindFrom(row, path) => format!("path {} from row {row}", path.escape_ascii()),
            Question::Properties(row, name) => format!("property {} of row {row}", name.escape_ascii()),
        }
    }
}

// Who answers, and what is said where they differ.
pub struct Sides<'a> {
    pub what: &'a str,
    pub lent: Lent<'a>,
    pub original: Option<&'a Tree<'a>>,
}

impl Sides<'_> {
    fn compare(&self, question: Question, c: &mut Counts) {
        let due = question.put(&self.lent);
        let original = self.original.map(|tree| question.put(tree));
        let ours = question.put(&Library(&self.lent));
        due.iter().for_each(|answer| c.lookups[answer[0].min(16) as usize] += 1);
        if due != ours || original.as_ref().is_some_and(|original| *original != due) {
            println!("{}: a difference at {}:", self.what, question.text());
            println!("original:    {original:?}");
            println!("document 01: {due:?}");
            println!("ours:        {ours:?}");
            println!("stopped at the first difference");
            std::process::exit(1);
        }
    }

    // Every node by its path from the tree and from a node above it, and by paths close to those; every property of every node.
    pub fn all(&self, rows: &Rows, random: &mut Random, c: &mut Counts) {
        for row in 0..rows.nodes.len() {
            let path = asks::tree_path(self.lent.b, rows, row);
            let (above, rest) = self.inner(rows, row, random);
            self.compare(Question::Find(&path), c);
            self.compare(Question::Find(&asks::one_close(random, &path)), c);
            self.compare(Question::FindFrom(above, &rest), c);
            self.compare(Question::FindFrom(above, &asks::one_close(random, &rest)), c);
            self.properties(rows, row, random, c);
        }
    }

    // The names of a node's properties, one close to each, and one that may be another node's.
    fn properties(&self, rows: &Rows, row: usize, random: &mut Random, c: &mut Counts) {
        let [.., first, count] = rows.nodes[row];
        for prop in first..first + count {
            let name = asks::name(self.lent.b, rows, prop as usize);
            self.compare(Question::Properties(row, name), c);
            self.compare(Question::Properties(row, &asks::one_close(random, name)), c);
        }
        if !rows.props.is_empty() {
            let other = random.below(rows.props.len());
            self.compare(Question::Properties(row, asks::name(self.lent.b, rows, other)), c);
        }
    }

    // A row and two others, with what leads there and what they have; starts that are no rows.
    fn about(&self, rows: &Rows, row: usize, random: &mut Random, c: &mut Counts) {
        for at in [row, (row + 1) % rows.nodes.len(), random.below(rows.nodes.len())] {
            let (above, rest) = self.inner(rows, at, random);
            self.compare(Question::Find(&asks::tree_path(self.lent.b, rows, at)), c);
            self.compare(Question::FindFrom(above, &rest), c);
            self.properties(rows, at, random, c);
        }
        for start in [row, self.lent.node_count, self.lent.node_count.wrapping_sub(1), usize::MAX] {
            self.compare(Question::FindFrom(start, b""), c);
            self.compare(Question::Properties(start, b"reg"), c);
        }
        self.compare(Question::Find(b"no-slash"), c);
    }

    // A row, or one that is up to three nodes above it, and the path from that.
    fn inner(&self, rows: &Rows, row: usize, random: &mut Random) -> (usize, Vec<u8>) {
        let mut above = row;
        for _ in 0..random.below(4) {
            above = if rows.nodes[above][2] == NONE { above } else { rows.nodes[above][2] as usize };
        }
        (above, asks::path(self.lent.b, rows, above, row))
    }
}

// How often the tables of a blob are damaged.
const ROUNDS: usize = 60;

// A number that means something in a row: near it, near the counts and the blob's length, or what just reaches them.
fn telling(random: &mut Random, row: usize, numbers: &[u32], sizes: [usize; 3]) -> u32 {
    let near = |n: u32| [n.wrapping_sub(1), n, n.wrapping_add(1)];
    let mut all = [near(row as u32), near(NONE as u32), near(1 << 31)].concat();
    for size in sizes {
        all.extend(near(size as u32));
        numbers.iter().for_each(|n| all.extend(near((size as u32).wrapping_sub(*n))));
    }
    all[random.below(all.len())]
}

// The tables of a blob with one number changed, or with another count.
pub fn damaged(what: &str, b: &[u8], rows: &Rows, random: &mut Random, c: &mut Counts) {
    let good = rows.tables();
    let sizes = [b.len(), rows.nodes.len(), rows.props.len()];
    for _ in 0..ROUNDS {
        let (mut nodes, mut props) = good.clone();
        let mut counts = [rows.nodes.len(), rows.props.len()];
        let row = random.below(rows.nodes.len());
        let [.., first, count] = rows.nodes[row].map(|n| n as usize);
        let change = match random.below(4) {
            0 => {
                let (which, n) = (random.below(2), random.below(6));
                let was = counts[which];
                counts[which] = [0, 1, was.saturating_sub(1), was + 1, random.below(was), usize::MAX][n];
                format!("counts {counts:?}")
            }
            1 if 0 < count => {
                let (at, k) = (first + random.below(count), random.below(4));
                props[4 * at + k] = telling(random, at, &good.1[4 * at..4 * at + 4], sizes);
                format!("property row {at}: {:?}", &props[4 * at..4 * at + 4])
            }
            _ => {
                let k = random.below(7);
                nodes[7 * row + k] = telling(random, row, &good.0[7 * row..7 * row + 7], sizes);
                format!("node row {row}: {:?}", &nodes[7 * row..7 * row + 7])
            }
        };
        let lent = Lent { b, nodes: &nodes, node_count: counts[0], props: &props, prop_count: counts[1] };
        Sides { what: &format!("{what}, {change}"), lent, original: None }.about(rows, row, random, c);
    }
}
