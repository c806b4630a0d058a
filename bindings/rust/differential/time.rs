// How long load, path lookups and property lookups take, the original's and ours: one process, in turns, medians of 11 runs.
use std::hint::black_box;
use std::time::Instant;

const RUNS: usize = 11;

fn used<T>(answer: T) {
    let _ = black_box(answer);
}

// Nanoseconds of the original's work and of ours, the medians of the runs, each after one that is not counted.
fn median(mut theirs: impl FnMut(), mut mine: impl FnMut()) -> [u64; 2] {
    fn run(work: &mut impl FnMut()) -> u64 {
        work();
        let start = Instant::now();
        work();
        start.elapsed().as_nanos() as u64
    }
    let mut times: [_; 2] = [vec![], vec![]];
    for _ in 0..RUNS {
        times[0].push(run(&mut theirs));
        times[1].push(run(&mut mine));
    }
    times.map(|mut times| {
        times.sort();
        times[RUNS / 2]
    })
}

fn list<'a>(node: &'a original::Node, path: String, to: &mut Vec<(String, &'a original::Node)>) {
    node.children.iter().for_each(|child| list(child, format!("{path}/{}", child.name), to));
    to.push((path, node));
}

fn line(what: &str, count: usize, [theirs, mine]: [u64; 2]) {
    let each = |time: u64| time as f64 / count as f64;
    println!("{what:<24} {count:>9} {:>12.1} {:>12.1} {:>7.2}", each(theirs), each(mine), mine as f64 / theirs as f64);
}

pub fn report(files: &[String]) {
    let mut sums = [[0; 2]; 3];
    let mut counts = [0; 3];
    for name in files {
        let b = std::fs::read(name).expect(name);
        let (Ok(t), Ok(m)) = (original::DeviceTree::load(&b), ours::DeviceTree::load(&b)) else { continue };
        let mut nodes = vec![];
        list(&t.root, String::new(), &mut nodes);
        nodes.last_mut().unwrap().0 = "/".to_owned();
        let load = median(|| used(original::DeviceTree::load(black_box(&b))), || used(ours::DeviceTree::load(black_box(&b))));
        let find = median(
            || nodes.iter().for_each(|(path, _)| used(t.find(black_box(path)))),
            || nodes.iter().for_each(|(path, _)| used(m.find(black_box(path)))),
        );
        let twins: Vec<_> = nodes.iter().map(|(path, _)| (t.find(path).unwrap(), m.find(path).unwrap())).collect();
        let asks: Vec<_> = twins.iter().flat_map(|&(t, m)| t.props.iter().map(move |(name, _)| (t, m, name))).collect();
        let props = median(
            || asks.iter().for_each(|(t, _, name)| used(t.prop_u32(black_box(name)))),
            || asks.iter().for_each(|(_, m, name)| used(m.prop_u32(black_box(name)))),
        );
        for (k, (times, count)) in [(load, 1), (find, nodes.len()), (props, asks.len())].into_iter().enumerate() {
            counts[k] += count;
            sums[k][0] += times[0];
            sums[k][1] += times[1];
        }
    }
    println!("{:<24} {:>9} {:>12} {:>12} {:>7}", "nanoseconds each", "calls", "original", "ours", "ratio");
    for (k, what) in ["load and drop", "find, every path", "prop_u32, every property"].iter().enumerate() {
        line(what, counts[k], sums[k]);
    }
}
