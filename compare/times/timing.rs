// Runs by the clock: sides in turns, medians.
use std::hint::black_box;
use std::time::Instant;

// A side asked for one set of paths (loads have only one set): the nanoseconds that it took.
pub type Side<'a> = Box<dyn FnMut(usize) -> f64 + 'a>;

// The nanoseconds of a call. What it gives is dropped afterwards.
pub fn clock<T>(call: impl FnOnce() -> T) -> f64 {
    let start = Instant::now();
    let given = black_box(call());
    let took = start.elapsed();
    drop(given);
    took.as_nanos() as f64
}

// What is asked in the runs: which set is counted in a run, and which sets the same side is asked just before, uncounted.
pub struct Order {
    pub runs: usize,
    pub before: fn(usize) -> Vec<usize>,
    pub counted: fn(usize) -> usize,
}

// The same in every round, after one round that is not counted: the sides just take turns.
pub fn in_turns(runs: usize) -> Order {
    Order { runs, before: |run| vec![0; (run == 0) as usize], counted: |_| 0 }
}

// The same again and again, each side by itself: nothing is new to branch predictors.
pub fn again(runs: usize) -> Order {
    Order { runs, before: |_| vec![0; 5], counted: |_| 0 }
}

// Another set in every run, after one that is different too: caches are warm, the paths are new.
pub fn first_asked(runs: usize) -> Order {
    Order { runs, before: |run| vec![2 * run], counted: |run| 2 * run + 1 }
}

// The sides' median times, in turns.
pub fn medians(order: Order, mut sides: Vec<Side>) -> Vec<f64> {
    let mut times = vec![vec![]; sides.len()];
    for run in 0..order.runs {
        for (side, times) in sides.iter_mut().zip(&mut times) {
            (order.before)(run).into_iter().for_each(|set| _ = side(set));
            times.push(side((order.counted)(run)));
        }
    }
    times.iter_mut().map(|times| median(times)).collect()
}

fn median(times: &mut [f64]) -> f64 {
    times.sort_by(f64::total_cmp);
    times[times.len() / 2]
}
