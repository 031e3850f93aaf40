//! Times of several sides on the same inputs, in turn, and the table of them.

use std::hint::black_box;
use std::ops::Range;
use std::time::{Duration, Instant};

/// Inputs of each kind, and the most calls in one timed run.
pub const POOL: usize = 512;
const MOST: usize = 64;
/// A run is short, so that few runs are interrupted by other work of the machine.
const RUN_TIME: Duration = Duration::from_micros(100);

/// Makes one side's calls on these inputs of the pool.
pub type Side<'a> = Box<dyn Fn(Range<usize>) + 'a>;

/// How many calls make a run: 4 to 64, as many as the slowest side does in its time.
fn calls(sides: &[&Side]) -> usize {
    let mut calls = MOST;
    for side in sides {
        side(0..POOL);
        let start = Instant::now();
        side(0..POOL);
        let pool = start.elapsed();
        while calls > 4 && pool * calls as u32 > RUN_TIME * POOL as u32 {
            calls /= 2;
        }
    }
    calls
}

/// Times all sides in turn over the same inputs, another part of the pool in each round: ns per call.
fn measure(budget: Duration, inputs: &[Vec<u8>], sides: &[&Side]) -> Vec<Vec<f64>> {
    let calls = calls(sides);
    let mut t = vec![vec![]; sides.len()];
    let begin = Instant::now();
    let mut round = 0;
    while round < 1000 || begin.elapsed() < budget {
        let from = round * calls % POOL;
        // the inputs into the cache, whoever goes first
        black_box(inputs[from..from + calls].iter().flatten().map(|&x| usize::from(x)).sum::<usize>());
        for k in 0..sides.len() {
            let side = (k + round) % sides.len();
            let start = Instant::now();
            sides[side](from..from + calls);
            t[side].push(start.elapsed().as_nanos() as f64 / calls as f64);
        }
        round += 1;
    }
    t
}

/// The median and the least of some times.
fn figures(mut t: Vec<f64>) -> (f64, f64) {
    t.sort_by(f64::total_cmp);
    (t[t.len() / 2], t[0])
}

/// Measures one side by itself: the median and the least.
pub fn time(budget: Duration, inputs: &[Vec<u8>], side: Side) -> (f64, f64) {
    figures(measure(budget, inputs, &[&side]).remove(0))
}

/// Measures the sides that are there: the median and the least of each.
pub fn times(budget: Duration, inputs: &[Vec<u8>], sides: &[Option<Side>]) -> Vec<Option<(f64, f64)>> {
    let there: Vec<_> = sides.iter().flatten().collect();
    let mut times = measure(budget, inputs, &there).into_iter().map(figures);
    sides.iter().map(|side| side.as_ref().and_then(|_| times.next())).collect()
}

/// The head of the table.
pub const HEAD: &str = "\
| call | codecs | bytes | by hand, ns | library, ns | library / hand | nom, ns | nom / hand \
| slicing-by-8, ns | library / slicing | PCLMULQDQ, ns | library / PCLMULQDQ |
|---|---|---:|---:|---:|---:|---:|---:|---:|---:|---:|---:|";

/// The head of the table of feeds.
pub const FEED_HEAD: &str = "\
| a packet fed | codecs | bytes | read_packet and a copy, ns | by value, ns | by value / read | lent, ns | lent / read |
|---|---|---:|---:|---:|---:|---:|---:|";

/// Measures one line of a table: medians, with minimums in brackets. The second and third side beside the first: the
/// library and nom beside the code by hand; or what the head says. Then the second beside each of the others: the
/// library beside the code by hand with another CRC. What is missing stays empty.
pub fn line(budget: Duration, call: &str, codecs: &str, inputs: &[Vec<u8>], sides: &[Option<Side>]) -> String {
    let bytes = inputs.iter().map(Vec::len).sum::<usize>() / inputs.len();
    let times = times(budget, inputs, sides);
    let [first, second] = [0, 1].map(|k| times[k].unwrap_or_default());
    let mut line = format!("| {call} | {codecs} | {bytes} | {:.1} ({:.1}) |", first.0, first.1);
    for (k, time) in times.iter().enumerate().skip(1) {
        let Some(t) = *time else {
            line += " | |";
            continue;
        };
        let (a, b) = if k < 3 { (t, first) } else { (second, t) };
        line += &format!(" {:.1} ({:.1}) | {:.2} ({:.2}) |", t.0, t.1, a.0 / b.0, a.1 / b.1);
    }
    line
}
