//! The CRC by itself, the library's beside all other ways, where each call waits for the one before and where calls
//! overlap.

use crate::check;
use crate::crcs::{self, Way};
use crate::input::Random;
use crate::measure::{times, Side, POOL};
use std::hint::black_box;
use std::ops::Range;
use std::time::Duration;

const SIZES: [usize; 6] = [8, 20, 60, 128, 600, 1280];
/// Where an input may begin, and CRCs in one call that is timed.
const PLACES: usize = 256;
const TIMES: usize = 8;

/// CRCs of so many of the bytes, from a place that depends on the last CRC, or does not.
fn side(crc: Way, bytes: &[u8], size: usize, waits: bool) -> Side<'_> {
    Box::new(move |calls: Range<usize>| {
        let mut at = 0;
        for k in calls.start * TIMES..calls.end * TIMES {
            let c = black_box(crc)(black_box(&bytes[at..at + size]));
            at = (37 * k + if waits { usize::from(c) } else { 0 }) % PLACES;
            black_box(c);
        }
    })
}

/// Measures and prints the table.
pub fn print(budget: Duration, random: &mut Random) {
    let mut ways = crcs::ways();
    ways.push(("bit by bit", check::crc));
    let bytes = random.bytes(PLACES + SIZES[SIZES.len() - 1]);
    println!("\nThe CRC alone, ns, and the library's time divided by the others':\n");
    let heads: Vec<_> = ways[1..].iter().map(|way| format!("{} | library / {0}", way.0)).collect();
    println!("| each call | bytes | {} | {} |", ways[0].0, heads.join(" | "));
    println!("|---|---:|---:|{}", "---:|---:|".repeat(heads.len()));
    for (how, waits) in [("waits for the one before", true), ("overlaps the one before", false)] {
        for size in SIZES {
            let sides: Vec<_> = ways.iter().map(|way| Some(side(way.1, &bytes, size, waits))).collect();
            // all bytes are in the cache: there is no pool to get there
            let times = times(budget, &vec![vec![]; POOL], &sides);
            let times: Vec<_> = times.iter().flatten().map(|t| (t.0 / TIMES as f64, t.1 / TIMES as f64)).collect();
            let first = times[0];
            let mut line = format!("| {how} | {size} | {:.1} ({:.1}) |", first.0, first.1);
            for t in &times[1..] {
                line += &format!(" {:.1} ({:.1}) | {:.2} ({:.2}) |", t.0, t.1, first.0 / t.0, first.1 / t.1);
            }
            println!("{line}");
        }
    }
}
