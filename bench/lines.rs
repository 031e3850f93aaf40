//! Billing lines, written and read: the library beside the code by hand, the judging of the packet apart.

use crate::input::{self, Random};
use crate::measure::{times, Side, POOL};
use crate::{hand, library, FAMILY};
use std::cell::RefCell;
use std::hint::black_box;
use std::ops::Range;
use std::time::Duration;

/// Ten values: fixed ones of mixed widths, or eight of them and two tags.
const TEN: [usize; 10] = [1, 1, 1, 1, 2, 2, 2, 4, 4, 8];
const TEN_WITH_TAGS: [usize; 10] = [1, 1, 1, 2, 2, 4, 4, 8, 9, 9];
/// Twenty values that make a record of codec 8 of 99 bytes: twelve are a packet of 1,203.
const TWENTY: [usize; 20] = [1, 1, 1, 1, 1, 1, 1, 1, 1, 2, 2, 2, 2, 2, 2, 4, 4, 4, 8, 8];

const WRITTEN_HEAD: &str = "\
| written | codec | packet, bytes | lines, bytes | by hand, ns | library, ns | library / hand | judged by hand, ns \
| judged by the library, ns | writing alone by hand, ns | the library's call less its judging, ns | that / hand |
|---|---|---:|---:|---:|---:|---:|---:|---:|---:|---:|---:|";
const READ_HEAD: &str = "\
| read | codec | line, bytes | by hand, ns | read_line and each element_at, ns | library / hand | read_line alone, ns |
|---|---|---:|---:|---:|---:|---:|";

/// One side of a call, whose results go nowhere.
fn side<'a, A>(call: impl Fn(usize) -> A + 'a) -> Option<Side<'a>> {
    Some(Box::new(move |inputs: Range<usize>| {
        for i in inputs {
            black_box(call(black_box(i)));
        }
    }))
}

/// The mean length of inputs.
fn mean(inputs: &[Vec<u8>]) -> usize {
    inputs.iter().map(Vec::len).sum::<usize>() / inputs.len()
}

/// A median, with the minimum in brackets.
fn shown((median, least): (f64, f64)) -> String {
    format!("{median:.1} ({least:.1})")
}

/// The ratio of two medians, with that of the minimums in brackets.
fn ratio(a: (f64, f64), b: (f64, f64)) -> String {
    format!("{:.2} ({:.2})", a.0 / b.0, a.1 / b.1)
}

/// TCP packets whose records have values of these kinds.
fn packets(random: &mut Random, codec: u8, records: usize, kinds: &[usize]) -> Vec<Vec<u8>> {
    (0..POOL).map(|_| input::tcp(&input::of_kinds(random, codec, records, kinds))).collect()
}

/// All lines of each packet.
fn lines(tcp: &[Vec<u8>]) -> Vec<Vec<u8>> {
    let written = |p: &Vec<u8>| {
        let mut out = vec![0; 6000];
        let n = hand::lines_of_packet(FAMILY, p, &mut out).unwrap_or_default();
        out.truncate(n);
        out
    };
    tcp.iter().map(written).collect()
}

/// A row of the first table: the line of a packet's one record, or all lines.
fn written_row(budget: Duration, name: &str, codec: &str, tcp: &[Vec<u8>], all: bool) {
    let out = RefCell::new([0; 6000]);
    let (p, out) = (|i: usize| black_box(&tcp[i][..]), || out.borrow_mut());
    let family = || black_box(FAMILY);
    let [by_hand, by_library] = if all {
        [
            side(|i| hand::lines_of_packet(family(), p(i), &mut out()[..])),
            side(|i| library::lines_of_packet(family(), p(i), &mut out()[..])),
        ]
    } else {
        [
            side(|i| hand::line_of_packet(family(), p(i), 0, &mut out()[..])),
            side(|i| library::line_of_packet(family(), p(i), 0, &mut out()[..])),
        ]
    };
    let sides = [
        by_hand,
        by_library,
        side(|i| hand::read_packet(family(), p(i))),
        side(|i| library::read_packet(family(), p(i))),
        side(|i| hand::lines_alone(p(i), &mut out()[..])),
    ];
    let t: Vec<_> = times(budget, tcp, &sides).into_iter().flatten().collect();
    let less = (t[1].0 - t[3].0, t[1].1 - t[3].1);
    println!(
        "| {name} | {codec} | {} | {} | {} | {} | {} | {} | {} | {} | {} | {} |",
        mean(tcp),
        mean(&lines(tcp)),
        shown(t[0]),
        shown(t[1]),
        ratio(t[1], t[0]),
        shown(t[2]),
        shown(t[3]),
        shown(t[4]),
        shown(less),
        ratio(less, t[4])
    );
}

/// A row of the second table: the line of a packet's one record.
fn read_row(budget: Duration, name: &str, codec: &str, tcp: &[Vec<u8>]) {
    let (lines, out) = (lines(tcp), RefCell::new([0; 6000]));
    let line = |i: usize| black_box(&lines[i][..]);
    let sides = [
        side(|i| hand::sum_of_line(line(i), &mut out.borrow_mut()[..])),
        side(|i| library::sum_of_line(line(i), &mut out.borrow_mut()[..])),
        side(|i| library::read_line(line(i))),
    ];
    let t: Vec<_> = times(budget, &lines, &sides).into_iter().flatten().collect();
    let (hand, library, alone) = (shown(t[0]), shown(t[1]), shown(t[2]));
    println!("| {name} | {codec} | {} | {hand} | {library} | {} | {alone} |", mean(&lines), ratio(t[1], t[0]));
}

/// How the time of all lines grows with the packet: for each byte of it, at two sizes.
fn growth(budget: Duration, random: &mut Random) {
    println!("\nAll lines of packets of codec 8 by the library, with 20 values in each record:");
    for records in [6, 12] {
        let tcp = packets(random, 0x08, records, &TWENTY);
        let out = RefCell::new([0; 6000]);
        let p = |i: usize| black_box(&tcp[i][..]);
        let sides = [side(|i| library::lines_of_packet(black_box(FAMILY), p(i), &mut out.borrow_mut()[..]))];
        for t in times(budget, &tcp, &sides).into_iter().flatten() {
            let size = mean(&tcp) as f64;
            println!(
                "{records} records, {size} bytes: {} ns, {:.3} ({:.3}) ns a byte.",
                shown(t),
                t.0 / size,
                t.1 / size
            );
        }
    }
}

/// Measures and prints both tables.
pub fn print(budget: Duration, random: &mut Random) {
    println!("\nBilling lines:\n\n{WRITTEN_HEAD}");
    let fixed = packets(random, 0x08, 1, &TEN);
    let tags = packets(random, 0x8E, 1, &TEN_WITH_TAGS);
    written_row(budget, "a line, ten fixed values", "8", &fixed, false);
    written_row(budget, "a line, eight fixed values and two tags", "8E", &tags, false);
    written_row(budget, "12 lines of 20 fixed values", "8", &packets(random, 0x08, 12, &TWENTY), true);
    println!("\n{READ_HEAD}");
    read_row(budget, "ten fixed values", "8", &fixed);
    read_row(budget, "eight fixed values and two tags", "8E", &tags);
    growth(budget, random);
}
