//! The library's C calls and its Rust crate beside the same work by hand and with nom: first answers, then times.

mod alone;
mod check;
mod combinator;
mod crcs;
mod input;
mod library;
mod lines;
mod measure;

/// The code by hand, with one of the CRCs; perhaps with calls that are never made.
macro_rules! by_hand {
    ($module:ident, $crc:ident, $unused:ident) => {
        #[$unused(dead_code, unused_imports)]
        #[path = "."]
        mod $module {
            pub use crate::crcs::$crc as crc;
            #[path = "hand.rs"]
            mod code;
            pub use code::*;
        }
    };
}
by_hand!(hand, folded, warn);
by_hand!(sliced, sliced, allow);
by_hand!(floor, multiplied, allow);

use brundilope::{Contents, Family};
use hand::Connection;
use input::{Data, Random};
use measure::{line, time, Side, FEED_HEAD, HEAD, POOL};
use std::cell::RefCell;
use std::hint::black_box;
use std::ops::Range;
use std::time::Duration;

const CODECS: [(u8, &str); 3] = [(0x08, "8"), (0x8E, "8E"), (0x10, "16")];
/// The family that calls name, and a connection.
const FAMILY: usize = 2;
const CONNECTION: Connection = Connection::logged_in(FAMILY as u8);
/// Packet sizes, from and to.
const SIZES: [(usize, usize); 3] = [(58, 66), (590, 610), (1268, 1280)];
/// What a connection brings in one line's call, at least, and how much of it in one feed.
const STREAM: usize = 8192;
const SEGMENT: usize = 1460;

/// One side of a call. Nothing is known of its inputs, its results go nowhere, and it is never inlined.
macro_rules! side {
    ($module:ident::$call:ident(|$i:ident| $($arg:expr),*)) => {
        Box::new(|inputs: Range<usize>| for $i in inputs {
            let _ = black_box($module::$call($(black_box($arg)),*));
        }) as Side
    };
}

/// The code by hand with PCLMULQDQ, where there is that.
macro_rules! floor {
    ($call:ident $args:tt) => {
        if crcs::multiplies() { Some(side!(floor::$call $args)) } else { None }
    };
}

/// All sides of a call without a CRC: by hand, the library, perhaps with a room of its own, nom.
macro_rules! sides {
    ($call:ident(|$i:ident| $($arg:expr),*) $(, $room:expr)?) => {
        [
            Some(side!(hand::$call(|$i| $($arg),*))),
            Some(side!(library::$call(|$i| $($arg),* $(, &mut *$room.borrow_mut())?))),
            Some(side!(combinator::$call(|$i| $($arg),*))),
            None,
            None,
        ]
    };
}

/// All sides of a call with a CRC: those, and by hand with slicing-by-8 and with PCLMULQDQ.
macro_rules! crc_sides {
    ($call:ident $args:tt $(, $room:expr)?) => {{
        let [hand, library, nom, ..] = sides!($call $args $(, $room)?);
        [hand, library, nom, Some(side!(sliced::$call $args)), floor!($call $args)]
    }};
}

/// The lines of the table, each behind its call, and what they have in common.
struct Table {
    lines: RefCell<Vec<(String, String)>>,
    random: Random,
    budget: Duration,
    out: RefCell<[u8; 6000]>,
    room: RefCell<Contents>,
}

impl Table {
    fn row(&self, call: &str, codecs: &str, inputs: &[Vec<u8>], sides: &[Option<Side>]) {
        let line = line(self.budget, call, codecs, inputs, sides);
        self.lines.borrow_mut().push((call.to_string(), line));
    }

    /// The lines of each call together, in the order in which the calls first came.
    fn print(&self) {
        let lines = self.lines.borrow();
        let calls: Vec<_> = lines.iter().map(|l| &l.0).collect();
        let mut places: Vec<_> = (0..lines.len()).collect();
        places.sort_by_key(|&i| calls.iter().position(|call| *call == calls[i]));
        println!("{HEAD}");
        places.iter().for_each(|&i| println!("{}", lines[i].1));
        println!("\nAll values, a connection: the library is its Rust crate here, and nom makes owned records.");
        println!("By hand and with nom, the CRC is the library's fold; the last columns are by hand with another CRC.");
        if !crcs::multiplies() {
            println!("By hand with PCLMULQDQ was not measured: this machine has no such instruction.");
        }
    }

    /// Look-ups of any record, and of each packet's last value.
    fn lookup_rows(&mut self, codecs: &str, data: &[Data], tcp: &[Vec<u8>]) {
        let any: Vec<_> = data.iter().map(|d| self.random.below(d.records)).collect();
        self.row("record_in_packet", codecs, tcp, &crc_sides!(record_in_packet(|i| FAMILY, &tcp[i][..], any[i])));
        let last = |i: usize| (data[i].records - 1, data[i].elements - 1, data[i].last_id);
        let sides = crc_sides!(value_in_packet(|i| FAMILY, &tcp[i][..], last(i).0, last(i).1));
        self.row("value_in_packet", codecs, tcp, &sides);
        let sides = crc_sides!(id_in_packet(|i| FAMILY, &tcp[i][..], last(i).0, last(i).2));
        self.row("id_in_packet", codecs, tcp, &sides);
        // the newer packet is another of the pool and in most cases lacks the ID
        let sides = crc_sides!(last_known(|i| FAMILY, &tcp[(i + 1) % POOL][..], &tcp[i][..], last(i).2));
        self.row("last_known (two packets)", codecs, tcp, &sides);
    }

    fn form_rows(&self, codecs: &str, tcp: &[Vec<u8>]) {
        let form = |p: &Vec<u8>| {
            let mut f = vec![0; 6000];
            let n = hand::form_of_packet(FAMILY, p, &mut f).unwrap_or_default();
            f.truncate(n);
            f
        };
        let forms: Vec<_> = tcp.iter().map(form).collect();
        let out = &self.out;
        let sides = crc_sides!(form_of_packet(|i| FAMILY, &tcp[i][..], &mut out.borrow_mut()[..]));
        self.row("form_of_packet", codecs, tcp, &sides);
        let sides = crc_sides!(packet_of_form(|i| FAMILY, &forms[i][..], &mut out.borrow_mut()[..]));
        self.row("packet_of_form", codecs, &forms, &sides);
    }

    /// The lines of everything in a packet or datagram: all records, all values.
    fn sum_rows(&self, codecs: &str, tcp: &[Vec<u8>], udp: &[Vec<u8>]) {
        let room = &self.room;
        self.row("all values of a packet", codecs, tcp, &crc_sides!(sum_of_packet(|i| FAMILY, &tcp[i][..]), room));
        let sides = sides!(sum_of_datagram(|i| FAMILY, &udp[i][..]), room);
        self.row("all values of a datagram (no CRC)", codecs, udp, &sides);
    }

    /// How the library's time for all values grows with their number.
    fn growth(&mut self) {
        let [few, many] = [12, 24].map(|records| {
            let random = &mut self.random;
            let data: Vec<_> = (0..POOL).map(|_| input::alike(random, records, 10)).collect();
            let udp: Vec<_> = data.iter().map(|d| input::udp(random, d)).collect();
            let side = side!(library::sum_of_datagram(|i| FAMILY, &udp[i][..], &mut *self.room.borrow_mut()));
            time(self.budget, &udp, side)
        });
        let (ratio, least) = (many.0 / few.0, many.1 / few.1);
        println!("In datagrams of codec 8, by the library, with 10 values of one byte in each record:");
        println!("12 records {:.1} ({:.1}) ns, 24 records {:.1} ({:.1}) ns,", few.0, few.1, many.0, many.1);
        println!("which is {ratio:.2} ({least:.2}) times as long.");
    }

    /// The line of packets of one size that come on a connection, one behind another.
    fn stream_row(&mut self, (from, to): (usize, usize)) {
        let random = &mut self.random;
        let mut stream = || {
            let mut stream = vec![];
            while stream.len() < STREAM {
                let codec = CODECS[random.below(3)].0;
                stream.extend(input::tcp(&input::data(random, codec, from - 12, to - 12, 160).bytes));
            }
            stream
        };
        let streams: Vec<_> = (0..POOL).map(|_| stream()).collect();
        let mut library = brundilope::Connection::new(Family::Standard);
        let _ = library.feed(&input::login(random));
        let (hand, library, out) = (RefCell::new(CONNECTION), RefCell::new(library), &self.out);
        let stream = |i: usize| &streams[i][..];
        let sides = [
            side!(hand::sum_of_stream(|i| stream(i), SEGMENT, &mut *hand.borrow_mut(), &mut out.borrow_mut()[..])),
            side!(library::sum_of_stream(|i| stream(i), SEGMENT, &mut *library.borrow_mut())),
        ];
        let [hand, library] = sides.map(Some);
        let call = format!("a connection (packets of {from} to {to} bytes, {SEGMENT} a feed)");
        self.row(&call, "all", &streams, &[hand, library, None, None, None]);
    }

    /// The table of a packet that is fed in pieces, beside one that is read and copied.
    fn feeds(&mut self) {
        println!("\n{FEED_HEAD}");
        for size in [61, 1280] {
            let random = &mut self.random;
            let tcp: Vec<_> = (0..POOL).map(|i| input::exact(random, CODECS[i % 3].0, size)).collect();
            let (value, lent) = (RefCell::new(CONNECTION), RefCell::new(CONNECTION));
            let (p, out) = (|i: usize| &tcp[i][..], &self.out);
            for (how, pieces) in [("whole", 1), ("in 2 pieces", 2), ("in 10 pieces", 10), ("byte by byte", size)] {
                let sides = [
                    side!(library::read_and_copy(|i| FAMILY, p(i), &mut out.borrow_mut()[..])),
                    side!(library::pieces_by_value(|i| p(i), pieces, &mut *value.borrow_mut())),
                    side!(library::pieces_lent(|i| p(i), pieces, &mut *lent.borrow_mut(), &mut out.borrow_mut()[..])),
                ];
                println!("{}", line(self.budget / 3, how, "all", &tcp, &sides.map(Some)));
            }
        }
        let size = [size_of::<Connection>(), size_of::<brundilope::Connection>()];
        println!("\nA connection takes {} bytes in C and {} in Rust.", size[0], size[1]);
    }

    /// Data fields of one size, their codecs mixed, and packets of them; and datagrams of that size.
    fn inputs(&mut self, codecs: &[u8], (from, to): (usize, usize)) -> (Vec<Data>, Vec<Vec<u8>>, Vec<Vec<u8>>) {
        let mut field = |from: usize, to: usize| {
            let codec = codecs[self.random.below(codecs.len())];
            input::data(&mut self.random, codec, from, to, 160)
        };
        let data: Vec<_> = (0..POOL).map(|_| field(from - 12, to - 12)).collect();
        let tcp = data.iter().map(|d| input::tcp(&d.bytes)).collect();
        let small: Vec<_> = (0..POOL).map(|_| field(from.max(70) - 23, to.max(75) - 23)).collect();
        let udp = small.iter().map(|d| input::udp(&mut self.random, &d.bytes)).collect();
        (data, tcp, udp)
    }

    /// The lines of data packets and datagrams of one size: all, or only those of everything in them.
    fn data_rows(&mut self, codecs: &[u8], name: &str, size: (usize, usize), all: bool) {
        let (data, tcp, udp) = self.inputs(codecs, size);
        self.sum_rows(name, &tcp, &udp);
        if !all {
            return;
        }
        self.row("read_packet", name, &tcp, &crc_sides!(read_packet(|i| FAMILY, &tcp[i][..])));
        self.row("read_datagram (no CRC)", name, &udp, &sides!(read_datagram(|i| FAMILY, &udp[i][..])));
        self.lookup_rows(name, &data, &tcp);
        self.form_rows(name, &tcp);
    }

    /// The lines of commands with texts of this size; 12, 13 and 14 in turn.
    fn command_rows(&mut self, size: usize) {
        let random = &mut self.random;
        let codec = |i: usize| [0x0C, 0x0D, 0x0E][i % 3];
        let packets: Vec<_> = (0..POOL).map(|i| input::tcp(&input::command(random, codec(i), size))).collect();
        let texts: Vec<_> = (0..POOL).map(|_| random.bytes(size)).collect();
        let imeis: Vec<_> = (0..POOL).map(|i| random.digits(i % 3 / 2 * 15)).collect();
        self.row("read_command", "12, 13, 14", &packets, &crc_sides!(read_command(|i| FAMILY, &packets[i][..])));
        let (out, imei, text) = (&self.out, |i: usize| &imeis[i][..], |i: usize| &texts[i][..]);
        let hand = side!(hand::write_command(|i| FAMILY, codec(i), 5, imei(i), 7, text(i), &mut out.borrow_mut()[..]));
        let library =
            side!(library::write_command(|i| FAMILY, codec(i), 5, imei(i), 7, text(i), &mut out.borrow_mut()[..]));
        let sliced =
            side!(sliced::write_command(|i| FAMILY, codec(i), 5, imei(i), 7, text(i), &mut out.borrow_mut()[..]));
        let floor = floor!(write_command(|i| FAMILY, codec(i), 5, imei(i), 7, text(i), &mut out.borrow_mut()[..]));
        self.row("write_command", "12, 13, 14", &packets, &[Some(hand), Some(library), None, Some(sliced), floor]);
    }

    fn login_row(&mut self) {
        let logins: Vec<_> = (0..POOL).map(|_| input::login(&mut self.random)).collect();
        self.row("read_login", "", &logins, &sides!(read_login(|i| &logins[i][..])));
    }
}

/// How busy the machine is, where it tells.
fn load() -> String {
    let text = std::fs::read_to_string("/proc/loadavg").unwrap_or_default();
    text.split(' ').next().unwrap_or("").to_string()
}

fn main() {
    let full = match std::env::args().nth(1).as_deref() {
        None => false,
        Some("--full") => true,
        Some(word) => {
            eprintln!("bench: unknown word {word}; there is --full: every codec by itself, and all lines at all sizes");
            std::process::exit(2);
        }
    };
    let mut random = Random(0x9E37_79B9_7F4A_7C15);
    let c = check::check(&mut random);
    println!("Answers compared: {}, none differ. Accepted {}; refused by number:", c.compared, c.refusals[0]);
    let each: Vec<_> = (1..22).map(|n| format!("{n}: {}", c.refusals[n])).collect();
    println!("{}.\n", each.join(", "));

    let before = load();
    let budget = Duration::from_millis(if full { 1200 } else { 4000 });
    let mut table =
        Table { lines: RefCell::default(), random, budget, out: RefCell::new([0; 6000]), room: RefCell::default() };
    for size in SIZES {
        if full {
            CODECS.iter().for_each(|&(codec, name)| table.data_rows(&[codec], name, size, true));
        } else {
            table.data_rows(&CODECS.map(|c| c.0), "all", size, size != SIZES[1]);
        }
    }
    table.command_rows(10);
    table.command_rows(1000);
    table.login_row();
    table.stream_row(SIZES[0]);
    table.stream_row(SIZES[2]);
    table.print();
    table.growth();
    table.feeds();
    lines::print(budget / 2, &mut table.random);
    alone::print(budget / 4, &mut table.random);
    let cores = std::thread::available_parallelism().map_or(0, usize::from);
    println!("\n{cores} cores; load average {before} at the start and {} at the end.", load());
}
