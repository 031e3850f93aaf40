//! The answers of all sides compared, on whole and damaged inputs of every kind.

use crate::hand::Connection;
use crate::input::{self, Random};
use crate::library::{Sum, Taken};
use crate::{combinator, crcs, hand, library, CODECS, FAMILY, SIZES};
use brundilope::{Contents, Family};
use std::fmt::Debug;

/// Packet sizes around the limit of family 1.
const AROUND_512: (usize, usize) = (504, 516);

#[derive(Default)]
pub struct Check {
    pub compared: usize,
    pub refusals: [usize; 22],
    room: Contents,
}

impl Check {
    fn note(&mut self, number: usize) {
        self.refusals[number.min(21)] += 1;
    }

    /// Stops if an answer differs from the library's.
    fn same<A: PartialEq + Debug>(&mut self, call: &str, side: &str, library: &A, other: &A, inputs: &[&dyn Debug]) {
        self.compared += 1;
        if library != other {
            println!("{call} differs\nlibrary {library:02X?}\n{side} {other:02X?}");
            for i in inputs {
                println!("  {i:02X?}");
            }
            std::process::exit(1);
        }
    }
}

/// A family, now and then an unknown one.
fn any_family(random: &mut Random) -> usize {
    match random.below(20) {
        0 => [0, 3, 257, 258, usize::MAX][random.below(5)],
        n => 1 + n % 2,
    }
}

/// Compares a call that reads, on all sides; the library's call may have arguments of its own.
macro_rules! same {
    ($check:expr, $call:ident($($arg:expr),*)) => {
        same!($check, $call($($arg),*), library::$call($($arg),*))
    };
    ($check:expr, $call:ident($($arg:expr),*), $library:expr) => {{
        let library = $library;
        let name = stringify!($call);
        $check.note(library.number);
        $check.same(name, "hand", &library, &hand::$call($($arg),*).into(), &[$(&$arg),*]);
        $check.same(name, "combinator", &library, &combinator::$call($($arg),*).into(), &[$(&$arg),*]);
    }};
}

/// A call on one side with a buffer behind its arguments, and those arguments to be shown.
macro_rules! with_buffer {
    ($side:ident::$call:ident($($arg:expr),*), $out:expr) => {
        $side::$call($($arg,)* $out)
    };
    (($($arg:expr),*)) => {
        &[$(&$arg),*]
    };
}

/// Compares a call that writes, and the whole buffer, on these sides; gives how many bytes the library wrote.
macro_rules! written {
    ($check:expr, $call:ident $args:tt, $room:expr, $($side:ident),*) => {{
        let room = $room;
        let mut a = [0xA5u8; 6000];
        let library = with_buffer!(library::$call $args, &mut a[..room]);
        let name = stringify!($call);
        $check.note(library.number);
        $({
            let mut b = [0xA5u8; 6000];
            let other = with_buffer!($side::$call $args, &mut b[..room]).into();
            $check.same(name, stringify!($side), &library, &other, with_buffer!($args));
            $check.same(name, concat!(stringify!($side), ", buffer"), &a, &b, with_buffer!($args));
        })*
        let behind = if library.number == 0 { &a[library.written..] } else { &a[..] };
        $check.same(name, "bytes behind", &behind.iter().all(|&x| x == 0xA5), &true, with_buffer!($args));
        library.written
    }};
}

/// The lines of a packet or datagram, all or that of one record, in rooms that are long enough, and such as are not.
macro_rules! check_lines {
    ($c:expr, $random:expr, $family:expr, $p:expr, $record:expr, $one:ident, $all:ident) => {{
        let (c, random, family, p, record) = (&mut *$c, &mut *$random, $family, $p, $record);
        let need = written!(c, $one(family, p, record), 6000, hand);
        if need > 0 {
            written!(c, $one(family, p, record), random.range(need - 1, need + 1), hand);
        }
        let need = written!(c, $all(family, p), 6000, hand);
        if need > 0 {
            written!(c, $all(family, p), random.range(need - 1, need + 1), hand);
            written!(c, $all(family, p), random.below(need), hand);
        }
    }};
}

/// All calls on one TCP input, in some family.
fn check_tcp(c: &mut Check, random: &mut Random, p: &[u8]) {
    let family = any_family(random);
    same!(c, read_packet(family, p));
    same!(c, read_command(family, p));
    same!(c, sum_of_packet(family, p), Sum::from(library::sum_of_packet(family, p, &mut c.room)));
    written!(c, acknowledge_packet(family, p), random.below(9), hand);
    let record = random.below(6).wrapping_sub(random.below(20) / 19);
    let element = random.below(30).wrapping_sub(random.below(20) / 19);
    let id = random.below(260) as u16;
    same!(c, record_in_packet(family, p, record));
    same!(c, value_in_packet(family, p, record, element));
    same!(c, id_in_packet(family, p, record, id));
    // an ID that is there, if there is one
    if let Ok(v) = hand::value_in_packet(family, p, record, element) {
        same!(c, id_in_packet(family, p, record, v.id));
    }
    check_lines!(c, random, family, p, record, line_of_packet, lines_of_packet);
    let need = written!(c, form_of_packet(family, p), 6000, hand, combinator);
    if need > 0 {
        written!(c, form_of_packet(family, p), random.range(need - 1, need + 1), hand, combinator);
        written!(c, form_of_packet(family, p), random.below(need), hand, combinator);
    }
}

/// A line read whole, and damaged.
fn check_line(c: &mut Check, random: &mut Random, line: &[u8]) {
    for round in 0..8 {
        let mut s = line.to_vec();
        if round > 0 {
            input::damage_line(random, &mut s);
        }
        let (mut a, mut b) = ([0xA5u8; 6000], [0xA5u8; 6000]);
        let library = Sum::from(library::sum_of_line(&s, &mut a));
        c.note(library.number);
        c.same("sum_of_line", "hand", &library, &hand::sum_of_line(&s, &mut b).into(), &[&s]);
    }
}

/// The lines of a packet: written by both, and again without judging; each read.
fn check_read(c: &mut Check, random: &mut Random, packet: &[u8]) {
    let (mut a, mut b) = ([0xA5u8; 6000], [0xA5u8; 6000]);
    let library = library::lines_of_packet(FAMILY, packet, &mut a);
    if library.number != 0 {
        return;
    }
    c.same("lines_alone", "hand", &library, &hand::lines_alone(packet, &mut b).into(), &[&packet]);
    c.same("lines_alone", "hand, buffer", &a, &b, &[&packet]);
    for line in a[..library.written].split_inclusive(|&x| x == b'\n') {
        check_line(c, random, line);
    }
}

/// All calls on one datagram, in some family.
fn check_udp(c: &mut Check, random: &mut Random, p: &[u8]) {
    let family = any_family(random);
    same!(c, read_datagram(family, p));
    same!(c, sum_of_datagram(family, p), Sum::from(library::sum_of_datagram(family, p, &mut c.room)));
    written!(c, acknowledge_datagram(family, p), random.below(12), hand);
    let (record, element) = (random.below(6), random.below(30));
    let id = random.below(260) as u16;
    same!(c, record_in_datagram(family, p, record));
    same!(c, value_in_datagram(family, p, record, element));
    same!(c, id_in_datagram(family, p, record, id));
    if let Ok(v) = hand::value_in_datagram(family, p, record, element) {
        same!(c, id_in_datagram(family, p, record, v.id));
    }
    check_lines!(c, random, family, p, record, line_of_datagram, lines_of_datagram);
    let need = written!(c, form_of_datagram(family, p), 6000, hand, combinator);
    if need > 0 {
        written!(c, form_of_datagram(family, p), random.range(need - 1, need + 1), hand, combinator);
    }
}

fn check_form(c: &mut Check, random: &mut Random, form: &[u8]) {
    let family = any_family(random);
    let need = written!(c, packet_of_form(family, form), 1400, hand, combinator);
    if need > 0 {
        written!(c, packet_of_form(family, form), random.range(need - 1, need + 1), hand, combinator);
    }
}

/// The form of a packet, back into the packet, and damaged.
fn check_forms(c: &mut Check, random: &mut Random, packet: &[u8]) {
    let mut form = vec![0; 6000];
    let Ok(n) = hand::form_of_packet(FAMILY, packet, &mut form) else { return };
    form.truncate(n);
    let mut back = vec![0; 1400];
    let n = hand::packet_of_form(FAMILY, &form, &mut back).unwrap_or(0);
    c.same("packet_of_form", "the packet", &&back[..n], &packet, &[&form]);
    check_form(c, random, &form);
    for _ in 0..120 {
        let mut f = form.clone();
        input::damage_form(random, &mut f);
        check_form(c, random, &f);
    }
}

/// The IDs of a record in a whole packet, in their order.
fn ids_of(p: &[u8], record: usize) -> impl Iterator<Item = u16> + '_ {
    (0..).map_while(move |n| hand::value_in_packet(FAMILY, p, record, n).ok()).map(|v| v.id)
}

/// Every ID of a data field, and some that it lacks, in each record and in one that is not there; and with it damaged.
fn check_ids(c: &mut Check, random: &mut Random, data: &[u8]) {
    let (whole, gram) = (input::tcp(data), input::udp(random, data));
    let mut damaged = data.to_vec();
    input::damage_data(random, &mut damaged);
    let damaged = input::tcp(&damaged);
    let records = usize::from(data[1]);
    for id in (0..records).flat_map(|record| ids_of(&whole, record)).chain(300..310) {
        for record in 0..=records {
            let family = any_family(random);
            same!(c, id_in_packet(family, &whole, record, id));
            same!(c, id_in_datagram(family, &gram, record, id));
            same!(c, id_in_packet(family, &damaged, record, id));
        }
    }
}

/// Every ID in the last records of two packets, and some that are in neither; each also with one packet damaged.
fn check_last_known(c: &mut Check, random: &mut Random, newer: &[u8], older: &[u8]) {
    let [in_newer, in_older] = [newer, older].map(|p| ids_of(p, usize::from(p[9]) - 1));
    let mut damaged = older.to_vec();
    input::damage(random, &mut damaged);
    for id in in_newer.chain(in_older).chain(300..310) {
        for older in [older, &damaged] {
            let family = any_family(random);
            same!(c, last_known(family, newer, older, id));
            same!(c, last_known(family, older, newer, id));
        }
    }
}

/// The look-ups by ID on two data fields.
fn check_two(c: &mut Check, random: &mut Random, newer: &[u8], older: &[u8]) {
    check_ids(c, random, newer);
    check_last_known(c, random, &input::tcp(newer), &input::tcp(older));
}

/// A data field as packet and datagram, whole and damaged; records of up to `most` bytes.
fn check_data(c: &mut Check, random: &mut Random, codec: u8, (from, to): (usize, usize), most: usize) {
    let data = input::data(random, codec, from - 12, to - 12, most).bytes;
    let whole = input::tcp(&data);
    assert!(hand::read_packet(FAMILY, &whole).is_ok());
    check_tcp(c, random, &whole);
    let small = if data.len() <= 1257 { data.clone() } else { input::data(random, codec, 1250, 1257, most).bytes };
    let gram = input::udp(random, &small);
    check_udp(c, random, &gram);
    for _ in 0..60 {
        let mut p = whole.clone();
        input::damage(random, &mut p);
        check_tcp(c, random, &p);
        let mut d = data.clone();
        input::damage_data(random, &mut d);
        check_tcp(c, random, &input::tcp(&d));
        let p = input::udp(random, &d);
        check_udp(c, random, &p);
        let mut p = gram.clone();
        input::damage(random, &mut p);
        check_udp(c, random, &p);
    }
    let other = CODECS[random.below(3)].0;
    let older = input::tcp(&input::data(random, other, 60, 600, 160).bytes);
    check_last_known(c, random, &whole, &older);
    check_read(c, random, &whole);
    check_forms(c, random, &whole);
}

fn check_command(c: &mut Check, random: &mut Random, codec: u8, size: usize) {
    let data = input::command(random, codec, size);
    check_tcp(c, random, &input::tcp(&data));
    for _ in 0..30 {
        let mut p = input::tcp(&data);
        input::damage(random, &mut p);
        check_tcp(c, random, &p);
        let mut d = data.clone();
        let at = random.below(d.len().min(16));
        match random.below(4) {
            0 => input::damage(random, &mut d),
            1 => d[at] = random.next() as u8,
            2 => d[at] = [1, 5, 6, 0x0C, 0x0D, 0x0E, 0x11][random.below(7)],
            _ => d[at] = d[at].wrapping_add(1),
        }
        check_tcp(c, random, &input::tcp(&d));
    }
}

fn check_write(c: &mut Check, random: &mut Random) {
    let codec = [0x0C, 0x0D, 0x0E, 0x0C, 0x0D, 0x0E, 0x0F][random.below(7)];
    let kind = [5, 6, 0x11, 5, 6, 0x11, 4][random.below(7)];
    let size = if codec == 0x0E { 15 } else { 0 };
    let size = [size, size, size, 0, 14, 15, 16][random.below(7)];
    let mut imei = random.digits(size);
    if size > 0 && random.below(5) == 0 {
        let at = random.below(size);
        imei[at] = [b'/', b':', 0, 255][random.below(4)];
    }
    let family = any_family(random);
    let size = match random.below(4) {
        0 => 0,
        1 => random.range(1250, 1265),
        2 => random.range(482, 497),
        _ => random.below(1300),
    };
    let text = random.bytes(size);
    let time = random.next() as u32;
    let need = written!(c, write_command(family, codec, kind, &imei, time, &text), 1400, hand);
    if need > 0 {
        written!(c, write_command(family, codec, kind, &imei, time, &text), random.range(need - 1, need + 1), hand);
    }
}

fn check_login(c: &mut Check, random: &mut Random, damaged: bool, known: bool) {
    let mut p = input::login(random);
    if damaged {
        input::damage(random, &mut p);
    }
    same!(c, read_login(&p));
    written!(c, answer_login(&p, known), random.below(3), hand);
}

/// A connection fed in pieces of at most so many bytes, until it is closed: answers, packets and what is held.
fn check_feeds(c: &mut Check, random: &mut Random, family: u8, mut stream: &[u8], most: usize) {
    let [mut value, mut lent, mut hand] = [Connection::fresh(family); 3];
    let mut number = 0;
    while number != 19 && !stream.is_empty() {
        let piece = &stream[..random.below(most + 1).min(stream.len())];
        let (mut a, mut b) = ([0xA5u8; 1290], [0xA5u8; 1290]);
        let library = library::feed_lent(&mut lent, piece, &mut a);
        c.note(library.number);
        let other = Taken::by_hand(hand.feed(piece, &mut b), &hand);
        c.same("feed_lent", "hand", &library, &other, &[&piece]);
        c.same("feed_lent", "hand, packet", &a, &b, &[&piece]);
        c.same("feed_lent", "hand, held", &&lent.held[..lent.fill], &&hand.held[..hand.fill], &[&piece]);
        let fed = library::feed(value, piece);
        c.same("feed_lent", "by value", &library, &Taken::from(&fed), &[&piece]);
        c.same("feed_lent", "by value, packet", &&a[..library.size], &&fed.packet[..fed.size], &[&piece]);
        c.same("feed_lent", "by value, held", &lent.held, &fed.state.held, &[&piece]);
        c.same("feed", "family", &fed.state.family, &family, &[&piece]);
        c.same("feed", "bytes behind", &fed.packet[fed.size..].iter().all(|&x| x == 0), &true, &[&piece]);
        value = fed.state;
        number = library.number;
        stream = &stream[library.used..];
    }
}

/// A connection with packets and commands, whole or damaged, fed and summed up.
fn check_connection(c: &mut Check, random: &mut Random, damaged: usize) {
    let mut stream = input::login(random);
    for _ in 0..random.below(6) {
        let (kind, most) = (random.below(6), [60, 600, 1268][random.below(3)]);
        let mut data = match kind {
            0..3 => input::data(random, CODECS[kind].0, 50, most, 160).bytes,
            _ => input::command(random, [0x0C, 0x0D, 0x0E][kind - 3], most - 20),
        };
        if damaged == 1 && random.below(4) == 0 {
            input::damage_data(random, &mut data);
        }
        stream.extend(input::tcp(&data));
    }
    if damaged == 2 {
        input::damage(random, &mut stream);
    }
    let most = [1, 7, 100, 1500, 9000][random.below(5)];
    let family = any_family(random) as u8;
    check_feeds(c, random, family, &stream, most);
    let Ok(known) = Family::try_from(family) else { return };
    let library = Sum::from(library::sum_of_stream(&stream, most, &mut brundilope::Connection::new(known)));
    let mut state = Connection::fresh(family);
    let other = hand::sum_of_stream(&stream, most, &mut state, &mut [0; 1280]);
    c.same("sum_of_stream", "hand", &library, &other.into(), &[&stream]);
}

/// Inputs of a few bytes, and heads alone.
fn check_short(c: &mut Check, random: &mut Random, size: usize) {
    for length in [0, 2, 3, 4, 500, 501, 1267, 1268, 1269, 1 << 24] {
        let mut p = vec![0; 4];
        p.extend((length as u32).to_be_bytes());
        p.resize(size, 0);
        check_tcp(c, random, &p);
        check_udp(c, random, &p);
    }
    let d = random.bytes(size);
    check_tcp(c, random, &input::tcp(&d));
    let p = input::udp(random, &d);
    check_udp(c, random, &p);
    check_form(c, random, &d);
}

/// The CRC bit by bit, as its definition says.
pub fn crc(data: &[u8]) -> u16 {
    let mut c = 0;
    for &b in data {
        c ^= u16::from(b);
        for _ in 0..8 {
            c = if c & 1 != 0 { (c >> 1) ^ 0xA001 } else { c >> 1 };
        }
    }
    c
}

/// Every other way to the CRC at every length; stops if one gives another.
fn check_crcs(c: &mut Check, random: &mut Random) {
    for size in 0..=1300 {
        let data = random.bytes(size);
        let right = crc(&data);
        for (name, way) in crcs::ways() {
            c.compared += 1;
            let given = way(&data);
            if given != right {
                println!("the CRC by {name} differs at {size} bytes: {given:04X}, bit by bit {right:04X}");
                println!("  {data:02X?}");
                std::process::exit(1);
            }
        }
    }
}

/// Compares all sides; stops if one answer differs.
pub fn check(random: &mut Random) -> Check {
    let mut c = Check::default();
    check_crcs(&mut c, &mut Random(1));
    for (codec, _) in CODECS {
        for size in SIZES.into_iter().chain([AROUND_512]) {
            for round in 0..40 {
                // with and without records over 255 bytes
                check_data(&mut c, random, codec, size, [160, 255, 270, 600][round % 4]);
            }
        }
    }
    for (codec, _) in CODECS {
        for round in 0..180 {
            let [newer, older] = [codec, CODECS[round % 3].0].map(|codec| input::few_ids(random, codec));
            check_two(&mut c, random, &newer, &older);
        }
        // as many elements as a total of one byte can say, or more where it has two
        let kinds = if codec == 0x8E { &[1; 400][..] } else { &[1; 255] };
        let [newer, older] = [(); 2].map(|()| input::of_kinds(random, codec, 1, kinds));
        check_two(&mut c, random, &newer, &older);
    }
    for codec in [0x0C, 0x0D, 0x0E] {
        for round in 0..300 {
            let size = if round % 3 == 0 { random.below(1232) } else { random.below(12) };
            check_command(&mut c, random, codec, size);
        }
    }
    for round in 0..4000 {
        check_login(&mut c, random, round % 8 != 0, round % 2 == 0);
    }
    for _ in 0..6000 {
        check_write(&mut c, random);
    }
    for size in 0..40 {
        check_short(&mut c, random, size);
    }
    for round in 0..1500 {
        check_connection(&mut c, random, round % 3);
    }
    c
}
