//! The library's C calls, its Rust crate where everything in a packet or on a connection is asked for, and the
//! hand-written answers in the same shape.

use crate::hand::{self, sum_of_bytes, sum_of_fields, sum_of_received, Answer, Connection, Lookup};
use brundilope::{Contents, DataDatagram, DataPacket, Family, Item, Records};

/// Where an input is refused. The other sides do not work it out, so that it is not compared.
#[repr(transparent)]
#[derive(Clone, Copy, Debug, Default)]
pub struct Place(usize);

impl PartialEq for Place {
    fn eq(&self, _: &Self) -> bool {
        true
    }
}

impl Eq for Place {}

macro_rules! answer {
    ($name:ident { $($field:ident: $type:ty),* }) => {
        #[repr(C)]
        #[derive(Clone, Copy, Debug, Default, PartialEq, Eq)]
        pub struct $name {
            pub number: usize,
            pub index: usize,
            pub place: Place,
            $(pub $field: $type),*
        }
    };
}

answer!(Written { written: usize });
answer!(Packet { codec: u8, count: u8 });
answer!(Datagram { codec: u8, count: u8, packet_id: u16, unused: u8, avl_packet_id: u8, imei: u64 });
answer!(Login { imei: u64 });
answer!(Sum { sum: u64 });
answer!(Command { codec: u8, kind: u8, time: u32, imei: u64, offset: usize, size: usize });
answer!(Record {
    timestamp: u64,
    priority: u8,
    longitude: i32,
    latitude: i32,
    altitude: i16,
    angle: u16,
    satellites: u8,
    speed: u16,
    event: u16,
    generation: u8,
    elements: usize
});
answer!(Value { id: u16, kind: u8, offset: usize, size: usize });
// flat: in C the fields before the last are a value of their own, in the same places
answer!(Found { id: u16, kind: u8, offset: usize, size: usize, passed: usize });
answer!(Known { older: bool, id: u16, kind: u8, offset: usize, size: usize, passed: usize });
answer!(Line { timestamp: u64, longitude: i32, latitude: i32, speed: u16, elements: usize, start: usize });
answer!(LineElement { id: u16, tag: bool, value: u64, size: usize, next: usize });
answer!(Taken { used: usize, item: u8, imei: u64, size: usize, fill: usize, phase: u8 });

#[repr(C)]
pub struct Fed {
    pub number: usize,
    pub index: usize,
    pub place: Place,
    pub used: usize,
    pub item: u8,
    pub imei: u64,
    pub size: usize,
    pub packet: [u8; 1280],
    pub state: Connection,
}

/// Safe wrappers of C calls that take byte strings, then other values, then perhaps a buffer.
macro_rules! calls {
    ($($name:ident = $symbol:ident($($arg:ident: $type:tt),*) -> $answer:ty;)*) => {
        $(calls!(@one $name, $symbol, $answer, [$($arg: $type),*], [], [], []);)*
    };
    (@one $name:ident, $symbol:ident, $answer:ty, [], [$($p:tt)*], [$($c:tt)*], [$($v:tt)*]) => {
        #[inline(always)]
        pub fn $name($($p)*) -> $answer {
            unsafe extern "C" {
                fn $symbol($($c)*) -> $answer;
            }
            unsafe { $symbol($($v)*) }
        }
    };
    (@one $n:ident, $s:ident, $a:ty, [$arg:ident: bytes $(, $($more:tt)*)?], [$($p:tt)*], [$($c:tt)*], [$($v:tt)*]) => {
        calls!(@one $n, $s, $a, [$($($more)*)?], [$($p)* $arg: &[u8],], [$($c)* $arg: *const u8, _: usize,],
            [$($v)* $arg.as_ptr(), $arg.len(),]);
    };
    (@one $n:ident, $s:ident, $a:ty, [$arg:ident: buffer $(, $($more:tt)*)?], [$($p:tt)*], [$($c:tt)*], [$($v:tt)*]) => {
        calls!(@one $n, $s, $a, [$($($more)*)?], [$($p)* $arg: &mut [u8],], [$($c)* $arg: *mut u8, _: usize,],
            [$($v)* $arg.as_mut_ptr(), $arg.len(),]);
    };
    (@one $n:ident, $s:ident, $a:ty, [$arg:ident: $type:tt $(, $($more:tt)*)?], [$($p:tt)*], [$($c:tt)*], [$($v:tt)*]) => {
        calls!(@one $n, $s, $a, [$($($more)*)?], [$($p)* $arg: $type,], [$($c)* $arg: $type,], [$($v)* $arg,]);
    };
}

calls! {
    crc = bench_crc16(data: bytes) -> u16;
    read_packet = brundilope_read_packet(family: usize, p: bytes) -> Packet;
    read_datagram = brundilope_read_datagram(family: usize, p: bytes) -> Datagram;
    read_login = brundilope_read_login(p: bytes) -> Login;
    read_command = brundilope_read_command(family: usize, p: bytes) -> Command;
    answer_login = brundilope_answer_login(p: bytes, known: bool, out: buffer) -> Written;
    acknowledge_packet = brundilope_acknowledge_packet(family: usize, p: bytes, out: buffer) -> Written;
    acknowledge_datagram = brundilope_acknowledge_datagram(family: usize, p: bytes, out: buffer) -> Written;
    write_command = brundilope_write_command(
        family: usize, codec: u8, kind: u8, imei: bytes, time: u32, text: bytes, out: buffer) -> Written;
    record_in_packet = brundilope_record_in_packet(family: usize, p: bytes, record: usize) -> Record;
    record_in_datagram = brundilope_record_in_datagram(family: usize, p: bytes, record: usize) -> Record;
    value_in_packet = brundilope_value_in_packet(family: usize, p: bytes, record: usize, element: usize) -> Value;
    value_in_datagram = brundilope_value_in_datagram(family: usize, p: bytes, record: usize, element: usize) -> Value;
    id_in_packet = brundilope_id_in_packet(family: usize, p: bytes, record: usize, id: u16) -> Found;
    id_in_datagram = brundilope_id_in_datagram(family: usize, p: bytes, record: usize, id: u16) -> Found;
    last_known = brundilope_last_known(family: usize, newer: bytes, older: bytes, id: u16) -> Known;
    form_of_packet = brundilope_form_of_packet(family: usize, p: bytes, out: buffer) -> Written;
    form_of_datagram = brundilope_form_of_datagram(family: usize, p: bytes, out: buffer) -> Written;
    packet_of_form = brundilope_packet_of_form(family: usize, form: bytes, out: buffer) -> Written;
    line_of_packet = brundilope_line_of_packet(family: usize, p: bytes, record: usize, out: buffer) -> Written;
    line_of_datagram = brundilope_line_of_datagram(family: usize, p: bytes, record: usize, out: buffer) -> Written;
    lines_of_packet = brundilope_lines_of_packet(family: usize, p: bytes, out: buffer) -> Written;
    lines_of_datagram = brundilope_lines_of_datagram(family: usize, p: bytes, out: buffer) -> Written;
    read_line = brundilope_read_line(s: bytes) -> Line;
    element_at = brundilope_element_at(s: bytes, at: usize, out: buffer) -> LineElement;
    feed = brundilope_feed(state: Connection, p: bytes) -> Fed;
    feed_parts = brundilope_feed_lent(family: usize, phase: u8, fill: usize, held: buffer, p: bytes, out: buffer)
        -> Taken;
}

// ---- a connection

/// Feeds a state where it stands.
#[inline(always)]
pub fn feed_lent(state: &mut Connection, p: &[u8], out: &mut [u8]) -> Taken {
    let taken = feed_parts(state.family.into(), state.phase, state.fill, &mut state.held, p, out);
    (state.fill, state.phase) = (taken.fill, taken.phase);
    taken
}

/// Lets what came before come to its end, as a read from a socket does: else the processor works on several packets at
/// once, since none waits for another.
#[inline(always)]
fn apart() {
    #[cfg(target_arch = "x86_64")]
    // SAFETY: the instruction has no operands, and every x86-64 has it.
    unsafe {
        std::arch::x86_64::_mm_lfence()
    }
}

/// An input in so many pieces of about the same size.
fn cut(p: &[u8], pieces: usize) -> impl Iterator<Item = &[u8]> {
    (0..pieces).map(move |i| &p[i * p.len() / pieces..(i + 1) * p.len() / pieces])
}

/// A packet fed in pieces, the state by value; gives its size.
#[inline(never)]
pub fn pieces_by_value(p: &[u8], pieces: usize, state: &mut Connection) -> usize {
    let mut size = 0;
    for piece in cut(p, pieces) {
        apart();
        let fed = feed(*state, piece);
        *state = fed.state;
        size = fed.size;
    }
    size
}

/// The same, the state lent.
#[inline(never)]
pub fn pieces_lent(p: &[u8], pieces: usize, state: &mut Connection, out: &mut [u8]) -> usize {
    cut(p, pieces).fold(0, |_, piece| {
        apart();
        feed_lent(state, piece, out).size
    })
}

/// What a packet takes that comes whole: it is read, and copied once.
#[inline(never)]
pub fn read_and_copy(family: usize, p: &[u8], out: &mut [u8]) -> Packet {
    apart();
    out[..p.len()].copy_from_slice(p);
    read_packet(family, p)
}

/// The sum of what comes on a connection, so many bytes at a time, by the Rust crate.
#[inline(never)]
pub fn sum_of_stream(stream: &[u8], most: usize, connection: &mut brundilope::Connection) -> Answer<u64> {
    let mut sum = 0u64;
    for bytes in stream.chunks(most) {
        for item in connection.items(bytes) {
            sum = sum.wrapping_add(match &item {
                Item::More => 0,
                Item::Login(login) => login.imei,
                Item::Data(data) => sum_of_received(data.bytes()),
                Item::Command(command) => sum_of_received(command.bytes()),
                Item::Refused(refusal) => return Err((*refusal).into()),
            });
        }
    }
    Ok(sum)
}

// ---- all values, by the Rust crate

impl From<brundilope::Refusal> for hand::Refusal {
    fn from(r: brundilope::Refusal) -> Self {
        hand::Refusal { number: r.number as u8, index: r.record.unwrap_or(0) }
    }
}

fn sum_of(records: Records) -> u64 {
    let mut sum = 0u64;
    for r in records {
        sum = sum.wrapping_add(sum_of_fields(r.timestamp(), r.longitude(), r.latitude()));
        for v in r.values() {
            let value = v.number.unwrap_or_else(|| sum_of_bytes(v.bytes));
            sum = sum.wrapping_add(u64::from(v.id)).wrapping_add(value);
        }
    }
    sum
}

/// The crate's family of this number.
#[inline]
pub fn family_of(number: usize) -> Answer<Family> {
    let number = u8::try_from(number).map_err(|_| hand::no(21))?;
    Ok(Family::try_from(number)?)
}

#[inline(never)]
pub fn sum_of_packet(family: usize, p: &[u8], room: &mut Contents) -> Answer<u64> {
    Ok(sum_of(DataPacket::read(family_of(family)?, p, room)?.records()))
}

#[inline(never)]
pub fn sum_of_datagram(family: usize, p: &[u8], room: &mut Contents) -> Answer<u64> {
    Ok(sum_of(DataDatagram::read(family_of(family)?, p, room)?.records()))
}

// ---- billing lines

/// The sum of what is in a line, its elements one behind another.
#[inline(never)]
pub fn sum_of_line(s: &[u8], out: &mut [u8]) -> Answer<u64> {
    let line = read_line(s);
    if line.number != 0 {
        return Err(hand::no(line.number as u8));
    }
    let mut sum = sum_of_fields(line.timestamp, line.longitude, line.latitude).wrapping_add(u64::from(line.speed));
    let mut at = line.start;
    for _ in 0..line.elements {
        let e = element_at(s, at, out);
        let value = if e.tag { sum_of_bytes(&out[..e.size]) } else { e.value };
        sum = sum.wrapping_add(u64::from(e.id)).wrapping_add(value);
        at = e.next;
    }
    Ok(sum)
}

// ---- shapes

/// A hand-written answer as the library would give it.
macro_rules! shape {
    ($from:ty, $value:ident => $answer:ident { $($field:ident: $e:expr),* }) => {
        impl From<Answer<$from>> for $answer {
            fn from(a: Answer<$from>) -> Self {
                match a {
                    Ok($value) => $answer { $($field: $e,)* ..Default::default() },
                    Err(r) => $answer { number: usize::from(r.number), index: r.index, ..Default::default() },
                }
            }
        }
    };
}

shape!(usize, n => Written { written: n });
shape!(hand::Packet, a => Packet { codec: a.codec, count: a.count });
shape!(hand::Datagram, a => Datagram {
    codec: a.codec, count: a.count, packet_id: a.packet_id, unused: a.unused, avl_packet_id: a.avl_packet_id,
    imei: a.imei
});
shape!(u64, imei => Login { imei: imei });
shape!(u64, sum => Sum { sum: sum });
shape!(hand::Command, a => Command {
    codec: a.codec, kind: a.kind, time: a.time, imei: a.imei, offset: a.offset, size: a.size
});
shape!(hand::Record, a => Record {
    timestamp: a.timestamp, priority: a.priority, longitude: a.longitude, latitude: a.latitude, altitude: a.altitude,
    angle: a.angle, satellites: a.satellites, speed: a.speed, event: a.event, generation: a.generation,
    elements: a.elements
});
shape!(hand::Value, a => Value { id: a.id, kind: a.kind, offset: a.offset, size: a.size });

/// The same for a look-up by ID: with its count, a refusal too.
macro_rules! counted {
    ($from:ty, $value:ident => $answer:ident { $($field:ident: $e:expr),* }) => {
        shape!($from, $value => $answer { $($field: $e),* });

        impl From<Lookup<$from>> for $answer {
            fn from(a: Lookup<$from>) -> Self {
                let (answer, passed) = match a {
                    Ok(found) => (Ok(found.answer), found.passed),
                    Err(refused) => (Err(refused.answer), refused.passed),
                };
                $answer { passed, ..answer.into() }
            }
        }
    };
}

counted!(hand::Value, a => Found { id: a.id, kind: a.kind, offset: a.offset, size: a.size });
counted!((bool, hand::Value), a => Known {
    older: a.0, id: a.1.id, kind: a.1.kind, offset: a.1.offset, size: a.1.size
});

impl From<&Fed> for Taken {
    fn from(f: &Fed) -> Self {
        let Fed { number, index, place, used, item, imei, size, .. } = *f;
        Taken { number, index, place, used, item, imei, size, fill: f.state.fill, phase: f.state.phase }
    }
}

impl Taken {
    /// What a hand-written feed gives that leaves this state.
    pub fn by_hand((used, judged): (usize, Answer<hand::Item>), state: &Connection) -> Self {
        let taken = Taken { used, fill: state.fill, phase: state.phase, ..Default::default() };
        match judged {
            Ok(hand::Item::More) => taken,
            Ok(hand::Item::Login(imei)) => Taken { item: 1, imei, ..taken },
            Ok(hand::Item::Packet(size)) => Taken { item: 2, size, ..taken },
            Err(r) => Taken { number: usize::from(r.number), index: r.index, ..taken },
        }
    }
}
