//! The library's work written by hand: no unsafe, no allocation, one pass over the packet. Which CRC it takes, the
//! module around it says.

use super::crc;

#[path = "hand_lines.rs"]
mod lines;
pub use lines::*;

#[derive(Clone, Copy, Debug, PartialEq, Eq)]
pub struct Refusal {
    pub number: u8,
    pub index: usize,
}

pub type Answer<T> = Result<T, Refusal>;

pub const fn no(number: u8) -> Refusal {
    Refusal { number, index: 0 }
}

/// The most bytes of a family's TCP packets, datagrams and records.
#[derive(Clone, Copy)]
pub struct Limits {
    pub packet: usize,
    pub datagram: usize,
    pub record: usize,
}

/// The limits of the family of this number.
#[inline]
pub fn limits_of(family: usize) -> Answer<Limits> {
    match family {
        1 => Ok(Limits { packet: 512, datagram: 512, record: 255 }),
        2 => Ok(Limits { packet: 1280, datagram: 1280, record: usize::MAX }),
        _ => Err(no(21)),
    }
}

pub struct Packet {
    pub codec: u8,
    pub count: u8,
}

pub struct Datagram {
    pub codec: u8,
    pub count: u8,
    pub packet_id: u16,
    pub unused: u8,
    pub avl_packet_id: u8,
    pub imei: u64,
}

pub struct Command {
    pub codec: u8,
    pub kind: u8,
    pub time: u32,
    pub imei: u64,
    pub offset: usize,
    pub size: usize,
}

pub struct Record {
    pub timestamp: u64,
    pub priority: u8,
    pub longitude: i32,
    pub latitude: i32,
    pub altitude: i16,
    pub angle: u16,
    pub satellites: u8,
    pub speed: u16,
    pub event: u16,
    pub generation: u8,
    pub elements: usize,
}

#[derive(Clone, Copy)]
pub struct Value {
    pub id: u16,
    pub kind: u8,
    pub offset: usize,
    pub size: usize,
}

/// What a look-up by ID comes to, and how many elements it passed.
pub struct Counted<T> {
    pub answer: T,
    pub passed: usize,
}

/// A refusal has its count, too.
pub type Lookup<T> = Result<Counted<T>, Counted<Refusal>>;

/// Refused before any element was looked at.
impl From<Refusal> for Counted<Refusal> {
    fn from(answer: Refusal) -> Self {
        Counted { answer, passed: 0 }
    }
}

// ---- codecs

/// The widths of one codec.
pub trait Codec {
    const EVENT: usize;
    const GENERATION: usize;
    const COUNT: usize;
    const ID: usize;
    const VARIABLE: bool;
    /// Where the groups begin in a record.
    const GROUPS: usize = 24 + Self::EVENT + Self::GENERATION + Self::COUNT;
    /// A record without elements.
    const LEAST: usize = Self::GROUPS + Self::COUNT * (4 + Self::VARIABLE as usize);
    /// The most elements that a total can say.
    const MOST: usize = (1 << (8 * Self::COUNT)) - 1;
}

pub struct Codec8;
pub struct Codec8E;
pub struct Codec16;

impl Codec for Codec8 {
    const EVENT: usize = 1;
    const GENERATION: usize = 0;
    const COUNT: usize = 1;
    const ID: usize = 1;
    const VARIABLE: bool = false;
}

impl Codec for Codec8E {
    const EVENT: usize = 2;
    const GENERATION: usize = 0;
    const COUNT: usize = 2;
    const ID: usize = 2;
    const VARIABLE: bool = true;
}

impl Codec for Codec16 {
    const EVENT: usize = 2;
    const GENERATION: usize = 1;
    const COUNT: usize = 1;
    const ID: usize = 2;
    const VARIABLE: bool = false;
}

/// A big-endian number of one or two bytes.
fn number(b: &[u8], at: usize, width: usize) -> Option<usize> {
    if width == 1 {
        b.get(at).map(|&x| usize::from(x))
    } else {
        let b = b.get(at..at + 2)?;
        Some(usize::from(u16::from_be_bytes([b[0], b[1]])))
    }
}

// ---- frame

/// The length of the data field, by the eight bytes before it.
fn length(limits: Limits, head: &[u8; 8]) -> Answer<usize> {
    if head[..4] != [0; 4] {
        return Err(no(2));
    }
    let length = u32::from_be_bytes([head[4], head[5], head[6], head[7]]) as usize;
    if !(3..=limits.packet - 12).contains(&length) {
        return Err(no(3));
    }
    Ok(length)
}

/// The data field of a TCP packet.
fn frame(limits: Limits, p: &[u8]) -> Answer<&[u8]> {
    let Some((head, rest)) = p.split_first_chunk::<8>() else {
        return Err(no(1));
    };
    let length = length(limits, head)?;
    if rest.len() != length + 4 {
        return Err(no(4));
    }
    let (data, field) = rest.split_at(length);
    if field != u32::from(crc(data)).to_be_bytes() {
        return Err(no(5));
    }
    Ok(data)
}

fn imei_of_digits(digits: &[u8]) -> Option<u64> {
    let mut imei = 0;
    for d in digits {
        if !d.is_ascii_digit() {
            return None;
        }
        imei = imei * 10 + u64::from(d - b'0');
    }
    Some(imei)
}

/// The head of a datagram, and its data field.
fn datagram(limits: Limits, p: &[u8]) -> Answer<(Datagram, &[u8])> {
    if p.len() < 26 {
        return Err(no(1));
    }
    if p.len() > limits.datagram {
        return Err(no(3));
    }
    let (head, data) = p.split_at(23);
    if usize::from(u16::from_be_bytes([head[0], head[1]])) != p.len() - 2 {
        return Err(no(4));
    }
    if head[6..8] != [0, 15] {
        return Err(no(15));
    }
    let Some(imei) = imei_of_digits(&head[8..]) else {
        return Err(no(15));
    };
    let head = Datagram {
        codec: 0,
        count: 0,
        packet_id: u16::from_be_bytes([head[2], head[3]]),
        unused: head[4],
        avl_packet_id: head[5],
        imei,
    };
    Ok((head, data))
}

// ---- the walk

/// One record as the walk saw it: where it lies in the data field, how many elements it has, how many of them variable.
#[derive(Clone, Copy)]
struct Span {
    start: usize,
    len: usize,
    elements: usize,
    variable: usize,
}

/// What a walk does with the elements that it meets; `None` where their bytes are not all there.
trait Elements {
    /// So many values of one size; their pairs begin at `at`.
    #[inline(always)]
    fn fixed<C: Codec>(&mut self, _b: &[u8], _at: usize, _count: usize, _size: usize) -> Option<()> {
        Some(())
    }
    /// A variable element, which begins at `at`.
    #[inline(always)]
    fn variable<C: Codec>(&mut self, _b: &[u8], _at: usize) -> Option<()> {
        Some(())
    }
}

/// Steps over them.
struct Skip;
impl Elements for Skip {}

/// Judges the record at the start of `b`.
#[inline]
fn step<C: Codec>(limits: Limits, b: &[u8], elements: &mut impl Elements) -> Result<Span, u8> {
    if *b.get(8).ok_or(8)? > 2 {
        return Err(10);
    }
    if C::GENERATION == 1 && *b.get(24 + C::EVENT).ok_or(8)? > 7 {
        return Err(11);
    }
    let total = number(b, C::GROUPS - C::COUNT, C::COUNT).ok_or(8)?;
    let mut at = C::GROUPS;
    let mut sum = 0;
    for size in [1, 2, 4, 8] {
        let count = number(b, at, C::COUNT).ok_or(8)?;
        sum += count;
        at += C::COUNT;
        elements.fixed::<C>(b, at, count, size).ok_or(8)?;
        at += count * (C::ID + size);
    }
    let mut variable = 0;
    if C::VARIABLE {
        variable = number(b, at, C::COUNT).ok_or(8)?;
        sum += variable;
        at += C::COUNT;
        for _ in 0..variable {
            elements.variable::<C>(b, at).ok_or(8)?;
            at += C::ID + 2 + number(b, at + C::ID, 2).ok_or(8)?;
        }
    }
    if at > b.len() {
        return Err(8);
    }
    if sum != total {
        return Err(9);
    }
    if at > limits.record {
        return Err(12);
    }
    Ok(Span { start: 0, len: at, elements: sum, variable })
}

fn walk<C: Codec>(
    limits: Limits,
    data: &[u8],
    count: u8,
    elements: &mut impl Elements,
    mut visit: impl FnMut(usize, Span),
) -> Answer<()> {
    let body = &data[..data.len() - 1];
    let mut at = 2;
    for index in 0..usize::from(count) {
        match step::<C>(limits, &body[at..], elements) {
            Ok(span) => {
                visit(index, Span { start: at, ..span });
                at += span.len;
            }
            Err(number) => return Err(Refusal { number, index }),
        }
    }
    if at != body.len() {
        return Err(Refusal { number: 8, index: usize::from(count) });
    }
    Ok(())
}

/// Judges a data field of at least three bytes.
fn judge(limits: Limits, data: &[u8], visit: impl FnMut(usize, Span)) -> Answer<Packet> {
    judge_with(limits, data, &mut Skip, visit)
}

fn judge_with(
    limits: Limits,
    data: &[u8],
    elements: &mut impl Elements,
    visit: impl FnMut(usize, Span),
) -> Answer<Packet> {
    let (codec, count) = (data[0], data[1]);
    if !matches!(codec, 0x08 | 0x8E | 0x10) {
        return Err(no(6));
    }
    if count == 0 || data[data.len() - 1] != count {
        return Err(no(7));
    }
    match codec {
        0x08 => walk::<Codec8>(limits, data, count, elements, visit)?,
        0x8E => walk::<Codec8E>(limits, data, count, elements, visit)?,
        _ => walk::<Codec16>(limits, data, count, elements, visit)?,
    }
    Ok(Packet { codec, count })
}

// ---- reading and answering

fn packet_within(limits: Limits, p: &[u8]) -> Answer<Packet> {
    judge(limits, frame(limits, p)?, |_, _| {})
}

#[inline(never)]
pub fn read_packet(family: usize, p: &[u8]) -> Answer<Packet> {
    packet_within(limits_of(family)?, p)
}

#[inline(never)]
pub fn read_datagram(family: usize, p: &[u8]) -> Answer<Datagram> {
    let limits = limits_of(family)?;
    let (head, data) = datagram(limits, p)?;
    let Packet { codec, count } = judge(limits, data, |_, _| {})?;
    Ok(Datagram { codec, count, ..head })
}

#[inline(never)]
pub fn read_login(p: &[u8]) -> Answer<u64> {
    if p.len() < 17 {
        return Err(no(1));
    }
    if p.len() > 17 {
        return Err(no(4));
    }
    if p[..2] != [0, 15] {
        return Err(no(15));
    }
    imei_of_digits(&p[2..]).ok_or(no(15))
}

#[inline(never)]
pub fn answer_login(p: &[u8], known: bool, out: &mut [u8]) -> Answer<usize> {
    let Some(o) = out.first_mut() else {
        return Err(no(18));
    };
    *o = u8::from(read_login(p).is_ok() && known);
    Ok(1)
}

#[inline(never)]
pub fn acknowledge_packet(family: usize, p: &[u8], out: &mut [u8]) -> Answer<usize> {
    let limits = limits_of(family)?;
    let count = packet_within(limits, p).map_or(0, |a| a.count);
    let Some(out) = out.first_chunk_mut::<4>() else {
        return Err(no(18));
    };
    *out = u32::from(count).to_be_bytes();
    Ok(4)
}

#[inline(never)]
pub fn acknowledge_datagram(family: usize, p: &[u8], out: &mut [u8]) -> Answer<usize> {
    let d = read_datagram(family, p)?;
    let Some(out) = out.first_chunk_mut::<7>() else {
        return Err(no(18));
    };
    let id = d.packet_id.to_be_bytes();
    *out = [0, 5, id[0], id[1], d.unused, d.avl_packet_id, d.count];
    Ok(7)
}

// ---- commands

fn is_command(codec: u8) -> bool {
    matches!(codec, 0x0C..=0x0E)
}

/// The number of sixteen digits, two a byte, the first of them 0.
fn imei_of_packed(digits: &[u8; 8]) -> Option<u64> {
    if digits[0] > 9 {
        return None;
    }
    let mut imei = 0;
    for d in digits {
        let (high, low) = (d >> 4, d & 15);
        if high > 9 || low > 9 {
            return None;
        }
        imei = imei * 100 + u64::from(high * 10 + low);
    }
    Some(imei)
}

/// Fifteen ASCII digits as sixteen, two a byte.
fn packed_of_digits(imei: &[u8]) -> Option<[u8; 8]> {
    if imei.len() != 15 || !imei.iter().all(u8::is_ascii_digit) {
        return None;
    }
    let mut packed = [imei[0] & 15; 8];
    for (b, pair) in packed[1..].iter_mut().zip(imei[1..].chunks_exact(2)) {
        *b = (pair[0] & 15) << 4 | pair[1] & 15;
    }
    Some(packed)
}

#[inline(never)]
pub fn read_command(family: usize, p: &[u8]) -> Answer<Command> {
    command_within(limits_of(family)?, p)
}

fn command_within(limits: Limits, p: &[u8]) -> Answer<Command> {
    let data = frame(limits, p)?;
    let codec = data[0];
    if !is_command(codec) {
        return Err(no(6));
    }
    if data[1] != 1 || data[data.len() - 1] != 1 {
        return Err(no(7));
    }
    let body = &data[2..data.len() - 1];
    let Some((&kind, rest)) = body.split_first() else {
        return Err(no(8));
    };
    if !(kind == 5 || kind == 6 || kind == 0x11 && codec == 0x0E) {
        return Err(no(13));
    }
    let Some((size, rest)) = rest.split_first_chunk::<4>() else {
        return Err(no(8));
    };
    if u32::from_be_bytes(*size) as usize != rest.len() {
        return Err(no(14));
    }
    if codec == 0x0C {
        return Ok(Command { codec, kind, time: 0, imei: 0, offset: 15, size: rest.len() });
    }
    if codec == 0x0D {
        let Some((time, text)) = rest.split_first_chunk::<4>() else {
            return Err(no(14));
        };
        let time = u32::from_be_bytes(*time);
        return Ok(Command { codec, kind, time, imei: 0, offset: 19, size: text.len() });
    }
    let Some((digits, text)) = rest.split_first_chunk::<8>() else {
        return Err(no(14));
    };
    let Some(imei) = imei_of_packed(digits) else {
        return Err(no(15));
    };
    if kind == 0x11 && !text.is_empty() {
        return Err(no(14));
    }
    Ok(Command { codec, kind, time: 0, imei, offset: 23, size: text.len() })
}

#[inline(never)]
pub fn write_command(
    family: usize,
    codec: u8,
    kind: u8,
    imei: &[u8],
    time: u32,
    text: &[u8],
    out: &mut [u8],
) -> Answer<usize> {
    let limits = limits_of(family)?;
    if !is_command(codec) {
        return Err(no(6));
    }
    if !(kind == 5 || kind == 6 || kind == 0x11 && codec == 0x0E) {
        return Err(no(13));
    }
    let packed = if codec == 0x0E { packed_of_digits(imei) } else { imei.is_empty().then_some([0; 8]) };
    let Some(packed) = packed else {
        return Err(no(15));
    };
    let time = time.to_be_bytes();
    let heading = match codec {
        0x0C => &[][..],
        0x0D => &time,
        _ => &packed,
    };
    if text.len() > limits.packet - 20 - heading.len() || kind == 0x11 && !text.is_empty() {
        return Err(no(14));
    }
    let size = heading.len() + text.len();
    let Some(out) = out.get_mut(..size + 20) else {
        return Err(no(18));
    };
    out[..4].fill(0);
    out[4..8].copy_from_slice(&(size as u32 + 8).to_be_bytes());
    out[8..11].copy_from_slice(&[codec, 1, kind]);
    out[11..15].copy_from_slice(&(size as u32).to_be_bytes());
    let (data, field) = out[8..].split_at_mut(size + 8);
    data[7..7 + heading.len()].copy_from_slice(heading);
    data[7 + heading.len()..7 + size].copy_from_slice(text);
    data[7 + size] = 1;
    field.copy_from_slice(&u32::from(crc(data)).to_be_bytes());
    Ok(size + 20)
}

// ---- a connection

/// What has come of the next item: a login (phase 0), a packet (1), nothing more (2). The library's lent state, too.
#[repr(C)]
#[derive(Clone, Copy)]
pub struct Connection {
    pub held: [u8; 1280],
    pub fill: usize,
    pub phase: u8,
    pub family: u8,
}

pub enum Item {
    More,
    Login(u64),
    Packet(usize),
}

impl Connection {
    pub const fn fresh(family: u8) -> Self {
        Connection { held: [0; 1280], fill: 0, phase: 0, family }
    }

    pub const fn logged_in(family: u8) -> Self {
        Connection { phase: 1, ..Connection::fresh(family) }
    }

    /// The length of the next item; one that is not there yet, where its head is not there yet.
    #[inline]
    fn size(&self, limits: Limits, bytes: &[u8]) -> Answer<usize> {
        let mut head = [0; 8];
        match (self.phase, self.fill, bytes.first_chunk::<8>()) {
            (0, ..) => return Ok(17),
            (_, 0, Some(first)) => head = *first,
            (_, 8.., _) => head.copy_from_slice(&self.held[..8]),
            (_, held, _) => {
                let Some(new) = bytes.get(..8 - held) else { return Ok(8) };
                head[..held].copy_from_slice(&self.held[..held]);
                head[held..].copy_from_slice(new);
            }
        }
        Ok(length(limits, &head)? + 12)
    }

    /// Takes the bytes of one item or a part of it, and gives their number; a packet goes to the start of `out`.
    #[inline(never)]
    pub fn feed(&mut self, bytes: &[u8], out: &mut [u8]) -> (usize, Answer<Item>) {
        let Ok(limits) = limits_of(self.family.into()) else { return (0, Err(no(19))) };
        if self.phase > 1 {
            return (0, Err(no(19)));
        }
        let size = match self.size(limits, bytes) {
            Ok(size) => size,
            Err(r) => {
                let used = 8 - self.fill;
                (self.fill, self.phase) = (0, 2);
                return (used, Err(r));
            }
        };
        let Some(new) = bytes.get(..size - self.fill) else {
            self.held[self.fill..self.fill + bytes.len()].copy_from_slice(bytes);
            self.fill += bytes.len();
            return (bytes.len(), Ok(Item::More));
        };
        let mut item = new;
        if self.fill > 0 {
            self.held[self.fill..size].copy_from_slice(new);
            item = &self.held[..size];
        }
        let judged = if self.phase == 0 { read_login(item).map(Item::Login) } else { received(limits, item, out) };
        (self.fill, self.phase) = (0, if judged.is_ok() { 1 } else { 2 });
        (new.len(), judged)
    }
}

/// Judges a packet that is whole, and copies it.
fn received(limits: Limits, p: &[u8], out: &mut [u8]) -> Answer<Item> {
    if is_command(p[8]) {
        command_within(limits, p)?;
    } else {
        packet_within(limits, p)?;
    }
    out[..p.len()].copy_from_slice(p);
    Ok(Item::Packet(p.len()))
}

/// What the caller makes of a packet that a connection gives.
pub fn sum_of_received(p: &[u8]) -> u64 {
    p.len() as u64 + u64::from(p[8]) + u64::from(p[9])
}

/// The sum of what comes on a connection, so many bytes at a time.
#[inline(never)]
pub fn sum_of_stream(stream: &[u8], most: usize, connection: &mut Connection, out: &mut [u8]) -> Answer<u64> {
    let mut sum = 0u64;
    for mut bytes in stream.chunks(most) {
        while !bytes.is_empty() {
            let (used, item) = connection.feed(bytes, out);
            bytes = &bytes[used..];
            sum = sum.wrapping_add(match item? {
                Item::More => 0,
                Item::Login(imei) => imei,
                Item::Packet(size) => sum_of_received(&out[..size]),
            });
        }
    }
    Ok(sum)
}

// ---- looking up

/// Judges the data field, and gives its codec and the wanted record.
fn find(limits: Limits, data: &[u8], record: usize) -> Answer<(u8, Span)> {
    let mut found = None;
    let packet = judge(limits, data, |index, span| {
        if index == record {
            found = Some(span);
        }
    })?;
    match found {
        Some(span) => Ok((packet.codec, span)),
        None => Err(no(16)),
    }
}

/// The same for the last record.
fn find_last(limits: Limits, data: &[u8]) -> Answer<(u8, Span)> {
    let mut found = Span { start: 0, len: 0, elements: 0, variable: 0 };
    let packet = judge(limits, data, |_, span| found = span)?;
    Ok((packet.codec, found))
}

fn fields<C: Codec>(r: &[u8], elements: usize) -> Option<Record> {
    let (head, rest) = r.split_first_chunk::<24>()?;
    let h = head;
    Some(Record {
        timestamp: u64::from_be_bytes([h[0], h[1], h[2], h[3], h[4], h[5], h[6], h[7]]),
        priority: h[8],
        longitude: i32::from_be_bytes([h[9], h[10], h[11], h[12]]),
        latitude: i32::from_be_bytes([h[13], h[14], h[15], h[16]]),
        altitude: i16::from_be_bytes([h[17], h[18]]),
        angle: u16::from_be_bytes([h[19], h[20]]),
        satellites: h[21],
        speed: u16::from_be_bytes([h[22], h[23]]),
        event: number(rest, 0, C::EVENT)? as u16,
        generation: if C::GENERATION == 1 { *rest.get(C::EVENT)? } else { 0 },
        elements,
    })
}

fn record_of(limits: Limits, data: &[u8], record: usize) -> Answer<Record> {
    let (codec, span) = find(limits, data, record)?;
    let r = &data[span.start..span.start + span.len];
    match codec {
        0x08 => fields::<Codec8>(r, span.elements),
        0x8E => fields::<Codec8E>(r, span.elements),
        _ => fields::<Codec16>(r, span.elements),
    }
    .ok_or(no(16))
}

/// The element of this number in a judged record; the offset is from the record's start.
fn by_number<C: Codec>(r: &[u8], mut n: usize) -> Option<Value> {
    let mut at = C::GROUPS;
    for size in [1, 2, 4, 8] {
        let count = number(r, at, C::COUNT)?;
        at += C::COUNT;
        if n < count {
            at += n * (C::ID + size);
            let id = number(r, at, C::ID)? as u16;
            return Some(Value { id, kind: size as u8, offset: at + C::ID, size });
        }
        n -= count;
        at += count * (C::ID + size);
    }
    if C::VARIABLE && n < number(r, at, C::COUNT)? {
        at += C::COUNT;
        for _ in 0..n {
            at += C::ID + 2 + number(r, at + C::ID, 2)?;
        }
        let id = number(r, at, C::ID)? as u16;
        return Some(Value { id, kind: 9, offset: at + C::ID + 2, size: number(r, at + C::ID, 2)? });
    }
    None
}

/// The first element of this ID in a judged record, and its place, from 1; the offset is from the record's start.
fn by_id<C: Codec>(r: &[u8], id: u16) -> Option<Counted<Value>> {
    let (mut at, mut before) = (C::GROUPS, 0);
    for size in [1, 2, 4, 8] {
        let pair = C::ID + size;
        let count = number(r, at, C::COUNT)?;
        at += C::COUNT;
        let pairs = r.get(at..at + count * pair)?;
        if let Some(n) = pairs.chunks_exact(pair).position(|p| number(p, 0, C::ID) == Some(usize::from(id))) {
            let answer = Value { id, kind: size as u8, offset: at + n * pair + C::ID, size };
            return Some(Counted { answer, passed: before + n + 1 });
        }
        at += count * pair;
        before += count;
    }
    if C::VARIABLE {
        let count = number(r, at, C::COUNT)?;
        at += C::COUNT;
        for n in 0..count {
            let size = number(r, at + C::ID, 2)?;
            let offset = at + C::ID + 2;
            if number(r, at, C::ID) == Some(usize::from(id)) {
                let answer = Value { id, kind: 9, offset, size };
                return Some(Counted { answer, passed: before + n + 1 });
            }
            at = offset + size;
        }
    }
    None
}

fn value_of(limits: Limits, data: &[u8], base: usize, record: usize, element: usize) -> Answer<Value> {
    let (codec, span) = find(limits, data, record)?;
    if element >= span.elements {
        return Err(no(16));
    }
    let r = &data[span.start..span.start + span.len];
    let value = match codec {
        0x08 => by_number::<Codec8>(r, element),
        0x8E => by_number::<Codec8E>(r, element),
        _ => by_number::<Codec16>(r, element),
    };
    match value {
        Some(v) => Ok(Value { offset: base + span.start + v.offset, ..v }),
        None => Err(no(16)),
    }
}

/// The first element of this ID in a judged record, which begins at `start` in the input; where there is none, all its
/// elements were passed. The record comes in parts: as a whole span it would go through memory, which took 10 ns a call.
fn id_in(r: &[u8], start: usize, codec: u8, elements: usize, id: u16) -> Lookup<Value> {
    let found = match codec {
        0x08 => by_id::<Codec8>(r, id),
        0x8E => by_id::<Codec8E>(r, id),
        _ => by_id::<Codec16>(r, id),
    };
    match found {
        Some(Counted { answer: v, passed }) => Ok(Counted { answer: Value { offset: start + v.offset, ..v }, passed }),
        None => Err(Counted { answer: no(16), passed: elements }),
    }
}

#[inline(never)]
pub fn record_in_packet(family: usize, p: &[u8], record: usize) -> Answer<Record> {
    let limits = limits_of(family)?;
    record_of(limits, frame(limits, p)?, record)
}

#[inline(never)]
pub fn record_in_datagram(family: usize, p: &[u8], record: usize) -> Answer<Record> {
    let limits = limits_of(family)?;
    record_of(limits, datagram(limits, p)?.1, record)
}

#[inline(never)]
pub fn value_in_packet(family: usize, p: &[u8], record: usize, element: usize) -> Answer<Value> {
    let limits = limits_of(family)?;
    value_of(limits, frame(limits, p)?, 8, record, element)
}

#[inline(never)]
pub fn value_in_datagram(family: usize, p: &[u8], record: usize, element: usize) -> Answer<Value> {
    let limits = limits_of(family)?;
    value_of(limits, datagram(limits, p)?.1, 23, record, element)
}

#[inline(never)]
pub fn id_in_packet(family: usize, p: &[u8], record: usize, id: u16) -> Lookup<Value> {
    let limits = limits_of(family)?;
    let data = frame(limits, p)?;
    let (codec, Span { start, len, elements, .. }) = find(limits, data, record)?;
    id_in(&data[start..start + len], 8 + start, codec, elements, id)
}

#[inline(never)]
pub fn id_in_datagram(family: usize, p: &[u8], record: usize, id: u16) -> Lookup<Value> {
    let limits = limits_of(family)?;
    let data = datagram(limits, p)?.1;
    let (codec, Span { start, len, elements, .. }) = find(limits, data, record)?;
    id_in(&data[start..start + len], 23 + start, codec, elements, id)
}

#[inline(never)]
pub fn last_known(family: usize, newer: &[u8], older: &[u8], id: u16) -> Lookup<(bool, Value)> {
    let limits = limits_of(family)?;
    let mut before = 0;
    for (older, p) in [(false, newer), (true, older)] {
        let refused = |answer| Counted { answer, passed: before };
        let data = frame(limits, p).map_err(refused)?;
        let (codec, Span { start, len, elements, .. }) = find_last(limits, data).map_err(refused)?;
        if let Ok(f) = id_in(&data[start..start + len], 8 + start, codec, elements, id) {
            return Ok(Counted { answer: (older, f.answer), passed: before + f.passed });
        }
        before += elements;
    }
    Err(Counted { answer: no(16), passed: before })
}

// ---- all values

/// What the caller makes of a record's fixed fields.
pub fn sum_of_fields(timestamp: u64, longitude: i32, latitude: i32) -> u64 {
    timestamp.wrapping_add(longitude as u64).wrapping_add(latitude as u64)
}

/// What it makes of a variable value.
pub fn sum_of_bytes(value: &[u8]) -> u64 {
    value.len() as u64 + value.iter().map(|&b| u64::from(b)).sum::<u64>()
}

/// The sum of the elements that the walk has met.
struct Sum(u64);

impl Elements for Sum {
    #[inline]
    fn fixed<C: Codec>(&mut self, b: &[u8], at: usize, count: usize, size: usize) -> Option<()> {
        let pairs = b.get(at..at + count * (C::ID + size))?;
        self.0 = self.0.wrapping_add(match size {
            1 => sum_of_pairs::<C, 1>(pairs),
            2 => sum_of_pairs::<C, 2>(pairs),
            4 => sum_of_pairs::<C, 4>(pairs),
            _ => sum_of_pairs::<C, 8>(pairs),
        });
        Some(())
    }
    #[inline]
    fn variable<C: Codec>(&mut self, b: &[u8], at: usize) -> Option<()> {
        let (id, size) = (number(b, at, C::ID)?, number(b, at + C::ID, 2)?);
        let value = b.get(at + C::ID + 2..at + C::ID + 2 + size)?;
        self.0 = self.0.wrapping_add(id as u64 + sum_of_bytes(value));
        Some(())
    }
}

/// The sum of IDs and values in a fixed group.
#[inline]
fn sum_of_pairs<C: Codec, const SIZE: usize>(pairs: &[u8]) -> u64 {
    let mut sum = 0u64;
    for pair in pairs.chunks_exact(C::ID + SIZE) {
        let mut value = [0; 8];
        value[8 - SIZE..].copy_from_slice(&pair[C::ID..]);
        let id = number(pair, 0, C::ID).unwrap_or(0) as u64;
        sum = sum.wrapping_add(id).wrapping_add(u64::from_be_bytes(value));
    }
    sum
}

/// Judges the data field, and adds up what is in it.
fn sum_of(limits: Limits, data: &[u8]) -> Answer<u64> {
    let (mut sum, mut elements) = (0u64, Sum(0));
    judge_with(limits, data, &mut elements, |_, span| {
        // time and place stand alike in every codec
        if let Some(r) = fields::<Codec8>(&data[span.start..], 0) {
            sum = sum.wrapping_add(sum_of_fields(r.timestamp, r.longitude, r.latitude));
        }
    })?;
    Ok(sum.wrapping_add(elements.0))
}

#[inline(never)]
pub fn sum_of_packet(family: usize, p: &[u8]) -> Answer<u64> {
    let limits = limits_of(family)?;
    sum_of(limits, frame(limits, p)?)
}

#[inline(never)]
pub fn sum_of_datagram(family: usize, p: &[u8]) -> Answer<u64> {
    let limits = limits_of(family)?;
    sum_of(limits, datagram(limits, p)?.1)
}

// ---- TLV forms

/// The entries of one fixed group.
fn entries<const SIZE: usize>(pairs: &[u8], id: usize, out: &mut [u8]) {
    for (e, p) in out.chunks_exact_mut(6 + SIZE).zip(pairs.chunks_exact(id + SIZE)) {
        e[..4].copy_from_slice(&[2 + SIZE as u8, 0, SIZE as u8, 0]);
        e[4] = p[id - 1];
        e[5] = if id == 2 { p[0] } else { 0 };
        e[6..].copy_from_slice(&p[id..]);
    }
}

/// The entry of a record's fixed fields.
#[inline]
pub fn record_entry(f: &Record, e: &mut [u8; 31]) {
    e[..4].copy_from_slice(&[27, 0, 101, 0]);
    e[4..12].copy_from_slice(&f.timestamp.to_le_bytes());
    e[12] = f.priority;
    e[13..17].copy_from_slice(&f.longitude.to_le_bytes());
    e[17..21].copy_from_slice(&f.latitude.to_le_bytes());
    e[21..23].copy_from_slice(&f.altitude.to_le_bytes());
    e[23..25].copy_from_slice(&f.angle.to_le_bytes());
    e[25] = f.satellites;
    e[26..28].copy_from_slice(&f.speed.to_le_bytes());
    e[28..30].copy_from_slice(&f.event.to_le_bytes());
    e[30] = f.generation;
}

/// The entry of a variable value.
#[inline]
pub fn variable_entry(id: u16, value: &[u8], e: &mut [u8]) {
    e[..2].copy_from_slice(&(2 + value.len() as u16).to_le_bytes());
    e[2..4].copy_from_slice(&[9, 0]);
    e[4..6].copy_from_slice(&id.to_le_bytes());
    e[6..].copy_from_slice(value);
}

/// The entries of the variable group at `at`; gives where it ends, and the length of its entries.
#[inline]
fn variable_entries<C: Codec>(r: &[u8], mut at: usize, out: &mut [u8]) -> Option<(usize, usize)> {
    let mut to = 0;
    let count = number(r, at, C::COUNT)?;
    at += C::COUNT;
    for _ in 0..count {
        let id = number(r, at, C::ID)? as u16;
        let size = number(r, at + C::ID, 2)?;
        at += C::ID + 2;
        variable_entry(id, r.get(at..at + size)?, out.get_mut(to..to + 6 + size)?);
        at += size;
        to += 6 + size;
    }
    Some((at, to))
}

/// The entries of the fixed group with values of this size.
#[inline]
pub fn fixed_entries(size: usize, pairs: &[u8], id: usize, out: &mut [u8]) {
    match size {
        1 => entries::<1>(pairs, id, out),
        2 => entries::<2>(pairs, id, out),
        4 => entries::<4>(pairs, id, out),
        _ => entries::<8>(pairs, id, out),
    }
}

/// The form of the judged record at the start of `r`; gives the lengths of the record and of its form.
fn form_of_record<C: Codec>(r: &[u8], out: &mut [u8]) -> Option<(usize, usize)> {
    record_entry(&fields::<C>(r, 0)?, out.first_chunk_mut::<31>()?);
    let (mut at, mut to) = (C::GROUPS, 31);
    for size in [1, 2, 4, 8] {
        let count = number(r, at, C::COUNT)?;
        at += C::COUNT;
        let pairs = r.get(at..at + count * (C::ID + size))?;
        let here = out.get_mut(to..to + count * (6 + size))?;
        at += pairs.len();
        to += here.len();
        fixed_entries(size, pairs, C::ID, here);
    }
    if C::VARIABLE {
        let (end, more) = variable_entries::<C>(r, at, &mut out[to..])?;
        return Some((end, to + more));
    }
    Some((at, to))
}

fn form_write<C: Codec>(data: &[u8], sum: Span, out: &mut [u8]) -> Answer<usize> {
    let count = usize::from(data[1]);
    let total = 5 + 31 * count + (sum.len - C::LEAST * count) + sum.elements * (6 - C::ID) - sum.variable * 2;
    let Some(out) = out.get_mut(..total) else {
        return Err(no(18));
    };
    out[..5].copy_from_slice(&[1, 0, 100, 0, data[0]]);
    let (mut at, mut to) = (2, 5);
    for _ in 0..count {
        // a judged record is whole and its form has room
        let Some((read, written)) = form_of_record::<C>(&data[at..], &mut out[to..]) else { break };
        at += read;
        to += written;
    }
    Ok(total)
}

fn form_of(limits: Limits, data: &[u8], out: &mut [u8]) -> Answer<usize> {
    let mut sum = Span { start: 0, len: 0, elements: 0, variable: 0 };
    let packet = judge(limits, data, |_, s| {
        sum.len += s.len;
        sum.elements += s.elements;
        sum.variable += s.variable;
    })?;
    match packet.codec {
        0x08 => form_write::<Codec8>(data, sum, out),
        0x8E => form_write::<Codec8E>(data, sum, out),
        _ => form_write::<Codec16>(data, sum, out),
    }
}

#[inline(never)]
pub fn form_of_packet(family: usize, p: &[u8], out: &mut [u8]) -> Answer<usize> {
    let limits = limits_of(family)?;
    form_of(limits, frame(limits, p)?, out)
}

#[inline(never)]
pub fn form_of_datagram(family: usize, p: &[u8], out: &mut [u8]) -> Answer<usize> {
    let limits = limits_of(family)?;
    form_of(limits, datagram(limits, p)?.1, out)
}

fn le16(b: &[u8], at: usize) -> Option<usize> {
    let b = b.get(at..at + 2)?;
    Some(usize::from(u16::from_le_bytes([b[0], b[1]])))
}

/// The first entry of a form, its kind and body, and what is behind it.
fn entry(form: &[u8]) -> Option<(usize, &[u8], &[u8])> {
    let (&[a, b, c, d], rest) = form.split_first_chunk::<4>()?;
    let (body, rest) = rest.split_at_checked(usize::from(u16::from_le_bytes([a, b])))?;
    Some((usize::from(u16::from_le_bytes([c, d])), body, rest))
}

/// What the entries of a form have come to: records, the data field without its last record, that record, its elements
/// and their last kind.
#[derive(Clone, Copy)]
pub struct FormSums {
    records: usize,
    length: usize,
    record: usize,
    elements: usize,
    kind: usize,
}

impl FormSums {
    pub const START: FormSums = FormSums { records: 0, length: 3, record: 0, elements: 0, kind: 0 };

    /// One entry more, if it may stand here.
    #[inline]
    pub fn with<C: Codec>(mut self, limits: Limits, kind: usize, body: &[u8]) -> Option<Self> {
        if kind == 101 {
            let body: &[u8; 27] = body.try_into().ok()?;
            if body[8] > 2 || C::EVENT == 1 && body[25] != 0 || body[26] > if C::GENERATION == 1 { 7 } else { 0 } {
                return None;
            }
            let (records, length) = (self.records + 1, self.length + self.record);
            self = FormSums { records, length, record: C::LEAST, elements: 0, kind: 1 };
        } else {
            if kind < self.kind || self.kind == 0 || C::ID == 1 && *body.get(1)? != 0 {
                return None;
            }
            match kind {
                1 | 2 | 4 | 8 if body.len() == 2 + kind => self.record += C::ID + kind,
                9 if C::VARIABLE && body.len() >= 2 => self.record += C::ID + body.len(),
                _ => return None,
            }
            self.elements += 1;
            self.kind = kind;
        }
        let fits = self.record <= limits.record && self.length + self.record <= limits.packet - 12;
        (fits && self.elements <= C::MOST).then_some(self)
    }

    /// The number of records and the length of the data field. A record has at least 30 bytes, so there are at most 42.
    pub fn packet(self) -> Option<(u8, usize)> {
        (self.records > 0).then_some((self.records as u8, self.length + self.record))
    }
}

/// Judges the entries after the first; gives the number of records and the length of the data field.
fn judge_form<C: Codec>(limits: Limits, mut entries: &[u8]) -> Option<(u8, usize)> {
    let mut sums = FormSums::START;
    while !entries.is_empty() {
        let (kind, body, rest) = entry(entries)?;
        sums = sums.with::<C>(limits, kind, body)?;
        entries = rest;
    }
    sums.packet()
}

/// Puts a number of one or two bytes, big-endian.
fn put(out: &mut [u8], at: usize, width: usize, n: usize) {
    if width == 1 {
        out[at] = n as u8;
    } else {
        out[at..at + 2].copy_from_slice(&(n as u16).to_be_bytes());
    }
}

/// Copies a number, the order of its bytes turned round.
fn turn<const SIZE: usize>(from: &[u8], to: &mut [u8]) {
    for i in 0..SIZE {
        to[i] = from[SIZE - 1 - i];
    }
}

/// The fixed fields of an entry's body into a record.
#[inline]
fn put_fields<C: Codec>(f: &[u8], r: &mut [u8]) -> Option<()> {
    turn::<8>(&f[0..8], &mut r[0..8]);
    r[8] = f[8];
    turn::<4>(&f[9..13], &mut r[9..13]);
    turn::<4>(&f[13..17], &mut r[13..17]);
    turn::<2>(&f[17..19], &mut r[17..19]);
    turn::<2>(&f[19..21], &mut r[19..21]);
    r[21] = f[21];
    turn::<2>(&f[22..24], &mut r[22..24]);
    put(r, 24, C::EVENT, le16(f, 24)?);
    if C::GENERATION == 1 {
        r[24 + C::EVENT] = f[26];
    }
    Some(())
}

/// Entries of one fixed kind into their group: from `at` in the form, to `to` in the packet; gives their number.
#[inline]
fn put_group<C: Codec>(form: &[u8], at: &mut usize, out: &mut [u8], to: &mut usize, size: usize) -> Option<usize> {
    let count_at = *to;
    *to += C::COUNT;
    let mut count = 0;
    while le16(form, *at + 2) == Some(size) {
        let e = form.get(*at + 4..*at + 6 + size)?;
        let pair = out.get_mut(*to..*to + C::ID + size)?;
        put(pair, 0, C::ID, le16(e, 0)?);
        pair[C::ID..].copy_from_slice(&e[2..]);
        count += 1;
        *at += 6 + size;
        *to += C::ID + size;
    }
    put(out, count_at, C::COUNT, count);
    Some(count)
}

/// The same for the variable group.
#[inline]
fn put_variable<C: Codec>(form: &[u8], at: &mut usize, out: &mut [u8], to: &mut usize) -> Option<usize> {
    let count_at = *to;
    *to += C::COUNT;
    let mut count = 0;
    while let Some((9, e, _)) = form.get(*at..).and_then(entry) {
        let size = e.len() - 2;
        put(out, *to, C::ID, le16(e, 0)?);
        put(out, *to + C::ID, 2, size);
        *to += C::ID + 2;
        out.get_mut(*to..*to + size)?.copy_from_slice(&e[2..]);
        count += 1;
        *at += 6 + size;
        *to += size;
    }
    put(out, count_at, C::COUNT, count);
    Some(count)
}

/// The records of a judged form into the space between the counts.
fn packet_write<C: Codec>(form: &[u8], out: &mut [u8]) -> Option<()> {
    let (mut at, mut to) = (5, 0);
    while at < form.len() {
        put_fields::<C>(form.get(at + 4..at + 31)?, out.get_mut(to..to + C::GROUPS)?)?;
        at += 31;
        to += C::GROUPS;
        let total_at = to - C::COUNT;
        let mut total = 0;
        for size in [1, 2, 4, 8] {
            total += put_group::<C>(form, &mut at, out, &mut to, size)?;
        }
        if C::VARIABLE {
            total += put_variable::<C>(form, &mut at, out, &mut to)?;
        }
        put(out, total_at, C::COUNT, total);
    }
    Some(())
}

#[inline(never)]
pub fn packet_of_form(family: usize, form: &[u8], out: &mut [u8]) -> Answer<usize> {
    let limits = limits_of(family)?;
    let Some((&[1, 0, 100, 0, codec], entries)) = form.split_first_chunk::<5>() else {
        return Err(no(17));
    };
    let judged = match codec {
        0x08 => judge_form::<Codec8>(limits, entries),
        0x8E => judge_form::<Codec8E>(limits, entries),
        0x10 => judge_form::<Codec16>(limits, entries),
        _ => None,
    };
    let Some((records, length)) = judged else {
        return Err(no(17));
    };
    write_packet(form, codec, records, length, out)
}

/// The packet of a judged form, with its number of records and the length of its data field.
pub fn write_packet(form: &[u8], codec: u8, records: u8, length: usize, out: &mut [u8]) -> Answer<usize> {
    let Some(out) = out.get_mut(..length + 12) else {
        return Err(no(18));
    };
    out[..4].fill(0);
    out[4..8].copy_from_slice(&(length as u32).to_be_bytes());
    let (data, field) = out[8..].split_at_mut(length);
    data[0] = codec;
    data[1] = records;
    data[length - 1] = records;
    let space = &mut data[2..length - 1];
    // a judged form has all its bytes, and its packet has room
    let _ = match codec {
        0x08 => packet_write::<Codec8>(form, space),
        0x8E => packet_write::<Codec8E>(form, space),
        _ => packet_write::<Codec16>(form, space),
    };
    field.copy_from_slice(&u32::from(crc(data)).to_be_bytes());
    Ok(length + 12)
}
