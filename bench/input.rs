//! Valid inputs of every kind, made at random, and damages to them.

use crate::hand::crc;

pub struct Random(pub u64);

impl Random {
    pub fn next(&mut self) -> u64 {
        self.0 ^= self.0 << 13;
        self.0 ^= self.0 >> 7;
        self.0 ^= self.0 << 17;
        self.0.wrapping_mul(0x2545_F491_4F6C_DD1D) >> 16
    }
    /// A number from 0 to n - 1.
    pub fn below(&mut self, n: usize) -> usize {
        (self.next() % n as u64) as usize
    }
    /// A number from a to b.
    pub fn range(&mut self, a: usize, b: usize) -> usize {
        a + self.below(b - a + 1)
    }
    pub fn bytes(&mut self, n: usize) -> Vec<u8> {
        (0..n).map(|_| self.next() as u8).collect()
    }
    pub fn digits(&mut self, n: usize) -> Vec<u8> {
        (0..n).map(|_| b'0' + self.below(10) as u8).collect()
    }
}

/// A TCP packet around a data field.
pub fn tcp(data: &[u8]) -> Vec<u8> {
    let mut p = vec![0; 4];
    p.extend((data.len() as u32).to_be_bytes());
    p.extend(data);
    p.extend(u32::from(crc(data)).to_be_bytes());
    p
}

/// A datagram around a data field.
pub fn udp(random: &mut Random, data: &[u8]) -> Vec<u8> {
    let mut p = (data.len() as u16 + 21).to_be_bytes().to_vec();
    p.extend(random.bytes(4));
    p.extend([0, 15]);
    p.extend(random.digits(15));
    p.extend(data);
    p
}

/// A data field with what a look-up of its last element needs.
pub struct Data {
    pub bytes: Vec<u8>,
    pub records: usize,
    pub elements: usize,
    pub last_id: u16,
}

/// An element: kind, ID and value.
type Element = (usize, u16, Vec<u8>);

/// Elements of at most `room` bytes, their IDs of `id` bytes each, no ID twice, in packet order.
fn elements(random: &mut Random, codec: u8, id: usize, mut room: usize) -> Vec<Element> {
    let mut all: Vec<Element> = vec![];
    while room > id {
        let variable = codec == 0x8E && (all.is_empty() || random.below(6) == 0);
        let kind = if variable { 9 } else { [1, 1, 1, 2, 2, 4, 8][random.below(7)] };
        let len = if variable { room.saturating_sub(4).min(random.below(20)) } else { kind };
        let space = id + len + if variable { 2 } else { 0 };
        let new = random.next() as u16 & if id == 1 { 0xFF } else { 0xFFFF };
        if space <= room && all.iter().all(|e| e.1 != new) {
            room -= space;
            all.push((kind, new, random.bytes(len)));
        }
    }
    all.sort_by_key(|e| e.0);
    all
}

/// The bytes of an ID, of a count, and of a record without elements.
fn widths(codec: u8) -> (usize, usize, usize) {
    match codec {
        0x08 => (1, 1, 30),
        0x8E => (2, 2, 38),
        _ => (2, 1, 32),
    }
}

/// A number of one or two bytes.
fn put(b: &mut Vec<u8>, width: usize, n: usize) {
    b.extend(&(n as u16).to_be_bytes()[2 - width..]);
}

/// A record with these elements, its counts of `count` bytes.
fn record(random: &mut Random, b: &mut Vec<u8>, codec: u8, id: usize, count: usize, elements: &[Element]) {
    b.extend(random.bytes(8));
    b.push(random.below(3) as u8);
    b.extend(random.bytes(15 + id));
    if codec == 0x10 {
        b.push(random.below(8) as u8);
    }
    put(b, count, elements.len());
    for kind in [1, 2, 4, 8, 9] {
        if kind == 9 && codec != 0x8E {
            break;
        }
        put(b, count, elements.iter().filter(|e| e.0 == kind).count());
        for e in elements.iter().filter(|e| e.0 == kind) {
            put(b, id, usize::from(e.1));
            if kind == 9 {
                put(b, 2, e.2.len());
            }
            b.extend(&e.2);
        }
    }
}

/// A data field of `from` to `to` bytes, or a few fewer; its records have 60 to `most` bytes.
pub fn data(random: &mut Random, codec: u8, from: usize, to: usize, most: usize) -> Data {
    let size = random.range(from, to);
    let (id, count, least) = widths(codec);
    let mut out = Data { bytes: vec![codec, 0], records: 0, elements: 0, last_id: 0 };
    loop {
        let left = size - 1 - out.bytes.len();
        if out.records > 0 && left < least + id + 5 {
            break;
        }
        let room = if left <= most { left } else { random.range(60, most) };
        let elements = elements(random, codec, id, room - least);
        record(random, &mut out.bytes, codec, id, count, &elements);
        out.records += 1;
        out.elements = elements.len();
        out.last_id = elements.last().map_or(0, |e| e.1);
    }
    out.bytes[1] = out.records as u8;
    out.bytes.push(out.records as u8);
    out
}

/// A TCP packet of exactly so many bytes; its records have 60 to 160 bytes.
pub fn exact(random: &mut Random, codec: u8, size: usize) -> Vec<u8> {
    loop {
        let packet = tcp(&data(random, codec, size - 12, size - 12, 160).bytes);
        if packet.len() == size {
            return packet;
        }
    }
}

/// A data field of codec 8 whose records are alike: so many values of one byte in each.
pub fn alike(random: &mut Random, records: usize, values: usize) -> Vec<u8> {
    let mut b = vec![0x08, records as u8];
    for _ in 0..records {
        let elements: Vec<Element> = (0..values).map(|id| (1, id as u16, random.bytes(1))).collect();
        record(random, &mut b, 0x08, 1, 1, &elements);
    }
    b.push(records as u8);
    b
}

/// A data field whose records have values of these kinds, in packet order, no ID twice in a record. A variable value
/// (kind 9) is a text of 8 to 20 bytes.
pub fn of_kinds(random: &mut Random, codec: u8, records: usize, kinds: &[usize]) -> Vec<u8> {
    let (id, count, _) = widths(codec);
    let mut b = vec![codec, records as u8];
    for _ in 0..records {
        let mut elements: Vec<Element> = vec![];
        for &kind in kinds {
            let new = loop {
                let new = random.next() as u16 & if id == 1 { 0xFF } else { 0xFFFF };
                if elements.iter().all(|e| e.1 != new) {
                    break new;
                }
            };
            let value = if kind == 9 { text(random) } else { random.bytes(kind) };
            elements.push((kind, new, value));
        }
        record(random, &mut b, codec, id, count, &elements);
    }
    b.push(records as u8);
    b
}

/// A data field of one to four records with up to twelve elements, or with none. There are eight IDs, so that some come
/// twice in a record and some not at all.
pub fn few_ids(random: &mut Random, codec: u8) -> Vec<u8> {
    let (id, count, _) = widths(codec);
    let kinds = if codec == 0x8E { &[1, 2, 4, 8, 9][..] } else { &[1, 2, 4, 8] };
    let records = random.range(1, 4);
    let mut b = vec![codec, records as u8];
    for _ in 0..records {
        let mut elements: Vec<Element> = vec![];
        for _ in 0..random.below(13) {
            let kind = kinds[random.below(kinds.len())];
            let size = if kind == 9 { random.below(6) } else { kind };
            elements.push((kind, random.below(8) as u16, random.bytes(size)));
        }
        record(random, &mut b, codec, id, count, &elements);
    }
    b.push(records as u8);
    b
}

/// A name as a driver tag may have it: ASCII text, few bytes of which have to be escaped.
fn text(random: &mut Random) -> Vec<u8> {
    (0..random.range(8, 20)).map(|_| random.range(0x20, 0x7E) as u8).collect()
}

/// Bytes that matter in a billing line.
const OF_LINES: &[u8] = b"00129,,==\"\"..--+\\\\\n\r AFaf\x7F";

/// Damages to a billing line: one or two bytes changed, lost, doubled or added, mostly such as lines have; or any.
pub fn damage_line(random: &mut Random, s: &mut Vec<u8>) {
    if random.below(4) == 0 {
        return damage(random, s);
    }
    for _ in 0..random.range(1, 2) {
        let at = random.below(s.len().max(1));
        let byte = OF_LINES[random.below(OF_LINES.len())];
        match random.below(4) {
            0 => s.insert(at.min(s.len()), byte),
            1 if at < s.len() => drop(s.remove(at)),
            2 if at < s.len() => s.insert(at, s[at]),
            _ if at < s.len() => s[at] = byte,
            _ => {}
        }
    }
}

/// The data field of a command.
pub fn command(random: &mut Random, codec: u8, text: usize) -> Vec<u8> {
    let (imei, time) = match codec {
        0x0D => (0, 4),
        0x0E => (8, 0),
        _ => (0, 0),
    };
    let kind = if imei == 8 && text == 0 { 0x11 } else { 5 + random.below(2) as u8 };
    let mut d = vec![codec, 1, kind];
    d.extend((imei as u32 + time as u32 + text as u32).to_be_bytes());
    for i in 0..imei {
        let (high, low) = (random.below(10) as u8, random.below(10) as u8);
        d.push(if i == 0 { low } else { high << 4 | low });
    }
    d.extend(random.bytes(time + text));
    d.push(1);
    d
}

pub fn login(random: &mut Random) -> Vec<u8> {
    let mut p = vec![0, 15];
    p.extend(random.digits(15));
    p
}

/// One to three changed, lost or added bytes.
pub fn damage(random: &mut Random, b: &mut Vec<u8>) {
    for _ in 0..random.range(1, 3) {
        let at = random.below(b.len() + 1);
        match random.below(8) {
            0 => b.truncate(at),
            1 => b.insert(at, random.below(256) as u8),
            2 if at < b.len() => drop(b.remove(at)),
            3 if at < b.len() => b[at] ^= 1 << random.below(8),
            4 if at < b.len() => b[at] = random.below(12) as u8,
            5 if at < b.len() => b[at] = b[at].wrapping_add(random.below(3) as u8).wrapping_sub(1),
            6 => {
                let more = random.below(1200);
                b.extend((0..more).map(|_| random.below(3) as u8));
            }
            _ if at < b.len() => b[at] = random.next() as u8,
            _ => {}
        }
    }
}

/// Damages to what the walk judges: head, counts, total, priority and such, and left-over or missing bytes.
pub fn damage_data(random: &mut Random, d: &mut Vec<u8>) {
    let end = d.len().saturating_sub(1);
    let style = random.below(8);
    match style {
        0 => damage(random, d),
        _ if end <= 40 => d.truncate(end),
        // another codec over the same bytes
        1 => d[0] = [0x08, 0x8E, 0x10, 0x0C, 0x0D, 0x0E, 0x07][random.below(7)],
        2 => {
            let n = d[1].wrapping_add(random.below(3) as u8).wrapping_sub(1);
            d[1] = n;
            d[end] = n;
        }
        // bytes lost before the second count
        3 => drop(d.drain(random.range(2, end)..end)),
        4 => {
            let more: Vec<_> = (0..random.below(20)).map(|_| random.below(4) as u8).collect();
            d.splice(end..end, more);
        }
        // a byte of the first record's head or counts
        5 => d[random.range(2, 40)] = random.below(10) as u8,
        6 => {
            // total and one count raised together, in the first record
            for at in [random.range(26, 30), random.range(26, 32)] {
                d[at] = d[at].wrapping_add(1);
            }
        }
        _ => d[random.range(2, end - 1)] = [0, 1, 2, 3, 7, 8, 255][random.below(7)],
    }
}

/// The entries of a form.
pub fn entries(form: &[u8]) -> Vec<Vec<u8>> {
    let mut all = vec![];
    let mut at = 0;
    while at + 4 <= form.len() {
        let end = at + 4 + usize::from(u16::from_le_bytes([form[at], form[at + 1]]));
        all.push(form[at..end.min(form.len())].to_vec());
        at = end;
    }
    all
}

/// Damages one entry: its kind, a byte, its length and body, or only its body.
fn damage_entry(random: &mut Random, e: &mut Vec<u8>) {
    match random.below(4) {
        0 => {
            if let Some(b) = e.get_mut(2) {
                *b = [1, 2, 4, 8, 9, 100, 101, 0, 3][random.below(9)];
            }
        }
        1 => {
            let at = random.below(e.len().max(1));
            if let Some(b) = e.get_mut(at) {
                *b = random.below(10) as u8;
            }
        }
        2 => {
            let size = random.below(260);
            e.resize(4 + size, 0);
            e[..2].copy_from_slice(&(size as u16).to_le_bytes());
        }
        _ => {
            let at = random.range(4, 30).min(e.len().saturating_sub(1));
            if at >= 4 {
                e[at] = [0, 1, 2, 3, 255][random.below(5)];
            }
        }
    }
}

/// Damages to a form: its entries moved, lost, doubled or changed, or any bytes.
pub fn damage_form(random: &mut Random, form: &mut Vec<u8>) {
    let mut all = entries(form);
    for _ in 0..random.range(1, 2) {
        if all.is_empty() {
            break;
        }
        let (i, j) = (random.below(all.len()), random.below(all.len()));
        let e = all[i].clone();
        match random.below(9) {
            0 => all.swap(i, j),
            1 => drop(all.remove(i)),
            2 => all.insert(j, e),
            3 => all.insert(i, e),
            4 => all.truncate(i),
            _ => damage_entry(random, &mut all[i]),
        }
    }
    *form = all.concat();
    if random.below(4) == 0 {
        damage(random, form);
    }
}
