//! Billing lines by hand: decimal digits into a small array from its end, one pass to read a line.

use super::{
    datagram, fields, find, frame, judge, limits_of, no, number, Answer, Codec, Codec16, Codec8, Codec8E, Limits,
    Record, Span,
};

/// All lines of a packet have at most four times its bytes, and so has one line of its record.
const GROWTH: usize = 4;
const LONGEST: usize = GROWTH * 1280;

// ---- writing

/// Text at the start of a buffer that has room for it.
struct Text<'a> {
    out: &'a mut [u8],
    at: usize,
}

impl Text<'_> {
    #[inline]
    fn byte(&mut self, b: u8) {
        self.out[self.at] = b;
        self.at += 1;
    }

    #[inline]
    fn bytes(&mut self, b: &[u8]) {
        self.out[self.at..self.at + b.len()].copy_from_slice(b);
        self.at += b.len();
    }

    /// A number with at least so many digits.
    #[inline]
    fn decimal(&mut self, mut n: u64, least: usize) {
        let mut digits = [b'0'; 20];
        let mut at = digits.len();
        while n >= 10 {
            at -= 1;
            digits[at] = b'0' + (n % 10) as u8;
            n /= 10;
        }
        at -= 1;
        digits[at] = b'0' + n as u8;
        self.bytes(&digits[at.min(20 - least)..]);
    }

    #[inline]
    fn degrees(&mut self, n: i32) {
        if n < 0 {
            self.byte(b'-');
        }
        let n = u64::from(n.unsigned_abs());
        self.decimal(n / 10_000_000, 1);
        self.byte(b'.');
        self.decimal(n % 10_000_000, 7);
    }

    /// The ID before an element's value.
    #[inline]
    fn id(&mut self, id: usize) {
        self.byte(b',');
        self.decimal(id as u64, 1);
        self.byte(b'=');
    }

    #[inline]
    fn tag(&mut self, value: &[u8]) {
        self.byte(b'"');
        for &b in value {
            if is_plain(b) {
                self.byte(b);
            } else {
                let hex = b"0123456789ABCDEF";
                self.bytes(&[b'\\', hex[usize::from(b >> 4)], hex[usize::from(b & 15)]]);
            }
        }
        self.byte(b'"');
    }
}

#[inline]
fn is_plain(b: u8) -> bool {
    matches!(b, b' '..=b'~') && !matches!(b, b'"' | b',' | b'\\')
}

/// The elements of one fixed group.
#[inline]
fn fixed<const SIZE: usize>(pairs: &[u8], id: usize, text: &mut Text) {
    for pair in pairs.chunks_exact(id + SIZE) {
        let mut value = [0; 8];
        value[8 - SIZE..].copy_from_slice(&pair[id..]);
        text.id(number(pair, 0, id).unwrap_or(0));
        text.decimal(u64::from_be_bytes(value), 1);
    }
}

/// The line of the judged record at the start of `r`; gives the record's length.
fn record_line<C: Codec>(r: &[u8], text: &mut Text) -> Option<usize> {
    let Record { timestamp, longitude, latitude, speed, .. } = fields::<C>(r, 0)?;
    text.decimal(timestamp, 1);
    text.byte(b',');
    text.degrees(longitude);
    text.byte(b',');
    text.degrees(latitude);
    text.byte(b',');
    text.decimal(u64::from(speed), 1);
    let mut at = C::GROUPS;
    for size in [1, 2, 4, 8] {
        let count = number(r, at, C::COUNT)?;
        at += C::COUNT;
        let pairs = r.get(at..at + count * (C::ID + size))?;
        at += pairs.len();
        match size {
            1 => fixed::<1>(pairs, C::ID, text),
            2 => fixed::<2>(pairs, C::ID, text),
            4 => fixed::<4>(pairs, C::ID, text),
            _ => fixed::<8>(pairs, C::ID, text),
        }
    }
    if C::VARIABLE {
        let count = number(r, at, C::COUNT)?;
        at += C::COUNT;
        for _ in 0..count {
            let size = number(r, at + C::ID, 2)?;
            text.id(number(r, at, C::ID)?);
            at += C::ID + 2;
            text.tag(r.get(at..at + size)?);
            at += size;
        }
    }
    text.byte(b'\n');
    Some(at)
}

/// The lines of so many judged records, one behind another, into a buffer with room for them; gives their length.
fn record_lines(codec: u8, mut records: &[u8], count: usize, out: &mut [u8]) -> usize {
    let mut text = Text { out, at: 0 };
    for _ in 0..count {
        let size = match codec {
            0x08 => record_line::<Codec8>(records, &mut text),
            0x8E => record_line::<Codec8E>(records, &mut text),
            _ => record_line::<Codec16>(records, &mut text),
        };
        // a judged record is whole
        records = &records[size.unwrap_or(0)..];
    }
    text.at
}

/// The same into any buffer: where that might be too short, by way of one that is not.
fn lines_into(codec: u8, records: &[u8], count: usize, out: &mut [u8]) -> Answer<usize> {
    if out.len() >= GROWTH * records.len() {
        return Ok(record_lines(codec, records, count, out));
    }
    let mut room = [0; LONGEST];
    let written = record_lines(codec, records, count, &mut room);
    let Some(out) = out.get_mut(..written) else {
        return Err(no(18));
    };
    out.copy_from_slice(&room[..written]);
    Ok(written)
}

fn line_of(limits: Limits, data: &[u8], record: usize, out: &mut [u8]) -> Answer<usize> {
    let (codec, Span { start, len, .. }) = find(limits, data, record)?;
    lines_into(codec, &data[start..start + len], 1, out)
}

fn lines_of(limits: Limits, data: &[u8], out: &mut [u8]) -> Answer<usize> {
    let packet = judge(limits, data, |_, _| {})?;
    lines_into(packet.codec, &data[2..data.len() - 1], usize::from(packet.count), out)
}

#[inline(never)]
pub fn line_of_packet(family: usize, p: &[u8], record: usize, out: &mut [u8]) -> Answer<usize> {
    let limits = limits_of(family)?;
    line_of(limits, frame(limits, p)?, record, out)
}

#[inline(never)]
pub fn line_of_datagram(family: usize, p: &[u8], record: usize, out: &mut [u8]) -> Answer<usize> {
    let limits = limits_of(family)?;
    line_of(limits, datagram(limits, p)?.1, record, out)
}

#[inline(never)]
pub fn lines_of_packet(family: usize, p: &[u8], out: &mut [u8]) -> Answer<usize> {
    let limits = limits_of(family)?;
    lines_of(limits, frame(limits, p)?, out)
}

#[inline(never)]
pub fn lines_of_datagram(family: usize, p: &[u8], out: &mut [u8]) -> Answer<usize> {
    let limits = limits_of(family)?;
    lines_of(limits, datagram(limits, p)?.1, out)
}

/// The lines of a TCP packet that was judged before: the writing alone.
#[inline(never)]
pub fn lines_alone(p: &[u8], out: &mut [u8]) -> Answer<usize> {
    lines_into(p[8], &p[10..p.len() - 5], usize::from(p[9]), out)
}

// ---- reading

/// A number at the start of `s`, up to `most`; gives what is behind it.
#[inline]
fn decimal(s: &[u8], most: u64) -> Option<(u64, &[u8])> {
    let mut n = 0u64;
    let mut len = 0;
    while let Some(d @ 0..=9) = s.get(len).map(|c| c.wrapping_sub(b'0')) {
        // nineteen digits fit
        n = if len < 19 { n * 10 + u64::from(d) } else { n.checked_mul(10)?.checked_add(u64::from(d))? };
        len += 1;
    }
    (len > 0 && (s[0] != b'0' || len == 1) && n <= most).then_some((n, &s[len..]))
}

/// A coordinate.
#[inline]
fn degrees(s: &[u8]) -> Option<(i32, &[u8])> {
    let (negative, s) = match s.strip_prefix(b"-") {
        Some(s) => (true, s),
        None => (false, s),
    };
    let (whole, s) = decimal(s, 214)?;
    let (places, s) = s.strip_prefix(b".")?.split_first_chunk::<7>()?;
    let mut n = whole as i64;
    for &c in places {
        let d = c.wrapping_sub(b'0');
        if d > 9 {
            return None;
        }
        n = n * 10 + i64::from(d);
    }
    if negative {
        n = -n;
    }
    let n = i32::try_from(n).ok()?;
    (!negative || n < 0).then_some((n, s))
}

#[inline]
fn hex(c: u8) -> Option<u8> {
    match c {
        b'0'..=b'9' => Some(c - b'0'),
        b'A'..=b'F' => Some(c - b'A' + 10),
        _ => None,
    }
}

/// A tag behind its first quote, its bytes at the start of `out`, which has room for them; gives how many they are.
#[inline]
fn tag<'a>(mut s: &'a [u8], out: &mut [u8]) -> Option<(usize, &'a [u8])> {
    let mut size = 0;
    loop {
        let (&c, rest) = s.split_first()?;
        s = rest;
        out[size] = match c {
            b'"' => return Some((size, s)),
            b'\\' => {
                let (&[high, low], rest) = s.split_first_chunk::<2>()?;
                s = rest;
                let b = hex(high)? << 4 | hex(low)?;
                if is_plain(b) {
                    return None;
                }
                b
            }
            _ if is_plain(c) => c,
            _ => return None,
        };
        size += 1;
    }
}

/// What is read of an element.
enum Printed<'a> {
    Number(u64),
    Tag(&'a [u8]),
}

/// The leading fields of a line.
struct Line {
    timestamp: u64,
    longitude: i32,
    latitude: i32,
    speed: u16,
}

/// Reads a line in one pass, and visits its elements; `out` has room for its longest tag.
#[inline]
fn walk_line(s: &[u8], out: &mut [u8], mut visit: impl FnMut(u16, Printed)) -> Option<Line> {
    let (timestamp, s) = decimal(s, u64::MAX)?;
    let (longitude, s) = degrees(s.strip_prefix(b",")?)?;
    let (latitude, s) = degrees(s.strip_prefix(b",")?)?;
    let (speed, mut s) = decimal(s.strip_prefix(b",")?, 0xFFFF)?;
    let mut tags = false;
    while let Some(element) = s.strip_prefix(b",") {
        let (id, value) = decimal(element, 0xFFFF)?;
        let value = value.strip_prefix(b"=")?;
        if let Some(quoted) = value.strip_prefix(b"\"") {
            let (size, rest) = tag(quoted, out)?;
            visit(id as u16, Printed::Tag(&out[..size]));
            (tags, s) = (true, rest);
        } else {
            let (n, rest) = decimal(value, u64::MAX)?;
            if tags {
                return None;
            }
            visit(id as u16, Printed::Number(n));
            s = rest;
        }
    }
    (s == b"\n").then_some(Line { timestamp, longitude, latitude, speed: speed as u16 })
}

/// The sum of what is in a line.
#[inline(never)]
pub fn sum_of_line(s: &[u8], out: &mut [u8]) -> Answer<u64> {
    let mut sum = 0u64;
    let line = walk_line(s, out, |id, value| {
        let value = match value {
            Printed::Number(n) => n,
            Printed::Tag(bytes) => super::sum_of_bytes(bytes),
        };
        sum = sum.wrapping_add(u64::from(id)).wrapping_add(value);
    });
    let Some(Line { timestamp, longitude, latitude, speed }) = line else {
        return Err(no(20));
    };
    Ok(sum.wrapping_add(super::sum_of_fields(timestamp, longitude, latitude)).wrapping_add(u64::from(speed)))
}
