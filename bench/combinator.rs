//! The library's readers and look-ups with the parser combinators of nom: no allocation, one pass over the packet.
//! TLV forms are read so too; writing is the same as by hand. Where everything in a packet is asked for, it is parsed
//! into owned records, as nom's users write it.

use crate::hand::{
    crc, fixed_entries, limits_of, no, record_entry, sum_of_bytes, sum_of_fields, variable_entry, write_packet, Answer,
    Codec, Codec16, Codec8, Codec8E, Command, Counted, Datagram, FormSums, Limits, Lookup, Packet, Record, Refusal,
    Value,
};
use nom::bytes::complete::{tag, take};
use nom::combinator::{all_consuming, iterator, map, recognize, verify};
use nom::error::{ErrorKind, ParseError};
use nom::multi::{fold_many_m_n, length_count, length_data};
use nom::number::complete::{be_i16, be_i32, be_u16, be_u32, be_u64, be_u8, le_u16};
use nom::sequence::{pair, preceded, tuple};
use nom::{Err, IResult, Offset, Parser};

type Read<'a, T> = IResult<&'a [u8], T, Refusal>;

impl ParseError<&[u8]> for Refusal {
    /// The bytes of a field are not all there.
    fn from_error_kind(_: &[u8], _: ErrorKind) -> Self {
        no(8)
    }
    fn append(_: &[u8], _: ErrorKind, other: Self) -> Self {
        other
    }
}

impl From<Err<Refusal>> for Refusal {
    fn from(e: Err<Refusal>) -> Self {
        match e {
            Err::Error(r) | Err::Failure(r) => r,
            Err::Incomplete(_) => no(8),
        }
    }
}

impl From<Err<Refusal>> for Counted<Refusal> {
    fn from(e: Err<Refusal>) -> Self {
        Refusal::from(e).into()
    }
}

/// A parser that fails with this refusal only.
fn refused<'a, T>(number: u8, mut parser: impl Parser<&'a [u8], T, Refusal>) -> impl FnMut(&'a [u8]) -> Read<'a, T> {
    move |i| parser.parse(i).map_err(|_| Err::Error(no(number)))
}

/// A field with a rule of its own: its bytes may be missing, or it breaks the rule.
fn ruled<'a, T>(
    number: u8,
    mut field: impl Parser<&'a [u8], T, Refusal>,
    rule: impl Fn(&T) -> bool,
) -> impl FnMut(&'a [u8]) -> Read<'a, T> {
    move |i| {
        let (rest, value) = field.parse(i)?;
        if rule(&value) {
            Ok((rest, value))
        } else {
            Err(Err::Error(no(number)))
        }
    }
}

/// A number of one or two bytes.
fn number<'a>(width: usize) -> impl Fn(&'a [u8]) -> Read<'a, u16> {
    move |i| if width == 1 { map(be_u8, u16::from)(i) } else { be_u16(i) }
}

// ---- heads

/// The data field of a TCP packet.
fn frame(limits: Limits, p: &[u8]) -> Read<'_, &[u8]> {
    let (rest, head) = refused(1, take(8usize))(p)?;
    let (length, _) = refused(2, tag([0; 4]))(head)?;
    let (_, length) = refused(3, verify(be_u32, |&n| (3..=limits.packet - 12).contains(&(n as usize))))(length)?;
    let (_, (data, field)) = refused(4, all_consuming(pair(take(length), be_u32)))(rest)?;
    if field != u32::from(crc(data)) {
        return Err(Err::Error(no(5)));
    }
    Ok((&[], data))
}

fn digit(i: &[u8]) -> Read<'_, u64> {
    map(verify(be_u8, u8::is_ascii_digit), |d| u64::from(d - b'0'))(i)
}

/// The IMEI's length and its 15 digits.
fn imei(i: &[u8]) -> Read<'_, u64> {
    refused(15, preceded(tag([0, 15]), fold_many_m_n(15, 15, digit, || 0, |n, d| n * 10 + d)))(i)
}

/// The head of a datagram, and its data field.
fn datagram(limits: Limits, p: &[u8]) -> Read<'_, Datagram> {
    refused(1, take(26usize))(p)?;
    if p.len() > limits.datagram {
        return Err(Err::Error(no(3)));
    }
    let size = p.len() - 2;
    let (rest, _) = refused(4, verify(be_u16, |&n| usize::from(n) == size))(p)?;
    let (data, (packet_id, unused, avl_packet_id, imei)) = tuple((be_u16, be_u8, be_u8, imei))(rest)?;
    Ok((data, Datagram { codec: 0, count: 0, packet_id, unused, avl_packet_id, imei }))
}

// ---- the walk

/// The elements of one group.
#[derive(Clone, Copy)]
struct Group<'a> {
    count: usize,
    bytes: &'a [u8],
}

/// A judged record; IDs have `id` bytes.
struct Judged<'a> {
    fields: Record,
    fixed: [Group<'a>; 4],
    variable: Group<'a>,
    id: usize,
}

#[inline(always)]
fn fields<C: Codec>(i: &[u8]) -> Read<'_, Record> {
    let priority = ruled(10, be_u8, |&n| n <= 2);
    let (rest, head) = tuple((be_u64, priority, be_i32, be_i32, be_i16, be_u16, be_u8, be_u16))(i)?;
    let (timestamp, priority, longitude, latitude, altitude, angle, satellites, speed) = head;
    let (rest, event) = number(C::EVENT)(rest)?;
    let (rest, generation) = if C::GENERATION == 1 { ruled(11, be_u8, |&n| n <= 7)(rest)? } else { (rest, 0) };
    let record = Record {
        timestamp,
        priority,
        longitude,
        latitude,
        altitude,
        angle,
        satellites,
        speed,
        event,
        generation,
        elements: 0,
    };
    Ok((rest, record))
}

/// A group of values of one size.
fn group<'a, C: Codec>(size: usize) -> impl FnMut(&'a [u8]) -> Read<'a, Group<'a>> {
    move |i| {
        let (rest, count) = map(number(C::COUNT), usize::from)(i)?;
        map(take(count * (C::ID + size)), move |bytes| Group { count, bytes })(rest)
    }
}

/// An element of the variable group: ID and value.
fn variable_element<'a>(id: usize) -> impl FnMut(&'a [u8]) -> Read<'a, (u16, &'a [u8])> {
    pair(number(id), length_data(be_u16))
}

fn variable<'a, C: Codec>(i: &'a [u8]) -> Read<'a, Group<'a>> {
    let (rest, count) = map(number(C::COUNT), usize::from)(i)?;
    let elements = fold_many_m_n(count, count, variable_element(C::ID), || (), |_, _| ());
    map(recognize(elements), move |bytes| Group { count, bytes })(rest)
}

fn record<C: Codec>(limits: Limits, i: &[u8]) -> Read<'_, Judged<'_>> {
    let (rest, mut fields) = fields::<C>(i)?;
    let (rest, total) = map(number(C::COUNT), usize::from)(rest)?;
    let groups = tuple((group::<C>(1), group::<C>(2), group::<C>(4), group::<C>(8)));
    let (rest, fixed) = map(groups, |(a, b, c, d)| [a, b, c, d]).parse(rest)?;
    let none = Group { count: 0, bytes: &[] };
    let (rest, variable) = if C::VARIABLE { variable::<C>(rest)? } else { (rest, none) };
    fields.elements = fixed.iter().map(|g| g.count).sum::<usize>() + variable.count;
    ended(limits, i.offset(rest), fields.elements, total)?;
    Ok((rest, Judged { fields, fixed, variable, id: C::ID }))
}

/// The rules at a record's end: so many bytes, so many elements, and so many by its total.
fn ended(limits: Limits, size: usize, elements: usize, total: usize) -> Result<(), Err<Refusal>> {
    if elements != total {
        return Err(Err::Error(no(9)));
    }
    if size > limits.record {
        return Err(Err::Error(no(12)));
    }
    Ok(())
}

/// What a record is parsed into.
trait Parsed<'a>: Sized {
    fn parse<C: Codec>(limits: Limits, i: &'a [u8]) -> Read<'a, Self>;
}

impl<'a> Parsed<'a> for Judged<'a> {
    #[inline]
    fn parse<C: Codec>(limits: Limits, i: &'a [u8]) -> Read<'a, Self> {
        record::<C>(limits, i)
    }
}

fn records<'a, C: Codec, R: Parsed<'a>>(
    limits: Limits,
    body: &'a [u8],
    count: u8,
    mut visit: impl FnMut(usize, R),
) -> Answer<()> {
    let mut rest = body;
    for index in 0..usize::from(count) {
        let (after, record) = R::parse::<C>(limits, rest).map_err(|e| Refusal { index, ..e.into() })?;
        visit(index, record);
        rest = after;
    }
    if !rest.is_empty() {
        return Err(Refusal { number: 8, index: usize::from(count) });
    }
    Ok(())
}

/// Judges a data field of at least three bytes.
fn judge<'a, R: Parsed<'a>>(limits: Limits, data: &'a [u8], visit: impl FnMut(usize, R)) -> Answer<Packet> {
    let (rest, codec) = ruled(6, be_u8, |c| matches!(c, 0x08 | 0x8E | 0x10))(data)?;
    let (rest, count): (_, u8) = ruled(7, be_u8, |&n| n != 0)(rest)?;
    let (last, body) = take::<_, _, Refusal>(rest.len() - 1)(rest)?;
    ruled(7, be_u8, |&n| n == count)(last)?;
    match codec {
        0x08 => records::<Codec8, R>(limits, body, count, visit)?,
        0x8E => records::<Codec8E, R>(limits, body, count, visit)?,
        _ => records::<Codec16, R>(limits, body, count, visit)?,
    }
    Ok(Packet { codec, count })
}

// ---- reading

#[inline(never)]
pub fn read_packet(family: usize, p: &[u8]) -> Answer<Packet> {
    let limits = limits_of(family)?;
    judge::<Judged>(limits, frame(limits, p)?.1, |_, _| {})
}

#[inline(never)]
pub fn read_datagram(family: usize, p: &[u8]) -> Answer<Datagram> {
    let limits = limits_of(family)?;
    let (data, head) = datagram(limits, p)?;
    let Packet { codec, count } = judge::<Judged>(limits, data, |_, _| {})?;
    Ok(Datagram { codec, count, ..head })
}

#[inline(never)]
pub fn read_login(p: &[u8]) -> Answer<u64> {
    let (rest, login) = refused(1, take(17usize))(p)?;
    if !rest.is_empty() {
        return Err(no(4));
    }
    Ok(imei(login)?.1)
}

/// Two decimal digits in a byte.
fn two_digits(i: &[u8]) -> Read<'_, u64> {
    let both = verify(be_u8, |d| d >> 4 <= 9 && d & 15 <= 9);
    map(both, |d| u64::from((d >> 4) * 10 + (d & 15)))(i)
}

#[inline(never)]
pub fn read_command(family: usize, p: &[u8]) -> Answer<Command> {
    let (_, data) = frame(limits_of(family)?, p)?;
    let (rest, codec) = ruled(6, be_u8, |&c| (0x0C..=0x0E).contains(&c))(data)?;
    let (rest, _) = refused(7, tag([1]))(rest)?;
    let (last, body) = take::<_, _, Refusal>(rest.len() - 1)(rest)?;
    refused(7, tag([1]))(last)?;
    let (rest, kind) = ruled(13, be_u8, |&k| k == 5 || k == 6 || k == 0x11 && codec == 0x0E)(body)?;
    let left = rest.len().wrapping_sub(4);
    let (text, _) = ruled(14, be_u32, |&n| n as usize == left)(rest)?;
    if codec != 0x0E {
        let (text, time) = if codec == 0x0C { (text, 0) } else { refused(14, be_u32)(text)? };
        return Ok(Command { codec, kind, time, imei: 0, offset: p.offset(text), size: text.len() });
    }
    let (text, packed) = refused(14, take(8usize))(text)?;
    refused(15, verify(be_u8, |&d| d <= 9))(packed)?;
    let (_, imei) = refused(15, fold_many_m_n(8, 8, two_digits, || 0, |n, d| n * 100 + d))(packed)?;
    if kind == 0x11 && !text.is_empty() {
        return Err(no(14));
    }
    Ok(Command { codec, kind, time: 0, imei, offset: p.offset(text), size: text.len() })
}

// ---- looking up

/// Judges the data field, and gives the wanted record.
fn find(limits: Limits, data: &[u8], record: usize) -> Answer<Judged<'_>> {
    let mut found = None;
    judge(limits, data, |index, judged| {
        if index == record {
            found = Some(judged);
        }
    })?;
    found.ok_or(no(16))
}

/// An element's ID, kind and value.
type Element<'a> = (u16, u8, &'a [u8]);

fn by_number<'a>(r: &Judged<'a>, mut n: usize) -> Answer<Element<'a>> {
    for (size, group) in [1usize, 2, 4, 8].into_iter().zip(r.fixed) {
        if n < group.count {
            let element = pair(number(r.id), take(size));
            let (_, (id, value)) = preceded(take(n * (r.id + size)), element)(group.bytes)?;
            return Ok((id, size as u8, value));
        }
        n -= group.count;
    }
    if n >= r.variable.count {
        return Err(no(16));
    }
    let before = fold_many_m_n(n, n, variable_element(r.id), || (), |_, _| ());
    let (_, (id, value)) = preceded(before, variable_element(r.id))(r.variable.bytes)?;
    Ok((id, 9, value))
}

/// An element as an answer, with its value's offset in the input.
fn placed(p: &[u8], (id, kind, value): Element) -> Value {
    Value { id, kind, offset: p.offset(value), size: value.len() }
}

/// The first element of this ID; each is counted as it is parsed.
fn by_id(p: &[u8], r: &Judged, wanted: u16) -> Lookup<Value> {
    let mut passed = 0;
    for (size, group) in [1usize, 2, 4, 8].into_iter().zip(r.fixed) {
        let mut elements = iterator(group.bytes, pair(number(r.id), take(size)));
        let found = (&mut elements).inspect(|_| passed += 1).find(|&(id, _)| id == wanted);
        if let Some((id, value)) = found {
            return Ok(Counted { answer: placed(p, (id, size as u8, value)), passed });
        }
    }
    let mut elements = iterator(r.variable.bytes, variable_element(r.id));
    let found = (&mut elements).inspect(|_| passed += 1).find(|&(id, _)| id == wanted);
    match found {
        Some((id, value)) => Ok(Counted { answer: placed(p, (id, 9, value)), passed }),
        None => Err(Counted { answer: no(16), passed }),
    }
}

#[inline(never)]
pub fn record_in_packet(family: usize, p: &[u8], record: usize) -> Answer<Record> {
    let limits = limits_of(family)?;
    Ok(find(limits, frame(limits, p)?.1, record)?.fields)
}

#[inline(never)]
pub fn record_in_datagram(family: usize, p: &[u8], record: usize) -> Answer<Record> {
    let limits = limits_of(family)?;
    Ok(find(limits, datagram(limits, p)?.0, record)?.fields)
}

#[inline(never)]
pub fn value_in_packet(family: usize, p: &[u8], record: usize, element: usize) -> Answer<Value> {
    let limits = limits_of(family)?;
    Ok(placed(p, by_number(&find(limits, frame(limits, p)?.1, record)?, element)?))
}

#[inline(never)]
pub fn value_in_datagram(family: usize, p: &[u8], record: usize, element: usize) -> Answer<Value> {
    let limits = limits_of(family)?;
    Ok(placed(p, by_number(&find(limits, datagram(limits, p)?.0, record)?, element)?))
}

#[inline(never)]
pub fn id_in_packet(family: usize, p: &[u8], record: usize, id: u16) -> Lookup<Value> {
    let limits = limits_of(family)?;
    by_id(p, &find(limits, frame(limits, p)?.1, record)?, id)
}

#[inline(never)]
pub fn id_in_datagram(family: usize, p: &[u8], record: usize, id: u16) -> Lookup<Value> {
    let limits = limits_of(family)?;
    by_id(p, &find(limits, datagram(limits, p)?.0, record)?, id)
}

/// The last record of a TCP data packet.
fn last(limits: Limits, p: &[u8]) -> Answer<Judged<'_>> {
    let mut found = None;
    judge(limits, frame(limits, p)?.1, |_, judged| found = Some(judged))?;
    found.ok_or(no(16))
}

#[inline(never)]
pub fn last_known(family: usize, newer: &[u8], older: &[u8], id: u16) -> Lookup<(bool, Value)> {
    let limits = limits_of(family)?;
    let mut before = 0;
    for (older, p) in [(false, newer), (true, older)] {
        let judged = last(limits, p).map_err(|answer| Counted { answer, passed: before })?;
        match by_id(p, &judged, id) {
            Ok(f) => return Ok(Counted { answer: (older, f.answer), passed: before + f.passed }),
            Err(missed) => before += missed.passed,
        }
    }
    Err(Counted { answer: no(16), passed: before })
}

// ---- all values, in owned records

enum OwnedValue {
    Number(u64),
    Bytes(Vec<u8>),
}

struct OwnedElement {
    id: u16,
    value: OwnedValue,
}

struct OwnedRecord {
    fields: Record,
    elements: Vec<OwnedElement>,
}

/// A group of fixed values.
fn owned_group<'a, C: Codec>(
    value: impl Parser<&'a [u8], u64, Refusal>,
) -> impl FnMut(&'a [u8]) -> Read<'a, Vec<OwnedElement>> {
    let element = map(pair(number(C::ID), value), |(id, n)| OwnedElement { id, value: OwnedValue::Number(n) });
    length_count(number(C::COUNT), element)
}

fn owned_variable<C: Codec>(i: &[u8]) -> Read<'_, Vec<OwnedElement>> {
    let owned = |(id, bytes): (u16, &[u8])| OwnedElement { id, value: OwnedValue::Bytes(bytes.to_vec()) };
    length_count(number(C::COUNT), map(variable_element(C::ID), owned))(i)
}

impl<'a> Parsed<'a> for OwnedRecord {
    fn parse<C: Codec>(limits: Limits, i: &'a [u8]) -> Read<'a, Self> {
        let (rest, fields) = fields::<C>(i)?;
        let (rest, total) = map(number(C::COUNT), usize::from)(rest)?;
        let (rest, (one, two, four, eight)) = tuple((
            owned_group::<C>(map(be_u8, u64::from)),
            owned_group::<C>(map(be_u16, u64::from)),
            owned_group::<C>(map(be_u32, u64::from)),
            owned_group::<C>(be_u64),
        ))(rest)?;
        let (rest, variable) = if C::VARIABLE { owned_variable::<C>(rest)? } else { (rest, vec![]) };
        let elements: Vec<_> = [one, two, four, eight, variable].into_iter().flatten().collect();
        ended(limits, i.offset(rest), elements.len(), total)?;
        Ok((rest, OwnedRecord { fields, elements }))
    }
}

fn sum_of(limits: Limits, data: &[u8]) -> Answer<u64> {
    let mut records: Vec<OwnedRecord> = vec![];
    judge(limits, data, |_, r| records.push(r))?;
    let mut sum = 0u64;
    for r in &records {
        sum = sum.wrapping_add(sum_of_fields(r.fields.timestamp, r.fields.longitude, r.fields.latitude));
        for e in &r.elements {
            let value = match &e.value {
                OwnedValue::Number(n) => *n,
                OwnedValue::Bytes(bytes) => sum_of_bytes(bytes),
            };
            sum = sum.wrapping_add(u64::from(e.id)).wrapping_add(value);
        }
    }
    Ok(sum)
}

#[inline(never)]
pub fn sum_of_packet(family: usize, p: &[u8]) -> Answer<u64> {
    let limits = limits_of(family)?;
    sum_of(limits, frame(limits, p)?.1)
}

#[inline(never)]
pub fn sum_of_datagram(family: usize, p: &[u8]) -> Answer<u64> {
    let limits = limits_of(family)?;
    sum_of(limits, datagram(limits, p)?.0)
}

// ---- TLV forms

/// The length of a record's entries.
fn form_size(r: &Judged) -> usize {
    let fixed = [1, 2, 4, 8].into_iter().zip(r.fixed).map(|(size, group)| group.count * (6 + size));
    31 + fixed.sum::<usize>() + r.variable.bytes.len() + r.variable.count * (4 - r.id)
}

/// Writes a record's entries at the start of `out`; gives the space behind them.
fn write_entries<'o>(r: &Judged, out: &'o mut [u8]) -> Option<&'o mut [u8]> {
    let (head, mut rest) = out.split_first_chunk_mut::<31>()?;
    record_entry(&r.fields, head);
    for (size, group) in [1, 2, 4, 8].into_iter().zip(r.fixed) {
        let (here, after) = rest.split_at_mut_checked(group.count * (6 + size))?;
        fixed_entries(size, group.bytes, r.id, here);
        rest = after;
    }
    for (id, value) in &mut iterator(r.variable.bytes, variable_element(r.id)) {
        let (here, after) = rest.split_at_mut_checked(6 + value.len())?;
        variable_entry(id, value, here);
        rest = after;
    }
    Some(rest)
}

fn form_of(limits: Limits, data: &[u8], out: &mut [u8]) -> Answer<usize> {
    let mut need = 5;
    let packet = judge(limits, data, |_, r| need += form_size(&r))?;
    let Some(out) = out.get_mut(..need) else {
        return Err(no(18));
    };
    out[..5].copy_from_slice(&[1, 0, 100, 0, packet.codec]);
    let mut rest = Some(&mut out[5..]);
    judge(limits, data, |_, r| rest = rest.take().and_then(|space| write_entries(&r, space)))?;
    Ok(need)
}

#[inline(never)]
pub fn form_of_packet(family: usize, p: &[u8], out: &mut [u8]) -> Answer<usize> {
    let limits = limits_of(family)?;
    form_of(limits, frame(limits, p)?.1, out)
}

#[inline(never)]
pub fn form_of_datagram(family: usize, p: &[u8], out: &mut [u8]) -> Answer<usize> {
    let limits = limits_of(family)?;
    form_of(limits, datagram(limits, p)?.0, out)
}

/// An entry of a form: its kind and body.
fn entry(i: &[u8]) -> Read<'_, (u16, &[u8])> {
    let (rest, length) = le_u16(i)?;
    pair(le_u16, take(length))(rest)
}

fn judge_form<C: Codec>(limits: Limits, entries: &[u8]) -> Option<(u8, usize)> {
    let mut all = iterator(entries, entry);
    let with = |sums: FormSums, (kind, body): (u16, &[u8])| sums.with::<C>(limits, usize::from(kind), body);
    let sums = (&mut all).try_fold(FormSums::START, with)?;
    let (rest, ()) = all.finish().ok()?;
    sums.packet().filter(|_| rest.is_empty())
}

#[inline(never)]
pub fn packet_of_form(family: usize, form: &[u8], out: &mut [u8]) -> Answer<usize> {
    let limits = limits_of(family)?;
    let (entries, codec) = refused(17, preceded(tag([1, 0, 100, 0]), be_u8))(form)?;
    let judged = match codec {
        0x08 => judge_form::<Codec8>(limits, entries),
        0x8E => judge_form::<Codec8E>(limits, entries),
        0x10 => judge_form::<Codec16>(limits, entries),
        _ => None,
    };
    let (records, length) = judged.ok_or(no(17))?;
    write_packet(form, codec, records, length, out)
}
