//! Records and values, by number and by ID.
use std::error::Error;
use std::fmt::{Display, Formatter, Result as Printed};

use crate::family::Family;
use crate::raw;
use crate::refusal::{data_judged, Refusal};

/// A record's fixed fields, and the number of its elements.
#[derive(Clone, Copy, Debug, PartialEq, Eq, Hash)]
pub struct Record {
    /// Milliseconds since 1970, UTC.
    pub timestamp: u64,
    /// 0 to 2.
    pub priority: u8,
    /// Degrees times 10^7.
    pub longitude: i32,
    /// Degrees times 10^7.
    pub latitude: i32,
    /// Metres above sea level.
    pub altitude: i16,
    /// Degrees from north.
    pub angle: u16,
    /// Satellites in use.
    pub satellites: u8,
    /// The speed, from satellites.
    pub speed: u16,
    /// The event ID.
    pub event: u16,
    /// The generation type: 0 to 7 in codec 0x10, else 0.
    pub generation: u8,
    /// The number of elements, variable ones among them.
    pub elements: usize,
}

/// An element and its value.
///
/// It prints its ID, and the value as a number or, where the length is variable, as hexadecimal bytes:
///
/// ```
/// use brundilope::{samples, value_in_packet, Family, Value};
///
/// let voltage = value_in_packet(Family::Standard, samples::CODEC8, 0, 2)?;
/// assert_eq!(voltage, Value { id: 66, kind: 2, offset: 43, bytes: &[0x5E, 0x0F], number: Some(24_079) });
/// assert_eq!(voltage.to_string(), "ID 66: 24079");
///
/// let tag = Value { id: 385, kind: 9, offset: 43, bytes: &[0x5E, 0x0F], number: None };
/// assert_eq!(tag.to_string(), "ID 385: 5E0F");
/// # Ok::<(), brundilope::Refusal>(())
/// ```
#[derive(Clone, Copy, Debug, PartialEq, Eq, Hash)]
pub struct Value<'a> {
    /// The IO ID.
    pub id: u16,
    /// 1, 2, 4 or 8 for a value of so many bytes; 9 for one of variable length, which may be 0.
    pub kind: u8,
    /// Where the value starts in the input.
    pub offset: usize,
    /// The value's bytes, which lie within its record.
    pub bytes: &'a [u8],
    /// The unsigned number in a value of 1, 2, 4 or 8 bytes; none in one of variable length.
    pub number: Option<u64>,
}

impl<'a> Value<'a> {
    /// The element whose value is `size` bytes of an input.
    #[inline]
    pub(crate) fn new(input: &'a [u8], id: u16, kind: u8, offset: usize, size: usize) -> Self {
        let end = offset + size;
        // The number is cut from the eight bytes that end with the value, which are there: the record's fixed fields
        // stand before it. So no jump depends on the width; elements of all widths follow one another.
        let last = input[..end].last_chunk().map_or(0, |bytes| u64::from_be_bytes(*bytes));
        let before = 64_u32.wrapping_sub(8 * u32::from(kind)) % 64;
        let number = (kind <= 8).then_some(last << before >> before);
        Value { id, kind, offset, bytes: &input[offset..end], number }
    }
}

impl Display for Value<'_> {
    fn fmt(&self, f: &mut Formatter<'_>) -> Printed {
        write!(f, "ID {}: ", self.id)?;
        match self.number {
            Some(number) => write!(f, "{number}"),
            None => self.bytes.iter().try_for_each(|byte| write!(f, "{byte:02X}")),
        }
    }
}

/// What a look-up by ID finds: the element, and how many elements of the record it passed.
#[derive(Clone, Copy, Debug, PartialEq, Eq, Hash)]
pub struct Found<'a> {
    /// The element and its value.
    pub value: Value<'a>,
    /// Its place in the record, from 1.
    pub passed: usize,
}

/// Why a look-up by ID finds nothing, and how many elements it passed.
///
/// It turns into its [`Refusal`] where that is wanted, with `?` too, and prints both:
///
/// ```
/// use brundilope::{id_in_packet, samples, Family, Refusal};
///
/// fn operator(packet: &[u8]) -> Result<Option<u64>, Refusal> {
///     Ok(id_in_packet(Family::Standard, packet, 0, 241)?.value.number)
/// }
/// assert_eq!(operator(samples::CODEC8), Ok(Some(24_602)));
/// assert_eq!(operator(b"").unwrap_err().number, 1);
///
/// let missing = id_in_packet(Family::Standard, samples::CODEC8, 0, 67).unwrap_err();
/// assert_eq!((missing.refusal.number, missing.passed), (16, 5));
/// assert_eq!(missing.to_string(), "refusal 16: no such record, element or ID; elements passed: 5");
/// ```
#[derive(Clone, Copy, Debug, PartialEq, Eq, Hash)]
pub struct NotFound {
    /// The refusal: the packet's own, or 16.
    pub refusal: Refusal,
    /// All elements of the record, where none has the ID; 0 where the packet or datagram is refused or has no such
    /// record. [`last_known`] adds up those of the packets that it judged.
    pub passed: usize,
}

impl Display for NotFound {
    fn fmt(&self, f: &mut Formatter<'_>) -> Printed {
        write!(f, "{}; elements passed: {}", self.refusal, self.passed)
    }
}

impl Error for NotFound {
    fn source(&self) -> Option<&(dyn Error + 'static)> {
        Some(&self.refusal)
    }
}

impl From<NotFound> for Refusal {
    fn from(missing: NotFound) -> Self {
        missing.refusal
    }
}

/// Which of two packets holds the last known value.
#[derive(Clone, Copy, Debug, PartialEq, Eq, Hash)]
pub enum Source {
    /// The newer one.
    Newer,
    /// The older one.
    Older,
}

/// The last known value of an ID.
#[derive(Clone, Copy, Debug, PartialEq, Eq, Hash)]
pub struct LastKnown<'a> {
    /// The packet that holds it.
    pub source: Source,
    /// The value; its offset is in that packet.
    pub value: Value<'a>,
    /// How many elements were passed: its place in the newer packet's last record, from 1; or all elements of that and
    /// its place in the older's.
    pub passed: usize,
}

fn record(a: raw::Record) -> Result<Record, Refusal> {
    data_judged(a.number, a.index, a.place)?;
    Ok(Record {
        timestamp: a.timestamp,
        priority: a.priority,
        longitude: a.longitude,
        latitude: a.latitude,
        altitude: a.altitude,
        angle: a.angle,
        satellites: a.satellites,
        speed: a.speed,
        event: a.event,
        generation: a.generation,
        elements: a.elements,
    })
}

fn value(a: raw::Value, input: &[u8]) -> Result<Value<'_>, Refusal> {
    data_judged(a.number, a.index, a.place)?;
    Ok(Value::new(input, a.id, a.kind, a.offset, a.size))
}

fn found(a: raw::Found, input: &[u8]) -> Result<Found<'_>, NotFound> {
    match value(a.value, input) {
        Ok(value) => Ok(Found { value, passed: a.passed }),
        Err(refusal) => Err(NotFound { refusal, passed: a.passed }),
    }
}

/// A record of a TCP data packet by its number, from 0. Refusals 1 to 12, then 16.
///
/// ```
/// use brundilope::{record_in_packet, samples, Family};
///
/// let record = record_in_packet(Family::Standard, samples::CODEC16, 1)?;
/// assert_eq!(record.timestamp, 1_562_760_415_000);
/// assert_eq!((record.event, record.generation, record.elements), (11, 5, 4));
///
/// assert_eq!(record_in_packet(Family::Standard, samples::CODEC16, 2).unwrap_err().number, 16);
/// # Ok::<(), brundilope::Refusal>(())
/// ```
pub fn record_in_packet(family: Family, packet: &[u8], number: usize) -> Result<Record, Refusal> {
    record(raw::record_in_packet(family, packet, number))
}

/// A record of a datagram by its number, from 0. Refusals 1, 3, 4, 15, 6 to 12, then 16.
///
/// ```
/// use brundilope::{record_in_datagram, samples, Family};
///
/// let record = record_in_datagram(Family::Standard, samples::UDP_CODEC8, 0)?;
/// assert_eq!(record.timestamp, 1_560_407_006_000);
/// assert_eq!((record.priority, record.event, record.elements), (1, 1, 3));
/// # Ok::<(), brundilope::Refusal>(())
/// ```
pub fn record_in_datagram(family: Family, datagram: &[u8], number: usize) -> Result<Record, Refusal> {
    record(raw::record_in_datagram(family, datagram, number))
}

/// A value of a TCP data packet by the numbers of its record and element, both from 0. Refusals 1 to 12, then 16.
///
/// ```
/// use brundilope::{samples, value_in_packet, Family};
///
/// let value = value_in_packet(Family::Standard, samples::CODEC8, 0, 2)?;
/// assert_eq!((value.id, value.kind, value.offset), (66, 2, 43));
/// assert_eq!(value.bytes, [0x5E, 0x0F]);
/// # Ok::<(), brundilope::Refusal>(())
/// ```
pub fn value_in_packet(family: Family, packet: &[u8], record: usize, element: usize) -> Result<Value<'_>, Refusal> {
    value(raw::value_in_packet(family, packet, record, element), packet)
}

/// A value of a datagram by the numbers of its record and element, both from 0. Refusals 1, 3, 4, 15, 6 to 12, then 16.
///
/// ```
/// use brundilope::{samples, value_in_datagram, Family};
///
/// let value = value_in_datagram(Family::Standard, samples::UDP_CODEC8, 0, 0)?;
/// assert_eq!((value.id, value.kind, value.offset), (21, 1, 53));
/// assert_eq!(value.bytes, [3]);
/// # Ok::<(), brundilope::Refusal>(())
/// ```
pub fn value_in_datagram(family: Family, datagram: &[u8], record: usize, element: usize) -> Result<Value<'_>, Refusal> {
    value(raw::value_in_datagram(family, datagram, record, element), datagram)
}

/// The first value with this ID in a record of a TCP data packet, and how many elements were passed. Refusals 1 to 12,
/// then 16.
///
/// ```
/// use brundilope::{id_in_packet, samples, Family};
///
/// let operator = id_in_packet(Family::Standard, samples::CODEC8, 0, 241)?;
/// assert_eq!((operator.value.kind, operator.value.bytes), (4, &[0x00, 0x00, 0x60, 0x1A][..]));
/// assert_eq!(operator.passed, 4);
/// # Ok::<(), brundilope::NotFound>(())
/// ```
pub fn id_in_packet(family: Family, packet: &[u8], record: usize, id: u16) -> Result<Found<'_>, NotFound> {
    found(raw::id_in_packet(family, packet, record, id), packet)
}

/// The first value with this ID in a record of a datagram, and how many elements were passed. Refusals 1, 3, 4, 15, 6 to
/// 12, then 16.
///
/// ```
/// use brundilope::{id_in_datagram, samples, Family};
///
/// let voltage = id_in_datagram(Family::Standard, samples::UDP_CODEC8, 0, 66)?;
/// assert_eq!((voltage.value.kind, voltage.value.bytes, voltage.passed), (2, &[0x5D, 0xBC][..], 3));
///
/// let missing = id_in_datagram(Family::Standard, samples::UDP_CODEC8, 0, 67).unwrap_err();
/// assert_eq!((missing.refusal.number, missing.passed), (16, 3));
/// # Ok::<(), brundilope::NotFound>(())
/// ```
pub fn id_in_datagram(family: Family, datagram: &[u8], record: usize, id: u16) -> Result<Found<'_>, NotFound> {
    found(raw::id_in_datagram(family, datagram, record, id), datagram)
}

/// The first value with this ID in the last record of the newer TCP data packet; if there is none, in the last record
/// of the older. With it, how many elements of both were passed.
///
/// Refusals 1 to 12 of the newer; 1 to 12 of the older, which is judged only if the newer lacks the ID; then 16.
///
/// ```
/// use brundilope::{last_known, samples, Family, Source};
///
/// let known = last_known(Family::Standard, samples::CODEC8E, samples::CODEC8, 241)?;
/// assert_eq!(known.source, Source::Older);
/// assert_eq!(known.value.bytes, [0x00, 0x00, 0x60, 0x1A]);
/// assert_eq!(known.passed, 5 + 4); // the newer's last record has five elements
/// # Ok::<(), brundilope::NotFound>(())
/// ```
pub fn last_known<'a>(family: Family, newer: &'a [u8], older: &'a [u8], id: u16) -> Result<LastKnown<'a>, NotFound> {
    let a = raw::last_known(family, newer, older, id);
    if let Err(refusal) = data_judged(a.number, a.index, a.place) {
        return Err(NotFound { refusal, passed: a.passed });
    }
    let (source, input) = if a.older { (Source::Older, older) } else { (Source::Newer, newer) };
    Ok(LastKnown { source, value: Value::new(input, a.id, a.kind, a.offset, a.size), passed: a.passed })
}
