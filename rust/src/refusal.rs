//! Refusals: their numbers, meanings, records and bytes.
use std::error::Error;
use std::fmt::{Display, Formatter, Result as Printed};

/// The meanings of refusals 1 to 21, as in include/brundilope.h.
const MEANINGS: [&str; 21] = [
    "under 8 bytes (TCP packet), 17 (login), 26 (UDP)",
    "first four bytes not zero",
    "data length or datagram outside its family's limits",
    "input length differs from what its length field gives; login over 17 bytes",
    "CRC field wrong",
    "codec not one this entry point takes",
    "counts or quantities break their rule",
    "a field's bytes are not all there, or bytes are left over",
    "IO total wrong",
    "priority over 2",
    "generation type over 7",
    "record over 255 bytes (family 1)",
    "message type not allowed for its codec",
    "text size breaks its rule, or a command to write is over its family's limit",
    "IMEI length or digit wrong",
    "no such record, element or ID",
    "not the TLV form of any acceptable TCP data packet of the family",
    "lent buffer too short for the result",
    "connection closed, or a state that no feeds from a fresh one give",
    "not a billing line",
    "unknown family",
];

/// Why an input was refused, and where.
///
/// It prints its number, its meaning and, where there are such, the record and the byte:
///
/// ```
/// use brundilope::Refusal;
///
/// let crc = Refusal { number: 5, record: None, offset: Some(54) };
/// assert_eq!(crc.to_string(), "refusal 5 at byte 54: CRC field wrong");
///
/// let priority = Refusal { number: 10, record: Some(0), offset: Some(18) };
/// assert_eq!(priority.to_string(), "refusal 10 at record 0, byte 18: priority over 2");
///
/// let absent = Refusal { number: 16, record: None, offset: None };
/// assert_eq!(absent.to_string(), "refusal 16: no such record, element or ID");
/// ```
///
/// A gateway logs number, record and offset with the bytes, in which support staff then find the field:
///
/// ```
/// use brundilope::{read_datagram, samples, Family};
///
/// let mut received = samples::UDP_CODEC8.to_vec();
/// received[33] = 3;
/// let refusal = read_datagram(Family::Standard, &received).unwrap_err();
/// println!("{refusal}, in {received:02X?}");
/// assert_eq!(refusal.to_string(), "refusal 10 at record 0, byte 33: priority over 2");
/// ```
#[derive(Clone, Copy, Debug, PartialEq, Eq, Hash)]
pub struct Refusal {
    /// The number, 1 to 21.
    pub number: usize,
    /// The record's index, from 0. It goes with 8 to 12 in data packets and datagrams; left-over bytes have the number
    /// of records.
    pub record: Option<usize>,
    /// The byte of the input at which the offending field starts, from 0; on a connection it counts from the start of
    /// the item. None with 1, 4 and 16 to 21, with 3 on a datagram, and where a writer refuses its own arguments.
    pub offset: Option<usize>,
}

impl Refusal {
    /// What the number means.
    ///
    /// ```
    /// let refusal = brundilope::read_login(b"").unwrap_err();
    /// assert_eq!(refusal.meaning(), "under 8 bytes (TCP packet), 17 (login), 26 (UDP)");
    /// ```
    pub fn meaning(self) -> &'static str {
        let place = self.number.wrapping_sub(1);
        MEANINGS.get(place).copied().unwrap_or("not the number of a refusal")
    }
}

impl Display for Refusal {
    fn fmt(&self, f: &mut Formatter<'_>) -> Printed {
        write!(f, "refusal {}", self.number)?;
        match (self.record, self.offset) {
            (Some(record), Some(offset)) => write!(f, " at record {record}, byte {offset}")?,
            (Some(record), None) => write!(f, " at record {record}")?,
            (None, Some(offset)) => write!(f, " at byte {offset}")?,
            (None, None) => {}
        }
        write!(f, ": {}", self.meaning())
    }
}

impl Error for Refusal {}

/// The judgement of a form, of a line or of a writer's own arguments: `number` is 0 where they are accepted.
#[inline]
pub(crate) fn judged(number: usize) -> Result<(), Refusal> {
    match number {
        0 => Ok(()),
        _ => Err(Refusal { number, record: None, offset: None }),
    }
}

/// The judgement of a login or command, with the place of the offending field. Place 0 says that there is none, but for
/// 2 and 15: these may start at the first byte.
#[inline]
pub(crate) fn input_judged(number: usize, place: usize) -> Result<(), Refusal> {
    let offset = (place > 0 || matches!(number, 2 | 15)).then_some(place);
    judged(number).map_err(|refusal| Refusal { offset, ..refusal })
}

/// The judgement of a data packet or datagram, with the record's index, too.
#[inline]
pub(crate) fn data_judged(number: usize, index: usize, place: usize) -> Result<(), Refusal> {
    let record = (8..=12).contains(&number).then_some(index);
    input_judged(number, place).map_err(|refusal| Refusal { record, ..refusal })
}
