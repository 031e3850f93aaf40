//! Records and values of a packet or datagram that was judged, by the words of its table of contents. The words are
//! laid out as include/brundilope.h says.
use std::fmt::{Debug, Display, Formatter, Result as Printed};
use std::iter::FusedIterator;
use std::slice;

use crate::lookup::{Record, Value};
use crate::reading::view;

/// Sixteen bits of a word, numbered from the lowest.
#[inline]
fn part(word: u64, number: u32) -> usize {
    usize::from((word >> (16 * number)) as u16)
}

/// The ID of an element's word.
#[inline]
fn id(word: u64) -> u16 {
    word as u16
}

/// The value of an element's word.
#[inline]
fn value(input: &[u8], word: u64) -> Value<'_> {
    Value::new(input, id(word), (word >> 16) as u8, part(word, 2), part(word, 3))
}

/// Getters of fields: what each is, where its lowest bit stands in the words of `head`, and what the example gives.
macro_rules! getters {
    (
        $view:ident, $example:literal:
        $($(#[$what:meta])* $field:ident: $type:ty = |$head:ident| $word:expr, $is:literal;)*
    ) => {
        impl $view<'_> {
            $(
                $(#[$what])*
                ///
                /// ```
                /// # use brundilope::{samples, Contents, DataDatagram, DataPacket, Family};
                /// # let mut room = Contents::new();
                #[doc = $example]
                #[doc = concat!("assert_eq!(it.", stringify!($field), "(), ", stringify!($is), ");")]
                /// # Ok::<(), brundilope::Refusal>(())
                /// ```
                #[inline]
                pub fn $field(&self) -> $type {
                    let $head = self.head();
                    ($word) as $type
                }
            )*
        }
    };
}
pub(crate) use getters;

/// The records of a packet or datagram, in order.
///
/// ```
/// use brundilope::{samples, Contents, DataPacket, Family};
///
/// let mut room = Contents::new();
/// let mut records = DataPacket::read(Family::Standard, samples::CODEC16, &mut room)?.records();
/// assert_eq!(records.len(), 2);
/// assert_eq!(records.next().map(|record| record.event()), Some(11));
/// assert_eq!(records.len(), 1);
/// # Ok::<(), brundilope::Refusal>(())
/// ```
#[derive(Clone)]
#[must_use = "iterators are lazy and do nothing unless consumed"]
pub struct Records<'a> {
    input: &'a [u8],
    words: &'a [u64],
    left: usize,
}

impl<'a> Records<'a> {
    /// So many records of an input, by their words.
    #[inline]
    pub(crate) fn new(input: &'a [u8], words: &'a [u64], count: u8) -> Self {
        Records { input, words, left: count.into() }
    }
}

impl<'a> Iterator for Records<'a> {
    type Item = DataRecord<'a>;

    #[inline]
    fn next(&mut self) -> Option<DataRecord<'a>> {
        let (head, rest) = self.words.split_first_chunk()?;
        let (elements, rest) = rest.split_at(part(head[3], 3));
        self.words = rest;
        self.left -= 1;
        Some(DataRecord { input: self.input, head, elements })
    }

    #[inline]
    fn size_hint(&self) -> (usize, Option<usize>) {
        (self.left, Some(self.left))
    }
}

impl ExactSizeIterator for Records<'_> {}

impl FusedIterator for Records<'_> {}

impl Debug for Records<'_> {
    fn fmt(&self, f: &mut Formatter<'_>) -> Printed {
        f.debug_list().entries(self.clone()).finish()
    }
}

/// A record of a packet or datagram, with its values.
///
/// ```
/// use brundilope::{samples, Contents, DataPacket, Family};
///
/// let mut room = Contents::new();
/// let packet = DataPacket::read(Family::Standard, samples::CODEC16, &mut room)?;
/// let record = packet.records().next().unwrap();
/// assert_eq!(record.to_string(), "time 1562760414000, longitude 0, latitude 0, values 4");
/// for value in record.values() {
///     println!("{value}");
/// }
/// # Ok::<(), brundilope::Refusal>(())
/// ```
#[derive(Clone, Copy)]
pub struct DataRecord<'a> {
    input: &'a [u8],
    head: &'a [u64; 4],
    elements: &'a [u64],
}

getters! {
    DataRecord, "let packet = DataPacket::read(Family::Standard, samples::CODEC16, &mut room)?;
let it = packet.records().next().unwrap();":
    /// Milliseconds since 1970, UTC.
    timestamp: u64 = |head| head[0], 1_562_760_414_000;
    /// Degrees times 10^7.
    longitude: i32 = |head| head[1] >> 32, 0;
    /// Degrees times 10^7.
    latitude: i32 = |head| head[1], 0;
    /// Metres above sea level.
    altitude: i16 = |head| head[2] >> 40, 0;
    /// Degrees from north.
    angle: u16 = |head| head[2] >> 24, 0;
    /// The speed, from satellites.
    speed: u16 = |head| head[2], 0;
    /// Satellites in use.
    satellites: u8 = |head| head[2] >> 16, 0;
    /// 0 to 2.
    priority: u8 = |head| head[2] >> 56 & 15, 0;
    /// The generation type: 0 to 7 in codec 0x10, else 0.
    generation: u8 = |head| head[2] >> 60, 5;
    /// The event ID.
    event: u16 = |head| head[3], 11;
}

impl<'a> DataRecord<'a> {
    #[inline]
    fn head(&self) -> &'a [u64; 4] {
        self.head
    }

    /// All fields, and the number of elements.
    ///
    /// ```
    /// use brundilope::{record_in_packet, samples, Contents, DataPacket, Family};
    ///
    /// let mut room = Contents::new();
    /// let packet = DataPacket::read(Family::Standard, samples::CODEC16, &mut room)?;
    /// let record = packet.records().nth(1).unwrap();
    /// assert_eq!(record.fields(), record_in_packet(Family::Standard, samples::CODEC16, 1)?);
    /// # Ok::<(), brundilope::Refusal>(())
    /// ```
    pub fn fields(&self) -> Record {
        Record {
            timestamp: self.timestamp(),
            priority: self.priority(),
            longitude: self.longitude(),
            latitude: self.latitude(),
            altitude: self.altitude(),
            angle: self.angle(),
            satellites: self.satellites(),
            speed: self.speed(),
            event: self.event(),
            generation: self.generation(),
            elements: self.elements.len(),
        }
    }

    /// The record's own bytes.
    ///
    /// ```
    /// use brundilope::{samples, Contents, DataPacket, Family};
    ///
    /// let mut room = Contents::new();
    /// let packet = DataPacket::read(Family::Standard, samples::CODEC8, &mut room)?;
    /// let record = packet.records().next().unwrap();
    /// assert_eq!(record.bytes(), &samples::CODEC8[10..61]);
    /// # Ok::<(), brundilope::Refusal>(())
    /// ```
    pub fn bytes(&self) -> &'a [u8] {
        view(self.input, part(self.head[3], 1), part(self.head[3], 2))
    }

    /// The values in byte order, one for each element.
    ///
    /// ```
    /// use brundilope::{samples, Contents, DataPacket, Family};
    ///
    /// let mut room = Contents::new();
    /// let packet = DataPacket::read(Family::Standard, samples::CODEC8, &mut room)?;
    /// let record = packet.records().next().unwrap();
    /// let ids: Vec<u16> = record.values().map(|value| value.id).collect();
    /// assert_eq!(ids, [21, 1, 66, 241, 78]);
    /// # Ok::<(), brundilope::Refusal>(())
    /// ```
    #[inline]
    pub fn values(&self) -> Values<'a> {
        Values { input: self.input, words: self.elements.iter() }
    }

    /// The first value with this ID, in byte order.
    ///
    /// ```
    /// use brundilope::{samples, Contents, DataPacket, Family};
    ///
    /// let mut room = Contents::new();
    /// let packet = DataPacket::read(Family::Standard, samples::CODEC8, &mut room)?;
    /// let record = packet.records().next().unwrap();
    /// assert_eq!(record.value(66).and_then(|value| value.number), Some(24_079));
    /// assert_eq!(record.value(67), None);
    /// # Ok::<(), brundilope::Refusal>(())
    /// ```
    #[must_use]
    pub fn value(&self, wanted: u16) -> Option<Value<'a>> {
        let word = self.elements.iter().find(|word| id(**word) == wanted)?;
        Some(value(self.input, *word))
    }
}

impl Debug for DataRecord<'_> {
    fn fmt(&self, f: &mut Formatter<'_>) -> Printed {
        f.debug_struct("DataRecord").field("fields", &self.fields()).field("values", &self.values()).finish()
    }
}

impl Display for DataRecord<'_> {
    fn fmt(&self, f: &mut Formatter<'_>) -> Printed {
        let (time, longitude, latitude) = (self.timestamp(), self.longitude(), self.latitude());
        write!(f, "time {time}, longitude {longitude}, latitude {latitude}, values {}", self.elements.len())
    }
}

/// The values of a record, in byte order.
///
/// ```
/// use brundilope::{samples, Contents, DataPacket, Family};
///
/// let mut room = Contents::new();
/// let packet = DataPacket::read(Family::Standard, samples::CODEC8, &mut room)?;
/// let mut values = packet.records().next().unwrap().values();
/// assert_eq!(values.len(), 5);
/// assert_eq!(values.next().map(|value| value.bytes), Some(&[3][..]));
/// assert_eq!(values.len(), 4);
/// # Ok::<(), brundilope::Refusal>(())
/// ```
#[derive(Clone)]
#[must_use = "iterators are lazy and do nothing unless consumed"]
pub struct Values<'a> {
    input: &'a [u8],
    words: slice::Iter<'a, u64>,
}

impl<'a> Iterator for Values<'a> {
    type Item = Value<'a>;

    #[inline]
    fn next(&mut self) -> Option<Value<'a>> {
        self.words.next().map(|word| value(self.input, *word))
    }

    #[inline]
    fn size_hint(&self) -> (usize, Option<usize>) {
        self.words.size_hint()
    }
}

impl ExactSizeIterator for Values<'_> {}

impl FusedIterator for Values<'_> {}

impl Debug for Values<'_> {
    fn fmt(&self, f: &mut Formatter<'_>) -> Printed {
        f.debug_list().entries(self.clone()).finish()
    }
}
