//! Data packets and datagrams, each judged once: a table of contents leads to all their records and values.
use std::fmt::{Debug, Display, Formatter, Result as Printed};
use std::mem::MaybeUninit;

use crate::family::Family;
use crate::lines::{Lines, RecordLine};
use crate::raw;
use crate::records::{getters, Records};
use crate::refusal::{data_judged, Refusal};
use crate::{LARGEST_CONTENTS, LARGEST_LINES};

/// Room for the table of contents of any packet or datagram.
///
/// One room serves one input after another, and nothing in it is ever cleared.
///
/// ```
/// use brundilope::{samples, Contents, DataPacket, Family};
///
/// let mut room = Contents::new();
/// for packet in [samples::CODEC8, samples::CODEC16] {
///     println!("{}", DataPacket::read(Family::Standard, packet, &mut room)?);
/// }
/// # Ok::<(), brundilope::Refusal>(())
/// ```
pub struct Contents([MaybeUninit<u64>; LARGEST_CONTENTS]);

impl Contents {
    /// An empty room.
    ///
    /// ```
    /// let room = brundilope::Contents::new();
    /// assert_eq!(std::mem::size_of_val(&room), 8 * brundilope::LARGEST_CONTENTS);
    /// ```
    #[must_use]
    pub const fn new() -> Self {
        Contents([MaybeUninit::uninit(); LARGEST_CONTENTS])
    }
}

impl Default for Contents {
    fn default() -> Self {
        Contents::new()
    }
}

impl Debug for Contents {
    fn fmt(&self, f: &mut Formatter<'_>) -> Printed {
        f.debug_struct("Contents").finish_non_exhaustive()
    }
}

/// An input that its family accepts, and the words of its table.
#[derive(Clone, Copy, PartialEq, Eq, Hash)]
struct Table<'a> {
    family: Family,
    input: &'a [u8],
    words: &'a [u64],
}

impl<'a> Table<'a> {
    #[inline]
    fn judged(family: Family, input: &'a [u8], (answer, words): (raw::Written, &'a [u64])) -> Result<Self, Refusal> {
        data_judged(answer.number, answer.index, answer.place)?;
        Ok(Table { family, input, words })
    }

    /// So many records, behind the two words of the whole.
    #[inline]
    fn records(self, count: u8) -> Records<'a> {
        Records::new(self.input, &self.words[2..], count)
    }

    fn to_owned(self) -> OwnedTable {
        OwnedTable { family: self.family, input: self.input.into(), words: self.words.into() }
    }
}

/// The same on the heap.
#[derive(Clone, PartialEq, Eq, Hash)]
struct OwnedTable {
    family: Family,
    input: Box<[u8]>,
    words: Box<[u64]>,
}

impl OwnedTable {
    fn lend(&self) -> Table<'_> {
        Table { family: self.family, input: &self.input, words: &self.words }
    }
}

/// What a packet and a datagram have in common: records, bytes, billing lines, an owned copy.
macro_rules! judged {
    (
        $data:ident, $owned:ident, $lend:ident, $line:ident, $lines:ident, $sample:literal, $times:literal,
        $text:literal
    ) => {
        impl<'a> $data<'a> {
            #[inline]
            fn head(&self) -> &'a [u64] {
                self.0.words
            }

            /// The records in order.
            ///
            /// ```
            /// # use brundilope::{samples, Contents, DataDatagram, DataPacket, Family};
            /// # let mut room = Contents::new();
            #[doc = concat!("let it = ", stringify!($data), "::read(Family::Standard, ", $sample, ", &mut room)?;")]
            /// let times: Vec<u64> = it.records().map(|record| record.timestamp()).collect();
            #[doc = concat!("assert_eq!(times, ", $times, ");")]
            /// # Ok::<(), brundilope::Refusal>(())
            /// ```
            #[inline]
            pub fn records(&self) -> Records<'a> {
                self.0.records(self.count())
            }

            /// The family by whose limits it was judged.
            ///
            /// ```
            /// # use brundilope::{samples, Contents, DataDatagram, DataPacket, Family};
            /// # let mut room = Contents::new();
            #[doc = concat!("let it = ", stringify!($data), "::read(Family::Standard, ", $sample, ", &mut room)?;")]
            /// assert_eq!(it.family(), Family::Standard);
            /// # Ok::<(), brundilope::Refusal>(())
            /// ```
            pub fn family(&self) -> Family {
                self.0.family
            }

            /// The input's bytes.
            ///
            /// ```
            /// # use brundilope::{samples, Contents, DataDatagram, DataPacket, Family};
            /// # let mut room = Contents::new();
            #[doc = concat!("let it = ", stringify!($data), "::read(Family::Standard, ", $sample, ", &mut room)?;")]
            #[doc = concat!("assert_eq!(it.bytes(), ", $sample, ");")]
            /// # Ok::<(), brundilope::Refusal>(())
            /// ```
            pub fn bytes(&self) -> &'a [u8] {
                self.0.input
            }

            /// The billing lines of all records, in order, each with the LF at its end. They are written into the
            /// lent room, and the input is judged again, once for all of them.
            ///
            /// ```
            /// # use brundilope::{samples, Contents, DataDatagram, DataPacket, Family, LARGEST_LINES};
            /// let (mut room, mut text) = (Contents::new(), [0; LARGEST_LINES]);
            #[doc = concat!("let it = ", stringify!($data), "::read(Family::Standard, ", $sample, ", &mut room)?;")]
            /// let mut lines = it.lines(&mut text);
            #[doc = concat!("assert_eq!(lines.next(), Some(", $text, "));")]
            /// # Ok::<(), brundilope::Refusal>(())
            /// ```
            pub fn lines<'r>(&self, room: &'r mut [u8; LARGEST_LINES]) -> Lines<'r> {
                let answer = raw::$lines(self.0.family, self.0.input, room);
                Lines::new(&room[..answer.written], self.count())
            }

            /// A record by its number, from 0, that prints as its billing line; none where there is no such record.
            /// Each time it prints, the input is judged again.
            ///
            /// ```
            /// # use brundilope::{samples, Contents, DataDatagram, DataPacket, Family};
            /// # let mut room = Contents::new();
            #[doc = concat!("let it = ", stringify!($data), "::read(Family::Standard, ", $sample, ", &mut room)?;")]
            #[doc = concat!("assert_eq!(it.line(0).unwrap().to_string(), ", $text, ");")]
            /// assert!(it.line(it.records().len()).is_none());
            /// # Ok::<(), brundilope::Refusal>(())
            /// ```
            #[must_use]
            pub fn line(&self, number: usize) -> Option<RecordLine<'a>> {
                (number < self.count().into()).then(|| RecordLine::new(self.0.family, self.0.input, number, raw::$line))
            }

            /// A copy that borrows nothing: it allocates, and is not judged again.
            ///
            /// ```
            /// # use brundilope::{samples, Contents, DataDatagram, DataPacket, Family};
            #[doc = concat!("let copy = ", stringify!($data), "::read(Family::Standard, ", $sample, ", &mut Contents::new())?.to_owned();")]
            #[doc = concat!("let size = std::thread::spawn(move || copy.", stringify!($lend), "().bytes().len()).join();")]
            #[doc = concat!("assert_eq!(size.unwrap(), ", $sample, ".len());")]
            /// # Ok::<(), brundilope::Refusal>(())
            /// ```
            #[must_use]
            pub fn to_owned(&self) -> $owned {
                $owned(self.0.to_owned())
            }
        }

        #[doc = concat!("A [`", stringify!($data), "`] that borrows nothing, from [`", stringify!($data), "::to_owned`].")]
        ///
        /// ```
        /// # use brundilope::*;
        /// let mut room = Contents::new();
        #[doc = concat!("let kept: ", stringify!($owned), " = ", stringify!($data), "::read(Family::Standard, ", $sample, ", &mut room)?.to_owned();")]
        #[doc = concat!("assert_eq!(kept.", stringify!($lend), "().bytes(), ", $sample, ");")]
        /// # Ok::<(), brundilope::Refusal>(())
        /// ```
        #[derive(Clone, PartialEq, Eq, Hash)]
        pub struct $owned(OwnedTable);

        impl $owned {
            /// What it is a copy of.
            ///
            /// ```
            /// # use brundilope::{samples, Contents, DataDatagram, DataPacket, Family};
            #[doc = concat!("let copy = ", stringify!($data), "::read(Family::Standard, ", $sample, ", &mut Contents::new())?.to_owned();")]
            #[doc = concat!("let times: Vec<u64> = copy.", stringify!($lend), "().records().map(|record| record.timestamp()).collect();")]
            #[doc = concat!("assert_eq!(times, ", $times, ");")]
            /// # Ok::<(), brundilope::Refusal>(())
            /// ```
            pub fn $lend(&self) -> $data<'_> {
                $data(self.0.lend())
            }
        }

        impl Debug for $owned {
            fn fmt(&self, f: &mut Formatter<'_>) -> Printed {
                f.debug_tuple(stringify!($owned)).field(&self.$lend()).finish()
            }
        }
    };
}

judged!(
    DataPacket,
    OwnedPacket,
    as_packet,
    line_of_packet,
    lines_of_packet,
    "samples::CODEC16",
    "[1_562_760_414_000, 1_562_760_415_000]",
    r#""1562760414000,0.0000000,0.0000000,0,1=0,3=0,11=39,66=22074\n""#
);
judged!(
    DataDatagram,
    OwnedDatagram,
    as_datagram,
    line_of_datagram,
    lines_of_datagram,
    "samples::UDP_CODEC8",
    "[1_560_407_006_000]",
    r#""1560407006000,0.0000000,0.0000000,0,21=3,1=1,66=23996\n""#
);

/// A TCP data packet with its contents, judged once.
///
/// ```
/// use brundilope::{samples, Contents, DataPacket, Family};
///
/// let mut room = Contents::new();
/// let packet = DataPacket::read(Family::Standard, samples::CODEC16, &mut room)?;
/// assert_eq!(packet.to_string(), "codec 10, records 2");
/// for record in packet.records() {
///     for value in record.values() {
///         println!("{}: {value}", record.timestamp());
///     }
/// }
/// # Ok::<(), brundilope::Refusal>(())
/// ```
#[derive(Clone, Copy, PartialEq, Eq, Hash)]
pub struct DataPacket<'a>(Table<'a>);

getters! {
    DataPacket, "let it = DataPacket::read(Family::Standard, samples::CODEC16, &mut room)?;":
    /// The codec: 0x08, 0x8E or 0x10.
    codec: u8 = |head| head[0], 0x10;
    /// The number of records, 1 to 255.
    count: u8 = |head| head[0] >> 16, 2;
}

impl<'a> DataPacket<'a> {
    /// Reads a TCP data packet. Refusals 1 to 12.
    ///
    /// ```
    /// use brundilope::{samples, Contents, DataPacket, Family};
    ///
    /// let mut damaged = samples::CODEC8.to_vec();
    /// damaged[20] ^= 1;
    /// let mut room = Contents::new();
    /// let refusal = DataPacket::read(Family::Standard, &damaged, &mut room).unwrap_err();
    /// assert_eq!(refusal.to_string(), "refusal 5 at byte 62: CRC field wrong");
    /// ```
    #[inline]
    pub fn read(family: Family, bytes: &'a [u8], room: &'a mut Contents) -> Result<Self, Refusal> {
        Table::judged(family, bytes, raw::contents_of_packet(family, bytes, &mut room.0)).map(DataPacket)
    }

    /// The acknowledgement: the number of records in four bytes. That of a refused packet is four zeros.
    ///
    /// ```
    /// use brundilope::{samples, Contents, DataPacket, Family};
    ///
    /// let mut room = Contents::new();
    /// let packet = DataPacket::read(Family::Standard, samples::CODEC16, &mut room);
    /// let answer = packet.map_or([0; 4], |packet| packet.ack());
    /// assert_eq!(answer, [0, 0, 0, 2]);
    /// ```
    #[must_use]
    pub fn ack(&self) -> [u8; 4] {
        u32::from(self.count()).to_be_bytes()
    }
}

impl Debug for DataPacket<'_> {
    fn fmt(&self, f: &mut Formatter<'_>) -> Printed {
        f.debug_struct("DataPacket")
            .field("family", &self.family())
            .field("codec", &self.codec())
            .field("records", &self.records())
            .finish()
    }
}

impl Display for DataPacket<'_> {
    fn fmt(&self, f: &mut Formatter<'_>) -> Printed {
        write!(f, "codec {:02X}, records {}", self.codec(), self.count())
    }
}

/// A UDP datagram with its contents, judged once.
///
/// ```
/// use brundilope::{samples, Contents, DataDatagram, Family};
///
/// let mut room = Contents::new();
/// let datagram = DataDatagram::read(Family::Standard, samples::UDP_CODEC8E, &mut room)?;
/// assert_eq!(datagram.to_string(), "IMEI 352093086403655, codec 8E, records 1");
/// for record in datagram.records() {
///     for value in record.values() {
///         println!("{}: {value}", record.timestamp());
///     }
/// }
/// # Ok::<(), brundilope::Refusal>(())
/// ```
#[derive(Clone, Copy, PartialEq, Eq, Hash)]
pub struct DataDatagram<'a>(Table<'a>);

getters! {
    DataDatagram, "let it = DataDatagram::read(Family::Standard, samples::UDP_CODEC8, &mut room)?;":
    /// The codec: 0x08, 0x8E or 0x10.
    codec: u8 = |head| head[0], 0x08;
    /// The number of records, 1 to 255.
    count: u8 = |head| head[0] >> 16, 1;
    /// The unit's IMEI, below 10^15.
    imei: u64 = |head| head[1], 352_093_086_403_655;
    /// The packet ID.
    packet_id: u16 = |head| head[0] >> 32, 0xCAFE;
    /// The unused byte, as received.
    unused: u8 = |head| head[0] >> 48, 1;
    /// The AVL packet ID.
    avl_packet_id: u8 = |head| head[0] >> 56, 5;
}

impl<'a> DataDatagram<'a> {
    /// Reads a UDP datagram. Refusals 1, 3, 4, 15, 6 to 12.
    ///
    /// ```
    /// use brundilope::{samples, Contents, DataDatagram, Family};
    ///
    /// let mut room = Contents::new();
    /// let refusal = DataDatagram::read(Family::Standard, &samples::UDP_CODEC8[1..], &mut room).unwrap_err();
    /// assert_eq!(refusal.number, 4);
    /// ```
    #[inline]
    pub fn read(family: Family, bytes: &'a [u8], room: &'a mut Contents) -> Result<Self, Refusal> {
        Table::judged(family, bytes, raw::contents_of_datagram(family, bytes, &mut room.0)).map(DataDatagram)
    }

    /// The acknowledgement, seven bytes. A refused datagram has none.
    ///
    /// ```
    /// use brundilope::{samples, Contents, DataDatagram, Family};
    ///
    /// let mut room = Contents::new();
    /// let datagram = DataDatagram::read(Family::Standard, samples::UDP_CODEC8, &mut room)?;
    /// assert_eq!(datagram.ack(), [0x00, 0x05, 0xCA, 0xFE, 0x01, 0x05, 0x01]);
    /// # Ok::<(), brundilope::Refusal>(())
    /// ```
    #[must_use]
    pub fn ack(&self) -> [u8; 7] {
        let [high, low] = self.packet_id().to_be_bytes();
        [0, 5, high, low, self.unused(), self.avl_packet_id(), self.count()]
    }
}

impl Debug for DataDatagram<'_> {
    fn fmt(&self, f: &mut Formatter<'_>) -> Printed {
        f.debug_struct("DataDatagram")
            .field("family", &self.family())
            .field("codec", &self.codec())
            .field("imei", &self.imei())
            .field("packet_id", &self.packet_id())
            .field("unused", &self.unused())
            .field("avl_packet_id", &self.avl_packet_id())
            .field("records", &self.records())
            .finish()
    }
}

impl Display for DataDatagram<'_> {
    fn fmt(&self, f: &mut Formatter<'_>) -> Printed {
        write!(f, "IMEI {:015}, codec {:02X}, records {}", self.imei(), self.codec(), self.count())
    }
}
