//! Packets of Teltonika AVL trackers, read and written: codecs 8, 8 Extended and 16 over TCP and UDP, command codecs
//! 12, 13 and 14.
//!
//! The work is done by a library in Rattle, whose every call is proved against definitions of the protocol. This crate
//! is a safe face of it: functions take slices and give structs, or a [`Refusal`] with its number, meaning, record and
//! byte. Every input gets an answer, and nothing is allocated unless an owned copy is asked for.
//!
//! What judges or builds a packet or datagram names the [`Family`] of the unit, whose limits hold. A [`DataPacket`] or
//! [`DataDatagram`] is judged once and then has all its records and values at hand:
//!
//! ```
//! use brundilope::{samples, Contents, DataPacket, Family};
//!
//! let mut room = Contents::new();
//! let packet = DataPacket::read(Family::Standard, samples::CODEC16, &mut room)?;
//! for record in packet.records() {
//!     println!("{} {} {}", record.timestamp(), record.longitude(), record.latitude());
//!     for value in record.values() {
//!         println!("  ID {}: {:02X?}", value.id, value.bytes);
//!     }
//! }
//! assert_eq!(packet.ack(), [0, 0, 0, 2]);
//! # Ok::<(), brundilope::Refusal>(())
//! ```
//!
//! A [`Connection`] takes what comes from a unit's socket, cut anyhow, and gives out each login, data packet and command
//! as soon as it is whole; `examples/gateway.rs` is a gateway around it:
//!
//! ```
//! use brundilope::{samples, Connection, Family, Item};
//!
//! let mut connection = Connection::new(Family::Standard);
//! let received = [samples::LOGIN, samples::CODEC8].concat();
//! for item in connection.items(&received) {
//!     match item {
//!         Item::Login(login) => assert_eq!(login.answer(true), [1]),
//!         Item::Data(data) => assert_eq!(data.ack(), [0, 0, 0, 1]),
//!         other => println!("{other:?}"),
//!     }
//! }
//! ```
//!
//! A record becomes a line of text for the billing desk, and a [`Line`] is read back:
//!
//! ```
//! use brundilope::{samples, Contents, DataPacket, Family, Line, LARGEST_LINES};
//!
//! let (mut room, mut text) = (Contents::new(), [0; LARGEST_LINES]);
//! let packet = DataPacket::read(Family::Standard, samples::DRIVER_TAGS, &mut room)?;
//! for line in packet.lines(&mut text) {
//!     print!("{line}");
//!     let line = Line::read(line.as_bytes())?;
//!     assert_eq!(line.elements().next().map(|element| element.id), Some(21));
//! }
//! # Ok::<(), brundilope::Refusal>(())
//! ```
//!
//! The functions are for one thing at a time, such as a value by its ID ([`id_in_packet`]): each call judges its whole
//! input anew.
//!
//! # Buffers
//!
//! A function that writes puts its result at the start of the lent buffer, gives the number of bytes written and
//! changes nothing behind them. A refusal changes no byte. [`LARGEST`] bytes are enough for every packet,
//! [`LARGEST_FORM`] for every TLV form (of a family [`Family::largest_form`], of a packet [`form_room`]) and
//! [`LARGEST_LINES`] for all lines of a packet.
//!
//! # Building
//!
//! The build runs `rt lib` of the Rattle toolchain in `crates/capi` of the repository that this crate lies in. Where the
//! environment variable `BRUNDILOPE_ARCHIVE` names a folder that holds `libcapi.a`, it links that and runs nothing.

#![deny(missing_docs, unsafe_code)]
#![warn(clippy::all, clippy::undocumented_unsafe_blocks)]

/// The most bytes of a packet or a datagram of any family.
pub const LARGEST: usize = 1280;

/// How many bytes are always enough for a TLV form: it has at most four times as many as its packet. See
/// [`form_room`] for the packet that is at hand, and [`Family::largest_form`] for the packets of a family.
pub const LARGEST_FORM: usize = 4 * LARGEST;

/// How many bytes are always enough for the TLV form of this packet or datagram: four times as many as it has.
///
/// Three times is not enough: the packet of 1,095 bytes with 255 values of one byte in each of two records, codec 8, has
/// a form of 3,637.
///
/// ```
/// use brundilope::{form_of_packet, form_room, samples, Family};
///
/// let mut form = vec![0; form_room(samples::CODEC8)];
/// let size = form_of_packet(Family::Standard, samples::CODEC8, &mut form)?;
/// form.truncate(size);
/// # Ok::<(), brundilope::Refusal>(())
/// ```
pub const fn form_room(packet: &[u8]) -> usize {
    4 * packet.len()
}

/// The most bytes of all billing lines of a packet or a datagram together, and so of any one line: they have at most
/// four times as many as their packet.
pub const LARGEST_LINES: usize = 4 * LARGEST;

/// The most words of a table of contents: it has at most one for every two bytes of its packet or datagram.
pub const LARGEST_CONTENTS: usize = LARGEST / 2;

mod connection;
mod contents;
mod family;
#[cfg(test)]
mod layouts;
mod lines;
mod lookup;
#[allow(unsafe_code)]
mod raw;
mod reading;
mod records;
mod refusal;
pub mod samples;
mod writing;

pub use connection::{Connection, Fed, Item, Items, Phase, ReceivedCommand, ReceivedData};
pub use contents::{Contents, DataDatagram, DataPacket, OwnedDatagram, OwnedPacket};
pub use family::Family;
pub use lines::{element_in_line, wrong_byte, Line, LineElement, LineElements, LineValue, Lines, RecordLine, Tag};
pub use lookup::{
    id_in_datagram, id_in_packet, last_known, record_in_datagram, record_in_packet, value_in_datagram, value_in_packet,
    Found, LastKnown, NotFound, Record, Source, Value,
};
pub use reading::{read_command, read_datagram, read_login, read_packet, Command, Datagram, Heading, Login, Packet};
pub use records::{DataRecord, Records, Values};
pub use refusal::Refusal;
pub use writing::{
    acknowledge_datagram, acknowledge_packet, answer_login, form_of_datagram, form_of_packet, line_of_datagram,
    line_of_packet, lines_of_datagram, lines_of_packet, packet_of_form, write_command,
};
