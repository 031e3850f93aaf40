//! Whole packets, datagrams, logins and commands.
use std::fmt::{Display, Formatter, Result as Printed};

use crate::family::Family;
use crate::raw;
use crate::refusal::{data_judged, input_judged, Refusal};

/// A TCP data packet.
#[derive(Clone, Copy, Debug, PartialEq, Eq, Hash)]
pub struct Packet {
    /// The codec: 0x08, 0x8E or 0x10.
    pub codec: u8,
    /// The number of records, 1 to 255.
    pub count: u8,
}

/// A UDP datagram.
#[derive(Clone, Copy, Debug, PartialEq, Eq, Hash)]
pub struct Datagram {
    /// The codec: 0x08, 0x8E or 0x10.
    pub codec: u8,
    /// The number of records, 1 to 255.
    pub count: u8,
    /// The unit's IMEI, below 10^15.
    pub imei: u64,
    /// The packet ID.
    pub packet_id: u16,
    /// The unused byte, as received.
    pub unused: u8,
    /// The AVL packet ID.
    pub avl_packet_id: u8,
}

/// A TCP login.
#[derive(Clone, Copy, Debug, PartialEq, Eq, Hash)]
pub struct Login {
    /// The unit's IMEI, below 10^15.
    pub imei: u64,
}

impl Login {
    /// The answer: 01 to a unit that the caller knows, else 00. That to a refused login is 00.
    ///
    /// ```
    /// let login = brundilope::read_login(brundilope::samples::LOGIN)?;
    /// assert_eq!(login.answer(login.imei == 356_307_042_441_013), [1]);
    /// # Ok::<(), brundilope::Refusal>(())
    /// ```
    #[must_use]
    pub fn answer(self, known: bool) -> [u8; 1] {
        [known.into()]
    }
}

/// A command packet.
#[derive(Clone, Copy, Debug, PartialEq, Eq, Hash)]
pub struct Command<'a> {
    /// The codec: 0x0C, 0x0D or 0x0E.
    pub codec: u8,
    /// 0x05 command, 0x06 response, 0x11 IMEI doesn't match (0x0E only).
    pub message_type: u8,
    /// The IMEI, below 10^15, in codec 0x0E; 0 in 0x0C and 0x0D.
    pub imei: u64,
    /// The time of a message of codec 0x0D, as it was sent: seconds or milliseconds is not judged. 0 in 0x0C and 0x0E.
    pub time: u32,
    /// Where the text starts in the input.
    pub offset: usize,
    /// The text: any bytes, or none.
    pub text: &'a [u8],
}

impl Command<'_> {
    /// What stands before the text, as [`write_command`](crate::write_command) takes it.
    ///
    /// ```
    /// use brundilope::{read_command, samples, write_command, Family, LARGEST};
    ///
    /// let command = read_command(Family::Standard, samples::CODEC13_MESSAGE)?;
    /// let mut again = [0; LARGEST];
    /// let size = write_command(Family::Standard, command.heading(), command.message_type, command.text, &mut again)?;
    /// assert_eq!(&again[..size], samples::CODEC13_MESSAGE);
    /// # Ok::<(), brundilope::Refusal>(())
    /// ```
    #[must_use]
    pub fn heading(&self) -> Heading {
        match self.codec {
            0x0D => Heading::Codec13 { time: self.time },
            0x0E => Heading::Codec14 { imei: self.imei },
            _ => Heading::Codec12,
        }
    }
}

/// Codec and type in hexadecimal, the time or IMEI that the codec has, and the text with escapes.
///
/// ```
/// use brundilope::{read_command, samples, Family};
///
/// let message = read_command(Family::Standard, samples::CODEC13_MESSAGE)?;
/// assert_eq!(message.to_string(), r"codec 0D, type 06, time 1692938881: hello lets test\r\n");
/// # Ok::<(), brundilope::Refusal>(())
/// ```
impl Display for Command<'_> {
    fn fmt(&self, f: &mut Formatter<'_>) -> Printed {
        write!(f, "codec {:02X}, type {:02X}", self.codec, self.message_type)?;
        match self.heading() {
            Heading::Codec12 => {}
            Heading::Codec13 { time } => write!(f, ", time {time}")?,
            Heading::Codec14 { imei } => write!(f, ", IMEI {imei:015}")?,
        }
        write!(f, ": {}", self.text.escape_ascii())
    }
}

/// What stands before a command's text, by its codec.
#[derive(Clone, Copy, Debug, PartialEq, Eq, Hash)]
pub enum Heading {
    /// Codec 0x0C: nothing.
    Codec12,
    /// Codec 0x0D, from unit to server only: the message's time. Any number: by one of the maker's pages it counts
    /// seconds, by another milliseconds.
    Codec13 {
        /// The time.
        time: u32,
    },
    /// Codec 0x0E: the IMEI of the unit.
    Codec14 {
        /// The IMEI, below 10^15.
        imei: u64,
    },
}

/// Whether packets of this codec are commands.
#[inline]
pub(crate) fn is_command(codec: u8) -> bool {
    matches!(codec, 0x0C..=0x0E)
}

/// The `size` bytes of an input from `offset` on: the library's views lie within their input.
#[inline]
pub(crate) fn view(input: &[u8], offset: usize, size: usize) -> &[u8] {
    &input[offset..offset + size]
}

/// Reads a TCP data packet. Refusals 1 to 12.
///
/// ```
/// use brundilope::{read_packet, samples, Family, Packet, Refusal};
///
/// assert_eq!(read_packet(Family::Standard, samples::CODEC8), Ok(Packet { codec: 0x08, count: 1 }));
///
/// let mut damaged = samples::CODEC8.to_vec();
/// damaged[20] ^= 1;
/// assert_eq!(read_packet(Family::Standard, &damaged), Err(Refusal { number: 5, record: None, offset: Some(62) }));
/// ```
pub fn read_packet(family: Family, packet: &[u8]) -> Result<Packet, Refusal> {
    let a = raw::read_packet(family, packet);
    data_judged(a.number, a.index, a.place)?;
    Ok(Packet { codec: a.codec, count: a.count })
}

/// Reads a UDP datagram. Refusals 1, 3, 4, 15, 6 to 12.
///
/// ```
/// use brundilope::{read_datagram, samples, Family};
///
/// let datagram = read_datagram(Family::Standard, samples::UDP_CODEC8E)?;
/// assert_eq!((datagram.codec, datagram.count), (0x8E, 1));
/// assert_eq!(datagram.imei, 352093086403655);
/// assert_eq!((datagram.packet_id, datagram.unused, datagram.avl_packet_id), (0xCAFE, 1, 7));
/// # Ok::<(), brundilope::Refusal>(())
/// ```
pub fn read_datagram(family: Family, datagram: &[u8]) -> Result<Datagram, Refusal> {
    let a = raw::read_datagram(family, datagram);
    data_judged(a.number, a.index, a.place)?;
    Ok(Datagram {
        codec: a.codec,
        count: a.count,
        imei: a.imei,
        packet_id: a.packet_id,
        unused: a.unused,
        avl_packet_id: a.avl_packet_id,
    })
}

/// Reads a TCP login. Refusals 1, 4, 15.
///
/// ```
/// let login = brundilope::read_login(b"\x00\x0f356307042441013")?;
/// assert_eq!(login.imei, 356307042441013);
/// # Ok::<(), brundilope::Refusal>(())
/// ```
pub fn read_login(login: &[u8]) -> Result<Login, Refusal> {
    let a = raw::read_login(login);
    input_judged(a.number, a.place)?;
    Ok(Login { imei: a.imei })
}

/// Reads a command packet. Refusals 1 to 8, 13, 14, 15.
///
/// ```
/// use brundilope::{read_command, samples, Family};
///
/// let command = read_command(Family::Standard, samples::CODEC14_COMMAND)?;
/// assert_eq!((command.codec, command.message_type), (0x0E, 0x05));
/// assert_eq!(command.imei, 352093081452251);
/// assert_eq!((command.offset, command.text), (23, &b"getver"[..]));
///
/// let message = read_command(Family::Standard, samples::CODEC13_MESSAGE)?;
/// assert_eq!((message.codec, message.message_type), (0x0D, 0x06));
/// assert_eq!((message.time, message.text), (0x64E8_3281, &b"hello lets test\r\n"[..]));
/// # Ok::<(), brundilope::Refusal>(())
/// ```
pub fn read_command(family: Family, packet: &[u8]) -> Result<Command<'_>, Refusal> {
    let a = raw::read_command(family, packet);
    input_judged(a.number, a.place)?;
    Ok(Command {
        codec: a.codec,
        message_type: a.message_type,
        imei: a.imei,
        time: a.time,
        offset: a.offset,
        text: view(packet, a.offset, a.size),
    })
}
