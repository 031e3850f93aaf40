//! Answers to units, commands, TLV forms and billing lines, written into a lent buffer.
use crate::family::Family;
use crate::raw;
use crate::reading::Heading;
use crate::refusal::{data_judged, judged, Refusal};

fn written(a: raw::Written) -> Result<usize, Refusal> {
    judged(a.number)?;
    Ok(a.written)
}

/// What a writer gives whose input is a data packet or datagram.
fn data_written(a: raw::Written) -> Result<usize, Refusal> {
    data_judged(a.number, a.index, a.place)?;
    Ok(a.written)
}

/// Writes the answer to a login, one byte: 01 if the login is well formed and `known` says that the caller knows the
/// unit, else 00. Refusal 18 only.
///
/// ```
/// let mut answer = [0xEE];
/// brundilope::answer_login(brundilope::samples::LOGIN, true, &mut answer)?;
/// assert_eq!(answer, [1]);
/// brundilope::answer_login(b"no login", true, &mut answer)?;
/// assert_eq!(answer, [0]);
/// # Ok::<(), brundilope::Refusal>(())
/// ```
pub fn answer_login(login: &[u8], known: bool, out: &mut [u8]) -> Result<usize, Refusal> {
    written(raw::answer_login(login, known, out))
}

/// Writes the acknowledgement of a TCP data packet, four bytes: the number of records, or zeros for a refused packet.
/// Refusal 18 only.
///
/// ```
/// use brundilope::{acknowledge_packet, samples, Family};
///
/// let mut answer = [0xEE; 4];
/// acknowledge_packet(Family::Standard, samples::CODEC16, &mut answer)?;
/// assert_eq!(answer, [0, 0, 0, 2]);
/// acknowledge_packet(Family::Standard, b"no packet", &mut answer)?;
/// assert_eq!(answer, [0, 0, 0, 0]);
/// # Ok::<(), brundilope::Refusal>(())
/// ```
pub fn acknowledge_packet(family: Family, packet: &[u8], out: &mut [u8]) -> Result<usize, Refusal> {
    written(raw::acknowledge_packet(family, packet, out))
}

/// Writes the acknowledgement of a datagram, seven bytes. Refusals 1, 3, 4, 15, 6 to 12, then 18: a refused datagram
/// gets no acknowledgement.
///
/// ```
/// use brundilope::{acknowledge_datagram, samples, Family};
///
/// let mut answer = [0xEE; 7];
/// acknowledge_datagram(Family::Standard, samples::UDP_CODEC8, &mut answer)?;
/// assert_eq!(answer, [0x00, 0x05, 0xCA, 0xFE, 0x01, 0x05, 0x01]);
/// # Ok::<(), brundilope::Refusal>(())
/// ```
pub fn acknowledge_datagram(family: Family, datagram: &[u8], out: &mut [u8]) -> Result<usize, Refusal> {
    data_written(raw::acknowledge_datagram(family, datagram, out))
}

/// Writes a command packet.
///
/// `heading` says the codec, and the time or IMEI that it has; `text` is any bytes, none with type 0x11. Refusals, in
/// this order: 13, 15 (an IMEI of 10^15 or more), 14 (also if the packet would be over the family's limit), 18.
///
/// ```
/// use brundilope::{samples, write_command, Family, Heading};
///
/// let mut out = [0; brundilope::LARGEST];
/// let size = write_command(Family::Standard, Heading::Codec12, 0x05, b"getio", &mut out)?;
/// assert_eq!(&out[..size], samples::CODEC12_COMMAND);
///
/// let heading = Heading::Codec14 { imei: 352093081452251 };
/// let size = write_command(Family::Standard, heading, 0x05, b"getver", &mut out)?;
/// assert_eq!(&out[..size], samples::CODEC14_COMMAND);
///
/// let heading = Heading::Codec13 { time: 0x64E8_3281 };
/// let size = write_command(Family::Standard, heading, 0x06, b"hello lets test\r\n", &mut out)?;
/// assert_eq!(&out[..size], samples::CODEC13_MESSAGE);
/// # Ok::<(), brundilope::Refusal>(())
/// ```
pub fn write_command(
    family: Family,
    heading: Heading,
    message_type: u8,
    text: &[u8],
    out: &mut [u8],
) -> Result<usize, Refusal> {
    let mut room = [0; 20];
    let (codec, imei, time) = match heading {
        Heading::Codec12 => (0x0C, &[][..], 0),
        Heading::Codec13 { time } => (0x0D, &[][..], time),
        Heading::Codec14 { imei } => (0x0E, digits(imei, &mut room), 0),
    };
    written(raw::write_command(family, codec, message_type, imei, time, text, out))
}

/// An IMEI as the library takes it: 15 ASCII digits, or more of a number that is too large, which it refuses.
fn digits(imei: u64, room: &mut [u8; 20]) -> &[u8] {
    let (mut start, mut rest) = (room.len(), imei);
    while rest > 0 || start > room.len() - 15 {
        start -= 1;
        room[start] = b'0' + (rest % 10) as u8;
        rest /= 10;
    }
    &room[start..]
}

/// Writes the TLV form of a TCP data packet. Refusals 1 to 12, then 18.
///
/// ```
/// use brundilope::{form_of_packet, samples, Family, LARGEST_FORM};
///
/// let mut form = [0; LARGEST_FORM];
/// let size = form_of_packet(Family::Standard, samples::CODEC8, &mut form)?;
/// assert_eq!(size, 82);
/// assert_eq!(form[..9], [1, 0, 100, 0, 0x08, 27, 0, 101, 0]);
/// # Ok::<(), brundilope::Refusal>(())
/// ```
pub fn form_of_packet(family: Family, packet: &[u8], out: &mut [u8]) -> Result<usize, Refusal> {
    data_written(raw::form_of_packet(family, packet, out))
}

/// Writes the TLV form of a datagram. Refusals 1, 3, 4, 15, 6 to 12, then 18.
///
/// ```
/// use brundilope::{form_of_datagram, samples, Family, LARGEST_FORM};
///
/// let mut form = [0; LARGEST_FORM];
/// let size = form_of_datagram(Family::Standard, samples::UDP_CODEC8, &mut form)?;
/// assert_eq!(size, 58);
/// assert_eq!(form[size - 8..size], [4, 0, 2, 0, 66, 0, 0x5D, 0xBC]);
/// # Ok::<(), brundilope::Refusal>(())
/// ```
pub fn form_of_datagram(family: Family, datagram: &[u8], out: &mut [u8]) -> Result<usize, Refusal> {
    data_written(raw::form_of_datagram(family, datagram, out))
}

/// Writes the TCP data packet of a TLV form. Refusals 17 (no acceptable packet of this family has this form), 18.
///
/// ```
/// use brundilope::{form_of_packet, packet_of_form, samples, Family};
///
/// let mut form = [0; brundilope::LARGEST_FORM];
/// let size = form_of_packet(Family::Standard, samples::CODEC8E, &mut form)?;
/// let mut packet = [0; brundilope::LARGEST];
/// let again = packet_of_form(Family::Standard, &form[..size], &mut packet)?;
/// assert_eq!(&packet[..again], samples::CODEC8E);
/// # Ok::<(), brundilope::Refusal>(())
/// ```
pub fn packet_of_form(family: Family, form: &[u8], out: &mut [u8]) -> Result<usize, Refusal> {
    written(raw::packet_of_form(family, form, out))
}

/// Writes the billing line of a record of a TCP data packet, by its number, from 0. Refusals 1 to 12, then 16, then 18.
///
/// ```
/// use brundilope::{line_of_packet, samples, Family, LARGEST_LINES};
///
/// let mut line = [0; LARGEST_LINES];
/// let size = line_of_packet(Family::Standard, samples::DRIVER_TAGS, 1, &mut line)?;
/// assert_eq!(&line[..size], b"1562760415000,25.2795940,54.6871320,46,21=3,403=\"Ona\",403=\"Jonas\"\n");
/// # Ok::<(), brundilope::Refusal>(())
/// ```
pub fn line_of_packet(family: Family, packet: &[u8], record: usize, out: &mut [u8]) -> Result<usize, Refusal> {
    data_written(raw::line_of_packet(family, packet, record, out))
}

/// Writes the billing line of a record of a datagram, by its number, from 0. Refusals 1, 3, 4, 15, 6 to 12, then 16,
/// then 18.
///
/// ```
/// use brundilope::{line_of_datagram, samples, Family, LARGEST_LINES};
///
/// let mut line = [0; LARGEST_LINES];
/// let size = line_of_datagram(Family::Standard, samples::UDP_CODEC8, 0, &mut line)?;
/// assert_eq!(&line[..size], b"1560407006000,0.0000000,0.0000000,0,21=3,1=1,66=23996\n");
/// # Ok::<(), brundilope::Refusal>(())
/// ```
pub fn line_of_datagram(family: Family, datagram: &[u8], record: usize, out: &mut [u8]) -> Result<usize, Refusal> {
    data_written(raw::line_of_datagram(family, datagram, record, out))
}

/// Writes the billing lines of all records of a TCP data packet, which is judged once. Refusals 1 to 12, then 18.
///
/// ```
/// use brundilope::{lines_of_packet, samples, Family, LARGEST_LINES};
///
/// let mut lines = [0; LARGEST_LINES];
/// let size = lines_of_packet(Family::Standard, samples::CODEC16, &mut lines)?;
/// let text = "1562760414000,0.0000000,0.0000000,0,1=0,3=0,11=39,66=22074\n\
///             1562760415000,0.0000000,0.0000000,0,1=0,3=0,11=38,66=22074\n";
/// assert_eq!(&lines[..size], text.as_bytes());
/// # Ok::<(), brundilope::Refusal>(())
/// ```
pub fn lines_of_packet(family: Family, packet: &[u8], out: &mut [u8]) -> Result<usize, Refusal> {
    data_written(raw::lines_of_packet(family, packet, out))
}

/// Writes the billing lines of all records of a datagram, which is judged once. Refusals 1, 3, 4, 15, 6 to 12, then 18.
///
/// ```
/// use brundilope::{lines_of_datagram, samples, Family, LARGEST_LINES};
///
/// let mut lines = [0; LARGEST_LINES];
/// let size = lines_of_datagram(Family::Standard, samples::UDP_CODEC8, &mut lines)?;
/// assert_eq!(&lines[..size], b"1560407006000,0.0000000,0.0000000,0,21=3,1=1,66=23996\n");
/// # Ok::<(), brundilope::Refusal>(())
/// ```
pub fn lines_of_datagram(family: Family, datagram: &[u8], out: &mut [u8]) -> Result<usize, Refusal> {
    data_written(raw::lines_of_datagram(family, datagram, out))
}
