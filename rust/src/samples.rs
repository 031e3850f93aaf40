//! The maker's examples and two of our own, from the files under samples/, for trying things out.

/// The bytes of a line of hexadecimal text.
const fn hex<const N: usize>(line: &str) -> [u8; N] {
    let text = line.as_bytes();
    assert!(text.len() == 2 * N + 1 && text[2 * N] == b'\n');
    let mut bytes = [0; N];
    let mut i = 0;
    while i < N {
        bytes[i] = digit(text[2 * i]) * 16 + digit(text[2 * i + 1]);
        i += 1;
    }
    bytes
}

const fn digit(c: u8) -> u8 {
    match c {
        b'0'..=b'9' => c - b'0',
        b'A'..=b'F' => c - b'A' + 10,
        _ => panic!("not a hexadecimal digit"),
    }
}

/// TCP login of IMEI 356307042441013.
pub const LOGIN: &[u8] = &hex::<17>(include_str!("../../samples/login.hex"));
/// TCP packet, codec 8, one record with values of 1, 2, 4 and 8 bytes.
pub const CODEC8: &[u8] = &hex::<66>(include_str!("../../samples/codec8.hex"));
/// TCP packet, codec 8 Extended, one record.
pub const CODEC8E: &[u8] = &hex::<86>(include_str!("../../samples/codec8e.hex"));
/// Made, not published: TCP packet, codec 8 Extended, two records with variable values: a driver's name and an empty
/// value, then two names of the same ID.
pub const DRIVER_TAGS: &[u8] = &hex::<143>(include_str!("../../samples/driver-tags.hex"));
/// Made, not published: TCP packet, codec 8 Extended, one record with eleven drivers' names, over the record limit of
/// [`Family::Fmx640`](crate::Family::Fmx640).
pub const LONG_TAGS: &[u8] = &hex::<272>(include_str!("../../samples/long-tags.hex"));
/// TCP packet, codec 16, two records.
pub const CODEC16: &[u8] = &hex::<107>(include_str!("../../samples/codec16.hex"));
/// Command `getio`, codec 12.
pub const CODEC12_COMMAND: &[u8] = &hex::<25>(include_str!("../../samples/codec12-command.hex"));
/// The unit's response to `getio`.
pub const CODEC12_RESPONSE: &[u8] = &hex::<67>(include_str!("../../samples/codec12-response.hex"));
/// Message `hello lets test` with its time, codec 13.
pub const CODEC13_MESSAGE: &[u8] = &hex::<41>(include_str!("../../samples/codec13-message.hex"));
/// Command `getver` to IMEI 352093081452251, codec 14.
pub const CODEC14_COMMAND: &[u8] = &hex::<34>(include_str!("../../samples/codec14-command.hex"));
/// The unit's response to `getver`.
pub const CODEC14_RESPONSE: &[u8] = &hex::<183>(include_str!("../../samples/codec14-response.hex"));
/// Datagram, codec 8, one record.
pub const UDP_CODEC8: &[u8] = &hex::<63>(include_str!("../../samples/udp-codec8.hex"));
/// Datagram, codec 8 Extended, one record.
pub const UDP_CODEC8E: &[u8] = &hex::<97>(include_str!("../../samples/udp-codec8e.hex"));
