//! Inputs that tests share.
use brundilope::{Record, Value};

/// Codec 8 Extended, two records; in the second no two fields are alike.
pub const DATA: [u8; 113] = [
    0x8E, 2, // codec, count
    0, 0, 0, 0, 0, 0, 0x03, 0xE8, 0, 0, 0, 0, 0, 0, 0, 0, 0, 0, 0, 0, 0, 0, 0, 0, // record 0
    0, 0, 0, 0, 0, 0, 0, 0, 0, 0, 0, 0, 0, 0, // no elements
    0x01, 0x02, 0x03, 0x04, 0x05, 0x06, 0x07, 0x08, 2, // record 1: timestamp, priority
    0xFF, 0xFF, 0xFF, 0xFF, 0x20, 0x9C, 0xCA, 0x80, 0xFE, 0xD4, // longitude, latitude, altitude
    0x01, 0x67, 7, 0x00, 0x5A, 0x01, 0xFF, 0, 6, // angle, satellites, speed, event ID, total
    0, 1, 0x00, 0x15, 0x03, // a value of one byte
    0, 1, 0x01, 0x02, 0x11, 0x12, // of two
    0, 1, 0x02, 0x03, 0x21, 0x22, 0x23, 0x24, // of four
    0, 1, 0x03, 0x04, 0x31, 0x32, 0x33, 0x34, 0x35, 0x36, 0x37, 0x38, // of eight
    0, 2, 0x04, 0x05, 0, 3, b't', b'a', b'g', 0x05, 0x06, 0, 0, // two of variable length
    2, // count again
];

/// The fields of record 1.
pub const RECORD: Record = Record {
    timestamp: 0x0102_0304_0506_0708,
    priority: 2,
    longitude: -1,
    latitude: 547_146_368,
    altitude: -300,
    angle: 359,
    satellites: 7,
    speed: 90,
    event: 511,
    generation: 0,
    elements: 6,
};

/// The elements of record 1, with offsets in the data field.
pub const VALUES: [Value; 6] = [
    Value { id: 0x0015, kind: 1, offset: 72, bytes: &[0x03], number: Some(3) },
    Value { id: 0x0102, kind: 2, offset: 77, bytes: &[0x11, 0x12], number: Some(0x1112) },
    Value { id: 0x0203, kind: 4, offset: 83, bytes: &[0x21, 0x22, 0x23, 0x24], number: Some(0x2122_2324) },
    Value {
        id: 0x0304,
        kind: 8,
        offset: 91,
        bytes: &[0x31, 0x32, 0x33, 0x34, 0x35, 0x36, 0x37, 0x38],
        number: Some(0x3132_3334_3536_3738),
    },
    Value { id: 0x0405, kind: 9, offset: 105, bytes: b"tag", number: None },
    Value { id: 0x0506, kind: 9, offset: 112, bytes: b"", number: None },
];

/// Counts for `form_of_counts`: no packet has a longer form, or more values. A record of codec 8 has at most 255.
pub const LONGEST: [usize; 3] = [255, 255, 76];

/// The same for family 1, where a record has at most 255 bytes.
pub const LONGEST_640: [usize; 2] = [112, 105];

/// The billing lines of both records.
pub const LINES: &[u8] = b"1000,0.0000000,0.0000000,0\n\
    72623859790382856,-0.0000001,54.7146368,90,\
    21=3,258=4370,515=555885348,772=3544952156018063160,1029=\"tag\",1286=\"\"\n";

fn crc(data: &[u8]) -> u16 {
    data.iter().fold(0, |crc, byte| {
        (0..8).fold(crc ^ u16::from(*byte), |c, _| if c & 1 == 1 { c >> 1 ^ 0xA001 } else { c >> 1 })
    })
}

/// The TCP packet around a data field. Its block has its exact size, so that a tool sees a read past it.
pub fn packet(data: &[u8]) -> Vec<u8> {
    let length = u32::try_from(data.len()).unwrap();
    [&[0; 4], &length.to_be_bytes()[..], data, &[0; 2], &crc(data).to_be_bytes()].concat()
}

/// The datagram around a data field: packet ID 0x1234, unused byte 0x56, AVL packet ID 0x78.
pub fn datagram(data: &[u8]) -> Vec<u8> {
    let length = u16::try_from(data.len() + 21).unwrap();
    [&length.to_be_bytes()[..], b"\x12\x34\x56\x78\x00\x0F001020304050607", data].concat()
}

/// The data field with a byte replaced.
pub fn with(data: &[u8], place: usize, byte: u8) -> Vec<u8> {
    let mut changed = data.to_vec();
    changed[place] = byte;
    changed
}

/// The TLV form of codec 8 whose records have so many values of one byte, and the last one value of two bytes. Such
/// values grow most, and the more so the fewer records they stand in.
pub fn form_of_counts(counts: &[usize]) -> Vec<u8> {
    let mut form = vec![1, 0, 100, 0, 0x08];
    for &count in counts {
        form.extend([27, 0, 101, 0]);
        form.extend([0; 27]);
        form.extend([3, 0, 1, 0, 9, 0, 5].repeat(count));
    }
    form.extend([4, 0, 2, 0, 9, 0, 5, 6]);
    form
}
