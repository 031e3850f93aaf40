//! Where it broke: the byte and the record of each refusal, read off the layouts, and none where there is none.
use brundilope::*;
use inputs::{datagram, packet, with, DATA};

#[allow(dead_code)] // the rest is for other tests
mod inputs;

const FAMILY: Family = Family::Fmx640;

fn refusal(number: usize, offset: Option<usize>) -> Refusal {
    Refusal { number, record: None, offset }
}

/// A packet is refused so when it comes in pieces, behind a login and another packet.
fn refused_in_pieces(packet: &[u8], refusal: Refusal) {
    let sent = [samples::LOGIN, samples::CODEC8, packet].concat();
    for size in [7, sent.len()] {
        let mut connection = Connection::new(FAMILY);
        let mut items = sent.chunks(size).flat_map(|piece| connection.items(piece).collect::<Vec<_>>());
        assert_eq!(items.nth(2), Some(Item::Refused(refusal)));
    }
}

/// A data field is refused at a byte of its own, in a packet and in a datagram.
fn refused(data: &[u8], number: usize, record: Option<usize>, offset: usize) {
    let [of_packet, of_datagram] = [8, 23].map(|start| Refusal { number, record, offset: Some(start + offset) });
    assert_eq!(read_packet(FAMILY, &packet(data)), Err(of_packet));
    refused_in_pieces(&packet(data), of_packet);
    assert_eq!(read_datagram(FAMILY, &datagram(data)), Err(of_datagram));
}

#[test]
fn data_fields_are_refused_at_their_byte() {
    let codec16 = &samples::CODEC16[8..103];
    let counts = |first, second| with(&with(&DATA, 1, first), 112, second);
    let over_255_bytes = [&DATA[..103], &[0, 203], &[0; 203], &DATA[108..]].concat();
    let rows = [
        (6, None, 0, with(&DATA, 0, 0x0F)),
        (7, None, 1, counts(0, 2)),
        (7, None, 1, counts(0, 0)),
        (7, None, 112, counts(2, 0)),
        (7, None, 112, counts(1, 2)),
        (8, Some(1), 40, counts(1, 1)),                      // a record is left over,
        (8, Some(2), 112, [&DATA[..112], &[0, 2]].concat()), // a byte,
        (8, Some(2), 112, [&DATA[..112], &[0; 9], &[2]].concat()), // or several
        (8, Some(2), 112, counts(3, 3)),                     // a record is missing,
        (8, Some(1), 112, with(&DATA, 100, 3)),              // a tag,
        (8, Some(1), 105, with(&DATA, 104, 8)),              // or a byte of one
        (9, Some(0), 2, with(&DATA, 29, 1)),
        (9, Some(1), 40, with(&DATA, 67, 4)), // without the tags
        (10, Some(0), 10, with(&DATA, 10, 3)),
        (10, Some(1), 48, with(&DATA, 48, 3)),
        (11, Some(0), 28, with(codec16, 28, 8)),
        (11, Some(1), 74, with(codec16, 74, 8)),
        (12, Some(0), 2, samples::LONG_TAGS[8..268].to_vec()),
        (12, Some(1), 40, over_255_bytes),
    ];
    for (number, record, offset, data) in rows {
        refused(&data, number, record, offset);
    }
}

/// Where the fields of both records start in `DATA`, each ID, length and value by itself.
const FIELDS: [usize; 43] = [
    2, 10, 11, 15, 19, 21, 23, 24, 26, 28, 30, 32, 34, 36, 38, // record 0
    40, 48, 49, 53, 57, 59, 61, 62, 64, 66, // record 1
    68, 70, 72, 73, 75, 77, 79, 81, 83, 87, 89, 91, 99, 101, 103, 105, 108, 110,
];

#[test]
fn a_field_that_is_cut_is_named() {
    for end in FIELDS[0]..112 {
        let cut = FIELDS.into_iter().rfind(|start| *start <= end).unwrap();
        refused(&[&DATA[..end], &[2]].concat(), 8, Some(usize::from(end >= 40)), cut);
    }
}

#[test]
fn tcp_heads_are_refused_at_their_field() {
    let p = packet(&DATA);
    let rows = [
        (1, None, p[..7].to_vec()),
        (2, Some(0), with(&p, 3, 1)),
        (3, Some(4), with(&p, 6, 2)),
        (4, None, p[..124].to_vec()),
        (5, Some(121), with(&p, 121, 1)),
        (5, Some(121), with(&p, 124, !p[124])),
    ];
    for (number, offset, p) in rows {
        assert_eq!(read_packet(FAMILY, &p), Err(refusal(number, offset)));
        assert_eq!(read_command(FAMILY, &p), Err(refusal(number, offset)));
        if offset.is_some() {
            refused_in_pieces(&p, refusal(number, offset));
        }
    }
}

#[test]
fn datagram_heads_are_refused_at_their_field() {
    let d = datagram(&DATA);
    let rows = [
        (1, None, d[..25].to_vec()),
        (3, None, [&d[..], &[0; 512]].concat()),
        (4, None, d[..135].to_vec()),
        (15, Some(6), with(&d, 6, 1)),
        (15, Some(6), with(&with(&d, 7, 14), 8, b':')),
        (15, Some(8), with(&with(&d, 22, b':'), 8, b'/')),
        (15, Some(22), with(&d, 22, b':')),
    ];
    for (number, offset, d) in rows {
        assert_eq!(read_datagram(FAMILY, &d), Err(refusal(number, offset)));
    }
}

#[test]
fn logins_are_refused_at_their_field() {
    let login = samples::LOGIN;
    assert_eq!(read_login(&login[1..]), Err(refusal(1, None)));
    assert_eq!(read_login(&[login, b"0"].concat()), Err(refusal(4, None)));
    let rows = [
        (0, with(login, 0, 1)),
        (0, with(&with(login, 1, 14), 2, b':')),
        (2, with(&with(login, 16, b':'), 2, b'/')),
        (16, with(login, 16, b':')),
    ];
    for (offset, login) in rows {
        assert_eq!(read_login(&login), Err(refusal(15, Some(offset))));
        let mut connection = Connection::new(FAMILY);
        let items: Vec<Item> = login.chunks(7).flat_map(|piece| connection.items(piece).collect::<Vec<_>>()).collect();
        assert_eq!(items, [Item::Refused(refusal(15, Some(offset)))]);
    }
}

#[test]
fn commands_are_refused_at_their_field() {
    let codec14 = |message_type, imei: &[u8], text: &[u8]| {
        let size = u8::try_from(imei.len() + text.len()).unwrap();
        [&[0x0E, 1, message_type, 0, 0, 0, size], imei, text, &[1]].concat()
    };
    assert_eq!(read_command(FAMILY, samples::CODEC8), Err(refusal(6, Some(8))));
    let rows = [
        (7, 9, vec![0x0C, 2, 5, 0, 0, 0, 0, 1]),
        (7, 9, vec![0x0C, 0, 5, 0, 0, 0, 0, 2]),
        (7, 15, vec![0x0C, 1, 5, 0, 0, 0, 0, 2]),
        (8, 10, vec![0x0C, 1, 1]),
        (8, 11, vec![0x0C, 1, 5, 1]),
        (8, 11, vec![0x0E, 1, 5, 0, 0, 0, 1]),
        (13, 10, vec![0x0C, 1, 0x11, 0, 0, 0, 0, 1]),
        (14, 11, vec![0x0C, 1, 5, 0, 0, 0, 1, 1]),
        (13, 10, vec![0x0D, 1, 0x11, 0, 0, 0, 4, 0, 0, 0, 0, 1]),
        (14, 11, vec![0x0D, 1, 6, 0, 0, 0, 0, 1]),
        (14, 11, vec![0x0D, 1, 6, 0, 0, 0, 3, 0, 0, 0, 1]),
        (14, 11, vec![0x0D, 1, 6, 0, 0, 0, 1, 0, 0, 0, 0, b'x', 1]),
        (14, 11, codec14(5, &[0; 7], b"")),
        (14, 23, codec14(0x11, &[0; 8], b"x")),
        (15, 15, codec14(5, &[0x10, 0, 0, 0, 0, 0, 0, 0], b"x")),
        (15, 17, codec14(5, &[0, 0, 0x0A, 0, 0, 0xA0, 0, 0], b"x")),
        (15, 22, codec14(0x11, &[0, 0, 0, 0, 0, 0, 0, 0xFF], b"x")),
    ];
    for (number, offset, data) in rows {
        let refusal = refusal(number, Some(offset));
        assert_eq!(read_command(FAMILY, &packet(&data)), Err(refusal));
        refused_in_pieces(&packet(&data), refusal);
    }
}

#[test]
fn a_writer_refuses_its_arguments_at_no_byte() {
    let written = |heading, message_type, text| write_command(FAMILY, heading, message_type, text, &mut [0; LARGEST]);
    let (imei, time) = (352_093_081_452_251, 0x64E8_3281);
    assert_eq!(written(Heading::Codec12, 0x11, b""), Err(refusal(13, None)));
    assert_eq!(written(Heading::Codec13 { time }, 0x11, b""), Err(refusal(13, None)));
    assert_eq!(written(Heading::Codec14 { imei }, 0x11, b"x"), Err(refusal(14, None)));
    assert_eq!(written(Heading::Codec13 { time }, 6, &[0; LARGEST - 23]), Err(refusal(14, None)));
    assert_eq!(written(Heading::Codec14 { imei: 10_u64.pow(15) }, 5, b""), Err(refusal(15, None)));
    assert_eq!(written(Heading::Codec14 { imei: u64::MAX }, 5, b""), Err(refusal(15, None)));
}

#[test]
fn last_known_names_the_byte_of_the_packet_that_was_refused() {
    let (whole, newer) = (packet(&DATA), packet(&with(&DATA, 48, 3)));
    let older = packet(&with(&samples::CODEC16[8..103], 28, 8));
    let of = |newer, older| last_known(FAMILY, newer, older, 67).unwrap_err().refusal;
    assert_eq!(of(&newer, &older), Refusal { record: Some(1), ..refusal(10, Some(56)) });
    assert_eq!(of(&whole, &older), Refusal { record: Some(0), ..refusal(11, Some(36)) });
    assert_eq!(of(&whole, &whole), refusal(16, None));
}
