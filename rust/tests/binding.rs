//! What a wrong binding would get wrong: fields in another's place, views, refusals' records and bytes, lent buffers.
use brundilope::*;
use inputs::{datagram, form_of_counts, packet, with, DATA, LINES, LONGEST, LONGEST_640, RECORD, VALUES};

mod inputs;

const PRIORITY: usize = 48;

#[test]
fn fields_stand_in_their_places() {
    assert_eq!(read_packet(Family::Standard, &packet(&DATA)), Ok(Packet { codec: 0x8E, count: 2 }));
    let read = Datagram {
        codec: 0x8E,
        count: 2,
        imei: 1_020_304_050_607,
        packet_id: 0x1234,
        unused: 0x56,
        avl_packet_id: 0x78,
    };
    assert_eq!(read_datagram(Family::Standard, &datagram(&DATA)), Ok(read));
    assert_eq!(record_in_packet(Family::Standard, &packet(&DATA), 1), Ok(RECORD));
    assert_eq!(record_in_datagram(Family::Standard, &datagram(&DATA), 1), Ok(RECORD));
    assert_eq!(record_in_packet(Family::Standard, samples::CODEC16, 0).map(|r| (r.event, r.generation)), Ok((11, 5)));
}

#[test]
fn values_are_views_of_the_input() {
    let (packet, datagram) = (packet(&DATA), datagram(&DATA));
    let moved = |by| VALUES.map(|v| Value { offset: v.offset + by, ..v });
    for (n, value) in moved(8).into_iter().enumerate() {
        assert_eq!(packet[value.offset..][..value.bytes.len()], *value.bytes);
        assert_eq!(value_in_packet(Family::Standard, &packet, 1, n), Ok(value));
        assert_eq!(id_in_packet(Family::Standard, &packet, 1, value.id), Ok(Found { value, passed: n + 1 }));
    }
    for (n, value) in moved(23).into_iter().enumerate() {
        assert_eq!(value_in_datagram(Family::Standard, &datagram, 1, n), Ok(value));
        assert_eq!(id_in_datagram(Family::Standard, &datagram, 1, value.id), Ok(Found { value, passed: n + 1 }));
    }
}

#[test]
fn the_last_known_value_says_its_packet() {
    let newer = packet(&DATA);
    let found = |id| last_known(Family::Standard, &newer, samples::CODEC8, id);
    let tag = Value { offset: 113, ..VALUES[4] };
    assert_eq!(found(0x0405), Ok(LastKnown { source: Source::Newer, value: tag, passed: 5 }));
    let voltage = Value { id: 66, kind: 2, offset: 43, bytes: &[0x5E, 0x0F], number: Some(24_079) };
    assert_eq!(found(66), Ok(LastKnown { source: Source::Older, value: voltage, passed: 6 + 3 }));
    let refusal = Refusal { number: 16, record: None, offset: None };
    assert_eq!(found(67), Err(NotFound { refusal, passed: 6 + 5 }));
}

#[test]
fn a_look_up_by_id_counts_what_it_passed() {
    let (packet, datagram) = (packet(&DATA), datagram(&DATA));
    let broken = &packet[..packet.len() - 1];
    let passed = |number, result: Result<Found, NotFound>| {
        let missing = result.unwrap_err();
        assert_eq!(missing.refusal.number, number);
        missing.passed
    };
    assert_eq!(passed(16, id_in_packet(Family::Standard, &packet, 1, 0xFFFF)), 6);
    assert_eq!(passed(16, id_in_packet(Family::Standard, &packet, 0, VALUES[0].id)), 0); // a record without elements
    assert_eq!(passed(16, id_in_packet(Family::Standard, &packet, 2, VALUES[0].id)), 0);
    assert_eq!(passed(4, id_in_packet(Family::Standard, broken, 1, VALUES[0].id)), 0);
    assert_eq!(passed(16, id_in_datagram(Family::Standard, &datagram, 1, 0xFFFF)), 6);
    assert_eq!(passed(16, id_in_datagram(Family::Standard, &datagram, 2, VALUES[0].id)), 0);
    assert_eq!(passed(4, id_in_datagram(Family::Standard, &datagram[1..], 1, VALUES[0].id)), 0);
    let known = |newer, older, id| match last_known(Family::Standard, newer, older, id) {
        Ok(known) => (0, known.passed),
        Err(missing) => (missing.refusal.number, missing.passed),
    };
    assert_eq!(known(&packet, broken, VALUES[2].id), (0, 3)); // the older is not judged
    assert_eq!(known(&packet, broken, 0xFFFF), (4, 6)); // and where it is refused, the newer's stay
    assert_eq!(known(broken, &packet, VALUES[2].id), (4, 0));
    assert_eq!(known(&packet, &packet, 0xFFFF), (16, 12));
    assert_eq!(known(samples::CODEC16, &packet, VALUES[2].id), (0, 4 + 3));
}

#[test]
fn a_refusal_says_its_record_and_byte() {
    let priority = with(&DATA, PRIORITY, 3);
    let (p, d) = (&packet(&priority)[..], &datagram(&priority)[..]);
    let [of_p, of_d] = [8, 23].map(|start| Refusal { number: 10, record: Some(1), offset: Some(start + PRIORITY) });
    let out = &mut [0; 512][..];
    assert_eq!(read_packet(Family::Standard, p).err(), Some(of_p));
    assert_eq!(read_datagram(Family::Standard, d).err(), Some(of_d));
    assert_eq!(record_in_packet(Family::Standard, p, 0).err(), Some(of_p));
    assert_eq!(record_in_datagram(Family::Standard, d, 0).err(), Some(of_d));
    assert_eq!(value_in_packet(Family::Standard, p, 1, 0).err(), Some(of_p));
    assert_eq!(value_in_datagram(Family::Standard, d, 1, 0).err(), Some(of_d));
    assert_eq!(id_in_packet(Family::Standard, p, 1, 21).err(), Some(NotFound { refusal: of_p, passed: 0 }));
    assert_eq!(id_in_datagram(Family::Standard, d, 1, 21).err(), Some(NotFound { refusal: of_d, passed: 0 }));
    assert_eq!(DataPacket::read(Family::Standard, p, &mut Contents::new()).err(), Some(of_p));
    assert_eq!(DataDatagram::read(Family::Standard, d, &mut Contents::new()).err(), Some(of_d));
    let known = |newer, older, id| last_known(Family::Standard, newer, older, id).err();
    assert_eq!(known(p, samples::CODEC8, 21), Some(NotFound { refusal: of_p, passed: 0 }));
    assert_eq!(known(samples::CODEC8, p, 67), Some(NotFound { refusal: of_p, passed: 5 }));
    assert_eq!(form_of_packet(Family::Standard, p, out), Err(of_p));
    assert_eq!(form_of_datagram(Family::Standard, d, out), Err(of_d));
    assert_eq!(line_of_packet(Family::Standard, p, 9, out), Err(of_p));
    assert_eq!(line_of_datagram(Family::Standard, d, 9, out), Err(of_d));
    assert_eq!(lines_of_packet(Family::Standard, p, out), Err(of_p));
    assert_eq!(lines_of_datagram(Family::Standard, d, out), Err(of_d));
    assert_eq!(acknowledge_datagram(Family::Standard, d, out), Err(of_d));
    assert_eq!(out, [0; 512]);
}

#[test]
fn the_total_counts_driver_tags() {
    let tag = |record, n| value_in_packet(Family::Standard, samples::DRIVER_TAGS, record, n).map(|v| (v.id, v.bytes));
    assert_eq!(tag(0, 3), Ok((403, &b"Jonas Petraitis"[..])));
    assert_eq!(tag(0, 4), Ok((406, &b""[..])));
    assert_eq!(tag(1, 1), Ok((403, &b"Ona"[..])));
    assert_eq!(tag(1, 2), Ok((403, &b"Jonas"[..])));
    for (record, start, total, without) in [(0, 2, 29, 3), (1, 73, 100, 1)] {
        let old = with(&samples::DRIVER_TAGS[8..139], total, without);
        let refusal = Refusal { number: 9, record: Some(record), offset: Some(8 + start) };
        assert_eq!(read_packet(Family::Standard, &packet(&old)), Err(refusal));
    }
}

#[test]
fn commands_are_read_as_they_were_written() {
    let rows = [
        (Heading::Codec12, 0x0C, 0x05, 15, &b"getio"[..]),
        (Heading::Codec12, 0x0C, 0x06, 15, b""),
        (Heading::Codec13 { time: 0 }, 0x0D, 0x05, 19, b""),
        (Heading::Codec13 { time: 0x0102_0304 }, 0x0D, 0x06, 19, b"hello"),
        (Heading::Codec13 { time: u32::MAX }, 0x0D, 0x06, 19, b"hello"),
        (Heading::Codec14 { imei: 0 }, 0x0E, 0x05, 23, b"getver"),
        (Heading::Codec14 { imei: 352_093_081_452_251 }, 0x0E, 0x11, 23, b""),
        (Heading::Codec14 { imei: 999_999_999_999_999 }, 0x0E, 0x06, 23, b"ok"),
    ];
    for (heading, codec, message_type, offset, text) in rows {
        let mut out = [0; LARGEST];
        let size = write_command(Family::Standard, heading, message_type, text, &mut out).unwrap();
        assert_eq!(size, offset + text.len() + 5);
        let read = read_command(Family::Standard, &out[..size]).unwrap();
        let (imei, time) = match heading {
            Heading::Codec12 => (0, 0),
            Heading::Codec13 { time } => (0, time),
            Heading::Codec14 { imei } => (imei, 0),
        };
        assert_eq!(read, Command { codec, message_type, imei, time, offset, text });
        assert_eq!(read.heading(), heading);
    }
}

#[test]
fn commands_say_what_they_are() {
    let said = |packet| read_command(Family::Standard, packet).unwrap().to_string();
    assert_eq!(said(samples::CODEC12_COMMAND), "codec 0C, type 05: getio");
    assert_eq!(said(samples::CODEC13_MESSAGE), r"codec 0D, type 06, time 1692938881: hello lets test\r\n");
    assert_eq!(said(samples::CODEC14_COMMAND), "codec 0E, type 05, IMEI 352093081452251: getver");
}

#[test]
fn messages_are_told_apart_by_their_time() {
    let mut packets = [[0; 41]; 2];
    for (packet, time) in packets.iter_mut().zip([0x64E8_3281, 0x64E8_3282]) {
        let heading = Heading::Codec13 { time };
        assert_eq!(write_command(Family::Standard, heading, 0x06, b"hello lets test\r\n", packet), Ok(41));
        assert_eq!(read_command(Family::Standard, packet).map(|message| message.time), Ok(time));
    }
    assert_eq!(packets[0], samples::CODEC13_MESSAGE);
    assert_ne!(packets[0], packets[1]);
}

/// A writer on a fixed input, and the result that it writes.
type Writer<'a> = (&'a dyn Fn(&mut [u8]) -> Result<usize, Refusal>, &'a [u8]);

#[test]
fn writers_keep_to_their_result() {
    let (packet, datagram) = (packet(&DATA), datagram(&DATA));
    let mut form = [0; LARGEST_FORM];
    let size = form_of_packet(Family::Standard, &packet, &mut form).unwrap();
    let form = &form[..size];
    let (first, second) = LINES.split_at(LINES.iter().position(|byte| *byte == b'\n').unwrap() + 1);
    let writers: [Writer; 12] = [
        (&|out| answer_login(samples::LOGIN, true, out), &[1]),
        (&|out| answer_login(samples::LOGIN, false, out), &[0]),
        (&|out| acknowledge_packet(Family::Standard, &packet, out), &[0, 0, 0, 2]),
        (&|out| acknowledge_datagram(Family::Standard, &datagram, out), &[0x00, 0x05, 0x12, 0x34, 0x56, 0x78, 2]),
        (&|out| write_command(Family::Standard, Heading::Codec12, 0x05, b"getio", out), samples::CODEC12_COMMAND),
        (&|out| form_of_packet(Family::Standard, &packet, out), form),
        (&|out| form_of_datagram(Family::Standard, &datagram, out), form),
        (&|out| packet_of_form(Family::Standard, form, out), &packet),
        (&|out| line_of_packet(Family::Standard, &packet, 0, out), first),
        (&|out| line_of_datagram(Family::Standard, &datagram, 1, out), second),
        (&|out| lines_of_packet(Family::Standard, &packet, out), LINES),
        (&|out| lines_of_datagram(Family::Standard, &datagram, out), LINES),
    ];
    for (n, (write, result)) in writers.iter().enumerate() {
        let mut short = vec![0xEE; result.len() - 1];
        assert_eq!(write(&mut short), Err(Refusal { number: 18, record: None, offset: None }), "writer {n}");
        assert_eq!(short, vec![0xEE; result.len() - 1], "writer {n}, buffer too short");
        for more in [0, 3] {
            let mut out = vec![0xEE; result.len() + more];
            assert_eq!(write(&mut out), Ok(result.len()), "writer {n}");
            assert_eq!(out, [result, &[0xEE; 3][..more]].concat(), "writer {n}, {more} bytes more");
        }
    }
}

#[test]
fn the_longest_form_fits_its_buffer() {
    // Their packets have no room for a byte more.
    let longest = [(Family::Fmx640, &LONGEST_640[..], 512, 1594), (Family::Standard, &LONGEST, 1280, 4208)];
    for (family, counts, size, form_size) in longest {
        let form = form_of_counts(counts);
        assert_eq!(form.len(), form_size);
        let mut packet = vec![0; size];
        assert_eq!(packet_of_form(family, &form, &mut packet), Ok(size));
        let mut again = vec![0; form_size];
        assert_eq!(form_of_packet(family, &packet, &mut again), Ok(form_size));
        assert_eq!(again, form);
    }
}

#[test]
fn empty_inputs_get_their_refusals() {
    let number = |refusal: Refusal| refusal.number;
    assert_eq!(read_datagram(Family::Standard, &[]).map_err(number), Err(1));
    assert_eq!(read_login(&[]).map_err(number), Err(1));
    assert_eq!(packet_of_form(Family::Standard, &[], &mut []).map_err(number), Err(17));
    assert_eq!(acknowledge_packet(Family::Standard, &[], &mut []).map_err(number), Err(18));
    assert_eq!(answer_login(&[], true, &mut []).map_err(number), Err(18));
    assert_eq!(lines_of_packet(Family::Standard, &[], &mut []).map_err(number), Err(1));
    assert_eq!(Line::read(&[]).map_err(number), Err(20));
    assert_eq!(element_in_line(&[], 0).map_err(number), Err(20));
    assert_eq!(wrong_byte(&[]), Some(0));
}

#[test]
fn all_samples_are_accepted() {
    use samples::*;
    for packet in [CODEC8, CODEC8E, DRIVER_TAGS, LONG_TAGS, CODEC16] {
        assert!(read_packet(Family::Standard, packet).is_ok());
    }
    for command in [CODEC12_COMMAND, CODEC12_RESPONSE, CODEC13_MESSAGE, CODEC14_COMMAND, CODEC14_RESPONSE] {
        assert!(read_command(Family::Standard, command).is_ok());
    }
    for datagram in [UDP_CODEC8, UDP_CODEC8E] {
        assert!(read_datagram(Family::Standard, datagram).is_ok());
    }
    assert!(read_login(LOGIN).is_ok());
}

#[test]
fn meanings_are_those_of_the_header() {
    let header = include_str!("../../include/brundilope.h");
    let meaning = |number| Refusal { number, record: None, offset: None }.meaning();
    for number in 1..=21 {
        let meaning = meaning(number);
        let line = format!("\n *   {number:2}  {meaning}\n");
        assert!(header.contains(&line), "not in the header: {line}");
    }
    assert_eq!(meaning(0), meaning(22));
}

#[test]
fn sizes_are_those_of_the_header_and_the_library() {
    let header = include_str!("../../include/brundilope.h");
    assert!(header.contains(&format!("\n#define BRUNDILOPE_LARGEST {LARGEST}\n")));
    assert!(header.contains("\n#define BRUNDILOPE_LARGEST_FORM (4 * BRUNDILOPE_LARGEST)\n"));
    assert_eq!(LARGEST_FORM, 4 * LARGEST);
    assert!(header.contains("\n#define BRUNDILOPE_LARGEST_LINES (4 * BRUNDILOPE_LARGEST)\n"));
    assert_eq!(LARGEST_LINES, 4 * LARGEST);
    assert!(header.contains("\n#define BRUNDILOPE_LARGEST_CONTENTS (BRUNDILOPE_LARGEST / 2)\n"));
    assert_eq!(LARGEST_CONTENTS, LARGEST / 2);
    for (name, family) in [("640", Family::Fmx640), ("STANDARD", Family::Standard)] {
        let line = format!("\n#define BRUNDILOPE_FAMILY_{name} {}\n", u8::from(family));
        assert!(header.contains(&line), "not in the header: {line}");
    }
    let text = [0; LARGEST - 19]; // one byte too many: 20 bytes of a packet are not text
    let mut out = [0; LARGEST];
    assert_eq!(write_command(Family::Standard, Heading::Codec12, 0x05, &text[1..], &mut out), Ok(LARGEST));
    assert_eq!(
        write_command(Family::Standard, Heading::Codec12, 0x05, &text, &mut out),
        Err(Refusal { number: 14, record: None, offset: None })
    );
}
