//! What the families differ in: limits, at every call that has them. What one accepts and the other too is the same.
use brundilope::*;
use inputs::{datagram, form_of_counts, packet, DATA, LONGEST, LONGEST_640};

#[allow(dead_code)] // the rest is for other tests
mod inputs;

const FAMILIES: [Family; 2] = [Family::Fmx640, Family::Standard];
const LIMITS: [usize; 2] = [512, 1280];

/// The ID of the tag in each record of `data`.
const ID: u16 = 7;

/// A data field of codec 8 Extended; its records have so many bytes, most of them in a tag.
fn data(sizes: &[usize]) -> Vec<u8> {
    let count = u8::try_from(sizes.len()).unwrap();
    let mut data = vec![0x8E, count];
    for size in sizes {
        let tag = u16::try_from(size - 42).unwrap();
        data.extend([0; 26]); // fields, event ID
        data.extend([0, 1, 0, 0, 0, 0, 0, 0, 0, 0, 0, 1]); // total, groups, one tag
        data.extend([ID.to_be_bytes(), tag.to_be_bytes()].concat());
        data.resize(data.len() + usize::from(tag), b',');
    }
    data.push(count);
    data
}

/// A data field of so many bytes whose records have at most 255.
fn data_of(size: usize) -> Vec<u8> {
    let mut left = size - 3;
    let mut sizes = vec![];
    while left > 255 {
        sizes.push(200);
        left -= 200;
    }
    sizes.push(left);
    data(&sizes)
}

/// What a call gives, as text.
type Given = Result<String, Refusal>;

fn given<T: std::fmt::Debug>(answer: Result<T, Refusal>) -> Given {
    answer.map(|accepted| format!("{accepted:?}"))
}

fn written(write: impl Fn(&mut [u8]) -> Result<usize, Refusal>) -> Given {
    let mut out = [0xEE; LARGEST_FORM];
    given(write(&mut out).map(|size| out[..size].to_vec()))
}

/// What the calls that judge a TCP data packet give.
fn of_packet(family: Family, p: &[u8]) -> [Given; 9] {
    let (mut room, mut text) = (Contents::new(), [0; LARGEST_LINES]);
    let read = DataPacket::read(family, p, &mut room);
    let line = written(|out| line_of_packet(family, p, 0, out));
    let lines = written(|out| lines_of_packet(family, p, out));
    assert_eq!(given(read.map(|packet| packet.line(0).unwrap().to_string().into_bytes())), line);
    assert_eq!(given(read.map(|packet| packet.lines(&mut text).as_str().as_bytes().to_vec())), lines);
    [
        given(read_packet(family, p)),
        given(record_in_packet(family, p, 0)),
        given(value_in_packet(family, p, 0, 0)),
        given(id_in_packet(family, p, 0, ID).map_err(Refusal::from)),
        given(last_known(family, p, p, ID).map_err(Refusal::from)),
        given(read.map(|packet| packet.records())),
        written(|out| form_of_packet(family, p, out)),
        line,
        lines,
    ]
}

/// The same of a datagram.
fn of_datagram(family: Family, p: &[u8]) -> [Given; 9] {
    let (mut room, mut text) = (Contents::new(), [0; LARGEST_LINES]);
    let read = DataDatagram::read(family, p, &mut room);
    let line = written(|out| line_of_datagram(family, p, 0, out));
    let lines = written(|out| lines_of_datagram(family, p, out));
    assert_eq!(given(read.map(|datagram| datagram.line(0).unwrap().to_string().into_bytes())), line);
    assert_eq!(given(read.map(|datagram| datagram.lines(&mut text).as_str().as_bytes().to_vec())), lines);
    [
        given(read_datagram(family, p)),
        given(record_in_datagram(family, p, 0)),
        given(value_in_datagram(family, p, 0, 0)),
        given(id_in_datagram(family, p, 0, ID).map_err(Refusal::from)),
        given(read.map(|datagram| datagram.records())),
        written(|out| form_of_datagram(family, p, out)),
        written(|out| acknowledge_datagram(family, p, out)),
        line,
        lines,
    ]
}

fn acknowledgement(family: Family, p: &[u8]) -> [u8; 4] {
    let mut answer = [0xEE; 4];
    assert_eq!(acknowledge_packet(family, p, &mut answer), Ok(4));
    answer
}

/// Every call accepts it.
fn accepted(all: &[Given]) {
    all.iter().for_each(|one| assert!(one.is_ok(), "{all:?}"));
}

/// Every call refuses it alike.
fn refused(all: &[Given], number: usize, record: Option<usize>, offset: Option<usize>) {
    all.iter().for_each(|one| assert_eq!(*one, Err(Refusal { number, record, offset })));
}

#[test]
fn families_have_their_numbers() {
    for number in 0..=u8::MAX {
        match Family::try_from(number) {
            Ok(family) => assert_eq!((u8::from(family), FAMILIES.contains(&family)), (number, true)),
            Err(refusal) => assert_eq!(refusal, Refusal { number: 21, record: None, offset: None }),
        }
    }
    assert_eq!(FAMILIES.map(u8::from), [1, 2]);
    assert_eq!(FAMILIES.map(|family| Family::try_from(u8::from(family))), FAMILIES.map(Ok));
    let shown = ["family 1 (FMB640, FMB641, FMC640, FMM640)", "family 2 (all other units)"];
    assert_eq!(FAMILIES.map(|family| family.to_string()), shown);
}

#[test]
fn data_packets_and_datagrams_keep_to_the_limit() {
    for (family, limit) in FAMILIES.into_iter().zip(LIMITS) {
        let (longest, over) = (packet(&data_of(limit - 12)), packet(&data_of(limit - 11)));
        assert_eq!((longest.len(), over.len()), (limit, limit + 1));
        accepted(&of_packet(family, &longest));
        assert_ne!(acknowledgement(family, &longest), [0; 4]);
        refused(&of_packet(family, &over), 3, None, Some(4));
        assert_eq!(acknowledgement(family, &over), [0; 4]);

        let (longest, over) = (datagram(&data_of(limit - 23)), datagram(&data_of(limit - 22)));
        assert_eq!((longest.len(), over.len()), (limit, limit + 1));
        accepted(&of_datagram(family, &longest));
        refused(&of_datagram(family, &over), 3, None, None);
    }
}

#[test]
fn commands_keep_to_the_limit() {
    let text = [b'x'; LARGEST];
    let write =
        |family, size: usize, out: &mut [u8]| write_command(family, Heading::Codec12, 0x06, &text[..size - 20], out);
    for (family, limit) in FAMILIES.into_iter().zip(LIMITS) {
        let mut longest = vec![0; limit];
        assert_eq!(write(family, limit, &mut longest), Ok(limit));
        assert_eq!(read_command(family, &longest).map(|command| command.text), Ok(&text[..limit - 20]));
        let mut none = vec![0xEE; limit + 1];
        assert_eq!(write(family, limit + 1, &mut none), Err(Refusal { number: 14, record: None, offset: None }));
        assert_eq!(none, vec![0xEE; limit + 1]);
    }
    let mut over = [0; 513];
    assert_eq!(write(Family::Standard, 513, &mut over), Ok(513));
    assert_eq!(read_command(Family::Fmx640, &over), Err(Refusal { number: 3, record: None, offset: Some(4) }));
}

#[test]
fn only_records_of_the_640_are_limited() {
    let at_limit = data(&[100, 255]);
    let over = data(&[100, 256]);
    for family in FAMILIES {
        accepted(&of_packet(family, &packet(&at_limit)));
        accepted(&of_datagram(family, &datagram(&at_limit)));
    }
    refused(&of_packet(Family::Fmx640, &packet(&over)), 12, Some(1), Some(10 + 100));
    refused(&of_datagram(Family::Fmx640, &datagram(&over)), 12, Some(1), Some(25 + 100));
    assert_eq!(acknowledgement(Family::Fmx640, &packet(&over)), [0; 4]);
    accepted(&of_packet(Family::Standard, &packet(&over)));
    accepted(&of_datagram(Family::Standard, &datagram(&over)));
    assert_eq!(acknowledgement(Family::Standard, &packet(&over)), [0, 0, 0, 2]);
    // one record that fills its packet
    let whole = packet(&data(&[LARGEST - 15]));
    assert_eq!(whole.len(), LARGEST);
    accepted(&of_packet(Family::Standard, &whole));
    let tag = id_in_packet(Family::Standard, &whole, 0, ID).unwrap().value;
    assert_eq!((tag.bytes.len(), tag.bytes[0]), (LARGEST - 57, b','));
}

#[test]
fn forms_are_those_of_the_named_family() {
    let refused = Err(Refusal { number: 17, record: None, offset: None });
    let mut out = [0; LARGEST];
    let mut packet_of = |family, counts: &[usize]| packet_of_form(family, &form_of_counts(counts), &mut out);
    assert_eq!(packet_of(Family::Fmx640, &LONGEST_640), Ok(512));
    assert_eq!(packet_of(Family::Standard, &LONGEST_640), Ok(512));
    assert_eq!(packet_of(Family::Standard, &LONGEST), Ok(1280));
    // a packet that is too long by two bytes
    assert_eq!(packet_of(Family::Fmx640, &[112, 106]), refused);
    assert_eq!(packet_of(Family::Standard, &[112, 106]), Ok(514));
    assert_eq!(packet_of(Family::Standard, &[255, 255, 77]), refused);
    // a record of 255 bytes, and one of 257
    assert_eq!(packet_of(Family::Fmx640, &[111]), Ok(15 + 255));
    assert_eq!(packet_of(Family::Fmx640, &[112]), refused);
    assert_eq!(packet_of(Family::Standard, &[112]), Ok(15 + 257));
    // in codec 8 no total says 256
    assert_eq!(packet_of(Family::Standard, &[254]), Ok(15 + 541));
    assert_eq!(packet_of(Family::Standard, &[255]), refused);
}

#[test]
fn what_the_640_accepts_the_others_accept_alike() {
    use samples::*;
    let own = [packet(&DATA), packet(&data(&[100, 255])), packet(&data_of(500))];
    for p in [CODEC8, CODEC8E, DRIVER_TAGS, CODEC16].into_iter().chain(own.iter().map(|p| &p[..])) {
        let [of_640, of_all] = FAMILIES.map(|family| of_packet(family, p));
        assert!(of_640[0].is_ok());
        assert_eq!(of_640, of_all);
        assert_eq!(acknowledgement(Family::Fmx640, p), acknowledgement(Family::Standard, p));
    }
    let own = [datagram(&DATA), datagram(&data(&[100, 255])), datagram(&data_of(489))];
    for p in [UDP_CODEC8, UDP_CODEC8E].into_iter().chain(own.iter().map(|p| &p[..])) {
        let [of_640, of_all] = FAMILIES.map(|family| of_datagram(family, p));
        assert!(of_640[0].is_ok());
        assert_eq!(of_640, of_all);
    }
    for p in [CODEC12_COMMAND, CODEC12_RESPONSE, CODEC14_COMMAND, CODEC14_RESPONSE] {
        let [of_640, of_all] = FAMILIES.map(|family| read_command(family, p));
        assert!(of_640.is_ok());
        assert_eq!(of_640, of_all);
    }
}

#[test]
fn last_known_reads_both_packets_in_one_family() {
    let (small, long) = (packet(&data(&[255])), packet(&data(&[256])));
    let known = |family, newer, older, id| match last_known(family, newer, older, id) {
        Ok(known) => Ok(known.source),
        Err(missing) => Err(missing.refusal.number),
    };
    assert_eq!(known(Family::Fmx640, &long, &small, ID), Err(12));
    assert_eq!(known(Family::Fmx640, &small, &long, ID), Ok(Source::Newer));
    assert_eq!(known(Family::Fmx640, &small, &long, ID + 1), Err(12));
    assert_eq!(known(Family::Standard, &long, &small, ID), Ok(Source::Newer));
    assert_eq!(known(Family::Standard, &small, &long, ID + 1), Err(16));
}

/// What a connection of this family, which keeps it, gives for a packet behind the login.
fn fed(family: Family, input: &[u8]) -> Fed {
    let mut connection = Connection::new(family);
    assert!(matches!(connection.feed(samples::LOGIN).item, Item::Login(_)));
    let fed = connection.feed(input);
    assert_eq!(connection.family(), family);
    connection.reset();
    assert_eq!(connection, Connection::new(family));
    fed
}

#[test]
fn connections_keep_to_their_limits() {
    let (long_record, over) = (packet(&data(&[100, 256])), packet(&data_of(501)));
    let refusal = Refusal { number: 12, record: Some(1), offset: Some(10 + 100) };
    assert_eq!(fed(Family::Fmx640, &long_record), Fed { used: long_record.len(), item: Item::Refused(refusal) });
    let refusal = Refusal { number: 3, record: None, offset: Some(4) };
    assert_eq!(fed(Family::Fmx640, &over), Fed { used: 8, item: Item::Refused(refusal) });
    for input in [long_record, over] {
        let Item::Data(given) = fed(Family::Standard, &input).item else { panic!() };
        assert_eq!(given.bytes(), input);
    }
    assert_ne!(Connection::new(Family::Fmx640), Connection::new(Family::Standard));
}

#[test]
fn a_connection_wants_what_its_family_allows() {
    for (family, limit) in FAMILIES.into_iter().zip(LIMITS) {
        let mut connection = Connection::new(family);
        let _ = connection.feed(samples::LOGIN);
        let _ = connection.feed(&packet(&data_of(limit - 12))[..9]);
        assert_eq!(connection.wanted(), limit - 9);
    }
}

#[test]
fn packets_keep_the_family_of_their_connection() {
    for family in FAMILIES {
        let Item::Data(given) = fed(family, samples::CODEC8).item else { panic!() };
        let mut room = Contents::new();
        let packet = given.read(&mut room);
        assert_eq!((given.family(), packet.family(), packet.to_owned().as_packet().family()), (family, family, family));
        let Item::Command(given) = fed(family, samples::CODEC12_RESPONSE).item else { panic!() };
        assert_eq!(given.family(), family);
    }
    for input in [samples::CODEC8, samples::CODEC12_RESPONSE] {
        let [of_640, of_all] = FAMILIES.map(|family| fed(family, input).item);
        assert_ne!(of_640, of_all);
    }
}

/// A data field of codec 8: records with so many values of one byte and of two.
fn crowded(records: &[(u8, u8)]) -> Vec<u8> {
    let count = records.len() as u8;
    let mut data = vec![0x08, count];
    for &(ones, twos) in records {
        data.extend([0; 25]);
        data.extend([ones + twos, ones]);
        (0..ones).for_each(|n| data.extend([n, 0]));
        data.push(twos);
        (0..twos).for_each(|n| data.extend([n, 0, 0]));
        data.extend([0; 2]);
    }
    data.push(count);
    data
}

#[test]
fn four_times_the_packet_holds_its_form_and_three_times_does_not() {
    let rows = [
        // the closest of each family, and the longest
        (Family::Fmx640, crowded(&[(112, 0), (106, 0)]), 511, 1593),
        (Family::Fmx640, crowded(&[(111, 1), (106, 0)]), 512, 1594),
        (Family::Standard, crowded(&[(255, 0), (255, 0)]), 1095, 3637),
        (Family::Standard, crowded(&[(254, 1), (255, 0), (77, 0)]), 1280, 4208),
        // the shortest for which three times is not enough
        (Family::Fmx640, crowded(&[(100, 0)]), 245, 736),
    ];
    for (family, data, bytes, form) in rows {
        let packet = packet(&data);
        assert_eq!(packet.len(), bytes);
        let mut out = [0; LARGEST_FORM];
        assert_eq!(form_of_packet(family, &packet, &mut out[..form]), Ok(form));
        assert!(form <= form_room(&packet) && form <= family.largest_form() && bytes <= family.largest());
        for short in [form - 1, 3 * bytes] {
            let refusal = Refusal { number: 18, record: None, offset: None };
            assert_eq!(form_of_packet(family, &packet, &mut out[..short]), Err(refusal));
        }
        let again = &mut [0; LARGEST][..];
        assert_eq!(packet_of_form(family, &out[..form], again), Ok(bytes));
        assert_eq!(again[..bytes], packet);
    }
}
