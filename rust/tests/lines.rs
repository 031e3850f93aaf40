//! A record's billing line, written and read back; what is no line; tags with any bytes.
use std::collections::HashSet;

use brundilope::*;
use inputs::{datagram, form_of_counts, packet, DATA, LINES, LONGEST};

#[allow(dead_code)] // the rest is for other tests
mod inputs;

const SAMPLE: &[u8] = b"1000,-0.0000001,54.7146368,5,21=3\n";

/// The datagram of the bench sheet.
const DATAGRAM: [u8; 58] = [
    0x00, 0x38, 0xCA, 0xFE, 0x01, 0x05, 0x00, 0x0F, 0x31, 0x32, 0x33, 0x34, 0x35, 0x36, 0x37, 0x38, 0x39, 0x30, 0x31,
    0x32, 0x33, 0x34, 0x35, 0x08, 0x01, 0x00, 0x00, 0x00, 0x00, 0x00, 0x00, 0x03, 0xE8, 0x01, 0xFF, 0xFF, 0xFF, 0xFF,
    0x20, 0x9C, 0xCA, 0x80, 0x00, 0x64, 0x00, 0x00, 0x07, 0x00, 0x05, 0x00, 0x01, 0x01, 0x15, 0x03, 0x00, 0x00, 0x00,
    0x01,
];

fn refused<T>(number: usize) -> Result<T, Refusal> {
    Err(Refusal { number, record: None, offset: None })
}

/// What a writer writes into a buffer that is just long enough, and not into a shorter one.
fn written(write: impl Fn(&mut [u8]) -> Result<usize, Refusal>) -> Vec<u8> {
    let mut out = vec![0xEE; LARGEST_LINES + 1];
    let size = write(&mut out).unwrap();
    assert!(out[size..].iter().all(|byte| *byte == 0xEE));
    let mut short = vec![0xEE; size - 1];
    assert_eq!(write(&mut short), refused(18));
    assert!(short.iter().all(|byte| *byte == 0xEE));
    let mut exact = vec![0xEE; size];
    assert_eq!(write(&mut exact), Ok(size));
    assert_eq!(exact, out[..size]);
    exact
}

/// What is printed of a value.
fn printed(value: &Value) -> (u16, Result<u64, Vec<u8>>) {
    (value.id, value.number.ok_or(value.bytes.to_vec()))
}

/// What was read of an element.
fn read(element: &LineElement) -> (u16, Result<u64, Vec<u8>>) {
    match element.value {
        LineValue::Number(number) => (element.id, Ok(number)),
        LineValue::Tag(tag) => {
            let mut bytes = vec![0xEE; tag.len()];
            assert_eq!(tag.read(&mut bytes), Ok(tag.len()));
            assert_eq!(tag.to_vec(), bytes);
            assert_eq!(tag.is_empty(), bytes.is_empty());
            if let Some(short) = tag.len().checked_sub(1) {
                let mut short = vec![0xEE; short];
                assert_eq!(tag.read(&mut short), refused(18));
                assert!(short.iter().all(|byte| *byte == 0xEE));
            }
            (element.id, Err(bytes))
        }
    }
}

/// A line gives back what is printed of its record, along the line and by number.
fn reads_back(text: &str, record: &DataRecord) {
    let text = text.as_bytes();
    let line = Line::read(text).unwrap();
    let fields = (line.timestamp, line.longitude, line.latitude, line.speed);
    assert_eq!(fields, (record.timestamp(), record.longitude(), record.latitude(), record.speed()));
    assert_eq!(line.bytes(), text);
    assert_eq!(wrong_byte(text), None);
    let values: Vec<_> = record.values().map(|value| printed(&value)).collect();
    assert_eq!(line.elements().map(|element| read(&element)).collect::<Vec<_>>(), values);
    counts_down(line.elements(), values.len());
    for (number, element) in line.elements().enumerate() {
        assert_eq!(element_in_line(text, number), Ok(element));
        assert_eq!(element_in_line(text, number).map(|element| read(&element)).as_ref(), Ok(&values[number]));
    }
    assert_eq!(element_in_line(text, values.len()), refused(16));
    let fields: Vec<_> = line.elements().map(|element| format!(",{element}")).collect();
    assert!(text.ends_with((fields.concat() + "\n").as_bytes()));
}

/// An iterator says how many are to come, and ends once and for all.
fn counts_down(mut items: impl ExactSizeIterator, count: usize) {
    for left in (0..=count).rev() {
        assert_eq!(items.len(), left);
        assert_eq!(items.next().is_some(), left > 0);
    }
    assert!(items.next().is_none());
}

/// The lines of a packet or datagram in each of the ways there are, and read back; gives them as one text.
fn in_all_ways(
    records: Records,
    lines: Lines,
    line: impl Fn(usize) -> Option<String>,
    one: impl Fn(usize, &mut [u8]) -> Result<usize, Refusal>,
    all: impl Fn(&mut [u8]) -> Result<usize, Refusal>,
) -> String {
    let text = String::from_utf8(written(all)).unwrap();
    assert_eq!(lines.as_str(), text);
    counts_down(lines.clone(), records.len());
    let count = records.len();
    for (number, (record, own)) in records.zip(lines).enumerate() {
        assert_eq!(written(|out| one(number, out)), own.as_bytes());
        assert_eq!(line(number).as_deref(), Some(own));
        reads_back(own, &record);
    }
    assert_eq!(line(count), None);
    assert_eq!(one(count, &mut []), refused(16));
    text
}

fn lines_of(input: &[u8]) -> String {
    let (mut room, mut text) = (Contents::new(), [0xEE; LARGEST_LINES]);
    let packet = DataPacket::read(Family::Standard, input, &mut room).unwrap();
    in_all_ways(
        packet.records(),
        packet.lines(&mut text),
        |number| packet.line(number).map(|line| line.to_string()),
        |number, out| line_of_packet(Family::Standard, input, number, out),
        |out| lines_of_packet(Family::Standard, input, out),
    )
}

fn lines_of_udp(input: &[u8]) -> String {
    let (mut room, mut text) = (Contents::new(), [0xEE; LARGEST_LINES]);
    let datagram = DataDatagram::read(Family::Standard, input, &mut room).unwrap();
    in_all_ways(
        datagram.records(),
        datagram.lines(&mut text),
        |number| datagram.line(number).map(|line| line.to_string()),
        |number, out| line_of_datagram(Family::Standard, input, number, out),
        |out| lines_of_datagram(Family::Standard, input, out),
    )
}

#[test]
fn the_bench_sample_gives_its_line() {
    assert_eq!(lines_of_udp(&DATAGRAM).as_bytes(), SAMPLE);
    let line = Line::read(SAMPLE).unwrap();
    assert_eq!((line.timestamp, line.longitude, line.latitude, line.speed), (1000, -1, 547_146_368, 5));
    let elements: Vec<_> = line.elements().collect();
    assert_eq!(elements, [LineElement { id: 21, value: LineValue::Number(3) }]);
}

#[test]
fn samples_give_their_lines() {
    use samples::*;
    let packets = [CODEC8, CODEC8E, CODEC16].map(lines_of).concat();
    let datagrams = [UDP_CODEC8, UDP_CODEC8E].map(lines_of_udp).concat();
    let all = packets + &datagrams + &lines_of(DRIVER_TAGS);
    assert_eq!(all, include_str!("../../samples/lines.txt"));
}

#[test]
fn fields_stand_in_their_places() {
    assert_eq!(lines_of(&packet(&DATA)).as_bytes(), LINES);
    assert_eq!(lines_of_udp(&datagram(&DATA)).as_bytes(), LINES);
    let mut long = vec![0; LARGEST];
    assert_eq!(packet_of_form(Family::Standard, &form_of_counts(&LONGEST), &mut long), Ok(LARGEST));
    assert_eq!(lines_of(&long).matches(",9=5").count(), LONGEST.iter().sum());
}

/// A packet of codec 8 Extended whose records have one tag each.
fn with_tags(tags: &[&[u8]]) -> Vec<u8> {
    let mut form = vec![1, 0, 100, 0, 0x8E];
    for tag in tags {
        form.extend([27, 0, 101, 0]);
        form.extend([0; 27]);
        form.extend([2 + u8::try_from(tag.len()).unwrap(), 0, 9, 0, 7, 0]);
        form.extend(*tag);
    }
    let mut packet = vec![0; LARGEST];
    let size = packet_of_form(Family::Standard, &form, &mut packet).unwrap();
    packet.truncate(size);
    packet
}

#[test]
fn no_tag_adds_a_field_or_a_line() {
    let every: Vec<u8> = (0..=255).collect();
    let mut tags: Vec<&[u8]> = every.chunks(64).collect();
    tags.extend([
        &b""[..],
        b"\"",
        b",",
        b"\\",
        b"\n",
        b"\",9=\"",
        b"\"\n0,0.0000000,0.0000000,0",
        b"\\22",
        b"\x7F\xFF",
    ]);
    let lines = lines_of(&with_tags(&tags));
    assert_eq!(lines.lines().count(), tags.len());
    assert!(lines.lines().all(|line| line.matches(',').count() == 4));
    assert!(lines.bytes().all(|byte| byte == b'\n' || (0x20..0x7F).contains(&byte)));
    assert!(lines.ends_with("7=\"\\7F\\FF\"\n"));
    let odd = lines_of(&with_tags(&[b"a\"b,c\\d\ne"]));
    assert_eq!(odd, "0,0.0000000,0.0000000,0,7=\"a\\22b\\2Cc\\5Cd\\0Ae\"\n");
}

#[test]
fn tags_are_equal_if_their_bytes_are() {
    let texts =
        [&b"0,0.0000000,0.0000000,0,1=\"a\",22=\"a\",1=\"b\",333=\"\"\n"[..], b"0,0.0000000,0.0000000,0,1=\"a\"\n"];
    let values: Vec<_> = texts.iter().flat_map(|text| Line::read(text).unwrap().elements()).map(|e| e.value).collect();
    assert_eq!(values[0], values[1]);
    assert_eq!(values[0], values[4]);
    assert_ne!(values[0], values[2]);
    assert_eq!(values.into_iter().collect::<HashSet<_>>().len(), 3);
}

#[test]
fn tags_longer_than_any_record_are_read_too() {
    for size in [255, 256, 257, LARGEST - 1, LARGEST, LARGEST + 1, 5000] {
        let tag = vec![b'\n'; size];
        let line = format!("0,0.0000000,0.0000000,0,1=1,65535=\"{}\",2=\"\"\n", "\\0A".repeat(size));
        let elements: Vec<_> = Line::read(line.as_bytes()).unwrap().elements().collect();
        assert_eq!(elements.len(), 3);
        assert_eq!(read(&elements[1]), (65535, Err(tag)));
        assert_eq!(read(&elements[2]), (2, Err(vec![])));
        assert_eq!(element_in_line(line.as_bytes(), 1), Ok(elements[1]));
    }
}

#[test]
fn what_is_no_line_is_refused_at_its_field() {
    let wrong: [(&[u8], usize); 24] = [
        (b"", 0),
        (b"\n", 0),
        (b"1000,-0.0000001,54.7146368,5,21=3", 33),
        (b"1000,-0.0000001,54.7146368,5,21=3\r\n", 29),
        (b"1000,-0.0000001,54.7146368,5,21=3\n\n", 29),
        (b"1000,-0.0000001,54.7146368\n", 26),
        (b"1000,-0.0000001,54.7146368,\n", 27),
        (b"1000,-0.0000001,54.7146368,5,\n", 29),
        (b"18446744073709551616,-0.0000001,54.7146368,5\n", 0),
        (b"01000,-0.0000001,54.7146368,5\n", 0),
        (b"1000,-0.0000000,54.7146368,5\n", 5),
        (b"1000,-0.000001,54.7146368,5\n", 5),
        (b"1000,-214.7483649,54.7146368,5\n", 5),
        (b"1000,-0.0000001,214.7483648,5\n", 16),
        (b"1000,-0.0000001,54.7146368,65536\n", 27),
        (b"1000,-0.0000001,54.7146368,5,65536=3\n", 29),
        (b"1000,-0.0000001,54.7146368,5,21=18446744073709551616\n", 29),
        (b"1000,-0.0000001,54.7146368,5,21=3,21=+3\n", 34),
        (b"1000,-0.0000001,54.7146368,5,7=\"\",21=3\n", 34),
        (b"1000,-0.0000001,54.7146368,5,7=\"\\0a\"\n", 29),
        (b"1000,-0.0000001,54.7146368,5,7=\"\\41\"\n", 29),
        (b"1000,-0.0000001,54.7146368,5,7=\"\\2\"\n", 29),
        (b"1000,-0.0000001,54.7146368,5,7=\"\xC5\xBD\"\n", 29),
        (b"1000,-0.0000001,54.7146368,5,7=\"a\n", 29),
    ];
    for (line, at) in wrong {
        let shown = String::from_utf8_lossy(line);
        assert_eq!(Line::read(line), refused(20), "{shown}");
        assert_eq!(element_in_line(line, 0), refused(20), "{shown}");
        assert_eq!(wrong_byte(line), Some(at), "{shown}");
    }
}

#[test]
fn ends_of_the_ranges_are_read() {
    let most = b"18446744073709551615,214.7483647,-214.7483648,65535,65535=18446744073709551615,0=0\n";
    let line = Line::read(most).unwrap();
    assert_eq!((line.timestamp, line.longitude, line.latitude, line.speed), (u64::MAX, i32::MAX, i32::MIN, u16::MAX));
    let elements: Vec<_> = line.elements().map(|element| read(&element)).collect();
    assert_eq!(elements, [(u16::MAX, Ok(u64::MAX)), (0, Ok(0))]);
}

#[test]
fn all_can_be_shown() {
    let text = "1000,-0.0000001,54.7146368,5,21=3,7=\"\\22\"\n";
    let line = Line::read(text.as_bytes()).unwrap();
    let elements = "[LineElement { id: 21, value: Number(3) }, LineElement { id: 7, value: Tag(Tag(\"\\22\")) }]";
    let fields = "timestamp: 1000, longitude: -1, latitude: 547146368, speed: 5";
    assert_eq!(format!("{line:?}"), format!("Line {{ {fields}, elements: {elements} }}"));
    let (mut room, mut text) = (Contents::new(), [0; LARGEST_LINES]);
    let datagram = DataDatagram::read(Family::Standard, &DATAGRAM, &mut room).unwrap();
    let own = "\"1000,-0.0000001,54.7146368,5,21=3\\n\"";
    assert_eq!(format!("{:?}", datagram.line(0).unwrap()), format!("RecordLine({own})"));
    assert_eq!(format!("{:?}", datagram.lines(&mut text)), format!("[{own}]"));
}
