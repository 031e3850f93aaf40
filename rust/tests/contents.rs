//! A packet's contents are what the look-ups find in it, one by one; so are a datagram's.
use brundilope::*;
use inputs::{datagram, form_of_counts, packet, with, DATA, LONGEST, RECORD, VALUES};

#[allow(dead_code)] // the rest is for other tests
mod inputs;

/// The look-ups in packets or in datagrams, whose first record begins at `start`; `behind` bytes follow the last one.
struct LookUps {
    start: usize,
    behind: usize,
    record: fn(Family, &[u8], usize) -> Result<Record, Refusal>,
    value: fn(Family, &[u8], usize, usize) -> Result<Value<'_>, Refusal>,
    id: fn(Family, &[u8], usize, u16) -> Result<Found<'_>, NotFound>,
}

const IN_PACKET: LookUps =
    LookUps { start: 10, behind: 5, record: record_in_packet, value: value_in_packet, id: id_in_packet };
const IN_DATAGRAM: LookUps =
    LookUps { start: 25, behind: 1, record: record_in_datagram, value: value_in_datagram, id: id_in_datagram };

impl LookUps {
    fn find(&self, records: Records, input: &[u8]) {
        let bytes: Vec<&[u8]> = records.clone().map(|record| record.bytes()).collect();
        assert_eq!(bytes.concat(), input[self.start..input.len() - self.behind]);
        for (n, record) in records.enumerate() {
            let fields = record.fields();
            assert_eq!((self.record)(Family::Standard, input, n), Ok(fields));
            assert_eq!(record.values().len(), fields.elements);
            for (k, value) in record.values().enumerate() {
                assert_eq!((self.value)(Family::Standard, input, n, k), Ok(value));
                let found = (self.id)(Family::Standard, input, n, value.id).unwrap();
                assert_eq!(Some(found.value), record.value(value.id));
                // the place, from 1, of the first with this ID
                let first = record.values().position(|v| v.id == value.id).unwrap();
                assert_eq!(found.passed, first + 1);
                assert!(found.passed <= k + 1);
            }
            assert_eq!(record.value(0xFFFF), None);
            let missing = (self.id)(Family::Standard, input, n, 0xFFFF).unwrap_err();
            assert_eq!((missing.refusal.number, missing.passed), (16, fields.elements));
        }
    }
}

/// A packet is read as by the calls for one thing each, refused or not.
fn packet_holds(input: &[u8], room: &mut Contents) {
    let read = DataPacket::read(Family::Standard, input, room);
    assert_eq!(read.map(|p| Packet { codec: p.codec(), count: p.count() }), read_packet(Family::Standard, input));
    let mut ack = [0xEE; 4];
    assert_eq!(acknowledge_packet(Family::Standard, input, &mut ack), Ok(4));
    assert_eq!(read.map_or([0; 4], |p| p.ack()), ack);
    if let Ok(packet) = read {
        assert_eq!(packet.bytes(), input);
        assert_eq!(packet.records().len(), packet.count().into());
        IN_PACKET.find(packet.records(), input);
    }
}

/// The same for a datagram.
fn datagram_holds(input: &[u8], room: &mut Contents) {
    let read = DataDatagram::read(Family::Standard, input, room);
    let all = read.map(|d| Datagram {
        codec: d.codec(),
        count: d.count(),
        imei: d.imei(),
        packet_id: d.packet_id(),
        unused: d.unused(),
        avl_packet_id: d.avl_packet_id(),
    });
    assert_eq!(all, read_datagram(Family::Standard, input));
    let mut ack = [0xEE; 7];
    assert_eq!(acknowledge_datagram(Family::Standard, input, &mut ack), read.map(|_| 7));
    if let Ok(datagram) = read {
        assert_eq!(datagram.ack(), ack);
        assert_eq!(datagram.bytes(), input);
        assert_eq!(datagram.records().len(), datagram.count().into());
        IN_DATAGRAM.find(datagram.records(), input);
    }
}

/// The longest packet, or a few bytes shorter: no other has more values.
fn long_packet(shorter: usize) -> Vec<u8> {
    let mut packet = vec![0; LARGEST - shorter];
    let [first, second, last] = LONGEST;
    let form = form_of_counts(&[first, second, last - shorter / 2]);
    assert_eq!(packet_of_form(Family::Standard, &form, &mut packet), Ok(LARGEST - shorter));
    packet
}

/// Packets, the longest first.
fn packets() -> [Vec<u8>; 5] {
    let [codec8, codec8e, codec16] = [samples::CODEC8, samples::CODEC8E, samples::CODEC16].map(<[u8]>::to_vec);
    [long_packet(0), codec8, codec8e, codec16, packet(&DATA)]
}

/// Datagrams, the longest first.
fn datagrams() -> [Vec<u8>; 5] {
    let [codec8, codec8e] = [samples::UDP_CODEC8, samples::UDP_CODEC8E].map(<[u8]>::to_vec);
    let long = long_packet(12);
    let codec16 = &samples::CODEC16[8..103];
    [datagram(&long[8..long.len() - 4]), codec8, codec8e, datagram(codec16), datagram(&DATA)]
}

#[test]
fn contents_are_what_look_ups_find() {
    let mut room = Contents::new();
    packets().iter().for_each(|packet| packet_holds(packet, &mut room));
    datagrams().iter().for_each(|datagram| datagram_holds(datagram, &mut room));
}

#[test]
fn fields_and_values_stand_in_their_places() {
    let (packet, mut room) = (packet(&DATA), Contents::default());
    let record = DataPacket::read(Family::Standard, &packet, &mut room).unwrap().records().last().unwrap();
    assert_eq!(record.fields(), RECORD);
    assert_eq!(record.values().collect::<Vec<_>>(), VALUES.map(|v| Value { offset: v.offset + 8, ..v }));
}

#[test]
fn refusals_are_those_of_reading() {
    let mut room = Contents::new();
    for (place, byte) in DATA.into_iter().enumerate() {
        for wrong in [0, 3, byte.wrapping_add(1), 0xFF] {
            let data = with(&DATA, place, wrong);
            packet_holds(&packet(&data), &mut room);
            datagram_holds(&datagram(&data), &mut room);
        }
    }
    for (packet, datagram) in packets().iter().zip(&datagrams()) {
        (0..packet.len()).step_by(7).for_each(|size| packet_holds(&packet[..size], &mut room));
        (0..datagram.len()).step_by(7).for_each(|size| datagram_holds(&datagram[..size], &mut room));
    }
}

#[test]
fn copies_give_the_same() {
    let mut room = Contents::new();
    let copies = packets().map(|packet| DataPacket::read(Family::Standard, &packet, &mut room).unwrap().to_owned());
    for (copy, packet) in copies.iter().zip(&packets()) {
        assert_eq!(DataPacket::read(Family::Standard, packet, &mut room), Ok(copy.as_packet()));
        IN_PACKET.find(copy.as_packet().records(), packet);
    }
    let copies =
        datagrams().map(|datagram| DataDatagram::read(Family::Standard, &datagram, &mut room).unwrap().to_owned());
    for (copy, datagram) in copies.iter().zip(&datagrams()) {
        assert_eq!(DataDatagram::read(Family::Standard, datagram, &mut room), Ok(copy.as_datagram()));
        IN_DATAGRAM.find(copy.as_datagram().records(), datagram);
    }
}

/// An iterator says how many are to come, and ends once and for all.
fn counts_down(mut items: impl ExactSizeIterator, count: usize) {
    for left in (0..=count).rev() {
        assert_eq!(items.len(), left);
        assert_eq!(items.next().is_some(), left > 0);
    }
    assert!(items.next().is_none());
}

#[test]
fn iterators_know_their_length() {
    let mut room = Contents::new();
    let records = DataPacket::read(Family::Standard, samples::CODEC16, &mut room).unwrap().records();
    counts_down(records.clone(), 2);
    counts_down(records.last().unwrap().values(), 4);
}

#[test]
fn all_can_be_shown() {
    let (packet, datagram, mut room) = (packet(&DATA), datagram(&DATA), Contents::new());
    assert_eq!(format!("{room:?}"), "Contents { .. }");
    let first = "records: [DataRecord { fields: Record { timestamp: 1000, ";
    let tag = "Value { id: 1029, kind: 9, offset: 113, bytes: [116, 97, 103], number: None }, Value {";
    let copy = DataPacket::read(Family::Standard, &packet, &mut room).unwrap().to_owned();
    let shown = format!("{copy:?}");
    assert!(
        shown.starts_with(&format!("OwnedPacket(DataPacket {{ family: Standard, codec: 142, {first}"))
            && shown.contains(tag)
    );
    let copy = DataDatagram::read(Family::Standard, &datagram, &mut room).unwrap().to_owned();
    let ids = "packet_id: 4660, unused: 86, avl_packet_id: 120";
    let head =
        format!("OwnedDatagram(DataDatagram {{ family: Standard, codec: 142, imei: 1020304050607, {ids}, {first}");
    assert!(format!("{copy:?}").starts_with(&head));
    assert_eq!(copy.as_datagram().to_string(), "IMEI 001020304050607, codec 8E, records 2");
}
