//! A connection gives the same items however its bytes are cut, and those that the calls for one thing each accept.
use brundilope::*;
use inputs::{form_of_counts, packet, with, DATA, LONGEST, LONGEST_640};

#[allow(dead_code)] // the rest is for other tests
mod inputs;

const CODEC: usize = 8;
const FAMILIES: [Family; 2] = [Family::Fmx640, Family::Standard];

/// What a unit might send, item by item.
fn sent() -> Vec<Vec<u8>> {
    use samples::*;
    [LOGIN, CODEC8, CODEC12_RESPONSE, &packet(&DATA), CODEC13_MESSAGE, CODEC14_RESPONSE, CODEC16]
        .map(<[u8]>::to_vec)
        .into()
}

/// All items of bytes that come in these pieces; every feed uses all of its bytes.
fn items<'a>(connection: &mut Connection, pieces: impl IntoIterator<Item = &'a [u8]>) -> Vec<Item> {
    let mut all = Vec::new();
    for piece in pieces {
        let mut items = connection.items(piece);
        all.extend(items.by_ref());
        assert_eq!(items.used(), piece.len());
    }
    all
}

/// A connection after the login.
fn logged_in(family: Family) -> Connection {
    let mut connection = Connection::new(family);
    assert_eq!(connection.feed(samples::LOGIN).item, Item::Login(read_login(samples::LOGIN).unwrap()));
    connection
}

/// The bytes of an item.
fn bytes(item: &Item) -> &[u8] {
    match item {
        Item::Login(_) => samples::LOGIN,
        Item::Data(data) => data.bytes(),
        Item::Command(command) => command.bytes(),
        other => panic!("{other:?}"),
    }
}

#[test]
fn items_are_the_same_however_they_are_cut() {
    let stream = sent().concat();
    for fresh in FAMILIES.map(Connection::new) {
        let whole = items(&mut fresh.clone(), [&stream[..]]);
        assert_eq!(whole.iter().map(bytes).collect::<Vec<_>>(), sent());
        for cut in 0..=stream.len() {
            let (first, second) = stream.split_at(cut);
            assert_eq!(items(&mut fresh.clone(), [first, second]), whole, "cut at {cut}");
        }
        for size in [1, 2, 7, 64] {
            assert_eq!(items(&mut fresh.clone(), stream.chunks(size)), whole, "pieces of {size}");
        }
    }
}

#[test]
fn states_are_the_same_however_they_are_fed() {
    let (mut bytewise, mut fed) = (Connection::new(Family::Standard), Vec::new());
    for (n, item) in sent().into_iter().enumerate() {
        let (phase, head) = if n == 0 { (Phase::Login, 17) } else { (Phase::Packets, 8) };
        for (held, byte) in item.iter().enumerate() {
            let mut at_once = Connection::new(Family::Standard);
            items(&mut at_once, [&fed[..]]);
            assert_eq!(bytewise, at_once, "after {} bytes", fed.len());
            assert_eq!((bytewise.phase(), bytewise.held()), (phase, &item[..held]));
            assert_eq!(bytewise.wanted(), if held < head { head } else { item.len() } - held);
            items(&mut bytewise, [&[*byte][..]]);
            fed.push(*byte);
        }
    }
}

#[test]
fn who_reads_what_is_wanted_never_reads_too_much() {
    let stream = sent().concat();
    let (mut connection, mut rest, mut given) = (Connection::new(Family::Standard), &stream[..], Vec::new());
    while !rest.is_empty() {
        let (wanted, behind) = rest.split_at(connection.wanted());
        let fed = connection.feed(wanted);
        assert_eq!(fed.used, wanted.len());
        given.push(fed.item);
        rest = behind;
    }
    given.retain(|item| *item != Item::More);
    assert_eq!(given.iter().map(bytes).collect::<Vec<_>>(), sent());
}

#[test]
fn a_feed_stops_behind_its_item() {
    let stream = sent().concat();
    let (mut connection, mut rest) = (Connection::new(Family::Standard), &stream[..]);
    for item in sent() {
        let Fed { used, item: given } = connection.feed(rest);
        assert_eq!((used, bytes(&given)), (item.len(), &item[..]));
        assert_eq!(connection.held(), []);
        rest = &rest[used..];
    }
    assert_eq!(connection.feed(rest), Fed { used: 0, item: Item::More });
}

#[test]
fn an_empty_feed_changes_nothing() {
    let mut connection = Connection::new(Family::Standard);
    for byte in sent().concat() {
        let before = connection.clone();
        assert_eq!(connection.feed(&[]), Fed { used: 0, item: Item::More });
        assert_eq!(connection.items(&[]).next(), None);
        assert_eq!(connection, before);
        let _ = connection.feed(&[byte]);
    }
}

#[test]
fn packets_are_read_as_by_themselves() {
    for (family, largest, counts) in [(Family::Fmx640, 512, &LONGEST_640[..]), (Family::Standard, LARGEST, &LONGEST)] {
        let (mut longest, mut long_command) = (vec![0; largest], vec![0; largest]);
        assert_eq!(packet_of_form(family, &form_of_counts(counts), &mut longest), Ok(largest));
        assert_eq!(
            write_command(family, Heading::Codec12, 0x06, &vec![b'x'; largest - 20], &mut long_command),
            Ok(largest)
        );
        let mut connection = logged_in(family);
        for input in [longest, long_command].iter().chain(&sent()[1..]) {
            read_as_by_itself(&connection.feed(input).item, family, input);
        }
    }
}

/// An item gives what the calls for one thing each give of the input, by the family of its connection.
fn read_as_by_itself(item: &Item, family: Family, input: &[u8]) {
    let (mut room, mut own) = (Contents::new(), Contents::new());
    match item {
        Item::Data(data) => {
            assert_eq!(data.family(), family);
            assert_eq!(Ok(data.read(&mut room)), DataPacket::read(family, input, &mut own));
            assert_eq!(Ok(Packet { codec: data.codec(), count: data.count() }), read_packet(family, input));
            assert_eq!(data.ack(), data.read(&mut room).ack());
        }
        Item::Command(command) => {
            assert_eq!(command.family(), family);
            assert_eq!(Ok(command.read()), read_command(family, input));
        }
        other => panic!("{other:?}"),
    }
}

#[test]
fn a_login_is_answered_as_by_itself() {
    for known in [false, true] {
        let mut answer = [0xEE];
        assert_eq!(answer_login(samples::LOGIN, known, &mut answer), Ok(1));
        assert_eq!(read_login(samples::LOGIN).unwrap().answer(known), answer);
    }
}

/// The connection is closed, and says so as often as it is fed.
fn stays_closed(connection: &mut Connection) {
    let closed = Item::Refused(Refusal { number: 19, record: None, offset: None });
    let before = connection.clone();
    assert!(connection.is_closed());
    assert_eq!((connection.phase(), connection.held(), connection.wanted()), (Phase::Closed, &[][..], 0));
    for input in [samples::CODEC8, samples::LOGIN, &[]] {
        assert_eq!(connection.feed(input), Fed { used: 0, item: closed.clone() });
        let mut items = connection.items(input);
        assert_eq!(items.next(), Some(closed.clone()));
        assert_eq!((items.next(), items.next(), items.used()), (None, None, 0));
    }
    assert_eq!(*connection, before);
    connection.reset();
    assert_eq!(*connection, Connection::new(before.family()));
}

/// A refused item closes the connection with this refusal once so many of its bytes are there, wherever it is cut.
fn refused(fresh: &Connection, input: &[u8], used: usize, refusal: Refusal) {
    let behind = [input, samples::CODEC8].concat();
    for cut in 0..used {
        let mut connection = fresh.clone();
        assert_eq!(connection.feed(&behind[..cut]), Fed { used: cut, item: Item::More });
        let item = Item::Refused(refusal);
        assert_eq!(connection.feed(&behind[cut..]), Fed { used: used - cut, item }, "cut at {cut}");
        stays_closed(&mut connection);
    }
}

#[test]
fn refusals_close() {
    let no = |number, offset| Refusal { number, record: None, offset: Some(offset) };
    let login = with(samples::LOGIN, 16, b':');
    refused(&Connection::new(Family::Standard), &login, 17, no(15, 16));
    refused(&Connection::new(Family::Standard), samples::CODEC8, 17, no(15, 0));
    for (family, over) in [(Family::Fmx640, 501), (Family::Standard, 1269)] {
        for length in [0, 2, over, 1 << 24] {
            let header: Vec<u8> = [0; 4].into_iter().chain(u32::to_be_bytes(length)).collect();
            refused(&logged_in(family), &header, 8, no(3, 4));
        }
    }
    let open = logged_in(Family::Standard);
    refused(&open, samples::LOGIN, 8, no(2, 0));
    let crc = with(samples::CODEC8, 65, 0);
    refused(&open, &crc, 66, no(5, 62));
    let fields = [
        (no(6, 8), vec![0x0F, 1, 1]),
        (no(7, 9), vec![0x08, 0, 0]),
        (Refusal { record: Some(0), ..no(8, 10) }, vec![0x08, 1, 1]),
        (Refusal { record: Some(1), ..no(10, 56) }, with(&DATA, 48, 3)),
        (no(7, 9), vec![0x0C, 2, 2]),
        (no(8, 10), vec![0x0C, 1, 1]),
        (no(8, 10), vec![0x0D, 1, 1]),
        (no(8, 10), vec![0x0E, 1, 1]),
        (no(13, 10), vec![0x0C, 1, 0x11, 0, 0, 0, 0, 1]),
        (no(13, 10), vec![0x0D, 1, 0x11, 0, 0, 0, 4, 0, 0, 0, 0, 1]),
        (no(14, 11), vec![0x0C, 1, 5, 0, 0, 0, 1, 1]),
        (no(14, 11), vec![0x0D, 1, 6, 0, 0, 0, 3, 0, 0, 0, 1]),
        (no(15, 15), vec![0x0E, 1, 5, 0, 0, 0, 8, 0x10, 0, 0, 0, 0, 0, 0, 0, 1]),
    ];
    for (refusal, data) in fields {
        refused(&open, &packet(&data), data.len() + 12, refusal);
    }
}

#[test]
fn refusals_are_those_of_reading() {
    let open = logged_in(Family::Standard);
    for (place, byte) in DATA.into_iter().enumerate() {
        for wrong in [0, 3, 0x0C, 0x0D, byte.wrapping_add(1)] {
            let input = packet(&with(&DATA, place, wrong));
            let expected = match input[CODEC] {
                0x0C..=0x0E => read_command(Family::Standard, &input).map(|_| ()),
                _ => read_packet(Family::Standard, &input).map(|_| ()),
            };
            let fed = open.clone().feed(&input);
            assert_eq!(fed.used, input.len());
            match fed.item {
                Item::Refused(refusal) => assert_eq!(Err(refusal), expected),
                item => assert_eq!((bytes(&item), expected), (&input[..], Ok(()))),
            }
        }
    }
}

#[test]
fn items_end_with_the_refusal() {
    let input = [samples::LOGIN, samples::CODEC8, b"no packet", samples::CODEC16].concat();
    let mut connection = Connection::new(Family::Standard);
    let mut items = connection.items(&input);
    let given: Vec<Item> = items.by_ref().collect();
    assert_eq!(given.iter().take(2).map(bytes).collect::<Vec<_>>(), [samples::LOGIN, samples::CODEC8]);
    assert_eq!(given[2..], [Item::Refused(Refusal { number: 2, record: None, offset: Some(0) })]);
    assert_eq!((items.next(), items.used()), (None, 17 + 66 + 8));
    stays_closed(&mut connection);
}

#[test]
fn items_not_asked_for_are_not_fed() {
    let stream = sent().concat();
    let mut connection = Connection::new(Family::Standard);
    drop(connection.items(&stream));
    assert_eq!(connection, Connection::new(Family::Standard));
    let mut items = connection.items(&stream);
    assert_eq!(items.by_ref().take(2).count(), 2);
    let used = items.used();
    assert_eq!((used, connection.held()), (17 + 66, &[][..]));
    assert_eq!(connection.items(&stream[used..]).count(), 5);
}

#[test]
fn all_can_be_shown() {
    let open = logged_in(Family::Fmx640);
    let mut connection = open.clone();
    let fed = connection.feed(&[0, 0]);
    assert_eq!(format!("{fed:?}"), "Fed { used: 2, item: More }");
    assert_eq!(format!("{connection:?}"), "Connection { family: Fmx640, phase: Packets, held: [0, 0] }");
    let data = samples::CODEC8;
    assert_eq!(format!("{:?}", open.clone().feed(data).item), format!("Data(ReceivedData(Fmx640, {data:?}))"));
    let command = samples::CODEC12_COMMAND;
    let shown = format!("Command(ReceivedCommand(Fmx640, {command:?}))");
    assert_eq!(format!("{:?}", open.clone().feed(command).item), shown);
}
