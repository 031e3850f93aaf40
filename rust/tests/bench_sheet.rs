//! The bench sheet P1 to P13 of the requirements, as one table.
use brundilope::*;

const DATAGRAM: [u8; 58] = [
    0x00, 0x38, 0xCA, 0xFE, 0x01, 0x05, 0x00, 0x0F, 0x31, 0x32, 0x33, 0x34, 0x35, 0x36, 0x37, 0x38, 0x39, 0x30, 0x31,
    0x32, 0x33, 0x34, 0x35, 0x08, 0x01, 0x00, 0x00, 0x00, 0x00, 0x00, 0x00, 0x03, 0xE8, 0x01, 0xFF, 0xFF, 0xFF, 0xFF,
    0x20, 0x9C, 0xCA, 0x80, 0x00, 0x64, 0x00, 0x00, 0x07, 0x00, 0x05, 0x00, 0x01, 0x01, 0x15, 0x03, 0x00, 0x00, 0x00,
    0x01,
];

const FORM: [u8; 43] = [
    0x01, 0x00, 0x64, 0x00, 0x08, 0x1B, 0x00, 0x65, 0x00, 0xE8, 0x03, 0x00, 0x00, 0x00, 0x00, 0x00, 0x00, 0x01, 0xFF,
    0xFF, 0xFF, 0xFF, 0x80, 0xCA, 0x9C, 0x20, 0x64, 0x00, 0x00, 0x00, 0x07, 0x05, 0x00, 0x00, 0x00, 0x00, 0x03, 0x00,
    0x01, 0x00, 0x15, 0x00, 0x03,
];

/// What a call gives: bytes, or a refusal.
type Answer = Result<Vec<u8>, Refusal>;

fn form(datagram: &[u8]) -> Answer {
    written(|out| form_of_datagram(Family::Standard, datagram, out))
}

fn acknowledgement(datagram: &[u8]) -> Answer {
    written(|out| acknowledge_datagram(Family::Standard, datagram, out))
}

fn written(write: impl Fn(&mut [u8]) -> Result<usize, Refusal>) -> Answer {
    let mut out = vec![0xEE; 64];
    let size = write(&mut out)?;
    assert!(out[size..].iter().all(|b| *b == 0xEE), "a byte behind the result was changed");
    out.truncate(size);
    Ok(out)
}

fn packet(input: &[u8]) -> Answer {
    read_packet(Family::Standard, input).map(|p| vec![p.codec, p.count])
}

fn datagram(input: &[u8]) -> Answer {
    read_datagram(Family::Standard, input).map(|d| vec![d.codec, d.count])
}

fn command(input: &[u8]) -> Answer {
    read_command(Family::Standard, input).map(|c| [&[c.codec, c.message_type], c.text].concat())
}

/// The input with bytes replaced.
fn with(input: &[u8], changes: &[(usize, u8)]) -> Vec<u8> {
    let mut changed = input.to_vec();
    for &(place, byte) in changes {
        changed[place] = byte;
    }
    changed
}

const fn refused(number: usize, offset: Option<usize>) -> Answer {
    Err(Refusal { number, record: None, offset })
}

const fn refused_at(record: usize, number: usize, offset: usize) -> Answer {
    Err(Refusal { number, record: Some(record), offset: Some(offset) })
}

type Row = (&'static str, fn(&[u8]) -> Answer, Vec<u8>, Answer);

fn sheet() -> [Row; 17] {
    let getio = samples::CODEC12_COMMAND;
    let zeros = [0; 8];
    let changed = |place, byte| with(&DATAGRAM, &[(place, byte)]);
    [
        ("P1", form, DATAGRAM.to_vec(), Ok(FORM.to_vec())),
        ("P2", acknowledgement, DATAGRAM.to_vec(), Ok(vec![0x00, 0x05, 0xCA, 0xFE, 0x01, 0x05, 0x01])),
        ("P3", datagram, changed(1, 0x37), refused(4, None)),
        ("P4", datagram, changed(57, 2), refused(7, Some(57))),
        ("P5", datagram, changed(33, 3), refused_at(0, 10, 33)),
        ("P6", datagram, changed(50, 2), refused_at(0, 9, 25)),
        ("P7", datagram, changed(51, 2), refused_at(0, 8, 57)),
        ("P8", datagram, with(&DATAGRAM, &[(24, 2), (57, 2)]), refused_at(1, 8, 57)),
        ("P9", command, getio.to_vec(), Ok(b"\x0C\x05getio".to_vec())),
        ("P10", command, with(getio, &[(24, 0xCA)]), refused(5, Some(21))),
        ("P11 packet", packet, vec![], refused(1, None)),
        ("P11 command", command, vec![], refused(1, None)),
        ("P12 packet", packet, zeros.to_vec(), refused(3, Some(4))),
        ("P12 command", command, zeros.to_vec(), refused(3, Some(4))),
        ("P13 with 04 F5", packet, with(&zeros, &[(6, 0x04), (7, 0xF5)]), refused(3, Some(4))),
        ("P13 with 04 F4", packet, with(&zeros, &[(6, 0x04), (7, 0xF4)]), refused(4, None)),
        ("P13 with 04 F4, command", command, with(&zeros, &[(6, 0x04), (7, 0xF4)]), refused(4, None)),
    ]
}

#[test]
fn the_bench_sheet_holds() {
    for (name, call, input, expected) in sheet() {
        assert_eq!(call(&input), expected, "{name}");
    }
}
