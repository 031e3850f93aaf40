//! The gateway of examples/ answers a unit byte for byte, wherever the connection cuts what it sends.
use std::io::{Error, Read, Result, Write};
use std::net::{Shutdown, SocketAddr, TcpListener, TcpStream};
use std::sync::{Arc, Mutex};
use std::thread;
use std::time::Duration;

use brundilope::samples::{CODEC12_RESPONSE, CODEC13_MESSAGE, CODEC16, CODEC8, CODEC8E, LOGIN};
use gateway::serve;

#[allow(dead_code)] // its `main`
#[path = "../examples/gateway.rs"]
mod gateway;

const KNOWN: &[u64] = &[356_307_042_441_013];

/// What a unit sends, and what is answered to each.
const SENT: [(&[u8], &[u8]); 5] =
    [(LOGIN, &[1]), (CODEC8, &[0, 0, 0, 1]), (CODEC12_RESPONSE, &[]), (CODEC13_MESSAGE, &[]), (CODEC16, &[0, 0, 0, 2])];

/// A gateway in this process. What it keeps goes to `keep`.
fn start(keep: impl Fn(&str) -> Result<()> + Send + Sync + 'static) -> SocketAddr {
    let listener = TcpListener::bind("127.0.0.1:0").unwrap();
    let address = listener.local_addr().unwrap();
    thread::spawn(move || serve(&listener, KNOWN, &keep));
    address
}

/// A unit that is connected; what it writes goes out at once.
fn unit(address: SocketAddr) -> TcpStream {
    let unit = TcpStream::connect(address).unwrap();
    unit.set_nodelay(true).unwrap();
    unit.set_read_timeout(Some(Duration::from_secs(60))).unwrap();
    unit
}

fn sent() -> Vec<u8> {
    SENT.map(|(bytes, _)| bytes).concat()
}

/// The answers to the items that are whole in the first bytes sent.
fn answers(size: usize) -> Vec<u8> {
    let mut end = 0;
    let whole = SENT.iter().filter(|(bytes, _)| {
        end += bytes.len();
        end <= size
    });
    whole.flat_map(|(_, answer)| answer.to_vec()).collect()
}

fn expect(mut unit: &TcpStream, answer: &[u8]) {
    let mut got = vec![0; answer.len()];
    unit.read_exact(&mut got).unwrap();
    assert_eq!(got, answer);
}

/// The unit hangs up; nothing but this was left for it to read.
fn ends(mut unit: TcpStream, answer: &[u8]) {
    unit.shutdown(Shutdown::Write).unwrap();
    let mut got = Vec::new();
    unit.read_to_end(&mut got).unwrap();
    assert_eq!(got, answer);
}

#[test]
fn answers_are_the_same_wherever_it_is_cut() {
    let (address, sent) = (start(|_| Ok(())), sent());
    for cut in 0..=sent.len() {
        let mut unit = unit(address);
        unit.write_all(&sent[..cut]).unwrap();
        expect(&unit, &answers(cut));
        thread::sleep(Duration::from_millis(1)); // the gateway has the rest of the first part, too
        unit.write_all(&sent[cut..]).unwrap();
        ends(unit, &answers(sent.len())[answers(cut).len()..]);
    }
}

#[test]
fn answers_come_as_soon_as_an_item_is_whole() {
    let (address, sent) = (start(|_| Ok(())), sent());
    let (mut unit, mut answered) = (unit(address), 0);
    for (place, byte) in sent.iter().enumerate() {
        unit.write_all(&[*byte]).unwrap();
        let due = answers(place + 1);
        expect(&unit, &due[answered..]);
        answered = due.len();
    }
    ends(unit, &[]);
}

/// Sends all of it; gives what the gateway answers before it closes, and what it keeps of it.
fn whole(bytes: &[u8]) -> (Vec<u8>, String) {
    let kept = Arc::new(Mutex::new(String::new()));
    let keeper = kept.clone();
    let mut unit = unit(start(move |lines| {
        keeper.lock().unwrap().push_str(lines);
        Ok(())
    }));
    let name = unit.local_addr().unwrap().to_string();
    unit.write_all(bytes).unwrap();
    unit.shutdown(Shutdown::Write).unwrap();
    let mut answer = Vec::new();
    unit.read_to_end(&mut answer).unwrap();
    let kept = kept.lock().unwrap().replace(&name, "unit");
    (answer, kept)
}

#[test]
fn all_is_kept() {
    let (answer, kept) = whole(&[&sent()[..], &CODEC8[..7]].concat());
    assert_eq!(answer, answers(sent().len()));
    let lines = "\
unit: login of 356307042441013
unit: data, codec 08, records 1
  time 1560161086000, longitude 0, latitude 0, values 5
unit: command, codec 0C, type 06: DI1:1 DI2:0 DI3:0 AIN1:0 AIN2:16924 DO1:0 DO2:1
unit: command, codec 0D, type 06, time 1692938881: hello lets test\\r\\n
unit: data, codec 10, records 2
  time 1562760414000, longitude 0, latitude 0, values 4
  time 1562760415000, longitude 0, latitude 0, values 4
unit: closed, hung up, 7 bytes of an item held
";
    assert_eq!(kept, lines);
}

#[test]
fn what_is_refused_closes() {
    let unknown = b"\x00\x0F356307042441014";
    let kept = "unit: login of 356307042441014\nunit: closed, unknown unit\n";
    assert_eq!(whole(unknown), (vec![0], kept.to_string()));
    let no_login = b"\x00\x0F35630704244101x";
    let kept = "unit: closed, refusal 15 at byte 16: IMEI length or digit wrong\n";
    assert_eq!(whole(no_login), (vec![0], kept.to_string()));
    let mut damaged = [LOGIN, CODEC8].concat();
    damaged[17 + 20] ^= 1;
    let kept = "unit: login of 356307042441013\nunit: closed, refusal 5 at byte 62: CRC field wrong\n";
    assert_eq!(whole(&damaged), (vec![1], kept.to_string()));
}

#[test]
fn what_is_not_kept_is_not_acknowledged() {
    let address = start(|lines| match lines.contains("codec 8E") {
        true => Err(Error::other("no room")),
        false => Ok(()),
    });
    let mut lost = unit(address);
    lost.write_all(&[LOGIN, CODEC8, CODEC8E].concat()).unwrap();
    ends(lost, &[1, 0, 0, 0, 1]);
    let mut other = unit(address);
    other.write_all(&sent()).unwrap();
    ends(other, &answers(sent().len()));
}

#[test]
fn units_that_break_off_end_no_other() {
    let address = start(|_| Ok(()));
    let mut other = unit(address);
    other.write_all(LOGIN).unwrap();
    expect(&other, &[1]);
    for _ in 0..20 {
        // it does not read its answers, so that the gateway may find the connection reset
        unit(address).write_all(&[LOGIN, &CODEC8.repeat(50)].concat()).unwrap();
    }
    other.write_all(CODEC16).unwrap();
    ends(other, &[0, 0, 0, 2]);
}
