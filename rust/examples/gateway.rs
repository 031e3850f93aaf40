//! A gateway: `cargo run --example gateway ADDRESS IMEI...`, where port 0 is any that is free.
//!
//! It answers the logins of these units, prints what they send and acknowledges each data packet once it is printed.
use std::io::{self, ErrorKind, Read, Write};
use std::net::{TcpListener, TcpStream};
use std::time::Duration;
use std::{env, process, thread};

use brundilope::{Connection, Contents, Family, Item};

/// Keeps lines, or says why it cannot: in place of a database.
pub type Keep<'a> = &'a (dyn Fn(&str) -> io::Result<()> + Sync);

/// Units of both families may connect: this one accepts whatever the other does.
const FAMILY: Family = Family::Standard;

/// Whoever is silent for so long is gone.
const SILENCE: Duration = Duration::from_secs(600);

/// Serves all units, each in a thread of its own.
pub fn serve(listener: &TcpListener, known: &[u64], keep: Keep) {
    thread::scope(|scope| {
        for unit in listener.incoming() {
            let thread = thread::Builder::new();
            let served = unit.and_then(|unit| thread.spawn_scoped(scope, move || serve_unit(&unit, known, keep)));
            if let Err(error) = served {
                let _ = keep(&format!("a connection was lost: {error}\n"));
                thread::sleep(Duration::from_millis(100)); // until threads or sockets are free again
            }
        }
    });
}

/// Serves one unit and says why that has ended. Whatever it was, no other unit is touched by it.
fn serve_unit(unit: &TcpStream, known: &[u64], keep: Keep) {
    let name = unit.peer_addr().map_or("a unit".to_string(), |address| address.to_string());
    let end = match answer_unit(unit, &name, known, keep) {
        Ok(end) => end,
        Err(error) if error.kind() == ErrorKind::WouldBlock => "silent for too long".to_string(),
        Err(error) => error.to_string(),
    };
    let _ = keep(&format!("{name}: closed, {end}\n"));
}

/// Answers a unit until it hangs up, proves to be unknown or sends what is refused; says which.
fn answer_unit(mut unit: &TcpStream, name: &str, known: &[u64], keep: Keep) -> io::Result<String> {
    unit.set_read_timeout(Some(SILENCE))?;
    let (mut connection, mut room, mut bytes) = (Connection::new(FAMILY), Contents::new(), [0; 4096]);
    let mut logged_in = false;
    loop {
        let size = match unit.read(&mut bytes) {
            Err(error) if error.kind() == ErrorKind::Interrupted => continue,
            read => read?,
        };
        if size == 0 {
            return Ok(format!("hung up, {} bytes of an item held", connection.held().len()));
        }
        for item in connection.items(&bytes[..size]) {
            match &item {
                Item::Login(login) => {
                    logged_in = known.contains(&login.imei);
                    keep(&format!("{name}: login of {:015}\n", login.imei))?;
                    unit.write_all(&login.answer(logged_in))?;
                    if !logged_in {
                        return Ok("unknown unit".to_string());
                    }
                }
                Item::Data(data) => {
                    let packet = data.read(&mut room);
                    let records: String = packet.records().map(|record| format!("  {record}\n")).collect();
                    keep(&format!("{name}: data, {packet}\n{records}"))?;
                    unit.write_all(&data.ack())?; // not before: the unit forgets what is acknowledged
                }
                Item::Command(command) => {
                    keep(&format!("{name}: command, {}\n", command.read()))?;
                }
                Item::Refused(refusal) => {
                    unit.write_all(if logged_in { &[] } else { &[0] })?;
                    return Ok(refusal.to_string());
                }
                Item::More => {}
            }
        }
    }
}

fn main() -> io::Result<()> {
    let mut words = env::args().skip(1);
    let (address, known) = (words.next(), words.map(|word| word.parse()).collect::<Result<Vec<u64>, _>>());
    let (Some(address), Ok(known)) = (address, known) else {
        eprintln!("usage: gateway ADDRESS IMEI..., such as gateway 127.0.0.1:5027 356307042441013");
        process::exit(2)
    };
    let listener = TcpListener::bind(address)?;
    let print = |lines: &str| io::stdout().write_all(lines.as_bytes()).and_then(|()| io::stdout().flush());
    print(&format!("listening on {}\n", listener.local_addr()?))?;
    serve(&listener, &known, &print);
    Ok(())
}
