//! Reads a TCP data packet from standard input and prints the billing line of each record:
//! `cargo run --example lines <FILE`
use std::io::Read;

use brundilope::{Contents, DataPacket, Family, Refusal, LARGEST_LINES};

fn show(bytes: &[u8]) -> Result<(), Refusal> {
    let (mut room, mut text) = (Contents::new(), [0; LARGEST_LINES]);
    for line in DataPacket::read(Family::Standard, bytes, &mut room)?.lines(&mut text) {
        print!("{line}"); // the LF is the line's own
    }
    Ok(())
}

fn main() -> std::io::Result<()> {
    let mut bytes = Vec::new();
    std::io::stdin().read_to_end(&mut bytes)?;
    if let Err(refusal) = show(&bytes) {
        println!("{refusal}");
        std::process::exit(1);
    }
    Ok(())
}
