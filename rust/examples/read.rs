//! Reads a TCP data packet from standard input and prints what is in it: `cargo run --example read <FILE`
use std::io::Read;

use brundilope::{Contents, DataPacket, Family, Refusal};

fn show(bytes: &[u8]) -> Result<(), Refusal> {
    let mut room = Contents::new();
    let packet = DataPacket::read(Family::Standard, bytes, &mut room)?;
    println!("codec {:02X}, records {}", packet.codec(), packet.count());
    for r in packet.records() {
        let (time, longitude, latitude) = (r.timestamp(), r.longitude(), r.latitude());
        println!("time {time}, longitude {longitude}, latitude {latitude}, values {}", r.values().len());
    }
    Ok(())
}

fn main() -> std::io::Result<()> {
    let mut bytes = Vec::new();
    std::io::stdin().read_to_end(&mut bytes)?;
    if let Err(refusal) = show(&bytes) {
        println!("{refusal}");
        std::process::exit(1);
    }
    Ok(())
}
