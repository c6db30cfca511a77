#[path = "../include/imjarlet.rs"]
mod imjarlet;
use imjarlet::{Controller, Drive, Refusal, encode};

fn main() -> Result<(), Refusal> {
    let mut head = Controller::fresh();
    let mut wanted = head.settings;
    let (mut packet, mut response) = ([0; 64], [0; 64]);
    wanted.current.red = Drive(300);
    let length = encode(0x01, 0x04, &wanted, &mut packet)?;
    let answer = head.receive(&packet[..length], &mut response)?;
    let red = head.settings.current.red;
    println!("{answer:?}, response type {:02x}, red {red:?}", response[0]);
    packet[9] += 4; // green 1298 counts, which is not allowed
    packet[12] += 4; // the checksum of that
    let answer = head.receive(&packet[..length], &mut response)?;
    println!("{answer:?}, response type {:02x}, code {:02x}", response[0], response[6]);
    Ok(())
}
