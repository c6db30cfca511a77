// The DLPC200's SPI port, written from source document 000 and request 1 alone. It goes byte by byte
// and shares nothing with the Rattle crates. A planted fault makes it wrong on purpose, so that the
// comparison can be seen to find it.
use std::sync::atomic::{AtomicU32, Ordering};

// The number of the planted fault, 0 for none.
pub static PLANT: AtomicU32 = AtomicU32::new(0);
pub const PLANTS: u32 = 13;

fn plant(n: u32) -> bool {
    PLANT.load(Ordering::Relaxed) == n
}

#[derive(Clone, Copy, PartialEq, Eq, Debug)]
pub struct Model {
    // 0015, 0016, 0017, 0029, 002A
    pub states: [u8; 5],
    // the first ten bytes of the packet that is coming in, over those of the one before
    pub first: [u8; 10],
    // its bytes so far, and the sum of those after CMD4; with none of those yet the sum may be anything
    pub count: usize,
    pub sum: u8,
}

#[derive(Clone, Copy, PartialEq, Eq, Debug)]
pub enum Answer {
    Refused(u32),
    Waiting(usize),
    Answered(usize, usize),
}

// What held of a packet, for the tally of what was tried.
#[derive(Clone, Copy, PartialEq, Eq, Debug, Default)]
pub struct Judged {
    pub checksum: bool,
    pub cmd1: bool,
    pub cmd2: bool,
    pub cmd4: bool,
    pub size: bool,
    pub unknown: bool,
    pub id: u16,
}

impl Judged {
    pub fn faults(&self) -> u32 {
        [self.checksum, self.cmd1, self.cmd2, self.cmd4, self.size].iter().filter(|x| **x).count() as u32
    }
    pub fn failed(&self) -> bool {
        self.faults() > 0 || self.unknown
    }
}

// CMD1 of each command of the list, and which state it reads.
fn command(id: u16) -> Option<(u8, Option<usize>)> {
    match id {
        0x0005 | 0x0006 => Some((0x02, None)),
        0x0015 => Some((0x04, Some(0))),
        0x0016 => Some((0x04, Some(1))),
        0x0017 => Some((0x04, Some(2))),
        0x0029 => Some((0x04, Some(3))),
        0x002A => Some((0x04, Some(4))),
        _ => None,
    }
}

impl Model {
    fn length(&self) -> usize {
        u16::from_le_bytes([self.first[4], self.first[5]]) as usize
    }

    pub fn in_rule(&self) -> bool {
        // plant 1: 8 in the range of 0029; plant 2: a whole half-received packet
        let most = [1, 1, 1, if plant(1) { 8 } else { 7 }, 1];
        (0..5).all(|i| self.states[i] <= most[i]) && self.count <= 6 + plant(2) as usize + self.length()
    }

    // One call. The output is written as the real one's is.
    pub fn receive(&mut self, input: &[u8], out: &mut [u8]) -> (Answer, Option<Judged>) {
        // plant 3: 3 is tested before 1
        if plant(3) && !self.in_rule() {
            return (Answer::Refused(3), None);
        }
        if out.len() < 64 {
            return (Answer::Refused(1), None);
        }
        if !self.in_rule() {
            return (Answer::Refused(3), None);
        }
        for (at, &byte) in input.iter().enumerate() {
            if self.count >= 6 && self.count == 6 + self.length() {
                let judged = self.judge(byte);
                let response = self.carry_out(&judged);
                self.count = 0;
                self.sum = 0;
                out[..response.len()].copy_from_slice(&response);
                return (Answer::Answered(at + 1, response.len()), Some(judged));
            }
            if self.count < self.first.len() {
                self.first[self.count] = byte;
            }
            // plant 4: the checksum counts CMD4; plant 13: the sum goes on from what stands there
            let start = 4 - plant(4) as usize;
            if self.count >= start {
                let before = if self.count == start && !plant(13) { 0 } else { self.sum as u32 };
                self.sum = ((before + byte as u32) & 0xFF) as u8;
            }
            self.count += 1;
        }
        (Answer::Waiting(input.len()), None)
    }

    fn judge(&self, checksum: u8) -> Judged {
        let length = self.length();
        let id = if length >= 2 { u16::from_le_bytes([self.first[6], self.first[7]]) } else { 0xFFFF };
        let known = command(id);
        let cmd1 = self.first[0];
        let mut judged = Judged { id, unknown: known.is_none(), ..Default::default() };
        judged.checksum = checksum != self.sum;
        judged.cmd1 = cmd1 != 0x02 && cmd1 != 0x04;
        judged.cmd2 = self.first[1] != 0xAA;
        // plant 5: CMD3 is judged; plants 6 and 7: the limits of the size
        judged.cmd4 = self.first[3] != 0x00 || plant(5) && self.first[2] != 0x00;
        judged.size = length < 2 - plant(6) as usize || length > 504 + plant(7) as usize;
        if let Some((wanted, _)) = known {
            judged.cmd1 |= cmd1 != wanted;
            judged.size |= length != 2;
        } else {
            // plant 8: an unknown command sets more than bit 6
            judged.size |= plant(8);
        }
        judged
    }

    fn carry_out(&mut self, judged: &Judged) -> Vec<u8> {
        let mut data = vec![0u8, 0u8];
        if judged.failed() {
            // plant 9: bit 6 is missing; plant 10: CMD4 has the bit of CMD3
            data[0] |= (!plant(9) as u8) << 6;
            data[0] |= (judged.checksum as u8) << 0;
            data[0] |= (judged.cmd1 as u8) << 1;
            data[0] |= (judged.cmd2 as u8) << 2;
            data[0] |= (judged.cmd4 as u8) << (4 - plant(10) as u8);
            data[1] |= (judged.size as u8) << 3;
        } else {
            match judged.id {
                // plant 11: park and unpark are exchanged
                0x0005 => self.states[0] = !plant(11) as u8,
                0x0006 => self.states[0] = plant(11) as u8,
                id => data.push(self.states[command(id).unwrap().1.unwrap()]),
            }
        }
        // plant 12: a read that failed draws a write response
        let kind = if self.first[0] == 0x04 && !(plant(12) && judged.failed()) { 0x05 } else { 0x03 };
        let mut packet = vec![kind, 0xAA, 0x00, 0x00, data.len() as u8, 0x00];
        packet.extend(&data);
        let sum: u32 = packet[4..].iter().map(|x| *x as u32).sum();
        packet.push((sum % 256) as u8);
        packet
    }
}
