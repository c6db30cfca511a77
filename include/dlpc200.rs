//! The DLPC200 on its SPI port, as safe Rust over the static library libdlpc200.a.
//!
//! A program takes this file in by `#[path = "include/dlpc200.rs"] mod dlpc200;` and links by
//! `-l static=dlpc200`, with `-L target/staticlib` on the machine itself (`scripts/built dlpc200` makes
//! the library there) or `-L target/firmware/TARGET` for firmware (`scripts/firmware TARGET dlpc200` makes
//! it). It needs nothing but `core`. Bytes and command IDs are hexadecimal in the comments (02 AA, 0015);
//! numbers are decimal.
//!
//! Sizes and offsets are the same on every target, and no type has padding.
#![allow(dead_code)]

/// The shortest output that a receive call takes.
pub const OUTPUT_LEAST: usize = 64;
/// The most data of a packet; one with more is taken to its end and fails.
pub const DATA_MOST: usize = 504;
/// How many data bytes are held of a packet.
pub const HOLD: usize = 4;

/// CMD1 of what the host sends.
pub const WRITE: u8 = 0x02;
pub const READ: u8 = 0x04;
/// CMD1 of what the DLPC200 answers: 05 to CMD1 04, and 03 to any other.
pub const WRITE_RESP: u8 = 0x03;
pub const READ_RESP: u8 = 0x05;
/// CMD2 of every packet.
pub const EXTENDED: u8 = 0xAA;
/// CMD4 of the only packet of a transfer.
pub const ONLY: u8 = 0x00;

/// The commands, by their IDs, which are Data[0] and Data[1], least significant byte first. Each has
/// these two data bytes and no more.
pub mod command {
    /// A write; sets what 0015 reads.
    pub const PARK_DMD: u16 = 0x0005;
    /// A write; clears it.
    pub const UNPARK_DMD: u16 = 0x0006;
    /// Reads; the state is Data[2] of the response.
    pub const GET_DMD_SOFTWARE_PARK_STATE: u16 = 0x0015;
    pub const GET_SEQ_RUN_STATE: u16 = 0x0016;
    pub const GET_EEPROM_FAULT: u16 = 0x0017;
    pub const GET_INIT_FROM_PARALLEL_FLASH_FAIL: u16 = 0x0029;
    pub const GET_OVERALL_LED_LAMP_LIT_STATE: u16 = 0x002A;
}

/// The two status bytes of a response, its Data[0] and Data[1]: both 00 where the command was carried
/// out. A packet that failed is answered by them alone.
pub mod status {
    /// Their places in a response.
    pub const AT_DATA0: usize = 6;
    pub const AT_DATA1: usize = 7;

    /// Data[0]: the checksum is wrong.
    pub const ERR_CHK_SUM_ERROR: u8 = 0x01;
    /// Data[0]: CMD1 is neither 02 nor 04, or not the one of its command.
    pub const ERR_INVALID_CMD1: u8 = 0x02;
    /// Data[0]: CMD2 is not AA.
    pub const ERR_INVALID_CMD2: u8 = 0x04;
    /// Data[0]: CMD4 is not 00.
    pub const ERR_INVALID_CMD4: u8 = 0x10;
    /// Data[0]: the packet failed; alone where the command is not in the list and there is no fault.
    pub const ERR_CMD_EXE_FAILED: u8 = 0x40;
    /// Data[1]: under 2 or over 504 data bytes, or not the command's 2.
    pub const ERR_INSUF_CMD_DATA: u8 = 0x08;
}

/// The states that the commands read, which the host supplies.
#[repr(C)]
#[derive(Clone, Copy, PartialEq, Eq, Debug)]
pub struct States {
    /// 0015: 0 or 1
    pub park: u8,
    /// 0016: 0 or 1
    pub sequence: u8,
    /// 0017: 0 or 1
    pub eeprom: u8,
    /// 0029: 0 to 7
    pub flash: u8,
    /// 002A: 0 or 1
    pub lit: u8,
}

/// What has come in of the current packet, and the states.
#[repr(C)]
#[derive(Clone, Copy, PartialEq, Eq, Debug)]
pub struct Device {
    /// bytes of the current packet
    pub received: u32,
    /// CMD1, CMD2, CMD3, CMD4, Len_LSB, Len_MSB
    pub header: [u8; 6],
    /// Data[0] to Data[3]
    pub hold: [u8; HOLD],
    /// of the bytes after CMD4, begun anew with the first of them
    pub sum: u8,
    pub states: States,
}

// The layout that the library has: a field of another width or in another place is refused here. The
// places fix the width of each field but the last ones, and these are fixed by the sizes.
const _: () = {
    use core::mem::{align_of, offset_of, size_of};
    assert!(size_of::<States>() == 5 && align_of::<States>() == 1);
    assert!(offset_of!(States, park) == 0 && offset_of!(States, sequence) == 1);
    assert!(offset_of!(States, eeprom) == 2 && offset_of!(States, flash) == 3);
    assert!(offset_of!(States, lit) == 4);
    assert!(size_of::<Device>() == 20 && align_of::<Device>() == 4);
    assert!(offset_of!(Device, received) == 0 && offset_of!(Device, header) == 4);
    assert!(offset_of!(Device, hold) == 10 && offset_of!(Device, sum) == 14);
    assert!(offset_of!(Device, states) == 15);
};

/// What a call refuses. It then takes nothing and leaves output and device as they were.
#[derive(Clone, Copy, PartialEq, Eq, Debug)]
pub enum Refusal {
    /// 1: the output is shorter than 64 bytes.
    ShortOutput = 1,
    /// 3: the device is out of rule.
    OutOfRule = 3,
}

impl Refusal {
    /// The number that `dlpc200_receive` answers.
    pub fn number(self) -> u32 {
        self as u32
    }
}

/// What a call answers.
#[derive(Clone, Copy, PartialEq, Eq, Debug)]
pub enum Answer {
    /// The input ended before a packet did; all of it was taken.
    Waiting { taken: usize },
    /// One packet is complete, and its response stands at the output's start.
    Answered { taken: usize, length: usize },
}

/// The library's functions. A slice goes as a pointer and then a length.
pub mod calls {
    use super::{Device, States};
    unsafe extern "C" {
        pub fn dlpc200_reset(device: *mut Device, states: *const States) -> u32;
        pub fn dlpc200_receive(device: *mut Device, input: *const u8, input_length: u64, out: *mut u8, out_length: u64, taken: *mut u64, size: *mut u64) -> u32;
        pub safe fn dlpc200_faults(data0: u8, data1: u8) -> u32;
    }
}

impl Device {
    /// A device between two packets.
    pub fn new(states: States) -> Device {
        // Zeros are a device, as any bytes are.
        let mut device: Device = unsafe { core::mem::zeroed() };
        unsafe { calls::dlpc200_reset(&mut device, &states) };
        device
    }

    /// Takes bytes until the input ends or one packet is complete.
    pub fn receive(&mut self, input: &[u8], out: &mut [u8]) -> Result<Answer, Refusal> {
        let (mut taken, mut size) = (0, 0);
        // The library reads within input_length bytes at input and writes within out_length bytes at out.
        let refusal = unsafe { calls::dlpc200_receive(self, input.as_ptr(), input.len() as u64, out.as_mut_ptr(), out.len() as u64, &mut taken, &mut size) };
        match (refusal, size) {
            (0, 0) => Ok(Answer::Waiting { taken: taken as usize }),
            (0, _) => Ok(Answer::Answered { taken: taken as usize, length: size as usize }),
            (1, _) => Err(Refusal::ShortOutput),
            // The library refuses with 1 and 3 alone.
            _ => Err(Refusal::OutOfRule),
        }
    }
}

/// How many faults a response carries beside bit 6, by its Data[0] and Data[1].
pub fn faults(data0: u8, data1: u8) -> u32 {
    calls::dlpc200_faults(data0, data1)
}
