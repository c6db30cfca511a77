//! Imjarlet: the command endpoint of a projector head, and the checker of tuning reports, as safe
//! Rust over the static library libimjarlet.a.
//!
//! A program takes this file in by `#[path = "include/imjarlet.rs"] mod imjarlet;` and links by
//! `-l static=imjarlet`, with `-L target/staticlib` on the machine itself (`scripts/built imjarlet` makes
//! the library there) or `-L target/firmware/TARGET` for firmware (`scripts/firmware TARGET` makes it).
//! It needs nothing but `core`. Bytes are hexadecimal in the comments (01 04); numbers are decimal.
//!
//! Sizes and offsets are the same on every target, and no type has padding: that is why some fields are
//! wider than their values. A value over 255 in such a field is refused like any other that is not
//! allowed.
#![allow(dead_code)]

/// The shortest output that a receive call, carrying out or the encoder takes.
pub const OUTPUT_LEAST: usize = 64;
/// The shortest output that the standard list takes.
pub const LIST_OUTPUT_LEAST: usize = 128;
/// The length of the standard list.
pub const LIST_LENGTH: usize = 111;
/// The most payload bytes that are held of a transfer, and of a packet.
pub const HOLD: usize = 1024;
/// The most bytes of a report.
pub const REPORT_MOST: usize = 60000;

/// LED drive, in counts.
#[repr(C)]
#[derive(Clone, Copy, PartialEq, Eq, Debug)]
pub struct Drive(pub u16);

/// A time, in microseconds.
#[repr(C)]
#[derive(Clone, Copy, PartialEq, Eq, Debug)]
pub struct Microseconds(pub u32);

/// 01 04: 0 to 1024 each.
#[repr(C)]
#[derive(Clone, Copy, PartialEq, Eq, Debug)]
pub struct LedCurrent {
    pub red: Drive,
    pub green: Drive,
    pub blue: Drive,
}

/// 01 06: any colour; the last byte is 0.
#[repr(C)]
#[derive(Clone, Copy, PartialEq, Eq, Debug)]
pub struct StaticColour {
    pub blue: u8,
    pub green: u8,
    pub red: u8,
    pub last: u8,
}

/// 01 07: 0 or 1 each.
#[repr(C)]
#[derive(Clone, Copy, PartialEq, Eq, Debug)]
pub struct DisplaySetting {
    pub long_flip: u8,
    pub short_flip: u8,
    pub rotate: u16,
}

/// 02 00: X and Y a listed pair, the others any.
#[repr(C)]
#[derive(Clone, Copy, PartialEq, Eq, Debug)]
pub struct VideoInput {
    pub x: u16,
    pub y: u16,
    pub first_pixel: u16,
    pub first_line: u16,
    pub width: u16,
    pub height: u16,
}

/// 02 01: frame rate 15, 30, 40, 50 or 60; depth 1 to 8; LED 1 to 4.
#[repr(C)]
#[derive(Clone, Copy, PartialEq, Eq, Debug)]
pub struct VideoMode {
    pub rate: u8,
    pub depth: u8,
    pub led: u16,
}

/// 04 00: depth 1 to 8; count 1 to 1 + 95 / depth, that is 96, 48, 32, 24, 20, 16, 14, 12; inversion 0
/// to 2, nonzero only at depth 1; trigger 0 to 6, 6 only at depth 1; any times; LED 0 to 2.
#[repr(C)]
#[derive(Clone, Copy, PartialEq, Eq, Debug)]
pub struct PatternSequence {
    pub depth: u8,
    pub count: u8,
    pub inversion: u8,
    pub trigger: u8,
    pub delay: Microseconds,
    pub period: Microseconds,
    pub exposure: Microseconds,
    pub led: u32,
}

/// The values of every command.
#[repr(C)]
#[derive(Clone, Copy, PartialEq, Eq, Debug)]
pub struct Settings {
    /// 01 01 display mode: 0, 1, 2 or 4
    pub mode: u8,
    /// 01 03 test pattern: 0 to 13
    pub pattern: u8,
    /// 01 04
    pub current: LedCurrent,
    /// 01 06
    pub colour: StaticColour,
    /// 01 07
    pub setting: DisplaySetting,
    /// 02 00
    pub input: VideoInput,
    /// 02 01
    pub video: VideoMode,
    /// 04 00
    pub sequence: PatternSequence,
    /// 04 02 sequence run: 0, or 1 in display mode 4
    pub run: u32,
}

/// The packet that is coming in and the open transfer. No transfer is open where `active` is 0;
/// otherwise it is one of the command `cmd1` `cmd2`.
#[repr(C)]
#[derive(Clone, Copy, PartialEq, Eq, Debug)]
pub struct Registers {
    /// How many bytes of the packet have come in.
    pub received: u32,
    /// How many bytes of the transfer are held.
    pub held: u16,
    pub active: u8,
    pub cmd1: u8,
    pub cmd2: u8,
    /// The packet's header bytes; between two packets, those of the last one.
    pub header: [u8; 6],
    /// The sum of the packet's bytes so far, modulo 256. It begins anew with its first byte.
    pub sum: u8,
}

/// A head. All its fields may be read and written: the calls answer on any numbers.
#[repr(C)]
#[derive(Clone, PartialEq, Eq, Debug)]
pub struct Controller {
    pub settings: Settings,
    pub registers: Registers,
    /// The held bytes of the open transfer.
    pub buffer: [u8; HOLD],
    /// The payload of the packet that is coming in, as far as there is room.
    pub hold: [u8; HOLD],
}

/// What a packet was judged under: the display mode, and the open transfer, its command and how many bytes
/// were held. None was open where `active` is 0; the other three are then what stood there, and count for
/// nothing (`held` is at most 1,024 even so).
#[repr(C)]
#[derive(Clone, Copy, PartialEq, Eq, Debug)]
pub struct Kept {
    pub held: u16,
    pub mode: u8,
    pub active: u8,
    pub cmd1: u8,
    pub cmd2: u8,
}

/// What a packet draws.
#[repr(C)]
#[derive(Clone, Copy, PartialEq, Eq, Debug)]
pub struct Ruling {
    /// Bit n is error code n (01 to 0B); 0 where the packet has no fault.
    pub codes: u16,
    /// What is asked to be done, as a number: `asks` gives its name. 0 with an error.
    pub accepts: u16,
    /// With code 03 the byte that is wrong, or all bits set: `wrong` gives it.
    pub wrong: u16,
    /// How many bytes the joined data have.
    pub count: u16,
    /// The packet's command, which the response repeats.
    pub cmd1: u8,
    pub cmd2: u8,
    pub kept: Kept,
}

/// A judgement: what `Controller::judge` says of a packet and `Controller::carry_out` does. All its fields
/// may be read and written: one that no packet draws is refused.
#[repr(C)]
#[derive(Clone, PartialEq, Eq, Debug)]
pub struct Judgement {
    pub ruling: Ruling,
    /// The bytes that were held, behind them what an accepted packet brings.
    pub joined: [u8; HOLD],
}

// As include/imjarlet.h has it, on every target that this is compiled for; no type has padding.
const _: () = {
    use core::mem::{offset_of, size_of};
    assert!(size_of::<LedCurrent>() == 6 && size_of::<StaticColour>() == 4);
    assert!(size_of::<DisplaySetting>() == 4 && size_of::<VideoInput>() == 12);
    assert!(size_of::<VideoMode>() == 4 && size_of::<PatternSequence>() == 20);
    assert!(offset_of!(Settings, current) == 2 && offset_of!(Settings, colour) == 8);
    assert!(offset_of!(Settings, setting) == 12 && offset_of!(Settings, input) == 16);
    assert!(offset_of!(Settings, video) == 28 && offset_of!(Settings, sequence) == 32);
    assert!(offset_of!(Settings, run) == 52 && size_of::<Settings>() == 56);
    assert!(offset_of!(Registers, header) == 9 && offset_of!(Registers, sum) == 15);
    assert!(offset_of!(Controller, registers) == 56 && offset_of!(Controller, buffer) == 72);
    assert!(offset_of!(Controller, hold) == 1096 && size_of::<Controller>() == 2120);
    assert!(size_of::<Kept>() == 6 && offset_of!(Ruling, kept) == 10 && size_of::<Ruling>() == 16);
    assert!(offset_of!(Judgement, joined) == 16 && size_of::<Judgement>() == 1040);
    assert!(offset_of!(raw::Verdict, settings) == 24 && size_of::<raw::Verdict>() == 80);
};

/// What a call refuses. It then takes nothing and leaves output, controller and judgement as they were.
#[derive(Clone, Copy, PartialEq, Eq, Debug)]
pub enum Refusal {
    /// 1: the output is shorter than 64 bytes, or 128 for the standard list.
    ShortOutput,
    /// 2: the encoder was given a value that is not allowed, or a command that is not in the table; or a
    /// judgement without error codes was to be carried out that no packet draws from a controller that 3 lets
    /// pass and that has what the judgement keeps.
    NotAllowed,
    /// 3: the controller or the settings are out of rule.
    OutOfRule,
    /// 4: the controller has not what the judgement keeps.
    Stale,
    /// 5: the bytes to be judged are not exactly one packet.
    NotOnePacket,
}

/// What a judgement asks to be done.
#[derive(Clone, Copy, PartialEq, Eq, Debug)]
pub enum Asks {
    /// The data are held: flags 01 and 02.
    Hold = 1,
    /// A write is carried out: flags 00 and 03.
    Write = 2,
    /// A read is answered.
    Read = 3,
}

/// What a receive call answers.
#[derive(Clone, Copy, PartialEq, Eq, Debug)]
pub enum Answer {
    /// The input ended before a packet did; all of it was taken and the output is untouched.
    Waiting { taken: usize },
    /// One packet is complete, and its response is the first `length` bytes of the output. Where that is
    /// an error packet with code 03, `wrong` is the first data byte, counted from 0, of the first field
    /// that is not allowed, in layout order: green 1025 is byte 2. A rule between two fields counts
    /// against the later one (X and Y that are no listed pair are byte 2, whatever X is), and in a
    /// transfer the bytes are counted in the joined data. With any other response it is `None`.
    Answered {
        taken: usize,
        length: usize,
        wrong: Option<usize>,
    },
}

/// The trial that an accepted report names, from 0, its score and the settings that it ended with.
#[derive(Clone, Copy, PartialEq, Eq, Debug)]
pub struct Accepted {
    pub trial: usize,
    pub score: usize,
    pub settings: Settings,
}

/// Why a report is refused.
#[derive(Clone, Copy, PartialEq, Eq, Debug)]
#[repr(u8)]
pub enum Reason {
    /// Over 60,000 bytes.
    TooLong = 10,
    /// A record is due and fewer bytes are left than its header or body needs.
    CutShort = 11,
    /// A record of another kind is due.
    OtherKind = 12,
    /// The body's length is not 4 (kind 1), under 4 (kind 2) or not 2 (kind 3).
    BodyLength = 13,
    /// The version is not 1.
    Version = 14,
    /// The report counts no trials.
    NoTrials = 15,
    /// The winner is not below the count.
    NoSuchWinner = 16,
    /// The winner is not the first of the lowest-scored trials.
    NotLowest = 17,
    /// The shipping bytes are not all whole packets, one is not answered by a write response, or a
    /// transfer is left open. The place is the first byte of the first packet that is not so answered,
    /// of the unfinished one, or of the one that opened that transfer: of these the earliest.
    NotAcknowledged = 18,
    /// The shipping packets leave other settings than the winner ended with.
    OtherSettings = 19,
    /// Bytes follow the shipping record.
    BytesAfter = 20,
}

/// A refused report: why, and the offset of the first byte of what is refused.
#[derive(Clone, Copy, PartialEq, Eq, Debug)]
pub struct Refused {
    pub reason: Reason,
    pub place: usize,
}

/// The calls as the library exports them: a slice goes as a pointer and then a length, and a call
/// returns 0 or the number of its refusal.
pub mod raw {
    use super::{Controller, Judgement, Settings};

    /// What a receive call says for the wrong byte where it names none: all bits set.
    pub const NO_WRONG_BYTE: u64 = u64::MAX;
    /// What a judgement says there.
    pub const JUDGED_NO_WRONG_BYTE: u16 = u16::MAX;
    // What a judgement asks to be done.
    pub const ACCEPTS_HOLD: u16 = 1;
    pub const ACCEPTS_WRITE: u16 = 2;
    pub const ACCEPTS_READ: u16 = 3;

    /// What is said of a report: the trial's number, score and end settings, or the place.
    #[repr(C)]
    #[derive(Clone, Copy, PartialEq, Eq, Debug)]
    pub struct Verdict {
        pub place: u64,
        pub trial: u64,
        pub score: u64,
        pub settings: Settings,
    }

    unsafe extern "C" {
        pub fn imjarlet_reset(c: *mut Controller) -> u32;
        pub fn imjarlet_receive(
            c: *mut Controller,
            input: *const u8,
            input_length: u64,
            out: *mut u8,
            out_length: u64,
            taken: *mut u64,
            size: *mut u64,
            wrong: *mut u64,
        ) -> u32;
        pub fn imjarlet_judge(
            c: *const Controller,
            packet: *const u8,
            packet_length: u64,
            j: *mut Judgement,
        ) -> u32;
        pub fn imjarlet_carry_out(
            c: *mut Controller,
            j: *const Judgement,
            out: *mut u8,
            out_length: u64,
            size: *mut u64,
        ) -> u32;
        pub fn imjarlet_encode(
            cmd1: u8,
            cmd2: u8,
            settings: *const Settings,
            out: *mut u8,
            out_length: u64,
            size: *mut u64,
        ) -> u32;
        pub fn imjarlet_standard_list(
            settings: *const Settings,
            out: *mut u8,
            out_length: u64,
            size: *mut u64,
        ) -> u32;
        pub fn imjarlet_check_report(
            report: *const u8,
            report_length: u64,
            verdict: *mut Verdict,
        ) -> u32;
    }
}

fn refusal(number: u32) -> Refusal {
    match number {
        1 => Refusal::ShortOutput,
        2 => Refusal::NotAllowed,
        3 => Refusal::OutOfRule,
        4 => Refusal::Stale,
        5 => Refusal::NotOnePacket,
        _ => unreachable!("no call refuses with {number}"),
    }
}

fn reason(number: u32) -> Reason {
    match number {
        10 => Reason::TooLong,
        11 => Reason::CutShort,
        12 => Reason::OtherKind,
        13 => Reason::BodyLength,
        14 => Reason::Version,
        15 => Reason::NoTrials,
        16 => Reason::NoSuchWinner,
        17 => Reason::NotLowest,
        18 => Reason::NotAcknowledged,
        19 => Reason::OtherSettings,
        20 => Reason::BytesAfter,
        _ => unreachable!("no report is refused with {number}"),
    }
}

impl Controller {
    /// A head at power-up: factory values, nothing half received and no transfer open.
    pub fn fresh() -> Controller {
        // Zeros are a controller, as any bytes are.
        let mut c: Controller = unsafe { core::mem::zeroed() };
        c.reset();
        c
    }

    /// Makes this a head at power-up, whatever it was.
    pub fn reset(&mut self) {
        unsafe { raw::imjarlet_reset(self) };
    }

    /// Takes bytes of the input until it ends or one packet is complete, and carries that packet
    /// out. Call it again with the bytes behind those that were taken. Refuses a short output and a
    /// controller that is out of rule.
    pub fn receive(&mut self, input: &[u8], out: &mut [u8]) -> Result<Answer, Refusal> {
        let (mut taken, mut size, mut wrong) = (0, 0, 0);
        let number = unsafe {
            raw::imjarlet_receive(
                self,
                input.as_ptr(),
                input.len() as u64,
                out.as_mut_ptr(),
                out.len() as u64,
                &mut taken,
                &mut size,
                &mut wrong,
            )
        };
        let (taken, length) = (taken as usize, size as usize);
        match (number, length) {
            (0, 0) => Ok(Answer::Waiting { taken }),
            (0, _) => Ok(Answer::Answered {
                taken,
                length,
                wrong: (wrong != raw::NO_WRONG_BYTE).then_some(wrong as usize),
            }),
            _ => Err(refusal(number)),
        }
    }

    /// What one packet would be answered, with nothing done: a packet that is half received has no say in
    /// it. Refuses a controller that is out of rule and bytes that are not exactly one packet.
    pub fn judge(&self, packet: &[u8]) -> Result<Judgement, Refusal> {
        // Zeros are a judgement, as any bytes are.
        let mut j: Judgement = unsafe { core::mem::zeroed() };
        let length = packet.len() as u64;
        match unsafe { raw::imjarlet_judge(self, packet.as_ptr(), length, &mut j) } {
            0 => Ok(j),
            number => Err(refusal(number)),
        }
    }

    /// Carries a judgement out, be it of this controller or of another: the response's length, which is at
    /// the output's start. A half-received packet stays. Refuses a short output, a controller that is out of
    /// rule, a judgement without error codes that no packet draws, and one that is stale, as this controller
    /// has not what it keeps.
    pub fn carry_out(&mut self, j: &Judgement, out: &mut [u8]) -> Result<usize, Refusal> {
        let length = out.len() as u64;
        emitted(|size| unsafe { raw::imjarlet_carry_out(self, j, out.as_mut_ptr(), length, size) })
    }
}

impl Ruling {
    /// The error codes, ascending; none where the packet is accepted.
    pub fn codes(&self) -> impl Iterator<Item = u8> {
        let codes = self.codes;
        (0x01..=0x0B).filter(move |&code| codes >> code & 1 == 1)
    }

    /// What is asked to be done: nothing with an error, nor by a number that no judgement has.
    pub fn asks(&self) -> Option<Asks> {
        match (self.codes, self.accepts) {
            (0, raw::ACCEPTS_HOLD) => Some(Asks::Hold),
            (0, raw::ACCEPTS_WRITE) => Some(Asks::Write),
            (0, raw::ACCEPTS_READ) => Some(Asks::Read),
            _ => None,
        }
    }

    /// With code 03 the first byte, counted from 0, of the first field that is not allowed, as `Answer` has it.
    pub fn wrong(&self) -> Option<usize> {
        (self.wrong != raw::JUDGED_NO_WRONG_BYTE).then_some(self.wrong as usize)
    }
}

/// The size that a call gives, or its refusal.
fn emitted(call: impl FnOnce(&mut u64) -> u32) -> Result<usize, Refusal> {
    let mut size = 0;
    match call(&mut size) {
        0 => Ok(size as usize),
        number => Err(refusal(number)),
    }
}

/// The whole-packet write of what `settings` has for the command CMD1 CMD2, at the output's start:
/// its length. No other part of `settings` is looked at. Refuses a short output, a value that is not
/// allowed and a command that is not in the table.
pub fn encode(cmd1: u8, cmd2: u8, settings: &Settings, out: &mut [u8]) -> Result<usize, Refusal> {
    let length = out.len() as u64;
    emitted(|size| unsafe {
        raw::imjarlet_encode(cmd1, cmd2, settings, out.as_mut_ptr(), length, size)
    })
}

/// The standard shipping list, at the output's start: one whole-packet write for each command, which
/// bring a head at factory values to these settings. Refuses a short output and settings that are
/// out of rule.
pub fn standard_list(settings: &Settings, out: &mut [u8]) -> Result<usize, Refusal> {
    let length = out.len() as u64;
    emitted(|size| unsafe { raw::imjarlet_standard_list(settings, out.as_mut_ptr(), length, size) })
}

/// Whether the settings that a tuning report ships are those that its best trial ended with.
pub fn check_report(report: &[u8]) -> Result<Accepted, Refused> {
    // Zeros are a verdict, as any bytes are.
    let mut v: raw::Verdict = unsafe { core::mem::zeroed() };
    let number =
        unsafe { raw::imjarlet_check_report(report.as_ptr(), report.len() as u64, &mut v) };
    match number {
        0 => Ok(Accepted {
            trial: v.trial as usize,
            score: v.score as usize,
            settings: v.settings,
        }),
        _ => Err(Refused {
            reason: reason(number),
            place: v.place as usize,
        }),
    }
}
