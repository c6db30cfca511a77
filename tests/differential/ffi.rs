//! The static library's calls, by the structs of include/imjarlet.rs, and what these are in the
//! model's words.

#![allow(dead_code)]

use super::model;

#[path = "../../include/imjarlet.rs"]
mod imjarlet;

use imjarlet::{
    raw, DisplaySetting, Drive, LedCurrent, Microseconds, PatternSequence, StaticColour,
    VideoInput, VideoMode,
};
pub use imjarlet::{
    raw::{Verdict, NO_WRONG_BYTE},
    Controller, Judgement, Kept, Registers, Ruling, Settings,
};
use std::mem::transmute;

/// What stands where a call is to fill something in: EE in every byte.
pub const UNSET: u64 = 0xEEEE_EEEE_EEEE_EEEE;
pub const UNSET_VERDICT: Verdict = unsafe { transmute([0xEEu8; 80]) };
pub const UNSET_CONTROLLER: Controller = unsafe { transmute([0xEEu8; 2120]) };

#[inline]
pub fn reset(c: &mut Controller) -> u32 {
    unsafe { raw::imjarlet_reset(c) }
}

#[inline]
pub fn receive(
    c: &mut Controller,
    input: &[u8],
    out: &mut [u8],
    taken: &mut u64,
    size: &mut u64,
    wrong: &mut u64,
) -> u32 {
    let (input, from) = (input.as_ptr(), input.len() as u64);
    let (out, to) = (out.as_mut_ptr(), out.len() as u64);
    unsafe { raw::imjarlet_receive(c, input, from, out, to, taken, size, wrong) }
}

/// What is only read is lent here as what could be written, so that a call that writes there is seen.
#[inline]
pub fn judge(c: &mut Controller, packet: &[u8], j: &mut Judgement) -> u32 {
    unsafe { raw::imjarlet_judge(c, packet.as_ptr(), packet.len() as u64, j) }
}

#[inline]
pub fn carry_out(c: &mut Controller, j: &mut Judgement, out: &mut [u8], size: &mut u64) -> u32 {
    let (out, to) = (out.as_mut_ptr(), out.len() as u64);
    unsafe { raw::imjarlet_carry_out(c, j, out, to, size) }
}

#[inline]
pub fn encode(cmd: [u8; 2], settings: &Settings, out: &mut [u8], size: &mut u64) -> u32 {
    let (out, to) = (out.as_mut_ptr(), out.len() as u64);
    unsafe { raw::imjarlet_encode(cmd[0], cmd[1], settings, out, to, size) }
}

#[inline]
pub fn standard_list(settings: &Settings, out: &mut [u8], size: &mut u64) -> u32 {
    unsafe { raw::imjarlet_standard_list(settings, out.as_mut_ptr(), out.len() as u64, size) }
}

#[inline]
pub fn check_report(report: &[u8], verdict: &mut Verdict) -> u32 {
    unsafe { raw::imjarlet_check_report(report.as_ptr(), report.len() as u64, verdict) }
}

/// What a receive call returns and fills in.
#[derive(Clone, Copy, PartialEq, Eq, Debug)]
pub struct Receipt {
    pub refusal: u32,
    pub taken: u64,
    pub size: u64,
    pub wrong: u64,
}

/// What the encoder and the standard list do.
#[derive(Clone, Copy, PartialEq, Eq, Debug)]
pub struct Emitted {
    pub refusal: u32,
    pub size: u64,
}

/// What the report checker does.
#[derive(Clone, Copy, PartialEq, Eq, Debug)]
pub struct Judged {
    pub refusal: u32,
    pub verdict: Verdict,
}

// ---------------------------------------------------------------------------------------------
// Between the two

impl From<&model::Settings> for Settings {
    fn from(settings: &model::Settings) -> Settings {
        let s = &settings.0;
        let two = |at: usize| u16::from_le_bytes([s[at], s[at + 1]]);
        let four =
            |at: usize| Microseconds(u32::from_le_bytes([s[at], s[at + 1], s[at + 2], s[at + 3]]));
        Settings {
            mode: s[0],
            pattern: s[1],
            current: LedCurrent {
                red: Drive(two(2)),
                green: Drive(two(4)),
                blue: Drive(two(6)),
            },
            colour: StaticColour {
                blue: s[8],
                green: s[9],
                red: s[10],
                last: s[11],
            },
            setting: DisplaySetting {
                long_flip: s[12],
                short_flip: s[13],
                rotate: s[14].into(),
            },
            input: VideoInput {
                x: two(15),
                y: two(17),
                first_pixel: two(19),
                first_line: two(21),
                width: two(23),
                height: two(25),
            },
            video: VideoMode {
                rate: s[27],
                depth: s[28],
                led: s[29].into(),
            },
            sequence: PatternSequence {
                depth: s[30],
                count: s[31],
                inversion: s[32],
                trigger: s[33],
                delay: four(34),
                period: four(38),
                exposure: four(42),
                led: s[46].into(),
            },
            run: s[47].into(),
        }
    }
}

/// What the four fields hold that are wider than the byte of their command's data, where that is over
/// 255, which the model has no room for: rotate, the LED of the video mode and of the pattern
/// sequence, run. A value of up to 255 here stands for what the model has.
#[derive(Clone, Copy, PartialEq, Eq, Default, Debug)]
pub struct Wide(pub [u32; 4]);

impl Wide {
    /// The commands whose data end with these fields, and how many bits each field has.
    pub const FIELDS: [(model::Command, u32); 4] = [
        (model::Command::Display, 16),
        (model::Command::Video, 16),
        (model::Command::Sequence, 32),
        (model::Command::Run, 32),
    ];

    pub fn any(&self) -> bool {
        self.0.iter().any(|&value| value > 255)
    }

    /// The same to the model: such a value is not allowed, and 255 is not either.
    pub fn tell(&self, settings: &mut model::Settings) {
        for ((command, _), value) in Wide::FIELDS.into_iter().zip(self.0) {
            let (at, size) = command.place();
            if value > 255 {
                settings.0[at + size - 1] = if model::planted(25) { value as u8 } else { 255 };
            }
        }
    }

    /// Puts the values where they lie.
    pub fn put(&self, s: &mut Settings) {
        let [rotate, video, sequence, run] = self.0;
        if rotate > 255 {
            s.setting.rotate = rotate.try_into().unwrap();
        }
        if video > 255 {
            s.video.led = video.try_into().unwrap();
        }
        if sequence > 255 {
            s.sequence.led = sequence;
        }
        if run > 255 {
            s.run = run;
        }
    }
}

impl From<&model::Controller> for Registers {
    fn from(c: &model::Controller) -> Registers {
        let transfer = &c.state.transfer;
        Registers {
            received: c.received.try_into().unwrap(),
            held: transfer.held.try_into().unwrap(),
            active: transfer.mark,
            cmd1: transfer.command[0],
            cmd2: transfer.command[1],
            header: c.header,
            sum: c.sum,
        }
    }
}

impl From<&model::Controller> for Controller {
    fn from(c: &model::Controller) -> Controller {
        Controller {
            settings: (&c.state.settings).into(),
            registers: c.into(),
            buffer: c.state.buffer,
            hold: c.hold,
        }
    }
}

impl From<&model::Judgement> for Judgement {
    fn from(j: &model::Judgement) -> Judgement {
        Judgement {
            ruling: Ruling {
                codes: j.codes,
                accepts: j.accepts,
                wrong: j.wrong,
                count: j.count.try_into().unwrap(),
                cmd1: j.command[0],
                cmd2: j.command[1],
                kept: Kept {
                    held: j.transfer.held.try_into().unwrap(),
                    mode: j.mode,
                    active: j.transfer.mark,
                    cmd1: j.transfer.command[0],
                    cmd2: j.transfer.command[1],
                },
            },
            joined: j.joined,
        }
    }
}

/// A model's answer as the library gives it.
impl From<Result<model::Progress, model::Refusal>> for Receipt {
    fn from(answer: Result<model::Progress, model::Refusal>) -> Receipt {
        use model::Progress::*;
        let left = |fault, right| if model::planted(fault) { UNSET } else { right };
        let none = if model::planted(45) { 0 } else { NO_WRONG_BYTE };
        let (refusal, taken, size, wrong) = match answer {
            Ok(Waiting { taken }) => (0, taken as u64, left(27, 0), left(47, none)),
            Ok(Answered {
                taken,
                length,
                wrong,
            }) => {
                let wrong = wrong.map_or(left(48, none), |at| at as u64);
                (0, taken as u64, length as u64, wrong)
            }
            Err(refusal) => (refusal as u32, left(26, 0), left(26, 0), left(46, none)),
        };
        Receipt {
            refusal,
            taken,
            size,
            wrong,
        }
    }
}

impl From<Result<usize, model::Refusal>> for Emitted {
    fn from(answer: Result<usize, model::Refusal>) -> Emitted {
        let (refusal, size) = match answer {
            Ok(length) => (0, length as u64),
            Err(refusal) => (refusal as u32, 0),
        };
        Emitted { refusal, size }
    }
}

impl From<Result<model::Accepted, model::Rejected>> for Judged {
    fn from(answer: Result<model::Accepted, model::Rejected>) -> Judged {
        let (refusal, place, trial, score, settings) = match answer {
            Ok(yes) => (0, 0, yes.trial, yes.score, yes.settings),
            Err(no) => (no.number, no.place, 0, 0, model::Settings::FACTORY),
        };
        let mut verdict = Verdict {
            place: place as u64,
            trial: trial as u64,
            score: score.into(),
            settings: (&settings).into(),
        };
        if refusal != 0 && model::planted(28) {
            verdict.settings = UNSET_VERDICT.settings;
        }
        Judged {
            refusal: refusal.into(),
            verdict,
        }
    }
}
