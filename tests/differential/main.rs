//! The library against the model, on what a seeded generator makes up.
//!
//!     differential [N] [SEED] [--plant K] [--exact]
//!     differential --cases FILE...
//!
//! N packets and N/10 reports (1,000,000 and 100,000), and with every few packets some that are judged and
//! judgements that are carried out. After each call what it returns, every field of the controller, the
//! numbers or the verdict that it fills, which hold EE before, every byte of a judgement and of the output
//! are compared. A case that differs is made smaller, printed as hex, and the exit status
//! is 1. --plant K puts fault K into the model, to see that it is found. --exact lends the library
//! memory of exactly the length named, for valgrind. --cases takes the stored cases of the crate
//! vectors (scripts/vectors-data says how they are laid out) in the place of generated ones; those of
//! request 5 have their answers with them, and the model must give these.

mod examples;
mod ffi;
mod generate;
mod model;

use ffi::{Emitted, Judged, Receipt, Wide};
use generate::{Report, Rng};
use model::{Command, Controller, Judgement, Progress, Settings, Transfer};
use std::fmt::Write;

const USAGE: &str = "usage: differential [N] [SEED] [--plant K] [--exact]
       differential --cases FILE...";

/// A cut that leaves all the bytes together.
const ALL: usize = usize::MAX;
/// Bytes behind an output that no call may touch.
const BEHIND: usize = 16;
/// The longest output that is lent, and room for it with as many bytes before and behind it.
const LONGEST: usize = 130;
const LENT: usize = BEHIND + LONGEST + BEHIND;

/// What came up, and how often.
#[derive(Default)]
struct Tally {
    codes: [u64; 16],
    receive_refusals: [u64; 4],
    emit_refusals: [u64; 4],
    verdicts: [u64; 21],
    waiting: u64,
    written: u64,
    read: u64,
    errors: u64,
    calls: u64,
    one_byte_calls: u64,
    packets: u64,
    encoded: u64,
    lists: u64,
    reports: u64,
    damaged: u64,
    /// Controllers in rule with a sum left over and nothing half received: no transfer open, and one.
    left_over: [u64; 2],
    /// Values over 255 in lent settings: of a controller, of the encoder, of the standard list.
    wide: [u64; 3],
    /// Payloads of 1,024, of 1,025 and of 65,535 bytes.
    long: [u64; 3],
    resets: u64,
    values: Values,
    asked: Asked,
    /// Reports that were refused with 18, by what their shipping bytes have.
    offences: [u64; OFFENCES.len()],
}

/// Packets with a value that is not allowed.
#[derive(Default)]
struct Values {
    /// By the byte that was named with code 03, for each command: in a whole packet, and in a transfer.
    named: [[[u64; 17]; 9]; 2],
    /// Those in which another field behind that one is not allowed either.
    several: [u64; 9],
    /// Those that drew other codes, with which no byte is named, by these.
    beside: [u64; 16],
}

/// Packets that were judged, and judgements that were carried out.
#[derive(Default)]
struct Asked {
    judged: [u64; 6],
    /// By what the judgement asks to be done, from the error that is 0.
    asks: [u64; 4],
    codes: [u64; 16],
    /// Judgements of packets that go on with a transfer, by the same.
    joined: [u64; 4],
    carried: [u64; 6],
    /// By what is done: on the same controller, on another that has what is kept, and of a forged one.
    done: [[u64; 4]; 3],
    /// Those with a packet half received.
    half: u64,
    /// Stale ones by the kept item that differs and no other.
    stale: [u64; STALE.len()],
    /// Forged ones that were refused with 2, and what they have.
    forged: [u64; FORGED.len()],
    /// Judgements with codes that no packet draws, which are carried out all the same.
    odd_codes: u64,
}

/// What makes a judgement stale.
const STALE: [&str; 7] = [
    "the mode",
    "a transfer that was open",
    "a transfer that is open",
    "a transfer that is open with nothing held",
    "the command",
    "the number of held bytes",
    "a held byte",
];

/// The items of these in which a controller and a judgement differ.
fn differing(c: &Controller, j: &Judgement) -> [bool; STALE.len()] {
    let (ours, kept) = (&c.state.transfer, &j.transfer);
    let both = ours.open() && kept.open();
    let held = ours.held.min(model::HOLD);
    let opened = ours.open() && !kept.open();
    [
        c.state.settings.get(Command::Mode) != [j.mode],
        !ours.open() && kept.open(),
        opened && held > 0,
        opened && held == 0,
        both && ours.command != kept.command,
        both && ours.held != kept.held,
        both && ours.held == kept.held && c.state.buffer[..held] != j.joined[..held],
    ]
}

/// What a judgement without error codes may have that no packet draws.
const FORGED: [&str; 16] = [
    "an error without any code",
    "another number for what is to be done",
    "a wrong byte",
    "a mode that is not allowed",
    "over 1,024 bytes that were held",
    "a transfer of a command that is not in the table",
    "a command that is not in the table",
    "over 1,024 joined bytes",
    "fewer joined bytes than were held",
    "another command than the open one",
    "a read while a transfer is open",
    "a read with data",
    "a read of 01 06",
    "a write of another size",
    "a value that is not allowed",
    "run 1 outside mode 4",
];

fn forgeries(j: &Judgement) -> [bool; FORGED.len()] {
    let command = Command::from_bytes(j.command[0], j.command[1]);
    let [kept1, kept2] = j.transfer.command;
    let kept = Command::from_bytes(kept1, kept2);
    let open = j.transfer.open();
    let (writes, reads) = (j.accepts == model::WRITES, j.accepts == model::READS);
    let size = command.map_or(0, Command::size);
    let sized = writes && command.is_some() && j.count == size;
    let allowed = sized && command.is_some_and(|c| c.allows(&j.joined[..size]));
    [
        j.codes != 0,
        !matches!(j.accepts, 1..=3),
        j.wrong != model::NO_BYTE,
        !matches!(j.mode, 0 | 1 | 2 | 4),
        j.transfer.held > model::HOLD,
        open && kept.is_none(),
        command.is_none(),
        j.count > model::HOLD,
        open && j.count < j.transfer.held,
        open && kept.is_some() && j.command != j.transfer.command,
        reads && open,
        reads && !open && j.count > 0,
        reads && command == Some(Command::Colour),
        writes && command.is_some() && j.count != size,
        sized && !allowed,
        allowed && command == Some(Command::Run) && j.joined[0] == 1 && j.mode != 4,
    ]
}

/// Notes the one of several that holds where no other does.
fn note_alone(counts: &mut [u64], hold: &[bool]) {
    if let [only] = hold
        .iter()
        .enumerate()
        .filter(|(_, &h)| h)
        .collect::<Vec<_>>()[..]
    {
        counts[only.0] += 1;
    }
}

/// What shipping bytes may have that refusal 18 is about.
const OFFENCES: [&str; 10] = [
    "a packet that is not acknowledged behind good ones",
    "two packets that are not acknowledged",
    "a read before any other fault",
    "an error that closes a transfer, before any other fault",
    "an unfinished packet behind one that is not acknowledged",
    "a transfer left open behind a packet that is not acknowledged",
    "an unfinished packet alone",
    "a transfer left open alone",
    "a transfer left open and an unfinished packet",
    "a transfer left open behind one that was carried out",
];

fn offences(shipping: &[u8]) -> [bool; OFFENCES.len()] {
    let mut c = Controller::default();
    let mut out = [0; 64];
    let mut rest = shipping;
    let (mut good, mut bad, mut carried_out) = (0, 0, 0);
    let (mut good_first, mut read_first, mut closed_first) = (false, false, false);
    let mut open = false;
    while let Ok(Progress::Answered { taken, .. }) = c.receive(rest, &mut out) {
        if out[0] == 3 {
            good += 1;
            carried_out += (rest[3] == 3) as u64;
        } else {
            if bad == 0 {
                good_first = good > 0;
                read_first = out[0] == 5;
                closed_first = open;
            }
            bad += 1;
        }
        open = c.state.transfer.open();
        rest = &rest[taken..];
    }
    let half = !rest.is_empty();
    [
        bad > 0 && good_first,
        bad > 1,
        read_first,
        closed_first,
        bad > 0 && half,
        bad > 0 && open,
        bad == 0 && half && !open,
        bad == 0 && open && !half,
        bad == 0 && open && half,
        open && carried_out > 0,
    ]
}

/// A stream of bytes for one controller: the cuts and the output lengths are used in turn.
#[derive(Clone, PartialEq)]
struct Stream {
    start: Controller,
    wide: Wide,
    parts: Vec<Vec<u8>>,
    cuts: Vec<usize>,
    outs: Vec<usize>,
    canary: u8,
    reset: bool,
}

/// A packet that is judged on a controller, over what stood in the judgement. Where that is not refused the
/// judgement is carried out on the same controller and on the other one.
#[derive(Clone, PartialEq)]
struct Question {
    start: Controller,
    wide: Wide,
    packet: Vec<u8>,
    stood: Judgement,
    other: Option<(Controller, Wide)>,
    out: usize,
    canary: u8,
}

/// A judgement that is carried out on a controller.
#[derive(Clone, PartialEq)]
struct Errand {
    start: Controller,
    wide: Wide,
    judgement: Judgement,
    out: usize,
    canary: u8,
}

#[derive(Clone)]
enum Case {
    Stream(Box<Stream>),
    Judge(Box<Question>),
    Carry(Box<Errand>),
    Encode {
        cmd: [u8; 2],
        settings: Settings,
        wide: Wide,
        out: usize,
    },
    List {
        settings: Settings,
        wide: Wide,
        out: usize,
    },
    Report(Vec<u8>),
}

struct Harness {
    exact: bool,
    tally: Tally,
}

fn hex(bytes: &[u8]) -> String {
    let mut text = String::new();
    for byte in bytes {
        let _ = write!(text, "{byte:02X} ");
    }
    text.pop();
    text
}

/// Settings as the model has them, and for the library as they are lent.
fn lent(settings: &Settings, wide: &Wide) -> (Settings, Box<ffi::Settings>) {
    let mut ours = *settings;
    wide.tell(&mut ours);
    let mut theirs = ffi::Settings::from(&ours);
    wide.put(&mut theirs);
    (ours, Box::new(theirs))
}

/// A controller as the model has it, and for the library as it is lent.
fn lent_controller(start: &Controller, wide: &Wide) -> (Controller, Box<ffi::Controller>) {
    let mut ours = *start;
    wide.tell(&mut ours.state.settings);
    let mut theirs = Box::new(ffi::Controller::from(&ours));
    wide.put(&mut theirs.settings);
    (ours, theirs)
}

/// In what the library's judgement is not the model's.
fn unlike_judgement(library: &ffi::Judgement, model: &Judgement) -> Option<String> {
    let wanted = ffi::Judgement::from(model);
    if library.ruling != wanted.ruling {
        return Some(format!("{:?}, model {:?}", library.ruling, wanted.ruling));
    }
    let at = (0..model::HOLD).find(|&i| library.joined[i] != wanted.joined[i])?;
    Some(format!(
        "joined[{at}] {:02X}, model {:02X}",
        library.joined[at], wanted.joined[at]
    ))
}

/// The first field in which the library's controller is not the model's.
fn unlike(library: &ffi::Controller, model: &Controller, wide: &Wide) -> Option<String> {
    let got = library;
    let mut wanted = ffi::Settings::from(&model.state.settings);
    wide.put(&mut wanted);
    if got.settings != wanted {
        return Some(format!("settings {:?}, model {wanted:?}", got.settings));
    }
    let wanted = ffi::Registers::from(model);
    if got.registers != wanted {
        return Some(format!("registers {:?}, model {wanted:?}", got.registers));
    }
    [
        ("buffer", &library.buffer, &model.state.buffer),
        ("hold", &library.hold, &model.hold),
    ]
    .into_iter()
    .filter(|(_, got, wanted)| got != wanted)
    .find_map(|(name, got, wanted)| {
        let at = (0..model::HOLD).find(|&i| got[i] != wanted[i])?;
        Some(format!(
            "{name}[{at}] {:02X}, model {:02X}",
            got[at], wanted[at]
        ))
    })
}

/// Something that a call is to fill in, between words that it must leave.
#[repr(C)]
struct Between<T> {
    before: [u64; 2],
    filled: T,
    behind: [u64; 2],
}

impl Harness {
    /// Lends something to a call that fills it in.
    fn fill<T, A>(&self, unset: T, call: impl FnOnce(&mut T) -> A) -> Result<(A, T), String> {
        if self.exact {
            let mut lent = Box::new(unset);
            let answer = call(&mut lent);
            return Ok((answer, *lent));
        }
        let words = [ffi::UNSET; 2];
        let mut lent = Between {
            before: words,
            filled: unset,
            behind: words,
        };
        let answer = call(&mut lent.filled);
        let lent = std::hint::black_box(lent);
        if [lent.before, lent.behind] != [words; 2] {
            return Err("bytes beside what is filled in were written".into());
        }
        Ok((answer, lent.filled))
    }

    fn receive(
        &self,
        c: &mut ffi::Controller,
        input: &[u8],
        out: &mut [u8],
    ) -> Result<Receipt, String> {
        let (filled, taken) = self.fill(ffi::UNSET, |taken| {
            self.fill(ffi::UNSET, |size| {
                self.fill(ffi::UNSET, |wrong| {
                    ffi::receive(c, input, out, taken, size, wrong)
                })
            })
        })?;
        let (filled, size) = filled?;
        let (refusal, wrong) = filled?;
        Ok(Receipt {
            refusal,
            taken,
            size,
            wrong,
        })
    }

    fn emit(&self, call: impl FnOnce(&mut u64) -> u32) -> Result<Emitted, String> {
        let (refusal, size) = self.fill(ffi::UNSET, call)?;
        Ok(Emitted { refusal, size })
    }

    /// Gives both sides an output of `length` bytes, filled with the canary, and compares every
    /// byte afterwards.
    fn lend<A: PartialEq + std::fmt::Debug>(
        &self,
        length: usize,
        canary: u8,
        library: impl FnOnce(&mut [u8]) -> Result<A, String>,
        model: impl FnOnce(&mut [u8]) -> A,
    ) -> Result<(A, [u8; LENT]), String> {
        let mut wanted = [canary; LENT];
        let mut got = [canary; LENT];
        let answer = if self.exact {
            let mut out = vec![canary; length].into_boxed_slice();
            let answer = library(&mut out)?;
            got[..length].copy_from_slice(&out);
            answer
        } else {
            library(&mut got[BEHIND..][..length])?
        };
        if !self.exact {
            let before = got[..BEHIND].iter().all(|&b| b == canary);
            if !before {
                return Err(format!(
                    "bytes before the output written: {}",
                    hex(&got[..BEHIND])
                ));
            }
            got.copy_within(BEHIND.., 0);
        }
        let expected = model(&mut wanted[..length]);
        if answer != expected {
            return Err(format!("answer {answer:?}, model {expected:?}"));
        }
        if got[..length + BEHIND] != wanted[..length + BEHIND] {
            return Err(format!(
                "output {}, model {}",
                hex(&got[..length + 4]),
                hex(&wanted[..length + 4])
            ));
        }
        Ok((answer, wanted))
    }

    fn run(&mut self, case: &Case) -> Result<(), String> {
        match case {
            Case::Stream(stream) => self.run_stream(stream),
            Case::Judge(question) => self.run_question(question),
            Case::Carry(errand) => {
                let answer = self.carry_out(errand)?;
                self.tally.asked.carried(errand, &answer, 2);
                Ok(())
            }
            Case::Encode {
                cmd,
                settings,
                wide,
                out,
            } => {
                let (ours, theirs) = lent(settings, wide);
                let (answer, _) = self.lend(
                    *out,
                    0xA5,
                    |b| self.emit(|size| ffi::encode(*cmd, &theirs, b, size)),
                    |b| model::encode(Command::from_bytes(cmd[0], cmd[1]), &ours, b).into(),
                )?;
                self.tally.encoded += 1;
                self.tally.emit_refusals[answer.refusal as usize] += 1;
                Ok(())
            }
            Case::List {
                settings,
                wide,
                out,
            } => {
                let (ours, theirs) = lent(settings, wide);
                let (answer, _) = self.lend(
                    *out,
                    0x5A,
                    |b| self.emit(|size| ffi::standard_list(&theirs, b, size)),
                    |b| model::standard_list(&ours, b).into(),
                )?;
                self.tally.lists += 1;
                self.tally.emit_refusals[answer.refusal as usize] += 1;
                Ok(())
            }
            Case::Report(bytes) => {
                let lent: Box<[u8]> = if self.exact {
                    bytes[..].into()
                } else {
                    Box::default()
                };
                let report = if self.exact { &lent } else { &bytes[..] };
                let (refusal, verdict) = self.fill(ffi::UNSET_VERDICT, |verdict| {
                    ffi::check_report(report, verdict)
                })?;
                let answer = Judged { refusal, verdict };
                let wanted = Judged::from(model::check_report(bytes));
                if answer != wanted {
                    return Err(format!("answer {answer:?}, model {wanted:?}"));
                }
                self.tally.reports += 1;
                self.tally.verdicts[refusal as usize] += 1;
                if let (18, Some(report)) = (refusal, Report::parse(bytes)) {
                    let had = offences(&report.shipping);
                    for (count, had) in self.tally.offences.iter_mut().zip(had) {
                        *count += had as u64;
                    }
                }
                Ok(())
            }
        }
    }

    /// Runs a case; one that differs is made smaller and printed, and ends the program.
    fn hold(&mut self, case: Case, kind: &str, seed: u64) {
        if self.run(&case).is_ok() {
            return;
        }
        let case = shrink(self, case);
        let what = self.run(&case).err().unwrap_or_default();
        println!("DIFFERENT ({kind}, seed {seed}): {what}");
        show(&case);
        std::process::exit(1);
    }

    fn run_stream(&mut self, stream: &Stream) -> Result<(), String> {
        let bytes = stream.parts.concat();
        let mut ours = stream.start;
        stream.wide.tell(&mut ours.state.settings);
        let mut theirs = Box::new(ffi::Controller::from(&ours));
        stream.wide.put(&mut theirs.settings);
        let mut at = 0;
        let mut idle = 0;
        for call in 0.. {
            let cut = stream.cuts[call % stream.cuts.len()].min(bytes.len() - at);
            let length = stream.outs[call % stream.outs.len()];
            let input = &bytes[at..at + cut];
            let lent: Box<[u8]> = if self.exact {
                input.into()
            } else {
                Box::default()
            };
            let held = ours.state.transfer.held;
            let (answer, out) = self
                .lend(
                    length,
                    stream.canary.wrapping_add(call as u8),
                    |b| self.receive(&mut theirs, if self.exact { &lent } else { input }, b),
                    |b| ours.receive(input, b).into(),
                )
                .map_err(|what| format!("call {call} at byte {at}: {what}"))?;
            if let Some(what) = unlike(&theirs, &ours, &stream.wide) {
                return Err(format!(
                    "call {call} at byte {at}, answer {answer:?}: {what}"
                ));
            }
            self.note(cut, &answer, &out);
            if answer.size > 0 {
                self.tally.values.note(&ours, held, &answer, &out);
            }
            at += answer.taken as usize;
            idle = if answer.taken == 0 { idle + 1 } else { 0 };
            // Nothing more comes of the end of the input, nor of a controller that is refused.
            if (at == bytes.len() && idle > 0) || answer.refusal == 3 || idle > 20 {
                break;
            }
        }
        if stream.reset {
            if ffi::reset(&mut theirs) != 0 {
                return Err("reset refused".into());
            }
            if let Some(what) = unlike(&theirs, &Controller::default(), &Wide::default()) {
                return Err(format!("after reset: {what}"));
            }
            self.tally.resets += 1;
        }
        Ok(())
    }

    fn run_question(&mut self, q: &Question) -> Result<(), String> {
        let (mut ours, mut theirs) = lent_controller(&q.start, &q.wide);
        let lent: Box<[u8]> = if self.exact {
            q.packet[..].into()
        } else {
            Box::default()
        };
        let packet = if self.exact { &lent } else { &q.packet[..] };
        let stood = ffi::Judgement::from(&q.stood);
        let (refusal, got) = self.fill(stood, |j| ffi::judge(&mut theirs, packet, j))?;
        let mut judgement = q.stood;
        let wanted = match ours.judge(&q.packet, &mut judgement) {
            Ok(()) => 0,
            Err(refusal) => refusal as u32,
        };
        if refusal != wanted {
            return Err(format!("judging: answer {refusal}, model {wanted}"));
        }
        if let Some(what) = unlike_judgement(&got, &judgement) {
            return Err(format!("judging, answer {refusal}: {what}"));
        }
        if let Some(what) = unlike(&theirs, &ours, &q.wide) {
            return Err(format!("judging, answer {refusal}: {what}"));
        }
        let asked = &mut self.tally.asked;
        asked.judged[refusal as usize] += 1;
        if refusal != 0 {
            return Ok(());
        }
        asked.asks[judgement.accepts as usize % 4] += 1;
        let joins = matches!(q.packet[3], 2 | 3) && judgement.transfer.open();
        asked.joined[judgement.accepts as usize % 4] += joins as u64;
        for code in 0..16 {
            asked.codes[code] += (judgement.codes >> code & 1) as u64;
        }
        self.as_received(q, &judgement)?;
        let same = Some((q.start, q.wide));
        for (which, on) in [same, q.other].into_iter().enumerate() {
            let Some((start, wide)) = on else { continue };
            let errand = Errand {
                start,
                wide,
                judgement,
                out: q.out,
                canary: q.canary,
            };
            let answer = self
                .carry_out(&errand)
                .map_err(|what| format!("{}{what}", ["", "on the other: "][which]))?;
            self.tally.asked.carried(&errand, &answer, which);
        }
        Ok(())
    }

    /// In the model judging and carrying out are a receive call at a packet boundary, but for the packet that
    /// is half received. The library's receive call is held to the model's by the streams.
    fn as_received(&self, q: &Question, judgement: &Judgement) -> Result<(), String> {
        // A planted fault is for the library to find.
        if !model::planted(0) {
            return Ok(());
        }
        let mut received = q.start;
        received.received = 0;
        let mut carried = q.start;
        let mut outs = [[q.canary; 64]; 2];
        let answer = received.receive(&q.packet, &mut outs[0]);
        let length = carried.carry_out(judgement, &mut outs[1]);
        let wanted = length.map(|length| Progress::Answered {
            taken: q.packet.len(),
            length,
            wrong: (judgement.wrong != model::NO_BYTE).then_some(judgement.wrong as usize),
        });
        let half = |c: &Controller| (c.header, c.sum, c.received, c.hold);
        let same = answer == wanted && outs[0] == outs[1] && received.state == carried.state;
        if !same || half(&carried) != half(&q.start) {
            let [one, two] = outs.map(|out| hex(&out));
            return Err(format!(
                "the model receives {answer:?} {one}, and carries out {wanted:?} {two}"
            ));
        }
        Ok(())
    }

    fn carry_out(&self, e: &Errand) -> Result<Emitted, String> {
        let (mut ours, mut theirs) = lent_controller(&e.start, &e.wide);
        let mut judgement = Box::new(ffi::Judgement::from(&e.judgement));
        let (answer, _) = self
            .lend(
                e.out,
                e.canary,
                |b| self.emit(|size| ffi::carry_out(&mut theirs, &mut judgement, b, size)),
                |b| {
                    let mut answer = Emitted::from(ours.carry_out(&e.judgement, b));
                    if answer.refusal != 0 && model::planted(111) {
                        answer.size = ffi::UNSET;
                    }
                    answer
                },
            )
            .map_err(|what| format!("carrying out: {what}"))?;
        if let Some(what) = unlike_judgement(&judgement, &e.judgement) {
            return Err(format!("the judgement was written: {what}"));
        }
        if let Some(what) = unlike(&theirs, &ours, &e.wide) {
            return Err(format!("carrying out, answer {answer:?}: {what}"));
        }
        Ok(answer)
    }

    fn note(&mut self, cut: usize, answer: &Receipt, out: &[u8]) {
        let tally = &mut self.tally;
        tally.calls += 1;
        tally.one_byte_calls += (cut == 1) as u64;
        tally.receive_refusals[answer.refusal as usize] += 1;
        if answer.refusal != 0 {
            return;
        }
        if answer.size == 0 {
            tally.waiting += 1;
            return;
        }
        tally.packets += 1;
        match out[0] {
            1 => {
                tally.errors += 1;
                for &code in &out[6..answer.size as usize - 1] {
                    tally.codes[code as usize % 16] += 1;
                }
            }
            3 => tally.written += 1,
            _ => tally.read += 1,
        }
    }
}

impl Asked {
    /// Notes what carrying out answered: on the same controller, on another, or of a forged judgement.
    fn carried(&mut self, e: &Errand, answer: &Emitted, which: usize) {
        let j = &e.judgement;
        let refusal = answer.refusal as usize;
        self.carried[refusal] += 1;
        match refusal {
            0 => {
                let codes = j.codes & model::CODES;
                let done = if codes != 0 {
                    0
                } else {
                    j.accepts as usize % 4
                };
                self.done[which][done] += 1;
                self.half += (e.start.received > 0) as u64;
                self.odd_codes += (codes & 0b1_0110_0010 != 0) as u64;
            }
            2 => note_alone(&mut self.forged, &forgeries(j)),
            4 => note_alone(&mut self.stale, &differing(&e.start, j)),
            _ => {}
        }
    }
}

impl Values {
    /// Notes the packet that this controller has just answered; `held` bytes of a transfer were held
    /// before it.
    fn note(&mut self, c: &Controller, held: usize, answer: &Receipt, out: &[u8]) {
        let [_, cmd1, cmd2, flags, low, high] = c.header;
        let Some(command) = Command::from_bytes(cmd1, cmd2) else {
            return;
        };
        let length = u16::from_le_bytes([low, high]) as usize;
        let joins = flags == 3;
        let held = &c.state.buffer[..if joins { held } else { 0 }];
        let data = [held, &c.hold[..length.min(model::HOLD)]].concat();
        let mut wrong = 0;
        if let Some(data) = data.get(..command.size()) {
            let _ = command.fields(data, |_, allowed| {
                wrong += !allowed as usize;
                Ok::<_, ()>(())
            });
        }
        let place = command as usize;
        if answer.wrong != ffi::NO_WRONG_BYTE {
            self.named[joins as usize][place][answer.wrong as usize] += 1;
            self.several[place] += (wrong > 1) as u64;
        } else if wrong > 0 && out[0] == 1 {
            for &code in &out[6..answer.size as usize - 1] {
                self.beside[code as usize % 16] += 1;
            }
        }
    }
}

// ---------------------------------------------------------------------------------------------
// Cases

fn cuts(rng: &mut Rng, total: usize) -> Vec<usize> {
    match rng.below(10) {
        0..=3 => vec![ALL],
        4 | 5 if total < 3000 || rng.one_in(40) => vec![1],
        6 => vec![rng.pick(&[5, 6, 7, 8])],
        7 => (0..5).map(|_| 1 + rng.below(9)).collect(),
        8 => (0..7).map(|_| rng.below(4)).chain([3]).collect(),
        _ => (0..5).map(|_| 1 + rng.below(total.max(2))).collect(),
    }
}

fn outs(rng: &mut Rng) -> Vec<usize> {
    match rng.below(16) {
        0 => (0..4).map(|_| rng.below(131)).chain([64]).collect(),
        1 => vec![63, 64, 65],
        2 => vec![128, 127, 129],
        3 => vec![rng.below(131)],
        _ => vec![64 + rng.below(67)],
    }
}

fn stream_case(rng: &mut Rng) -> Stream {
    let kind = rng.below(8);
    let (start, wide, mut parts) = match kind {
        0 | 1 => {
            let (c, wide) = if kind == 0 {
                generate::damaged_controller(rng)
            } else {
                (generate::controller_in_rule(rng), Wide::default())
            };
            let rest = generate::remainder(rng, &c);
            (c, wide, vec![rest])
        }
        _ => (Controller::default(), Wide::default(), Vec::new()),
    };
    let groups = if kind == 0 {
        rng.below(3)
    } else {
        1 + rng.below(12)
    };
    for _ in 0..groups {
        let longest = if rng.one_in(8) { 65535 } else { 1100 };
        generate::some_packets(rng, &mut parts, longest);
    }
    if rng.one_in(12) {
        if let Some(last) = parts.last_mut() {
            last.truncate(rng.below(last.len() + 1));
        }
    }
    let total = parts.iter().map(Vec::len).sum();
    Stream {
        start,
        wide,
        parts,
        cuts: cuts(rng, total),
        outs: outs(rng),
        canary: rng.byte(),
        reset: rng.one_in(4),
    }
}

fn a_controller(rng: &mut Rng) -> (Controller, Wide) {
    match rng.below(12) {
        0 => (Controller::default(), Wide::default()),
        1 | 2 => generate::damaged_controller(rng),
        _ => (generate::controller_in_rule(rng), Wide::default()),
    }
}

/// An output for a response.
fn an_output(rng: &mut Rng) -> usize {
    match rng.below(16) {
        0 => rng.below(131),
        1 => 63,
        _ => 64 + rng.below(3),
    }
}

fn question(rng: &mut Rng) -> Case {
    let (start, wide) = a_controller(rng);
    let packet = generate::asked(rng, &start);
    let like = generate::like(rng);
    Case::Judge(Box::new(Question {
        start,
        wide,
        packet,
        stood: generate::any_judgement(rng),
        other: Some(generate::alike(rng, &start, like)),
        out: an_output(rng),
        canary: rng.byte(),
    }))
}

/// A judgement for a controller, carried out there or on another.
fn errand(rng: &mut Rng) -> Case {
    let (mut start, mut wide) = a_controller(rng);
    let judgement = generate::forged(rng, &start);
    if rng.one_in(4) {
        let like = generate::like(rng);
        (start, wide) = generate::alike(rng, &start, like);
    }
    Case::Carry(Box::new(Errand {
        start,
        wide,
        judgement,
        out: an_output(rng),
        canary: rng.byte(),
    }))
}

fn emit_case(rng: &mut Rng) -> Case {
    let settings = if rng.one_in(2) {
        generate::settings_in_rule(rng)
    } else {
        generate::doubtful_settings(rng)
    };
    let wide = if rng.one_in(8) {
        generate::wide_settings(rng)
    } else {
        Wide::default()
    };
    if rng.one_in(3) {
        let out = if rng.one_in(4) {
            rng.below(131)
        } else {
            126 + rng.below(5)
        };
        return Case::List {
            settings,
            wide,
            out,
        };
    }
    let cmd = if rng.one_in(8) {
        [rng.below(6) as u8, rng.below(9) as u8]
    } else {
        rng.pick(&Command::ALL).bytes()
    };
    let out = if rng.one_in(4) {
        rng.below(131)
    } else {
        62 + rng.below(10)
    };
    Case::Encode {
        cmd,
        settings,
        wide,
        out,
    }
}

/// One packet for a fresh controller.
fn single(bytes: Vec<u8>, out: usize) -> Case {
    Case::Stream(Box::new(Stream {
        start: Controller::default(),
        wide: Wide::default(),
        parts: vec![bytes],
        cuts: vec![ALL],
        outs: vec![out],
        canary: 0x3C,
        reset: false,
    }))
}

/// What is few enough to try all of: output lengths, commands, types, flags, single values and the fields
/// that are not allowed.
fn swept() -> impl Iterator<Item = Case> {
    let factory = Settings::FACTORY;
    let lengths = (0..=130).flat_map(move |out| {
        let encode = move |c: Command| Case::Encode {
            cmd: c.bytes(),
            settings: factory,
            wide: Wide::default(),
            out,
        };
        let read = |c: Command| generate::packet(4, c.bytes(), 0, &[]);
        let packets = Command::ALL
            .map(read)
            .into_iter()
            .chain([vec![], vec![2], vec![7; 14]]);
        let list = Case::List {
            settings: factory,
            wide: Wide::default(),
            out,
        };
        let calls = packets.map(move |bytes| single(bytes, out));
        Command::ALL
            .into_iter()
            .map(encode)
            .chain([list])
            .chain(calls)
    });
    let commands = (0..=0xFFFF).flat_map(move |n: u16| {
        let cmd = n.to_be_bytes();
        let packet = |kind| single(generate::packet(kind, cmd, 0, &[]), 64);
        [
            Case::Encode {
                cmd,
                settings: factory,
                wide: Wide::default(),
                out: 64,
            },
            packet(2),
            packet(4),
        ]
    });
    let kinds = (0..=0xFFFF).map(|n: u16| {
        let [kind, flags] = n.to_be_bytes();
        single(generate::packet(kind, [1, 3], flags, &[5]), 64)
    });
    let values = generate::every_value()
        .into_iter()
        .flat_map(move |(command, data)| {
            let mut settings = factory;
            settings.set(command, &data);
            let mut damaged = Controller::default();
            damaged.state.settings = settings;
            let mut start = single(vec![2], 64);
            if let Case::Stream(stream) = &mut start {
                stream.start = damaged;
            }
            let write = generate::packet(2, command.bytes(), 0, &data);
            let cmd = command.bytes();
            [
                Case::Encode {
                    cmd,
                    settings,
                    wide: Wide::default(),
                    out: 64,
                },
                Case::List {
                    settings,
                    wide: Wide::default(),
                    out: 128,
                },
                single(write, 64),
                start,
            ]
        });
    // Every set of fields that are not allowed: whole, with a good packet behind it and half a one, in a
    // transfer cut at each place, and with faults that come before the values.
    let faults = generate::every_fault()
        .into_iter()
        .flat_map(|(command, data, _)| {
            let cmd = command.bytes();
            let packet = |kind, flags, data: &[u8]| generate::packet(kind, cmd, flags, data);
            let whole = packet(2, 0, &data);
            let good = packet(2, 0, Settings::FACTORY.get(command));
            let mut other_sum = whole.clone();
            other_sum[6 + data.len()] ^= 0x40;
            let mut streams = vec![
                [&whole[..], &good[..], &whole[..5]].concat(),
                other_sum,
                packet(2, 0, &[&data[..], &[0]].concat()),
                packet(2, 0, &data[1..]),
                packet(2, 3, &data),
                packet(2, 4, &data),
                packet(3, 0, &data),
                packet(4, 0, &data),
                [packet(2, 1, &data), whole].concat(),
                [packet(2, 1, &data), packet(2, 3, &[0])].concat(),
            ];
            for cut in 0..=data.len() {
                let (first, last) = data.split_at(cut);
                streams.push([packet(2, 1, first), packet(2, 3, last)].concat());
                streams.push([packet(2, 1, first), packet(2, 2, last), packet(2, 3, &[])].concat());
            }
            streams.into_iter().map(|bytes| single(bytes, 64))
        });
    // A sum left over: no bytes, then a packet whose checksum is right, then one whose sum goes on.
    let sums = (1..=255).flat_map(|sum: u8| {
        let right = generate::packet(2, [1, 3], 0, &[5]);
        let mut on = right.clone();
        on[7] = on[7].wrapping_add(sum);
        [right, on].map(|bytes| {
            let mut case = single(bytes, 64);
            if let Case::Stream(stream) = &mut case {
                stream.start.sum = sum;
                stream.cuts = vec![0, ALL];
            }
            case
        })
    });
    // How many bytes of a packet have come in, about its length and where 16 bits end, and how many
    // of a transfer are held: each with a byte or a packet that goes on.
    let counts = [0, 1, 1024, 65_535].into_iter().flat_map(|length: u16| {
        let due = 7 + length as usize;
        let ends = [0, due, 1 << 16, 1 << 17, (1 << 17) + due, 1 << 31];
        let about = ends
            .into_iter()
            .flat_map(|end: usize| end.saturating_sub(9)..end + 9);
        let last = u32::MAX as usize;
        about.chain(last - 9..=last).map(move |received| {
            let mut case = single(vec![2], 64);
            if let Case::Stream(stream) = &mut case {
                let [low, high] = length.to_le_bytes();
                stream.start.header = [2, 1, 3, 0, low, high];
                stream.start.sum = 2;
                stream.start.received = received;
            }
            case
        })
    });
    let held = (0..=0xFFFF).map(|held: u16| {
        let mut case = single(generate::packet(2, [1, 3], 2, &[5]), 64);
        if let Case::Stream(stream) = &mut case {
            stream.start.state.transfer = Transfer {
                mark: 1,
                command: [1, 3],
                held: held as usize,
            };
        }
        case
    });
    // Each bit of a wider field beyond its byte, which may be allowed.
    let bits = (0..4).flat_map(|field| (8..Wide::FIELDS[field].1).map(move |bit| (field, bit)));
    let wides = bits.flat_map(move |(field, bit)| {
        (0..5).flat_map(move |low| {
            let mut wide = Wide::default();
            wide.0[field] = 1 << bit | low;
            let mut start = single(vec![2], 64);
            if let Case::Stream(stream) = &mut start {
                stream.wide = wide;
            }
            let encode = move |c: Command| Case::Encode {
                cmd: c.bytes(),
                settings: factory,
                wide,
                out: 64,
            };
            let list = Case::List {
                settings: factory,
                wide,
                out: 128,
            };
            Command::ALL.into_iter().map(encode).chain([list, start])
        })
    });
    lengths
        .chain(commands)
        .chain(kinds)
        .chain(values)
        .chain(faults)
        .chain(sums)
        .chain(counts)
        .chain(held)
        .chain(wides)
        .chain(swept_judgements())
}

/// The head on which judgements are swept: mode 4, three bytes of 01 04 held, and a packet half received.
fn half_way() -> Controller {
    let mut c = Controller::default();
    c.state.settings.set(Command::Mode, &[4]);
    c.state.transfer = Transfer {
        mark: 1,
        command: [1, 4],
        held: 3,
    };
    c.state.buffer[..4].copy_from_slice(&[0, 4, 1, 9]);
    c.header = [2, 1, 3, 0, 1, 0];
    (c.received, c.sum, c.hold[0]) = (7, 10, 3);
    c
}

/// Every number of each field of a judgement, in judgements that would be carried out without; every value
/// that a command may have or not, forged as a write; every output length; and every length of what is judged.
fn swept_judgements() -> impl Iterator<Item = Case> {
    let stood = generate::any_judgement(&mut Rng::new(5, 5));
    let drawn = move |start: &Controller, kind, cmd, flags, data: &[u8]| {
        let mut j = stood;
        let packet = generate::packet(kind, cmd, flags, data);
        let _ = { *start }.judge(&packet, &mut j);
        (*start, j)
    };
    let errand = |start: &Controller, judgement: Judgement, out: usize| {
        Case::Carry(Box::new(Errand {
            start: *start,
            wide: Wide::default(),
            judgement,
            out,
            canary: 0x3C,
        }))
    };
    let question = move |start: &Controller, packet: Vec<u8>| {
        Case::Judge(Box::new(Question {
            start: *start,
            wide: Wide::default(),
            packet,
            stood,
            other: None,
            out: 64,
            canary: 0x3C,
        }))
    };
    let fresh = Controller::default();
    let open = half_way();
    let bases = vec![
        drawn(&fresh, 2, [1, 3], 0, &[5]),
        drawn(&fresh, 4, [1, 3], 0, &[]),
        drawn(&fresh, 2, [1, 3], 1, &[5]),
        drawn(&fresh, 2, [1, 3], 0, &[14]),
        drawn(&open, 2, [1, 4], 2, &[4]),
        drawn(&open, 2, [1, 4], 3, &[1, 0, 4]),
        drawn(&open, 2, [1, 4], 3, &[]),
        drawn(&open, 4, [1, 4], 0, &[]),
    ];
    let outs = bases.clone();
    let lengths = (0..=130).flat_map(move |out| {
        outs.clone()
            .into_iter()
            .map(move |(start, j)| errand(&start, j, out))
    });
    let numbers = (0..=0xFFFF).flat_map(move |n: u16| {
        let [low, high] = n.to_le_bytes();
        // Numbers about a limit in every judgement, and each of the others in one.
        let everywhere = n < 1100 || n > 0xFF00 || low == 0 || low == 1 || low == 255;
        let place = n as usize % bases.len();
        let some = if everywhere {
            &bases[..]
        } else {
            &bases[place..=place]
        };
        let of_bases = some.to_vec().into_iter().flat_map(move |(start, base)| {
            let with = |change: &dyn Fn(&mut Judgement)| {
                let mut j = base;
                change(&mut j);
                j
            };
            let mut all = vec![
                with(&|j| j.codes = n),
                with(&|j| j.accepts = n),
                with(&|j| j.wrong = n),
                with(&|j| j.count = n as usize),
                with(&|j| j.command = [high, low]),
                with(&|j| j.transfer.command = [high, low]),
                with(&|j| j.transfer.held = n as usize),
            ];
            if high == 0 {
                all.push(with(&|j| j.mode = low));
                all.push(with(&|j| j.transfer.mark = low));
                all.extend((0..8).map(|at| with(&|j| j.joined[at] = low)));
            }
            all.into_iter().map(move |j| errand(&start, j, 64))
        });
        of_bases
    });
    // Whole, as the rest of a transfer, and in a mode in which nothing runs and in mode 4.
    let values = generate::every_value()
        .into_iter()
        .chain(
            generate::every_fault()
                .into_iter()
                .map(|(c, data, _)| (c, data)),
        )
        .flat_map(move |(command, data)| {
            let cmd = command.bytes();
            let starts = [fresh, open].into_iter().flat_map(|mut start| {
                start.state.transfer = Transfer::NONE;
                let whole = start;
                start.state.transfer = Transfer {
                    mark: 1,
                    command: cmd,
                    held: data.len() / 2,
                };
                start.state.buffer[..data.len() / 2].copy_from_slice(&data[..data.len() / 2]);
                [whole, start]
            });
            let of_starts: Vec<Case> = starts
                .flat_map(|start| {
                    let transfer = start.state.transfer;
                    let mut j = stood;
                    j.mode = start.state.settings.get(Command::Mode)[0];
                    j.transfer = transfer;
                    j.command = cmd;
                    (j.codes, j.wrong, j.accepts) = (0, model::NO_BYTE, model::WRITES);
                    j.count = data.len();
                    j.joined[..data.len()].copy_from_slice(&data);
                    let (flags, rest) = if transfer.open() {
                        (3, &data[transfer.held..])
                    } else {
                        (0, &data[..])
                    };
                    let packet = generate::packet(2, cmd, flags, rest);
                    [errand(&start, j, 64), question(&start, packet)]
                })
                .collect();
            of_starts
        });
    // Bytes that are one packet or not: every length about that of the field, and of headers alone.
    let lengths_judged = [0u16, 1, 6, 255, 256, 1024, 1025, 65_535].into_iter();
    let cut = lengths_judged.flat_map(move |length| {
        let whole = generate::packet(2, [1, 4], 0, &vec![1; length as usize]);
        let due = whole.len();
        (0..10.min(due)).chain(due - 2..due + 3).flat_map(move |n| {
            let mut bytes = whole.clone();
            bytes.resize(n, 0);
            [fresh, open].map(|start| question(&start, bytes.clone()))
        })
    });
    // Every command, type and flags, with no transfer open and with one.
    let commands = (0..=0xFFFF).flat_map(move |n: u16| {
        let cmd = n.to_be_bytes();
        [(fresh, 0), (fresh, 1), (open, 2)]
            .into_iter()
            .flat_map(move |(start, flags)| {
                [2, 4].map(|kind| question(&start, generate::packet(kind, cmd, flags, &[])))
            })
    });
    let kinds = (0..=0xFFFF).flat_map(move |n: u16| {
        let [kind, flags] = n.to_be_bytes();
        [fresh, open]
            .map(|start| question(&start, generate::packet(kind, [1, 4], flags, &[1, 0, 4])))
    });
    lengths
        .chain(numbers)
        .chain(values)
        .chain(cut)
        .chain(commands)
        .chain(kinds)
}

// ---------------------------------------------------------------------------------------------
// Making a failing case smaller

/// The same bytes with a stretch left out or set to zero: longer stretches first.
fn stretches(bytes: &[u8]) -> impl Iterator<Item = Vec<u8>> + '_ {
    let sizes = std::iter::successors(Some(bytes.len()), |&n| (n > 1).then_some(n / 2));
    let places = move |n: usize| (0..bytes.len()).step_by(n.max(1)).map(move |at| (n, at));
    sizes
        .filter(|&n| n > 0)
        .flat_map(places)
        .flat_map(move |(n, at)| {
            let end = (at + n).min(bytes.len());
            let without = [&bytes[..at], &bytes[end..]].concat();
            let mut zeros = bytes.to_vec();
            zeros[at..end].fill(0);
            let changed = zeros != bytes;
            [Some(without), changed.then_some(zeros)]
                .into_iter()
                .flatten()
        })
}

fn smaller_stream(s: &Stream) -> Vec<Case> {
    let mut cases = Vec::new();
    let mut push = |change: &dyn Fn(&mut Stream)| {
        let mut next = s.clone();
        change(&mut next);
        if next != *s {
            cases.push(Case::Stream(Box::new(next)));
        }
    };
    let fresh = Controller::default();
    push(&|n| n.start = fresh);
    for i in 0..4 {
        push(&|n| n.wide.0[i] = 0);
    }
    push(&|n| n.start.state.settings = fresh.state.settings);
    push(&|n| n.start.state.transfer = fresh.state.transfer);
    push(&|n| n.start.header = fresh.header);
    push(&|n| n.start.sum = 0);
    push(&|n| n.start.received = 0);
    push(&|n| n.start.state.buffer = fresh.state.buffer);
    push(&|n| n.start.hold = fresh.hold);
    push(&|n| n.start.state.transfer.held = 0);
    for i in 0..48 {
        push(&|n| n.start.state.settings.0[i] = fresh.state.settings.0[i]);
    }
    push(&|n| n.reset = false);
    for i in 0..s.parts.len() {
        push(&|n| {
            n.parts.remove(i);
        });
    }
    push(&|n| n.cuts = vec![ALL]);
    if s.cuts.len() > 1 {
        s.cuts.iter().for_each(|&cut| push(&|n| n.cuts = vec![cut]));
    }
    push(&|n| n.outs = vec![64]);
    if s.outs.len() > 1 {
        s.outs.iter().for_each(|&out| push(&|n| n.outs = vec![out]));
    }
    for (i, part) in s.parts.iter().enumerate() {
        for bytes in stretches(part).take(6000) {
            push(&|n| n.parts[i] = bytes.clone());
        }
    }
    cases
}

/// What is changed of a controller to make a case smaller: parts of it as they are in a fresh one.
fn smaller_controllers(c: &Controller) -> Vec<Controller> {
    let fresh = Controller::default();
    let with = |change: &dyn Fn(&mut Controller)| {
        let mut next = *c;
        change(&mut next);
        next
    };
    let mut all = vec![
        fresh,
        with(&|n| n.state.settings = fresh.state.settings),
        with(&|n| n.state.transfer = fresh.state.transfer),
        with(&|n| n.state.transfer.held = 0),
        with(&|n| (n.header, n.sum, n.received) = (fresh.header, 0, 0)),
        with(&|n| n.state.buffer = fresh.state.buffer),
        with(&|n| n.hold = fresh.hold),
    ];
    all.extend((0..48).map(|i| with(&|n| n.state.settings.0[i] = fresh.state.settings.0[i])));
    all.retain(|next| next != c);
    all
}

fn smaller_question(q: &Question) -> Vec<Case> {
    let mut cases = Vec::new();
    let mut push = |change: &dyn Fn(&mut Question)| {
        let mut next = q.clone();
        change(&mut next);
        if next != *q {
            cases.push(Case::Judge(Box::new(next)));
        }
    };
    push(&|n| n.other = None);
    push(&|n| n.wide = Wide::default());
    push(&|n| n.stood.joined = [0; model::HOLD]);
    push(&|n| n.out = 64);
    for start in smaller_controllers(&q.start) {
        push(&|n| n.start = start);
        // The other keeps what it has in common with the first.
        push(&|n| {
            if let Some((other, _)) = &mut n.other {
                n.start = start;
                other.state.transfer = start.state.transfer;
                other.state.buffer = start.state.buffer;
            }
        });
    }
    if let Some((other, wide)) = q.other {
        push(&|n| n.other = Some((other, Wide::default())));
        for other in smaller_controllers(&other) {
            push(&|n| n.other = Some((other, wide)));
        }
    }
    for bytes in stretches(&q.packet).take(3000) {
        push(&|n| n.packet = bytes.clone());
    }
    cases
}

fn smaller_errand(e: &Errand) -> Vec<Case> {
    let mut cases = Vec::new();
    let mut push = |change: &dyn Fn(&mut Errand)| {
        let mut next = e.clone();
        change(&mut next);
        if next != *e {
            cases.push(Case::Carry(Box::new(next)));
        }
    };
    push(&|n| n.wide = Wide::default());
    push(&|n| n.out = 64);
    for start in smaller_controllers(&e.start) {
        push(&|n| n.start = start);
    }
    push(&|n| n.judgement.joined = [0; model::HOLD]);
    push(&|n| (n.judgement.transfer, n.start.state.transfer) = (Transfer::NONE, Transfer::NONE));
    push(&|n| n.judgement.transfer = Transfer::NONE);
    push(&|n| n.judgement.codes = 0);
    push(&|n| n.judgement.wrong = model::NO_BYTE);
    push(&|n| n.judgement.mode = n.start.state.settings.get(Command::Mode)[0]);
    for at in (0..model::HOLD).filter(|&at| e.judgement.joined[at] != 0) {
        push(&|n| n.judgement.joined[at] = 0);
    }
    cases
}

fn smaller_report(bytes: &[u8]) -> Vec<Case> {
    let mut cases = Vec::new();
    if let Some(report) = Report::parse(bytes) {
        let mut push = |next: Report| cases.push(Case::Report(next.bytes()));
        for i in 0..report.trials.len() {
            let mut next = report.clone();
            next.trials.remove(i);
            push(next.clone());
            if next.winner > 0 {
                next.winner -= 1;
                push(next);
            }
        }
        for i in 0..=report.trials.len() {
            let body = report.trials.get(i).map_or(&report.shipping, |t| &t.1);
            let parts = generate::packets(body);
            for out in 0..parts.len() {
                let mut rest = parts.clone();
                rest.remove(out);
                let mut next = report.clone();
                match next.trials.get_mut(i) {
                    Some(trial) => trial.1 = rest.concat(),
                    None => next.shipping = rest.concat(),
                }
                push(next);
            }
        }
    }
    cases.extend(stretches(bytes).take(6000).map(Case::Report));
    cases
}

/// One byte at its factory value, one wider field as it is without, or the usual output.
fn smaller_settings(
    settings: &Settings,
    wide: &Wide,
    out: usize,
    usual: usize,
) -> impl Iterator<Item = (Settings, Wide, usize)> {
    let from = (*settings, *wide, out);
    let bytes = (0..48).map(move |i| {
        let mut next = from;
        next.0 .0[i] = Settings::FACTORY.0[i];
        next
    });
    let fields = (0..4).map(move |i| {
        let mut next = from;
        next.1 .0[i] = 0;
        next
    });
    let lengths = [(from.0, from.1, usual)];
    bytes
        .chain(fields)
        .chain(lengths)
        .filter(move |next| *next != from)
}

fn smaller(case: &Case) -> Vec<Case> {
    match case {
        Case::Stream(stream) => smaller_stream(stream),
        Case::Judge(question) => smaller_question(question),
        Case::Carry(errand) => smaller_errand(errand),
        Case::Report(bytes) => smaller_report(bytes),
        Case::Encode {
            cmd,
            settings,
            wide,
            out,
        } => smaller_settings(settings, wide, *out, 64)
            .map(|(settings, wide, out)| Case::Encode {
                cmd: *cmd,
                settings,
                wide,
                out,
            })
            .collect(),
        Case::List {
            settings,
            wide,
            out,
        } => smaller_settings(settings, wide, *out, 128)
            .map(|(settings, wide, out)| Case::List {
                settings,
                wide,
                out,
            })
            .collect(),
    }
}

/// Takes the first smaller case that still differs, until there is none or enough was tried.
fn shrink(harness: &mut Harness, case: Case) -> Case {
    let mut case = case;
    let mut tries = 50_000;
    'next: loop {
        for candidate in smaller(&case) {
            if tries == 0 {
                return case;
            }
            tries -= 1;
            if harness.run(&candidate).is_err() {
                case = candidate;
                continue 'next;
            }
        }
        return case;
    }
}

fn used(array: &[u8]) -> &[u8] {
    &array[..array.iter().rposition(|&b| b != 0).map_or(0, |n| n + 1)]
}

fn show_controller(name: &str, c: &Controller) {
    if *c == Controller::default() {
        println!("  {name}: fresh");
        return;
    }
    let t = &c.state.transfer;
    println!("  {name}: settings {}", hex(&c.state.settings.0));
    println!(
        "    transfer mark {} command {} held {}",
        t.mark,
        hex(&t.command),
        t.held
    );
    println!(
        "    header {} sum {:02X} received {}",
        hex(&c.header),
        c.sum,
        c.received
    );
    for (name, array) in [("buffer", &c.state.buffer), ("hold", &c.hold)] {
        println!("    {name} {} then zeros", hex(used(array)));
    }
}

fn show_judgement(name: &str, j: &Judgement) {
    println!("  {name}: {:?}", ffi::Judgement::from(j).ruling);
    println!("    joined {} then zeros", hex(used(&j.joined)));
}

fn show(case: &Case) {
    let show_wide = |wide: &Wide| {
        if wide.any() {
            println!("  rotate, video LED, sequence LED, run: {:X?}", wide.0);
        }
    };
    match case {
        Case::Stream(s) => {
            show_wide(&s.wide);
            show_controller("controller", &s.start);
            for part in &s.parts {
                println!("  input: {}", hex(part));
            }
            if s.cuts != [ALL] {
                println!("  given {:?} bytes at a time", s.cuts);
            }
            println!("  output lengths: {:?}, reset: {}", s.outs, s.reset);
        }
        Case::Judge(q) => {
            show_wide(&q.wide);
            show_controller("controller", &q.start);
            if let Some((other, wide)) = &q.other {
                show_wide(wide);
                show_controller("the other", other);
            }
            show_judgement("what stood there", &q.stood);
            println!("  packet: {}", hex(&q.packet));
            println!("  output length: {}", q.out);
        }
        Case::Carry(e) => {
            show_wide(&e.wide);
            show_controller("controller", &e.start);
            show_judgement("judgement", &e.judgement);
            println!("  output length: {}", e.out);
        }
        Case::Encode {
            cmd,
            settings,
            wide,
            out,
        } => {
            show_wide(wide);
            println!(
                "  encode {} output {out} settings {}",
                hex(cmd),
                hex(&settings.0)
            );
        }
        Case::List {
            settings,
            wide,
            out,
        } => {
            show_wide(wide);
            println!(
                "  standard list, output {out} settings {}",
                hex(&settings.0)
            );
        }
        Case::Report(bytes) => println!("  report ({} bytes): {}", bytes.len(), hex(bytes)),
    }
}

// ---------------------------------------------------------------------------------------------

/// The bytes on the wire of each field of the settings, in layout order, and the places there of those
/// that the library has wider. A stored case has four bytes for each.
const FIELDS: [usize; 30] = [
    1, 1, 2, 2, 2, 1, 1, 1, 1, 1, 1, 1, 2, 2, 2, 2, 2, 2, 1, 1, 1, 1, 1, 1, 1, 4, 4, 4, 1, 1,
];
const WIDER: [usize; 4] = [11, 20, 28, 29];

/// The settings of a stored case; none where they are of another length, or the library's field has no
/// room for a number.
fn stored_settings(bytes: &[u8]) -> Option<(Settings, Wide)> {
    if bytes.len() != 4 * FIELDS.len() {
        return None;
    }
    let mut settings = Vec::new();
    let mut wide = Wide::default();
    for (k, (number, size)) in bytes.chunks_exact(4).zip(FIELDS).enumerate() {
        let value = u32::from_le_bytes(number.try_into().ok()?);
        let wider = WIDER.iter().position(|&place| place == k);
        let bits = wider.map_or(8 * size as u32, |field| Wide::FIELDS[field].1);
        if value.checked_shr(bits).is_some_and(|above| above != 0) {
            return None;
        }
        settings.extend(&number[..size]);
        if let Some(field) = wider {
            wide.0[field] = value;
        }
    }
    Some((Settings(settings.try_into().ok()?), wide))
}

/// A stream lent whole and byte by byte.
fn stored_stream(bytes: &[u8]) -> [Case; 2] {
    [ALL, 1].map(|cut| {
        let mut stream = single(bytes.to_vec(), 64);
        if let Case::Stream(stream) = &mut stream {
            stream.cuts = vec![cut];
        }
        stream
    })
}

/// A row of the guide: the stream, the encoder and the standard list.
fn stored_row(row: &[u8]) -> Option<Vec<Case>> {
    let (&label, rest) = row.split_first()?;
    let (&[cmd1, cmd2, l0, l1], rest) = rest.get(label as usize..)?.split_first_chunk()?;
    let (stream, rest) = rest.split_at_checked(u16::from_le_bytes([l0, l1]) as usize)?;
    let (settings, wide) = stored_settings(rest)?;
    let mut cases = Vec::from(stored_stream(stream));
    cases.push(Case::Encode {
        cmd: [cmd1, cmd2],
        settings,
        wide,
        out: model::OUTPUT,
    });
    cases.push(Case::List {
        settings,
        wide,
        out: model::LIST_OUTPUT,
    });
    Some(cases)
}

/// What is tried of a stored case; none where it is of another length. An output that is longer than any
/// that is lent here is as long as the longest.
fn stored_case(kind: u8, case: &[u8]) -> Option<Vec<Case>> {
    let room = |low, high| LONGEST.min(u16::from_le_bytes([low, high]) as usize);
    Some(match kind {
        b's' => stored_stream(case).into(),
        b'r' => vec![Case::Report(case.to_vec())],
        b'l' => {
            let (&[l0, l1], rest) = case.split_first_chunk()?;
            let (settings, wide) = stored_settings(rest)?;
            let out = room(l0, l1);
            vec![Case::List {
                settings,
                wide,
                out,
            }]
        }
        b'e' => {
            let (&[cmd1, cmd2, l0, l1], rest) = case.split_first_chunk()?;
            let (settings, wide) = stored_settings(rest)?;
            vec![Case::Encode {
                cmd: [cmd1, cmd2],
                settings,
                wide,
                out: room(l0, l1),
            }]
        }
        b'g' => stored_row(case)?,
        _ => return None,
    })
}

/// What is read of a stored case, from its beginning on.
struct Reader<'a>(&'a [u8]);

impl<'a> Reader<'a> {
    fn take(&mut self, n: usize) -> Option<&'a [u8]> {
        let (taken, rest) = self.0.split_at_checked(n)?;
        self.0 = rest;
        Some(taken)
    }

    fn number(&mut self, bytes: usize) -> Option<usize> {
        let bytes = self.take(bytes)?.iter().rev();
        Some(bytes.fold(0, |number, &b| number << 8 | b as usize))
    }

    /// Of that many bytes as many as an array has room for.
    fn array(&mut self, count: usize) -> Option<[u8; model::HOLD]> {
        let mut array = [0; model::HOLD];
        let bytes = self.take(count.min(model::HOLD))?;
        array[..bytes.len()].copy_from_slice(bytes);
        Some(array)
    }

    /// A controller at a packet boundary.
    fn controller(&mut self) -> Option<(Controller, Wide)> {
        let (settings, wide) = stored_settings(self.take(4 * FIELDS.len())?)?;
        let mut c = Controller::default();
        c.state.settings = settings;
        c.state.transfer.mark = self.number(1)? as u8;
        c.state.transfer.command = self.take(2)?.try_into().ok()?;
        c.state.transfer.held = self.number(2)?;
        c.state.buffer = self.array(c.state.transfer.held)?;
        Some((c, wide))
    }

    fn judgement(&mut self) -> Option<Judgement> {
        let mut next = || self.number(2);
        let (codes, accepts, wrong, count) = (next()?, next()?, next()?, next()?);
        let command = self.take(2)?.try_into().ok()?;
        let held = self.number(2)?;
        Some(Judgement {
            command,
            codes: codes as u16,
            accepts: accepts as u16,
            wrong: wrong as u16,
            count,
            mode: self.number(1)? as u8,
            transfer: Transfer {
                held,
                mark: self.number(1)? as u8,
                command: self.take(2)?.try_into().ok()?,
            },
            joined: self.array(count)?,
        })
    }
}

/// A case of request 5, and whether the model answers as is stored with it.
fn stored_question(kind: u8, case: &[u8]) -> Option<(Case, bool)> {
    let mut rest = Reader(case);
    let (start, wide) = rest.controller()?;
    let (canary, out) = (0x3C, 64);
    let mut ours = start;
    wide.tell(&mut ours.state.settings);
    if kind == b'j' {
        let length = rest.number(4)?;
        let packet = rest.take(length)?.to_vec();
        let refusal = rest.number(1)?;
        // The array of a stored judgement has zeros behind what counts.
        let mut stood = generate::any_judgement(&mut Rng::new(0, 0));
        stood.joined = [0; model::HOLD];
        let wanted = if refusal == 0 {
            rest.judgement()?
        } else {
            stood
        };
        let mut judgement = stood;
        let answer = ours.judge(&packet, &mut judgement).err();
        let right = answer.map_or(0, |r| r as usize) == refusal && judgement == wanted;
        let question = Question {
            start,
            wide,
            packet,
            stood,
            other: None,
            out,
            canary,
        };
        return rest
            .0
            .is_empty()
            .then_some((Case::Judge(Box::new(question)), right));
    }
    let judgement = rest.judgement()?;
    let out = LONGEST.min(rest.number(2)?);
    let refusal = rest.number(1)?;
    let mut given = vec![canary; out];
    let answer = ours.carry_out(&judgement, &mut given);
    let right = if refusal == 0 {
        let length = rest.number(1)?;
        let response = rest.take(length)?;
        let (after, _) = rest.controller()?;
        let held = |c: &Controller| c.state.buffer[..c.state.transfer.held].to_vec();
        answer == Ok(length)
            && given[..length] == *response
            && ours.state.settings == after.state.settings
            && ours.state.transfer == after.state.transfer
            && held(&ours) == held(&after)
    } else {
        answer.err().map(|r| r as usize) == Some(refusal)
    };
    let errand = Errand {
        start,
        wide,
        judgement,
        out,
        canary,
    };
    rest.0
        .is_empty()
        .then_some((Case::Carry(Box::new(errand)), right))
}

/// The stored cases of a file.
fn stored(file: &str) -> Result<Vec<Case>, String> {
    let bytes = std::fs::read(file).map_err(|why| format!("{file}: {why}"))?;
    let mut cases = Vec::new();
    let mut rest = &bytes[..];
    while let Some((&[kind, l0, l1, l2, l3], after)) = rest.split_first_chunk::<5>() {
        let length = u32::from_le_bytes([l0, l1, l2, l3]) as usize;
        let case = after.get(..length).ok_or(format!("{file}: cut short"))?;
        rest = &after[length..];
        if matches!(kind, b'j' | b'c') {
            let asked = stored_question(kind, case);
            let (asked, right) = asked.ok_or(format!("{file}: a case of another length"))?;
            if !right {
                println!("DIFFERENT: the model has another answer than is stored");
                show(&asked);
                return Err(format!("{file}: case {}", cases.len() + 1));
            }
            cases.push(asked);
            continue;
        }
        let tried = stored_case(kind, case);
        cases.extend(tried.ok_or(format!("{file}: a case of no known kind or another length"))?);
    }
    if !rest.is_empty() || cases.is_empty() {
        return Err(format!("{file}: cut short"));
    }
    Ok(cases)
}

/// Compares both on the stored cases of some files.
fn hold_stored(files: impl Iterator<Item = String>) {
    let mut harness = Harness {
        exact: false,
        tally: Tally::default(),
    };
    for file in files {
        match stored(&file) {
            Ok(cases) => {
                let count = cases.len();
                for case in cases {
                    harness.hold(case, &file, 0);
                }
                println!("no difference: {file}, {count} cases");
            }
            Err(why) => {
                println!("{why}");
                std::process::exit(1);
            }
        }
    }
}

/// What a run that tried everything has seen: each of these at least once.
fn missing(t: &Tally) -> Vec<String> {
    let mut none = Vec::new();
    let mut need = |name: String, seen: u64| {
        if seen == 0 {
            none.push(name);
        }
    };
    for code in [2, 3, 4, 7, 9, 0x0A, 0x0B] {
        need(format!("code {code:02X}"), t.codes[code]);
    }
    need("refusal 1 of receive".into(), t.receive_refusals[1]);
    need("refusal 3 of receive".into(), t.receive_refusals[3]);
    for refusal in 1..4 {
        need(
            format!("refusal {refusal} of encode or list"),
            t.emit_refusals[refusal],
        );
    }
    for refusal in 10..21 {
        need(format!("refusal {refusal}"), t.verdicts[refusal]);
    }
    need("accepted".into(), t.verdicts[0]);
    need("waiting".into(), t.waiting);
    need("write response".into(), t.written);
    need("read response".into(), t.read);
    need("encoded".into(), t.emit_refusals[0]);
    need("reset".into(), t.resets);
    for (seen, of) in t
        .wide
        .into_iter()
        .zip(["a controller", "encode", "the list"])
    {
        need(format!("a value over 255 in the settings of {of}"), seen);
    }
    for (seen, open) in t.left_over.into_iter().zip(["no", "a"]) {
        need(format!("a sum left over, {open} transfer open"), seen);
    }
    for field in &generate::FIELDS {
        let cmd = hex(&field.command.bytes());
        let place = field.command as usize;
        for (named, of) in t.values.named.iter().zip(["a packet", "a transfer"]) {
            let name = format!("byte {} named in {of} of {cmd}", field.byte);
            need(name, named[place][field.byte]);
        }
    }
    for command in Command::ALL {
        if generate::Field::of(command).count() > 1 {
            let name = format!("two wrong fields of {}", hex(&command.bytes()));
            need(name, t.values.several[command as usize]);
        }
    }
    for code in [2, 9, 0x0A, 0x0B] {
        let name = format!("a value that is not allowed beside code {code:02X}");
        need(name, t.values.beside[code]);
    }
    for (seen, offence) in t.offences.into_iter().zip(OFFENCES) {
        need(format!("refusal 18 of {offence}"), seen);
    }
    let a = &t.asked;
    for refusal in [0, 3, 5] {
        need(format!("answer {refusal} of judging"), a.judged[refusal]);
    }
    for code in [2, 3, 4, 7, 9, 0x0A, 0x0B] {
        need(format!("code {code:02X} of a judgement"), a.codes[code]);
    }
    for (k, what) in ASKS.into_iter().enumerate() {
        need(format!("a judgement that is {what}"), a.asks[k]);
        if k != model::READS as usize {
            need(format!("the same in a transfer: {what}"), a.joined[k]);
        }
        for (done, of) in a.done.iter().zip(["the same", "another", "any, forged"]) {
            need(format!("{what} carried out on {of}"), done[k]);
        }
    }
    for (refusal, seen) in a.carried.into_iter().enumerate().take(5) {
        need(format!("answer {refusal} of carrying out"), seen);
    }
    need("carrying out with a packet half received".into(), a.half);
    need("codes that no packet draws".into(), a.odd_codes);
    for (seen, item) in a.stale.into_iter().zip(STALE) {
        need(format!("refusal 4 for {item} alone"), seen);
    }
    for (seen, what) in a.forged.into_iter().zip(FORGED) {
        need(format!("refusal 2 for {what} alone"), seen);
    }
    none
}

/// What a judgement is, by the number of what it asks.
const ASKS: [&str; 4] = ["an error", "a hold", "a write", "a read"];

fn summary(t: &Tally) {
    println!(
        "receive: {} calls ({} of one byte), {} packets: {} written, {} read, {} errors; {} waiting, \
         refusal 1: {}, 3: {}; {} damaged or half-way controllers, {} with a sum left over, {} resets",
        t.calls,
        t.one_byte_calls,
        t.packets,
        t.written,
        t.read,
        t.errors,
        t.waiting,
        t.receive_refusals[1],
        t.receive_refusals[3],
        t.damaged,
        t.left_over[0] + t.left_over[1],
        t.resets
    );
    println!(
        "payloads of 1,024 bytes: {}, of 1,025: {}, of 65,535: {}",
        t.long[0], t.long[1], t.long[2]
    );
    println!(
        "values over 255: in {} controllers, for {} calls of encode and {} of the standard list",
        t.wide[0], t.wide[1], t.wide[2]
    );
    let codes: Vec<String> = (0..16)
        .filter(|&code| t.codes[code] > 0)
        .map(|code| format!("{code:02X}: {}", t.codes[code]))
        .collect();
    println!("codes: {}", codes.join(", "));
    println!(
        "encode: {}, standard list: {}; written: {}, refusal 1: {}, 2: {}, 3: {}",
        t.encoded,
        t.lists,
        t.emit_refusals[0],
        t.emit_refusals[1],
        t.emit_refusals[2],
        t.emit_refusals[3]
    );
    let named = |joins: usize| t.values.named[joins].iter().flatten().sum::<u64>();
    let beside: Vec<String> = (0..16)
        .filter(|&code| t.values.beside[code] > 0)
        .map(|code| format!("{code:02X}: {}", t.values.beside[code]))
        .collect();
    println!(
        "wrong bytes named: {} in whole packets, {} in transfers, {} of these before another wrong field; \
         none with values not allowed beside codes {}",
        named(0),
        named(1),
        t.values.several.iter().sum::<u64>(),
        beside.join(", ")
    );
    let a = &t.asked;
    println!(
        "judged: {}, of these errors: {}, holds: {}, writes: {}, reads: {}; refusal 3: {}, 5: {}",
        a.judged[0], a.asks[0], a.asks[1], a.asks[2], a.asks[3], a.judged[3], a.judged[5]
    );
    let done = |which: usize| a.done[which].iter().sum::<u64>();
    println!(
        "carried out: {} on the same controller, {} on another, {} forged or damaged, {} with a packet half \
         received; refusal 1: {}, 2: {}, 3: {}, 4: {}",
        done(0),
        done(1),
        done(2),
        a.half,
        a.carried[1],
        a.carried[2],
        a.carried[3],
        a.carried[4]
    );
    let refusals: Vec<String> = (10..21)
        .map(|refusal| format!("{refusal}: {}", t.verdicts[refusal]))
        .collect();
    println!(
        "reports: {}; accepted: {}, refused {}",
        t.reports,
        t.verdicts[0],
        refusals.join(", ")
    );
}

fn main() {
    let mut numbers = Vec::new();
    let mut plant = 0;
    let mut exact = false;
    let mut arguments = std::env::args().skip(1);
    while let Some(argument) = arguments.next() {
        match argument.as_str() {
            "--exact" => exact = true,
            "--plant" => plant = arguments.next().and_then(|n| n.parse().ok()).unwrap_or(0),
            "--plants" => return println!("{}", model::PLANTS.len()),
            "--cases" => return hold_stored(arguments),
            number => match number.parse::<u64>() {
                Ok(number) => numbers.push(number),
                Err(_) => {
                    eprintln!("{USAGE}");
                    std::process::exit(2);
                }
            },
        }
    }
    let count = numbers.first().copied().unwrap_or(1_000_000);
    let seed = numbers.get(1).copied().unwrap_or_else(|| {
        let now = std::time::SystemTime::now().duration_since(std::time::UNIX_EPOCH);
        now.map_or(1, |t| t.as_nanos() as u64 >> 10)
    });
    println!(
        "differential: {count} packets, {} reports, seed {seed}",
        count / 10
    );
    #[cfg(plants)]
    if plant > 0 {
        println!("planted in the model: {}", model::PLANTS[plant - 1]);
        model::PLANT.store(plant, std::sync::atomic::Ordering::Relaxed);
    }
    let begin = std::time::Instant::now();
    let mut harness = Harness {
        exact,
        tally: Tally::default(),
    };
    let mut fresh = Box::new(ffi::UNSET_CONTROLLER);
    ffi::reset(&mut fresh);
    if let Some(what) = unlike(&fresh, &Controller::default(), &Wide::default()) {
        println!("DIFFERENT: fresh controller: {what}");
        std::process::exit(1);
    }
    if plant == 0 {
        let wrong = examples::wrong();
        if !wrong.is_empty() {
            println!(
                "DIFFERENT from the papers' examples, {} times: {}",
                wrong.len(),
                wrong[..wrong.len().min(10)].join("\n  ")
            );
            std::process::exit(1);
        }
    }
    let mut number = 0;
    if plant == 0 && !exact {
        for case in swept() {
            harness.hold(case, "swept", seed);
            number += 1;
        }
    }
    let swept = number;
    harness.tally = Tally::default();
    while harness.tally.packets < count || harness.tally.reports < count / 10 {
        let mut rng = Rng::new(seed, number);
        if harness.tally.packets < count {
            let stream = stream_case(&mut rng);
            let start = &stream.start;
            let damaged = *start != Controller::default() || stream.wide.any();
            harness.tally.damaged += damaged as u64;
            if start.in_rule() && !stream.wide.any() && start.received == 0 && start.sum != 0 {
                harness.tally.left_over[start.state.transfer.open() as usize] += 1;
            }
            for part in &stream.parts {
                harness.tally.long[0] += (part.len() == 1024 + 7) as u64;
                harness.tally.long[1] += (part.len() == 1025 + 7) as u64;
                harness.tally.long[2] += (part.len() == 65_535 + 7) as u64;
            }
            harness.tally.wide[0] += stream.wide.any() as u64;
            harness.hold(Case::Stream(Box::new(stream)), "stream", seed);
            let emit = emit_case(&mut rng);
            match &emit {
                Case::Encode { wide, .. } => harness.tally.wide[1] += wide.any() as u64,
                Case::List { wide, .. } => harness.tally.wide[2] += wide.any() as u64,
                _ => {}
            }
            harness.hold(emit, "emit", seed);
            // Numbers of their own: the packets and reports of a seed are what they were before request 5.
            let mut rng = Rng::new(!seed, number);
            for _ in 0..3 {
                harness.hold(question(&mut rng), "judging", seed);
                harness.hold(errand(&mut rng), "carrying out", seed);
            }
        }
        if harness.tally.reports < count / 10 {
            harness.hold(Case::Report(generate::report(&mut rng)), "report", seed);
        }
        number += 1;
    }
    println!("swept: {swept} calls");
    summary(&harness.tally);
    let missing = missing(&harness.tally);
    if !missing.is_empty() {
        println!("NOT TRIED: {}", missing.join(", "));
        std::process::exit(1);
    }
    println!("no difference, {:.1} s", begin.elapsed().as_secs_f64());
}
