//! The same inputs to the library, through its C boundary, and to the model, in one program.
//!
//!     bench table            the times, best of several interleaved rounds, as a table
//!     bench count W S N      workload W on side S (library or model), N times, for callgrind
//!     bench workloads        the names of W that callgrind counts, with the bytes of one time
//!     bench sizes            the size of the controller, and the stack that the calls take

#[path = "../tests/differential/ffi.rs"]
mod ffi;
#[path = "../tests/differential/model.rs"]
mod model;

use std::hint::black_box;
use std::time::Instant;

/// The calls, for one side.
trait Side {
    /// Bytes taken, and the wrong byte, as the library has it.
    fn receive(&mut self, input: &[u8], out: &mut [u8]) -> (usize, u64);
    fn encode(&mut self, cmd: [u8; 2], out: &mut [u8]) -> usize;
    fn list(&mut self, out: &mut [u8]) -> usize;
    /// The refusal, 0 for accepted.
    fn report(&mut self, report: &[u8]) -> u32;
}

struct Library {
    controller: ffi::Controller,
    settings: ffi::Settings,
}

impl Side for Library {
    fn receive(&mut self, input: &[u8], out: &mut [u8]) -> (usize, u64) {
        let (mut taken, mut size, mut wrong) = (0, 0, 0);
        let c = &mut self.controller;
        ffi::receive(c, input, out, &mut taken, &mut size, &mut wrong);
        (taken as usize, wrong)
    }
    fn encode(&mut self, cmd: [u8; 2], out: &mut [u8]) -> usize {
        let mut size = 0;
        ffi::encode(cmd, &self.settings, out, &mut size);
        size as usize
    }
    fn list(&mut self, out: &mut [u8]) -> usize {
        let mut size = 0;
        ffi::standard_list(&self.settings, out, &mut size);
        size as usize
    }
    fn report(&mut self, report: &[u8]) -> u32 {
        let mut verdict = ffi::UNSET_VERDICT;
        ffi::check_report(report, &mut verdict)
    }
}

struct Model {
    controller: model::Controller,
    settings: model::Settings,
}

// Never inlined: the library's calls are not either.
impl Side for Model {
    #[inline(never)]
    fn receive(&mut self, input: &[u8], out: &mut [u8]) -> (usize, u64) {
        let (taken, wrong) = match self.controller.receive(input, out) {
            Ok(model::Progress::Waiting { taken }) => (taken, None),
            Ok(model::Progress::Answered { taken, wrong, .. }) => (taken, wrong),
            Err(_) => (0, None),
        };
        (taken, wrong.map_or(ffi::NO_WRONG_BYTE, |at| at as u64))
    }
    #[inline(never)]
    fn encode(&mut self, [cmd1, cmd2]: [u8; 2], out: &mut [u8]) -> usize {
        let command = model::Command::from_bytes(cmd1, cmd2);
        model::encode(command, &self.settings, out).unwrap_or(0)
    }
    #[inline(never)]
    fn list(&mut self, out: &mut [u8]) -> usize {
        model::standard_list(&self.settings, out).unwrap_or(0)
    }
    #[inline(never)]
    fn report(&mut self, report: &[u8]) -> u32 {
        model::check_report(report).map_or_else(|no| no.number.into(), |_| 0)
    }
}

fn library() -> Library {
    let settings = ffi::Settings::from(&model::Settings::FACTORY);
    Library {
        controller: ffi::Controller::fresh(),
        settings,
    }
}

fn model() -> Model {
    Model {
        controller: model::Controller::default(),
        settings: model::Settings::FACTORY,
    }
}

// ---------------------------------------------------------------------------------------------
// Inputs

fn packet(kind: u8, cmd: [u8; 2], flags: u8, data: &[u8]) -> Vec<u8> {
    let [low, high] = (data.len() as u16).to_le_bytes();
    let mut bytes = vec![kind, cmd[0], cmd[1], flags, low, high];
    bytes.extend(data);
    bytes.push(bytes.iter().fold(0, |sum, &b| sum.wrapping_add(b)));
    bytes
}

fn payload(length: usize) -> Vec<u8> {
    (0..length).map(|i| (i * 31 + 7) as u8).collect()
}

/// A write of every command and a read of all but one, each of them acknowledged or answered. The video
/// input is this one: what a test of the settings takes is not the same for each listed pair.
fn mix(input: &[u8]) -> Vec<Vec<u8>> {
    let mut settings = model::Settings::FACTORY;
    settings.set(model::Command::Input, input);
    settings.set(model::Command::Mode, &[4]);
    settings.set(model::Command::Run, &[1]);
    let mut packets = Vec::new();
    for command in model::Command::ALL {
        packets.push(packet(2, command.bytes(), 0, settings.get(command)));
        if command != model::Command::Colour {
            packets.push(packet(4, command.bytes(), 0, &[]));
        }
    }
    packets
}

/// 608 x 684, the factory's pair and the last of the list, and 240 x 320, its first.
const LAST_PAIR: [u8; 12] = [0x60, 2, 0xAC, 2, 0, 0, 0, 0, 0x60, 2, 0xAC, 2];
const FIRST_PAIR: [u8; 12] = [240, 0, 0x40, 1, 0, 0, 0, 0, 240, 0, 0x40, 1];

/// A write of every command whose last field with a rule is not allowed, so that all are looked at.
fn refused() -> Vec<Vec<u8>> {
    use model::Command::*;
    let write = |command: model::Command, at: usize, wrong: u8| {
        let mut data = model::Settings::FACTORY.get(command).to_vec();
        data[at] = wrong;
        packet(2, command.bytes(), 0, &data)
    };
    // blue 1298 counts, and 608 x 685
    vec![
        write(Mode, 0, 3),
        write(Pattern, 0, 14),
        write(Current, 5, 5),
        write(Colour, 3, 1),
        write(Display, 2, 2),
        write(Input, 2, 0xAD),
        write(Video, 2, 5),
        write(Sequence, 16, 3),
        write(Run, 0, 2),
    ]
}

/// A report of these trials' packets that is accepted: the last trial wins, so all are played.
fn report(trials: &[Vec<u8>]) -> Vec<u8> {
    let record = |kind: u8, body: &[u8]| {
        let [low, high] = (body.len() as u16).to_le_bytes();
        [&[low, high, kind, 0], body].concat()
    };
    let count = trials.len();
    let mut bytes = record(1, &[1, 0, count as u8, 0]);
    let mut settings = model::Settings::FACTORY;
    for (i, packets) in trials.iter().enumerate() {
        let score = ((count - i) as u32).to_le_bytes();
        bytes.extend(record(2, &[&score[..], packets].concat()));
        settings = model::play(settings, packets).settings;
    }
    bytes.extend(record(3, &[count as u8 - 1, 0]));
    let mut list = [0; 128];
    let length = model::standard_list(&settings, &mut list).unwrap();
    bytes.extend(record(4, &list[..length]));
    bytes
}

/// 60,000 bytes: twenty trials of small packets, the last one of a trial cut off.
fn report_of_small() -> Vec<u8> {
    let cycle: Vec<u8> = mix(&LAST_PAIR).concat();
    let room = 60_000 - 8 - 6 - 115 - 20 * 8;
    let trial = |i| {
        cycle
            .iter()
            .copied()
            .cycle()
            .take(room / 20 + (i < room % 20) as usize)
    };
    report(&(0..20).map(|i| trial(i).collect()).collect::<Vec<_>>())
}

fn report_of_large() -> Vec<u8> {
    let trial = packet(2, [1, 3], 0, &payload((60_000 - 8 - 6 - 115) / 3 - 8 - 7));
    report(&vec![trial; 3])
}

// ---------------------------------------------------------------------------------------------
// Workloads

#[derive(Clone, Copy)]
enum Work {
    /// Packets, in calls that are given this many bytes at most.
    Receive {
        each: usize,
    },
    Encode,
    List,
    Report,
}

struct Workload {
    name: &'static str,
    title: &'static str,
    work: Work,
    input: Vec<u8>,
    /// What one time is counted as, and in what.
    amount: f64,
    unit: &'static str,
    counted: bool,
}

fn workloads() -> Vec<Workload> {
    let whole = usize::MAX;
    let largest = packet(2, [1, 3], 0, &payload(65_535));
    let held = packet(2, [1, 3], 0, &payload(1024));
    let cycle = mix(&LAST_PAIR);
    let packets = cycle.len() as f64;
    let cycle = cycle.concat();
    let first = mix(&FIRST_PAIR).concat();
    let refused = refused().concat();
    let small = report_of_small();
    let large = report_of_large();
    let bytes = |input: &[u8]| input.len() as f64 / 1e6;
    let work = |name, title, work, input: &Vec<u8>, amount, unit, counted| Workload {
        name,
        title,
        work,
        input: input.clone(),
        amount,
        unit,
        counted,
    };
    use Work::*;
    vec![
        work(
            "large",
            "receive, payload 65,535",
            Receive { each: whole },
            &largest,
            bytes(&largest),
            "MB/s",
            true,
        ),
        work(
            "pieces",
            "the same in calls of 64 bytes",
            Receive { each: 64 },
            &largest,
            bytes(&largest),
            "MB/s",
            true,
        ),
        work(
            "held",
            "receive, payload 1,024",
            Receive { each: whole },
            &held,
            bytes(&held),
            "MB/s",
            true,
        ),
        work(
            "small",
            "receive, small writes and reads",
            Receive { each: whole },
            &cycle,
            packets / 1e6,
            "M packets/s",
            true,
        ),
        work(
            "one",
            "the same in one-byte calls",
            Receive { each: 1 },
            &cycle,
            cycle.len() as f64 / 1e6,
            "M calls/s",
            true,
        ),
        work(
            "first",
            "small writes and reads, video input 240 x 320",
            Receive { each: whole },
            &first,
            packets / 1e6,
            "M packets/s",
            true,
        ),
        work(
            "one-first",
            "the same in one-byte calls, video input 240 x 320",
            Receive { each: 1 },
            &first,
            first.len() as f64 / 1e6,
            "M calls/s",
            true,
        ),
        work(
            "refused",
            "small writes that draw 03",
            Receive { each: whole },
            &refused,
            9.0 / 1e6,
            "M packets/s",
            true,
        ),
        work(
            "encode",
            "encode, each command in turn",
            Encode,
            &cycle,
            9.0 / 1e6,
            "M packets/s",
            false,
        ),
        work(
            "list",
            "standard list",
            List,
            &cycle,
            1.0 / 1e6,
            "M lists/s",
            false,
        ),
        work(
            "report-small",
            "report of small packets",
            Report,
            &small,
            1.0,
            "reports/s",
            true,
        ),
        work(
            "report-large",
            "report of three large packets",
            Report,
            &large,
            1.0,
            "reports/s",
            true,
        ),
    ]
}

/// One workload, `times` over; what it gives must be the same on both sides.
#[inline(never)]
fn perform<S: Side>(side: &mut S, w: &Workload, times: usize) -> u64 {
    let mut out = [0u8; 128];
    let mut seen = 0u64;
    for _ in 0..times {
        match w.work {
            Work::Receive { each } => {
                let mut rest = black_box(&w.input[..]);
                while !rest.is_empty() {
                    let given = rest.len().min(each);
                    let (taken, wrong) = side.receive(&rest[..given], &mut out);
                    assert!(taken > 0, "{}: refused", w.name);
                    rest = &rest[taken..];
                    seen = seen.wrapping_add(out[0] as u64).wrapping_add(wrong);
                }
            }
            Work::Encode => {
                for command in model::Command::ALL {
                    seen += side.encode(black_box(command.bytes()), &mut out) as u64;
                    seen += out[6] as u64;
                }
            }
            Work::List => {
                seen += side.list(&mut out) as u64;
                seen += out[110] as u64;
            }
            Work::Report => {
                let refusal = side.report(black_box(&w.input));
                assert!(refusal == 0, "{}: refused {refusal}", w.name);
                seen += 1;
            }
        }
        black_box(&mut out);
    }
    seen
}

fn seconds<S: Side>(side: &mut S, w: &Workload, times: usize) -> f64 {
    let begin = Instant::now();
    black_box(perform(side, w, times));
    begin.elapsed().as_secs_f64()
}

fn table(rounds: usize) {
    println!("| workload | unit | library | Rust | library / Rust |");
    println!("|---|---|---|---|---|");
    for w in workloads() {
        let (mut library, mut model) = (library(), model());
        assert_eq!(
            perform(&mut library, &w, 3),
            perform(&mut model, &w, 3),
            "{}",
            w.name
        );
        // As often as takes about 10 ms on the slower side.
        let mut times = 1;
        while seconds(&mut model, &w, times).max(seconds(&mut library, &w, times)) < 0.01 {
            times *= 2;
        }
        let mut best = [f64::MAX; 2];
        for _ in 0..rounds {
            best[0] = best[0].min(seconds(&mut library, &w, times));
            best[1] = best[1].min(seconds(&mut model, &w, times));
        }
        let rate = best.map(|time| w.amount * times as f64 / time);
        println!(
            "| {} | {} | {} | {} | {:.3} |",
            w.title,
            w.unit,
            Figure(rate[0]),
            Figure(rate[1]),
            rate[0] / rate[1]
        );
    }
}

/// A number with as many decimals as its size leaves.
struct Figure(f64);

impl std::fmt::Display for Figure {
    fn fmt(&self, f: &mut std::fmt::Formatter) -> std::fmt::Result {
        match self.0 {
            n if n >= 100.0 => write!(f, "{n:.0}"),
            n if n >= 10.0 => write!(f, "{n:.1}"),
            n => write!(f, "{n:.2}"),
        }
    }
}

// ---------------------------------------------------------------------------------------------
// Sizes

const PAINTED: usize = 256 * 1024;

/// Leaves a pattern on the stack below the caller.
#[inline(never)]
fn paint(pattern: u8) {
    let mut area = [pattern; PAINTED];
    black_box(&mut area);
}

/// How far below the stack pointer at the call the stack was written.
macro_rules! depth {
    ($call:expr) => {{
        let mut deepest = 0;
        for pattern in [0x5A, 0xC3] {
            paint(pattern);
            let top: usize;
            // Safety: it only reads the stack pointer.
            unsafe { std::arch::asm!("mov {}, rsp", out(reg) top, options(nomem, nostack)) };
            black_box($call);
            // Some of the area's highest bytes were the painter's own frame.
            let mut at = top - PAINTED + 4096;
            // Safety: the stack is mapped that far, since the painter wrote to it.
            while at < top && unsafe { (at as *const u8).read_volatile() } == pattern {
                at += 1;
            }
            deepest = deepest.max(top - at);
        }
        deepest
    }};
}

#[inline(never)]
fn stack_of_receive(input: &[u8], each: usize) -> usize {
    let mut c = ffi::Controller::fresh();
    let mut out = [0u8; 128];
    let (mut taken, mut size, mut wrong) = (0, 0, 0);
    let mut rest = input;
    let mut deepest = 0;
    while !rest.is_empty() {
        let given = &rest[..rest.len().min(each)];
        let before = c.clone();
        deepest = deepest.max(depth!({
            c.clone_from(&before);
            ffi::receive(&mut c, given, &mut out, &mut taken, &mut size, &mut wrong)
        }));
        rest = &rest[taken as usize..];
    }
    deepest
}

#[inline(never)]
fn stack_of_refusal() -> usize {
    let mut c = ffi::Controller::fresh();
    let mut out = [0u8; 128];
    let (mut taken, mut size, mut wrong) = (0, 0, 0);
    c.settings.mode = 3;
    depth!(ffi::receive(
        &mut c,
        &[2],
        &mut out,
        &mut taken,
        &mut size,
        &mut wrong
    ))
}

#[inline(never)]
fn stack_of_list() -> usize {
    let settings = ffi::Settings::from(&model::Settings::FACTORY);
    let mut out = [0u8; 128];
    let mut size = 0;
    depth!(ffi::standard_list(&settings, &mut out, &mut size))
}

#[inline(never)]
fn stack_of_encode() -> usize {
    let settings = ffi::Settings::from(&model::Settings::FACTORY);
    let mut out = [0u8; 128];
    let mut size = 0;
    let mut deepest = 0;
    for command in model::Command::ALL {
        let cmd = command.bytes();
        deepest = deepest.max(depth!(ffi::encode(cmd, &settings, &mut out, &mut size)));
    }
    deepest
}

#[inline(never)]
fn stack_of_report(report: &[u8]) -> usize {
    let mut verdict = ffi::UNSET_VERDICT;
    depth!(ffi::check_report(report, &mut verdict))
}

fn sizes() {
    let cycle = mix(&LAST_PAIR).concat();
    let transfer = [packet(2, [1, 3], 1, &[]), packet(2, [1, 3], 3, &[5])].concat();
    let faulty = packet(0, [9, 9], 7, &payload(1025));
    let refused = refused().concat();
    let receive = [
        (&cycle, usize::MAX),
        (&cycle, 1),
        (&refused, usize::MAX),
        (&transfer, 5),
        (&faulty, usize::MAX),
        (&faulty, 64),
    ]
    .iter()
    .map(|(input, each)| stack_of_receive(input, *each))
    .chain([stack_of_refusal()])
    .max()
    .unwrap();
    let report = stack_of_report(&report_of_small()).max(stack_of_report(&report_of_large()));
    let controller = std::mem::size_of::<ffi::Controller>();
    println!("| what | bytes | at most |");
    println!("|---|---|---|");
    println!("| controller | {controller} | 2,200 |");
    println!("| stack of receive | {receive} | 1,023 |");
    println!("| stack of encode | {} | |", stack_of_encode());
    println!("| stack of the standard list | {} | |", stack_of_list());
    println!("| stack of the report checker | {report} | |");
    // Each of the controller's two arrays has 1,024 bytes: a copy of one on the stack would show.
    if controller > 2200 || receive > 1023 {
        println!("\nToo large.");
        std::process::exit(1);
    }
}

fn main() {
    let arguments: Vec<String> = std::env::args().skip(1).collect();
    let arguments: Vec<&str> = arguments.iter().map(String::as_str).collect();
    match arguments[..] {
        ["table"] => table(25),
        ["table", rounds] => table(rounds.parse().unwrap_or(25)),
        ["sizes"] => sizes(),
        ["workloads"] => {
            for w in workloads().iter().filter(|w| w.counted) {
                println!("{} {} {}", w.name, w.input.len(), w.title);
            }
        }
        ["count", name, side, times] => {
            let all = workloads();
            let Some(w) = all.iter().find(|w| w.name == name) else {
                panic!("no workload {name}");
            };
            let times = times.parse().expect("a number of times");
            match side {
                "library" => perform(&mut library(), w, times),
                _ => perform(&mut model(), w, times),
            };
        }
        _ => {
            eprintln!("usage: bench table [ROUNDS] | count W S N | workloads | sizes");
            std::process::exit(2);
        }
    }
}
