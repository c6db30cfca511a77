//! The cases that are put to the library on two processors (call.c): cases PACKETS SEED, on standard
//! output. They are the same for the same arguments, with a tenth as many reports as packets; for 0
//! packets there is one case of each kind alone.

#[path = "../differential/ffi.rs"]
mod ffi;
#[path = "../differential/generate.rs"]
#[allow(dead_code)]
mod generate;
#[path = "../differential/model.rs"]
mod model;

use ffi::Wide;
use generate::Rng;
use model::{Command, Controller, Judgement, Settings};
use std::io::Write;
use std::mem::transmute;

/// A cut that leaves all the bytes together.
const ALL: u32 = u32::MAX;
/// The longest output that is lent.
const LONGEST: usize = 130;
/// The bytes of settings, and of settings and registers, which a controller begins with.
const SETTINGS: usize = 56;
const REGISTERS: usize = 72;

/// Settings and controllers as they stand in memory.
fn settings(from: &Settings, wide: &Wide) -> Vec<u8> {
    let mut settings = ffi::Settings::from(from);
    wide.put(&mut settings);
    // Safety: the struct has no padding.
    unsafe { transmute::<ffi::Settings, [u8; SETTINGS]>(settings) }.into()
}

fn controller(from: &Controller, wide: &Wide) -> Vec<u8> {
    let mut controller = ffi::Controller::from(from);
    wide.put(&mut controller.settings);
    // Safety: the struct has no padding.
    unsafe { transmute::<ffi::Controller, [u8; 2120]>(controller) }.into()
}

fn judgement(from: &Judgement) -> Vec<u8> {
    // Safety: the struct has no padding.
    unsafe { transmute::<ffi::Judgement, [u8; 1040]>(from.into()) }.into()
}

/// Anything in some bytes of settings and registers.
fn damage(rng: &mut Rng, bytes: &mut [u8]) {
    for _ in 0..1 + rng.below(3) {
        let at = rng.below(bytes.len().min(REGISTERS));
        bytes[at] = match rng.below(3) {
            0 => bytes[at] ^ (1 << rng.below(8)),
            1 => rng.pick(&[0, 1, 2, 128, 255]),
            _ => rng.byte(),
        };
    }
}

struct Stream {
    start: Option<Vec<u8>>,
    cuts: Vec<u32>,
    outs: Vec<usize>,
    fill: u8,
    reset: bool,
    bytes: Vec<u8>,
}

enum Case {
    Stream(Stream),
    Encode([u8; 2], Vec<u8>, usize),
    List(Vec<u8>, usize),
    Report(Vec<u8>),
    /// A head, and the packet that is judged there and carried out.
    Judge(Vec<u8>, Vec<u8>, usize),
    /// A head, and the judgement that is carried out there.
    Carry(Vec<u8>, Vec<u8>, usize),
}

impl Case {
    fn bytes(self) -> Vec<u8> {
        let length = |n: usize| u8::try_from(n).expect("a length of one byte");
        match self {
            Case::Stream(s) => {
                let mut bytes = vec![b'S', length(s.cuts.len())];
                bytes.extend(s.cuts.iter().flat_map(|cut| cut.to_le_bytes()));
                bytes.push(length(s.outs.len()));
                bytes.extend(s.outs.iter().map(|&out| length(out)));
                bytes.extend([s.fill, s.reset as u8, s.start.is_some() as u8]);
                bytes.extend(s.start.unwrap_or_default());
                bytes.extend(s.bytes);
                bytes
            }
            Case::Encode(cmd, settings, out) => {
                [&[b'E', length(out), cmd[0], cmd[1]], &settings[..]].concat()
            }
            Case::List(settings, out) => [&[b'L', length(out)], &settings[..]].concat(),
            Case::Report(report) => [b"R", &report[..]].concat(),
            Case::Judge(head, packet, out) => [&[b'J', length(out)], &head[..], &packet].concat(),
            Case::Carry(head, j, out) => [&[b'C', length(out)], &head[..], &j].concat(),
        }
    }
}

/// One call on a head at power-up.
fn single(bytes: Vec<u8>, out: usize) -> Stream {
    Stream {
        start: None,
        cuts: vec![ALL],
        outs: vec![out],
        fill: 0x3C,
        reset: false,
        bytes,
    }
}

/// A list that a head takes, reads of it, a transfer in three parts, and packets that it refuses.
fn conversation() -> Vec<u8> {
    let mut list = [0; 128];
    let length = model::standard_list(&Settings::FACTORY, &mut list).expect("factory values");
    let mut bytes = list[..length].to_vec();
    for command in Command::ALL {
        bytes.extend(generate::packet(4, command.bytes(), 0, &[]));
    }
    let data = Settings::FACTORY.get(Command::Sequence).to_vec();
    bytes.extend(generate::packet(2, [4, 0], 1, &data[..3]));
    bytes.extend(generate::packet(2, [4, 0], 2, &data[3..10]));
    bytes.extend(generate::packet(2, [4, 0], 3, &data[10..]));
    bytes.extend(generate::packet(2, [4, 2], 0, &[1]));
    bytes.extend(generate::packet(2, [1, 4], 0, &[0, 0, 1, 4, 0, 0]));
    bytes.extend(generate::packet(7, [9, 9], 9, &[9; 20]));
    bytes
}

fn factory() -> Vec<u8> {
    settings(&Settings::FACTORY, &Wide::default())
}

/// A hold of 1,024 bytes, by a head at power-up.
fn full_hold() -> Judgement {
    let mut judgement = generate::any_judgement(&mut Rng::new(0, 0));
    let packet = generate::packet(2, [1, 3], 1, &[7; model::HOLD]);
    let judged = Controller::default().judge(&packet, &mut judgement);
    judged.expect("a packet");
    judgement
}

/// A case of each kind whose last byte matters, for call.c's own fault.
fn fixed() -> [Case; 6] {
    let fresh = || controller(&Controller::default(), &Wide::default());
    [
        Case::Stream(single(generate::packet(2, [1, 3], 0, &[5]), 64)),
        Case::Encode(Command::Run.bytes(), factory(), 64),
        Case::List(factory(), 128),
        Case::Report(include_bytes!("../../examples/accepted.report").to_vec()),
        Case::Judge(fresh(), generate::packet(2, [1, 3], 0, &[5]), 64),
        Case::Carry(fresh(), judgement(&full_hold()), 64),
    ]
}

/// Each value that is not allowed, and each set of them: whole, and in a transfer of two halves.
fn misvalued() -> Vec<u8> {
    let faults = generate::every_fault().into_iter();
    let packets = faults.flat_map(|(command, data, _)| {
        let cmd = command.bytes();
        let (first, last) = data.split_at(data.len() / 2);
        [(0, &data[..]), (1, first), (3, last)]
            .map(|(flags, data)| generate::packet(2, cmd, flags, data))
            .concat()
    });
    packets.collect()
}

/// Every way to cut a stream in equal parts, every length of an output, every byte of every command's
/// data, and the values that are not allowed.
fn swept() -> Vec<Case> {
    let mut cases = Vec::new();
    let bytes = conversation();
    for cut in 1..=bytes.len() {
        let mut stream = single(bytes.clone(), 64);
        stream.cuts = vec![cut as u32];
        cases.push(Case::Stream(stream));
    }
    for out in 0..=LONGEST {
        cases.push(Case::Stream(single(bytes.clone(), out)));
        cases.push(Case::List(factory(), out));
        cases.extend(Command::ALL.map(|command| Case::Encode(command.bytes(), factory(), out)));
    }
    cases.push(Case::Stream(single(misvalued(), 64)));
    for (command, data) in generate::every_value() {
        let mut changed = Settings::FACTORY;
        changed.set(command, &data);
        cases.push(Case::Encode(
            command.bytes(),
            settings(&changed, &Wide::default()),
            64,
        ));
    }
    cases
}

fn cuts(rng: &mut Rng, total: usize) -> Vec<u32> {
    match rng.below(10) {
        0..=3 => vec![ALL],
        4 | 5 if total < 3000 || rng.one_in(40) => vec![1],
        6 => vec![rng.pick(&[5, 6, 7, 8])],
        7 => (0..5).map(|_| 1 + rng.below(9) as u32).collect(),
        8 => (0..7).map(|_| rng.below(4) as u32).chain([3]).collect(),
        _ => (0..5).map(|_| 1 + rng.below(total.max(2)) as u32).collect(),
    }
}

fn outs(rng: &mut Rng) -> Vec<usize> {
    match rng.below(16) {
        0 => (0..4).map(|_| rng.below(1 + LONGEST)).chain([64]).collect(),
        1 => vec![63, 64, 65],
        2 => vec![rng.below(1 + LONGEST)],
        _ => vec![64 + rng.below(LONGEST - 63)],
    }
}

/// A stream, and how many packets are in it: on a head at power-up, on one in the middle of a packet
/// or of a transfer, or on a damaged one.
fn stream(rng: &mut Rng) -> (Stream, usize) {
    let kind = rng.below(8);
    let (c, wide) = match kind {
        0 => generate::damaged_controller(rng),
        1 | 2 => (generate::controller_in_rule(rng), Wide::default()),
        _ => (Controller::default(), Wide::default()),
    };
    let mut parts = vec![generate::remainder(rng, &c)];
    let mut start = controller(&c, &wide);
    if kind == 2 {
        damage(rng, &mut start);
    }
    let groups = if kind == 0 {
        rng.below(3)
    } else {
        1 + rng.below(12)
    };
    for _ in 0..groups {
        let longest = if rng.one_in(24) { 65535 } else { 1100 };
        generate::some_packets(rng, &mut parts, longest);
    }
    let mut bytes = parts.concat();
    if rng.one_in(12) {
        bytes.truncate(rng.below(bytes.len() + 1));
    }
    let stream = Stream {
        start: (kind < 3).then_some(start),
        cuts: cuts(rng, bytes.len()),
        outs: outs(rng),
        fill: rng.byte(),
        reset: rng.one_in(8),
        bytes,
    };
    (stream, parts.len() - 1)
}

fn emit(rng: &mut Rng) -> Case {
    let (from, wide) = match rng.below(8) {
        0..=3 => (generate::settings_in_rule(rng), Wide::default()),
        4 => (
            generate::settings_in_rule(rng),
            generate::wide_settings(rng),
        ),
        _ => (generate::doubtful_settings(rng), Wide::default()),
    };
    let mut bytes = settings(&from, &wide);
    if rng.one_in(8) {
        damage(rng, &mut bytes);
    }
    let any = rng.below(1 + LONGEST);
    if rng.one_in(3) {
        return Case::List(bytes, rng.pick(&[any, 127, 128, 128, 128, 129]));
    }
    let cmd = if rng.one_in(8) {
        [rng.below(6) as u8, rng.below(9) as u8]
    } else {
        rng.pick(&Command::ALL).bytes()
    };
    Case::Encode(cmd, bytes, rng.pick(&[any, 63, 64, 64, 64, 65]))
}

/// A packet that is judged, and a judgement, real or forged, for a head that is like the one it keeps.
fn ask(rng: &mut Rng) -> [Case; 2] {
    let (c, wide) = if rng.one_in(6) {
        generate::damaged_controller(rng)
    } else {
        (generate::controller_in_rule(rng), Wide::default())
    };
    let mut on = (c, wide);
    if rng.one_in(2) {
        let like = generate::like(rng);
        on = generate::alike(rng, &c, like);
    }
    let out = rng.pick(&[63, 64, 64, 64, 64, 64, 65, 128]);
    [
        Case::Judge(controller(&c, &wide), generate::asked(rng, &c), out),
        Case::Carry(
            controller(&on.0, &on.1),
            judgement(&generate::forged(rng, &c)),
            out,
        ),
    ]
}

fn main() -> std::io::Result<()> {
    let numbers: Vec<u64> = std::env::args()
        .skip(1)
        .filter_map(|n| n.parse().ok())
        .collect();
    let &[packets, seed] = &numbers[..] else {
        eprintln!("usage: cases PACKETS SEED");
        std::process::exit(2);
    };
    let mut out = std::io::BufWriter::new(std::io::stdout().lock());
    let mut write = |case: Case| {
        let bytes = case.bytes();
        out.write_all(&(bytes.len() as u32).to_le_bytes())?;
        out.write_all(&bytes)
    };
    fixed().into_iter().try_for_each(&mut write)?;
    if packets > 0 {
        swept().into_iter().try_for_each(&mut write)?;
    }
    let (mut sent, mut number) = (0, 0);
    while sent < packets || number < packets / 10 {
        let mut rng = Rng::new(seed, number);
        if sent < packets {
            let (stream, parts) = stream(&mut rng);
            sent += parts as u64;
            write(Case::Stream(stream))?;
            write(emit(&mut rng))?;
            write(emit(&mut rng))?;
            ask(&mut Rng::new(!seed, number))
                .into_iter()
                .try_for_each(&mut write)?;
        }
        if number < packets / 10 {
            write(Case::Report(generate::report(&mut rng)))?;
        }
        number += 1;
    }
    out.flush()
}
