//! The seeded generator: packets, transfers, controllers and reports, right ones and wrong ones.

use super::ffi::Wide;
use super::model::{self, Command, Controller, Judgement, Settings, State, Transfer};

/// Splitmix64.
pub struct Rng(u64);

impl Rng {
    pub fn new(seed: u64, stream: u64) -> Rng {
        let mut rng = Rng(seed ^ stream.wrapping_mul(0xD6E8_FEB8_6659_FD93));
        rng.next();
        rng
    }

    pub fn next(&mut self) -> u64 {
        self.0 = self.0.wrapping_add(0x9E37_79B9_7F4A_7C15);
        let mut z = self.0;
        z = (z ^ (z >> 30)).wrapping_mul(0xBF58_476D_1CE4_E5B9);
        z = (z ^ (z >> 27)).wrapping_mul(0x94D0_49BB_1331_11EB);
        z ^ (z >> 31)
    }

    /// A number below `n`.
    pub fn below(&mut self, n: usize) -> usize {
        ((self.next() >> 32) as usize * n) >> 32
    }

    /// True once in `n` times.
    pub fn one_in(&mut self, n: usize) -> bool {
        self.below(n) == 0
    }

    pub fn byte(&mut self) -> u8 {
        self.next() as u8
    }

    pub fn pick<T: Copy>(&mut self, from: &[T]) -> T {
        from[self.below(from.len())]
    }

    pub fn bytes(&mut self, n: usize) -> Vec<u8> {
        (0..n).map(|_| self.byte()).collect()
    }
}

const PAIRS: [(u16, u16); 26] = [
    (240, 320),
    (320, 240),
    (240, 427),
    (427, 240),
    (430, 640),
    (640, 430),
    (480, 640),
    (640, 480),
    (480, 720),
    (720, 480),
    (480, 752),
    (752, 480),
    (480, 800),
    (800, 480),
    (480, 852),
    (852, 480),
    (480, 853),
    (853, 480),
    (480, 854),
    (854, 480),
    (864, 480),
    (720, 240),
    (720, 288),
    (360, 640),
    (640, 360),
    (608, 684),
];

/// The most patterns of a sequence at the depths 1 to 8.
const MOST: [u8; 8] = [96, 48, 32, 24, 20, 16, 14, 12];

/// That of the depth, or of the nearest one that is allowed.
fn most_patterns(depth: u8) -> u8 {
    MOST[usize::from(depth.clamp(1, 8)) - 1]
}

/// A field that a rule is about: its command, the byte that names it, and values that it does not allow
/// whatever the others hold, with the place that they are put at.
pub struct Field {
    pub command: Command,
    pub byte: usize,
    at: usize,
    wrong: &'static [&'static [u8]],
}

const fn field(command: Command, byte: usize, wrong: &'static [&'static [u8]]) -> Field {
    Field {
        command,
        byte,
        at: byte,
        wrong,
    }
}

const DRIVES: &[&[u8]] = &[&[1, 4], &[0, 5], &[0, 8], &[255, 255]];
const SWITCHES: &[&[u8]] = &[&[2], &[3], &[255]];

/// In table order, and those of a command in layout order. X and Y have one rule, which is Y's: 1 x 320,
/// 240 x 480, 608 x 685, 684 x 608 and 0 x 0.
pub const FIELDS: [Field; 19] = [
    field(Command::Mode, 0, &[&[3], &[5], &[255]]),
    field(Command::Pattern, 0, &[&[14], &[255]]),
    field(Command::Current, 0, DRIVES),
    field(Command::Current, 2, DRIVES),
    field(Command::Current, 4, DRIVES),
    field(Command::Colour, 3, &[&[1], &[255]]),
    field(Command::Display, 0, SWITCHES),
    field(Command::Display, 1, SWITCHES),
    field(Command::Display, 2, SWITCHES),
    Field {
        command: Command::Input,
        byte: 2,
        at: 0,
        wrong: &[
            &[1, 0, 0x40, 1],
            &[240, 0, 0xE0, 1],
            &[0x60, 2, 0xAD, 2],
            &[0xAC, 2, 0x60, 2],
            &[0, 0, 0, 0],
        ],
    },
    field(Command::Video, 0, &[&[0], &[14], &[16], &[61]]),
    field(Command::Video, 1, &[&[0], &[9], &[255]]),
    field(Command::Video, 2, &[&[0], &[5], &[255]]),
    field(Command::Sequence, 0, &[&[0], &[9], &[255]]),
    field(Command::Sequence, 1, &[&[0], &[97], &[255]]),
    field(Command::Sequence, 2, &[&[3], &[255]]),
    field(Command::Sequence, 3, &[&[7], &[255]]),
    field(Command::Sequence, 16, &[&[3], &[255]]),
    field(Command::Run, 0, &[&[2], &[255]]),
];

impl Field {
    pub fn of(command: Command) -> impl Iterator<Item = &'static Field> {
        FIELDS.iter().filter(move |field| field.command == command)
    }

    fn put(&self, value: &[u8], data: &mut [u8]) {
        data[self.at..][..value.len()].copy_from_slice(value);
    }
}

fn command(rng: &mut Rng) -> Command {
    rng.pick(&Command::ALL)
}

/// Data that the command allows, often at a limit.
fn allowed(rng: &mut Rng, command: Command) -> Vec<u8> {
    let drive = |rng: &mut Rng| match rng.below(4) {
        0 => rng.pick(&[0u16, 1, 255, 256, 274, 1023, 1024]),
        _ => rng.below(1025) as u16,
    };
    match command {
        Command::Mode => vec![rng.pick(&[0, 1, 2, 4, 4, 4])],
        Command::Pattern => vec![rng.below(14) as u8],
        Command::Current => (0..3).flat_map(|_| drive(rng).to_le_bytes()).collect(),
        Command::Colour => {
            let mut data = rng.bytes(4);
            data[3] = 0;
            data
        }
        Command::Display => (0..3).map(|_| rng.below(2) as u8).collect(),
        Command::Input => {
            let (x, y) = rng.pick(&PAIRS);
            let mut data = [x.to_le_bytes(), y.to_le_bytes()].concat();
            data.extend(rng.bytes(8));
            data
        }
        Command::Video => vec![
            rng.pick(&[15, 30, 40, 50, 60]),
            1 + rng.below(8) as u8,
            1 + rng.below(4) as u8,
        ],
        Command::Sequence => {
            let depth = rng.pick(&[1, 1, 1, 1, 2, 3, 4, 5, 6, 7, 8]);
            let most = most_patterns(depth);
            let count = match rng.below(4) {
                0 => 1,
                1 => most,
                _ => 1 + rng.below(most as usize) as u8,
            };
            let one = depth == 1;
            let mut data = vec![
                depth,
                count,
                if one { rng.below(3) as u8 } else { 0 },
                rng.below(if one { 7 } else { 6 }) as u8,
            ];
            data.extend(rng.bytes(12));
            data.push(rng.below(3) as u8);
            data
        }
        Command::Run => vec![rng.below(2) as u8],
    }
}

/// Data that a command does not allow: each field is the first wrong one as often as another, and so are
/// the three of a sequence that its depth alone does not allow; others behind it may be wrong too.
fn not_allowed(rng: &mut Rng) -> (Command, Vec<u8>) {
    let Some(first) = FIELDS.get(rng.below(FIELDS.len() + 3)) else {
        return (Command::Sequence, not_at_this_depth(rng));
    };
    let mut data = allowed(rng, first.command);
    first.put(rng.pick(first.wrong), &mut data);
    let more = rng.one_in(2);
    for field in Field::of(first.command).filter(|field| field.byte > first.byte) {
        if more && rng.one_in(2) {
            field.put(rng.pick(field.wrong), &mut data);
        }
    }
    (first.command, data)
}

fn not_at_this_depth(rng: &mut Rng) -> Vec<u8> {
    let mut data = allowed(rng, Command::Sequence);
    let depth = 2 + rng.below(7) as u8;
    let most = most_patterns(depth);
    data[..4].copy_from_slice(&[depth, 1 + rng.below(most as usize) as u8, 0, 5]);
    match rng.below(3) {
        0 => data[1] = most + 1,
        1 => data[2] = 1 + rng.below(2) as u8,
        _ => data[3] = 6,
    }
    data
}

/// Data of the command's size that are hardly allowed or not: limits passed by a little, a byte
/// changed, or anything.
fn doubtful(rng: &mut Rng, command: Command) -> Vec<u8> {
    let mut data = allowed(rng, command);
    match (rng.below(8), command) {
        (0, _) => data = rng.bytes(command.size()),
        (1, _) => {
            let at = rng.below(data.len());
            data[at] = rng.byte();
        }
        (2..=4, Command::Current) => {
            let at = 2 * rng.below(3);
            let drive = rng.pick(&[1023u16, 1024, 1025, 1026, 1280, 2048, 0xFF00, 65535]);
            data[at..at + 2].copy_from_slice(&drive.to_le_bytes());
        }
        (2..=4, Command::Input) => {
            let (mut x, mut y) = rng.pick(&PAIRS);
            match rng.below(4) {
                0 => std::mem::swap(&mut x, &mut y),
                1 => x = rng.pick(&PAIRS).0,
                2 => y = y.wrapping_add(rng.pick(&[1, 65535, 256])),
                _ => x = x.wrapping_add(rng.pick(&[1, 65535, 256])),
            }
            data[..2].copy_from_slice(&x.to_le_bytes());
            data[2..4].copy_from_slice(&y.to_le_bytes());
        }
        (2, Command::Video) => data[0] = rng.pick(&[0, 14, 15, 16, 20, 30, 40, 50, 60, 61]),
        (2..=4, Command::Sequence) => {
            data[0] = rng.pick(&[0, 1, 1, 2, 3, 4, 5, 6, 7, 8, 9]);
            data[1] = match rng.below(3) {
                0 => rng.pick(&[0, 1, 50, 96, 97, 255]),
                // at the limit of the depth, and one past it
                _ => most_patterns(data[0]) + rng.below(2) as u8,
            };
            data[2] = rng.pick(&[0, 0, 1, 2, 3]);
            data[3] = rng.pick(&[0, 0, 5, 6, 7]);
        }
        _ => {
            let any = rng.below(data.len());
            let at = rng.pick(&[0, data.len() - 1, any]);
            data[at] = rng.pick(&[0, 1, 2, 3, 4, 5, 7, 8, 9, 13, 14, 96, 97, 128, 255]);
        }
    }
    data
}

/// A packet of these parts, with the right checksum.
pub fn packet(kind: u8, cmd: [u8; 2], flags: u8, data: &[u8]) -> Vec<u8> {
    let length = (data.len() as u16).to_le_bytes();
    let mut bytes = Vec::with_capacity(data.len() + 7);
    bytes.extend([kind, cmd[0], cmd[1], flags, length[0], length[1]]);
    bytes.extend(data);
    seal(&mut bytes);
    bytes
}

/// Appends the checksum.
fn seal(bytes: &mut Vec<u8>) {
    bytes.push(bytes.iter().fold(0, |sum, &b| sum.wrapping_add(b)));
}

fn write(rng: &mut Rng) -> Vec<u8> {
    let command = command(rng);
    packet(2, command.bytes(), 0, &allowed(rng, command))
}

fn odd_type(rng: &mut Rng) -> u8 {
    match rng.below(4) {
        0 => rng.byte(),
        _ => rng.pick(&[0, 1, 3, 5, 6, 0x82, 0x84, 0xFF]),
    }
}

fn odd_command(rng: &mut Rng) -> [u8; 2] {
    match rng.below(4) {
        0 => [rng.byte(), rng.byte()],
        1 => {
            let [cmd1, cmd2] = command(rng).bytes();
            rng.pick(&[
                [cmd2, cmd1],
                [cmd1, cmd2 ^ 1],
                [cmd1 ^ 0x80, cmd2],
                [cmd1, cmd2 | 0x10],
            ])
        }
        _ => rng.pick(&[
            [1, 0],
            [1, 2],
            [1, 5],
            [2, 2],
            [3, 0],
            [4, 1],
            [4, 3],
            [0, 0],
            [255, 255],
        ]),
    }
}

/// A payload length near one of the limits.
fn odd_length(rng: &mut Rng, command: Command, longest: usize) -> usize {
    let size = command.size();
    let length = match rng.below(24) {
        0..=5 => size + 1,
        6..=11 => size - 1,
        12..=14 => 0,
        15..=17 => size,
        18 => 256 * (1 + rng.below(3)) + size,
        19 => rng.below(40),
        20 => rng.pick(&[1022, 1023]),
        21 => 1024,
        22 => rng.pick(&[1025, 1025, 1026, 2048, 255, 256, 257]),
        _ => rng.pick(&[65535, 65535, 65534, 32768]),
    };
    length.min(longest)
}

/// A packet in which each part may be wrong by itself.
fn faulty(rng: &mut Rng, longest: usize) -> Vec<u8> {
    let command = command(rng);
    let mut kind = rng.pick(&[2, 2, 4]);
    let mut cmd = command.bytes();
    let mut flags = 0;
    let mut data = if kind == 2 {
        allowed(rng, command)
    } else {
        Vec::new()
    };
    let mut break_sum = false;
    // One fault alone, or each with an even chance.
    let one = rng.below(8);
    let together = rng.one_in(2);
    let holds = |rng: &mut Rng, n: usize| if together { rng.one_in(2) } else { one == n };
    if holds(rng, 0) {
        kind = odd_type(rng);
    }
    if holds(rng, 1) {
        cmd = odd_command(rng);
    }
    if holds(rng, 2) {
        flags = rng.pick(&[1, 2, 3, 4, 5, 7, 0x10, 0x80, 255]);
    }
    if holds(rng, 3) {
        let length = odd_length(rng, command, longest);
        data.resize(length, 0);
        if rng.one_in(2) {
            data = rng.bytes(length);
        }
    }
    if holds(rng, 4) {
        break_sum = true;
    }
    if holds(rng, 5) {
        data = doubtful(rng, command);
    }
    if holds(rng, 6) && !together {
        (kind, cmd) = (4, [1, 6]);
        data.clear();
    }
    if holds(rng, 7) && !together {
        kind = 4;
        data = vec![0; 1 + rng.below(3)];
    }
    let mut bytes = packet(kind, cmd, flags, &data);
    if break_sum {
        spoil(rng, &mut bytes);
    }
    bytes
}

/// A write of values that are not allowed, now and then with a fault that comes before the values.
fn misvalued(rng: &mut Rng) -> Vec<u8> {
    let (command, mut data) = not_allowed(rng);
    let (mut kind, mut flags) = (2, 0);
    let fault = rng.below(8);
    match fault {
        0 => data.push(rng.byte()),
        1 => {
            data.pop();
        }
        2 => flags = rng.pick(&[2, 3, 4]),
        3 => kind = rng.pick(&[4, 0, 3, 5]),
        _ => {}
    }
    let mut bytes = packet(kind, command.bytes(), flags, &data);
    if fault == 4 {
        spoil(rng, &mut bytes);
    }
    bytes
}

/// The same in a transfer of two packets or three.
fn misvalued_transfer(rng: &mut Rng) -> Vec<Vec<u8>> {
    let (command, data) = not_allowed(rng);
    let cmd = command.bytes();
    let (first, last) = data.split_at(rng.below(data.len() + 1));
    let mut parts = vec![packet(2, cmd, 1, first), packet(2, cmd, 3, last)];
    if rng.one_in(2) {
        let (middle, last) = last.split_at(rng.below(last.len() + 1));
        parts.pop();
        parts.extend([packet(2, cmd, 2, middle), packet(2, cmd, 3, last)]);
    }
    parts
}

/// Another checksum: off by one, by a bit, anything, or a sum of other bytes.
fn spoil(rng: &mut Rng, bytes: &mut Vec<u8>) {
    let last = bytes.len() - 1;
    let sum = |part: &[u8]| part.iter().fold(0u8, |sum, &b| sum.wrapping_add(b));
    bytes[last] = match rng.below(5) {
        0 => bytes[last].wrapping_add(1),
        1 => bytes[last] ^ (1 << rng.below(8)),
        2 => sum(&bytes[4..last]),
        3 => sum(&bytes[6..last]),
        _ => rng.byte(),
    };
}

/// The packets of one transfer, now and then with something wrong in them.
fn transfer(rng: &mut Rng, parts: &mut Vec<Vec<u8>>) {
    let command = command(rng);
    let cmd = command.bytes();
    let data = match rng.below(12) {
        0..=5 => allowed(rng, command),
        6 | 7 => doubtful(rng, command),
        8 => rng.bytes(command.size() + 1),
        9 => rng.bytes(command.size() - 1),
        10 => {
            let length = rng.pick(&[1023, 1024, 1025, 1026, 1200, 2000]);
            rng.bytes(length)
        }
        _ => {
            let length = rng.below(300);
            rng.bytes(length)
        }
    };
    // The pieces, from one cut to some; a piece may be empty.
    let mut cuts: Vec<usize> = (0..1 + rng.below(3))
        .map(|_| rng.below(data.len() + 1))
        .collect();
    if rng.one_in(6) {
        cuts.push(data.len());
        cuts.push(data.len());
    }
    if rng.one_in(6) {
        cuts.push(0);
    }
    cuts.sort();
    let mut from = 0;
    let mut pieces = Vec::new();
    for cut in cuts {
        pieces.push(&data[from..cut]);
        from = cut;
    }
    let end = pieces.len();
    pieces.push(&data[from..]);
    let first = parts.len();
    for (i, piece) in pieces.iter().enumerate() {
        let flags = if i == 0 {
            1
        } else if i == end {
            3
        } else {
            2
        };
        parts.push(packet(2, cmd, flags, piece));
    }
    match rng.below(16) {
        // Something between, for this command or another.
        0 | 1 => {
            let at = first + 1 + rng.below(end);
            let between = match rng.below(8) {
                0 => packet(4, cmd, 0, &[]),
                1 => packet(2, cmd, 0, &allowed(rng, command)),
                2 => packet(2, cmd, 1, &[]),
                3 => packet(2, [1, 4], rng.pick(&[2, 3]), &[0, 1]),
                4 => packet(4, cmd, rng.pick(&[1, 2, 3]), &[]),
                5 => packet(2, cmd, 2, &vec![0; rng.pick(&[1024, 1025, 1000])]),
                6 => packet(2, odd_command(rng), rng.pick(&[2, 3]), &[]),
                _ => faulty(rng, 3000),
            };
            parts.insert(at, between);
        }
        // One left out.
        2 => {
            parts.remove(first + rng.below(end + 1));
        }
        // One with a wrong checksum, or another byte.
        3 => {
            let at = first + rng.below(end + 1);
            spoil(rng, &mut parts[at]);
        }
        4 => {
            let at = first + rng.below(end + 1);
            let piece = &mut parts[at];
            piece.pop();
            let byte = rng.below(4);
            piece[byte] = rng.pick(&[0, 1, 2, 3, 4]);
            seal(piece);
        }
        // The last is sent twice.
        5 => {
            let last = parts[first + end].clone();
            parts.push(last);
        }
        _ => {}
    }
}

/// One packet or the packets of one transfer.
pub fn some_packets(rng: &mut Rng, parts: &mut Vec<Vec<u8>>, longest: usize) {
    match rng.below(72) {
        0..=15 => parts.push(write(rng)),
        16..=23 => {
            let command = command(rng);
            parts.push(packet(4, command.bytes(), 0, &[]));
        }
        24..=33 => {
            let command = command(rng);
            parts.push(packet(2, command.bytes(), 0, &doubtful(rng, command)));
        }
        34..=45 => transfer(rng, parts),
        46..=49 => {
            // Mode and run: what depends on the other.
            parts.push(packet(2, [1, 1], 0, &[rng.pick(&[4, 4, 4, 0, 3])]));
            parts.push(packet(2, [4, 2], 0, &[rng.pick(&[1, 1, 0, 2])]));
            if rng.one_in(2) {
                parts.push(packet(2, [1, 1], 0, &[rng.pick(&[4, 0, 1, 2, 3])]));
            }
            parts.push(packet(4, rng.pick(&[[4, 2], [1, 1]]), 0, &[]));
        }
        50 => {
            // Anything.
            let length = 7 + rng.below(20);
            let mut bytes = rng.bytes(length);
            bytes[4] %= 32;
            bytes[5] = rng.pick(&[0, 0, 0, 1]);
            parts.push(bytes);
        }
        51..=54 => parts.push(misvalued(rng)),
        55..=58 => parts.extend(misvalued_transfer(rng)),
        _ => parts.push(faulty(rng, longest)),
    }
}

/// Every command's data with one byte at each of its values, the others at the factory's; every pair
/// of a listed X and a listed Y, and those beside them; of sequences every depth from 0 to 9 with every
/// inversion and trigger up to one past their limits, and with every count.
pub fn every_value() -> Vec<(Command, Vec<u8>)> {
    let mut all = Vec::new();
    for command in Command::ALL {
        for at in 0..command.size() {
            for byte in 0..=255 {
                let mut data = Settings::FACTORY.get(command).to_vec();
                data[at] = byte;
                all.push((command, data));
            }
        }
    }
    for (x, _) in PAIRS {
        for (_, y) in PAIRS {
            for (x, y) in [
                (x, y),
                (x + 1, y),
                (x, y + 1),
                (x - 1, y),
                (x, y - 1),
                (y, x),
            ] {
                let data = [x.to_le_bytes(), y.to_le_bytes()].concat();
                all.push((Command::Input, [data, vec![0; 8]].concat()));
            }
        }
    }
    for depth in 0..=9 {
        for inversion in 0..=3 {
            for trigger in 0..=7 {
                // the count is one that every depth has
                let mut data = vec![depth, 12, inversion, trigger];
                data.extend([255; 13]);
                data[16] = 2;
                all.push((Command::Sequence, data));
            }
        }
        for count in 0..=255 {
            let data = [vec![depth, count], vec![0; 15]].concat();
            all.push((Command::Sequence, data));
        }
    }
    all
}

/// Data that are not allowed, and the byte that names what is wrong: of every command each of its fields
/// and each set of them, the others at the factory's; and of sequences, at each depth from 2 on, a count
/// past its limit, an inversion and trigger 6, which the depth alone does not allow, and the LED.
pub fn every_fault() -> Vec<(Command, Vec<u8>, usize)> {
    let mut all = Vec::new();
    for command in Command::ALL {
        let fields: Vec<&Field> = Field::of(command).collect();
        let turns = fields.iter().map(|field| field.wrong.len()).max();
        for set in 1..1 << fields.len() {
            let holds = |k: usize| set >> k & 1 == 1;
            let wrong: Vec<&Field> = (0..fields.len())
                .filter(|&k| holds(k))
                .map(|k| fields[k])
                .collect();
            for turn in 0..turns.unwrap_or(0) {
                let mut data = Settings::FACTORY.get(command).to_vec();
                for field in &wrong {
                    field.put(field.wrong[turn % field.wrong.len()], &mut data);
                }
                all.push((command, data, wrong[0].byte));
            }
        }
    }
    for depth in 2..=8 {
        for set in 1u32..16 {
            let holds = |k: u32| (set >> k & 1) as u8;
            let mut data = vec![255; 17];
            data[0] = depth;
            data[1] = most_patterns(depth) + holds(0);
            data[2] = holds(1) * (1 + depth % 2);
            data[3] = 5 + holds(2);
            data[16] = 2 + holds(3);
            let byte = [1, 2, 3, 16][set.trailing_zeros() as usize];
            all.push((Command::Sequence, data, byte));
        }
    }
    all
}

// ---------------------------------------------------------------------------------------------
// Controllers

pub fn settings_in_rule(rng: &mut Rng) -> Settings {
    let mut settings = Settings::FACTORY;
    for command in Command::ALL {
        if rng.one_in(2) {
            settings.set(command, &allowed(rng, command));
        }
    }
    if settings.get(Command::Mode) != [4] {
        settings.set(Command::Run, &[0]);
    }
    settings
}

/// Settings with one command's data doubtful, or anything.
pub fn doubtful_settings(rng: &mut Rng) -> Settings {
    let mut settings = settings_in_rule(rng);
    match rng.below(8) {
        0 => settings.0 = rng.bytes(48).try_into().unwrap(),
        1 => {
            settings.set(Command::Mode, &[rng.pick(&[0, 1, 2, 3, 4, 5])]);
            settings.set(Command::Run, &[rng.pick(&[0, 1, 1, 1, 2, 255])]);
        }
        _ => {
            let command = command(rng);
            settings.set(command, &doubtful(rng, command));
        }
    }
    settings
}

/// Values over 255 in one or two of the wider fields; their low bytes are often allowed.
pub fn wide_settings(rng: &mut Rng) -> Wide {
    let mut wide = Wide::default();
    for _ in 0..1 + rng.below(2) {
        let field = rng.below(4);
        let bits = Wide::FIELDS[field].1;
        let high = match rng.below(3) {
            0 => 1 << (8 + rng.below(bits as usize - 8)),
            1 => u32::MAX << 8,
            _ => rng.next() as u32,
        };
        wide.0[field] = (high & !0xFF | rng.below(5) as u32) & (u32::MAX >> (32 - bits));
    }
    wide
}

/// A controller in rule, at any place of a packet and with or without a transfer.
pub fn controller_in_rule(rng: &mut Rng) -> Controller {
    let mut c = Controller {
        state: State {
            settings: settings_in_rule(rng),
            ..State::default()
        },
        ..Controller::default()
    };
    c.state.buffer.fill_with(|| rng.byte());
    c.hold.fill_with(|| rng.byte());
    let command = command(rng);
    if rng.one_in(2) {
        let size = command.size();
        let held = match rng.below(4) {
            0 => rng.below(size + 1),
            1 => rng.pick(&[0, 1, 1022, 1023, 1024]),
            2 => rng.below(1025),
            _ => size,
        };
        c.state.transfer = Transfer {
            mark: 1,
            command: command.bytes(),
            held,
        };
        if held <= size {
            // What is held is the beginning of data that may well be allowed.
            c.state.buffer[..held].copy_from_slice(&allowed(rng, command)[..held]);
        }
    }
    if rng.one_in(2) {
        let bytes = if rng.one_in(2) {
            let flags = rng.below(5) as u8;
            packet(2, command.bytes(), flags, &allowed(rng, command))
        } else {
            let longest = if rng.one_in(16) { 65535 } else { 1100 };
            faulty(rng, longest)
        };
        c.received = rng.below(bytes.len());
        let n = c.received.min(6);
        c.header[..n].copy_from_slice(&bytes[..n]);
        c.sum = bytes[..c.received]
            .iter()
            .fold(0, |sum, &b| sum.wrapping_add(b));
        if c.received > 6 {
            let kept = (c.received - 6).min(1024);
            c.hold[..kept].copy_from_slice(&bytes[6..6 + kept]);
        }
    }
    // Where nothing is half received any sum may be left over.
    if c.received == 0 && rng.one_in(2) {
        c.sum = rng.byte();
    }
    c
}

/// The bytes that a controller in the middle of a packet still waits for.
pub fn remainder(rng: &mut Rng, c: &Controller) -> Vec<u8> {
    let length = u16::from_le_bytes([c.header[4], c.header[5]]) as usize;
    if c.received == 0 || c.received >= 7 + length {
        return Vec::new();
    }
    if c.received < 6 {
        let n = 6 - c.received + rng.below(4);
        return rng.bytes(n);
    }
    let left = 6 + length - c.received;
    let mut bytes: Vec<u8> = if rng.one_in(2) {
        vec![0; left]
    } else {
        rng.bytes(left)
    };
    let sum = bytes.iter().fold(c.sum, |sum, &b| sum.wrapping_add(b));
    bytes.push(if rng.one_in(4) { rng.byte() } else { sum });
    bytes
}

/// A controller as damage may leave it.
pub fn damaged_controller(rng: &mut Rng) -> (Controller, Wide) {
    let mut c = controller_in_rule(rng);
    let mut wide = Wide::default();
    if rng.one_in(6) {
        // Random bytes in every field.
        c.state.settings.0 = rng.bytes(48).try_into().unwrap();
        c.state.transfer = Transfer {
            mark: rng.byte(),
            command: [rng.byte(), rng.byte()],
            held: rng.next() as u16 as usize,
        };
        c.header = rng.bytes(6).try_into().unwrap();
        c.sum = rng.byte();
        c.received = rng.next() as u32 as usize;
        wide.0 = Wide::FIELDS.map(|(_, bits)| rng.next() as u32 >> (32 - bits));
        return (c, wide);
    }
    for _ in 0..1 + rng.below(2) {
        match rng.below(11) {
            0 => c.state.settings = doubtful_settings(rng),
            10 => wide = wide_settings(rng),
            1 => c.state.transfer.mark = rng.pick(&[0, 1, 2, 3, 128, 254, 255]),
            2 => c.state.transfer.command = odd_command(rng),
            3 => c.state.transfer.command = command(rng).bytes(),
            4 => {
                c.state.transfer.held = rng.pick(&[
                    0,
                    1,
                    1023,
                    1024,
                    1025,
                    1026,
                    32768,
                    65535 - 1024,
                    65534,
                    65535,
                ]);
                if rng.one_in(2) {
                    c.state.transfer.mark = rng.pick(&[0, 1]);
                }
            }
            5 => c.header = rng.bytes(6).try_into().unwrap(),
            6 => {
                c.sum = rng.byte();
                if rng.one_in(2) {
                    c.received = 0;
                }
            }
            7 | 8 => {
                let length = u16::from_le_bytes([c.header[4], c.header[5]]) as usize;
                c.received = match rng.below(8) {
                    0 => rng.below(14),
                    1 => 6 + length,
                    2 => 7 + length,
                    3 => 8 + length,
                    4 => 5 + length,
                    5 => rng.pick(&[
                        1024,
                        1030,
                        1031,
                        65536,
                        65541,
                        65542,
                        65543,
                        u32::MAX as usize,
                        u32::MAX as usize - 6,
                    ]),
                    6 => 7 + rng.below(length + 2),
                    _ => rng.pick(&[5, 6, 7]),
                };
            }
            _ => {
                c.state.buffer.fill_with(|| rng.byte());
                c.hold.fill_with(|| rng.byte());
                c.state.transfer.held = rng.below(1030);
            }
        }
    }
    (c, wide)
}

// ---------------------------------------------------------------------------------------------
// Judgements

/// Data that begin with what is held and that the command may well allow.
fn goes_on(rng: &mut Rng, command: Command, held: &[u8]) -> Vec<u8> {
    let mut data = allowed(rng, command);
    for _ in 0..6 {
        let start = held.len().min(data.len());
        data[..start].copy_from_slice(&held[..start]);
        if command.allows(&data) {
            break;
        }
        data = allowed(rng, command);
    }
    data
}

/// A packet that goes on with the transfer that is open, now and then with too much or too little.
fn part(rng: &mut Rng, c: &Controller) -> Option<Vec<u8>> {
    let transfer = &c.state.transfer;
    let [cmd1, cmd2] = transfer.command;
    let command = Command::from_bytes(cmd1, cmd2).filter(|_| transfer.open())?;
    let held = c.state.buffer.get(..transfer.held)?;
    let flags = rng.pick(&[2, 3, 3, 3, 3, 0, 1]);
    let data = match rng.below(8) {
        0 => {
            let length = rng.pick(&[0, 1, 2, 1024 - held.len(), 1025 - held.len()]);
            rng.bytes(length)
        }
        1 => {
            let length = rng.below(20);
            rng.bytes(length)
        }
        2 => doubtful(rng, command).split_off(held.len().min(command.size())),
        _ => goes_on(rng, command, held).split_off(held.len().min(command.size())),
    };
    let cmd = match rng.below(12) {
        0 => self::command(rng).bytes(),
        1 => odd_command(rng),
        _ => [cmd1, cmd2],
    };
    Some(packet(
        rng.pick(&[2, 2, 2, 2, 2, 2, 4, 3]),
        cmd,
        flags,
        &data,
    ))
}

/// What is asked of this controller: mostly one packet.
pub fn asked(rng: &mut Rng, c: &Controller) -> Vec<u8> {
    let open = c.state.transfer.open();
    let mut bytes = match part(rng, c) {
        Some(part) if open && !rng.one_in(3) => part,
        _ => {
            let longest = if rng.one_in(8) { 65535 } else { 1100 };
            let mut parts = Vec::new();
            some_packets(rng, &mut parts, longest);
            let at = rng.below(parts.len().max(1));
            parts.get(at).cloned().unwrap_or_default()
        }
    };
    if rng.one_in(8) {
        spoil(rng, &mut bytes);
    }
    match rng.below(40) {
        0 => {
            bytes.pop();
        }
        1 => bytes.push(rng.byte()),
        2 => bytes.truncate(rng.below(bytes.len() + 1)),
        3 => bytes.extend(write(rng)),
        4 => {
            // Another length than the field says.
            let at = rng.pick(&[4, 5]);
            bytes[at] = bytes[at].wrapping_add(rng.pick(&[1, 255]));
        }
        5 => {
            let length = rng.below(10);
            bytes = rng.bytes(length);
        }
        _ => {}
    }
    bytes
}

/// How another controller than the one that a packet was judged on is like it.
#[derive(Clone, Copy, PartialEq, Eq, Debug)]
pub enum Like {
    /// It has what the judgement keeps, and other settings and another half-received packet.
    Kept,
    /// One item is another.
    Mode,
    Open,
    Command,
    Held,
    Bytes,
    /// What is no kept item is another: the mark that says open, what stands behind the held bytes, and what
    /// stands beside a transfer that is not open.
    Beside,
    Damaged,
}

/// Another controller, that has what this one keeps but for one item, where there is such a one.
pub fn alike(rng: &mut Rng, from: &Controller, like: Like) -> (Controller, Wide) {
    let (mut c, wide) = if like == Like::Damaged {
        damaged_controller(rng)
    } else {
        (controller_in_rule(rng), Wide::default())
    };
    let settings = &mut c.state.settings;
    let mode = from.state.settings.get(Command::Mode).to_vec();
    if mode != settings.get(Command::Mode) && like != Like::Damaged {
        settings.set(Command::Run, &[0]);
    }
    settings.set(Command::Mode, &mode);
    c.state.buffer = from.state.buffer;
    c.state.transfer = from.state.transfer;
    let transfer = &mut c.state.transfer;
    let held = transfer.held.min(model::HOLD);
    match like {
        Like::Kept | Like::Damaged => {}
        Like::Mode => {
            let others: Vec<u8> = [0, 1, 2, 4]
                .into_iter()
                .filter(|&m| [m] != mode[..])
                .collect();
            c.state.settings.set(Command::Mode, &[rng.pick(&others)]);
            c.state.settings.set(Command::Run, &[0]);
        }
        Like::Open if transfer.open() => transfer.mark = 0,
        Like::Open => {
            *transfer = Transfer {
                mark: 1,
                command: command(rng).bytes(),
                held: rng.pick(&[0, 0, 0, 1, transfer.held]),
            }
        }
        Like::Command => transfer.command = command(rng).bytes(),
        Like::Held => {
            transfer.held = match rng.below(3) {
                0 => held.saturating_sub(1),
                1 => (held + 1).min(model::HOLD),
                _ => rng.below(model::HOLD + 1),
            }
        }
        Like::Bytes if held > 0 => {
            let any = rng.below(held);
            let at = rng.pick(&[0, held - 1, any]);
            c.state.buffer[at] ^= 1 << rng.below(8);
        }
        Like::Bytes => {}
        Like::Beside if transfer.open() => {
            transfer.mark = 2 + rng.below(254) as u8;
            c.state.buffer[held..].fill_with(|| rng.byte());
        }
        Like::Beside => {
            transfer.held = rng.below(model::HOLD + 1);
            transfer.command = [rng.byte(), rng.byte()];
            c.state.buffer.fill_with(|| rng.byte());
        }
    }
    (c, wide)
}

pub fn like(rng: &mut Rng) -> Like {
    rng.pick(&[
        Like::Kept,
        Like::Kept,
        Like::Kept,
        Like::Mode,
        Like::Open,
        Like::Command,
        Like::Held,
        Like::Bytes,
        Like::Beside,
        Like::Damaged,
    ])
}

/// What stood where a judgement is to be: anything.
pub fn any_judgement(rng: &mut Rng) -> Judgement {
    let mut joined = [rng.byte(); model::HOLD];
    if rng.one_in(4) {
        joined.fill_with(|| rng.byte());
    }
    Judgement {
        mode: rng.byte(),
        transfer: Transfer {
            mark: rng.byte(),
            command: [rng.byte(), rng.byte()],
            held: rng.next() as u16 as usize,
        },
        command: [rng.byte(), rng.byte()],
        codes: rng.next() as u16,
        accepts: rng.next() as u16,
        wrong: rng.next() as u16,
        count: rng.next() as u16 as usize,
        joined,
    }
}

/// A judgement that keeps what this controller has, made up and not drawn.
fn made_up(rng: &mut Rng, c: &Controller) -> Judgement {
    let transfer = c.state.transfer;
    let held = if transfer.open() {
        transfer.held.min(model::HOLD)
    } else {
        0
    };
    let opened = Command::from_bytes(transfer.command[0], transfer.command[1]);
    let which = match opened {
        Some(which) if transfer.open() && !rng.one_in(4) => which,
        _ => command(rng),
    };
    let mut j = any_judgement(rng);
    j.mode = c.state.settings.get(Command::Mode)[0];
    j.transfer = transfer;
    j.command = which.bytes();
    (j.codes, j.wrong) = (0, model::NO_BYTE);
    j.joined[..held].copy_from_slice(&c.state.buffer[..held]);
    j.accepts = rng.pick(&[1, 1, 2, 2, 2, 2, 3]);
    match j.accepts {
        model::HOLDS => {
            j.count = match rng.below(4) {
                0 => rng.pick(&[held, 1022, 1023, 1024, 1025, 1026]),
                1 => held + rng.below(model::HOLD + 1 - held),
                _ => (held + rng.below(20)).min(model::HOLD),
            };
        }
        model::WRITES => {
            let data = match rng.below(8) {
                0 => doubtful(rng, which),
                1 => not_allowed(rng).1,
                2 => vec![rng.below(2) as u8],
                3 => goes_on(rng, which, &j.joined[..held])[1..].to_vec(),
                4 => [allowed(rng, which), vec![rng.byte()]].concat(),
                _ => goes_on(rng, which, &j.joined[..held]),
            };
            j.count = data.len();
            j.joined[..data.len()].copy_from_slice(&data);
            if rng.one_in(6) {
                j.command = [4, 2];
                (j.count, j.joined[0]) = (1, rng.pick(&[0, 1, 1, 1, 2]));
            }
        }
        _ => {
            j.count = rng.pick(&[held, held, held, 0, 0, held + 1, which.size()]);
            if rng.one_in(6) {
                j.command = [1, 6];
            }
        }
    }
    j
}

/// A number about a limit.
fn limit(rng: &mut Rng, about: usize) -> usize {
    match rng.below(4) {
        0 => (about + 1).min(0xFFFF),
        1 => about.saturating_sub(1),
        2 => rng.pick(&[0, 1, 1023, 1024, 1025, 1026, 0x7FFF, 0x8000, 0xFFFE, 0xFFFF]),
        _ => rng.next() as u16 as usize,
    }
}

/// One field of a judgement as damage may leave it.
fn damage(rng: &mut Rng, j: &mut Judgement) {
    match rng.below(14) {
        0 => j.codes = 1 << rng.below(16),
        1 => j.codes = rng.next() as u16,
        2 => j.codes = rng.pick(&[0, 1, 0x1000, 0x8000, 0xF001, 0x0FFE, 0xFFFF]),
        3 => j.accepts = rng.pick(&[0, 1, 2, 3, 4, 255, 256, 257, 258, 259, 0xFFFF]),
        4 => j.wrong = rng.pick(&[0, 1, 2, 16, 17, 255, 0x7FFF, 0xFF00, 0xFFFE, 0xFFFF]),
        5 => j.count = limit(rng, j.count),
        6 => j.count = limit(rng, j.transfer.held),
        7 => j.command = odd_command(rng),
        8 => j.command = command(rng).bytes(),
        9 => j.mode = rng.pick(&[0, 1, 2, 3, 4, 5, 128, 132, 255]),
        10 => j.transfer.mark = rng.pick(&[0, 0, 1, 2, 128, 255]),
        11 => {
            j.transfer.command = if rng.one_in(2) {
                odd_command(rng)
            } else {
                command(rng).bytes()
            }
        }
        12 => j.transfer.held = limit(rng, j.transfer.held),
        _ => {
            let at = match rng.below(3) {
                0 => rng.below(18),
                1 => j.count.min(model::HOLD - 1),
                _ => rng.below(model::HOLD),
            };
            j.joined[at] = match rng.below(3) {
                0 => j.joined[at] ^ (1 << rng.below(8)),
                1 => rng.pick(&[0, 1, 2, 4, 255]),
                _ => rng.byte(),
            };
        }
    }
}

/// A judgement for this controller that nobody drew: a real one or a made-up one, damaged in some fields or
/// not, or anything.
pub fn forged(rng: &mut Rng, c: &Controller) -> Judgement {
    if rng.one_in(40) {
        return any_judgement(rng);
    }
    let mut j = made_up(rng, c);
    if rng.one_in(3) {
        let mut on = *c;
        let packet = asked(rng, c);
        let mut drawn = any_judgement(rng);
        if on.judge(&packet, &mut drawn).is_ok() {
            j = drawn;
        }
    }
    if rng.one_in(2) {
        for _ in 0..1 + rng.below(2) {
            damage(rng, &mut j);
        }
    }
    j
}

// ---------------------------------------------------------------------------------------------
// Reports

fn record(kind: u16, body: &[u8]) -> Vec<u8> {
    let mut bytes = (body.len() as u16).to_le_bytes().to_vec();
    bytes.extend(kind.to_le_bytes());
    bytes.extend(body);
    bytes
}

/// A report taken apart, so that each part can be made wrong and the failing ones made smaller.
#[derive(Clone, Debug)]
pub struct Report {
    pub trials: Vec<(u32, Vec<u8>)>,
    pub winner: usize,
    pub shipping: Vec<u8>,
    /// Bytes after the last record.
    pub after: Vec<u8>,
}

impl Report {
    pub fn bytes(&self) -> Vec<u8> {
        let mut bytes = record(
            1,
            &[
                1,
                0,
                self.trials.len() as u8,
                (self.trials.len() >> 8) as u8,
            ],
        );
        for (score, packets) in &self.trials {
            bytes.extend(record(2, &[&score.to_le_bytes(), &packets[..]].concat()));
        }
        bytes.extend(record(3, &(self.winner as u16).to_le_bytes()));
        bytes.extend(record(4, &self.shipping));
        bytes.extend(&self.after);
        bytes
    }

    /// The parts, if the bytes keep the layout but for some after it.
    pub fn parse(bytes: &[u8]) -> Option<Report> {
        let mut rest = bytes;
        let mut next = |kind: u16| -> Option<Vec<u8>> {
            let (&[l0, l1, k0, k1], after) = rest.split_first_chunk::<4>()?;
            let length = u16::from_le_bytes([l0, l1]) as usize;
            if u16::from_le_bytes([k0, k1]) != kind || after.len() < length {
                return None;
            }
            rest = &after[length..];
            Some(after[..length].to_vec())
        };
        let head = next(1)?;
        let count = u16::from_le_bytes([*head.get(2)?, *head.get(3)?]);
        let mut trials = Vec::new();
        for _ in 0..count {
            let body = next(2)?;
            let score = u32::from_le_bytes(body.get(..4)?.try_into().ok()?);
            trials.push((score, body[4..].to_vec()));
        }
        let winner = next(3)?;
        let winner = u16::from_le_bytes([*winner.first()?, *winner.get(1)?]) as usize;
        let shipping = next(4)?;
        let after = rest.to_vec();
        let report = Report {
            trials,
            winner,
            shipping,
            after,
        };
        (report.bytes() == bytes).then_some(report)
    }

    /// The trial that none scores below and that all earlier ones score above.
    fn first_lowest(&self) -> usize {
        (0..self.trials.len())
            .min_by_key(|&i| (self.trials[i].0, i))
            .unwrap_or(0)
    }

    /// What the winner's trial ended with.
    fn end_settings(&self) -> Settings {
        let to = (self.winner + 1).min(self.trials.len());
        self.trials[..to]
            .iter()
            .fold(Settings::FACTORY, |from, (_, packets)| {
                model::play(from, packets).settings
            })
    }

    fn ship_standard_list(&mut self) {
        let mut list = [0; 128];
        let length = model::standard_list(&self.end_settings(), &mut list).unwrap_or(0);
        self.shipping = list[..length].to_vec();
    }
}

fn trial_packets(rng: &mut Rng, most: usize) -> Vec<u8> {
    let mut parts = Vec::new();
    for _ in 0..rng.below(most + 1) {
        let longest = if rng.one_in(64) { 2000 } else { 40 };
        some_packets(rng, &mut parts, longest);
    }
    let mut bytes = parts.concat();
    if rng.one_in(8) {
        bytes.truncate(rng.below(bytes.len() + 1));
    }
    bytes.truncate(20_000);
    bytes
}

/// A report that keeps the layout and names the first of its lowest-scored trials.
fn named_right(rng: &mut Rng) -> Report {
    let count = match rng.below(64) {
        0 => 257 + rng.below(60),
        1..=4 => 6 + rng.below(20),
        _ => 1 + rng.below(5),
    };
    let most = if count > 5 { 2 } else { 5 };
    let spread = rng.pick(&[1, 2, 3, 10, 1000]);
    let base = rng.pick(&[0, 0, 7, 255, 256, 65_535, u32::MAX - 999, u32::MAX]);
    let trials = (0..count)
        .map(|_| {
            let score = base.saturating_add(rng.below(spread) as u32);
            let score = if rng.one_in(32) {
                rng.next() as u32
            } else {
                score
            };
            (score, trial_packets(rng, most))
        })
        .collect();
    let mut report = Report {
        trials,
        winner: 0,
        shipping: Vec::new(),
        after: Vec::new(),
    };
    report.winner = report.first_lowest();
    report
}

/// The packets that bytes are cut into, and what is left.
pub fn packets(bytes: &[u8]) -> Vec<Vec<u8>> {
    let mut parts = Vec::new();
    let mut rest = bytes;
    while rest.len() >= 7 {
        let length = 7 + u16::from_le_bytes([rest[4], rest[5]]) as usize;
        if rest.len() < length {
            break;
        }
        parts.push(rest[..length].to_vec());
        rest = &rest[length..];
    }
    if !rest.is_empty() {
        parts.push(rest.to_vec());
    }
    parts
}

/// Something to ship beside the list: a packet that is not acknowledged, a transfer that is carried out,
/// or one that an error closes.
fn beside_the_list(rng: &mut Rng) -> Vec<u8> {
    let command = command(rng);
    let cmd = command.bytes();
    let data = allowed(rng, command);
    let (first, last) = data.split_at(rng.below(data.len() + 1));
    let begin = packet(2, cmd, 1, first);
    match rng.below(7) {
        0 => packet(4, cmd, 0, &[]),
        1 => misvalued(rng),
        2 => faulty(rng, 40),
        3 | 4 => [begin, packet(2, cmd, 3, last)].concat(),
        5 => misvalued_transfer(rng).concat(),
        _ => {
            let end = match rng.below(3) {
                0 => packet(4, cmd, 0, &[]),
                1 => write(rng),
                _ => misvalued(rng),
            };
            [begin, end].concat()
        }
    }
}

/// Ships the list with faults among its packets, and perhaps with a transfer left open and an unfinished
/// packet at its end: several places, of which refusal 18 has to name the earliest.
fn offend(rng: &mut Rng, report: &mut Report) {
    report.ship_standard_list();
    let mut parts = packets(&report.shipping);
    if rng.one_in(2) {
        parts.truncate(rng.below(parts.len() + 1));
    }
    for _ in 0..rng.pick(&[0, 0, 1, 1, 2, 3]) {
        let at = rng.below(parts.len() + 1);
        parts.insert(at, beside_the_list(rng));
    }
    if rng.one_in(2) {
        let cmd = command(rng).bytes();
        for n in 0..1 + rng.below(3) {
            let length = rng.below(4);
            parts.push(packet(
                2,
                cmd,
                if n == 0 { 1 } else { 2 },
                &rng.bytes(length),
            ));
        }
    }
    if rng.one_in(2) {
        let mut half = write(rng);
        half.truncate(1 + rng.below(half.len() - 1));
        parts.push(half);
    }
    report.shipping = parts.concat();
}

/// Shipping packets: the standard list, other lists with the same settings, and wrong ones.
fn ship(rng: &mut Rng, report: &mut Report) {
    report.ship_standard_list();
    match rng.below(20) {
        0 => report.shipping = report.trials[report.winner].1.clone(),
        1 => {
            let to = report.winner + 1;
            report.shipping = report.trials[..to]
                .iter()
                .flat_map(|t| t.1.clone())
                .collect();
        }
        2 => report.shipping.clear(),
        3 => {
            // One setting other than the winner's.
            let mut settings = report.end_settings();
            let command = command(rng);
            settings.set(command, &allowed(rng, command));
            let mut out = [0; 64];
            let length = model::encode(Some(command), &settings, &mut out).unwrap_or(0);
            report.shipping.extend(&out[..length]);
        }
        4 => report.shipping.extend(packet(4, [1, 1], 0, &[])),
        5 => report.shipping.extend(packet(2, [1, 3], 1, &[])),
        6 => {
            let shorter = rng.below(report.shipping.len() + 1);
            report.shipping.truncate(shorter);
        }
        7 => report.shipping.extend(faulty(rng, 40)),
        8 => {
            // In front, a transfer that the list then overwrites.
            let mut parts = Vec::new();
            transfer(rng, &mut parts);
            parts.push(std::mem::take(&mut report.shipping));
            report.shipping = parts.concat();
        }
        9 => {
            // A transfer of the pattern that the winner ended with.
            let settings = report.end_settings();
            let data = settings.get(Command::Sequence);
            let cut = rng.below(18);
            report.shipping.extend(packet(2, [4, 0], 1, &data[..cut]));
            report.shipping.extend(packet(2, [4, 0], 3, &data[cut..]));
        }
        10 => {
            let at = rng.below(report.shipping.len());
            report.shipping[at] ^= 1 << rng.below(8);
        }
        _ => {}
    }
}

/// Fills the report to this many bytes with packets of trial 0, whole ones or a half one; the
/// settings that it ends with change, so the list comes after it.
fn fill(rng: &mut Rng, report: &mut Report, size: usize) {
    let mut extra = size - report.bytes().len() - 111;
    let at = rng.below(report.trials.len());
    let mut bytes = Vec::new();
    if rng.one_in(2) {
        while extra > 100 {
            let next = write(rng);
            extra -= next.len();
            bytes.extend(next);
        }
    }
    if extra >= 7 {
        // One packet whose payload takes all that is left.
        bytes.extend(packet(2, [1, 1], 0, &rng.bytes(extra - 7)));
    } else {
        bytes.extend(vec![0; extra]);
    }
    bytes.extend(std::mem::take(&mut report.trials[at].1));
    report.trials[at].1 = bytes;
}

/// One wrong or doubtful field in a report's bytes.
fn spoil_report(rng: &mut Rng, report: &Report, bytes: &mut Vec<u8>) {
    let count = report.trials.len();
    let ship_at = bytes.len() - 4 - report.shipping.len();
    let winner_at = ship_at - 6;
    let trial_at = |n: usize| {
        8 + report.trials[..n]
            .iter()
            .map(|t| 8 + t.1.len())
            .sum::<usize>()
    };
    let some_trial = trial_at(rng.below(count));
    let places = [0, some_trial, winner_at, ship_at];
    match rng.below(14) {
        // Body length and kind of a record.
        0 | 1 => {
            let at = rng.pick(&places);
            let length = u16::from_le_bytes([bytes[at], bytes[at + 1]]);
            let length = match rng.below(5) {
                0 => length.wrapping_add(1),
                1 => length.wrapping_sub(1),
                2 => rng.below(6) as u16,
                3 => rng.pick(&[0, 3, 0xFFFF]),
                _ => rng.next() as u16,
            };
            bytes[at..at + 2].copy_from_slice(&length.to_le_bytes());
        }
        2 | 3 => {
            let at = rng.pick(&places);
            bytes[at + 2] = rng.pick(&[0, 1, 2, 3, 4, 5]);
            if rng.one_in(4) {
                bytes[at + 3] = 1;
            }
        }
        // A record of another length altogether.
        4 => {
            let (from, kind) = rng.pick(&[(0, 1), (winner_at, 3), (some_trial, 2)]);
            let size = rng.pick(&[0, 1, 2, 3, 4, 5]);
            let old = u16::from_le_bytes([bytes[from], bytes[from + 1]]) as usize;
            let body: Vec<u8> = bytes[from + 4..from + 4 + old]
                .iter()
                .copied()
                .chain([0; 6])
                .collect();
            let new = record(kind, &body[..size]);
            bytes.splice(from..from + 4 + old, new);
        }
        5 => bytes[4..6].copy_from_slice(&rng.pick(&[[0, 0], [2, 0], [1, 1], [255, 255]])),
        6 => bytes[6..8].copy_from_slice(&[0, 0]),
        7 => {
            let other = match rng.below(3) {
                0 => count + 1,
                1 => count - 1,
                _ => rng.below(65536),
            };
            bytes[6..8].copy_from_slice(&(other as u16).to_le_bytes());
        }
        8 | 9 => {
            let winner = match rng.below(4) {
                0 => count,
                1 => count + 1,
                2 => count + 256,
                _ => rng.below(65536),
            };
            bytes[winner_at + 4..winner_at + 6].copy_from_slice(&(winner as u16).to_le_bytes());
        }
        10 | 11 => {
            let extra = 1 + rng.below(12);
            bytes.extend(rng.bytes(extra));
        }
        12 => {
            let extra = record(4, &[]);
            bytes.extend(extra);
        }
        _ => {
            // Two records in the other order.
            let tail = bytes.split_off(winner_at);
            bytes.extend(&tail[6..]);
            bytes.extend(&tail[..6]);
        }
    }
}

pub fn report(rng: &mut Rng) -> Vec<u8> {
    let mut report = named_right(rng);
    let limit = rng.one_in(500);
    if limit && report.bytes().len() < 40_000 {
        let size = rng.pick(&[60_000, 60_000, 60_001, 59_999]);
        fill(rng, &mut report, size);
        report.ship_standard_list();
        return report.bytes();
    }
    if rng.one_in(6) {
        // Another trial named: the last of the equal ones, or any.
        report.winner = match rng.below(2) {
            0 => (0..report.trials.len())
                .rev()
                .min_by_key(|&i| report.trials[i].0)
                .unwrap_or(0),
            _ => rng.below(report.trials.len()),
        };
    }
    if rng.one_in(5) {
        offend(rng, &mut report);
        return report.bytes();
    }
    ship(rng, &mut report);
    let mut bytes = report.bytes();
    match rng.below(20) {
        0..=6 => {}
        7..=10 => {
            // One byte.
            let at = rng.below(bytes.len());
            bytes[at] = match rng.below(3) {
                0 => bytes[at].wrapping_add(rng.pick(&[1, 255])),
                1 => bytes[at] ^ (1 << rng.below(8)),
                _ => rng.byte(),
            };
        }
        11 => bytes.truncate(rng.below(bytes.len() + 1)),
        12 => {
            let extra = 1 + rng.below(8);
            bytes.extend(rng.bytes(extra));
        }
        13 => {
            if rng.one_in(4) {
                let length = rng.below(200);
                bytes = rng.bytes(length);
            }
            if rng.one_in(4) {
                let length = rng.pick(&[60_000, 60_001, 60_002, 65_536]);
                bytes.resize(length, 0);
            }
        }
        _ => spoil_report(rng, &report, &mut bytes),
    }
    bytes
}
