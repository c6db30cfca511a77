//! Document 01 once more, and the requests up to 5, in plain Rust: the receiver, the nine commands, judging
//! a packet and carrying out the judgement, the encoder, the standard list and the report checker. It was
//! written from the papers and shares nothing with the crates.
//! The differential test holds the library to it, and the benchmark measures the library against it.

#![allow(dead_code)]

/// The payload bytes that are held at most, of a transfer and of a packet.
pub const HOLD: usize = 1024;
/// The data of the command that has most, the pattern sequence.
const LARGEST: usize = 17;
/// The bytes of a packet before its payload.
pub const HEADER: usize = 6;
/// The shortest output of a receive call or of the encoder, and of the standard list.
pub const OUTPUT: usize = 64;
pub const LIST_OUTPUT: usize = 128;
/// The length of the standard shipping list.
pub const LIST: usize = 111;
/// The longest report.
pub const REPORT: usize = 60_000;

const WRITE: u8 = 0x02;
const READ: u8 = 0x04;
const ERROR_RESPONSE: u8 = 0x01;
const WRITE_RESPONSE: u8 = 0x03;
const READ_RESPONSE: u8 = 0x05;

const WHOLE: u8 = 0;
const BEGINNING: u8 = 1;
const INTERMEDIATE: u8 = 2;
const LAST: u8 = 3;

// ---------------------------------------------------------------------------------------------
// Planted faults: only the differential test's own trial (--plant) compiles them in.

#[cfg(plants)]
pub static PLANT: std::sync::atomic::AtomicUsize = std::sync::atomic::AtomicUsize::new(0);

/// Fault 0 is none.
#[cfg(plants)]
#[inline]
pub fn planted(fault: usize) -> bool {
    PLANT.load(std::sync::atomic::Ordering::Relaxed) == fault
}

#[cfg(not(plants))]
#[inline(always)]
pub const fn planted(_fault: usize) -> bool {
    false
}

/// What each planted fault is, from 1.
pub const PLANTS: [&str; 112] = [
    "the last of equal scores is the winner",
    "a transfer stays open after an error packet",
    "error codes descend",
    "the checksum leaves the header out",
    "only the first fault of the first group is reported",
    "shipping settings are compared without the static colour",
    "each trial starts from factory values",
    "a mode other than 4 does not stop the sequence",
    "red and green are stored before blue is refused",
    "a payload of 1,024 bytes draws 04",
    "held bytes are not counted for 04",
    "flags 00 are let through while a transfer is open",
    "inversion is allowed at every depth",
    "run 1 outside mode 4 is not refused of a controller",
    "the byte behind the response is written",
    "a record's kind is looked at before its body length",
    "empty payloads are refused in a transfer",
    "refusal 19 is placed at kind 3",
    "a half-received packet that has all its bytes is not refused",
    "17 comes before 20",
    "a sum left over where nothing is half received is continued",
    "a payload that is coming in is stored over the transfer's data",
    "empty input begins the sum anew",
    "a part of a transfer is stored before it is judged",
    "a value over 255 in a wider field counts as its low byte",
    "a refusal leaves what taken and size held",
    "a packet that is not complete leaves what size held",
    "a refused report leaves the settings that the verdict held",
    "a sequence may have 96 / depth patterns",
    "a sequence may have one pattern less than 1 + 95 / depth",
    "the count of a sequence is limited at depth 1 alone",
    "the last field that is not allowed is named",
    "the byte behind the wrong one is named",
    "X and Y that are no listed pair are named at X",
    "an X that is in no listed pair is named itself",
    "a count over the limit of its depth is named at the depth",
    "an inversion that its depth does not allow is named at the depth",
    "a trigger that its depth does not allow is named at the depth",
    "a field is named by its number: green at byte 1",
    "a byte is named with code 0A too",
    "a byte is named with code 07 too",
    "a byte is named with code 09 too",
    "a byte is named with code 0B too",
    "in a transfer the wrong byte is counted in the last payload",
    "where no byte is wrong byte 0 is named",
    "a refusal leaves what wrong held",
    "a packet that is not complete leaves what wrong held",
    "a response without code 03 leaves what wrong held",
    "refusal 18 is placed at kind 4",
    "refusal 18 is placed at the last packet that is not acknowledged",
    "refusal 18 is placed at the unfinished packet, also behind one that is not acknowledged",
    "refusal 18 is placed at the unfinished packet, also behind a transfer left open",
    "refusal 18 is placed behind the packet that opened the transfer left open",
    "refusal 18 is placed at the opener of a transfer that an error closed",
    "refusal 18 is placed at the opener of the first transfer, also where another is left open",
    "refusal 18's place is counted from the first shipping byte",
    "refusal 18's place is counted without the header of kind 4",
    "a read among the shipping packets is let through",
    "refusal 19 is placed at the first shipping byte",
    "judging closes the open transfer",
    "judging drops the half-received packet",
    "carrying out drops the half-received packet",
    "carrying out does not compare the mode",
    "carrying out does not compare the open command",
    "carrying out does not compare how many bytes are held",
    "carrying out does not compare the held bytes",
    "carrying out does not compare whether a transfer is open",
    "none open is taken for one open with nothing held",
    "a transfer that is open by another mark is taken for another",
    "what the memory of no transfer has is compared",
    "a judgement with error codes is never stale",
    "a read is never stale",
    "4 comes before 2",
    "2 comes before 3",
    "carrying out tests 3 before 1",
    "judging tests 5 before 3",
    "a judgement with codes that no packet draws is refused with 2",
    "an error without any code is carried out",
    "a forged write of a value that is not allowed is let through",
    "a forged write of another size is let through",
    "a forged hold of 1,025 bytes is let through",
    "a forged run 1 outside mode 4 is let through",
    "a forged run 1 is judged by the mode of the controller",
    "a forged read of 01 06 is let through",
    "a forged read is let through while a transfer is open",
    "a forged read with data is let through",
    "a forged write is let through for another command than the open one",
    "a forged hold is let through for another command than the open one",
    "a forged judgement of a command that is not in the table is let through",
    "a forged judgement that names a wrong byte without a code is let through",
    "a forged judgement of mode 3 is let through, and is stale",
    "a forged judgement with fewer joined bytes than were held is let through",
    "a judgement of over 1,024 bytes in the memory of no transfer is let through",
    "bytes behind one packet are judged",
    "a packet whose last byte is missing is judged",
    "codes 09 and 0A are swapped in a judgement",
    "codes that no packet draws are not sent",
    "bits that are no codes are sent",
    "a read answers the values that it was judged under",
    "the held bytes are not written to the judgement",
    "the payload of a packet that draws an error is written to the judgement",
    "the bytes behind the joined data are set to zero",
    "a refused judging clears the judgement",
    "the wrong byte is left out of a judgement",
    "where no transfer is open a judgement keeps zeros",
    "a carried-out hold does not store the payload",
    "a carried-out hold stores the whole array",
    "a carried-out write leaves the transfer open",
    "a carried-out error leaves the transfer open",
    "a carried-out mode other than 4 does not stop the sequence",
    "a refused carrying out leaves what size held",
    "a carried-out response repeats the open command",
];

// ---------------------------------------------------------------------------------------------
// Commands and settings

/// The commands, in table order.
#[derive(Clone, Copy, PartialEq, Eq, Debug)]
pub enum Command {
    Mode,
    Pattern,
    Current,
    Colour,
    Display,
    Input,
    Video,
    Sequence,
    Run,
}

use Command::*;

impl Command {
    pub const ALL: [Command; 9] = [
        Mode, Pattern, Current, Colour, Display, Input, Video, Sequence, Run,
    ];

    #[inline]
    pub const fn from_bytes(cmd1: u8, cmd2: u8) -> Option<Command> {
        Some(match (cmd1, cmd2) {
            (0x01, 0x01) => Mode,
            (0x01, 0x03) => Pattern,
            (0x01, 0x04) => Current,
            (0x01, 0x06) => Colour,
            (0x01, 0x07) => Display,
            (0x02, 0x00) => Input,
            (0x02, 0x01) => Video,
            (0x04, 0x00) => Sequence,
            (0x04, 0x02) => Run,
            _ => return None,
        })
    }

    pub const fn bytes(self) -> [u8; 2] {
        match self {
            Mode => [0x01, 0x01],
            Pattern => [0x01, 0x03],
            Current => [0x01, 0x04],
            Colour => [0x01, 0x06],
            Display => [0x01, 0x07],
            Input => [0x02, 0x00],
            Video => [0x02, 0x01],
            Sequence => [0x04, 0x00],
            Run => [0x04, 0x02],
        }
    }

    /// Where the command's data stand in `Settings`, and how many bytes they are.
    #[inline]
    pub const fn place(self) -> (usize, usize) {
        match self {
            Mode => (0, 1),
            Pattern => (1, 1),
            Current => (2, 6),
            Colour => (8, 4),
            Display => (12, 3),
            Input => (15, 12),
            Video => (27, 3),
            Sequence => (30, LARGEST),
            Run => (47, 1),
        }
    }

    #[inline]
    pub const fn size(self) -> usize {
        self.place().1
    }

    /// The fields of data of the command's size that a rule is about, in layout order: `field` is told
    /// the first byte of each, counted from 0, and whether it is allowed, until it says `Err`. A rule
    /// between two fields is the later one's (request 4): X has none of its own, and what a depth does
    /// not allow is held against count, inversion and trigger. Run 1 is allowed: mode 4 is another matter.
    #[inline(always)]
    pub fn fields<E>(
        self,
        data: &[u8],
        mut field: impl FnMut(usize, bool) -> Result<(), E>,
    ) -> Result<(), E> {
        match (self, data) {
            (Mode, &[mode]) => field(0, matches!(mode, 0 | 1 | 2 | 4)),
            (Pattern, &[pattern]) => field(0, pattern <= 13),
            (Current, &[r0, r1, g0, g1, b0, b1]) => {
                let drive = |low, high| u16::from_le_bytes([low, high]) <= 1024;
                field(0, drive(r0, r1))?;
                field(2, drive(g0, g1))?;
                field(4, drive(b0, b1))
            }
            (Colour, &[_, _, _, last]) => field(3, last == 0),
            (Display, &[long, short, rotate]) => {
                field(0, long <= 1)?;
                field(1, short <= 1)?;
                field(2, rotate <= 1)
            }
            (Input, &[x0, x1, y0, y1, ..]) => {
                let (x, y) = (u16::from_le_bytes([x0, x1]), u16::from_le_bytes([y0, y1]));
                field(2, listed(x, y))
            }
            (Video, &[rate, depth, led]) => {
                field(0, matches!(rate, 15 | 30 | 40 | 50 | 60))?;
                field(1, matches!(depth, 1..=8))?;
                field(2, matches!(led, 1..=4))
            }
            (Sequence, &[depth, count, inversion, trigger, .., led]) => {
                field(0, matches!(depth, 1..=8))?;
                field(1, count >= 1 && count <= most_patterns(depth))?;
                field(
                    2,
                    inversion <= 2 && (inversion == 0 || depth == 1 || planted(13)),
                )?;
                field(3, trigger <= 6 && (trigger != 6 || depth == 1))?;
                field(16, led <= 2)
            }
            (Run, &[run]) => field(0, run <= 1),
            _ => unreachable!("data of another size"),
        }
    }

    /// Whether data of the command's size are allowed.
    #[inline(always)]
    pub fn allows(self, data: &[u8]) -> bool {
        self.fields(data, |_, allowed| if allowed { Ok(()) } else { Err(()) })
            .is_ok()
    }

    /// The first data byte of the first field that is not allowed, of data of the command's size.
    #[cold]
    pub fn wrong(self, data: &[u8]) -> Option<usize> {
        self.fields(data, |at, allowed| if allowed { Ok(()) } else { Err(at) })
            .err()
    }
}

/// What the planted faults name in the place of the wrong byte.
#[inline]
fn misnamed(command: Command, data: &[u8], wrong: usize) -> usize {
    let at_depth = match (command, wrong) {
        (Sequence, 1) => planted(36) && data[1] > 0,
        (Sequence, 2) => planted(37) && data[2] <= 2,
        (Sequence, 3) => planted(38) && data[3] <= 6,
        _ => false,
    };
    let at_x = || {
        let x = u16::from_le_bytes([data[0], data[1]]);
        planted(34) || (planted(35) && !(0..=u16::MAX).any(|y| listed(x, y)))
    };
    if planted(32) {
        let mut last = wrong;
        let _ = command.fields(data, |at, allowed| {
            if !allowed {
                last = at;
            }
            Ok::<_, ()>(())
        });
        return last;
    }
    if at_depth || (command == Input && at_x()) {
        return 0;
    }
    if planted(39) {
        return match (command, wrong) {
            (Current | Input, at) => at / 2,
            (Sequence, 16) => 7,
            (_, at) => at,
        };
    }
    wrong + planted(33) as usize
}

/// The most patterns of a sequence of this depth (request 2): patterns are numbered from 0 to 95 divided
/// by the bits of each, in whole numbers. A depth that is not from 1 to 8 has the most that any has.
#[inline]
fn most_patterns(depth: u8) -> u8 {
    if !matches!(depth, 1..=8) {
        return 96;
    }
    if planted(29) {
        return 96 / depth;
    }
    if planted(31) && depth != 1 {
        return u8::MAX;
    }
    let last = 95 / depth;
    if planted(30) {
        last
    } else {
        1 + last
    }
}

/// The listed pairs of the video input.
#[inline]
fn listed(x: u16, y: u16) -> bool {
    match x {
        240 => y == 320 || y == 427,
        320 | 427 => y == 240,
        360 | 430 => y == 640,
        480 => matches!(y, 640 | 720 | 752 | 800 | 852 | 853 | 854),
        608 => y == 684,
        640 => matches!(y, 360 | 430 | 480),
        720 => matches!(y, 240 | 288 | 480),
        752 | 800 | 852 | 853 | 854 | 864 => y == 480,
        _ => false,
    }
}

/// The settings as their commands' data, one behind the other in table order.
#[derive(Clone, Copy, PartialEq, Eq, Debug)]
pub struct Settings(pub [u8; 48]);

impl Settings {
    pub const FACTORY: Settings = Settings([
        0, // display mode
        0, // test pattern
        0x12, 0x01, 0x12, 0x01, 0x12, 0x01, // LED current
        0, 0, 0, 0, // static colour
        0, 1, 0, // display setting
        0x60, 0x02, 0xAC, 0x02, 0, 0, 0, 0, 0x60, 0x02, 0xAC, 0x02, // video input
        60, 8, 1, // video mode
        1, 1, 0, 0, 0, 0, 0, 0, 0, 0, 0, 0, 0, 0, 0, 0, 0, // pattern sequence
        0, // sequence run
    ]);

    #[inline]
    pub fn get(&self, command: Command) -> &[u8] {
        let (at, size) = command.place();
        &self.0[at..at + size]
    }

    #[inline]
    pub fn set(&mut self, command: Command, data: &[u8]) {
        let (at, size) = command.place();
        self.0[at..at + size].copy_from_slice(data);
    }

    #[inline]
    fn mode(&self) -> u8 {
        self.0[0]
    }

    #[inline]
    fn run(&self) -> u8 {
        self.0[47]
    }

    /// Every setting allowed, and run 1 only in mode 4.
    #[inline]
    pub fn in_rule(&self) -> bool {
        // Written out, so that each command's check is compiled for its place alone.
        let allowed = |command: Command| command.allows(self.get(command));
        allowed(Mode)
            && allowed(Pattern)
            && allowed(Current)
            && allowed(Colour)
            && allowed(Display)
            && allowed(Input)
            && allowed(Video)
            && allowed(Sequence)
            && allowed(Run)
            && (self.run() == 0 || self.mode() == 4 || planted(14))
    }
}

// ---------------------------------------------------------------------------------------------
// Judging

/// The codes of an error packet: bit n for code n.
pub type Faults = u16;

const INVALID_COMMAND: Faults = 1 << 0x02;
const INVALID_VALUE: Faults = 1 << 0x03;
const OUT_OF_MEMORY: Faults = 1 << 0x04;
const NOT_INITIALIZED: Faults = 1 << 0x07;
const CHECKSUM: Faults = 1 << 0x09;
const SIZE: Faults = 1 << 0x0A;
const CONTINUATION: Faults = 1 << 0x0B;

/// A transfer: its mark, its command and how many bytes of it are held. Document 01 leaves to the
/// layout what memory may hold beside it, so this is the lent controller's: any mark but 0 means open
/// (docs/DECISIONS.md), an accepted packet of a transfer leaves mark 1, and a write or an error packet
/// that leaves none open leaves zeros.
#[derive(Clone, Copy, PartialEq, Eq, Debug)]
pub struct Transfer {
    pub mark: u8,
    pub command: [u8; 2],
    pub held: usize,
}

impl Transfer {
    pub const NONE: Transfer = Transfer {
        mark: 0,
        command: [0, 0],
        held: 0,
    };

    #[inline]
    pub fn open(&self) -> bool {
        self.mark != 0
    }

    /// The held bytes: none without an open transfer.
    #[inline]
    fn held(&self) -> usize {
        if self.open() {
            self.held
        } else {
            0
        }
    }
}

/// What a packet draws: an error packet with these codes, and with code 03 the wrong byte beside it.
enum Answer {
    Error(Faults, Option<usize>),
    Written,
    Data(Command),
}

/// What a packet is judged on.
#[derive(Clone, Copy, PartialEq, Eq, Debug)]
pub struct State {
    pub settings: Settings,
    pub transfer: Transfer,
    /// Its first bytes are the transfer's held data.
    pub buffer: [u8; HOLD],
}

impl Default for State {
    fn default() -> Self {
        State {
            settings: Settings::FACTORY,
            transfer: Transfer::NONE,
            buffer: [0; HOLD],
        }
    }
}

impl State {
    #[inline]
    fn first_group(&self, header: &[u8; HEADER], sum_right: bool) -> Faults {
        let &[kind, cmd1, cmd2, flags, low, high] = header;
        let length = u16::from_le_bytes([low, high]) as usize;
        let command = Command::from_bytes(cmd1, cmd2);
        let open = self.transfer.open();
        let mut faults = 0;
        if !sum_right {
            faults |= CHECKSUM;
        }
        let known = match kind {
            WRITE => command.is_some(),
            READ => command.is_some() && command != Some(Colour),
            _ => false,
        };
        if !known {
            faults |= INVALID_COMMAND;
        }
        let continues = flags == INTERMEDIATE || flags == LAST;
        let counted = if planted(11) { 0 } else { self.transfer.held };
        if length > HOLD - planted(10) as usize || (continues && open && counted + length > HOLD) {
            faults |= OUT_OF_MEMORY;
        }
        let in_place = match flags {
            WHOLE => !open || planted(12),
            BEGINNING => !open,
            INTERMEDIATE | LAST => open && self.transfer.command == [cmd1, cmd2],
            _ => false,
        };
        if !in_place
            || (flags != WHOLE && kind != WRITE)
            || (planted(17) && flags != WHOLE && length == 0)
        {
            faults |= CONTINUATION;
        }
        if planted(5) {
            faults &= faults.wrapping_neg();
        }
        faults
    }

    /// Size, values and mode of a write that is to be carried out. With code 03 comes the wrong byte.
    #[inline]
    fn later_fault(&self, command: Command, data: &[u8]) -> (Faults, Option<usize>) {
        if data.len() != command.size() {
            return (SIZE, planted(40).then_some(0));
        }
        if !command.allows(data) {
            let wrong = command.wrong(data);
            return (INVALID_VALUE, wrong.map(|at| misnamed(command, data, at)));
        }
        if command == Run && data[0] == 1 && self.settings.mode() != 4 {
            return (NOT_INITIALIZED, planted(41).then_some(0));
        }
        (0, None)
    }

    /// A write is stored when all of these are right.
    #[inline]
    fn store(&mut self, command: Command, data: &[u8]) -> (Faults, Option<usize>) {
        let fault = self.later_fault(command, data);
        if fault.0 != 0 {
            if planted(9) && fault.0 == INVALID_VALUE && command == Current {
                self.settings.0[2..6].copy_from_slice(&data[..4]);
            }
            return fault;
        }
        self.settings.set(command, data);
        if command == Mode && data[0] != 4 && !planted(8) {
            self.settings.set(Run, &[0]);
        }
        (0, None)
    }

    /// The same for a transfer, of which this is the last payload: the byte is one of the joined data.
    #[inline]
    fn store_joined(&mut self, command: Command, payload: &[u8]) -> (Faults, Option<usize>) {
        let held = self.transfer.held;
        if held + payload.len() != command.size() {
            return (SIZE, planted(40).then_some(0));
        }
        let mut joined = [0; LARGEST];
        let joined = &mut joined[..command.size()];
        joined[..held].copy_from_slice(&self.buffer[..held]);
        joined[held..].copy_from_slice(payload);
        let (faults, wrong) = self.store(command, joined);
        if planted(44) {
            return (faults, wrong.map(|at| at.saturating_sub(held)));
        }
        (faults, wrong)
    }

    /// Judges a complete packet and carries it out. A payload over 1,024 bytes is not looked at, and
    /// need not be all there.
    #[inline]
    fn judge(&mut self, header: &[u8; HEADER], sum_right: bool, payload: &[u8]) -> Answer {
        let mut faults = self.first_group(header, sum_right);
        let mut wrong = None;
        let &[kind, cmd1, cmd2, flags, low, high] = header;
        let length = u16::from_le_bytes([low, high]) as usize;
        if planted(24) && matches!(flags, BEGINNING | INTERMEDIATE) {
            fit(&mut self.buffer, self.transfer.held(), payload);
        }
        if (planted(42) && faults == CHECKSUM) || (planted(43) && faults == CONTINUATION) {
            wrong = Command::from_bytes(cmd1, cmd2)
                .filter(|command| payload.len() == command.size())
                .and_then(|command| command.wrong(payload));
        }
        if let (0, Some(command)) = (faults, Command::from_bytes(cmd1, cmd2)) {
            match flags {
                WHOLE if kind == READ => {
                    if length == 0 {
                        return Answer::Data(command);
                    }
                    faults = SIZE;
                }
                BEGINNING => {
                    fit(&mut self.buffer, 0, payload);
                    self.transfer = Transfer {
                        mark: 1,
                        command: [cmd1, cmd2],
                        held: length,
                    };
                }
                INTERMEDIATE => {
                    fit(&mut self.buffer, self.transfer.held, payload);
                    self.transfer.mark = 1;
                    self.transfer.held += length;
                }
                LAST => {
                    (faults, wrong) = self.store_joined(command, payload);
                    self.transfer = Transfer::NONE;
                }
                _ => {
                    (faults, wrong) = self.store(command, payload);
                    self.transfer = Transfer::NONE;
                }
            }
        }
        if faults == 0 {
            return Answer::Written;
        }
        if !planted(2) {
            self.transfer = Transfer::NONE;
        }
        Answer::Error(faults, wrong)
    }
}

// ---------------------------------------------------------------------------------------------
// The receiver

/// Puts bytes into an array from a place on, as far as there is room.
#[inline]
fn fit(array: &mut [u8; HOLD], at: usize, bytes: &[u8]) {
    if let Some(room) = array.get_mut(at..) {
        let kept = bytes.len().min(room.len());
        room[..kept].copy_from_slice(&bytes[..kept]);
    }
}

#[inline]
fn sum(bytes: &[u8]) -> u8 {
    bytes.iter().fold(0, |sum, &byte| sum.wrapping_add(byte))
}

#[derive(Clone, Copy, PartialEq, Eq, Debug)]
pub enum Refusal {
    Output = 1,
    Value = 2,
    State = 3,
    Stale = 4,
    Packet = 5,
}

#[derive(Clone, Copy, PartialEq, Eq, Debug)]
pub enum Progress {
    Waiting {
        taken: usize,
    },
    /// With code 03 the wrong byte.
    Answered {
        taken: usize,
        length: usize,
        wrong: Option<usize>,
    },
}

#[derive(Clone, Copy, PartialEq, Eq, Debug)]
pub struct Controller {
    pub state: State,
    /// The header of the packet that is coming in, the sum of its bytes, and how many have come.
    pub header: [u8; HEADER],
    pub sum: u8,
    pub received: usize,
    /// Its payload, as far as there is room.
    pub hold: [u8; HOLD],
}

impl Default for Controller {
    fn default() -> Self {
        Controller {
            state: State::default(),
            header: [0; HEADER],
            sum: 0,
            received: 0,
            hold: [0; HOLD],
        }
    }
}

impl Controller {
    #[inline]
    fn length(&self) -> usize {
        u16::from_le_bytes([self.header[4], self.header[5]]) as usize
    }

    #[inline]
    pub fn in_rule(&self) -> bool {
        let transfer = &self.state.transfer;
        let [cmd1, cmd2] = transfer.command;
        let complete = self.received >= HEADER + 1 + self.length() + planted(19) as usize;
        transfer.held <= HOLD
            && (!transfer.open() || Command::from_bytes(cmd1, cmd2).is_some())
            && !complete
            && self.state.settings.in_rule()
    }

    /// Takes bytes until the input ends or one packet is complete.
    pub fn receive(&mut self, input: &[u8], out: &mut [u8]) -> Result<Progress, Refusal> {
        let Some(out) = out.first_chunk_mut::<OUTPUT>() else {
            return Err(Refusal::Output);
        };
        if !self.in_rule() {
            return Err(Refusal::State);
        }
        let mut rest = input;
        if self.received < HEADER {
            rest = self.keep_header(rest);
        }
        if self.received >= HEADER {
            let due = (HEADER + self.length()).saturating_sub(self.received);
            let (payload, tail) = rest.split_at(rest.len().min(due));
            self.keep(payload);
            rest = tail;
            if let Some((&last, tail)) = rest.split_first() {
                let (length, wrong) = self.answer(last, out);
                return Ok(Progress::Answered {
                    taken: input.len() - tail.len(),
                    length,
                    wrong,
                });
            }
        }
        Ok(Progress::Waiting { taken: input.len() })
    }

    /// Takes header bytes, and gives what comes after them.
    #[inline]
    fn keep_header<'a>(&mut self, input: &'a [u8]) -> &'a [u8] {
        let (head, tail) = input.split_at(input.len().min(HEADER - self.received));
        if let Ok(whole) = <&[u8; HEADER]>::try_from(head) {
            self.header = *whole;
        } else {
            for (slot, &byte) in self.header[self.received..].iter_mut().zip(head) {
                *slot = byte;
            }
        }
        // With nothing half received the sum begins anew, whatever stood there.
        if self.received == 0 && (!head.is_empty() || planted(23)) && !planted(21) {
            self.sum = 0;
        }
        if !planted(4) {
            self.sum = head.iter().fold(self.sum, |sum, &b| sum.wrapping_add(b));
        }
        self.received += head.len();
        tail
    }

    /// Takes a piece of payload.
    #[inline]
    fn keep(&mut self, payload: &[u8]) {
        if payload.is_empty() {
            return;
        }
        let at = self.received - HEADER;
        fit(&mut self.hold, at, payload);
        if planted(22) {
            fit(&mut self.state.buffer, at, payload);
        }
        self.sum = self.sum.wrapping_add(sum(payload));
        self.received += payload.len();
    }

    /// Answers the packet that its last byte completes: the response's length, and the wrong byte.
    #[inline]
    fn answer(&mut self, last: u8, out: &mut [u8; OUTPUT]) -> (usize, Option<usize>) {
        let payload = &self.hold[..self.length().min(HOLD)];
        let answer = self.state.judge(&self.header, self.sum == last, payload);
        self.received = 0;
        self.sum = 0;
        let command = [self.header[1], self.header[2]];
        let mut named = None;
        let length = match answer {
            Answer::Written => packet(out, WRITE_RESPONSE, command, &[]),
            Answer::Data(which) => {
                packet(out, READ_RESPONSE, command, self.state.settings.get(which))
            }
            Answer::Error(faults, wrong) => {
                named = wrong;
                error_packet(out, command, faults)
            }
        };
        if planted(15) {
            out[length] = !out[length];
        }
        (length, named)
    }
}

/// Writes one whole packet and gives its length.
#[inline]
fn packet(out: &mut [u8], kind: u8, command: [u8; 2], data: &[u8]) -> usize {
    let size = data.len();
    let out = &mut out[..size + 7];
    out[..HEADER].copy_from_slice(&[kind, command[0], command[1], WHOLE, size as u8, 0]);
    out[HEADER..HEADER + size].copy_from_slice(data);
    out[HEADER + size] = sum(&out[..HEADER + size]);
    size + 7
}

fn error_packet(out: &mut [u8], command: [u8; 2], faults: Faults) -> usize {
    let mut codes = [0; 16];
    let mut count = 0;
    let mut left = faults;
    while left != 0 {
        codes[count] = left.trailing_zeros() as u8;
        count += 1;
        left &= left - 1;
    }
    if planted(3) {
        codes[..count].reverse();
    }
    packet(out, ERROR_RESPONSE, command, &codes[..count])
}

// ---------------------------------------------------------------------------------------------
// Asking before sending (request 5)

/// What a judgement asks to be done; 0 with an error.
pub const HOLDS: u16 = 1;
pub const WRITES: u16 = 2;
pub const READS: u16 = 3;
/// The wrong byte of a judgement that names none.
pub const NO_BYTE: u16 = u16::MAX;
/// The bits of the codes 01 to 0B.
pub const CODES: Faults = 0x0FFE;

/// What a packet is answered, before anything is done. Its parts are as wide as those of the lent one, so
/// that a damaged one can be told.
#[derive(Clone, Copy, PartialEq, Eq, Debug)]
pub struct Judgement {
    /// What it was made under: the mode, and the transfer with what its memory had, open or not.
    pub mode: u8,
    pub transfer: Transfer,
    /// The packet's command.
    pub command: [u8; 2],
    pub codes: Faults,
    pub accepts: u16,
    pub wrong: u16,
    /// How many bytes the joined data have: those that were held, and behind them what the packet brings.
    pub count: usize,
    pub joined: [u8; HOLD],
}

/// The settings of the last judging, for the fault that answers a read by them.
#[cfg(plants)]
static JUDGED_UNDER: std::sync::Mutex<Settings> = std::sync::Mutex::new(Settings::FACTORY);

impl State {
    /// What a whole packet is answered, in the place of another judgement, of whose array the bytes behind
    /// the joined data stay.
    fn judgement(&self, packet: &[u8], stood: &Judgement) -> Judgement {
        let (header, rest) = packet.split_first_chunk::<HEADER>().expect("a packet");
        let (&last, payload) = rest.split_last().expect("a packet");
        let head = if planted(4) { 0 } else { sum(header) };
        let right = head.wrapping_add(sum(payload)) == last;
        let &[kind, cmd1, cmd2, flags, ..] = header;
        let held = &self.buffer[..self.transfer.held()];
        let data = [held, payload].concat();

        let mut codes = self.first_group(header, right);
        let mut wrong = None;
        let mut accepts = 0;
        if let (0, Some(command)) = (codes, Command::from_bytes(cmd1, cmd2)) {
            accepts = match (kind, flags) {
                (_, BEGINNING | INTERMEDIATE) => HOLDS,
                (READ, _) => READS,
                _ => WRITES,
            };
            if accepts == READS && !payload.is_empty() {
                codes = SIZE;
            }
            if accepts == WRITES {
                (codes, wrong) = self.later_fault(command, &data);
            }
        }
        let mut j = Judgement {
            mode: self.settings.mode(),
            transfer: self.transfer,
            command: [cmd1, cmd2],
            codes,
            accepts: if codes == 0 { accepts } else { 0 },
            wrong: wrong.map_or(NO_BYTE, |at| at as u16),
            count: if codes == 0 { data.len() } else { held.len() },
            joined: stood.joined,
        };
        j.joined[..j.count].copy_from_slice(&data[..j.count]);
        self.misjudge(&mut j, stood, payload);
        j
    }

    /// What the planted faults make of a judgement.
    #[inline]
    fn misjudge(&self, j: &mut Judgement, stood: &Judgement, payload: &[u8]) {
        let held = self.transfer.held();
        if planted(96) {
            let (nine, ten) = (j.codes & CHECKSUM, j.codes & SIZE);
            j.codes = j.codes & !(CHECKSUM | SIZE) | nine << 1 | ten >> 1;
        }
        if planted(100) {
            j.joined[..held].copy_from_slice(&stood.joined[..held]);
        }
        if planted(101) && j.codes != 0 {
            fit(&mut j.joined, held, payload);
        }
        if planted(102) {
            j.joined[j.count..].fill(0);
        }
        if planted(104) {
            j.wrong = NO_BYTE;
        }
        if planted(105) && !j.transfer.open() {
            j.transfer = Transfer::NONE;
        }
    }
}

impl Judgement {
    /// The error codes that it has. No other bit is one.
    fn faults(&self) -> Faults {
        self.codes & CODES
    }

    /// Whether 2 lets it pass: it has an error code, or a packet draws this very judgement from a controller
    /// that is in rule and has what it keeps. Such a packet is of the judgement's command and has the right
    /// checksum, and its payload is what stands behind the held bytes; of its type and flags all are tried
    /// that may draw no code. Of the settings only the mode has a say in judging.
    fn drawn(&self) -> bool {
        if self.faults() != 0 {
            return true;
        }
        let mut state = State {
            transfer: self.transfer,
            buffer: self.joined,
            ..State::default()
        };
        state.settings.set(Mode, &[self.mode]);
        let kept = Controller {
            state,
            ..Controller::default()
        };
        let Some(payload) = self.joined.get(self.transfer.held()..self.count) else {
            return false;
        };
        let [cmd1, cmd2] = self.command;
        let [low, high] = (payload.len() as u16).to_le_bytes();
        let draws = |kind: u8, flags: u8| {
            let mut packet = [&[kind, cmd1, cmd2, flags, low, high], payload].concat();
            let from = if planted(4) { HEADER } else { 0 };
            packet.push(sum(&packet[from..]));
            state.judgement(&packet, self) == *self
        };
        kept.in_rule()
            && [WRITE, READ].into_iter().any(|kind| {
                [WHOLE, BEGINNING, INTERMEDIATE, LAST]
                    .into_iter()
                    .any(|flags| draws(kind, flags))
            })
    }

    /// The same, with what the planted faults let pass; `mode` is that of the controller.
    fn let_pass(&self, mode: u8) -> bool {
        let command = Command::from_bytes(self.command[0], self.command[1]);
        let size = command.map(Command::size);
        let open = self.transfer.open();
        let other = open && self.transfer.command != self.command;
        let run = command == Some(Run) && self.count == 1 && self.joined[0] == 1;
        let (holds, writes, reads) = match self.accepts {
            _ if self.codes != 0 => (false, false, false),
            HOLDS => (true, false, false),
            WRITES => (false, true, false),
            READS => (false, false, true),
            _ => (false, false, false),
        };
        let allowed = || command.is_some_and(|c| c.allows(&self.joined[..c.size()]));
        let fits = self.count <= HOLD && Some(self.count) == size;
        let mut j = *self;
        if planted(83) && writes && run {
            j.mode = mode;
        }
        if planted(90) && self.faults() == 0 {
            j.wrong = NO_BYTE;
        }
        if planted(91) && self.mode == 3 {
            j.mode = 0;
        }
        if planted(93) && !open {
            j.transfer.held = 0;
        }
        let together = INVALID_COMMAND | OUT_OF_MEMORY | CHECKSUM | CONTINUATION;
        if planted(77) && self.faults() & !together != 0 {
            return matches!(self.faults(), SIZE | INVALID_VALUE | NOT_INITIALIZED);
        }
        (planted(78) && self.codes != 0)
            || (planted(79) && writes && fits && !allowed())
            || (planted(80) && writes && size.is_some() && self.count <= HOLD && !fits)
            || (planted(81) && holds && self.count == HOLD + 1)
            || (planted(82) && writes && run && !open)
            || (planted(84) && reads && command == Some(Colour) && !open && self.count == 0)
            || (planted(85) && reads && open && self.count == self.transfer.held)
            || (planted(86) && reads && !open && self.count > 0)
            || (planted(87) && writes && other && fits && allowed())
            || (planted(88) && holds && other)
            || (planted(89) && holds && command.is_none())
            || (planted(92) && holds && self.count < self.transfer.held())
            || j.drawn()
    }
}

impl Controller {
    /// Judges what is exactly one packet; only planted faults change the controller.
    pub fn judge(&mut self, packet: &[u8], j: &mut Judgement) -> Result<(), Refusal> {
        let due = |header: &[u8; HEADER]| HEADER + 1 + u16_at(header, 4) as usize;
        let due = packet.first_chunk().map(due);
        let mut packet = packet;
        let sealed;
        if planted(94) && due.is_some_and(|due| packet.len() > due) {
            packet = &packet[..due.unwrap_or(0)];
        }
        if planted(95) && Some(packet.len() + 1) == due {
            sealed = [packet, &[sum(packet)]].concat();
            packet = &sealed;
        }
        let one = due == Some(packet.len());
        if planted(103) && !(one && self.in_rule()) {
            j.joined.fill(0);
        }
        if planted(76) && !one {
            return Err(Refusal::Packet);
        }
        if !self.in_rule() {
            return Err(Refusal::State);
        }
        if !one {
            return Err(Refusal::Packet);
        }
        #[cfg(plants)]
        if planted(99) {
            *JUDGED_UNDER.lock().unwrap() = self.state.settings;
        }
        *j = self.state.judgement(packet, j);
        if planted(60) {
            self.state.transfer = Transfer::NONE;
        }
        if planted(61) {
            self.received = 0;
        }
        Ok(())
    }

    /// Whether a kept item is another here: the mode, whether a transfer is open, and where one is its
    /// command, how many bytes it holds and which.
    fn stale(&self, j: &Judgement) -> bool {
        let (ours, kept) = (&self.state.transfer, &j.transfer);
        let held = |array: &[u8; HOLD]| array[..ours.held.min(HOLD)].to_vec();
        let other_command = ours.command != kept.command && !planted(64);
        let other_count = ours.held != kept.held && !planted(65);
        let other_bytes = held(&self.state.buffer) != held(&j.joined) && !planted(66);
        if planted(68) && ours.held() == 0 && kept.held() == 0 && ours.open() != kept.open() {
            return self.state.settings.mode() != j.mode;
        }
        if (planted(71) && j.codes != 0) || (planted(72) && j.codes == 0 && j.accepts == READS) {
            return false;
        }
        let other_transfer = match (ours.open(), kept.open()) {
            (true, true) => {
                other_command
                    || other_count
                    || other_bytes
                    || (planted(69) && ours.mark != kept.mark)
            }
            (false, false) => planted(70) && ours != kept,
            _ => !planted(67),
        };
        other_transfer || (self.state.settings.mode() != j.mode && !planted(63))
    }

    /// Carries a judgement out: the response's length.
    pub fn carry_out(&mut self, j: &Judgement, out: &mut [u8]) -> Result<usize, Refusal> {
        let drawn = j.let_pass(self.state.settings.mode());
        if planted(75) && !self.in_rule() {
            return Err(Refusal::State);
        }
        let Some(out) = out.first_chunk_mut::<OUTPUT>() else {
            return Err(Refusal::Output);
        };
        if planted(74) && !drawn {
            return Err(Refusal::Value);
        }
        if !self.in_rule() {
            return Err(Refusal::State);
        }
        if planted(73) && self.stale(j) {
            return Err(Refusal::Stale);
        }
        if !drawn {
            return Err(Refusal::Value);
        }
        if self.stale(j) {
            return Err(Refusal::Stale);
        }
        if planted(62) {
            self.received = 0;
        }
        Ok(self.do_as_judged(j, out))
    }

    fn do_as_judged(&mut self, j: &Judgement, out: &mut [u8; OUTPUT]) -> usize {
        let state = &mut self.state;
        let mut command = j.command;
        if planted(112) && state.transfer.open() {
            command = state.transfer.command;
        }
        let data = &j.joined[..j.count.min(HOLD)];
        let which = Command::from_bytes(j.command[0], j.command[1]);
        if j.codes != 0 {
            if !planted(109) {
                state.transfer = Transfer::NONE;
            }
            let sent = match () {
                _ if planted(97) => j.codes & !(1 << 1 | 1 << 5 | 1 << 6 | 1 << 8) & CODES,
                _ if planted(98) => j.codes,
                _ => j.faults(),
            };
            return error_packet(out, command, sent);
        }
        match (j.accepts, which) {
            (HOLDS, _) => {
                let held = state.transfer.held();
                if planted(107) {
                    state.buffer = j.joined;
                } else if !planted(106) {
                    fit(&mut state.buffer, held, data.get(held..).unwrap_or(&[]));
                }
                state.transfer = Transfer {
                    mark: 1,
                    command: j.command,
                    held: j.count,
                };
            }
            (READS, Some(which)) => {
                #[allow(unused_mut)]
                let mut settings = state.settings;
                #[cfg(plants)]
                if planted(99) {
                    settings = *JUDGED_UNDER.lock().unwrap();
                }
                return packet(out, READ_RESPONSE, command, settings.get(which));
            }
            (_, Some(which)) => {
                if data.len() == which.size() {
                    state.settings.set(which, data);
                }
                if which == Mode && data != [4] && !planted(110) {
                    state.settings.set(Run, &[0]);
                }
                if !planted(108) {
                    state.transfer = Transfer::NONE;
                }
            }
            _ => {}
        }
        packet(out, WRITE_RESPONSE, command, &[])
    }
}

// ---------------------------------------------------------------------------------------------
// The encoder and the standard list

/// The whole-packet write of `data` for a command.
pub fn encode(
    command: Option<Command>,
    settings: &Settings,
    out: &mut [u8],
) -> Result<usize, Refusal> {
    if out.len() < OUTPUT {
        return Err(Refusal::Output);
    }
    match command {
        Some(command) if command.allows(settings.get(command)) => {
            Ok(packet(out, WRITE, command.bytes(), settings.get(command)))
        }
        _ => Err(Refusal::Value),
    }
}

/// One whole-packet write for each command, in table order.
pub fn standard_list(settings: &Settings, out: &mut [u8]) -> Result<usize, Refusal> {
    if out.len() < LIST_OUTPUT {
        return Err(Refusal::Output);
    }
    if !settings.in_rule() {
        return Err(Refusal::State);
    }
    Ok(Command::ALL.iter().fold(0, |at, &command| {
        at + packet(
            &mut out[at..],
            WRITE,
            command.bytes(),
            settings.get(command),
        )
    }))
}

// ---------------------------------------------------------------------------------------------
// The report checker

#[derive(Clone, Copy, PartialEq, Eq, Debug)]
pub struct Accepted {
    pub trial: usize,
    pub score: u32,
    pub settings: Settings,
}

#[derive(Clone, Copy, PartialEq, Eq, Debug)]
pub struct Rejected {
    pub number: u8,
    pub place: usize,
}

/// How a run of packets ended: the settings, and by its first byte each packet that refusal 18 is about.
pub struct Played {
    pub settings: Settings,
    /// The first packet that drew something else than a write response.
    pub refused: Option<usize>,
    /// The packet that opened the transfer that is left open.
    pub opened: Option<usize>,
    /// The packet that is left half sent.
    pub unfinished: Option<usize>,
}

impl Played {
    /// Where refusal 18 points: at the earliest of these.
    fn offence(&self) -> Option<usize> {
        let passed_over = if self.refused.is_some() { 51 } else { 52 };
        if planted(passed_over) && self.unfinished.is_some() {
            return self.unfinished;
        }
        [self.refused, self.opened, self.unfinished]
            .into_iter()
            .flatten()
            .min()
    }
}

/// Plays packets from given settings.
pub fn play(settings: Settings, bytes: &[u8]) -> Played {
    let mut state = State {
        settings,
        ..State::default()
    };
    let mut rest = bytes;
    let (mut refused, mut opened, mut first_opened) = (None, None, None);
    while let Some((header, after)) = rest.split_first_chunk::<HEADER>() {
        let length = u16::from_le_bytes([header[4], header[5]]) as usize;
        let Some((&last, behind)) = after.get(length..).and_then(<[u8]>::split_first) else {
            break;
        };
        let payload = &after[..length];
        let at = bytes.len() - rest.len();
        rest = behind;
        let head = if planted(4) { 0 } else { sum(header) };
        let right = head.wrapping_add(sum(payload)) == last;
        let acknowledged = match state.judge(header, right, payload) {
            Answer::Written => true,
            Answer::Data(_) => planted(58),
            Answer::Error(..) => false,
        };
        if !acknowledged && (refused.is_none() || planted(50)) {
            refused = opened.filter(|_| planted(54)).or(Some(at));
        }
        if !state.transfer.open() {
            opened = None;
        } else if opened.is_none() {
            opened = Some(if planted(53) {
                bytes.len() - rest.len()
            } else {
                at
            });
            first_opened = first_opened.or(opened);
        }
    }
    if planted(55) {
        opened = opened.and(first_opened);
    }
    Played {
        settings: state.settings,
        refused,
        opened,
        unfinished: (!rest.is_empty()).then(|| bytes.len() - rest.len()),
    }
}

/// The records of a report that are not read yet.
struct Records<'a> {
    report: &'a [u8],
    at: usize,
}

impl<'a> Records<'a> {
    /// The next record's place and body: refusals 11 and 12, and 13 by `size`.
    #[inline]
    fn next(
        &mut self,
        kind: u16,
        size: impl Fn(usize) -> bool,
    ) -> Result<(usize, &'a [u8]), Rejected> {
        let place = self.at;
        let refuse = |number| Err(Rejected { number, place });
        let Some((&[l0, l1, k0, k1], rest)) = self.report[place..].split_first_chunk::<4>() else {
            return refuse(11);
        };
        if planted(16) && u16::from_le_bytes([k0, k1]) != kind {
            return refuse(12);
        }
        let Some(body) = rest.get(..u16::from_le_bytes([l0, l1]) as usize) else {
            return refuse(11);
        };
        if u16::from_le_bytes([k0, k1]) != kind {
            return refuse(12);
        }
        if !size(body.len()) {
            return refuse(13);
        }
        self.at = place + 4 + body.len();
        Ok((place, body))
    }
}

fn u16_at(bytes: &[u8], at: usize) -> u16 {
    u16::from_le_bytes([bytes[at], bytes[at + 1]])
}

pub fn check_report(report: &[u8]) -> Result<Accepted, Rejected> {
    if report.len() > REPORT {
        return Err(Rejected {
            number: 10,
            place: 0,
        });
    }
    let mut records = Records { report, at: 0 };
    let (_, head) = records.next(1, |size| size == 4)?;
    if u16_at(head, 0) != 1 {
        return Err(Rejected {
            number: 14,
            place: 0,
        });
    }
    let count = u16_at(head, 2) as usize;
    if count == 0 {
        return Err(Rejected {
            number: 15,
            place: 0,
        });
    }
    let first_trial = records.at;
    let mut best = (u32::MAX, 0);
    for trial in 0..count {
        let (_, body) = records.next(2, |size| size >= 4)?;
        let score = u32::from_le_bytes([body[0], body[1], body[2], body[3]]);
        if score < best.0 || (planted(1) && score == best.0) {
            best = (score, trial);
        }
    }
    let (winner_place, body) = records.next(3, |size| size == 2)?;
    let winner = u16_at(body, 0) as usize;
    if winner >= count {
        return Err(Rejected {
            number: 16,
            place: winner_place,
        });
    }
    let (place, shipping) = records.next(4, |_| true)?;
    if planted(20) && winner != best.1 {
        return Err(Rejected {
            number: 17,
            place: winner_place,
        });
    }
    if records.at != report.len() {
        return Err(Rejected {
            number: 20,
            place: records.at,
        });
    }
    let (score, first) = best;
    if winner != first {
        return Err(Rejected {
            number: 17,
            place: winner_place,
        });
    }
    let shipped = play(Settings::FACTORY, shipping);
    if let Some(at) = shipped.offence() {
        let place = match () {
            _ if planted(49) => place,
            _ if planted(56) => at,
            _ if planted(57) => place + at,
            _ => place + 4 + at,
        };
        return Err(Rejected { number: 18, place });
    }
    // The trials after the winner have no say in its end settings.
    let mut records = Records {
        report,
        at: first_trial,
    };
    let mut settings = Settings::FACTORY;
    for _ in 0..=winner {
        let (_, body) = records.next(2, |_| true)?;
        let from = if planted(7) {
            Settings::FACTORY
        } else {
            settings
        };
        settings = play(from, &body[4..]).settings;
    }
    let mut shipped = shipped.settings;
    if planted(6) {
        shipped.set(Colour, settings.get(Colour));
    }
    if shipped != settings {
        let place = match () {
            _ if planted(18) => winner_place,
            _ if planted(59) => place + 4,
            _ => place,
        };
        return Err(Rejected { number: 19, place });
    }
    Ok(Accepted {
        trial: winner,
        score,
        settings,
    })
}
