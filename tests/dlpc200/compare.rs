// Compares libdlpc200.a with the model: every answer, every byte of the output and every field
// of the device, on the document's packets and on seeded streams, cut anywhere, and devices of any
// field values. Fails if a fault, a refusal or a command was never met, or if a fault that is planted
// in the model is not found.
#[path = "../../include/dlpc200.rs"]
mod dlpc200;
mod model;
use dlpc200::{Device, States, calls, command, faults, status};
use model::{Answer, Judged, Model};

struct Random(u64);

impl Random {
    fn next(&mut self) -> u64 {
        self.0 ^= self.0 << 13;
        self.0 ^= self.0 >> 7;
        self.0 ^= self.0 << 17;
        self.0.wrapping_mul(0x2545F4914F6CDD1D) >> 16
    }
    fn below(&mut self, n: usize) -> usize {
        (self.next() % n as u64) as usize
    }
    fn byte(&mut self) -> u8 {
        self.next() as u8
    }
    fn one_of<T: Copy>(&mut self, from: &[T]) -> T {
        from[self.below(from.len())]
    }
}

// What was met, by name.
#[derive(Default)]
struct Tally(std::collections::BTreeMap<&'static str, u64>);

impl Tally {
    fn add(&mut self, name: &'static str, met: bool) {
        *self.0.entry(name).or_insert(0) += met as u64;
    }

    fn answer(&mut self, answer: &Answer, judged: &Option<Judged>, length: usize) {
        self.add("refusal 1", *answer == Answer::Refused(1));
        self.add("refusal 3", *answer == Answer::Refused(3));
        self.add("waiting with nothing taken", *answer == Answer::Waiting(0));
        self.add("waiting", matches!(answer, Answer::Waiting(n) if *n > 0));
        let Some(j) = judged else { return };
        let one = j.faults() == 1;
        self.add("checksum", j.checksum);
        self.add("checksum alone", j.checksum && one);
        self.add("CMD1", j.cmd1);
        self.add("CMD1 alone", j.cmd1 && one);
        self.add("CMD2", j.cmd2);
        self.add("CMD2 alone", j.cmd2 && one);
        self.add("CMD4", j.cmd4);
        self.add("CMD4 alone", j.cmd4 && one);
        self.add("size", j.size);
        self.add("size alone", j.size && one);
        self.add("all five faults", j.faults() == 5);
        self.add("unknown command alone", j.unknown && j.faults() == 0);
        self.add("unknown command with a fault", j.unknown && j.faults() > 0);
        self.add("no data", length == 0);
        self.add("one data byte", length == 1);
        self.add("504 data bytes", length == 504);
        self.add("505 data bytes", length == 505);
        let done = |id: u16| j.id == id && !j.failed();
        self.add("0005", done(0x0005));
        self.add("0006", done(0x0006));
        self.add("0015", done(0x0015));
        self.add("0016", done(0x0016));
        self.add("0017", done(0x0017));
        self.add("0029", done(0x0029));
        self.add("002A", done(0x002A));
    }
}

fn real(m: &Model) -> Device {
    let [park, sequence, eeprom, flash, lit] = m.states;
    let (mut header, mut hold) = ([0; 6], [0; 4]);
    header.copy_from_slice(&m.first[..6]);
    hold.copy_from_slice(&m.first[6..]);
    Device { received: m.count as u32, header, hold, sum: m.sum, states: States { park, sequence, eeprom, flash, lit } }
}

fn told(answer: &Answer) -> Result<dlpc200::Answer, dlpc200::Refusal> {
    match *answer {
        Answer::Refused(1) => Err(dlpc200::Refusal::ShortOutput),
        Answer::Refused(number) => {
            assert_eq!(number, 3, "the model refuses with 1 and 3");
            Err(dlpc200::Refusal::OutOfRule)
        }
        Answer::Waiting(taken) => Ok(dlpc200::Answer::Waiting { taken }),
        Answer::Answered(taken, length) => Ok(dlpc200::Answer::Answered { taken, length }),
    }
}

// The library's call itself: the refusal, the bytes taken and the response's size, over numbers that
// stood where these go.
fn numbers(d: &mut Device, input: &[u8], out: &mut [u8], stood: u64) -> (u32, u64, u64) {
    let (mut taken, mut size) = (stood, stood);
    let refusal = unsafe { calls::dlpc200_receive(d, input.as_ptr(), input.len() as u64, out.as_mut_ptr(), out.len() as u64, &mut taken, &mut size) };
    (refusal, taken, size)
}

// One call on both sides, and on the real side through the Rust view and by itself. Gives the bytes
// taken.
fn call(m: &mut Model, input: &[u8], room: usize, fill: u8, tally: &mut Tally) -> usize {
    let before = real(m);
    let anew = m.sum != 0 && m.count <= 4;
    let mut wanted = vec![fill; room];
    let (answer, judged) = m.receive(input, &mut wanted);
    tally.add("sum begun anew, carried out", anew && judged.is_some_and(|j| !j.failed()));
    tally.add("sum begun anew, checksum wrong", anew && judged.is_some_and(|j| j.checksum));
    tally.add("sum begun anew, waiting", anew && matches!(answer, Answer::Waiting(n) if before.received as usize + n > 4));
    tally.add("nothing summed yet, waiting", anew && matches!(answer, Answer::Waiting(n) if n > 0 && before.received as usize + n <= 4));
    tally.answer(&answer, &judged, u16::from_le_bytes([m.first[4], m.first[5]]) as usize);

    let mut lent = before;
    let mut out = vec![fill; room];
    let got = lent.receive(input, &mut out);
    assert_eq!((lent, got), (real(m), told(&answer)), "from {before:?} with {input:02X?}");
    if let Answer::Refused(number) = answer {
        assert_eq!(got.map_err(dlpc200::Refusal::number), Err(number), "the number of a refusal");
    }
    assert_eq!(out, wanted, "from {before:?} with {input:02X?}");

    let mut lent = before;
    let mut out = vec![fill; room];
    let got = numbers(&mut lent, input, &mut out, u64::from_ne_bytes([fill; 8]));
    let numbers = match answer {
        Answer::Refused(number) => (number, 0, 0),
        Answer::Waiting(taken) => (0, taken as u64, 0),
        Answer::Answered(taken, length) => (0, taken as u64, length as u64),
    };
    assert_eq!((lent, got), (real(m), numbers), "by itself, from {before:?} with {input:02X?}");
    assert_eq!(out, wanted, "by itself, from {before:?} with {input:02X?}");

    if let Some(j) = judged {
        assert_eq!(faults(out[6], out[7]), j.faults(), "faults of {out:02X?}");
    }
    match answer {
        Answer::Refused(_) => 0,
        Answer::Waiting(n) | Answer::Answered(n, _) => n,
    }
}

// Bytes in one piece, call after call.
fn feed(m: &mut Model, mut input: &[u8], fill: u8, tally: &mut Tally) {
    loop {
        let n = call(m, input, 64, fill, tally);
        if n == 0 {
            return;
        }
        input = &input[n..];
    }
}

fn packet(r: &mut Random) -> Vec<u8> {
    let known = [0x05, 0x06, 0x15, 0x16, 0x17, 0x29, 0x2A];
    let id = if r.below(5) == 0 { r.one_of(&[0x00u8, 0x04, 0x07, 0x14, 0x18, 0x28, 0x2B, 0xFF]) } else { r.one_of(&known) };
    let high = if r.below(20) == 0 { r.byte() } else { 0 };
    let mut data = vec![id, high];
    if r.below(4) == 0 {
        let sizes = [0, 1, 3, 4, 255, 256, 257, 503, 504, 505, 506, 1024, 3000];
        let size = if r.below(400) == 0 { 65535 } else { r.one_of(&sizes) };
        while data.len() < size {
            let b = if r.below(2) == 0 { 0 } else { r.byte() };
            data.push(b);
        }
        data.truncate(size);
    }
    let right = if id == 0x05 || id == 0x06 { 0x02 } else { 0x04 };
    let cmd1 = if r.below(5) == 0 { r.one_of(&[0x00, 0x01, 0x02, 0x03, 0x04, 0x05, 0x82, 0xFF]) } else { right };
    let cmd2 = if r.below(8) == 0 { r.one_of(&[0x00, 0xA9, 0xAB, 0x55, 0x2A, 0xFF]) } else { 0xAA };
    let cmd3 = if r.below(3) == 0 { r.byte() } else { 0x00 };
    let cmd4 = if r.below(8) == 0 { r.one_of(&[0x01, 0x02, 0x04, 0x80, 0xFF]) } else { 0x00 };
    let mut p = vec![cmd1, cmd2, cmd3, cmd4, data.len() as u8, (data.len() >> 8) as u8];
    p.extend(&data);
    let sum = p[4..].iter().fold(0u8, |a, b| a.wrapping_add(*b));
    let wrong = [1, 0x80, cmd4, cmd1.wrapping_add(cmd2).wrapping_add(cmd3).wrapping_add(cmd4)];
    p.push(if r.below(8) == 0 { sum.wrapping_add(r.one_of(&wrong)) } else { sum });
    p
}

fn states(r: &mut Random) -> [u8; 5] {
    let mut s = [r.byte() & 1, r.byte() & 1, r.byte() & 1, r.byte() & 7, r.byte() & 1];
    if r.below(12) == 0 {
        let i = r.below(5);
        s[i] = r.one_of(&[2, 7, 8, 255]);
    }
    s
}

fn worked(tally: &mut Tally) {
    let requests: [(&[u8], &[u8]); 9] = [
        (&[0x04, 0xAA, 0, 0, 2, 0, 0x15, 0, 0x17], &[0x05, 0xAA, 0, 0, 3, 0, 0, 0, 0, 0x03]),
        (&[0x02, 0xAA, 0, 0, 2, 0, 0x05, 0, 0x07], &[0x03, 0xAA, 0, 0, 2, 0, 0, 0, 0x02]),
        (&[0x04, 0xAA, 0, 0, 2, 0, 0x15, 0, 0x17], &[0x05, 0xAA, 0, 0, 3, 0, 0, 0, 1, 0x04]),
        (&[0x02, 0xAA, 0, 0, 2, 0, 0x06, 0, 0x08], &[0x03, 0xAA, 0, 0, 2, 0, 0, 0, 0x02]),
        (&[0x04, 0xAA, 0, 0, 2, 0, 0x15, 0, 0x17], &[0x05, 0xAA, 0, 0, 3, 0, 0, 0, 0, 0x03]),
        (&[0x04, 0xAA, 0, 0, 2, 0, 0x16, 0, 0x18], &[0x05, 0xAA, 0, 0, 3, 0, 0, 0, 1, 0x04]),
        (&[0x04, 0xAA, 0, 0, 2, 0, 0x17, 0, 0x19], &[0x05, 0xAA, 0, 0, 3, 0, 0, 0, 0, 0x03]),
        (&[0x04, 0xAA, 0, 0, 2, 0, 0x29, 0, 0x2B], &[0x05, 0xAA, 0, 0, 3, 0, 0, 0, 7, 0x0A]),
        (&[0x04, 0xAA, 0, 0, 2, 0, 0x2A, 0, 0x2C], &[0x05, 0xAA, 0, 0, 3, 0, 0, 0, 1, 0x04]),
    ];
    let mut d = Device::new(States { park: 0, sequence: 1, eeprom: 0, flash: 7, lit: 1 });
    let mut m = Model { states: [0, 1, 0, 7, 1], first: [0; 10], count: 0, sum: 0 };
    assert_eq!(d, real(&m));
    for (request, response) in requests {
        let mut out = [0xEE; 64];
        assert_eq!(d.receive(request, &mut out), Ok(dlpc200::Answer::Answered { taken: 9, length: response.len() }));
        assert_eq!(&out[..response.len()], response);
        assert!(out[response.len()..].iter().all(|b| *b == 0xEE));
        feed(&mut m, request, 0xEE, tally);
        assert_eq!(d, real(&m));
    }
    // With nothing received it does not matter what stands in the sum.
    for (checksum, status, park) in [(0x07, 0x00, 1), (0x08, 0x41, 0)] {
        let mut d = Device::new(States { park: 0, sequence: 1, eeprom: 0, flash: 7, lit: 1 });
        d.sum = 1;
        let mut out = [0xEE; 64];
        assert!(d.receive(&[0x02, 0xAA, 0, 0, 2, 0, 0x05, 0, checksum], &mut out).is_ok());
        assert_eq!((out[6], d.states.park), (status, park));
    }
}

// The status bytes of the answer to one packet, from a device that nothing has come to.
fn status_of(cmd: [u8; 4], data: &[u8], checksum: u8) -> (u8, u8) {
    let [low, high] = (data.len() as u16).to_le_bytes();
    let mut packet = [&cmd[..], &[low, high], data].concat();
    let sum = packet[4..].iter().fold(checksum, |sum, byte| sum.wrapping_add(*byte));
    packet.push(sum);
    let mut d = Device::new(States { park: 0, sequence: 1, eeprom: 0, flash: 7, lit: 1 });
    let mut out = [0xEE; dlpc200::OUTPUT_LEAST];
    assert!(matches!(d.receive(&packet, &mut out), Ok(dlpc200::Answer::Answered { taken, .. }) if taken == packet.len()));
    assert_eq!(out[0], if cmd[0] == dlpc200::READ { dlpc200::READ_RESP } else { dlpc200::WRITE_RESP });
    (out[status::AT_DATA0], out[status::AT_DATA1])
}

// Each name of the Rust view is drawn from the library.
fn named() {
    use dlpc200::{DATA_MOST, EXTENDED, ONLY, READ, WRITE};
    use status::*;
    let failed = ERR_CMD_EXE_FAILED;
    let writes = [command::PARK_DMD, command::UNPARK_DMD];
    let reads = [
        command::GET_DMD_SOFTWARE_PARK_STATE,
        command::GET_SEQ_RUN_STATE,
        command::GET_EEPROM_FAULT,
        command::GET_INIT_FROM_PARALLEL_FLASH_FAIL,
        command::GET_OVERALL_LED_LAMP_LIT_STATE,
    ];
    for id in 0..=u16::MAX {
        let (write, read) = (writes.contains(&id), reads.contains(&id));
        let of = |cmd1: u8| status_of([cmd1, EXTENDED, 0, ONLY], &id.to_le_bytes(), 0);
        let told = |right: bool, known: bool| if right { 0 } else if known { failed | ERR_INVALID_CMD1 } else { failed };
        assert_eq!((of(WRITE), of(READ)), ((told(write, read), 0), (told(read, write), 0)), "{id:04X}");
    }
    let park = command::PARK_DMD.to_le_bytes();
    assert_eq!(status_of([WRITE, EXTENDED, 0, ONLY], &park, 1), (failed | ERR_CHK_SUM_ERROR, 0));
    assert_eq!(status_of([WRITE, !EXTENDED, 0, ONLY], &park, 0), (failed | ERR_INVALID_CMD2, 0));
    assert_eq!(status_of([WRITE, EXTENDED, 0, !ONLY], &park, 0), (failed | ERR_INVALID_CMD4, 0));
    assert_eq!(status_of([WRITE, EXTENDED, 0, ONLY], &park[..1], 0), (failed, ERR_INSUF_CMD_DATA));
    let unknown = [0xFF; DATA_MOST + 1];
    assert_eq!(status_of([WRITE, EXTENDED, 0, ONLY], &unknown[1..], 0), (failed, 0));
    assert_eq!(status_of([WRITE, EXTENDED, 0, ONLY], &unknown, 0), (failed, ERR_INSUF_CMD_DATA));
}

// Every pair of status bytes.
fn counts() {
    for d0 in 0..=255u8 {
        for d1 in 0..=255u8 {
            let ones = (0..8).filter(|i| *i != 6 && d0 >> i & 1 == 1).count() + (0..8).filter(|i| d1 >> i & 1 == 1).count();
            assert_eq!(faults(d0, d1), ones as u32);
        }
    }
}

// A device of any bytes is reset to one between two packets, whatever the states.
fn reset(m: &Model, r: &mut Random) {
    let byte = r.byte();
    let mut d = real(&Model { states: [byte; 5], first: [byte; 10], count: u32::from_ne_bytes([byte; 4]) as usize, sum: byte });
    let wanted = real(m);
    assert_eq!(unsafe { calls::dlpc200_reset(&mut d, &wanted.states) }, 0);
    assert_eq!((d, Device::new(wanted.states)), (wanted, wanted));
}

// A stream of packets, cut anywhere. Up to four bytes of the first have come in before, and what
// stands in the sum then does not matter.
fn stream(r: &mut Random, tally: &mut Tally) {
    let mut m = Model { states: states(r), first: [0; 10], count: 0, sum: 0 };
    reset(&m, r);
    let mut stream = vec![];
    for _ in 0..r.below(6) {
        stream.extend(packet(r));
    }
    if r.below(2) == 0 {
        m.sum = r.byte();
        m.count = r.below(5).min(stream.len());
        for (at, byte) in stream.drain(..m.count).enumerate() {
            m.first[at] = byte;
        }
    }
    if r.below(3) == 0 {
        let p = packet(r);
        stream.extend(&p[..r.below(p.len())]);
    }
    let mut rest = &stream[..];
    while !rest.is_empty() {
        let n = if r.below(3) == 0 { rest.len() } else { (1 + r.below(12)).min(rest.len()) };
        if r.below(10) == 0 {
            let short = r.below(64);
            call(&mut m, &rest[..n], short, r.byte(), tally);
        }
        if !m.in_rule() {
            call(&mut m, &rest[..n], 64 + r.below(10), r.byte(), tally);
            break;
        }
        feed(&mut m, &rest[..n], r.byte(), tally);
        rest = &rest[n..];
    }
}

// A device of any field values, and some bytes.
fn damaged(r: &mut Random, tally: &mut Tally) {
    let length = r.one_of(&[0usize, 1, 2, 3, 504, 505, 65535]);
    let mut first = [0; 10];
    first.iter_mut().for_each(|b| *b = r.byte());
    first[4] = length as u8;
    first[5] = (length >> 8) as u8;
    let count = match r.below(6) {
        0 => r.below(9),
        1 => (length + 6).saturating_sub(r.below(4)),
        2 => length + 6,
        3 => length + 7 + r.below(3),
        4 => u32::MAX as usize - r.below(2),
        _ => r.below(70000),
    };
    let mut m = Model { states: states(r), first, count, sum: r.byte() };
    let input: Vec<u8> = (0..r.below(40)).map(|_| r.byte()).collect();
    let room = if r.below(5) == 0 { r.below(64) } else { 64 + r.below(8) };
    call(&mut m, &input, room, r.byte(), tally);
}

fn round(seed: u64, tally: &mut Tally) {
    let mut r = Random(seed.wrapping_mul(0x9E3779B97F4A7C15));
    stream(&mut r, tally);
    damaged(&mut r, tally);
}

// In how many rounds the comparison finds a planted fault.
fn found(fault: u32, n: u64) -> usize {
    model::PLANT.store(fault, std::sync::atomic::Ordering::Relaxed);
    (1..=n).filter(|seed| std::panic::catch_unwind(|| round(*seed, &mut Tally::default())).is_err()).count()
}

fn main() {
    let n: u64 = std::env::args().nth(1).map_or(20_000, |n| n.parse().expect("a number of rounds"));
    worked(&mut Tally::default());
    named();
    counts();
    let mut tally = Tally::default();
    (1..=n).for_each(|seed| round(seed, &mut tally));
    let never: Vec<_> = tally.0.iter().filter(|(_, n)| **n == 0).map(|(name, _)| *name).collect();
    assert!(never.is_empty(), "never met: {never:?}");
    std::panic::set_hook(Box::new(|_| {}));
    let differ: Vec<_> = (1..=model::PLANTS).map(|fault| found(fault, n)).collect();
    if let Some(fault) = differ.iter().position(|rounds| *rounds == 0) {
        println!("dlpc200: planted fault {} was not found", fault + 1);
        std::process::exit(1);
    }
    let met: Vec<_> = tally.0.iter().map(|(name, n)| format!("{name} {n}")).collect();
    println!("dlpc200: {n} rounds alike; {}; {} planted faults found, in {differ:?} rounds", met.join(", "), model::PLANTS);
}
