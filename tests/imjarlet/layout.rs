// The sizes and offsets of include/imjarlet.rs, in the words of layout.c, and each answer of its
// functions once. Sizes, and that no type has padding, are asserted when this is compiled.
#[path = "../../include/imjarlet.rs"]
mod imjarlet;

use imjarlet::*;
use std::mem::{offset_of, size_of, transmute};

/// The size of a field, which the function picks.
const fn size_of_field<T, F>(_: fn(&T) -> &F) -> usize {
    size_of::<F>()
}

macro_rules! layout {
    ($($name:literal $type:ty, $size:literal { $($field:tt as $shown:literal),* })*) => {
        $(
            const _: () = assert!(size_of::<$type>() == $size);
            const _: () = assert!($size == 0 $(+ size_of_field(|t: &$type| &t.$field))*);
        )*
        fn print_layout() {
            $(
                println!("{} {}", $name, size_of::<$type>());
                $(println!("{}.{} {}", $name, $shown, offset_of!($type, $field));)*
            )*
        }
    };
}

layout! {
    "drive" Drive, 2 { 0 as "counts" }
    "microseconds" Microseconds, 4 { 0 as "microseconds" }
    "led_current" LedCurrent, 6 { red as "red", green as "green", blue as "blue" }
    "static_colour" StaticColour, 4 { blue as "blue", green as "green", red as "red", last as "last" }
    "display_setting" DisplaySetting, 4 { long_flip as "long_flip", short_flip as "short_flip", rotate as "rotate" }
    "video_input" VideoInput, 12 {
        x as "x", y as "y", first_pixel as "first_pixel", first_line as "first_line", width as "width", height as "height"
    }
    "video_mode" VideoMode, 4 { rate as "rate", depth as "depth", led as "led" }
    "pattern_sequence" PatternSequence, 20 {
        depth as "depth", count as "count", inversion as "inversion", trigger as "trigger", delay as "delay",
        period as "period", exposure as "exposure", led as "led"
    }
    "settings" Settings, 56 {
        mode as "mode", pattern as "pattern", current as "current", colour as "colour", setting as "setting",
        input as "input", video as "video", sequence as "sequence", run as "run"
    }
    "registers" Registers, 16 {
        received as "received", held as "held", active as "active", cmd1 as "cmd1", cmd2 as "cmd2", header as "header",
        sum as "sum"
    }
    "controller" Controller, 2120 { settings as "settings", registers as "registers", buffer as "buffer", hold as "hold" }
    "kept" Kept, 6 { held as "held", mode as "mode", active as "active", cmd1 as "cmd1", cmd2 as "cmd2" }
    "ruling" Ruling, 16 {
        codes as "codes", accepts as "accepts", wrong as "wrong", count as "count", cmd1 as "cmd1", cmd2 as "cmd2",
        kept as "kept"
    }
    "judgement" Judgement, 1040 { ruling as "ruling", joined as "joined" }
    "verdict" raw::Verdict, 80 { place as "place", trial as "trial", score as "score", settings as "settings" }
}

/// The factory values, written out from document 01.
const FACTORY: Settings = Settings {
    mode: 0,
    pattern: 0,
    current: LedCurrent { red: Drive(274), green: Drive(274), blue: Drive(274) },
    colour: StaticColour { blue: 0, green: 0, red: 0, last: 0 },
    setting: DisplaySetting { long_flip: 0, short_flip: 1, rotate: 0 },
    input: VideoInput { x: 608, y: 684, first_pixel: 0, first_line: 0, width: 608, height: 684 },
    video: VideoMode { rate: 60, depth: 8, led: 1 },
    sequence: PatternSequence {
        depth: 1,
        count: 1,
        inversion: 0,
        trigger: 0,
        delay: Microseconds(0),
        period: Microseconds(0),
        exposure: Microseconds(0),
        led: 0,
    },
    run: 0,
};

/// A controller filled with EE is after a reset its fields and nothing else; so is a verdict.
fn filled() {
    let registers = Registers { received: 0, held: 0, active: 0, cmd1: 0, cmd2: 0, header: [0; 6], sum: 0 };
    let fresh = Controller { settings: FACTORY, registers, buffer: [0; HOLD], hold: [0; HOLD] };
    let wanted: [u8; 2120] = unsafe { transmute(fresh.clone()) };
    let mut c: Controller = unsafe { transmute([0xEEu8; 2120]) };
    c.reset();
    assert_eq!(c, fresh);
    assert_eq!(unsafe { transmute::<Controller, [u8; 2120]>(c) }, wanted);
    assert_eq!(Controller::fresh(), fresh);

    let mut v: raw::Verdict = unsafe { transmute([0xEEu8; 80]) };
    let report = include_bytes!("../../examples/refused.report");
    assert_eq!(unsafe { raw::imjarlet_check_report(report.as_ptr(), report.len() as u64, &mut v) }, 19);
    let wanted = raw::Verdict { place: 46, trial: 0, score: 0, settings: FACTORY };
    let bytes: [[u8; 80]; 2] = unsafe { [transmute(v), transmute(wanted)] };
    assert_eq!(bytes[0], bytes[1]);
}

/// The wrong byte of a packet that draws 03, whole and in a transfer, and none with any other response; and
/// what the library's own call says for none, where it waits and where it refuses.
fn wrong_bytes(head: &mut Controller) {
    let mut out = [0xA5u8; OUTPUT_LEAST];
    let mut answers = |packet: &[u8], length, wrong| {
        let taken = packet.len();
        assert_eq!(head.receive(packet, &mut out), Ok(Answer::Answered { taken, length, wrong }));
    };
    // 01 04 with green 1025, with another checksum, and with a byte too many
    answers(&[2, 1, 4, 0, 6, 0, 0, 4, 1, 4, 0, 4, 0x1A], 8, Some(2));
    answers(&[2, 1, 4, 0, 6, 0, 0, 4, 1, 4, 0, 4, 0x1B], 8, None);
    answers(&[2, 1, 4, 0, 7, 0, 0, 4, 1, 4, 0, 4, 0, 0x1B], 8, None);
    // 01 04 with blue 1025, in two packets that cut it
    answers(&[2, 1, 4, 1, 5, 0, 0, 4, 0, 4, 1, 0x16], 7, None);
    answers(&[2, 1, 4, 3, 1, 0, 4, 0x0F], 8, Some(4));
    // a read
    answers(&[4, 1, 3, 0, 0, 0, 8], 8, None);

    for (room, refusal, taken) in [(64, 0, 1), (63, 1, 0)] {
        let mut numbers = [5; 3];
        let [a, b, c] = &mut numbers;
        let number = unsafe { raw::imjarlet_receive(head, [2].as_ptr(), 1, out.as_mut_ptr(), room, a, b, c) };
        assert_eq!((number, numbers), (refusal, [taken, 0, raw::NO_WRONG_BYTE]));
    }
    head.reset();
}

/// Asking first, and then carrying out: each kind of judgement, what it keeps and what is refused.
fn asked_first() {
    let mut head = Controller::fresh();
    let mut out = [0xA5u8; OUTPUT_LEAST];
    head.registers.held = 5; // of no open transfer: kept as it stands, and it counts for nothing
    let before = head.clone();
    let kept = Kept { held: 5, mode: 0, active: 0, cmd1: 0, cmd2: 0 };

    // a write: 01 03 with test pattern 3
    let write = head.judge(&[2, 1, 3, 0, 1, 0, 3, 0x0A]).unwrap();
    let ruling = Ruling { codes: 0, accepts: 2, wrong: raw::JUDGED_NO_WRONG_BYTE, count: 1, cmd1: 1, cmd2: 3, kept };
    assert_eq!((write.ruling, write.ruling.asks()), (ruling, Some(Asks::Write)));
    assert_eq!((write.joined[0], write.ruling.codes().count(), write.ruling.wrong()), (3, 0, None));
    // errors: several codes, and the wrong byte of 01 04 with green 1025
    let error = head.judge(&[2, 1, 2, 7, 0, 0, 0]).unwrap();
    assert_eq!((error.ruling.codes().collect::<Vec<_>>(), error.ruling.asks()), (vec![2, 9, 0x0B], None));
    let error = head.judge(&[2, 1, 4, 0, 6, 0, 0, 4, 1, 4, 0, 4, 0x1A]).unwrap();
    assert_eq!((error.ruling.codes().collect::<Vec<_>>(), error.ruling.wrong()), (vec![3], Some(2)));
    // a read, and a beginning
    let read = head.judge(&[4, 1, 3, 0, 0, 0, 8]).unwrap();
    let hold = head.judge(&[2, 1, 3, 1, 0, 0, 7]).unwrap();
    assert_eq!((read.ruling.asks(), hold.ruling.asks()), (Some(Asks::Read), Some(Asks::Hold)));
    assert_eq!(head.judge(&[2, 1, 3, 0, 1, 0, 3]), Err(Refusal::NotOnePacket));
    assert_eq!(head, before);

    // carried out: a read tells what the head has then, not what it had when it was asked
    assert_eq!(head.carry_out(&write, &mut out), Ok(7));
    assert_eq!((head.settings.pattern, out[..7].to_vec()), (3, vec![3, 1, 3, 0, 0, 0, 7]));
    assert_eq!(head.carry_out(&read, &mut out), Ok(8));
    assert_eq!(out[..8], [5, 1, 3, 0, 1, 0, 3, 0x0D]);
    // a transfer that is opened makes all of them stale, that of the beginning too
    assert_eq!(head.carry_out(&hold, &mut out), Ok(7));
    for j in [&write, &read, &error, &hold] {
        assert_eq!(head.carry_out(j, &mut out), Err(Refusal::Stale));
    }
    let last = head.judge(&[2, 1, 3, 3, 1, 0, 5, 0x0F]).unwrap();
    assert_eq!(last.ruling.kept, Kept { held: 0, mode: 0, active: 1, cmd1: 1, cmd2: 3 });
    assert_eq!(head.carry_out(&last, &mut out), Ok(7));
    assert_eq!((head.settings.pattern, head.registers.active), (5, 0));

    // forged: test pattern 14, which no packet draws; with an error code it is carried out all the same
    let mut forged = write.clone();
    forged.joined[0] = 14;
    assert_eq!(head.carry_out(&forged, &mut out), Err(Refusal::NotAllowed));
    forged.ruling.kept.mode = 4;
    assert_eq!(head.carry_out(&forged, &mut out), Err(Refusal::NotAllowed));
    forged.ruling.kept.mode = 0;
    forged.ruling.codes = 1 << 0x08 | 1 << 0x01;
    assert_eq!(head.carry_out(&forged, &mut out), Ok(9));
    assert_eq!(out[..9], [1, 1, 3, 0, 2, 0, 1, 8, 0x10]);
    assert_eq!(head.carry_out(&write, &mut out[1..]), Err(Refusal::ShortOutput));
    head.settings.mode = 3;
    assert_eq!(head.carry_out(&write, &mut out), Err(Refusal::OutOfRule));
    assert_eq!(head.judge(&[]), Err(Refusal::OutOfRule));
}

fn main() {
    print_layout();
    println!("no_wrong_byte {}", raw::NO_WRONG_BYTE);
    println!("judged_no_wrong_byte {}", raw::JUDGED_NO_WRONG_BYTE);
    filled();
    let mut head = Controller::fresh();
    let fresh = head.clone();
    let mut out = [0xA5u8; LIST_OUTPUT_LEAST];
    let mut settings = head.settings;
    settings.current.green = Drive(1024);
    settings.sequence.exposure = Microseconds(70_000);

    // the standard list, played packet by packet and byte by byte
    let mut list = [0u8; LIST_OUTPUT_LEAST];
    assert_eq!(standard_list(&settings, &mut list), Ok(LIST_LENGTH));
    let mut at = 0;
    while at < LIST_LENGTH {
        match head.receive(&list[at..LIST_LENGTH], &mut out).unwrap() {
            Answer::Answered { taken, length: 7, wrong: None } => at += taken,
            other => panic!("{other:?}"),
        }
    }
    assert_eq!(head.settings, settings);
    head.reset();
    assert_eq!(head, fresh);
    for (i, byte) in list[..8].iter().enumerate() {
        let answered = Answer::Answered { taken: 1, length: 7, wrong: None };
        let expected = if i < 7 { Answer::Waiting { taken: 1 } } else { answered };
        assert_eq!(head.receive(&[*byte], &mut out), Ok(expected));
    }
    assert_eq!(head.receive(&[], &mut out), Ok(Answer::Waiting { taken: 0 }));
    wrong_bytes(&mut head);
    asked_first();

    // every refusal
    assert_eq!(head.receive(&list, &mut out[..OUTPUT_LEAST - 1]), Err(Refusal::ShortOutput));
    head.registers.held = HOLD as u16 + 1;
    assert_eq!(head.receive(&list, &mut out), Err(Refusal::OutOfRule));
    assert_eq!(encode(0x01, 0x04, &settings, &mut out), Ok(13));
    assert_eq!(encode(0x01, 0x05, &settings, &mut out), Err(Refusal::NotAllowed));
    settings.current.green = Drive(1025);
    settings.run = 256;
    assert_eq!(encode(0x04, 0x02, &settings, &mut out), Err(Refusal::NotAllowed));
    assert_eq!(encode(0x01, 0x04, &settings, &mut out), Err(Refusal::NotAllowed));
    assert_eq!(standard_list(&settings, &mut list), Err(Refusal::OutOfRule));
    assert_eq!(standard_list(&settings, &mut list[1..]), Err(Refusal::ShortOutput));
    assert_eq!(check_report(&[]), Err(Refused { reason: Reason::CutShort, place: 0 }));
    assert_eq!(check_report(&[0; REPORT_MOST + 1]), Err(Refused { reason: Reason::TooLong, place: 0 }));
    let accepted = check_report(include_bytes!("../../examples/accepted.report")).unwrap();
    assert_eq!((accepted.trial, accepted.score, accepted.settings.mode), (1, 7, 1));
    let refused = check_report(include_bytes!("../../examples/refused.report"));
    assert_eq!(refused, Err(Refused { reason: Reason::OtherSettings, place: 46 }));
    eprintln!("layout.rs: the answers of the Rust view are right");
}
