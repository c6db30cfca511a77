//! Document 01's own packets and reports, each for a fresh factory controller: the library and the
//! model must both give what the paper prints. And request 4: the byte that both must name, field by field,
//! and the place of refusal 18. And request 5: asked first, with half of another packet received, these
//! packets are answered alike.

use super::{ffi, generate, model};

/// Packets, and the responses to all of them.
const PACKETS: [(&str, &str); 9] = [
    ("02 01 03 00 01 00 03 0A", "03 01 03 00 00 00 07"),
    ("02 01 03 00 01 00 03 0B", "01 01 03 00 01 00 09 0F"),
    (
        "02 01 04 00 06 00 00 04 12 01 12 01 37",
        "03 01 04 00 00 00 08",
    ),
    (
        "02 01 04 00 06 00 01 04 12 01 12 01 38",
        "01 01 04 00 01 00 03 0A",
    ),
    ("04 01 07 00 00 00 0C", "05 01 07 00 03 00 00 01 00 11"),
    ("02 01 02 07 00 00 00", "01 01 02 00 03 00 02 09 0B 1D"),
    ("02 04 02 00 01 00 01 0A", "01 04 02 00 01 00 07 0F"),
    ("02 01 03 00 02 00 03 00 0B", "01 01 03 00 01 00 0A 10"),
    (
        "02 01 03 01 00 00 07 02 01 03 03 01 00 05 0F 04 01 03 00 00 00 08",
        "03 01 03 00 00 00 07 03 01 03 00 00 00 07 05 01 03 00 01 00 05 0F",
    ),
];

const TRIALS: &str = "04 00 01 00 01 00 02 00 \
    0C 00 02 00 0A 00 00 00 02 01 03 00 01 00 03 0A \
    0C 00 02 00 07 00 00 00 02 01 01 00 01 00 01 06 \
    02 00 03 00 01 00";

fn bytes(hex: &str) -> Vec<u8> {
    hex.split_whitespace()
        .map(|b| u8::from_str_radix(b, 16).unwrap())
        .collect()
}

/// What a stream draws: the responses, one behind the other, and with each packet the byte that is named.
#[derive(Default)]
struct Drawn {
    responses: Vec<u8>,
    bytes: Vec<u64>,
}

/// What both sides give, the library first.
fn draw(stream: &[u8]) -> [Drawn; 2] {
    let mut theirs = ffi::Controller::fresh();
    let mut ours = model::Controller::default();
    let mut all = <[Drawn; 2]>::default();
    let mut out = [0; 64];
    let mut rest = stream;
    while !rest.is_empty() {
        let (mut taken, mut size, mut wrong) = (0, 0, 0);
        let numbers = (&mut taken, &mut size, &mut wrong);
        let refusal = ffi::receive(&mut theirs, rest, &mut out, numbers.0, numbers.1, numbers.2);
        if refusal != 0 || taken == 0 {
            break;
        }
        all[0].responses.extend(&out[..size as usize]);
        all[0].bytes.push(wrong);
        rest = &rest[taken as usize..];
    }
    let mut rest = stream;
    while let Ok(model::Progress::Answered {
        taken,
        length,
        wrong,
    }) = ours.receive(rest, &mut out)
    {
        let byte = wrong.map_or(ffi::NO_WRONG_BYTE, |at| at as u64);
        all[1].responses.extend(&out[..length]);
        all[1].bytes.push(byte);
        rest = &rest[taken..];
    }
    all
}

/// What both sides give, the library first, where each packet is asked for and then carried out. The head has
/// received half of another one.
fn ask(stream: &[u8]) -> [Drawn; 2] {
    let mut ours = model::Controller::default();
    let half = ours.receive(&[2, 1, 4, 0, 6, 0, 1], &mut [0; 64]);
    let mut theirs = ffi::Controller::from(&ours);
    let mut stood = generate::any_judgement(&mut generate::Rng::new(0, 0));
    let mut asked = ffi::Judgement::from(&stood);
    let mut all = <[Drawn; 2]>::default();
    let mut out = [0; 64];
    for packet in generate::packets(stream) {
        let mut size = 0;
        let refusals = [
            ffi::judge(&mut theirs, &packet, &mut asked),
            ffi::carry_out(&mut theirs, &mut asked, &mut out, &mut size),
        ];
        if refusals == [0, 0] && theirs.registers.received == 7 {
            all[0].responses.extend(&out[..size as usize]);
            all[0].bytes.push(asked.ruling.wrong.into());
        }
        let judged = ours.judge(&packet, &mut stood);
        let carried = ours.carry_out(&stood, &mut out);
        if let (Ok(_), Ok(()), Ok(length), 7) = (half, judged, carried, ours.received) {
            all[1].responses.extend(&out[..length]);
            all[1].bytes.push(stood.wrong.into());
        }
    }
    all
}

/// What is named otherwise than by the field's first byte: whole, and in a transfer, cut at each place.
fn wrong_bytes() -> Vec<String> {
    let mut wrong = Vec::new();
    for (command, data, byte) in generate::every_fault() {
        let cmd = command.bytes();
        let whole = (generate::packet(2, cmd, 0, &data), vec![byte as u64]);
        let cuts = (0..=data.len()).map(|cut| {
            let parts = [
                generate::packet(2, cmd, 1, &data[..cut]),
                generate::packet(2, cmd, 3, &data[cut..]),
            ];
            (parts.concat(), vec![ffi::NO_WRONG_BYTE, byte as u64])
        });
        for (stream, wanted) in [whole].into_iter().chain(cuts) {
            for (side, Drawn { bytes, .. }) in ["library", "model"].iter().zip(draw(&stream)) {
                if bytes != wanted {
                    let what = format!("{side}, {stream:02X?}: bytes {bytes:?}, not {wanted:?}");
                    wrong.push(what);
                }
            }
            let wanted: Vec<u64> = wanted.iter().map(|&byte| byte as u16 as u64).collect();
            for (side, Drawn { bytes, .. }) in ["library", "model"].iter().zip(ask(&stream)) {
                if bytes != wanted {
                    let what =
                        format!("{side}, asked, {stream:02X?}: bytes {bytes:?}, not {wanted:?}");
                    wrong.push(what);
                }
            }
        }
    }
    wrong
}

/// What is not as the papers have it.
pub fn wrong() -> Vec<String> {
    let mut wrong = wrong_bytes();
    let mut stream = |name: &str, input: &[u8], wanted: Vec<u8>| {
        let sides = ["library", "model", "library, asked", "model, asked"];
        let all = draw(input).into_iter().chain(ask(input));
        for (side, drawn) in sides.iter().zip(all) {
            let got = drawn.responses;
            if got != wanted {
                wrong.push(format!("{side}, {name}: {got:02X?}, not {wanted:02X?}"));
            }
        }
    };
    for (input, wanted) in PACKETS {
        stream(input, &bytes(input), bytes(wanted));
    }
    for (length, wanted) in [
        (1024u16, "01 01 03 00 01 00 0A 10"),
        (1025, "01 01 03 00 01 00 04 0A"),
    ] {
        let [low, high] = length.to_le_bytes();
        let mut input = vec![2, 1, 3, 0, low, high];
        input.resize(6 + length as usize, 0);
        input.push(6u8.wrapping_add(low).wrapping_add(high));
        stream("zero payload", &input, bytes(wanted));
    }
    let both = " 10 00 04 00 02 01 03 00 01 00 03 0A 02 01 01 00 01 00 01 06";
    let own = " 08 00 04 00 02 01 01 00 01 00 01 06";
    // The second packet unfinished; a good one, one that opens a transfer, and a byte; the same with a whole
    // packet in that byte's place, which closes the transfer by an error; test pattern 14, a read and a byte.
    let unfinished = " 0F 00 04 00 02 01 03 00 01 00 03 0A 02 01 01 00 01 00 01";
    let left_open = " 10 00 04 00 02 01 03 00 01 00 03 0A 02 01 03 01 00 00 07 02";
    let closed =
        " 17 00 04 00 02 01 03 00 01 00 03 0A 02 01 03 01 00 00 07 02 01 01 00 01 00 01 06";
    let several = " 10 00 04 00 02 01 03 00 01 00 0E 15 04 01 01 00 00 00 06 02";
    let reports = [
        (TRIALS.to_string() + both, (0, 0, 1, 7)),
        (TRIALS.to_string() + own, (19, 46, 0, 0)),
        (String::new(), (11, 0, 0, 0)),
        (TRIALS.to_string() + unfinished, (18, 58, 0, 0)),
        (TRIALS.to_string() + left_open, (18, 58, 0, 0)),
        (TRIALS.to_string() + closed, (18, 65, 0, 0)),
        (TRIALS.to_string() + several, (18, 50, 0, 0)),
    ];
    for (report, wanted) in reports {
        let report = bytes(&report);
        let mut verdict = ffi::UNSET_VERDICT;
        let refusal = ffi::check_report(&report, &mut verdict);
        for (side, got) in [
            ("library", ffi::Judged { refusal, verdict }),
            ("model", model::check_report(&report).into()),
        ] {
            let verdict = &got.verdict;
            if (got.refusal, verdict.place, verdict.trial, verdict.score) != wanted {
                wrong.push(format!(
                    "{side}, report {report:02X?}: {got:?}, not {wanted:?}"
                ));
            }
        }
    }
    wrong
}
