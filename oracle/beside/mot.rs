//! Lines of MOTChallenge text: the port's bedside_mot_line, with every byte that is lent, and the program motbox on whole
//! texts, beside document 02's words.

use crate::case::Case;
use crate::lent::Lent;
use crate::port;
use crate::program::ran;
use crate::report::{Found, Report, caught};
use oracle::mot::{self, RECORD};
use oracle::random::Random;

/// What the lent bytes hold before the call.
const MARK: u8 = 170;

// ---- lines, a call each

struct Call {
    line: Vec<u8>,
    previous: u32,
    room: usize,
}

/// Refusal, frame; the lent bytes.
type Answer = ([u32; 2], Vec<u8>);

fn of_port(call: &Call) -> Answer {
    let mut line = Lent::new(&call.line, 3);
    let mut out = Lent::filled(call.room, MARK, 5);
    // SAFETY: each pointer comes with its slice's length, and the two do not overlap.
    let a = unsafe { port::bedside_mot_line(line.start(), line.len(), call.previous, out.start(), out.len()) };
    assert!(line.back() == call.line, "the line was written");
    ([a.refusal, a.frame], out.back())
}

fn of_words(call: &Call) -> Answer {
    let mut out = vec![MARK; call.room];
    match mot::record(&call.line, call.previous, call.room) {
        Ok((frame, record)) => {
            out[..RECORD].copy_from_slice(&record);
            ([0, frame], out)
        }
        Err(number) => ([number, 0], out),
    }
}

fn agree(call: &Call) -> Found {
    let (port, words) = (of_port(call), of_words(call));
    if port == words {
        return Ok(port.0[0] as u64);
    }
    let line = call.line.escape_ascii();
    Err(format!("\"{line}\" behind {}: {:?}, and not {:?}", call.previous, port, words))
}

fn case(call: &Call) -> Case {
    let case = Case::new("mot").bytes("line", &call.line);
    case.words("previous", &[call.previous as u64]).numbers("room", &[call.room])
}

pub fn check(case: &Case) -> Found {
    let (line, previous) = (case.get_bytes("line"), case.get("previous")[0] as u32);
    agree(&Call { line, previous, room: case.get_numbers("room")[0] })
}

// ---- random lines

fn digits(count: usize, random: &Random) -> String {
    (0..count).map(|_| char::from(b'0' + random.below(10) as u8)).collect()
}

/// Six decimals next to the point half way between two floats of a size that is accepted; they end in zeros or not.
fn near_half_way(random: &Random) -> String {
    let exponent = random.below(37) as u32 + 127 - 20;
    let low = exponent << 23 | random.below(1 << 23) as u32;
    let middle = (f32::from_bits(low) as f64 + f32::from_bits(low + 1) as f64) / 2.0;
    format!("{:.6}", (middle + random.pick(&[-1e-6, 0.0, 0.0, 1e-6])).max(0.0))
}

/// Any digits of any count; a length of a picture; one near what decides.
fn number(random: &Random) -> String {
    let unsigned = match random.below(6) {
        0 => near_half_way(random),
        1 => random.pick(&["0", "1", "65536", "65536.003906", "65536.003907", "65537", "0.000000", "000000.1"]).to_string(),
        2 => digits(1 + random.index(6), random) + "." + &digits(1 + random.index(6), random),
        3 => digits(1 + random.index(6), random),
        _ => format!("{:.*}", random.index(7), random.between(0.0, 2000.0)),
    };
    if random.one_in(8) { format!("-{unsigned}") } else { unsigned }
}

fn score(random: &Random) -> String {
    match random.below(10) {
        0 => random.pick(&["1", "0", "-0", "1.000000", "1.000001", "-0.000001", "000001", "2"]).to_string(),
        1 => number(random),
        _ => format!("{:.*}", random.index(7), random.unit()),
    }
}

/// Behind the previous one, mostly.
fn frame(previous: u32, random: &Random) -> String {
    let step = random.pick(&[0, 0, 0, 1, 1, 2, 999, 1000, 1001, 5000]);
    let number = match random.below(24) {
        0 => 0,
        1 => previous.wrapping_sub(1),
        2 => random.below(1_100_000) as u32,
        _ => previous.saturating_add(step).max(1),
    };
    if random.one_in(8) { format!("{number:06}") } else { number.to_string() }
}

fn line(previous: u32, random: &Random) -> Vec<u8> {
    let values: Vec<String> = (0..4).map(|_| number(random)).collect();
    format!("{},-1,{},{},-1,-1,-1\n", frame(previous, random), values.join(","), score(random)).into_bytes()
}

/// A byte changed, taken out or put in, a part left out, or the end changed.
fn damage(line: &mut Vec<u8>, random: &Random) {
    let byte = random.pick(&[random.pick(b"0123456789"), random.pick(b"-.,\n\r +eE/:\0x"), random.word() as u8]);
    let at = random.index(line.len().max(1));
    match random.below(6) {
        0 if !line.is_empty() => line[at] = byte,
        1 if !line.is_empty() => drop(line.remove(at)),
        2 => drop(line.pop()),
        3 => line.extend(random.pick(&[&b"\n"[..], b"\r\n", b",-1\n", b" "])),
        4 => line.truncate(at),
        _ => line.insert(at.min(line.len()), byte),
    }
}

fn spoilt(previous: u32, random: &Random) -> Vec<u8> {
    let mut line = line(previous, random);
    for _ in 0..random.pick(&[0, 0, 0, 0, 0, 1, 1, 2, 5]) {
        damage(&mut line, random);
    }
    line
}

/// A thousand calls.
pub fn run(random: &Random, report: &mut Report) {
    for _ in 0..1000 {
        let any = random.word() as u32;
        let previous = random.pick(&[0, 0, 1, 7, 998_999, 999_999, 1_000_000, any % 1_000_000, any]);
        let room = random.pick(&[RECORD, RECORD, RECORD, RECORD + 1, 64, RECORD - 1, 0, random.index(RECORD)]);
        let call = Call { line: spoilt(previous, random), previous, room };
        report.judge(caught(|| agree(&call)), || case(&call));
    }
}

// ---- whole texts, through the program

/// The records, and the first line of standard error; there is a second one behind it, which says why.
fn texts_agree(program: &str, text: &[u8], piece: usize) -> Found {
    let port = ran(program, text, piece);
    let (records, refused) = mot::converted(text);
    let said = refused.map(|(number, line)| format!("refused {number} line {line}"));
    let same = port.errors.lines().next() == said.as_deref() && port.errors.lines().count() == 2 * said.iter().len();
    if port.out == records && same && port.ended {
        return Ok(refused.map_or(0, |(number, _)| number as u64));
    }
    let (got, wanted) = (port.out.len(), records.len());
    Err(format!("{} bytes: {got} bytes of records and {:?}, and not {wanted} and {said:?}", text.len(), port.errors))
}

pub fn check_text(case: &Case, program: &str) -> Found {
    texts_agree(program, &case.get_bytes("text"), case.get_numbers("piece")[0])
}

/// Lines that are accepted, in one text of seven up to 6,000 of them; then a few that may not be.
fn text(random: &Random) -> Vec<u8> {
    let count = random.pick(&[0, 1, 3, random.index(200), random.index(200), random.index(200), 2000 + random.index(4000)]);
    let (mut text, mut previous, mut lines) = (Vec::new(), 0, 0);
    while lines < count {
        let line = line(previous, random);
        if let Ok((frame, _)) = mot::record(&line, previous, RECORD) {
            previous = frame;
            text.extend(line);
        }
        lines += 1;
    }
    for _ in 0..random.pick(&[0, 0, 1, 2, 3]) {
        text.extend(spoilt(previous, random));
    }
    if random.one_in(16) {
        text.extend(vec![b'1'; random.pick(&[65535, 65536, 65537, 200_000])]);
    }
    text
}

pub fn run_text(random: &Random, program: &str, report: &mut Report) {
    let text = text(random);
    let piece = random.pick(&[1 << 20, 4096, 94, 7, 1000]);
    let case = || Case::new("texts").bytes("text", &text).numbers("piece", &[piece]);
    report.judge(caught(|| texts_agree(program, &text, piece)), case);
}
