//! Streams: the program trackbox beside the published tracker and the scope document's rules, every byte it prints.

use crate::case::Case;
use crate::frames::labelling;
use oracle::random::Random;
use crate::program::printed;
use crate::report::{Found, Report, caught};
use oracle::rules;
use oracle::scenes;

/// A record: frame, then left, top, width, height, score, and the label.
type Record = (u32, [f32; 5], u8);

fn bytes_of(records: &[Record]) -> Vec<u8> {
    let bytes = |r: &Record| [&r.0.to_le_bytes()[..], &r.1.map(|x| x.to_le_bytes()).concat(), &[r.2]].concat();
    records.iter().flat_map(bytes).collect()
}

// ---- both programs

fn agree(program: &str, bytes: &[u8], piece: usize) -> Found {
    let (port, ended) = printed(program, bytes, piece);
    let rust = rules::printed(bytes);
    if port == rust && ended {
        let refused = rust.lines().last().and_then(|line| line.strip_prefix("refused "));
        return Ok(refused.and_then(|rest| rest.split(' ').next()?.parse().ok()).unwrap_or(0));
    }
    let at = port.lines().zip(rust.lines()).take_while(|(a, b)| a == b).count();
    let line = |text: &str| text.lines().nth(at).unwrap_or("its end").to_string();
    Err(format!("{} bytes, line {}: {}, and not {}", bytes.len(), at + 1, line(&port), line(&rust)))
}

fn case(bytes: &[u8], piece: usize) -> Case {
    Case::new("streams").bytes("bytes", bytes).numbers("piece", &[piece])
}

pub fn check(case: &Case, program: &str) -> Found {
    agree(program, &case.get_bytes("bytes"), case.get_numbers("piece")[0])
}

// ---- random streams

/// A scene's boxes with other numbers, each frame `step` after the one before.
fn scene(records: &mut Vec<Record>, random: &Random) {
    let step = random.pick(&[1, 1, 1, 2, 3, 17]);
    let mut frame = records.last().map_or(0, |r| r.0) + random.pick(&[0, 0, 5, 29, 30, 31, 400]);
    let mut scene = scenes::seeded(random.index(72), random.word());
    scene.labelling = labelling(random);
    scene.start();
    for f in 0..scene.frames {
        frame += step;
        records.extend(scene.sound_boxes(f).each().map(|(values, label)| (frame, values, label)));
    }
}

/// Rows of boxes that stand still, as many as the program takes, or nearly.
fn rows(records: &mut Vec<Record>, random: &Random) {
    let first = records.last().map_or(0, |r| r.0) + random.pick(&[1, 2, 40, 1000]);
    let count = random.pick(&[1, 3, 8, 20, 31, 32, 32, 64, 65]);
    let label = random.pick(&[1, 1, 2, 3]);
    for frame in first..first + random.pick(&[1, 2, 6]) {
        let shift = random.pick(&[0.0, 0.0, 16.0]);
        let corner = |i: usize| [(i % 10 * 64) as f32 + shift, (i / 10 * 64) as f32];
        records.extend((0..count).map(|i| (frame, [corner(i)[0], corner(i)[1], 32.0, 48.0, 0.75], label)));
    }
}

/// A record or a byte changed, taken out or put in, or the end cut off.
fn damage(records: &mut Vec<Record>, random: &Random) {
    let Some(last) = records.len().checked_sub(1) else { return };
    let k = if random.one_in(4) { last } else { random.index(last + 1) };
    let frame = records[k].0;
    match random.below(8) {
        0 => {
            let other = frame.wrapping_add(random.pick(&[u32::MAX, 1, 1000, 1001]));
            records[k].0 = random.pick(&[other, other, 0, 1, u32::MAX]);
        }
        1 => records[k].1[random.index(5)] = random.pick(&[f32::NAN, 0.0, -1.0, 1.5, 65536.0, 65536.01, 1e38]),
        2 => records[k].1[random.index(5)] = random.any(),
        3 => drop(records.remove(k)),
        6 => records[k].2 = random.pick(&[1, 2, 3, 0, 4, 255]),
        4 => records.swap(k, last),
        5 => (0..random.pick(&[1, 60, 64, 65])).for_each(|_| records.insert(k, records[k])),
        _ => records.truncate(k),
    }
}

fn made(random: &Random) -> Vec<u8> {
    let mut records = Vec::new();
    for _ in 0..1 + random.below(4) {
        if random.one_in(4) { rows(&mut records, random) } else { scene(&mut records, random) }
    }
    for _ in 0..random.pick(&[0, 0, 0, 0, 1, 1, 2, 3]) {
        damage(&mut records, random);
    }
    let mut bytes = bytes_of(&records);
    match random.below(10) {
        0 => bytes.truncate(random.index(bytes.len() + 1)),
        1 => bytes.extend((0..random.index(25)).map(|_| random.word() as u8)),
        2 if !bytes.is_empty() => {
            let k = random.index(bytes.len());
            bytes[k] ^= 1 << random.below(8);
        }
        _ => {}
    }
    bytes
}

pub fn run(random: &Random, program: &str, report: &mut Report) {
    let bytes = made(random);
    let piece = random.pick(&[1 << 20, 4096, 25, 7, 1000]);
    report.judge(caught(|| agree(program, &bytes, piece)), || case(&bytes, piece));
}
