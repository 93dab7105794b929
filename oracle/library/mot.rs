//! Lines of MOTChallenge detection text, from document 02's words; nothing of the port's. The value of a number is that
//! of the Rust's own `f32::from_str`, which gives the nearest float, ties to even.

use crate::verdict::bad_box;

/// The bytes of a box record.
pub const RECORD: usize = 25;

/// "One to six digits."
fn are_digits(text: &[u8]) -> bool {
    (1..=6).contains(&text.len()) && text.iter().all(u8::is_ascii_digit)
}

fn parsed<T: std::str::FromStr>(text: &[u8]) -> Option<T> {
    std::str::from_utf8(text).ok()?.parse().ok()
}

/// "An optional minus, one to six digits, and optionally a point with one to six digits."
fn number(text: &[u8]) -> Option<f32> {
    let unsigned = text.strip_prefix(b"-").unwrap_or(text);
    let point = unsigned.iter().position(|&byte| byte == b'.');
    let formed = match point {
        Some(at) => are_digits(&unsigned[..at]) && are_digits(&unsigned[at + 1..]),
        None => are_digits(unsigned),
    };
    if formed { parsed(text) } else { None }
}

/// "Ten comma-separated fields a line (frame, id, left, top, width, height, confidence and three coordinates), with id
/// and the last three always `-1`, each line ended by a line feed"; "the frame is one to six digits alone".
fn values(line: &[u8]) -> Option<(u32, [f32; 5])> {
    let fields: Vec<&[u8]> = line.strip_suffix(b"\n")?.split(|&byte| byte == b',').collect();
    let [frame, id, left, top, width, height, score, x, y, z] = fields[..] else { return None };
    if !are_digits(frame) || [id, x, y, z] != [b"-1"; 4] {
        return None;
    }
    let [left, top, width, height, score] = [left, top, width, height, score].map(number);
    Some((parsed(frame)?, [left?, top?, width?, height?, score?]))
}

/// The frame number and the record of a line, with "label 1"; or why there is none: "51 a line that doesn't have this
/// form; 52 a value that gets 16, 42 or 43 in document 01; 53 no place for the record."
pub fn record(line: &[u8], previous: u32, room: usize) -> Result<(u32, Vec<u8>), u32> {
    let (frame, box_values) = values(line).ok_or(51u32)?;
    if frame == 0 || frame < previous || frame - previous > 1000 || bad_box(&box_values) {
        return Err(52);
    }
    if room < RECORD {
        return Err(53);
    }
    let floats = box_values.map(|x| x.to_le_bytes()).concat();
    Ok((frame, [&frame.to_le_bytes()[..], &floats, &[1]].concat()))
}

/// All records of a text, up to a line that is turned away; of that its number, and the line's, counted from 1.
pub fn converted(text: &[u8]) -> (Vec<u8>, Option<(u32, usize)>) {
    let (mut previous, mut records) = (0, Vec::new());
    for (k, line) in text.split_inclusive(|&byte| byte == b'\n').enumerate() {
        match record(line, previous, RECORD) {
            Ok((frame, bytes)) => {
                previous = frame;
                records.extend(bytes);
            }
            Err(number) => return (records, Some((number, k + 1))),
        }
    }
    (records, None)
}
