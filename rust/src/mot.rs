//! Boxes from MOTChallenge detection text.

use crate::ffi;
use core::fmt;

/// The bytes of a box record: frame, left, top, width, height and score, four bytes each with the lowest first, and
/// the label. `trackbox` reads a stream of them.
pub const BOX_RECORD_BYTES: usize = 25;

/// Why a line is turned away, with nothing written.
#[derive(Clone, Copy, Debug, PartialEq, Eq, Hash)]
#[non_exhaustive]
pub enum Refusal {
    /// 51: the line is not of the form.
    NotOfTheForm,
    /// 52: a value of it that a frame turns down with 16, or `trackbox` with 42 or 43.
    BadValue,
    /// 53: `out` is shorter than [`BOX_RECORD_BYTES`].
    NoRoom,
}

impl Refusal {
    /// The number of the refusal, 51 to 53.
    pub const fn number(self) -> u32 {
        match self {
            Refusal::NotOfTheForm => 51,
            Refusal::BadValue => 52,
            Refusal::NoRoom => 53,
        }
    }

    fn of(number: u32) -> Refusal {
        match number {
            51 => Refusal::NotOfTheForm,
            52 => Refusal::BadValue,
            53 => Refusal::NoRoom,
            _ => unreachable!("libbedside.a is not this crate's: a line has no refusal {number}"),
        }
    }
}

impl fmt::Display for Refusal {
    fn fmt(&self, f: &mut fmt::Formatter<'_>) -> fmt::Result {
        let why = match self {
            Refusal::NotOfTheForm => "the line is not of the form",
            Refusal::BadValue => "a value of the line is outside its limits",
            Refusal::NoRoom => "out has no room for the record",
        };
        write!(f, "refused {}: {why}", self.number())
    }
}

impl core::error::Error for Refusal {}

/// Reads a line of MOTChallenge detection text, its line feed included, and writes its box record, with label 1, to
/// the front of `out`. It gives the frame number, which is the `previous` of the next line; that of the first is 0.
///
/// A line has ten fields with a comma between two: frame, id, left, top, width, height, confidence and three
/// coordinates; id and coordinates are `-1`. A frame is one to six digits; a number is an optional minus, one to six
/// digits, and optionally a point with one to six digits. Each number becomes the nearest `f32`, ties to even.
///
/// # Errors
///
/// The first [`Refusal`] that applies, with `out` as before.
///
/// ```
/// use bedside::mot::{line, Refusal, BOX_RECORD_BYTES};
///
/// let mut record = [0; BOX_RECORD_BYTES];
/// assert_eq!(line(b"1,-1,10,20,32,64,0.75,-1,-1,-1\n", 0, &mut record)?, 1);
/// assert_eq!(record[..8], [1, 0, 0, 0, 0, 0, 0x20, 0x41]);
/// assert_eq!(line(b"1,-1,10,20,32,64,1.75,-1,-1,-1\n", 1, &mut record), Err(Refusal::BadValue));
/// # Ok::<(), Refusal>(())
/// ```
pub fn line(line: &[u8], previous: u32, out: &mut [u8]) -> Result<u32, Refusal> {
    let answer = ffi::mot_line(line, previous, out);
    match answer.refusal {
        0 => Ok(answer.frame),
        number => Err(Refusal::of(number)),
    }
}
