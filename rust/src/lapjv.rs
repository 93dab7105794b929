//! The assignment.

use crate::{ffi, Counts};
use core::fmt;

/// Why an assignment is turned down, with nothing changed.
#[derive(Clone, Copy, Debug, PartialEq, Eq, Hash)]
#[non_exhaustive]
pub enum Refusal {
    /// 21: a side of 0.
    NoSide,
    /// 22: a side above 255.
    SideAbove255,
    /// 23: the costs are not n × n, or `x` or `y` is not n long.
    WrongSize,
}

impl Refusal {
    /// The number of the scope document, 21 to 23.
    pub const fn number(self) -> u32 {
        match self {
            Refusal::NoSide => 21,
            Refusal::SideAbove255 => 22,
            Refusal::WrongSize => 23,
        }
    }

    fn of(number: u32) -> Refusal {
        match number {
            21 => Refusal::NoSide,
            22 => Refusal::SideAbove255,
            23 => Refusal::WrongSize,
            _ => unreachable!("libbedside.a is not this crate's: an assignment has no refusal {number}"),
        }
    }
}

impl fmt::Display for Refusal {
    fn fmt(&self, f: &mut fmt::Formatter<'_>) -> fmt::Result {
        let why = match self {
            Refusal::NoSide => "the side is 0",
            Refusal::SideAbove255 => "the side is above 255",
            Refusal::WrongSize => "a slice is not as long as the side says",
        };
        write!(f, "refused {}: {why}", self.number())
    }
}

impl core::error::Error for Refusal {}

/// Pairs each of `n` rows with one of `n` columns, `n` from 1 to 255: `x[i]` becomes the column of row i, and
/// `y[j]` the row of column j. `cost` is flat, row by row. It accepts every cost, a NaN too.
///
/// It is the assignment that jamtrack-rs's lapjv.rs makes, which is not claimed to be the cheapest for costs that
/// fill whole rows.
///
/// # Errors
///
/// A [`Refusal`] exactly where the sizes do not fit, with `x` and `y` as before.
///
/// ```
/// use bedside::lapjv::lapjv;
///
/// let (mut x, mut y) = ([0; 2], [0; 2]);
/// let counts = lapjv(2, &[1.0, 5.0, 5.0, 1.0], &mut x, &mut y)?;
/// assert_eq!((x, y), ([0, 1], [0, 1]));
/// assert!(counts.turns <= 4 && counts.scans <= 1);
/// # Ok::<(), bedside::lapjv::Refusal>(())
/// ```
pub fn lapjv(n: usize, cost: &[f64], x: &mut [usize], y: &mut [usize]) -> Result<Counts, Refusal> {
    let answer = ffi::lapjv(n, cost, x, y);
    match answer.refusal {
        0 => Ok(Counts { turns: answer.turns, scans: answer.scans }),
        number => Err(Refusal::of(number)),
    }
}
