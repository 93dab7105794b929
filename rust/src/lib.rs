//! The object tracker of a bedside sleep recorder: safe Rust over libbedside.a, whose every function is proved
//! to meet its contract.
//!
//! A [`Tracker`] takes the boxes that a detector found in a frame, and gives the tracks that the frame puts
//! out:
//!
//! ```
//! use bedside::{Detection, Settings, Tracker};
//!
//! let mut tracker = Tracker::new(Settings::new(0.6, 0.3, 30, 3));
//! let boxes = [Detection::new(10.0, 20.0, 32.0, 64.0, 0.75)];
//! for track in tracker.update(&boxes)? {
//!     assert_eq!((track.frame, track.id), (1, 1));
//!     assert_eq!((track.left, track.top, track.width, track.height), (10.0, 20.0, 32.0, 64.0));
//!     assert_eq!(track.to_string(), "1 1 41200000 41a00000 42000000 42800000 3ef4e351");
//! }
//! # Ok::<(), bedside::Refusal>(())
//! ```
//!
//! A tracker's memory is allocated when it is made, and never after. A frame is worked whole, or turned down
//! with a [`Refusal`] and everything as before; no call panics, and the work of each is bounded.
//!
//! The parts that the tracker is made of can be called by themselves: [`float`], [`filter`], [`lapjv`] and
//! [`assoc`]. [`mot`] reads boxes from MOTChallenge text. What a call gives is what its definition in the
//! repository gives, bit for bit; only the sign and the payload of a NaN are left open. `include/bedside.h` says
//! the same for C.
//!
//! # Linking
//!
//! The build script links the archive that the environment variable `BEDSIDE_ARCHIVE` names; without it the
//! installed one that pkg-config knows as `bedside`; without that the repository's own
//! `crates/bedside/out/libbedside.a`, which `rt lib --cpu=x86-64` writes in crates/bedside. The archive is for x86-64
//! Linux. The crate uses no other crate, and of the standard library `core` and `alloc` alone.
//!
//! Results rest on the floating-point environment that Rust code rests on too: rounding to the nearest, and
//! nothing flushed to zero. C code of the same process that is linked with `-ffast-math` changes it.

#![no_std]
#![deny(missing_docs, unsafe_code, unsafe_op_in_unsafe_fn, clippy::undocumented_unsafe_blocks)]

#[cfg(not(all(target_arch = "x86_64", target_os = "linux")))]
compile_error!("libbedside.a is for x86-64 Linux");

extern crate alloc;
#[cfg(test)]
extern crate std;

pub mod assoc;
#[allow(unsafe_code)]
mod ffi;
pub mod filter;
pub mod float;
pub mod lapjv;
pub mod mot;
mod refusal;
mod settings;
mod tracker;
mod why;

pub use refusal::Refusal;
pub use settings::Settings;
pub use tracker::{Detection, Label, Track, Tracker, Tracks};
pub use why::{Explanation, Fate, Paired};

/// How long the assignment of a call took: the passes of its two outer loops that nothing else bounds. Both are
/// 0 where boxes and tracks were paired without it.
///
/// On n rows and n columns it takes at most 2 n (n − 1) row turns and n (n − 1) / 2 column scans.
#[derive(Clone, Copy, Debug, Default, PartialEq, Eq, Hash)]
pub struct Counts {
    /// Row turns.
    pub turns: u64,
    /// Column scans.
    pub scans: u64,
}
