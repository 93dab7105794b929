//! A night through a tracker: reads box records on standard input and prints what the program trackbox prints, a line
//! for each track that a frame puts out, and for a stream that cannot go on the refusal and the record that it names.
//! Ends with 0, or 1 where the stream was refused, or 2 where it could not be read or its lines could not be written.

use bedside::{Detection, Settings, Tracker};
use std::io::{self, BufRead, BufWriter, StdoutLock, Write};
use std::process::ExitCode;

/// The bytes of a box record: the frame's number, then left, top, width, height and score, and the label.
const RECORD: usize = 25;
/// The most boxes of a frame.
const BOXES: usize = 64;
/// How far a frame number may be above the last one.
const AHEAD: u32 = 1000;

/// The stream's own refusals; those of a frame are the tracker's.
const RECORD_INCOMPLETE: u32 = 41;
const FRAME_BELOW: u32 = 42;
const FRAME_BEYOND: u32 = 43;
const TOO_MANY_BOXES: u32 = 44;

/// Why a night ends before its stream does.
enum End {
    Refused { number: u32, record: u64 },
    Unread(io::Error),
    Unwritten(io::Error),
}

/// What is known between two records.
struct Night {
    tracker: Tracker,
    lines: BufWriter<StdoutLock<'static>>,
    /// The number of the last record.
    record: u64,
    /// The frame that has records and is not worked yet; 0 before the first record.
    open: u32,
    /// The open frame's first record, and its boxes.
    first: u64,
    boxes: Vec<Detection>,
}

impl Night {
    fn new() -> Night {
        Night {
            tracker: Tracker::new(Settings::new(0.6, 0.3, 30, 3)),
            lines: BufWriter::new(io::stdout().lock()),
            record: 0,
            open: 0,
            first: 0,
            boxes: Vec::with_capacity(BOXES),
        }
    }

    /// The next frame, with the boxes held; where it is refused, it names this record.
    fn work_frame(&mut self, record: u64) -> Result<(), End> {
        let refused = |why: bedside::Refusal| End::Refused { number: why.number(), record };
        for track in self.tracker.update(&self.boxes).map_err(refused)? {
            writeln!(self.lines, "{track}").map_err(End::Unwritten)?;
        }
        self.boxes.clear();
        Ok(())
    }

    fn work_open_frame(&mut self) -> Result<(), End> {
        match self.open {
            0 => Ok(()),
            _ => self.work_frame(self.first),
        }
    }

    /// The open frame, then one without boxes for each number that no record has.
    fn work_frames_before(&mut self, frame: u32) -> Result<(), End> {
        self.work_open_frame()?;
        while self.tracker.frame_count() + 1 < u64::from(frame) {
            self.work_frame(self.record)?;
        }
        Ok(())
    }

    /// Why the stream cannot go on with a record of this frame.
    fn refusal_of(&self, frame: u32) -> Option<u32> {
        if frame == 0 || frame < self.open {
            return Some(FRAME_BELOW);
        }
        if frame - self.open > AHEAD {
            return Some(FRAME_BEYOND);
        }
        (frame == self.open && self.boxes.len() == BOXES).then_some(TOO_MANY_BOXES)
    }

    fn take(&mut self, frame: u32, detection: Detection) -> Result<(), End> {
        self.record += 1;
        if let Some(number) = self.refusal_of(frame) {
            return Err(End::Refused { number, record: self.record });
        }
        if self.open < frame {
            self.work_frames_before(frame)?;
            (self.open, self.first) = (frame, self.record);
        }
        self.boxes.push(detection);
        Ok(())
    }

    /// The whole stream.
    fn run(&mut self, input: &mut impl BufRead) -> Result<(), End> {
        while let Some(record) = read_record(input, self.record + 1)? {
            let (frame, detection) = parse(&record);
            self.take(frame, detection)?;
        }
        self.work_open_frame()
    }

    /// Writes what waits, and where the stream was refused the line that says so.
    fn finish(mut self, end: &Result<(), End>) -> io::Result<()> {
        if let Err(End::Refused { number, record }) = end {
            writeln!(self.lines, "refused {number} record {record}")?;
        }
        self.lines.flush()
    }
}

/// The record with this number; None at the end of the stream.
fn read_record(input: &mut impl BufRead, number: u64) -> Result<Option<[u8; RECORD]>, End> {
    let mut record = [0; RECORD];
    if input.fill_buf().map_err(End::Unread)?.is_empty() {
        return Ok(None);
    }
    match input.read_exact(&mut record) {
        Ok(()) => Ok(Some(record)),
        Err(e) if e.kind() == io::ErrorKind::UnexpectedEof => {
            Err(End::Refused { number: RECORD_INCOMPLETE, record: number })
        }
        Err(e) => Err(End::Unread(e)),
    }
}

fn parse(record: &[u8; RECORD]) -> (u32, Detection) {
    let word = |k: usize| u32::from_le_bytes(std::array::from_fn(|i| record[4 * k + i]));
    let [left, top, width, height, score] = [1, 2, 3, 4, 5].map(|k| f32::from_bits(word(k)));
    let mut detection = Detection::new(left, top, width, height, score);
    detection.label = record[24];
    (word(0), detection)
}

fn failed(stream: &str, why: &io::Error) -> ExitCode {
    eprintln!("night: standard {stream}: {why}");
    ExitCode::from(2)
}

fn main() -> ExitCode {
    let mut night = Night::new();
    let end = night.run(&mut io::stdin().lock());
    if let Err(End::Unwritten(why)) = &end {
        return failed("output", why);
    }
    if let Err(why) = night.finish(&end) {
        return failed("output", &why);
    }
    match end {
        Err(End::Unread(why)) => failed("input", &why),
        Err(_) => ExitCode::from(1),
        Ok(()) => ExitCode::SUCCESS,
    }
}
