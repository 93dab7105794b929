//! The tracker, the boxes that it takes and the tracks that it puts out.

use crate::{ffi, Counts, Explanation, Refusal, Settings};
use alloc::boxed::Box;
use alloc::vec;
use core::fmt;
use core::iter::FusedIterator;
use core::slice::ChunksExact;

/// The most tracks of a table, and boxes of a frame.
const MOST: usize = 255;

/// Who a box shows and a track follows: a box and a track of different labels are never paired.
#[derive(Clone, Copy, Debug, Default, PartialEq, Eq, Hash)]
#[repr(u8)]
pub enum Label {
    /// 1
    #[default]
    Sleeper = 1,
    /// 2
    Partner = 2,
    /// 3
    Staff = 3,
}

impl Label {
    /// The label of a number, which is the byte of a record; None for a number other than 1 to 3.
    #[must_use]
    pub const fn of(number: u8) -> Option<Label> {
        match number {
            1 => Some(Label::Sleeper),
            2 => Some(Label::Partner),
            3 => Some(Label::Staff),
            _ => None,
        }
    }

    /// 1 to 3.
    #[must_use]
    pub const fn number(self) -> u8 {
        self as u8
    }
}

/// A box that a detector found, with its score and its label.
#[derive(Clone, Copy, Debug, PartialEq)]
#[non_exhaustive]
pub struct Detection {
    /// The left edge, at most 65536 in magnitude.
    pub left: f32,
    /// The top edge, at most 65536 in magnitude.
    pub top: f32,
    /// The width, above 0 and at most 65536.
    pub width: f32,
    /// The height, above 0 and at most 65536.
    pub height: f32,
    /// The score, 0 to 1.
    pub score: f32,
    /// The number of its [`Label`], 1 to 3: a byte, as a record has it.
    pub label: u8,
}

impl Detection {
    /// A box of a sleeper by its left and top edge, its width, its height and its score. Values outside what the
    /// fields allow are refused by [`Tracker::update`].
    #[must_use]
    pub const fn new(left: f32, top: f32, width: f32, height: f32, score: f32) -> Detection {
        Detection { left, top, width, height, score, label: Label::Sleeper.number() }
    }

    /// The same box with this label.
    ///
    /// ```
    /// use bedside::{Detection, Label};
    ///
    /// let nurse = Detection::new(10.0, 20.0, 32.0, 64.0, 0.75).labelled(Label::Staff);
    /// assert_eq!(nurse.label, 3);
    /// ```
    #[must_use]
    pub const fn labelled(self, label: Label) -> Detection {
        Detection { label: label.number(), ..self }
    }
}

/// A track that a frame puts out. It is printed as the program `trackbox` prints it: frame and id in decimal,
/// then the bits of the five floats, and no label.
#[derive(Clone, Copy, Debug, PartialEq)]
#[non_exhaustive]
pub struct Track {
    /// The frame's number, from 1 on.
    pub frame: u32,
    /// The track's id, from 1 on.
    pub id: u64,
    /// The left edge.
    pub left: f32,
    /// The top edge.
    pub top: f32,
    /// The width.
    pub width: f32,
    /// The height.
    pub height: f32,
    /// The confidence, which grows with the track's age and can be above 1: 1.11 just after a match, or with
    /// [`with_cap_confidence`](Settings::with_cap_confidence) 1 then.
    pub confidence: f32,
    /// The label, which is that of the box that started the track.
    pub label: Label,
}

impl Track {
    /// The bytes of a track record.
    pub const RECORD_LEN: usize = 33;

    /// Of a record of these many bytes.
    fn read(record: &[u8]) -> Track {
        let word = |at: usize| [record[at], record[at + 1], record[at + 2], record[at + 3]];
        let float = |at| f32::from_le_bytes(word(at));
        let (low, high) = (u32::from_le_bytes(word(4)), u32::from_le_bytes(word(8)));
        Track {
            frame: u32::from_le_bytes(word(0)),
            id: u64::from(high) << 32 | u64::from(low),
            left: float(12),
            top: float(16),
            width: float(20),
            height: float(24),
            confidence: float(28),
            label: Label::of(record[32]).expect("a frame is turned down for any other label"),
        }
    }
}

impl fmt::Display for Track {
    fn fmt(&self, f: &mut fmt::Formatter<'_>) -> fmt::Result {
        write!(f, "{} {}", self.frame, self.id)?;
        let floats = [self.left, self.top, self.width, self.height, self.confidence];
        floats.iter().try_for_each(|float| write!(f, " {:08x}", float.to_bits()))
    }
}

/// The tracks that a frame puts out, in the order of the table. They are read as they are asked for.
#[derive(Clone, Debug)]
pub struct Tracks<'a> {
    records: &'a [u8],
    left: ChunksExact<'a, u8>,
    counts: Counts,
}

impl<'a> Tracks<'a> {
    /// How long the frame's assignment took.
    #[must_use]
    pub fn counts(&self) -> Counts {
        self.counts
    }

    /// All of the frame's track records as they stand in a file, [`Track::RECORD_LEN`] bytes each, little-endian:
    /// frame (4 bytes), id (8), left, top, width, height and confidence (4 each), label (1).
    #[must_use]
    pub fn records(&self) -> &'a [u8] {
        self.records
    }
}

impl Iterator for Tracks<'_> {
    type Item = Track;

    fn next(&mut self) -> Option<Track> {
        self.left.next().map(Track::read)
    }

    fn size_hint(&self) -> (usize, Option<usize>) {
        self.left.size_hint()
    }
}

impl DoubleEndedIterator for Tracks<'_> {
    fn next_back(&mut self) -> Option<Track> {
        self.left.next_back().map(Track::read)
    }
}

impl ExactSizeIterator for Tracks<'_> {}

impl FusedIterator for Tracks<'_> {}

/// What the library is lent for a frame.
#[derive(Clone)]
struct Memory {
    floats: Box<[f32]>,
    counters: Box<[u64]>,
    labels: Box<[u8]>,
    boxes: Box<[f32]>,
    box_labels: Box<[u8]>,
    out: Box<[u8]>,
    work64: Box<[f64]>,
    work32: Box<[f32]>,
}

impl Memory {
    /// For a table of so many places. Held tracks and boxes together are no more than these in a frame that is
    /// accepted, so the output has a record for each, and neither side of the pairing is larger.
    fn new(places: usize) -> Memory {
        Memory {
            floats: vec![0.0; 24 * places].into_boxed_slice(),
            counters: vec![0; 4 * places].into_boxed_slice(),
            labels: vec![0; places].into_boxed_slice(),
            boxes: vec![0.0; 5 * (MOST + 1)].into_boxed_slice(),
            box_labels: vec![0; MOST + 1].into_boxed_slice(),
            out: vec![0; Track::RECORD_LEN * places].into_boxed_slice(),
            work64: vec![0.0; places * places].into_boxed_slice(),
            work32: vec![0.0; 4 * places * places].into_boxed_slice(),
        }
    }

    fn places(&self) -> usize {
        self.counters.len() / 4
    }

    fn table(&mut self) -> ffi::Table<'_> {
        ffi::Table { floats: &mut self.floats, counters: &mut self.counters, labels: &mut self.labels }
    }

    /// Takes the boxes, and lends what a frame with so many held tracks needs: work memory that is lent is
    /// cleared, which takes longer than a small frame. Of more than 255 boxes, 256 are enough to be refused.
    fn lend(&mut self, held: usize, boxes: &[Detection]) -> ffi::Lent<'_> {
        let places = self.boxes.chunks_exact_mut(5).zip(&mut self.box_labels);
        for ((place, label), b) in places.zip(boxes) {
            place.copy_from_slice(&[b.left, b.top, b.width, b.height, b.score]);
            *label = b.label;
        }
        let side = held.max(boxes.len()).min(self.places());
        let given = boxes.len().min(MOST + 1);
        ffi::Lent {
            floats: &mut self.floats,
            counters: &mut self.counters,
            labels: &mut self.labels,
            boxes: &self.boxes[..5 * given],
            box_labels: &self.box_labels[..given],
            out: &mut self.out,
            work64: &mut self.work64[..side * side],
            work32: &mut self.work32[..4 * side * side],
        }
    }
}

/// A tracker with its memory: the table of tracks and what a frame's work needs, allocated when it is made.
///
/// ```
/// use bedside::{Detection, Refusal, Settings, Tracker};
///
/// let mut tracker = Tracker::new(Settings::new(0.6, 0.3, 30, 3));
/// let sleeper = |left| Detection::new(left, 20.0, 32.0, 64.0, 0.75);
///
/// let first = tracker.update(&[sleeper(10.0)])?.next().expect("a track in the first frames");
/// let second = tracker.update(&[sleeper(11.0)])?.next().expect("a track in the first frames");
/// assert_eq!(first.id, second.id);
///
/// // a frame that is turned down changes nothing
/// let refusal = tracker.update(&[sleeper(11.0), sleeper(f32::NAN)]).unwrap_err();
/// assert_eq!(refusal, Refusal::BadBox { index: 1 });
/// assert_eq!((tracker.frame_count(), tracker.held_tracks(), tracker.last_id()), (2, 1, 1));
/// # Ok::<(), Refusal>(())
/// ```
#[derive(Clone)]
pub struct Tracker {
    settings: Settings,
    state: ffi::State,
    memory: Memory,
}

impl Tracker {
    /// A tracker with a table of 64 places, as that of the program `trackbox`.
    #[must_use]
    pub fn new(settings: Settings) -> Tracker {
        Tracker::with_capacity(settings, 64)
    }

    /// A tracker with a table of so many places, at most 255; a larger number counts as 255.
    ///
    /// A frame needs a place for each held track and one for each of its boxes: where up to 10 tracks are held
    /// and a detector finds up to 12 boxes, 22 places are enough for every frame. Work memory grows with the
    /// square: 64 places take 0.1 MB in all, 255 take 1.6 MB.
    #[must_use]
    pub fn with_capacity(settings: Settings, places: usize) -> Tracker {
        Tracker { settings, state: ffi::State::default(), memory: Memory::new(places.min(MOST)) }
    }

    /// Works the next frame, with these boxes, and gives the tracks that it puts out. A frame without a box is a
    /// frame too: call it with an empty slice. It takes 38 KiB of stack, and allocates nothing.
    ///
    /// # Errors
    ///
    /// Why the frame is turned down. Nothing has changed then: the frame is not counted, and the next call is as
    /// if this one had not been.
    pub fn update(&mut self, boxes: &[Detection]) -> Result<Tracks<'_>, Refusal> {
        let answer = ffi::update(self.settings.0, self.state, self.memory.lend(self.held_tracks(), boxes));
        if answer.refusal != 0 {
            return Err(Refusal::of(answer.refusal, answer.index));
        }
        self.state = answer.state;
        let records = &self.memory.out[..Track::RECORD_LEN * answer.emitted as usize];
        let counts = Counts { turns: answer.turns, scans: answer.scans };
        Ok(Tracks { records, left: records.chunks_exact(Track::RECORD_LEN), counts })
    }

    /// What the next frame would do with box `index` of these boxes: which track it would go to or start, or why it
    /// would be dropped. Nothing is worked: table, frame count and the last frame's records stay as they are.
    ///
    /// ```
    /// use bedside::{Detection, Fate, Settings, Tracker};
    ///
    /// let mut tracker = Tracker::new(Settings::new(0.6, 0.3, 30, 3));
    /// let sleeper = Detection::new(10.0, 20.0, 32.0, 64.0, 0.75);
    /// tracker.update(&[sleeper])?;
    ///
    /// let boxes = [sleeper, Detection::new(200.0, 20.0, 32.0, 64.0, 0.75)];
    /// assert_eq!(tracker.why(&boxes, 0)?.fate, Fate::Matched { id: 1 });
    /// assert_eq!(tracker.why(&boxes, 1)?.fate, Fate::Started { id: 2 });
    /// assert_eq!(tracker.frame_count(), 1);
    /// # Ok::<(), bedside::Refusal>(())
    /// ```
    ///
    /// # Errors
    ///
    /// Why a frame with these boxes would be turned down; then [`Refusal::NoBox`] for an index that is not below
    /// their number.
    pub fn why(&mut self, boxes: &[Detection], index: usize) -> Result<Explanation, Refusal> {
        let lent = self.memory.lend(self.held_tracks(), boxes);
        let answer = ffi::why(self.settings.0, self.state, lent, index);
        if answer.refusal != 0 {
            return Err(Refusal::of(answer.refusal, answer.index));
        }
        Ok(Explanation::of(&answer))
    }

    /// Drops the track with this id, as when the bed is empty and a ghost is left. The other tracks go on as they
    /// are, and no id is given again before a [`reset`](Tracker::reset). It allocates nothing.
    ///
    /// # Errors
    ///
    /// [`Refusal::IdNotHeld`] where no held track has it ([`held_ids`](Tracker::held_ids)). Nothing has changed
    /// then.
    pub fn forget(&mut self, id: u64) -> Result<(), Refusal> {
        let answer = ffi::forget(self.state, self.memory.table(), id);
        self.forgotten(answer)
    }

    /// Drops the tracks with these ids, all of them or none; an empty list changes nothing. Where it is accepted, it
    /// leaves what dropping them one by one leaves, in whatever order.
    ///
    /// ```
    /// use bedside::{Detection, Refusal, Settings, Tracker};
    ///
    /// let mut tracker = Tracker::new(Settings::new(0.6, 0.3, 30, 3));
    /// let box_at = |left| Detection::new(left, 20.0, 32.0, 64.0, 0.75);
    /// tracker.update(&[box_at(10.0), box_at(110.0), box_at(210.0)])?;
    ///
    /// assert_eq!(tracker.forget_set(&[3, 1, 3]), Err(Refusal::IdTwice));
    /// assert_eq!(tracker.forget_set(&[3, 4]), Err(Refusal::IdNotHeld));
    /// tracker.forget_set(&[3, 1])?;
    /// assert!(tracker.held_ids().eq([2]));
    /// assert_eq!(tracker.last_id(), 3);
    /// # Ok::<(), Refusal>(())
    /// ```
    ///
    /// A list of more ids than tracks are held is always turned away, but with which of the two numbers takes
    /// m (m − 1) / 2 looks at an id for m ids none of which stands twice: a caller whose lists come from elsewhere
    /// compares their length with [`held_tracks`](Tracker::held_tracks) before.
    ///
    /// # Errors
    ///
    /// [`Refusal::IdTwice`] where an id stands twice in the list, and then [`Refusal::IdNotHeld`] where one is not
    /// held. Nothing has changed then.
    pub fn forget_set(&mut self, ids: &[u64]) -> Result<(), Refusal> {
        let answer = ffi::forget_set(self.state, self.memory.table(), ids);
        self.forgotten(answer)
    }

    fn forgotten(&mut self, answer: ffi::ForgetAnswer) -> Result<(), Refusal> {
        if answer.refusal != 0 {
            return Err(Refusal::of(answer.refusal, 0));
        }
        self.state = answer.state;
        Ok(())
    }

    /// The ids of the held tracks, rising.
    pub fn held_ids(&self) -> impl ExactSizeIterator<Item = u64> + '_ {
        self.memory.counters.chunks_exact(4).take(self.held_tracks()).map(|place| place[0])
    }

    /// The frames worked so far, which is the number of the last one.
    #[must_use]
    pub fn frame_count(&self) -> u64 {
        self.state.frame_count
    }

    /// The tracks that are held, those without a box in the last frame included.
    #[must_use]
    pub fn held_tracks(&self) -> usize {
        self.state.count as usize
    }

    /// The last id that was given, which is the number of all tracks so far; 0 before the first.
    #[must_use]
    pub fn last_id(&self) -> u64 {
        self.state.last_id
    }

    /// The places of the table.
    #[must_use]
    pub fn capacity(&self) -> usize {
        self.memory.places()
    }

    /// The settings of the next frame.
    #[must_use]
    pub fn settings(&self) -> Settings {
        self.settings
    }

    /// Changes the settings from the next frame on.
    pub fn set_settings(&mut self, settings: Settings) {
        self.settings = settings;
    }

    /// Starts anew, in the same memory: no track is held, and frames and ids count from 1 again.
    pub fn reset(&mut self) {
        self.state = ffi::State::default();
    }
}

impl fmt::Debug for Tracker {
    fn fmt(&self, f: &mut fmt::Formatter<'_>) -> fmt::Result {
        f.debug_struct("Tracker")
            .field("settings", &self.settings)
            .field("frame_count", &self.frame_count())
            .field("held_tracks", &self.held_tracks())
            .field("last_id", &self.last_id())
            .field("capacity", &self.capacity())
            .finish()
    }
}

/// The refusals that no caller of the safe interface meets: each after a change to what a tracker keeps to
/// itself.
#[cfg(test)]
mod tests {
    use super::{Detection, Tracker};
    use crate::{ffi, Refusal, Settings};
    use std::boxed::Box;

    /// Held after one frame: a track at place 0.
    fn tracker() -> Tracker {
        let mut tracker = Tracker::new(Settings::new(0.6, 0.3, 30, 3));
        assert_eq!(tracker.update(&[BOX]).map(|tracks| tracks.len()), Ok(1));
        tracker
    }

    const BOX: Detection = Detection::new(10.0, 20.0, 32.0, 64.0, 0.75);

    fn refusal_after(change: impl Fn(&mut Tracker)) -> Option<Refusal> {
        let mut tracker = tracker();
        change(&mut tracker);
        let (state, floats) = (tracker.state, tracker.memory.floats.clone());
        let refusal = tracker.update(&[BOX]).err();
        assert_eq!(tracker.state, state);
        // bits, as a NaN differs from itself
        assert!(tracker.memory.floats.iter().map(|x| x.to_bits()).eq(floats.iter().map(|x| x.to_bits())));
        refusal
    }

    #[test]
    fn a_table_that_is_not_sound() {
        assert_eq!(refusal_after(|t| t.state.count = 65), Some(Refusal::TableNotSound));
        assert_eq!(refusal_after(|t| t.memory.counters[0] = 0), Some(Refusal::TableNotSound));
    }

    #[test]
    fn a_track_whose_label_is_none() {
        for label in [0, 4, 255] {
            let refusal = refusal_after(|t| t.memory.labels[0] = label);
            assert_eq!(refusal, Some(Refusal::TrackNotLabelled));
        }
        // 11 is said before 10, and 10 before 12
        let both = |t: &mut Tracker| (t.memory.labels[0], t.memory.counters[0]) = (0, 0);
        assert_eq!(refusal_after(both), Some(Refusal::TableNotSound));
        let both = |t: &mut Tracker| (t.memory.labels[0], t.memory.floats[0]) = (0, f32::NAN);
        assert_eq!(refusal_after(both), Some(Refusal::TrackNotLabelled));
        // places are as many as there are labels
        assert_eq!(refusal_after(|t| t.memory.labels = Box::new([])), Some(Refusal::TableNotSound));
        assert_eq!(refusal_after(|t| t.memory.labels = Box::new([1])), Some(Refusal::TableFull));
    }

    #[test]
    fn a_drop_from_a_table_that_is_not_sound() {
        let refusal_of = |change: &dyn Fn(&mut Tracker), ids: &[u64]| {
            let mut tracker = tracker();
            change(&mut tracker);
            let (state, counters) = (tracker.state, tracker.memory.counters.clone());
            let refusal = tracker.forget_set(ids).err();
            assert_eq!((tracker.state, &tracker.memory.counters), (state, &counters));
            refusal
        };
        // 11, then 10, then 101, then 102, the first two also with an empty list
        let both = |t: &mut Tracker| (t.memory.labels[0], t.state.count) = (0, 65);
        for ids in [&[][..], &[1], &[2], &[2, 2]] {
            assert_eq!(refusal_of(&both, ids), Some(Refusal::TableNotSound));
            assert_eq!(refusal_of(&|t| t.memory.labels[0] = 4, ids), Some(Refusal::TrackNotLabelled));
        }
        assert_eq!(refusal_of(&|_| {}, &[2, 2]), Some(Refusal::IdTwice));
        assert_eq!(refusal_of(&|_| {}, &[2]), Some(Refusal::IdNotHeld));
        // what a frame would be turned down for and a drop is not
        assert_eq!(refusal_of(&|t| t.memory.floats[0] = f32::NAN, &[]), None);
    }

    #[test]
    fn an_empty_list_leaves_the_places_beyond_as_they_are() {
        let mut tracker = tracker();
        tracker.memory.counters[4..8].fill(9);
        assert_eq!(tracker.forget_set(&[]), Ok(()));
        assert_eq!(tracker.memory.counters[4..8], [9; 4]);
        assert_eq!(tracker.forget(1), Ok(()));
        assert!(tracker.memory.floats.iter().all(|&x| x == 0.0));
        assert!(tracker.memory.counters.iter().all(|&k| k == 0));
        assert!(tracker.memory.labels.iter().all(|&k| k == 0));
    }

    #[test]
    fn a_track_that_is_not_workable() {
        assert_eq!(refusal_after(|t| t.memory.floats[0] = f32::NAN), Some(Refusal::TrackNotWorkable));
        assert_eq!(refusal_after(|t| t.memory.floats[2] = -1e9), Some(Refusal::TrackNotWorkable));
    }

    #[test]
    fn the_last_frame() {
        assert_eq!(refusal_after(|t| t.state.frame_count = 2147483647), Some(Refusal::TooManyFrames));
        let mut tracker = tracker();
        tracker.state.frame_count = 2147483646;
        assert!(tracker.update(&[]).is_ok());
        assert_eq!(tracker.frame_count(), 2147483647);
    }

    #[test]
    fn short_work() {
        let mut tracker = tracker();
        for which in [0, 1] {
            let mut lent = tracker.memory.lend(1, &[BOX]);
            match which {
                0 => lent.work64 = &mut [],
                _ => lent.work32 = &mut [],
            }
            let answer = ffi::update(tracker.settings.0, tracker.state, lent);
            assert_eq!(Refusal::of(answer.refusal, answer.index), Refusal::WorkShort);
        }
    }

    #[test]
    fn a_short_output() {
        assert_eq!(refusal_after(|t| t.memory.out = Box::new([0; 63])), Some(Refusal::OutputShort));
        // room for a record of each held track and each box is enough
        assert_eq!(refusal_after(|t| t.memory.out = Box::new([0; 65])), Some(Refusal::OutputShort));
        let mut tracker = tracker();
        tracker.memory.out = Box::new([0; 66]);
        assert!(tracker.update(&[BOX]).is_ok());
    }
}
