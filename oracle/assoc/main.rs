//! The calls of crates/assoc_vectors:
//!
//!     stdin      the records that it reads
//!     vectors    what it has to print, by the published assoc.rs, with lapjv.rs and its two counts, of labels by the rule
//!                that is put into it; and for the calls that the port turns down, by the numbers of the scope document
//!                and of document 02

mod held;
mod labelled;
mod refused;

use held::Place;
use oracle::call::{self, Call, square};
use oracle::digest::Digest;
use oracle::drawn::{Slice, cells, corners};
use oracle::inputs::{self, KINDS};
use oracle::records::{Records, title};
use std::collections::HashMap;
use std::io::Write;

/// What goes into the input, and what has to be printed.
#[derive(Default)]
pub struct Lists {
    records: Records,
    text: String,
    /// What is held in each place.
    held: HashMap<Place, Vec<u32>>,
}

/// A side as a title has it.
fn side(n: usize) -> String {
    if n > 65535 { "many".to_string() } else { n.to_string() }
}

impl Lists {
    /// Unless it is held already.
    fn hold(&mut self, place: Place, slice: &Slice) {
        let bits: Vec<u32> = slice.floats.iter().map(|x| x.to_bits()).collect();
        if !self.held.get(&place).is_some_and(|held| held.starts_with(&bits)) {
            held::put(&mut self.records, place, slice);
            self.held.insert(place, bits);
        }
    }

    /// A call, its inputs held in these places.
    fn call(&mut self, name: &str, call: &Call, places: &[Place]) {
        let Call { routine, boxes, tracks, flags, .. } = *call;
        let flags = if routine == call::ASSOCIATE { format!(" {flags}") } else { String::new() };
        let name = format!("{} {name} {} {}{flags}", call::ROUTINES[routine], side(boxes), side(tracks));
        self.record(&name, call, places);
        self.line(&name, call);
    }

    fn record(&mut self, name: &str, call: &Call, places: &[Place]) {
        let records = &mut self.records;
        records.numbers(&[call.routine]);
        records.long(call.boxes as u64);
        records.numbers(&[call.tracks, call.flags]);
        records.floats(&call.floats);
        let range = |k: usize| places.get(k).map_or([0, 0], |place| place.range(call.inputs[k].len()));
        (0..5).for_each(|k| records.numbers(&range(k)));
        records.numbers(&[call.out]);
        (0..4).for_each(|k| records.numbers(&[call.lists.get(k).copied().unwrap_or(0)]));
        records.numbers(&call.work);
        if call.routine == call::ASSOCIATE {
            call.labels.iter().for_each(|labels| records.numbers(&[labels.len()]));
            call.labels.iter().for_each(|labels| records.bytes(labels));
        }
        records.title(name);
    }

    /// The refusal and the counts; digests of the inputs and of all that was lent.
    fn line(&mut self, name: &str, call: &Call) {
        let answer = call.answer();
        let said = if answer.words[0] == 0 { &answer.words[..] } else { &answer.words[..1] };
        let said: String = said.iter().map(|k| format!(" {k}")).collect();
        let given = call.inputs.iter().fold(Digest::new(), |sum, input| sum.floats(input));
        let given = call.labels.iter().fold(given, |sum, labels| sum.bytes(labels));
        let lists = answer.lists.iter().fold(Digest::new().floats(&answer.out), |sum, lent| sum.numbers(lent));
        let lent = lists.doubles(&answer.work64).floats(&answer.work32);
        self.text += &format!("{} |{said} | {:016x} {:016x}\n", title(name), given.0, lent.0);
    }
}

// ---- calls

/// The sides and the kind of what a call is given.
#[derive(Clone, Copy)]
pub struct Group {
    pub kind: usize,
    pub boxes: usize,
    pub tracks: usize,
}

/// A call of `associate`: lengths of detections, corners, distances, the confidences of tracks and of boxes, the four lists
/// and both work slices; and the labels of boxes and of tracks.
pub struct Association {
    pub flags: usize,
    pub lengths: [usize; 11],
    pub labels: [Vec<u8>; 2],
}

fn floats(slice: &Slice, length: usize) -> Vec<f32> {
    slice.floats[..length].to_vec()
}

impl Group {
    /// A call of a routine, without floats, lists and work slices.
    fn call(&self, routine: usize, inputs: Vec<Vec<f32>>) -> Call {
        let Group { boxes, tracks, .. } = *self;
        let labels = [vec![], vec![]];
        Call { routine, boxes, tracks, flags: 0, floats: [0.0; 4], inputs, labels, out: 0, lists: vec![], work: [0, 0] }
    }

    /// Detections and corners, and the confidences of tracks and of boxes, of these lengths.
    fn held_boxes(&self, lists: &mut Lists, lengths: [usize; 4]) -> [Slice; 4] {
        let Group { kind, boxes, tracks } = *self;
        let confidence = inputs::confidence_kind(kind);
        let all = [
            corners(inputs::DETECTIONS, kind, boxes, tracks, lengths[0]),
            corners(inputs::CORNERS, kind, boxes, tracks, lengths[1]),
            cells(inputs::TRACK_CONFIDENCE, confidence, boxes, tracks, lengths[2]),
            cells(inputs::DETECTION_CONFIDENCE, confidence, boxes, tracks, lengths[3]),
        ];
        let places = [held::DETECTIONS, held::CORNERS, held::TRACK_CONFIDENCE, held::DETECTION_CONFIDENCE];
        places.into_iter().zip(&all).for_each(|(place, slice)| lists.hold(place, slice));
        all
    }

    /// A matrix of a kind, held in its place.
    fn held_cells(&self, lists: &mut Lists, place: Place, slice: u64, kind: usize, length: usize) -> Slice {
        let slice = cells(slice, kind, self.boxes, self.tracks, length);
        lists.hold(place, &slice);
        slice
    }

    /// Lengths of detections, corners, confidences and out.
    pub fn measured(&self, lists: &mut Lists, name: &str, routines: &[usize], lengths: [usize; 4]) {
        let all = self.held_boxes(lists, [lengths[0], lengths[1], lengths[2], 0]);
        let places = [held::DETECTIONS, held::CORNERS, held::TRACK_CONFIDENCE];
        for &routine in routines {
            let inputs = all[..3].iter().map(|slice| slice.floats.clone()).collect();
            lists.call(name, &Call { out: lengths[3], ..self.call(routine, inputs) }, &places);
        }
    }

    /// Lengths of distance and out.
    pub fn softened(&self, lists: &mut Lists, name: &str, lengths: [usize; 2]) {
        let distance = self.held_cells(lists, held::DISTANCE, inputs::DISTANCE, self.kind, lengths[0]);
        let floats = [inputs::temperature(self.kind, self.boxes), 0.0, 0.0, 0.0];
        let call = self.call(call::SIMILARITY, vec![distance.floats]);
        lists.call(name, &Call { floats, out: lengths[1], ..call }, &[held::DISTANCE]);
    }

    fn threshold(&self) -> [f32; 4] {
        [inputs::threshold(self.kind, self.boxes), 0.0, 0.0, 0.0]
    }

    /// Lengths of cost, pair_boxes, pair_tracks and work.
    pub fn matched(&self, lists: &mut Lists, name: &str, lengths: [usize; 4]) {
        let cost = self.held_cells(lists, held::COST, inputs::COST, self.kind, lengths[0]);
        let (of_lists, work) = (lengths[1..3].to_vec(), [lengths[3], 0]);
        let call = self.call(call::MATCH, vec![cost.floats]);
        lists.call(name, &Call { floats: self.threshold(), lists: of_lists, work, ..call }, &[held::COST]);
    }

    /// Lengths of iou, cost, the four lists and work.
    pub fn assigned(&self, lists: &mut Lists, name: &str, lengths: [usize; 7]) {
        let iou = self.held_cells(lists, held::IOU, inputs::IOU, self.kind, lengths[0]);
        let cost = self.held_cells(lists, held::COST, inputs::COST, self.kind, lengths[1]);
        let (of_lists, work) = (lengths[2..6].to_vec(), [lengths[6], 0]);
        let call = self.call(call::ASSIGN, vec![iou.floats, cost.floats]);
        lists.call(name, &Call { floats: self.threshold(), lists: of_lists, work, ..call }, &[held::IOU, held::COST]);
    }

    pub fn associated(&self, lists: &mut Lists, name: &str, threshold: f32, calls: &[Association]) {
        let most = |k: usize| calls.iter().map(|call| call.lengths[k]).max().unwrap_or(0);
        let all = self.held_boxes(lists, [most(0), most(1), most(3), most(4)]);
        let far = inputs::distance_kind(self.kind, self.boxes);
        let distance = self.held_cells(lists, held::DISTANCE, inputs::DISTANCE, far, most(2));
        let places =
            [held::DETECTIONS, held::CORNERS, held::DISTANCE, held::TRACK_CONFIDENCE, held::DETECTION_CONFIDENCE];
        let slices = [&all[0], &all[1], &distance, &all[2], &all[3]];
        let weight = |which: u64, usual: f32| inputs::weight(self.kind, self.boxes, which, usual);
        let weights = [threshold, weight(0, 0.5), weight(1, 0.25), weight(2, 0.25)];
        for Association { flags, lengths, labels } in calls {
            let inputs = slices.iter().zip(lengths).map(|(slice, &length)| floats(slice, length)).collect();
            let (of_lists, work) = (lengths[5..9].to_vec(), [lengths[9], lengths[10]]);
            let (flags, labels, call) = (*flags, labels.clone(), self.call(call::ASSOCIATE, inputs));
            lists.call(name, &Call { flags, floats: weights, labels, lists: of_lists, work, ..call }, &places);
        }
    }

    // ---- the calls that are accepted

    /// How many cells a result or work slice has more than it needs.
    fn spare(&self) -> usize {
        (self.boxes + self.tracks) % 3
    }

    /// A call of `associate` with labels of these kinds.
    fn association(&self, flags: usize, labelling: usize) -> Association {
        let Group { kind, boxes, tracks } = *self;
        let (few, cells, more) = (boxes.min(tracks), square(boxes, tracks), self.spare());
        let distances = if flags % 2 == 1 { boxes * tracks } else { 3 };
        let sure = if flags / 2 % 2 == 1 { [tracks, boxes] } else { [2, 2] };
        let results = [few + more, few + more, boxes + more, tracks + more];
        let work = [cells + more, cells * 4 + more];
        let lengths = [&[boxes * 4, tracks * 4, distances][..], &sure, &results, &work].concat();
        let labels = [false, true].map(|of| inputs::labels(labelling, kind, of, if of { tracks } else { boxes }));
        Association { flags, lengths: lengths.try_into().expect("eleven"), labels }
    }

    /// One label everywhere.
    fn each_flag(&self, lists: &mut Lists) {
        let calls: Vec<Association> = (0..8).map(|flags| self.association(flags, 0)).collect();
        self.associated(lists, KINDS[self.kind], self.threshold()[0], &calls);
    }

    fn each_routine(&self, lists: &mut Lists) {
        let Group { kind, boxes, tracks } = *self;
        let (few, cells, more) = (boxes.min(tracks), boxes * tracks, self.spare());
        let work = square(boxes, tracks) + more;
        let name = KINDS[kind];
        self.softened(lists, name, [cells, cells + more]);
        self.matched(lists, name, [cells, few + more, few + more, work]);
        let of_lists = [few + more, few + more, boxes + more, tracks + more];
        self.assigned(lists, name, [&[cells, cells][..], &of_lists, &[work]].concat().try_into().expect("seven"));
        if kind < inputs::BOX_KINDS && (boxes + kind) % 3 == 0 {
            self.measured(lists, name, &[0, 1, 2, 3], [boxes * 4, tracks * 4, tracks, cells + more]);
            self.each_flag(lists);
        }
    }
}

fn accepted(lists: &mut Lists) {
    let small = (0..21).map(|k| (k, (k * 8 + 5) % 21));
    let large = [(64, 64), (17, 64), (64, 20), (255, 255), (64, 255), (255, 64)];
    for (boxes, tracks) in small.chain(large) {
        (0..KINDS.len()).for_each(|kind| Group { kind, boxes, tracks }.each_routine(lists));
    }
}

fn main() {
    let mut lists = Lists::default();
    accepted(&mut lists);
    refused::all(&mut lists);
    labelled::all(&mut lists);
    let out = match std::env::args().nth(1).as_deref() {
        Some("stdin") => lists.records.0,
        Some("vectors") => lists.text.into_bytes(),
        _ => panic!("stdin or vectors"),
    };
    std::io::stdout().write_all(&out).expect("what is printed");
}
