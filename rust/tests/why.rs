//! Why a box has no track: what is told of a box, and what the frame then does with it.

use bedside::{Detection, Explanation, Fate, Label, Refusal, Settings, Tracker};

const SLEEPER: Detection = Detection::new(10.0, 20.0, 32.0, 64.0, 0.75);

fn settings() -> Settings {
    Settings::new(0.6, 0.3, 30, 3)
}

/// Numbers that look random, the same in each run.
struct Numbers(u32);

impl Numbers {
    /// From 0 to below 1.
    fn chance(&mut self) -> f32 {
        self.0 = self.0.wrapping_mul(1664525).wrapping_add(1013904223);
        (self.0 >> 8) as f32 / 16777216.0
    }

    /// Up to eight boxes in a small room, with any score and any label.
    fn boxes(&mut self) -> Vec<Detection> {
        let many = (9.0 * self.chance()) as usize;
        let mut one = || {
            let [left, top] = [80.0 * self.chance(), 40.0 * self.chance()];
            let [width, height] = [20.0 + 30.0 * self.chance(), 40.0 + 40.0 * self.chance()];
            let label = Label::of(1 + (3.0 * self.chance()) as u8).expect("a label");
            Detection::new(left, top, width, height, self.chance()).labelled(label)
        };
        (0..many).map(|_| one()).collect()
    }
}

fn told(tracker: &mut Tracker, boxes: &[Detection]) -> Vec<Explanation> {
    (0..boxes.len()).map(|k| tracker.why(boxes, k).expect("an accepted frame")).collect()
}

/// What is told of one box by itself.
fn consistent(e: &Explanation, one: &Detection) {
    assert_eq!(e.score, one.score);
    assert!(e.score_dlo >= e.score && e.score_duo >= e.score_dlo);
    assert_eq!(e.score_duo >= 0.6, e.fate != Fate::UnderThreshold);
    match (e.fate, e.paired) {
        (Fate::Matched { id }, Some(with)) => assert!(with.id == id && with.iou >= 0.3),
        (Fate::Rejected { id }, Some(with)) => assert!(with.id < id && !(with.iou >= 0.3)),
        (Fate::Started { .. } | Fate::UnderThreshold, None) => {}
        other => panic!("{other:?}"),
    }
}

/// With min_hits 0 a frame puts out every track that it corrects or starts, so the ids told are those put out.
#[test]
fn what_is_told_is_what_the_frame_does() {
    let mut numbers = Numbers(1);
    let mut tracker = Tracker::new(Settings::new(0.6, 0.3, 8, 0));
    let mut seen = [0; 5];
    for _ in 0..600 {
        let boxes = numbers.boxes();
        let (before, last) = (tracker.frame_count(), tracker.last_id());
        let all = told(&mut tracker, &boxes);
        assert_eq!((tracker.frame_count(), tracker.last_id()), (before, last));
        let out: Vec<(u64, u8)> =
            tracker.update(&boxes).expect("an accepted frame").map(|t| (t.id, t.label.number())).collect();
        let mut ids: Vec<(u64, u8)> =
            all.iter().zip(&boxes).filter_map(|(e, b)| Some((e.fate.id()?, b.label))).collect();
        ids.sort();
        assert_eq!(out, ids);
        let new =
            all.iter().filter(|e| matches!(e.fate, Fate::Started { .. } | Fate::Rejected { .. })).count();
        assert_eq!(tracker.last_id(), last + new as u64);
        all.iter().zip(&boxes).for_each(|(e, one)| consistent(e, one));
        all.iter().for_each(|e| seen[e.fate.number() as usize] += 1);
    }
    assert!(seen[1..].iter().all(|&many| many > 0), "{seen:?}");
}

/// A question leaves the tracker as it was: one that is asked goes on as one that is not.
#[test]
fn questions_change_nothing() {
    let mut numbers = Numbers(7);
    let (mut asked, mut other) = (Tracker::new(settings()), Tracker::new(settings()));
    for _ in 0..100 {
        let boxes = numbers.boxes();
        told(&mut asked, &boxes);
        let _ = asked.why(&boxes, boxes.len());
        let lines = |tracker: &mut Tracker| tracker.update(&boxes).expect("accepted").records().to_vec();
        assert_eq!(lines(&mut asked), lines(&mut other));
    }
}

#[test]
fn each_fate() {
    let mut tracker = Tracker::new(settings());
    let far = Detection::new(300.0, 20.0, 32.0, 64.0, 0.75);
    let faint = Detection::new(26.0, 20.0, 32.0, 64.0, 0.25);
    assert_eq!(tracker.why(&[SLEEPER], 0).map(|e| e.fate), Ok(Fate::Started { id: 1 }));
    tracker.update(&[SLEEPER]).expect("an accepted frame");
    let boxes = [faint, far, SLEEPER];
    let all = told(&mut tracker, &boxes);
    let fates: Vec<Fate> = all.iter().map(|e| e.fate).collect();
    assert_eq!(fates, [Fate::UnderThreshold, Fate::Started { id: 2 }, Fate::Matched { id: 1 }]);
    let with = all[2].paired.expect("a matched box has a pair");
    assert_eq!((with.id, with.iou), (1, with.intersection / with.union_area));
    assert!(with.iou > 0.99);
    assert_eq!((all[0].paired, all[1].paired), (None, None));
    assert_eq!((all[0].score, all[0].fate.id(), all[2].fate.number()), (0.25, None, 1));
}

#[test]
fn refused_81_an_index_behind_the_boxes_and_after_the_frames_own() {
    let mut tracker = Tracker::new(settings());
    assert_eq!(tracker.why(&[], 0), Err(Refusal::NoBox));
    assert!(tracker.why(&[SLEEPER], 0).is_ok());
    for index in [1, 2, 255, usize::MAX] {
        assert_eq!(tracker.why(&[SLEEPER], index), Err(Refusal::NoBox));
    }
    let mut bad = SLEEPER;
    bad.width = 0.0;
    assert_eq!(tracker.why(&[SLEEPER, bad], 0), Err(Refusal::BadBox { index: 1 }));
    assert_eq!(tracker.why(&[SLEEPER, bad], 2), Err(Refusal::BadBox { index: 1 }));
    assert_eq!(tracker.why(&[SLEEPER; 256], 900), Err(Refusal::TooManyBoxes));
    assert_eq!(tracker.why(&[SLEEPER; 65], 900), Err(Refusal::TableFull));
    assert_eq!(Refusal::NoBox.to_string(), "refused 81: the frame has no box of this index");
    assert_eq!((Refusal::NoBox.number(), tracker.frame_count()), (81, 0));
}
