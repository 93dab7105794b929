//! Frames through a tracker: what is put out, and when a frame is turned down.

use bedside::{Counts, Detection, Label, Refusal, Settings, Track, Tracker};

const SLEEPER: Detection = Detection::new(10.0, 20.0, 32.0, 64.0, 0.75);

fn settings() -> Settings {
    Settings::new(0.6, 0.3, 30, 3)
}

/// `count` boxes side by side, none over another.
fn row(count: usize) -> Vec<Detection> {
    (0..count).map(|k| Detection::new(50.0 * k as f32, 20.0, 32.0, 64.0, 0.75)).collect()
}

fn tracks(tracker: &mut Tracker, boxes: &[Detection]) -> Vec<Track> {
    tracker.update(boxes).expect("an accepted frame").collect()
}

#[test]
fn the_scope_documents_example() {
    let mut tracker = Tracker::new(settings());
    let out = tracks(&mut tracker, &[SLEEPER]);
    assert_eq!(out.len(), 1);
    assert_eq!(out[0].to_string(), "1 1 41200000 41a00000 42000000 42800000 3ef4e351");
    assert_eq!((out[0].frame, out[0].id), (1, 1));
    let place = [out[0].left, out[0].top, out[0].width, out[0].height];
    assert_eq!(place, [10.0, 20.0, 32.0, 64.0]);
    assert_eq!(out[0].confidence.to_bits(), 0x3ef4e351);
    assert_eq!(out[0].label, Label::Sleeper);
}

/// Box k has label k mod 3 + 1.
fn labelled_row(count: usize) -> Vec<Detection> {
    let label = |k: usize| Label::of((k % 3) as u8 + 1).expect("a label");
    row(count).into_iter().enumerate().map(|(k, one)| one.labelled(label(k))).collect()
}

#[test]
fn a_nurse_does_not_take_the_sleepers_id() {
    let nurse = Detection::new(11.0, 20.0, 32.0, 64.0, 0.875).labelled(Label::Staff);
    let mut tracker = Tracker::new(Settings::new(0.6, 0.3, 30, 0));
    assert_eq!(tracks(&mut tracker, &[SLEEPER])[0].id, 1);
    for _ in 0..5 {
        let out = tracks(&mut tracker, &[nurse]);
        assert_eq!(out.iter().map(|t| (t.id, t.label)).collect::<Vec<_>>(), [(2, Label::Staff)]);
    }
    let out = tracks(&mut tracker, &[nurse, SLEEPER]);
    let ids: Vec<_> = out.iter().map(|t| (t.id, t.label)).collect();
    assert_eq!(ids, [(1, Label::Sleeper), (2, Label::Staff)]);
    // with one label they are one track
    let mut plain = Tracker::new(Settings::new(0.6, 0.3, 30, 0));
    tracks(&mut plain, &[SLEEPER]);
    assert_eq!(tracks(&mut plain, &[nurse.labelled(Label::Sleeper)])[0].id, 1);
}

#[test]
fn a_track_keeps_the_label_of_its_first_box() {
    let mut tracker = Tracker::new(settings());
    for _ in 0..3 {
        let out = tracks(&mut tracker, &labelled_row(7));
        assert_eq!(out.iter().map(|t| t.label.number()).collect::<Vec<_>>(), [1, 2, 3, 1, 2, 3, 1]);
        assert_eq!(tracker.last_id(), 7);
    }
    // boxes in another order, with their labels: the same tracks
    let turned: Vec<_> = labelled_row(7).into_iter().rev().collect();
    let out = tracks(&mut tracker, &turned);
    let ids: Vec<_> = out.iter().map(|t| (t.id, t.label.number())).collect();
    assert_eq!(ids, (1..=7).zip([1, 2, 3, 1, 2, 3, 1]).collect::<Vec<_>>());
}

#[test]
fn one_label_everywhere_is_as_another() {
    let frames = |label: Label| {
        let mut tracker = Tracker::new(settings());
        let boxes = |count| row(count).into_iter().map(|one| one.labelled(label)).collect::<Vec<_>>();
        let lines = |track: Track| track.to_string();
        [2, 3, 0, 5, 1, 4]
            .map(|count| tracker.update(&boxes(count)).expect("accepted").map(lines).collect::<Vec<_>>())
    };
    assert_eq!(frames(Label::Sleeper), frames(Label::Partner));
    assert_eq!(frames(Label::Sleeper), frames(Label::Staff));
}

#[test]
fn a_capped_confidence_is_at_most_one_and_all_else_the_same() {
    let mut plain = Tracker::new(settings());
    let mut capped = Tracker::new(settings().with_cap_confidence(true));
    for frame in 1..=12 {
        let (was, is) = (tracks(&mut plain, &row(3)), tracks(&mut capped, &row(3)));
        assert_eq!(was[0].confidence > 1.0, frame > 7);
        let rule = |mut track: Track| {
            track.confidence = track.confidence.min(1.0);
            track
        };
        assert_eq!(is, was.into_iter().map(rule).collect::<Vec<_>>());
        assert_eq!(capped.last_id(), plain.last_id());
    }
}

#[test]
fn what_is_known_beside_the_tracks() {
    let mut tracker = Tracker::new(settings());
    assert_eq!((tracker.frame_count(), tracker.held_tracks(), tracker.last_id()), (0, 0, 0));
    tracks(&mut tracker, &row(3));
    assert_eq!((tracker.frame_count(), tracker.held_tracks(), tracker.last_id()), (1, 3, 3));
    // without a box a track is held for max_age frames
    for _ in 0..30 {
        assert_eq!(tracks(&mut tracker, &[]).len(), 0);
    }
    assert_eq!((tracker.frame_count(), tracker.held_tracks(), tracker.last_id()), (31, 3, 3));
    tracks(&mut tracker, &[]);
    assert_eq!((tracker.frame_count(), tracker.held_tracks(), tracker.last_id()), (32, 0, 3));
    tracks(&mut tracker, &row(1));
    assert_eq!((tracker.frame_count(), tracker.held_tracks(), tracker.last_id()), (33, 1, 4));
}

#[test]
fn tracks_are_an_exact_iterator_over_records() {
    let mut tracker = Tracker::new(settings());
    let mut out = tracker.update(&row(3)).expect("an accepted frame");
    assert_eq!(out.records().len(), 3 * Track::RECORD_LEN);
    assert_eq!(out.records()[..12], [1, 0, 0, 0, 1, 0, 0, 0, 0, 0, 0, 0]);
    assert_eq!((out.records().len(), out.records()[32], out.records()[65]), (99, 1, 1));
    assert_eq!(out.counts(), Counts::default());
    assert_eq!((out.len(), out.next().map(|t| t.id), out.len()), (3, Some(1), 2));
    assert_eq!((out.next_back().map(|t| t.id), out.len()), (Some(3), 1));
    assert_eq!((out.next().map(|t| t.id), out.next(), out.len()), (Some(2), None, 0));
    assert_eq!(out.records().len(), 3 * Track::RECORD_LEN);
}

#[test]
fn boxes_that_are_alike_are_assigned() {
    let mut tracker = Tracker::new(settings());
    tracks(&mut tracker, &[SLEEPER, SLEEPER]);
    let out = tracker.update(&[SLEEPER, SLEEPER]).expect("an accepted frame");
    assert!(out.counts().turns > 0);
    assert_eq!(out.map(|t| t.id).collect::<Vec<_>>(), [1, 2]);
}

#[test]
fn the_last_id_is_read_whole() {
    // an id is 8 bytes of a record: 255 boxes a frame give ids above one byte
    let mut tracker = Tracker::with_capacity(Settings::new(0.6, 0.3, 0, 3), 255);
    tracks(&mut tracker, &row(255));
    tracks(&mut tracker, &[]);
    let out = tracks(&mut tracker, &row(255));
    assert_eq!(out.iter().map(|t| t.id).collect::<Vec<_>>(), (256..=510).collect::<Vec<_>>());
}

#[test]
fn settings_reach_the_library() {
    let mut late = Tracker::new(Settings::new(0.6, 0.3, 30, 0));
    assert_eq!(tracks(&mut late, &[SLEEPER]).len(), 1);
    let mut strict = Tracker::new(Settings::new(0.8, 0.3, 30, 3));
    assert_eq!(tracks(&mut strict, &[SLEEPER]).len(), 0);
    assert_eq!(strict.held_tracks(), 0);
    strict.set_settings(settings());
    assert_eq!(strict.settings(), settings());
    assert_eq!(tracks(&mut strict, &[SLEEPER])[0].frame, 2);
}

#[test]
fn a_reset_tracker_is_as_new() {
    let mut tracker = Tracker::with_capacity(settings(), 5);
    let first = [tracks(&mut tracker, &row(2)), tracks(&mut tracker, &row(3))];
    tracker.reset();
    assert_eq!((tracker.frame_count(), tracker.held_tracks(), tracker.last_id()), (0, 0, 0));
    assert_eq!([tracks(&mut tracker, &row(2)), tracks(&mut tracker, &row(3))], first);
}

/// Whether a frame of these boxes is turned down with this, and the tracker goes on as one that never saw it.
fn assert_refused(tracker: &mut Tracker, boxes: &[Detection], refusal: Refusal) {
    let mut other = tracker.clone();
    assert_eq!(tracker.update(boxes).map(|tracks| tracks.len()), Err(refusal), "{refusal}");
    assert_eq!(tracker.frame_count(), other.frame_count());
    assert_eq!(tracker.held_tracks(), other.held_tracks());
    assert_eq!(tracker.last_id(), other.last_id());
    tracker.set_settings(settings());
    other.set_settings(settings());
    for count in [1, 0, 2, 2, 1] {
        assert_eq!(tracks(tracker, &row(count)), tracks(&mut other, &row(count)));
    }
}

#[test]
fn refused_13_a_setting_that_is_not_finite() {
    let new = settings();
    let all = [
        Settings::new(f32::NAN, 0.3, 30, 3),
        Settings::new(0.6, f32::INFINITY, 30, 3),
        new.with_lambdas(f32::NAN, 0.25, 0.25),
        new.with_lambdas(0.5, f32::NEG_INFINITY, 0.25),
        new.with_lambdas(0.5, 0.25, f32::NAN),
        new.with_dlo_boost_coef(f32::NAN),
    ];
    for settings in all {
        let mut tracker = Tracker::new(settings);
        assert_refused(&mut tracker, &[SLEEPER], Refusal::SettingNotFinite);
    }
}

#[test]
fn refused_14_more_than_255_boxes() {
    for count in [256, 257, 1000] {
        let mut tracker = Tracker::with_capacity(settings(), 255);
        assert_refused(&mut tracker, &row(count), Refusal::TooManyBoxes);
    }
    let mut tracker = Tracker::with_capacity(settings(), 255);
    assert_eq!(tracks(&mut tracker, &row(255)).len(), 255);
    // 14 is said before 15
    assert_refused(&mut Tracker::new(settings()), &row(256), Refusal::TooManyBoxes);
}

#[test]
fn refused_15_more_tracks_and_boxes_than_places() {
    let mut tracker = Tracker::with_capacity(settings(), 4);
    assert_refused(&mut tracker, &row(5), Refusal::TableFull);
    let mut tracker = Tracker::with_capacity(settings(), 5);
    tracks(&mut tracker, &row(3));
    assert_refused(&mut tracker, &row(3), Refusal::TableFull);
    let mut tracker = Tracker::with_capacity(settings(), 255);
    tracks(&mut tracker, &row(254));
    assert_eq!(tracker.update(&row(2)).err(), Some(Refusal::TableFull));
    assert_eq!(tracks(&mut tracker, &row(1)).len(), 1);
}

#[test]
fn refused_16_a_bad_box_and_its_index() {
    let bad = [
        [f32::NAN, 20.0, 32.0, 64.0, 0.75],
        [10.0, f32::INFINITY, 32.0, 64.0, 0.75],
        [-65537.0, 20.0, 32.0, 64.0, 0.75],
        [10.0, 65536.01, 32.0, 64.0, 0.75],
        [10.0, 20.0, 0.0, 64.0, 0.75],
        [10.0, 20.0, 32.0, -1.0, 0.75],
        [10.0, 20.0, 65537.0, 64.0, 0.75],
        [10.0, 20.0, 32.0, 64.0, 1.01],
        [10.0, 20.0, 32.0, 64.0, -0.01],
        [10.0, 20.0, 32.0, 64.0, f32::NAN],
    ];
    for [left, top, width, height, score] in bad {
        let one = Detection::new(left, top, width, height, score);
        let mut tracker = Tracker::new(settings());
        assert_refused(&mut tracker, &[one], Refusal::BadBox { index: 0 });
        let mut tracker = Tracker::new(settings());
        let boxes = [SLEEPER, SLEEPER, one, one];
        assert_refused(&mut tracker, &boxes, Refusal::BadBox { index: 2 });
    }
    let edge = Detection::new(-65536.0, 65536.0, 65536.0, 65536.0, 1.0);
    assert_eq!(tracks(&mut Tracker::new(settings()), &[edge]).len(), 1);
}

#[test]
fn refused_20_a_label_that_is_none_and_its_index() {
    for label in [0, 4, 255] {
        let mut one = SLEEPER;
        one.label = label;
        assert_refused(&mut Tracker::new(settings()), &[one], Refusal::BoxNotLabelled { index: 0 });
        let boxes = [SLEEPER, one, SLEEPER, one];
        assert_refused(&mut Tracker::new(settings()), &boxes, Refusal::BoxNotLabelled { index: 1 });
        // 16 of any box is said before it, and so is 15
        let bad = Detection::new(f32::NAN, 20.0, 32.0, 64.0, 0.75);
        assert_refused(&mut Tracker::new(settings()), &[one, SLEEPER, bad], Refusal::BadBox { index: 2 });
        let mut small = Tracker::with_capacity(settings(), 2);
        assert_eq!(small.update(&[one; 3]).err(), Some(Refusal::TableFull));
    }
}

#[test]
fn labels_and_their_numbers() {
    let all = [Label::Sleeper, Label::Partner, Label::Staff];
    assert_eq!(all.map(Label::number), [1, 2, 3]);
    assert_eq!([1, 2, 3].map(Label::of), all.map(Some));
    assert_eq!([0, 4, 255].map(Label::of), [None; 3]);
    assert_eq!((Label::default().number(), SLEEPER.label), (1, 1));
}

#[test]
fn capacities() {
    assert_eq!(Tracker::new(settings()).capacity(), 64);
    assert_eq!(Tracker::with_capacity(settings(), 255).capacity(), 255);
    assert_eq!(Tracker::with_capacity(settings(), 1000).capacity(), 255);
    let mut none = Tracker::with_capacity(settings(), 0);
    assert_eq!(none.capacity(), 0);
    assert_eq!(tracks(&mut none, &[]).len(), 0);
    assert_eq!(none.update(&[SLEEPER]).err(), Some(Refusal::TableFull));
}

#[test]
fn trackers_may_go_to_other_threads() {
    fn both<T: Send + Sync>() {}
    both::<Tracker>();
    both::<Settings>();
    both::<bedside::Tracks<'static>>();
    both::<Refusal>();
    both::<bedside::assoc::Room>();

    let night = |seed: usize| {
        move || {
            let mut tracker = Tracker::new(settings());
            (0..200).map(|k| tracks(&mut tracker, &row((k * seed) % 7))).collect::<Vec<_>>()
        }
    };
    let beside: Vec<_> = (1..5).map(|seed| std::thread::spawn(night(seed))).collect();
    for (seed, thread) in (1..5).zip(beside) {
        assert_eq!(thread.join().expect("no thread panics"), night(seed)());
    }
}

#[test]
fn a_refusal_is_an_error_in_words() {
    let error: Box<dyn std::error::Error> = Box::new(Refusal::BadBox { index: 3 });
    assert_eq!(error.to_string(), "refused 16: box 3 has a value outside its limits");
    assert_eq!(Refusal::TableFull.number(), 15);
}

#[test]
fn debug_says_the_state_and_not_the_memory() {
    let mut tracker = Tracker::new(settings());
    tracks(&mut tracker, &[SLEEPER]);
    let text = format!("{tracker:?}");
    assert!(text.contains("frame_count: 1, held_tracks: 1, last_id: 1, capacity: 64"), "{text}");
    assert!(text.contains("det_thresh: 0.6"), "{text}");
}
