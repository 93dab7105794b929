//! Calls functions of each part of the crate bedside and prints what came back: the call, the bits, the value.

use bedside::assoc::{self, AssociateParams, Labels, Room};
use bedside::filter::{self, Pair, NOISE};
use bedside::lapjv::lapjv;
use bedside::mot::{self, BOX_RECORD_BYTES};
use bedside::{float, Detection, Label, Settings, Tracker};

type Answer = Result<(), Box<dyn std::error::Error>>;

fn show(call: &str, result: f32) {
    if result.is_nan() {
        println!("{call:15} a NaN");
    } else {
        println!("{call:15} {:08x} {result:.6}", result.to_bits());
    }
}

fn float_functions() {
    show("max(1, NaN)", float::max(1.0, f32::NAN));
    show("max(-0, 0)", float::max(-0.0, 0.0));
    show("min(NaN, 2)", float::min(f32::NAN, 2.0));
    show("min(1, 2)", float::min(1.0, 2.0));
    show("sqrt(2)", float::sqrt(2.0));
    show("sqrt(-1)", float::sqrt(-1.0));
    show("powi(0.9, -1)", float::powi(0.9, -1));
    show("powi(0.9, 7)", float::powi(0.9, 7));
    show("powf_1_5(4)", float::powf_1_5(4.0));
    show("exp(1)", float::exp(1.0));
    show("exp(-1)", float::exp(-1.0));
    show("exp(89)", float::exp(89.0));
    show("exp(-104)", float::exp(-104.0));
}

/// A position measured at 10 and, after one prediction, at 12; then a correction that is refused.
fn filter_pair() -> Answer {
    let pair = Pair::new(10.0).predict();
    show("predicted a", pair.a);
    show("predicted d", pair.d);
    let corrected = pair.correct(12.0, NOISE[0])?;
    show("corrected p", corrected.p);
    show("corrected v", corrected.v);
    if let Err(refusal) = (Pair { a: -1.0, ..pair }).correct(12.0, NOISE[0]) {
        println!("{:15} {refusal}", "a below 0");
    }

    let z = filter::convert_bbox_to_z(&[10.0, 20.0, 42.0, 84.0]);
    let back = filter::convert_z_to_bbox(&z);
    show("z: height", z[2]);
    show("z: aspect", z[3]);
    show("bbox: right", back[2]);
    show("confidence", filter::confidence(1, 1, 0.9));
    Ok(())
}

/// Four equal costs, and a side that is refused.
fn assignment() -> Answer {
    let (mut x, mut y) = ([0; 2], [0; 2]);
    let counts = lapjv(2, &[0.5; 4], &mut x, &mut y)?;
    println!("{:15} turns {} scans {} x {x:?} y {y:?}", "lapjv", counts.turns, counts.scans);
    if let Err(refusal) = lapjv(0, &[], &mut [], &mut []) {
        println!("{:15} {refusal}", "lapjv, side 0");
    }
    Ok(())
}

/// Two boxes and two tracks in each other's order, one pair after the other; the same with labels that keep one of
/// them apart; then a room that is too small.
fn pairs() -> Answer {
    let boxes = [[0.0, 0.0, 10.0, 10.0], [20.0, 0.0, 30.0, 10.0]];
    let tracks = [[21.0, 0.0, 31.0, 10.0], [5.0, 0.0, 15.0, 10.0]];
    let mut iou = [0.0; 4];
    assoc::iou_batch(&boxes, &tracks, &mut iou)?;
    show("iou of 0, 1", iou[1]);
    let areas = assoc::overlap(&boxes[0], &tracks[1]);
    show("shared area", areas.intersection);
    show("of the union", areas.union_area);

    let mut room = Room::new(2, 2);
    let params = AssociateParams::default();
    let found = assoc::associate(&boxes, &tracks, &params, None, None, None, &mut room)?;
    println!("{:15} pairs {:?}", "associate", found.pairs().collect::<Vec<_>>());
    let labels = Labels { detections: &[3, 1], tracks: &[1, 1] };
    let found = assoc::associate(&boxes, &tracks, &params, None, None, Some(labels), &mut room)?;
    let (listed, left) = (found.pairs().collect::<Vec<_>>(), found.unmatched_detections);
    println!("{:15} pairs {listed:?} left {left:?} {:?}", "with labels", found.unmatched_tracks);
    let matched = assoc::match_detections(2, 2, &[0.5; 4], 0.3, &mut room)?;
    let counts = matched.counts;
    let listed: Vec<_> = matched.pairs().collect();
    println!("{:15} pairs {listed:?} turns {} scans {}", "match, equal", counts.turns, counts.scans);
    let found = assoc::linear_assignment(2, 2, &iou, &iou, 0.5, &mut room)?;
    let (listed, left) = (found.pairs().collect::<Vec<_>>(), found.unmatched_detections);
    println!("{:15} pairs {listed:?} left {left:?} {:?}", "linear, 0.5", found.unmatched_tracks);
    if let Err(refusal) = assoc::match_detections(2, 2, &[0.5; 4], 0.3, &mut Room::new(1, 1)) {
        println!("{:15} {refusal}", "match, short");
    }
    Ok(())
}

fn show_frame(tracker: &mut Tracker, boxes: &[Detection]) {
    match tracker.update(boxes) {
        Ok(tracks) => {
            println!("{:15} {} tracks of {} boxes", "update", tracks.len(), boxes.len());
            tracks.for_each(|track| println!("{:15} {track} {:?}", "track", track.label));
        }
        Err(refusal) => println!("{:15} {refusal}", "update"),
    }
}

/// What the next frame would do with one of its boxes.
fn show_why(tracker: &mut Tracker, boxes: &[Detection], index: usize) {
    match tracker.why(boxes, index) {
        Ok(e) => {
            let with = e.paired.map_or(String::new(), |p| format!(", with {}: {:.6}", p.id, p.iou));
            let scores = [e.score, e.score_dlo, e.score_duo];
            println!("{:15} box {index}: {:?}, scores {scores:?}{with}", "why", e.fate);
        }
        Err(refusal) => println!("{:15} {refusal}", "why"),
    }
}

/// A sleeper and a partner, who is missed once; frames that are refused, which change nothing; and a nurse who stands
/// before the sleeper and has a track of their own, which is told before. Then all are dropped, after lists that are
/// turned away; a sleeper who comes back has a new id.
fn frames() -> Answer {
    let mut tracker = Tracker::with_capacity(Settings::new(0.6, 0.3, 30, 3), 5);
    let sleeper = |left| Detection::new(left, 20.0, 32.0, 64.0, 0.75);
    let partner = Detection::new(80.0, 24.0, 30.0, 60.0, 0.875).labelled(Label::Partner);
    let nurse = sleeper(14.0).labelled(Label::Staff);
    let mut nobody = partner;
    nobody.label = 0;
    show_frame(&mut tracker, &[sleeper(10.0), partner]);
    show_frame(&mut tracker, &[sleeper(11.0)]);
    show_frame(&mut tracker, &[sleeper(f32::NAN), partner]);
    show_frame(&mut tracker, &[sleeper(12.0), nobody]);
    show_frame(&mut tracker, &[sleeper(12.0), partner, partner, partner]);
    (0..3).for_each(|index| show_why(&mut tracker, &[partner, nurse], index));
    show_frame(&mut tracker, &[partner, nurse]);
    show_frame(&mut tracker, &[nurse, sleeper(12.0)]);
    let (frames, held, last) = (tracker.frame_count(), tracker.held_tracks(), tracker.last_id());
    println!("{:15} frames {frames} held {held} last id {last}", "tracker");
    for ids in [&[3, 9, 3][..], &[3, 9]] {
        if let Err(refusal) = tracker.forget_set(ids) {
            println!("{:15} {refusal}", "forget");
        }
    }
    tracker.forget(2)?;
    println!("{:15} held {:?}", "forget", tracker.held_ids().collect::<Vec<_>>());
    tracker.forget_set(&[3, 1])?;
    show_frame(&mut tracker, &[sleeper(12.0)]);
    println!("{:15} held {:?}", "tracker", tracker.held_ids().collect::<Vec<_>>());
    Ok(())
}

/// Lines of detection text as box records, each behind the frame of the one before; then a confidence above 1, and a
/// line without its line feed.
fn lines() {
    let text = [
        "1,-1,10,20.5,32,64,0.75,-1,-1,-1\n",
        "4,-1,10.1,-0,32,64,0.1,-1,-1,-1\n",
        "4,-1,10,20,32,64,1.5,-1,-1,-1\n",
        "4,-1,10,20,32,64,0.75,-1,-1,-1",
    ];
    let (mut record, mut previous) = ([0; BOX_RECORD_BYTES], 0);
    for line in text {
        match mot::line(line.as_bytes(), previous, &mut record) {
            Ok(frame) => {
                println!("{:15} frame {frame}", "line");
                previous = frame;
                let float = |at: usize| f32::from_le_bytes([record[at], record[at + 1], record[at + 2], record[at + 3]]);
                show("left", float(4));
                show("top", float(8));
                show("confidence", float(20));
            }
            Err(refusal) => println!("{:15} {refusal}", "line"),
        }
    }
}

fn main() -> Answer {
    float_functions();
    filter_pair()?;
    assignment()?;
    pairs()?;
    frames()?;
    lines();
    Ok(())
}
