//! The parts that a tracker is made of, on the worked examples of the scope document and on refusals.

use bedside::assoc::{self, AssociateParams, Confidences, Labels, Room};
use bedside::filter::{self, Pair, NOISE};
use bedside::lapjv::{self, lapjv};
use bedside::mot;
use bedside::{float, Counts, Refusal};

const BOXES: [[f32; 4]; 2] = [[0.0, 0.0, 10.0, 10.0], [20.0, 0.0, 30.0, 10.0]];
const TRACKS: [[f32; 4]; 3] = [[21.0, 0.0, 31.0, 10.0], [5.0, 0.0, 15.0, 10.0], [90.0, 0.0, 95.0, 10.0]];

#[test]
fn float_functions() {
    assert_eq!(float::max(1.0, f32::NAN), 1.0);
    assert_eq!(float::max(-0.0, 0.0).to_bits(), 0x80000000);
    assert_eq!(float::min(f32::NAN, 2.0), 2.0);
    assert_eq!(float::min(1.0, 2.0), 1.0);
    assert_eq!(float::sqrt(2.0).to_bits(), 0x3fb504f3);
    assert!(float::sqrt(-1.0).is_nan());
    assert_eq!(float::powi(0.9, -1).to_bits(), 0x3f8e38e4);
    assert_eq!(float::powi(0.9, 0), 1.0);
    assert_eq!(float::powf_1_5(4.0), 8.0);
    assert_eq!([0.0, 89.0, -104.0].map(float::exp), [1.0, f32::INFINITY, 0.0]);
}

#[test]
fn the_filter() {
    let new = Pair { p: 10.0, v: 0.0, a: 10.0, b: 0.0, c: 0.0, d: 10000.0 };
    assert_eq!(Pair::new(10.0), new);
    let predicted = Pair { a: 10011.0, b: 10000.0, c: 10000.0, d: 10000.01, ..new };
    assert_eq!(new.predict(), predicted);
    let corrected = predicted.correct(12.0, NOISE[0]).expect("a pair that can be corrected");
    assert_eq!((corrected.p.to_bits(), corrected.v.to_bits()), (0x413fff2e, 0x3fffb174));
    let wrong = Pair { a: -1.0, ..predicted };
    assert_eq!(wrong.correct(12.0, 1.0), Err(Refusal::TrackNotWorkable));
    assert_eq!(Refusal::TrackNotWorkable.number(), 12);
}

#[test]
fn conversions_and_confidence() {
    let z = filter::convert_bbox_to_z(&[10.0, 20.0, 42.0, 84.0]);
    assert_eq!(z, [26.0, 52.0, 64.0, 0.5]);
    assert_eq!(filter::convert_z_to_bbox(&z), [10.0, 20.0, 42.0, 84.0]);
    assert_eq!(filter::convert_z_to_bbox(&[26.0, 52.0, 64.0, -0.5]), [26.0, 20.0, 26.0, 84.0]);
    assert_eq!(filter::confidence(1, 1, 0.9).to_bits(), 0x3f080c83);
    assert_eq!(filter::confidence(7, 0, 0.9).to_bits(), 0x3f8e38e4);
}

#[test]
fn assignments() {
    let (mut x, mut y) = ([9; 2], [9; 2]);
    assert_eq!(lapjv(2, &[0.5; 4], &mut x, &mut y), Ok(Counts { turns: 1, scans: 0 }));
    assert_eq!((x, y), ([1, 0], [1, 0]));
    let (mut one, mut other) = ([9], [9]);
    assert_eq!(lapjv(1, &[f64::NAN], &mut one, &mut other), Ok(Counts::default()));
    assert_eq!((one, other), ([0], [0]));
}

#[test]
fn refused_21_to_23() {
    let (mut x, mut y) = ([9; 256], [9; 256]);
    assert_eq!(lapjv(0, &[], &mut [], &mut []), Err(lapjv::Refusal::NoSide));
    let costs = vec![0.0; 256 * 256];
    assert_eq!(lapjv(256, &costs, &mut x, &mut y), Err(lapjv::Refusal::SideAbove255));
    let wrong = Err(lapjv::Refusal::WrongSize);
    assert_eq!(lapjv(2, &[0.5; 3], &mut x[..2], &mut y[..2]), wrong);
    assert_eq!(lapjv(2, &[0.5; 4], &mut x[..3], &mut y[..2]), wrong);
    assert_eq!(lapjv(2, &[0.5; 4], &mut x[..2], &mut y[..1]), wrong);
    assert!(x.iter().chain(&y).all(|&k| k == 9));
    let all = [lapjv::Refusal::NoSide, lapjv::Refusal::SideAbove255, lapjv::Refusal::WrongSize];
    assert_eq!(all.map(|r| r.number()), [21, 22, 23]);
    assert_eq!(all[1].to_string(), "refused 22: the side is above 255");
}

#[test]
fn overlaps() {
    let areas = |a: [f32; 4], b: [f32; 4]| {
        let assoc::OverlapAreas { intersection, union_area, ratio } = assoc::overlap(&a, &b);
        [intersection, union_area, ratio]
    };
    assert_eq!(areas(BOXES[0], TRACKS[1]).map(f32::to_bits), [0x42480000, 0x43160000, 0x3eaaaaab]);
    assert_eq!(areas(BOXES[0], TRACKS[2]), [0.0, 150.0, 0.0]);
    // a width below 0: the union is, and nothing is divided
    assert_eq!(areas([4.0, 0.0, 2.0, 10.0], [4.0, 0.0, 2.0, 10.0]), [0.0, -40.0, 0.0]);
    let [shared, union, ratio] = areas([f32::NAN, 0.0, 10.0, 10.0], TRACKS[1]);
    assert!(shared == 50.0 && union.is_nan() && ratio == 0.0);
}

#[test]
fn matrices() {
    let mut iou = [7.0; 7];
    assert_eq!(assoc::iou_batch(&BOXES, &TRACKS, &mut iou), Ok(()));
    assert_eq!(iou.map(f32::to_bits), [0, 0x3eaaaaab, 0, 0x3f51745d, 0, 0, 7.0f32.to_bits()]);
    // a sure track is not widened
    let mut soft = [0.0; 6];
    assert_eq!(assoc::soft_biou_batch(&BOXES, &TRACKS, &[1.0; 3], &mut soft), Ok(()));
    assert_eq!(soft, iou[..6]);
    assert_eq!(assoc::soft_biou_batch(&BOXES, &TRACKS, &[0.5; 3], &mut soft), Ok(()));
    assert!(soft[1] > iou[1]);
    // equal shapes are alike, by both formulas
    let (mut v1, mut v2) = ([0.0; 6], [0.0; 6]);
    assert_eq!(assoc::shape_similarity_v1(&BOXES, &TRACKS, &mut v1), Ok(()));
    assert_eq!(assoc::shape_similarity_v2(&BOXES, &TRACKS, &mut v2), Ok(()));
    assert_eq!((v1[0], v2[0]), (1.0, 1.0));
    assert!(v1[2] < 1.0 && v2[2] < 1.0);
    // of a track's boxes the nearer is the more similar, and one beyond the limit is not at all
    let mut near = [7.0; 3];
    assert_eq!(assoc::mh_dist_similarity(3, 1, &[1.0, 2.0, 100.0], 1.0, &mut near), Ok(()));
    assert!(near[0] > near[1] && near[1] > 0.0 && near[2] == 0.0);
    assert_eq!(assoc::iou_batch(&[], &TRACKS, &mut []), Ok(()));
}

#[test]
fn pairs() {
    let mut room = Room::new(4, 4);
    let equal = assoc::match_detections(2, 2, &[0.5; 4], 0.3, &mut room).expect("accepted");
    assert!(equal.pairs().eq([(0, 0), (1, 1)]));
    assert_eq!(equal.counts, Counts { turns: 1, scans: 0 });
    let one = assoc::match_detections(1, 1, &[0.3], 0.3, &mut room).expect("accepted");
    assert_eq!(one.pairs().len(), 0);
    let none = assoc::linear_assignment(0, 3, &[], &[], 0.3, &mut room).expect("accepted");
    assert_eq!(none.unmatched_tracks, [0, 1, 2]);

    let iou = [0.0, 0.4, 0.9, 0.0];
    let stand = assoc::linear_assignment(2, 2, &iou, &iou, 0.5, &mut room).expect("accepted");
    assert!(stand.pairs().eq([(1, 0)]));
    assert_eq!((stand.unmatched_detections, stand.unmatched_tracks), (&[0][..], &[1][..]));
}

#[test]
fn associations() {
    let mut room = Room::new(2, 3);
    let params = AssociateParams::default();
    let found = assoc::associate(&BOXES, &TRACKS, &params, None, None, None, &mut room).expect("accepted");
    assert!(found.pairs().eq([(0, 1), (1, 0)]));
    assert_eq!((found.unmatched_detections, found.unmatched_tracks), (&[][..], &[2][..]));
    let strict = AssociateParams { iou_threshold: 0.5, ..params };
    let found = assoc::associate(&BOXES, &TRACKS, &strict, None, None, None, &mut room).expect("accepted");
    assert!(found.pairs().eq([(1, 0)]));
    assert_eq!((found.unmatched_detections, found.unmatched_tracks), (&[0][..], &[1, 2][..]));
    let sure = Confidences { tracks: &[1.0; 3], detections: &[1.0; 2] };
    let far = [1.0; 6];
    let found = assoc::associate(&BOXES, &TRACKS, &params, Some(&far), Some(sure), None, &mut room)
        .expect("accepted");
    assert!(found.pairs().eq([(0, 1), (1, 0)]));
}

/// The tracks that the boxes are paired with, and what is left.
fn labelled(
    threshold: f32, detections: &[u8], tracks: &[u8],
) -> (Vec<(usize, usize)>, Vec<usize>, Vec<usize>) {
    let mut room = Room::new(2, 3);
    let params = AssociateParams { iou_threshold: threshold, ..AssociateParams::default() };
    let labels = Some(Labels { detections, tracks });
    let found = assoc::associate(&BOXES, &TRACKS, &params, None, None, labels, &mut room).expect("accepted");
    (found.pairs().collect(), found.unmatched_detections.to_vec(), found.unmatched_tracks.to_vec())
}

#[test]
fn labels_that_differ_are_no_pair() {
    let both = (vec![(0, 1), (1, 0)], vec![], vec![2]);
    for label in 1..=3 {
        assert_eq!(labelled(0.3, &[label; 2], &[label; 3]), both);
    }
    assert_eq!(labelled(0.3, &[1, 2], &[2, 1, 3]), both);
    assert_eq!(labelled(0.3, &[3, 2], &[2, 1, 1]), (vec![(1, 0)], vec![0], vec![1, 2]));
    // at no threshold: the direct path has no cost above 0, and below 0 the assignment proposes a pair for each box
    assert_eq!(labelled(0.0, &[1, 1], &[2, 2, 3]).0, []);
    let (pairs, boxes, tracks) = labelled(-1.0, &[1, 1], &[2, 2, 3]);
    assert_eq!((pairs.len(), boxes, tracks.len()), (0, vec![0, 1], 3));
    assert_eq!(labelled(f32::NEG_INFINITY, &[1, 1], &[2, 2, 3]).0, []);
}

#[test]
fn refused_34() {
    use assoc::Refusal::{NotLabelled, OtherSize, TooShort};
    let params = AssociateParams::default();
    let refusal = |boxes: &[[f32; 4]], tracks: &[[f32; 4]], labels: [&[u8]; 2], mut room: Room| {
        let [detections, of_tracks] = labels;
        let labels = Some(Labels { detections, tracks: of_tracks });
        assoc::associate(boxes, tracks, &params, None, None, labels, &mut room).err()
    };
    let room = || Room::new(2, 3);
    for label in [0, 4, 255] {
        assert_eq!(refusal(&BOXES, &TRACKS, [&[1, label], &[1, 2, 3]], room()), Some(NotLabelled));
        assert_eq!(refusal(&BOXES, &TRACKS, [&[1, 2], &[1, 2, label]], room()), Some(NotLabelled));
        // also where the other side is 0
        assert_eq!(refusal(&BOXES, &[], [&[label, 1], &[]], room()), Some(NotLabelled));
        assert_eq!(refusal(&[], &TRACKS, [&[], &[1, label, 1]], room()), Some(NotLabelled));
        // 32 and 33 are said before it
        assert_eq!(refusal(&BOXES, &TRACKS, [&[label], &[1, 2, 3]], room()), Some(OtherSize));
        assert_eq!(refusal(&BOXES, &TRACKS, [&[1, label], &[1; 4]], room()), Some(OtherSize));
        assert_eq!(refusal(&BOXES, &TRACKS, [&[1, label], &[1; 3]], Room::new(2, 2)), Some(TooShort));
    }
    assert_eq!(NotLabelled.number(), 34);
    assert_eq!(NotLabelled.to_string(), "refused 34: a label is other than 1 to 3");
}

#[test]
fn refused_31_to_33() {
    use assoc::Refusal::{OtherSize, TooMany, TooShort};
    let many = vec![BOXES[0]; 256];
    let mut out = vec![7.0; 256 * 3];
    assert_eq!(assoc::iou_batch(&many, &TRACKS, &mut out), Err(TooMany));
    assert_eq!(assoc::soft_biou_batch(&BOXES, &TRACKS, &[1.0; 2], &mut out), Err(OtherSize));
    assert_eq!(assoc::mh_dist_similarity(2, 3, &[1.0; 5], 1.0, &mut out), Err(OtherSize));
    assert_eq!(assoc::shape_similarity_v1(&BOXES, &TRACKS, &mut out[..5]), Err(TooShort));
    assert_eq!(assoc::shape_similarity_v2(&BOXES, &TRACKS, &mut out[..5]), Err(TooShort));
    assert!(out.iter().all(|&x| x == 7.0));

    let mut room = Room::new(2, 2);
    let params = AssociateParams::default();
    assert_eq!(assoc::match_detections(2, 2, &[0.5; 3], 0.3, &mut room), Err(OtherSize));
    assert_eq!(assoc::match_detections(3, 3, &[0.5; 9], 0.3, &mut room), Err(TooShort));
    assert_eq!(assoc::linear_assignment(2, 2, &[0.5; 4], &[0.5; 5], 0.3, &mut room), Err(OtherSize));
    assert_eq!(assoc::associate(&BOXES, &TRACKS, &params, None, None, None, &mut room), Err(TooShort));
    let few = Some(Confidences { tracks: &[1.0; 3], detections: &[1.0] });
    assert_eq!(assoc::associate(&BOXES, &TRACKS, &params, None, few, None, &mut room), Err(OtherSize));
    assert_eq!(
        assoc::associate(&BOXES, &TRACKS, &params, Some(&[1.0]), None, None, &mut room),
        Err(OtherSize)
    );
    assert_eq!(assoc::associate(&many, &TRACKS, &params, None, None, None, &mut room), Err(TooMany));
    assert_eq!([TooMany, OtherSize, TooShort].map(|r| r.number()), [31, 32, 33]);
    assert_eq!(TooMany.to_string(), "refused 31: more than 255 boxes or tracks");
}

#[test]
fn a_room_of_the_largest_sides() {
    let mut room = Room::new(1000, 300);
    let all = assoc::match_detections(255, 255, &[0.5; 255 * 255], 0.3, &mut room).expect("accepted");
    assert_eq!(all.pairs().len(), 255);
    assert!(all.counts.turns <= 2 * 255 * 254 && all.counts.scans <= 255 * 254 / 2);
    assert_eq!(format!("{room:?}"), "Room { boxes: 255, tracks: 255 }");
}

#[test]
fn lines_of_text() {
    let mut out = [170; 27];
    assert_eq!(mot::line(b"7,-1,0.1,-0,32,64.5,1,-1,-1,-1\n", 6, &mut out), Ok(7));
    let values = [0.1f32, -0.0, 32.0, 64.5, 1.0];
    assert_eq!(out[..4], 7u32.to_le_bytes());
    for (k, value) in values.iter().enumerate() {
        assert_eq!(out[4 + 4 * k..8 + 4 * k], value.to_le_bytes());
    }
    assert_eq!(out[24..], [1, 170, 170]);
}

#[test]
fn refused_51_to_53() {
    let (good, mut out) = (b"7,-1,10,20,32,64,0.75,-1,-1,-1\n", [170; mot::BOX_RECORD_BYTES]);
    let refused = [
        (mot::line(&good[..good.len() - 1], 0, &mut out), 51),
        (mot::line(b"7,-1,10,20,32,64,0.75,-1,-1,-1\r\n", 0, &mut out), 51),
        (mot::line(b"", 0, &mut []), 51),
        (mot::line(good, 8, &mut out), 52),
        (mot::line(b"1001,-1,10,20,32,64,0.75,-1,-1,-1\n", 0, &mut []), 52),
        (mot::line(good, 0, &mut out[..24]), 53),
    ];
    for (answer, number) in refused {
        let refusal = answer.expect_err("a line that is turned away");
        assert_eq!(refusal.number(), number);
        assert!(refusal.to_string().starts_with(&format!("refused {number}: ")));
    }
    assert_eq!(out, [170; mot::BOX_RECORD_BYTES]);
    assert_eq!(mot::line(b"1000,-1,10,20,32,64,0.75,-1,-1,-1\n", 0, &mut out), Ok(1000));
}
