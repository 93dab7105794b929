//! Tracks dropped by their ids: which stay, what later frames make of it, and when a drop is turned away.

use bedside::{Detection, Refusal, Settings, Track, Tracker};

/// `count` boxes side by side, none over another, from place `first` on.
fn row(first: usize, count: usize) -> Vec<Detection> {
    (first..first + count).map(|k| Detection::new(50.0 * k as f32, 20.0, 32.0, 64.0, 0.75)).collect()
}

fn tracks(tracker: &mut Tracker, boxes: &[Detection]) -> Vec<Track> {
    tracker.update(boxes).expect("an accepted frame").collect()
}

fn ids(tracker: &Tracker) -> Vec<u64> {
    tracker.held_ids().collect()
}

/// A tracker that holds the tracks 1 to 5.
fn five() -> Tracker {
    let mut tracker = Tracker::with_capacity(Settings::new(0.6, 0.3, 30, 3), 16);
    tracks(&mut tracker, &row(0, 5));
    tracks(&mut tracker, &row(0, 5));
    tracker
}

/// What is known beside the tracks, and what the next frames put out.
fn goes_on(mut tracker: Tracker) -> (Vec<u64>, u64, u64, Vec<Vec<Track>>) {
    let (held, last, frames) = (ids(&tracker), tracker.last_id(), tracker.frame_count());
    let out = [(0, 5), (2, 3), (0, 0), (1, 4), (0, 5)]
        .map(|(first, count)| tracks(&mut tracker, &row(first, count)));
    (held, last, frames, out.to_vec())
}

#[test]
fn the_others_go_on_as_they_are() {
    let (mut dropped, mut whole) = (five(), five());
    dropped.forget_set(&[4, 2]).expect("an accepted drop");
    assert_eq!(ids(&dropped), [1, 3, 5]);
    assert_eq!((dropped.last_id(), dropped.frame_count(), dropped.held_tracks()), (5, 2, 3));
    // their boxes alone: the records are those of the tracker that dropped none
    let boxes: Vec<_> = [0, 2, 4].into_iter().flat_map(|place| row(place, 1)).collect();
    for _ in 0..3 {
        assert_eq!(tracks(&mut dropped, &boxes), tracks(&mut whole, &boxes));
    }
    // who comes back is a new one
    tracks(&mut dropped, &row(1, 1));
    assert_eq!(ids(&dropped), [1, 3, 5, 6]);
}

#[test]
fn one_by_one_in_any_order_is_the_same() {
    let mut whole = five();
    whole.forget_set(&[5, 1, 2]).expect("an accepted drop");
    let whole = goes_on(whole);
    for order in [[1, 2, 5], [1, 5, 2], [2, 1, 5], [2, 5, 1], [5, 1, 2], [5, 2, 1]] {
        let mut at_once = five();
        at_once.forget_set(&order).expect("an accepted drop");
        assert_eq!(goes_on(at_once), whole);
        let mut singly = five();
        order.into_iter().for_each(|id| singly.forget(id).expect("an accepted drop"));
        assert_eq!(goes_on(singly), whole);
        let mut sets_of_one = five();
        order.into_iter().for_each(|id| sets_of_one.forget_set(&[id]).expect("an accepted drop"));
        assert_eq!(goes_on(sets_of_one), whole);
    }
}

#[test]
fn a_drop_that_is_turned_away_changes_nothing() {
    let lists: [(&[u64], Refusal); 8] = [
        (&[6], Refusal::IdNotHeld),
        (&[0], Refusal::IdNotHeld),
        (&[1, 2, 3, 4, 5, 6], Refusal::IdNotHeld),
        (&[u64::MAX, 1], Refusal::IdNotHeld),
        (&[3, 3], Refusal::IdTwice),
        (&[9, 9], Refusal::IdTwice),
        (&[9, 1, 2, 1], Refusal::IdTwice),
        (&[1, 2, 3, 4, 5, 1], Refusal::IdTwice),
    ];
    for (list, refusal) in lists {
        let mut tracker = five();
        assert_eq!(tracker.forget_set(list), Err(refusal), "{list:?}");
        assert_eq!(goes_on(tracker), goes_on(five()), "{list:?}");
    }
    let mut tracker = five();
    assert_eq!(tracker.forget(6), Err(Refusal::IdNotHeld));
    assert_eq!(tracker.forget_set(&[]), Ok(()));
    assert_eq!(goes_on(tracker), goes_on(five()));
}

#[test]
fn a_list_of_any_length() {
    let mut tracker = five();
    let mut many: Vec<u64> = (1..=2000).rev().collect();
    assert_eq!(tracker.forget_set(&many), Err(Refusal::IdNotHeld));
    many.push(2000);
    assert_eq!(tracker.forget_set(&many), Err(Refusal::IdTwice));
    assert_eq!(goes_on(tracker), goes_on(five()));
}

#[test]
fn a_drop_makes_room() {
    let mut tracker = Tracker::with_capacity(Settings::new(0.6, 0.3, 30, 3), 5);
    tracks(&mut tracker, &row(0, 5));
    assert_eq!(tracker.update(&row(5, 2)).map(|out| out.len()), Err(Refusal::TableFull));
    tracker.forget(3).expect("an accepted drop");
    assert_eq!(tracker.update(&row(5, 2)).map(|out| out.len()), Err(Refusal::TableFull));
    tracker.forget(5).expect("an accepted drop");
    assert_eq!(tracks(&mut tracker, &row(5, 2)).iter().map(|track| track.id).collect::<Vec<_>>(), [6, 7]);
    assert_eq!(ids(&tracker), [1, 2, 4, 6, 7]);
}

#[test]
fn no_id_is_given_twice() {
    // nobody is ever seen again: each frame has a box where none was, and the table is cleared in one of three
    let mut tracker = Tracker::with_capacity(Settings::new(0.6, 0.3, 30, 3), 8);
    let mut given = Vec::new();
    for frame in 0..60 {
        given.extend(tracks(&mut tracker, &row(7 * frame, 2)).iter().map(|track| track.id));
        if frame % 3 == 2 {
            let held = ids(&tracker);
            assert_eq!(held.len(), 6);
            tracker.forget_set(&held).expect("an accepted drop");
            assert_eq!(tracker.held_tracks(), 0);
        }
    }
    // in the first frames every track is put out; from then on started, held and dropped are told by the last id
    assert!(given.is_sorted_by(|a, b| a < b));
    assert_eq!((tracker.last_id(), tracker.frame_count()), (120, 60));
}
