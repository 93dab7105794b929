//! A tracker allocates when it is made, and never in a frame or a drop.

use bedside::{Detection, Settings, Tracker};
use std::alloc::{GlobalAlloc, Layout, System};
use std::cell::Cell;

thread_local! {
    static ALLOCATIONS: Cell<usize> = const { Cell::new(0) };
}

struct Counting;

// SAFETY: the system's allocator does all the work.
unsafe impl GlobalAlloc for Counting {
    unsafe fn alloc(&self, layout: Layout) -> *mut u8 {
        ALLOCATIONS.with(|count| count.set(count.get() + 1));
        // SAFETY: the caller's promise is handed on.
        unsafe { System.alloc(layout) }
    }

    unsafe fn dealloc(&self, place: *mut u8, layout: Layout) {
        // SAFETY: the caller's promise is handed on.
        unsafe { System.dealloc(place, layout) }
    }
}

#[global_allocator]
static ALLOCATOR: Counting = Counting;

#[test]
fn frames_and_drops_do_not_allocate() {
    let boxes: Vec<Detection> =
        (0..300).map(|k| Detection::new(50.0 * (k % 32) as f32, 20.0, 32.0, 64.0, 0.75)).collect();
    let before = ALLOCATIONS.with(Cell::get);
    let mut tracker = Tracker::new(Settings::new(0.6, 0.3, 30, 3));
    let made = ALLOCATIONS.with(Cell::get);
    assert!(made > before);
    let mut out = 0;
    for frame in 0..1000 {
        // every fortieth frame is turned down
        let count = if frame % 40 == 39 { 256 } else { frame % 20 };
        out +=
            tracker.update(&boxes[..count]).map_or(0, |tracks| tracks.map(|track| track.id as usize).sum());
        if frame % 10 == 9 {
            let last = tracker.last_id();
            // one that is held, and lists that are turned away
            let first = tracker.held_ids().next().expect("a held track");
            assert_eq!(tracker.forget(first), Ok(()));
            assert!(tracker.forget(last + 1).is_err());
            assert!(tracker.forget_set(&[last, last]).is_err());
        }
    }
    tracker.reset();
    assert_eq!(ALLOCATIONS.with(Cell::get), made);
    assert!(out > 0);
}
