//! The areas of an overlap, as areas.list has them noted down: the numerator and the denominator of the first cell of
//! the last `iou_batch`, whether it divided or not.

use std::cell::Cell;

thread_local! {
    static NOTED: Cell<[f32; 2]> = const { Cell::new([0.0; 2]) };
}

pub fn noted(wh: f32, union: f32) {
    NOTED.set([wh, union]);
}

pub fn take() -> [f32; 2] {
    NOTED.take()
}
