//! The port's bedside_update, from libbedside.a, over memory that is lent to it for a whole night.

#[repr(C)]
#[derive(Clone, Copy)]
pub struct Settings {
    /// det_thresh, iou_threshold, three lambdas, dlo_boost_coef
    floats: [f32; 6],
    max_age: u64,
    min_hits: u64,
    /// DLO, DUO, rich, corrected shape, soft, varying
    uses: [bool; 6],
    cap_confidence: bool,
}

#[repr(C)]
#[derive(Clone, Copy, Default)]
pub struct State {
    pub count: u64,
    last_id: u64,
    frame_count: u64,
}

#[repr(C)]
struct Answer {
    refusal: u32,
    index: u64,
    state: State,
    emitted: u64,
    turns: u64,
    scans: u64,
}

#[link(name = "bedside", kind = "static")]
unsafe extern "C" {
    fn bedside_settings_new(det_thresh: f32, iou_threshold: f32, max_age: u64, min_hits: u64) -> Settings;
    fn bedside_update(
        settings: Settings, state: State, floats: *mut f32, floats_len: usize, counters: *mut u64, counters_len: usize,
        labels: *mut u8, labels_len: usize, boxes: *const f32, boxes_len: usize, box_labels: *const u8,
        box_labels_len: usize, out: *mut u8, out_len: usize, work64: *mut f64, work64_len: usize, work32: *mut f32,
        work32_len: usize,
    ) -> Answer;
}

/// How much of its work memory a frame is lent: all, or n × n doubles and 4 × n × n floats, n the larger of the held
/// tracks and the boxes.
#[derive(Clone, Copy, PartialEq)]
pub enum Lent {
    Whole,
    Needed,
}

pub struct Tracker {
    settings: Settings,
    lent: Lent,
    pub state: State,
    floats: Vec<f32>,
    counters: Vec<u64>,
    labels: Vec<u8>,
    /// 1 for every box.
    box_labels: [u8; 255],
    out: Vec<u8>,
    work64: Vec<f64>,
    work32: Vec<f32>,
    emitted: usize,
}

impl Tracker {
    /// With places for so many tracks, and work memory for `side` boxes or tracks.
    pub fn new(plus_plus: bool, lent: Lent, places: usize, side: usize) -> Tracker {
        // SAFETY: the function is proved to accept every value, and touches no memory.
        let mut settings = unsafe { bedside_settings_new(0.6, 0.3, 30, 3) };
        if plus_plus {
            settings.uses = [true; 6];
        }
        Tracker {
            settings,
            lent,
            state: State::default(),
            floats: vec![0.0; 24 * places],
            counters: vec![0; 4 * places],
            labels: vec![0; places],
            box_labels: [1; 255],
            out: vec![0; 33 * places],
            work64: vec![0.0; side * side],
            work32: vec![0.0; 4 * side * side],
            emitted: 0,
        }
    }

    /// How many doubles a frame's work is lent; four times as many floats.
    fn work(&self, boxes: usize) -> usize {
        let n = boxes.max(self.state.count as usize);
        if self.lent == Lent::Whole { self.work64.len() } else { n * n }
    }

    pub fn update(&mut self, boxes: &[f32]) {
        let work = self.work(boxes.len() / 5);
        let Tracker { floats, counters, labels, out, work64, work32, .. } = self;
        let box_labels = &self.box_labels[..boxes.len() / 5];
        let (work64, work32) = (&mut work64[..work], &mut work32[..4 * work]);
        // SAFETY: each pointer comes with its slice's length, and no two of the slices overlap.
        let answer = unsafe {
            bedside_update(
                self.settings, self.state, floats.as_mut_ptr(), floats.len(), counters.as_mut_ptr(), counters.len(),
                labels.as_mut_ptr(), labels.len(), boxes.as_ptr(), boxes.len(), box_labels.as_ptr(), box_labels.len(),
                out.as_mut_ptr(), out.len(), work64.as_mut_ptr(), work64.len(), work32.as_mut_ptr(), work32.len(),
            )
        };
        assert_eq!(
            answer.refusal, 0,
            "box {} after {} turns and {} scans", answer.index, answer.turns, answer.scans
        );
        self.state = answer.state;
        self.emitted = answer.emitted as usize;
    }

    /// Id, left, top, width, height and confidence of each emitted track, in bits.
    pub fn emitted(&self) -> Vec<[u64; 6]> {
        let record = |bytes: &[u8]| {
            let word = |k: usize| u32::from_le_bytes(bytes[k..k + 4].try_into().unwrap()) as u64;
            let id = u64::from_le_bytes(bytes[4..12].try_into().unwrap());
            [id, word(12), word(16), word(20), word(24), word(28)]
        };
        self.out[..33 * self.emitted].chunks_exact(33).map(record).collect()
    }
}
