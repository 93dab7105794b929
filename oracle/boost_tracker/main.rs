//! The published tracker on the scenes and single calls of crates/boost_tracker_vectors; for what the port turns down,
//! the numbers of the scope document and of document 02; what it did with boxes that are asked about; for scenes with
//! capped confidences the published records, each capped; and for drops its list without the same tracks:
//!
//!     stdin          the records that it reads
//!     vectors        what it has to print
//!     finite         of each scene how many frames were accepted, and in how many every value was finite
//!     whole SCENE    the boxes, records and tracks of one scene, in bits

use oracle::boxes::Boxes;
use oracle::digest::bits;
use oracle::drops::{self, DROPPED, Drop};
use oracle::frame::{Answer, CAP, Table};
use oracle::lines;
use oracle::records::Records;
use oracle::refusals::{self, Single};
use oracle::scenes::{self, CAPPED, KINDS, SCENES, Scene};
use oracle::why::told;
use std::io::Write;

/// What is done with the frames of a scene.
trait Audience {
    fn begins(&mut self, name: &str, table: &Table);
    fn frame(&mut self, boxes: &Boxes, table: &Table, answer: &Answer, lengths: [usize; 3]);
    fn drop(&mut self, drop: &Drop, table: &Table, refusal: u32);
    /// The boxes of the next frame that are asked about, from the first on so many.
    fn asked(&mut self, _: &Boxes, _: &Answer, _: [usize; 3], _: [usize; 2]) {}
}

/// Asked about are all boxes of a frame and the index behind the last, of frames of a scene that are refused, that have a
/// fate, or a score that a boost changed: the first two of each kind.
#[derive(Default)]
struct Asks([usize; 6]);

impl Asks {
    fn of(&mut self, boxes: &Boxes, answer: &Answer) -> Option<[usize; 2]> {
        let stages = &answer.stages;
        let mut kinds = vec![];
        if answer.refusal != 0 {
            kinds.push(0);
        } else {
            kinds.extend((0..boxes.count()).map(|b| told(stages, b).fate as usize));
            kinds.extend((stages.scores[0] != stages.scores[2]).then_some(5));
        }
        kinds.sort();
        kinds.dedup();
        let wanted = kinds.iter().any(|&k| self.0[k] < 2);
        if wanted {
            kinds.iter().for_each(|&k| self.0[k] += 1);
        }
        wanted.then_some([0, boxes.count() + 1])
    }
}

fn name(scene: &Scene) -> String {
    format!("scene {} {}", scene.number, KINDS[scene.kind])
}

/// Works a scene, and hands each frame on.
fn play(s: usize, audience: &mut impl Audience) {
    play_scene(scenes::scene(s), "", Some(Asks::default()), audience);
}

/// The same scene with confidences capped: the boxes, the lengths and the table are those without.
fn play_capped(s: usize, audience: &mut impl Audience) {
    let mut scene = scenes::scene(s);
    scene.settings.flags |= CAP;
    play_scene(scene, " capped", None, audience);
}

/// A frame, before which its boxes are asked about where these are wanted.
fn work(f: usize, scene: &mut Scene, table: &mut Table, asks: Option<&mut Asks>, audience: &mut impl Audience) {
    let boxes = scene.boxes(f);
    let lengths = scene.lengths(f, table.state.count as usize, boxes.count());
    let answer = table.update(&boxes, lengths);
    if let Some(which) = asks.and_then(|asks| asks.of(&boxes, &answer)) {
        audience.asked(&boxes, &answer, lengths, which);
    }
    audience.frame(&boxes, table, &answer, lengths);
}

fn forget(drop: &Drop, table: &mut Table, audience: &mut impl Audience) {
    let refusal = table.forget(&drop.ids);
    audience.drop(drop, table, refusal);
}

fn play_scene(mut scene: Scene, how: &str, mut asks: Option<Asks>, audience: &mut impl Audience) {
    let mut table = scene.start();
    audience.begins(&(name(&scene) + how), &table);
    (0..scene.frames).for_each(|f| work(f, &mut scene, &mut table, asks.as_mut(), audience));
}

/// A scene with drops between its frames.
fn play_dropped(s: usize, audience: &mut impl Audience) {
    let mut scene = scenes::scene(s);
    let mut table = scene.start();
    audience.begins(&(name(&scene) + " with drops"), &table);
    for f in 0..scene.frames {
        work(f, &mut scene, &mut table, None, audience);
        if let Some(drop) = drops::after(s, f, &table) {
            forget(&drop, &mut table, audience);
        }
    }
}

/// Every scene, every single call, asked about at its last box and behind it, the scenes with capped confidences, those with
/// drops, and every single drop.
fn play_all(audience: &mut impl Audience) {
    (0..SCENES).for_each(|s| play(s, audience));
    for Single { mask, mut table, boxes, lengths } in refusals::all() {
        audience.begins(&format!("edits {mask:x}"), &table);
        let answer = table.update(&boxes, lengths);
        audience.asked(&boxes, &answer, lengths, [boxes.count().saturating_sub(1), 2]);
        audience.frame(&boxes, &table, &answer, lengths);
    }
    CAPPED.iter().for_each(|&s| play_capped(s, audience));
    DROPPED.iter().for_each(|&s| play_dropped(s, audience));
    for drops::Single { name, mut table, drop } in drops::singles() {
        audience.begins(&name, &table);
        forget(&drop, &mut table, audience);
    }
}

// ---- the fixed list

#[derive(Default)]
struct Input(Records);

impl Audience for Input {
    fn begins(&mut self, name: &str, table: &Table) {
        self.0.table(name, table);
    }

    fn frame(&mut self, boxes: &Boxes, _: &Table, _: &Answer, lengths: [usize; 3]) {
        self.0.frame(boxes, lengths);
    }

    fn drop(&mut self, drop: &Drop, _: &Table, _: u32) {
        self.0.drop(drop);
    }

    fn asked(&mut self, boxes: &Boxes, _: &Answer, lengths: [usize; 3], which: [usize; 2]) {
        self.0.ask(boxes, lengths, which);
    }
}

#[derive(Default)]
struct Lines(String);

impl Audience for Lines {
    fn begins(&mut self, name: &str, table: &Table) {
        self.0 += &(lines::table(name, table) + "\n");
    }

    fn frame(&mut self, boxes: &Boxes, table: &Table, answer: &Answer, lengths: [usize; 3]) {
        self.0 += &(lines::frame(boxes, table, answer, lengths) + "\n");
    }

    fn drop(&mut self, drop: &Drop, table: &Table, refusal: u32) {
        self.0 += &(lines::drop(&drop.ids, table, refusal) + "\n");
    }

    fn asked(&mut self, boxes: &Boxes, answer: &Answer, lengths: [usize; 3], [first, count]: [usize; 2]) {
        (first..first + count).for_each(|index| self.0 += &(lines::asked(boxes, answer, lengths, index) + "\n"));
    }
}

// ---- what is asked of a scene

#[derive(Default)]
struct Finite {
    accepted: usize,
    finite: usize,
}

impl Audience for Finite {
    fn begins(&mut self, _: &str, _: &Table) {}

    fn frame(&mut self, _: &Boxes, _: &Table, answer: &Answer, _: [usize; 3]) {
        self.accepted += (answer.refusal == 0) as usize;
        self.finite += (answer.refusal == 0 && answer.finite) as usize;
    }

    fn drop(&mut self, _: &Drop, _: &Table, _: u32) {}
}

fn finite() {
    let (mut all, mut all_finite) = (0, 0);
    for s in 0..SCENES {
        let mut seen = Finite::default();
        play(s, &mut seen);
        let Finite { accepted, finite } = seen;
        println!("{}: {accepted} accepted, {finite} finite", name(&scenes::scene(s)));
        (all, all_finite) = (all + accepted, all_finite + finite);
    }
    println!("all: {all} accepted, {all_finite} finite");
}

struct Whole;

fn show(name: &str, floats: &[f32]) {
    println!("  {name}{}", floats.iter().map(|&x| format!(" {:08x}", bits(x))).collect::<String>());
}

impl Audience for Whole {
    fn begins(&mut self, name: &str, table: &Table) {
        println!("{}", lines::table(name, table));
    }

    fn frame(&mut self, boxes: &Boxes, table: &Table, answer: &Answer, lengths: [usize; 3]) {
        println!("{}", lines::frame(boxes, table, answer, lengths));
        boxes.each().for_each(|(b, label)| show(&format!("box {label}"), &b));
        answer.records.iter().for_each(|r| show(&format!("record {} {} {}", r.frame, r.id, r.label), &r.floats));
        for i in 0..table.state.count as usize {
            let name = format!("track {:?} {}", &table.counters[4 * i..4 * i + 4], table.labels[i]);
            show(&name, &table.floats[24 * i..24 * i + 24]);
        }
    }

    fn drop(&mut self, _: &Drop, _: &Table, _: u32) {}
}

fn main() {
    let words: Vec<String> = std::env::args().skip(1).collect();
    let mut out = std::io::stdout();
    match words.iter().map(|w| w.as_str()).collect::<Vec<_>>()[..] {
        ["stdin"] => {
            let mut input = Input::default();
            play_all(&mut input);
            out.write_all(&input.0.0).expect("records written");
        }
        ["vectors"] => {
            let mut lines = Lines::default();
            play_all(&mut lines);
            out.write_all(lines.0.as_bytes()).expect("lines written");
        }
        ["finite"] => finite(),
        ["whole", s] => play(s.parse().expect("the number of a scene"), &mut Whole),
        _ => panic!("stdin, vectors, finite or whole SCENE"),
    }
}
