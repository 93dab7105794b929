//! Drops of document 02's N11: the scenes of crates/boost_tracker_vectors that have drops between their frames, and single
//! drops that are turned away, or nearly.

use crate::frame::Table;
use crate::refusals;
use crate::scenes::JUNK;

/// The scenes that are worked once more with drops: from an empty table and from one that holds tracks, with a place for
/// each and with few places, with one label and with three.
pub const DROPPED: [usize; 8] = [1, 4, 14, 27, 38, 64, 80, 85];

/// The ids of a drop, and whether it goes by `forget`, which takes one.
#[derive(Clone)]
pub struct Drop {
    pub ids: Vec<u64>,
    pub single: bool,
}

impl Drop {
    fn of(ids: &[u64]) -> Drop {
        Drop { ids: ids.to_vec(), single: false }
    }
}

/// The drop that follows every fourth frame of such a scene, of the tracks that are held then; a list of one id goes by
/// `forget` in every second turn.
pub fn after(scene: usize, frame: usize, table: &Table) -> Option<Drop> {
    if frame % 4 != 3 {
        return None;
    }
    let turn = frame / 4;
    let held = table.ids();
    let first = held.first().copied().unwrap_or(0);
    let gone = (1..=table.state.last).find(|id| !held.contains(id)).unwrap_or(table.state.last + 1);
    let ids = match (turn + scene) % 8 {
        0 => held.iter().rev().step_by(3).copied().collect(),
        1 => vec![first],
        2 => vec![first, table.state.last + 1],
        3 => held.last().copied().into_iter().collect(),
        4 => vec![],
        5 => [&held[..], &[gone, first]].concat(),
        6 => held.iter().skip(1).chain(held.first()).copied().collect(),
        _ => vec![gone],
    };
    let single = ids.len() == 1 && turn % 2 == 0;
    Some(Drop { ids, single })
}

// ---- single drops

/// A drop by itself, with what was changed in the table before.
pub struct Single {
    pub name: String,
    pub table: Table,
    pub drop: Drop,
}

/// What is changed in a table of the tracks 2, 4 and 6 with the labels 1, 2 and 3, in six places; the last id is 9, and 20
/// frames are worked. The places beyond, and a few cells past the places, hold 7.
type Edit = (&'static str, fn(&mut Table));

/// What a frame would be turned down for too, then what is just accepted, and what a drop does not look at.
const EDITS: [Edit; 22] = [
    ("count 7", |t| t.state.count = 7),
    ("count 4", |t| t.state.count = 4),
    ("id 0", |t| t.counters[0] = 0),
    ("id 2 twice", |t| t.counters[4] = 2),
    ("last id 5", |t| t.state.last = 5),
    ("last id 5101", |t| t.state.last = 5101),
    ("time since update 21", |t| t.counters[5] = 21),
    ("streak 21", |t| t.counters[10] = 21),
    ("age 21", |t| t.counters[3] = 21),
    ("two labels", |t| t.labels.truncate(2)),
    ("label 0", |t| t.labels[0] = 0),
    ("label 4", |t| t.labels[2] = 4),
    ("label 0, id 0", |t| (t.labels[0], t.counters[0]) = (0, 0)),
    ("last id 6", |t| t.state.last = 6),
    ("last id 5100", |t| t.state.last = 5100),
    ("counters 20", |t| t.counters[5..8].fill(20)),
    ("three labels", |t| t.labels.truncate(3)),
    ("four places by the counters", |t| t.counters.truncate(19)),
    ("five places by the floats", |t| t.floats.truncate(24 * 6 - 1)),
    ("count 2", |t| t.state.count = 2),
    ("a NaN, an infinity, -0", |t| (t.floats[0], t.floats[24], t.floats[48]) = (f32::NAN, f32::INFINITY, -0.0)),
    ("2147483647 frames", |t| t.state.frames = 2147483647),
];

/// Of the table as it is. 7 is the id in the places beyond, 9 the last one given, and 4294967300 has the lower half of 4.
const LISTS: [&[u64]; 28] = [
    &[],
    &[2],
    &[4],
    &[6],
    &[2, 4],
    &[6, 2],
    &[4, 6],
    &[6, 4, 2],
    &[2, 4, 6],
    &[0],
    &[1],
    &[5],
    &[7],
    &[9],
    &[10],
    &[4294967300],
    &[u64::MAX],
    &[2, 4, 5],
    &[5, 4, 2],
    &[2, 4, 6, 7],
    &[1, 2, 3, 4],
    &[4, 4],
    &[2, 4, 6, 2],
    &[2, 4, 4, 6],
    &[5, 5],
    &[0, 0],
    &[7, 2, 7],
    &[2, 5, 4, 5],
];

/// The lists that are tried after each edit: accepted, none, an id not held, an id twice, and that twice and not held.
const AFTER_EDITS: [&[u64]; 5] = [&[4], &[], &[5], &[4, 4], &[5, 5]];

fn base() -> Table {
    let mut table = refusals::base_table();
    table.labels[..3].copy_from_slice(&[1, 2, 3]);
    table
}

/// 255 tracks in as many places, with the ids 1, 4, 7 and so on; past the places the next id, 766, and other cells.
fn full() -> Table {
    let mut table = base();
    let track = table.floats[..24].to_vec();
    table.floats = (0..255 * 24 + 23).map(|k| track[k % 24] + (k / 24) as f32).collect();
    table.counters = (0..256).flat_map(|k| [3 * k + 1, k % 20, 3, 10]).take(255 * 4 + 3).collect();
    table.labels = (0..257).map(|k| 1 + (k % 3) as u8).collect();
    (table.state.count, table.state.last) = (255, 763);
    table
}

/// Half of the held ids; all of them, the last first; these and the one past the places, or one of them again; 300 numbers.
fn of_full() -> [Vec<u64>; 5] {
    let held = full().ids();
    let half = held.iter().step_by(2).copied().collect();
    let all: Vec<u64> = held.iter().rev().copied().collect();
    [half, all.clone(), [&all[..], &[766]].concat(), [&all[..], &all[254..]].concat(), (1..301).collect()]
}

pub fn singles() -> Vec<Single> {
    let single = |name: &str, table: Table, drop: Drop| Single { name: format!("drop, {name}"), table, drop };
    let lists = LISTS.iter().map(|ids| single("as it is", base(), Drop::of(ids)));
    let alone = LISTS.iter().filter(|ids| ids.len() == 1);
    let by_forget = alone.map(|ids| single("by forget", base(), Drop { single: true, ..Drop::of(ids) }));
    let edited = EDITS.iter().flat_map(|(name, edit)| {
        AFTER_EDITS.iter().map(move |ids| {
            let mut table = base();
            edit(&mut table);
            single(name, table, Drop::of(ids))
        })
    });
    let large = of_full().into_iter().map(|ids| single("255 tracks", full(), Drop { ids, single: false }));
    lists.chain(by_forget).chain(edited).chain(large).collect()
}

const _: () = assert!(JUNK == 7, "an id of the places beyond is among the lists");
