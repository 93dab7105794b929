//! Drops from a table of 255 places that holds 255 tracks, of the ids 1 to 255.
//!
//!     driver              passes and times of each list
//!     driver once LIST    one call, for a tool that counts instructions
//!
//! A list is one, an id by bedside_forget; all, every id, the last one first; held, a million ids, 1 to 255 again and again;
//! or a number of ids none of which is held or stands twice.

#[path = "../clock.rs"]
mod clock;

use clock::{median, thread_time};

const PLACES: usize = 255;

#[derive(Clone, Copy)]
#[repr(C)]
struct State {
    count: u64,
    last_id: u64,
    frame_count: u64,
}

#[repr(C)]
struct Forgotten {
    refusal: u32,
    state: State,
}

#[link(name = "bedside", kind = "static")]
unsafe extern "C" {
    fn bedside_forget(
        state: State, floats: *mut f32, floats_len: usize, counters: *mut u64, counters_len: usize, labels: *mut u8,
        labels_len: usize, id: u64,
    ) -> Forgotten;
    fn bedside_forget_set(
        state: State, floats: *mut f32, floats_len: usize, counters: *mut u64, counters_len: usize, labels: *mut u8,
        labels_len: usize, ids: *const u64, ids_len: usize,
    ) -> Forgotten;
}

struct Table {
    floats: Vec<f32>,
    counters: Vec<u64>,
    labels: Vec<u8>,
}

impl Table {
    fn full() -> Table {
        let counters = (0..PLACES as u64).flat_map(|k| [k + 1, 0, 1, 1]).collect();
        Table { floats: vec![1.0; 24 * PLACES], counters, labels: vec![1; PLACES] }
    }
}

struct List {
    ids: Vec<u64>,
    single: bool,
    refusal: u32,
    /// of innermost loops, counted by hand (docs/LIMITS.md)
    passes: u64,
}

fn list(name: &str) -> List {
    let (h, p) = (PLACES as u64, PLACES as u64);
    match name {
        "one" => List { ids: vec![h], single: true, refusal: 0, passes: 5 * h + 29 * p },
        "all" => {
            let ids: Vec<u64> = (1..=h).rev().collect();
            List { ids, single: false, refusal: 0, passes: 2 * h + h * (h - 1) / 2 + 3 * h * h + 29 * p }
        }
        "held" => {
            let ids = (0..1_000_000).map(|k| 1 + k % h).collect();
            List { ids, single: false, refusal: 101, passes: 2 * h + h * (h - 1) / 2 + 1 }
        }
        _ => {
            let m: u64 = name.parse().expect("one, all or a number");
            let ids = (0..m).map(|k| h + 1 + k).collect();
            List { ids, single: false, refusal: 102, passes: 2 * h + m * (m - 1) / 2 + h }
        }
    }
}

#[inline(never)]
#[unsafe(no_mangle)]
fn call_port(list: &List, table: &mut Table) -> u32 {
    let Table { floats: f, counters: c, labels: l } = table;
    let state = State { count: PLACES as u64, last_id: PLACES as u64, frame_count: 1 };
    let (f, fs, c, cs, l, ls) = (f.as_mut_ptr(), f.len(), c.as_mut_ptr(), c.len(), l.as_mut_ptr(), l.len());
    // SAFETY: each pointer comes with its slice's length, and no two of the slices overlap.
    let answer = unsafe {
        if list.single {
            bedside_forget(state, f, fs, c, cs, l, ls, list.ids[0])
        } else {
            bedside_forget_set(state, f, fs, c, cs, l, ls, list.ids.as_ptr(), list.ids.len())
        }
    };
    assert!(answer.state.count == state.count || list.refusal == 0);
    answer.refusal
}

fn once(list: &List) -> f64 {
    let mut table = Table::full();
    let start = thread_time();
    let refusal = call_port(list, &mut table);
    let time = thread_time() - start;
    assert_eq!(refusal, list.refusal);
    time.as_nanos() as f64 / 1000.0
}

fn main() {
    let words: Vec<String> = std::env::args().skip(1).collect();
    match words.iter().map(String::as_str).collect::<Vec<_>>()[..] {
        [] => {
            println!("| list | passes | time, µs |");
            println!("|---|---|---|");
            let rounds = [("one", 1001), ("all", 1001), ("held", 61), ("255", 1001), ("1000", 1001), ("10000", 61), ("100000", 5)];
            for (name, rounds) in rounds {
                let list = list(name);
                let time = median((0..rounds).map(|_| once(&list)).collect());
                println!("| {name} | {} | {time:.1} |", list.passes);
            }
        }
        ["once", name] => println!("{:.1}", once(&list(name))),
        _ => panic!("usage: driver [once LIST]"),
    }
}
