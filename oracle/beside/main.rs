//! Runs the port beside the published Rust on random inputs. oracle/compare builds and calls it:
//!
//!     beside FOLDER TRACKBOX BOOSTS MOTBOX [--seed S] [--minutes M] [--inputs N] [--first] [--all] [--replay FILE]
//!            [KIND ..]
//!
//! FOLDER is where differences are written; TRACKBOX, BOOSTS and MOTBOX are the programs trackbox, boosts_vectors and
//! motbox.

mod boosts;
mod case;
mod drops;
mod floats;
mod frames;
mod lapjv;
mod lent;
mod mot;
mod pairing;
mod port;
mod program;
mod report;
mod strack;
mod streams;
mod why;

use case::Case;
use oracle::random::Random;
use report::{Found, Report, caught};
use std::time::{Duration, Instant};

const KINDS: [&str; 11] =
    ["floats", "lapjv", "assoc", "strack", "boosts", "frames", "why", "drops", "streams", "mot", "texts"];

struct Wanted {
    folder: String,
    trackbox: String,
    boosts: String,
    motbox: String,
    seed: u64,
    /// For all kinds together.
    minutes: f64,
    /// Of each kind, at most.
    inputs: u64,
    /// Stop at the first difference.
    first: bool,
    all: bool,
    replay: Option<String>,
    kinds: Vec<&'static str>,
}

fn number<T: std::str::FromStr>(word: Option<String>) -> T {
    word.and_then(|word| word.parse().ok()).unwrap_or_else(|| stop("a number is missing"))
}

fn stop<T>(message: &str) -> T {
    eprintln!("compare: {message}");
    std::process::exit(2)
}

fn wanted() -> Wanted {
    let mut words = std::env::args().skip(1);
    let mut named = |what: &str| words.next().expect(what);
    let folder = named("a folder");
    let [trackbox, boosts, motbox] = ["trackbox", "boosts_vectors", "motbox"].map(&mut named);
    let (seed, minutes, inputs) = (1, 1.0, u64::MAX);
    let (first, all, replay, kinds) = (false, false, None, vec![]);
    let mut wanted = Wanted { folder, trackbox, boosts, motbox, seed, minutes, inputs, first, all, replay, kinds };
    while let Some(word) = words.next() {
        match word.as_str() {
            "--seed" => wanted.seed = number(words.next()),
            "--minutes" => wanted.minutes = number(words.next()),
            "--inputs" => wanted.inputs = number(words.next()),
            "--first" => wanted.first = true,
            "--all" => wanted.all = true,
            "--replay" => wanted.replay = words.next(),
            kind => match KINDS.iter().find(|&&known| known == kind) {
                Some(known) => wanted.kinds.push(known),
                None => stop(&format!("no kind {kind}; there are {}", KINDS.join(", "))),
            },
        }
    }
    if wanted.kinds.is_empty() {
        wanted.kinds = KINDS.to_vec();
    }
    wanted
}

/// One draw of a kind: a call, a stream, or a scene of frames, with drops or without.
fn draw(kind: &str, random: &Random, wanted: &Wanted, report: &mut Report) {
    match kind {
        "floats" => floats::run(random, report),
        "lapjv" => lapjv::run(random, report),
        "assoc" => pairing::run(random, report),
        "strack" => strack::run(random, report),
        "boosts" => boosts::run(random, &wanted.boosts, report),
        "frames" => frames::run(random, report),
        "why" => why::run(random, report),
        "drops" => drops::run(random, report),
        "mot" => mot::run(random, report),
        "texts" => mot::run_text(random, &wanted.motbox, report),
        _ => streams::run(random, &wanted.trackbox, report),
    }
}

fn run(kind: &'static str, wanted: &Wanted) -> Report {
    let mut report = Report::new(kind, &wanted.folder);
    let random = Random::new(kind, wanted.seed);
    let share = Duration::from_secs_f64(60.0 * wanted.minutes / wanted.kinds.len() as f64);
    let start = Instant::now();
    if kind == "floats" && wanted.all {
        floats::all(&mut report);
    }
    while start.elapsed() < share && report.inputs() < wanted.inputs && !(wanted.first && report.failed > 0) {
        draw(kind, &random, wanted, &mut report);
    }
    report
}

fn replay(file: &str, wanted: &Wanted) -> Found {
    let case = Case::read(&std::fs::read_to_string(file).map_err(|error| format!("{file}: {error}"))?);
    caught(|| match case.kind.as_str() {
        "floats" => floats::check(&case),
        "lapjv" => lapjv::check(&case),
        "assoc" => pairing::check(&case),
        "strack" => strack::check(&case),
        "boosts" => boosts::check(&case, &wanted.boosts),
        "frames" => frames::check(&case),
        "why" => why::check(&case),
        "drops" => drops::check(&case),
        "mot" => mot::check(&case),
        "texts" => mot::check_text(&case, &wanted.motbox),
        _ => streams::check(&case, &wanted.trackbox),
    })
}

fn main() {
    let wanted = wanted();
    // A panic of the Rust, or of a guard zone, is reported as a difference.
    std::panic::set_hook(Box::new(|_| {}));
    let (mut passed, mut failed) = (0, 0);
    if let Some(file) = &wanted.replay {
        let found = replay(file, &wanted);
        println!("{}", found.as_ref().err().map_or("equal as far as is asked", |what| what));
        (passed, failed) = (found.is_ok() as u64, found.is_err() as u64);
    } else {
        for kind in &wanted.kinds {
            let report = run(kind, &wanted);
            println!("{}{}", report.line(), report.refusals());
            (passed, failed) = (passed + report.passed, failed + report.failed);
        }
    }
    println!("{passed} passed, {failed} failed");
    std::process::exit((failed > 0) as i32);
}
