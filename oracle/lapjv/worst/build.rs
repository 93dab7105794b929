//! Puts lapjv.rs beside the program, with the counts of turns and scans and that of the passes of all innermost loops.

fn main() {
    let counted = sources::substituted(&sources::published("lapjv.rs"), "jamtrack/counters.list");
    sources::put(&sources::substituted(&counted, "lapjv/worst/passes.list"), "passes.rs");
}
