//! Puts the published files in their places, changed by the lists of this folder, and what is ours beside them.

fn main() {
    let of_tracker = ["jamtrack/boost_tracker.list", "jamtrack/stages.list", "jamtrack/labels_tracker.list"];
    sources::take("boost_tracker/boost_tracker.rs", &of_tracker);
    let of_pairing =
        ["jamtrack/assoc.list", "jamtrack/areas.list", "jamtrack/labels_assoc.list", "jamtrack/stages_assoc.list"];
    sources::take("boost_tracker/assoc.rs", &of_pairing);
    sources::take("boost_tracker/strack.rs", &["jamtrack/strack.list"]);
    sources::take("boost_tracker/kalman_filter.rs", &["jamtrack/kalman_filter.list"]);
    sources::take("lapjv.rs", &["jamtrack/counters.list"]);
    for file in ["error.rs", "object.rs", "rect.rs"] {
        sources::take_whole(file);
    }
    sources::copy("jamtrack/modules.rs", "modules.rs");
    sources::copy("jamtrack/counters.rs", "counters.rs");
    sources::copy("jamtrack/labels.rs", "labels.rs");
    sources::copy("jamtrack/ecc.rs", "boost_tracker/ecc.rs");
    sources::copy("jamtrack/byte_strack.rs", "byte_tracker/strack.rs");
    sources::copy("jamtrack/tracker.rs", "boost_tracker/boost_tracker/inside.rs");
    sources::copy("jamtrack/track.rs", "boost_tracker/strack/inside.rs");
}
