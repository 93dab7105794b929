//! Puts rect.rs and kalman_filter.rs beside the program as they are, and strack.rs changed by the list of this folder.

fn main() {
    sources::take_whole("rect.rs");
    sources::take_whole("boost_tracker/kalman_filter.rs");
    sources::take("boost_tracker/strack.rs", &["strack/published.list"]);
    sources::copy("strack/modules.rs", "modules.rs");
}
