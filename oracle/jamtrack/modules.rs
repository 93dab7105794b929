// The modules of jamtrack-rs that BoostTracker uses, in their places.

pub mod boost_tracker {
    pub mod assoc;
    pub mod boost_tracker;
    pub mod ecc;
    pub mod kalman_filter;
    pub mod strack;
}
pub mod byte_tracker {
    pub mod strack;
}
pub mod counters;
pub mod error;
pub mod labels;
pub mod lapjv;
pub mod object;
pub mod rect;
