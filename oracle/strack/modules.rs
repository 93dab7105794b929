// The published files in their places.

#[allow(warnings)]
mod boost_tracker {
    pub mod kalman_filter;
    pub mod strack;
}
#[allow(warnings)]
mod rect;
