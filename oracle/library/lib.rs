//! What the programs beside the port share: inputs, scenes and streams, the published files called on them, the scope
//! document's refusals and rules written from its words, digests, and the records and lines of the fixed lists.

pub mod boosts;
pub mod boxes;
pub mod call;
pub mod digest;
pub mod drawn;
pub mod drops;
pub mod frame;
pub mod input;
pub mod inputs;
pub mod lines;
pub mod matrices;
pub mod mot;
pub mod overlap;
pub mod random;
pub mod records;
pub mod refusals;
pub mod rules;
pub mod scenes;
pub mod streams;
pub mod tables;
pub mod verdict;
pub mod why;
