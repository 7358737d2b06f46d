//! Blocks written a call, measured over the workloads of the paper (document 004,
//! Sections III-E and V): the numbers and the plot of `docs/BLOCKS-WRITTEN.md`.

pub mod chosen;
pub mod measure;
pub mod plot;
pub mod requests;
pub mod tables;
