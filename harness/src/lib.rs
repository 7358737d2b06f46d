//! The verified store, called over its static library and held against the two
//! implementations of `reference`: `damage` looks for a difference on damaged
//! stores, `walks` in histories of calls with stretches and forecasts between them,
//! `bench` compares times.

pub mod asked;
pub mod calls;
pub mod cold;
pub mod compare;
pub mod forecasts;
pub mod harm;
pub mod log;
pub mod maker;
pub mod measure;
pub mod planted;
pub mod search;
pub mod stretches;
pub mod table;
pub mod tickets;
pub mod walks;

#[cfg(test)]
mod tests;
