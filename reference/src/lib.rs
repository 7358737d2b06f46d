//! The reference implementation of the flash record store of document 01
//! ("The record store of a brake tester console") with cards 1, 3 and 5 of document
//! 02, written from these documents and the lists of readings alone. It is plain on
//! purpose: it is the other side of a comparison. Standard library only.
//!
//! Words of this code and of document 01: a *tombstone* is the document's delete
//! mark, a *slot* is its place, the *allocation cursor* is its hand, a
//! *compaction* is its compacting. Run, overlap, level, block and live are the
//! document's own.

#![forbid(unsafe_code)]

pub mod block;
pub mod borders;
pub mod breach;
pub mod calls;
pub mod cascade;
pub mod choose;
pub mod damage;
pub mod fast;
mod fault;
pub mod form;
pub mod generate;
pub mod geometry;
pub mod layout;
pub mod level;
pub mod merge;
pub mod random;
pub mod readings;
pub mod script;
pub mod unreachable;
pub mod work;
pub mod workloads;

#[cfg(test)]
mod tests;
