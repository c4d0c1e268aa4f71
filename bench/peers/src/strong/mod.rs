//! The same loader as an engineer writes it who wants speed: the calls of `desk` and `loader`, with the same replies.
//!
//! - A key has its hash, made once, and its texts in place up to 21 bytes, so a copy of one makes no block of memory.
//! - The memo has eight bytes for a slot. A key that was cleared keeps its slot, so its newest batch is known without a search.
//! - A batch is a chain of cells, without a block of its own.
//! - An event has eight bytes: what it says besides is read from the cells once a history is asked for.
//! - Outcomes never move, so a ticket borrows its cell's, and reads it without the lock.

pub mod desk;
pub mod loader;
mod memo;
mod outcomes;
pub mod value;
