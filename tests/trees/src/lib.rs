//! Flattened trees to take in: stored ones, random ones, ones of which one thing is
//! wrong, and pairs of a board's and a service tree. They are put together here, from
//! nodes to tokens to bytes; nothing here reads a tree, so that a reader that took a good
//! one for a bad one would be noticed.

pub mod broken;
pub mod node;
pub mod random;
pub mod rng;
pub mod service;
pub mod sketch;
pub mod stored;

pub use broken::Break;
pub use node::{Ask, Node, Tree};
pub use service::{Aim, Correction, Pair};
pub use sketch::{Part, Piece, Sketch};
