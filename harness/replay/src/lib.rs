//! Drives the proved static libraries, and holds them to outside answers. It calls the archive's own functions, `keldurap_raw_..`, which compute in the
//! caller's floating-point mode: this process never leaves the default one.
pub mod books;
pub mod events;
pub mod jobs;
mod listing;
pub mod options;
pub mod room;
pub mod roots;
pub mod sizes;
mod stream;
pub mod tables;

/// How many floats and how many numbers a node has in the table's two slices.
pub const FLOATS: usize = 4;
pub const NUMBERS: usize = 6;
