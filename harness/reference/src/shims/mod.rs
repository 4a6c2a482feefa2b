//! Stand-ins for what the published files lean on.

pub mod errors;
pub mod floats;
pub mod lists;
pub mod track;
pub mod train;
