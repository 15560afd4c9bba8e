//! The library: a plain tick-by-tick scheduler, its table image, its program and its border pairs.

pub mod borders;
pub mod image;
pub mod program;
pub mod refusal;
pub mod state;
pub mod steps;
pub mod table;
