//! The library once more in plain Rust, to be measured beside it: the same checks, by the same kind of scans, with no heap and no table of marks.
mod asks;
pub mod face;
mod moves;
mod old;
mod outline;
mod places;
pub mod record;
mod saved;
pub mod script;
mod traverse;
mod windows;
