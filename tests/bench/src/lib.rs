//! The proved planner's speed beside a frozen baseline in plain Rust.

pub mod baseline;
pub mod measure;
pub mod pairs;
pub mod sides;
pub mod subjects;
