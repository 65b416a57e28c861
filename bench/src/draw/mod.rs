//! Inputs drawn from a seed, and the tickets of the benchmark.

pub mod calls;
pub mod changes;
pub mod damage;
pub mod generator;
pub mod old_caps;
pub mod settlements;
pub mod shapes;
pub mod tickets;
pub mod windows;
