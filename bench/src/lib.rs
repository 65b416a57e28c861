//! The proved exchange beside a plain Rust one.

pub mod arguments;
pub mod draw;
pub mod lemon;
pub mod plain;
pub mod proved;
pub mod tables;
pub mod timing;
