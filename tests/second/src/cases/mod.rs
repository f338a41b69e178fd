//! Seeded random cases, and the lists of cases that every run tries.

pub mod sheets;
pub mod tables;
pub mod trees;
