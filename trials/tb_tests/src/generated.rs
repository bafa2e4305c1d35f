//! Generated programs, small and large: each sends what its source sends.
mod grammar;
mod jumping;
mod large;
mod pieces;
mod played;
pub mod programs;
pub mod trials;
