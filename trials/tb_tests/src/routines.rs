//! Each routine of the block by itself: on a machine that holds the block and a caller of one call, with a quiet and a
//! rude ROM.
mod arithmetic;
mod input;
mod returns;
mod searching;
mod sending;
mod setup;
mod stopping;
