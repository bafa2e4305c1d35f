//! Disk images and their engine: what `cc1541` makes of the same files, what a disk can hold at most, names, refusals,
//! and streams that fail.
mod engine;
mod rows;
