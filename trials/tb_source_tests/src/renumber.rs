//! Sources that get other line numbers: worked rows, refusals, streams that fail, and generated sources.

mod generated;
mod rows;
mod streams;
