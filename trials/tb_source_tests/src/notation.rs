//! Sources with signs: whole outputs, refusals, and generated texts there and back.

mod generated;
mod refusals;
mod shown;
