//! Rows of the assembler, the disassembler, PRG files and the engines that compile nothing.
pub mod assembly;
pub mod block;
pub mod engines;
mod failing;
pub mod keys;
pub mod listings;
mod writing;
