//! The engines that compile, over streams that fail, and over sources and commands that are cut off.
mod commands;
mod engines;
mod failing;
mod lengths;
mod prgs;
