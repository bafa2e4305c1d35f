//! Profiles of sources, compared with tables that an independent processor counted, pages, PRG files by address, and
//! streams that fail.
mod pages;
mod prgs;
mod programs;
mod streams;
mod tables;
