//! Listings for other assemblers: whole listings, programs on the edges, texts that are spelled, and streams that fail.

mod edges;
mod listings;
mod streams;
