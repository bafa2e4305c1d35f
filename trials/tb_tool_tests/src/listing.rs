//! Listings, labels and maps of whole programs.
mod back;
mod builds;
mod texts;
