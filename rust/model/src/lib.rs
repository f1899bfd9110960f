//! A model of the expression store, for tests and benchmarks only.
//!
//! It is written from the rules of the store and shares no code with the proved library. Nothing
//! here is linked into what a user of the package builds. In order:
//!
//! - [`plain`]: the store in words, with an ordinary collector, written to be compared with the
//!   rules by eye. It says what every word must be.
//! - [`trees`]: expressions with no addresses. It says what every call means, what is printed, and what a
//!   text means and takes that is typed in.
//! - [`pieces`]: a text that comes in pieces, by the rules of the numbers that are kept of it.
//! - [`files`]: the store as a file, saved and loaded.
//! - [`ordinary`]: the same store written for speed, the measure of the benchmarks.
//! - [`random`]: repeatable random numbers.
//! - [`make`]: random stores, damage, call lists, text spaces, texts, pieces and files.
//!
//! The tests of this package hold [`plain`], [`trees`] and [`ordinary`] against each other,
//! [`pieces`] against the whole text, [`files`] against what is said of a file, and the rules of cells
//! against cells that are made to break them, and need no library.

#![warn(missing_docs)]
#![forbid(unsafe_code)]

pub mod files;
pub mod make;
pub mod ordinary;
pub mod pieces;
pub mod plain;
pub mod random;
pub mod trees;
