//! The parts of `zelmotar-cli`, the store at the command line.
//!
//! The proved library does the work, through the package `zelmotar`: what is here reads texts, asks
//! the library, and shows what it answers.
//!
//! - [`args`], [`input`], [`outcome`]: arguments, files, and how a command ends
//! - [`call`], [`batch`]: calls and batches as they are written; [`steps`] runs them one by one
//! - [`dump`]: a store in a file; [`cells`]: what the words of a cell say
//! - [`run`], [`ask`], [`show`], [`mod@print`], [`typing`], [`count`], [`check`], [`draw`], [`save`],
//!   [`load`]: a command each
//! - [`svg`], [`plots`]: drawings, and those of docs/BENCHMARKS.md

#![warn(missing_docs)]
#![forbid(unsafe_code)]

pub mod args;
pub mod ask;
pub mod batch;
pub mod call;
pub mod cells;
pub mod check;
pub mod count;
pub mod draw;
pub mod dump;
pub mod expression;
pub mod input;
pub mod load;
pub mod outcome;
pub mod plots;
pub mod print;
pub mod run;
pub mod save;
pub mod show;
pub mod steps;
pub mod svg;
pub mod typing;
