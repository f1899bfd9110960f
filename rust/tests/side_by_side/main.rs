//! The linked library beside the model: every status, rule, value, word, `top`, answer word and byte of a
//! text or a file.
//!
//! Random numbers are repeatable; `ZELMOTAR_SEED` sets another seed than the usual one. A case that
//! differs is made smaller by dropping calls, then printed. In order:
//!
//! - [`worked`]: rows that are worked out by hand.
//! - [`face`]: the safe wrapper, its enums and its stores.
//! - [`terms`]: its iterator, and terms written and compared.
//! - [`batches`]: random stores, sound and damaged, with random lists and answer spaces.
//! - [`prints`]: random registers, printed into text spaces of every length.
//! - [`types`]: random texts, typed into stores that have about as much room as they need.
//! - [`pieces`]: texts that come in pieces, cut at random, and what is kept of them with any numbers in it.
//! - [`files`]: random stores saved as files, and files of every kind loaded.
//! - [`zeros`]: code 0, in calls, texts, cells and files.
//! - [`rules`]: the rule that a damaged cell breaks, as every function tells it.
//! - [`room`]: calls and texts on nearly full stores, where what a register holds makes room or does not.
//! - [`meaning`]: call for call, and text for text, against expressions with no addresses.
//! - [`alike`]: stores that differ in dead cells, collections and cuts between batches only.
//! - [`bytes`]: raw bytes as store, calls, answer space, text and file.
//!
//! [`act`], [`case`], [`guarded`], [`pages`], [`shrink`] and [`tally`] serve these. Cases lend their words
//! and bytes between pages that fault when touched.

mod act;
mod alike;
mod batches;
mod bytes;
mod case;
mod face;
mod files;
mod guarded;
mod meaning;
mod pages;
mod pieces;
mod prints;
mod room;
mod rules;
mod shrink;
mod tally;
mod terms;
mod types;
mod worked;
mod zeros;
