//! Zelmotar is an expression store: symbols and brackets in a slice of words that the caller lends,
//! with sharing and a collector, and without an allocator.
//!
//! Its code is proved and linked as a static library. This package is its safe face in Rust and has
//! no dependencies. In short:
//!
//! - A **store** is a slice of 32-bit words, two to a cell, and a number `top`. It has 16 registers
//!   and up to [`MAX_CELLS`] cells, registers included.
//! - A **register** holds an expression: terms in order, each a symbol with a code or a bracket
//!   around an expression.
//! - A **call** changes a register or asks something. Calls run in batches. Each has an [`Answer`].
//! - A register is looked at where it lies, term by term, or printed as text into bytes that are lent.
//!   Such a text can be typed into a register again.
//! - A text that comes in [`Pieces`] is judged as it comes, and what it takes to type it in is known
//!   before anything is laid.
//! - A store is saved to a file, in bytes that are lent, and loaded from such bytes again.
//! - A store that has no room for a call collects itself first. No answer shows when it did.
//! - A damaged store is refused, with the first damaged cell and the [`Rule`] that it breaks.
//!
//! ```
//! use zelmotar::{Answer, Call, Counted, Pieces, Store};
//!
//! # fn main() -> Result<(), Box<dyn std::error::Error>> {
//! let mut store = Store::new(64)?;
//! let answers = store.run_all(&[
//!     Call::Symbol { d: 0, code: 65 },
//!     Call::Symbol { d: 1, code: 66 },
//!     Call::Join { d: 2, a: 0, b: 1 },
//!     Call::Wrap { d: 2, a: 2 },
//!     Call::Join { d: 2, a: 2, b: 0 },
//!     Call::Length { a: 2 },
//! ])?;
//! assert_eq!(answers[5], Answer::Value(2));
//! assert_eq!(store.look(2).to_string(), "(65 66) 65");
//! assert_eq!(store.print(2, &mut [0; 80])?, "(65 66) 65");
//! let text = Pieces::new().feed(b"(65 6").feed(b"6) 65");
//! assert_eq!(text.end()?, Counted { terms: 4, most: 2 });
//! store.type_str(3, "(65 66) 65")?;
//! assert_eq!(store.look(3), store.look(2));
//! let file = store.to_file()?;
//! assert_eq!(Store::from_file(&file)?, store);
//! # Ok(())
//! # }
//! ```
//!
//! # Without an allocator
//!
//! The package uses `core` alone if its feature `alloc`, which is on by default, is turned off.
//! What goes with it: `Store::new`, `Store::run`, `Store::run_all`, `Store::print_string`,
//! `Store::to_file` and `Store::from_file`, and that terms are written out and compared. A store in
//! lent words, [`Store::call`], [`Store::run_words`], [`Store::print`], [`Store::type_in`],
//! [`Store::save`] and [`Store::load`] allocate nothing, nor does [`Pieces`].
//!
//! The standard library is used only with the feature `std`, which is off by default. Then [`Pieces`]
//! is a `std::io::Write` too.
//!
//! # Linking
//!
//! The build looks for `libzelmotar.a` in the folder that the environment variable `ZELMOTAR_LIB`
//! names, which must be an absolute path: cargo builds in the package's folder, wherever it is called.
//! Where it is not set, or empty, the folder is `target/native` of the repository; there
//! `tools/archive target/native/libzelmotar.a` puts it.

#![no_std]
#![warn(missing_docs)]
#![deny(unsafe_code)]

#[cfg(feature = "alloc")]
extern crate alloc;
#[cfg(feature = "std")]
extern crate std;

mod answer;
mod call;
#[cfg(feature = "alloc")]
mod equal;
#[allow(unsafe_code)]
mod ffi;
mod pieces;
mod rule;
mod status;
#[cfg(feature = "alloc")]
mod stopped;
mod store;
mod terms;
mod trailer;

pub use answer::{Answer, Fault, Refusal};
pub use call::Call;
pub use pieces::{Counted, Pieces};
pub use rule::Rule;
pub use status::{status_text, Status, STATUSES};
#[cfg(feature = "alloc")]
pub use stopped::Stopped;
pub use store::Store;
pub use terms::{Term, Terms};
pub use trailer::{file_bytes, Trailer, EDITION};

/// The functions of the library as they are: slices go in, numbers come out.
///
/// They are what [`Store`] and [`Pieces`] are made of, for those who keep words and `top`, or the
/// numbers of a text in pieces, themselves. All take any words, any `top`, any register, any text, any
/// file and any such numbers; what is wrong is refused by number. A damaged cell comes with the number
/// of its [`Rule`].
///
/// ```
/// use zelmotar::raw;
///
/// let mut words = [7; 40];
/// let reply = raw::fresh(&mut words);
/// assert_eq!((reply.status, reply.top), (0, 16));
/// let mut answers = [0; 2];
/// let reply = raw::run(&mut words, reply.top, &[2, 0, 65, 0], &mut answers);
/// assert_eq!((reply.status, reply.top, answers), (0, 17, [0, 0]));
/// let span = raw::look(&words, reply.top, 0);
/// assert_eq!(words[span.from..span.to], [65, 0]);
/// let mut space = [7; 4];
/// let text = raw::print(&words, reply.top, 0, &mut space);
/// assert_eq!((text.status, text.length, space), (0, 2, *b"65\0\0"));
/// let typed = raw::type_in(&mut words, reply.top, 1, b"(65)");
/// assert_eq!((typed.status, typed.top), (0, 19));
/// assert_eq!(words[34..38], [65, 0, 17, 0x8000_0011]);
/// let mut file = [7; 170];
/// let saved = raw::save(&mut words, typed.top, &mut file);
/// assert_eq!((saved.status, saved.top, saved.length), (0, 19, 168));
/// assert_eq!(file[152..], [168, 0, 0, 0, 3, 0, 0, 0, 20, 0, 0, 0, 1, 0, 0, 0, 0, 0]);
/// let mut others = [7; 40];
/// let reply = raw::load(&mut others, &file[..saved.length]);
/// assert_eq!((reply.status, reply.top, others), (0, 19, words));
/// words[36] = 18; // The left end of cell 18, which lies above the right one now.
/// let reply = raw::check(&words, reply.top);
/// assert_eq!((reply.status, reply.rule, reply.value), (3, 5, 18));
/// let state = raw::text_feed(raw::text_start(), b"65 (6");
/// assert_eq!((state.stand, state.code, state.offset, state.depth), (2, 6, 5, 1));
/// assert_eq!((state.terms, state.own, state.most, state.counts[0]), (3, 1, 2, 2));
/// let counted = raw::text_end(raw::text_feed(state, b"6)"));
/// assert_eq!((counted.status, counted.terms, counted.most), (0, 3, 2));
/// ```
pub mod raw {
    pub use crate::ffi::{check, collect, fresh, load, look, print, run, save, type_in};
    pub use crate::ffi::{text_end, text_feed, text_start};
    pub use crate::ffi::{Counted, Pieces, Reply, Saved, Span, Text, Typed};
}

/// The number of registers.
pub const REGISTERS: usize = 16;

/// The address of the first heap cell, and so the `top` of a fresh store.
pub const FIRST_HEAP_CELL: usize = 16;

/// The largest capacity of a store, in cells.
pub const MAX_CELLS: usize = 4096;

/// The most calls in one batch.
pub const MAX_CALLS: usize = 1024;

/// The least code of a symbol: 0 is none, so that a word that was wiped is no symbol.
pub const MIN_CODE: u32 = 1;

/// The largest code of a symbol.
pub const MAX_CODE: u32 = 0x0fff_ffff;

/// The most brackets that may be open at one place of a text.
pub const MAX_DEPTH: usize = 64;

/// The most terms of a text, counted on all levels. No store has room for as many.
pub const MAX_TERMS: usize = 65_536;
