//! `check`: whether a dump is a sound store, and if not, which cell is damaged and by which rule.

use std::ffi::OsString;
use std::io::Write;

use zelmotar::{Refusal, Rule, Store, FIRST_HEAP_CELL, MAX_CELLS, REGISTERS};

use crate::args::{Args, Takes};
use crate::cells::{fault, reached};
use crate::dump;
use crate::outcome::{Ended, Outcome};

const TAKES: Takes = dump::takes("check", &[]);

/// Checks the dump that the words of the command line name.
///
/// # Errors
///
/// As [`Stop`](crate::outcome::Stop) says.
pub fn command(words: &[OsString], out: &mut dyn Write) -> Ended {
    let args = Args::read(&TAKES, words)?;
    let store = dump::read(&args.names[0], args.number("--top")?)?;
    match damage(&store) {
        None => {
            writeln!(out, "The store is sound: {}.", summary(&store))?;
            Ok(Outcome::Done)
        }
        Some(sentence) => {
            writeln!(out, "{sentence}")?;
            Ok(Outcome::Refused)
        }
    }
}

/// How full a sound store is.
pub fn summary(store: &Store) -> String {
    let occupied = store.top() - FIRST_HEAP_CELL;
    let live = reached(store)[FIRST_HEAP_CELL..].iter().filter(|&&it| it).count();
    format!(
        "{} cells, top {}, {live} of {occupied} occupied heap cells live",
        store.capacity(),
        store.top()
    )
}

/// The sentence that says what the library finds wrong with a store, if it does.
pub fn damage(store: &Store) -> Option<String> {
    let sentence = match store.check().err()? {
        Refusal::BadLength => format!(
            "No store has {} words: their number is even, {} to {}.",
            store.words().len(),
            2 * REGISTERS,
            2 * MAX_CELLS
        ),
        Refusal::BadTop => format!(
            "top is {}, and must be {FIRST_HEAP_CELL} to {}, the number of cells.",
            store.top(),
            store.capacity()
        ),
        Refusal::Damaged { cell, rule, .. } => damaged_cell(store, cell as usize, rule),
        other => format!("{other}."),
    };
    Some(sentence)
}

/// The sentence about a damaged cell, with the number of its rule and its words.
fn damaged_cell(store: &Store, c: usize, rule: Rule) -> String {
    let (first, second) = (store.words()[2 * c], store.words()[2 * c + 1]);
    let what = if c < REGISTERS { "register" } else { "heap cell" };
    let (number, why) = (rule.number(), fault(rule, c, first, second, store.top()));
    format!(
        "Cell {c}, a {what}, is damaged (rule {number}): its words are {first} and {second} \
         ({first:#010x} {second:#010x}), and {why}."
    )
}
