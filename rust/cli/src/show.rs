//! `show`: a dump as a table of cells, and its registers as expressions.

use std::ffi::OsString;
use std::io::Write;

use zelmotar::{Refusal, Store, FIRST_HEAP_CELL, REGISTERS};

use crate::args::{Args, Takes};
use crate::cells::{self, kind_at, reached, Kind};
use crate::check::{damage, summary};
use crate::outcome::{Ended, Outcome, Stop};
use crate::{dump, expression, run};

/// The letters of an expression in the table.
const IN_TABLE: usize = 60;

const TAKES: Takes = dump::takes("show", &["--collected"]);

/// Shows the dump that the words of the command line name.
///
/// # Errors
///
/// As [`Stop`] says.
pub fn command(words: &[OsString], out: &mut dyn Write) -> Ended {
    let args = Args::read(&TAKES, words)?;
    let mut store = dump::read(&args.names[0], args.number("--top")?)?;
    if let Some(sentence) = damage(&store) {
        damaged(&store, out)?;
        writeln!(out, "{sentence}")?;
        return Ok(Outcome::Refused);
    }
    if args.has("--collected") {
        store.collect().expect("a sound store is collected");
    }
    cells(&store, out)?;
    writeln!(out)?;
    run::registers(&store, out)?;
    Ok(Outcome::Done)
}

/// The table of a sound store: its full registers, its occupied cells, and what is left out.
///
/// # Errors
///
/// If it cannot be written.
pub fn cells(store: &Store, out: &mut dyn Write) -> Result<(), Stop> {
    let is_reached = reached(store);
    let mut scratch = store.clone();
    writeln!(out, "{}", summary(store))?;
    head(out)?;
    for c in (0..store.top()).filter(|&c| c >= REGISTERS || kind_at(store, c) != Kind::Empty) {
        let mut what = holds(store, c);
        if let (true, Kind::Run { .. }) = (c >= FIRST_HEAP_CELL, kind_at(store, c)) {
            what += &format!(" ({})", contents(&mut scratch, c));
        }
        if !is_reached[c] {
            what += "  dead";
        }
        row(store, c, &what, out)?;
    }
    Ok(())
}

/// The table of a store that is not sound: all cells but those of two zeros that may be so, as their
/// words have it, and those marked that break a rule, with its number. There is none where the number of words
/// is that of no store, which may be very large.
fn damaged(store: &Store, out: &mut dyn Write) -> Result<(), Stop> {
    if store.check() == Err(Refusal::BadLength) {
        return Ok(());
    }
    head(out)?;
    let broken = cells::damaged(store);
    for (c, words) in store.words().chunks_exact(2).enumerate() {
        let rule = broken.get(&c);
        let mark = rule.map_or(String::new(), |rule| format!("  damaged, rule {}", rule.number()));
        if rule.is_some() || words != [0, 0] {
            row(store, c, &format!("{}{mark}", holds(store, c)), out)?;
        }
    }
    writeln!(out)?;
    Ok(())
}

fn head(out: &mut dyn Write) -> Result<(), Stop> {
    writeln!(out, "cell  first word  second word  holds")?;
    Ok(())
}

fn row(store: &Store, c: usize, what: &str, out: &mut dyn Write) -> Result<(), Stop> {
    let (first, second) = (store.words()[2 * c], store.words()[2 * c + 1]);
    writeln!(out, "{c:>4}  {first:#010x}  {second:#010x}   {what}")?;
    Ok(())
}

/// What a cell holds, by its own words.
fn holds(store: &Store, c: usize) -> String {
    let what = if c < REGISTERS { format!("register {c}") } else { "bracket".to_string() };
    match kind_at(store, c) {
        Kind::Symbol(code) => format!("symbol {code}"),
        Kind::Empty => format!("{what}, empty"),
        Kind::Run { l, r } => format!("{what}, cells {l} to {r}"),
        Kind::Other => "neither symbol nor bracket".to_string(),
    }
}

/// The contents of a bracket of a sound store, written out: those of a register with its words.
/// `scratch` is the store but for register 0, which is overwritten.
fn contents(scratch: &mut Store, c: usize) -> String {
    let (mut words, top) =
        std::mem::replace(scratch, Store::from_parts(Vec::new(), 0)).into_parts();
    words.copy_within(2 * c..2 * c + 2, 0);
    *scratch = Store::from_parts(words, top);
    expression::register(scratch, 0, IN_TABLE)
}
