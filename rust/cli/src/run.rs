//! `run`: a batch, each call beside its answer.

use std::ffi::OsString;
use std::io::Write;

use zelmotar::{status_text, Store, REGISTERS};

use crate::args::{Args, Takes};
use crate::batch::Batch;
use crate::call::Call;
use crate::expression;
use crate::input;
use crate::outcome::{Ended, Outcome, Stop};
use crate::steps::{self, Freed, Step};
use crate::{dump, outcome, save};

/// The letters of an expression that stands beside a call.
const BESIDE: usize = 72;

/// The letters of an expression that has a line for itself.
pub const ALONE: usize = 2000;

const TAKES: Takes = Takes {
    command: "run",
    flags: &["--strict", "--plain", "--bytes"],
    valued: &["--dump", "--save"],
    names: "one batch file",
    count: (1, 1),
};

/// Runs the batch that the words of the command line name.
///
/// # Errors
///
/// As [`Stop`] says.
pub fn command(words: &[OsString], out: &mut dyn Write) -> Ended {
    let args = Args::read(&TAKES, words)?;
    let leaves = args.value("--dump").is_some() || args.value("--save").is_some();
    if args.has("--bytes") && (args.has("--plain") || args.has("--strict") || leaves) {
        return Err(Stop::Usage(
            "run --bytes runs nothing, so no other option goes with it".into(),
        ));
    }
    let batch = read(&args.names[0])?;
    if args.has("--bytes") {
        out.write_all(&batch.program_input())?;
        return Ok(Outcome::Done);
    }
    let mut store = match opened(&batch) {
        Ok(store) => store,
        Err(refusal) => return refused(refusal, args.has("--plain"), out),
    };
    let any_refused = if args.has("--plain") {
        plain(&mut store, &batch.calls, out)?
    } else {
        beside(&mut store, &batch.calls, out)?
    };
    if let Some(name) = args.value("--dump") {
        dump::write(name, &store)?;
    }
    if let Some(name) = args.value("--save") {
        input::write(name, save::file(&mut store)?)?;
    }
    Ok(if any_refused && args.has("--strict") { Outcome::CallRefused } else { Outcome::Done })
}

/// The batch in a file.
fn read(name: &OsString) -> Result<Batch, Stop> {
    let input = input::read(name)?;
    Batch::read(&input.bytes).map_err(|wrong| {
        outcome::Stop::Refused(format!("{}:{}: {}", input.name, wrong.line, wrong.why))
    })
}

/// A fresh store for the batch, unless the library refuses its capacity or its list.
fn opened(batch: &Batch) -> Result<Store, (u32, u32)> {
    let store = steps::fresh(batch.capacity)?;
    match steps::verdict(&store, &batch.call_words()) {
        (0, _) => Ok(store),
        refusal => Err(refusal),
    }
}

/// Says that the whole batch is refused: as the program does, and in words.
fn refused((status, value): (u32, u32), plain: bool, out: &mut dyn Write) -> Ended {
    match plain {
        true => writeln!(out, "refused {status} {value}")?,
        false => writeln!(out, "refused {status} {value}: {}", status_text(status))?,
    }
    Ok(Outcome::Refused)
}

/// Runs the calls and writes what the program writes. Gives whether one of them was refused.
fn plain(store: &mut Store, calls: &[Call], out: &mut dyn Write) -> Result<bool, Stop> {
    let mut any_refused = false;
    for call in calls {
        let step = steps::step(store, call);
        writeln!(out, "{} {}", step.status, step.value)?;
        any_refused |= step.status != 0;
    }
    writeln!(out, "top {}", store.top())?;
    Ok(any_refused)
}

/// Runs the calls, writes each beside its answer, and what the registers hold in the end. Gives
/// whether one of them was refused.
fn beside(store: &mut Store, calls: &[Call], out: &mut dyn Write) -> Result<bool, Stop> {
    let mut any_refused = false;
    for call in calls {
        let step = steps::step(store, call);
        writeln!(out, "{}", line(store, call, step))?;
        any_refused |= step.status != 0;
    }
    writeln!(out, "top {}", store.top())?;
    registers(store, out)?;
    Ok(any_refused)
}

/// One call beside its answer: status, value, what they say, the register that was set, and whether
/// the store was collected for it.
pub fn line(store: &Store, call: &Call, step: Step) -> String {
    let Step { status, value, freed } = step;
    let head = format!("{call:<24} {status:>2} {value:>10}   {}", status_text(status));
    let set = call.sets().filter(|_| status == 0);
    head + &left(store, set, freed)
}

/// What is said after an answer: the register that was set, and which cells went if the store was collected.
pub fn left(store: &Store, set: Option<usize>, freed: Option<Freed>) -> String {
    let set = set.map_or(String::new(), |register| {
        format!("; register {register}: {}", expression::register(store, register, BESIDE))
    });
    set + &freed.map_or(String::new(), |freed| format!("; collected, and {}", went(freed)))
}

/// Which cells went in a collection. Where some of an old expression did, its register has just been named.
fn went(Freed { dead, old }: Freed) -> String {
    let cells = |count| if count == 1 { "cell" } else { "cells" };
    match (dead, old) {
        (0, 0) => "no cell was dead".to_string(),
        (dead, 0) => format!("{dead} dead {} went", cells(dead)),
        (0, old) => format!("{old} {} of its old expression went", cells(old)),
        (dead, old) => format!("{dead} dead {} and {old} of its old expression went", cells(dead)),
    }
}

/// What the registers hold: a line for each that is not empty, and one for the rest.
pub fn registers(store: &Store, out: &mut dyn Write) -> Result<(), Stop> {
    let full: Vec<usize> = (0..REGISTERS).filter(|&r| store.look(r).len() > 0).collect();
    for &register in &full {
        writeln!(out, "register {register}: {}", expression::register(store, register, ALONE))?;
    }
    let rest = match full.len() {
        0 => "all registers are empty",
        REGISTERS => return Ok(()),
        _ => "the other registers are empty",
    };
    writeln!(out, "{rest}")?;
    Ok(())
}
