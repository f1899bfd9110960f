//! `save`: the store of a dump, collected, as a file that can be loaded.

use std::ffi::OsString;
use std::io::Write;

use zelmotar::Store;

use crate::args::{Args, Takes};
use crate::check::{damage, summary};
use crate::outcome::{Ended, Outcome, Stop};
use crate::{dump, input};

const TAKES: Takes = Takes {
    command: "save",
    flags: &[],
    valued: &["--top"],
    names: "a dump file and the file to save to",
    count: (2, 2),
};

/// Saves the dump that the words of the command line name, and says how long the file is. Where the
/// store is refused nothing is written.
///
/// # Errors
///
/// As [`Stop`] says; [`Stop::Refused`] if the store is not sound.
pub fn command(words: &[OsString], out: &mut dyn Write) -> Ended {
    let args = Args::read(&TAKES, words)?;
    let mut store = dump::read(&args.names[0], args.number("--top")?)?;
    let file = file(&mut store)?;
    if args.names[1] == "-" {
        out.write_all(&file)?;
    } else {
        input::write(&args.names[1], &file)?;
        writeln!(out, "Saved in {} bytes: {}.", file.len(), summary(&store))?;
    }
    Ok(Outcome::Done)
}

/// The file of a store, which is collected for it.
///
/// # Errors
///
/// [`Stop::Refused`] if the store is not sound.
pub fn file(store: &mut Store) -> Result<Vec<u8>, Stop> {
    store
        .to_file()
        .map_err(|refusal| Stop::Refused(damage(store).unwrap_or_else(|| refusal.to_string())))
}
