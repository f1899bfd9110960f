//! `zelmotar-cli`: the store at the command line. `--help` says what it does.

#![forbid(unsafe_code)]

use std::ffi::OsString;
use std::io::{self, BufWriter, Write};
use std::process::ExitCode;

use zelmotar_cli::outcome::{Ended, Outcome, Stop};
use zelmotar_cli::{ask, check, count, draw, load, print, run, save, show, typing};

const HELP: &str = include_str!("help.txt");

/// Carries out what the command line says.
fn command(words: &[OsString], out: &mut dyn Write) -> Ended {
    if words.iter().take_while(|word| *word != "--").any(|word| word == "--help" || word == "-h") {
        out.write_all(HELP.as_bytes())?;
        return Ok(Outcome::Done);
    }
    let Some((name, rest)) = words.split_first() else {
        return Err(Stop::Usage(
            "which command? run, ask, show, print, type, count, draw, check, save or load \
             (zelmotar-cli --help)"
                .into(),
        ));
    };
    match name.to_str() {
        Some("run") => run::command(rest, out),
        Some("ask") => ask::command(rest, out),
        Some("show") => show::command(rest, out),
        Some("print") => print::command(rest, out),
        Some("type") => typing::command(rest, out),
        Some("count") => count::command(rest, out),
        Some("draw") => draw::command(rest, out),
        Some("check") => check::command(rest, out),
        Some("save") => save::command(rest, out),
        Some("load") => load::command(rest, out),
        _ => {
            let name = name.to_string_lossy();
            Err(Stop::Usage(format!("there is no command `{name}` (zelmotar-cli --help)")))
        }
    }
}

fn main() -> ExitCode {
    let words: Vec<OsString> = std::env::args_os().skip(1).collect();
    let mut out = BufWriter::new(io::stdout().lock());
    let ended = command(&words, &mut out).and_then(|outcome| {
        out.flush()?;
        Ok(outcome)
    });
    match ended {
        Ok(outcome) => outcome.code().into(),
        Err(stop) => {
            // What was printed before comes before what is said of the end.
            let _ = out.flush();
            if let Some(sentence) = stop.sentence() {
                eprintln!("zelmotar-cli: {sentence}");
            }
            stop.code().into()
        }
    }
}
