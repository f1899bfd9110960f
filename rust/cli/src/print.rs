//! `print`: the text of a register of a dump, as the library writes it.

use std::ffi::OsString;
use std::io::Write;

use zelmotar::{Refusal, Store, MAX_DEPTH, REGISTERS};

use crate::args::{self, Args, Takes};
use crate::check::damage;
use crate::dump;
use crate::outcome::{Ended, Outcome, Stop};

/// The most bytes of a text where no other limit is named. Few cells can have a text of very many
/// bytes, as they are shared.
pub const LIMIT: usize = 65_536;

const TAKES: Takes = Takes {
    command: "print",
    flags: &[],
    valued: &["--top", "--limit"],
    names: "a dump file and a register",
    count: (2, 2),
};

/// Prints the register that the words of the command line name.
///
/// # Errors
///
/// As [`Stop`] says; [`Stop::Refused`] if the store is not sound or the library does not print it.
pub fn command(words: &[OsString], out: &mut dyn Write) -> Ended {
    let args = Args::read(&TAKES, words)?;
    let register = args::number("register", &args.names[1])? as usize;
    let limit = args.number("--limit")?.map_or(LIMIT, |limit| limit as usize);
    let store = dump::read(&args.names[0], args.number("--top")?)?;
    let text = store.print_string(register, limit).map_err(|refusal| {
        let more = if refusal == Refusal::ShortSpace { "; --limit allows more" } else { "" };
        Stop::Refused(sentence(&store, register, limit, refusal) + more)
    })?;
    writeln!(out, "{text}")?;
    Ok(Outcome::Done)
}

/// The sentence that says why the library does not print a register into `limit` bytes.
pub fn sentence(store: &Store, register: usize, limit: usize, refusal: Refusal) -> String {
    let why = match refusal {
        Refusal::NoRegister => format!("{register}, and they are 0 to {}", REGISTERS - 1),
        Refusal::TooDeep => format!("over {MAX_DEPTH} would be open at one place of the text"),
        Refusal::ShortSpace => format!("the text has over {limit} bytes"),
        _ => return damage(store).unwrap_or_else(|| refusal.to_string()),
    };
    format!("{refusal}: {why}")
}

#[cfg(test)]
mod tests {
    use super::*;
    use zelmotar::Call;

    #[test]
    fn a_refusal_is_said_with_its_figures() {
        let says = |store: &Store, register, limit| {
            let refusal = store.print_string(register, limit).unwrap_err();
            sentence(store, register, limit, refusal)
        };
        let mut store = Store::new(100).unwrap();
        store.run_all(&[Call::Wrap { d: 0, a: 0 }; 64]).unwrap();
        assert_eq!(says(&store, 0, 127), "the space is too short: the text has over 127 bytes");
        assert_eq!(says(&store, 16, 9), "no register has that number: 16, and they are 0 to 15");
        store.run_all(&[Call::Wrap { d: 0, a: 0 }]).unwrap();
        assert_eq!(
            says(&store, 0, 128),
            "brackets are nested too deep: over 64 would be open at one place of the text"
        );
        let short = Store::from_parts(vec![0; 3], 16);
        assert!(says(&short, 0, 9).starts_with("No store has 3 words"));
    }
}
