//! `ask`: a prompt to type calls and texts at.

use std::ffi::OsString;
use std::io::{self, BufRead, IsTerminal, Read, Write};

use zelmotar::{status_text, Store};

use crate::args::{self, Args, Takes};
use crate::call::{self, Call};
use crate::input;
use crate::outcome::{Ended, Outcome, Stop};
use crate::{print, run, show, steps, typing};

/// The capacity where none is named.
const CAPACITY: u32 = 64;

/// The most bytes of a typed line.
const MOST_LINE: u64 = 1000;

const TAKES: Takes = Takes {
    command: "ask",
    flags: &["--strict"],
    valued: &[],
    names: "at most a capacity",
    count: (0, 1),
};

const HELP: &str = "\
A call:  CLEAR d   COPY d a   SYMBOL d code   WRAP d a   JOIN d a b   HEAD d a   REST d a   OPEN d a
         LENGTH a   FIRST a   LIVE   COLLECT   CALL o d a b
Or:      SHOW the cells, REGISTERS, PRINT a, TYPE d text, HELP, QUIT
The text of TYPE is the rest of the line as it stands, as 65 (66 67) ().
";

/// What a typed line comes to.
enum Typed {
    Nothing,
    Answered { refused: bool },
    Quit,
}

/// Answers the lines of standard input, on a fresh store.
///
/// # Errors
///
/// As [`Stop`] says.
pub fn command(words: &[OsString], out: &mut dyn Write) -> Ended {
    let args = Args::read(&TAKES, words)?;
    let capacity = args.names.first().map(|word| args::number("capacity", word)).transpose()?;
    let mut store = match steps::fresh(capacity.unwrap_or(CAPACITY)) {
        Ok(store) => store,
        Err((status, value)) => {
            writeln!(out, "refused {status} {value}: {}", status_text(status))?;
            return Ok(Outcome::Refused);
        }
    };
    let stdin = io::stdin();
    let typed_at = stdin.is_terminal();
    if typed_at {
        writeln!(out, "A store of {} cells. HELP says what can be typed.", store.capacity())?;
    }
    let any_refused = converse(&mut store, stdin.lock(), typed_at, out)?;
    Ok(if any_refused && args.has("--strict") { Outcome::CallRefused } else { Outcome::Done })
}

/// Answers line after line until there is none, or QUIT. Gives whether a call or a text was refused.
pub fn converse(
    store: &mut Store,
    mut lines: impl BufRead,
    prompt: bool,
    out: &mut dyn Write,
) -> Result<bool, Stop> {
    let mut any_refused = false;
    loop {
        if prompt {
            write!(out, "> ")?;
        }
        out.flush()?;
        let Some(line) = next_line(&mut lines)? else { return Ok(any_refused) };
        match answer(store, &line, out)? {
            Typed::Nothing => {}
            Typed::Answered { refused } => any_refused |= refused,
            Typed::Quit => return Ok(any_refused),
        }
    }
}

/// The next line without its end, or `None` where there is no more. Of a line that is too long only
/// the beginning is kept, one byte over the limit.
fn next_line(lines: &mut impl BufRead) -> io::Result<Option<Vec<u8>>> {
    let mut line = Vec::new();
    if lines.take(MOST_LINE + 1).read_until(b'\n', &mut line)? == 0 {
        return Ok(None);
    }
    if line.last() != Some(&b'\n') && line.len() as u64 > MOST_LINE {
        skip_line(lines)?;
    }
    Ok(Some(line))
}

/// Passes over what is left of a line.
fn skip_line(lines: &mut impl BufRead) -> io::Result<()> {
    loop {
        let part = lines.fill_buf()?;
        let end = part.iter().position(|&byte| byte == b'\n');
        let (count, over) = (end.map_or(part.len(), |i| i + 1), end.is_some() || part.is_empty());
        lines.consume(count);
        if over {
            return Ok(());
        }
    }
}

/// Answers one line.
fn answer(store: &mut Store, line: &[u8], out: &mut dyn Write) -> Result<Typed, Stop> {
    if line.len() as u64 > MOST_LINE {
        writeln!(out, "a line has at most {MOST_LINE} bytes")?;
        return Ok(Typed::Nothing);
    }
    let words = input::words(input::text(line).unwrap_or(line));
    let Some((name, numbers)) = words.split_first() else { return Ok(Typed::Nothing) };
    match (name.to_ascii_uppercase().as_slice(), numbers) {
        (b"SHOW", []) => show::cells(store, out)?,
        (b"REGISTERS", []) => run::registers(store, out)?,
        (b"PRINT", numbers) => typed_print(store, numbers, out)?,
        (b"TYPE", words) => return typed_text(store, words, line, out),
        (b"HELP", []) => out.write_all(HELP.as_bytes())?,
        (b"QUIT", []) => return Ok(Typed::Quit),
        _ => return typed_call(store, name, numbers, out),
    }
    Ok(Typed::Nothing)
}

/// Prints a register, or says why there is no text.
fn typed_print(store: &Store, numbers: &[&[u8]], out: &mut dyn Write) -> Result<(), Stop> {
    let register = call::takes("PRINT", 1, numbers).and_then(|()| call::number(numbers[0]));
    match register {
        Err(why) => writeln!(out, "{why}; HELP says what can be typed")?,
        Ok(register) => {
            let (register, limit) = (register as usize, print::LIMIT);
            let printed = store.print_string(register, limit);
            let why = |refusal| print::sentence(store, register, limit, refusal);
            writeln!(out, "{}", printed.unwrap_or_else(why))?;
        }
    }
    Ok(())
}

/// Types the rest of a line into a register, or says why it is not done.
fn typed_text(
    store: &mut Store,
    words: &[&[u8]],
    line: &[u8],
    out: &mut dyn Write,
) -> Result<Typed, Stop> {
    let wanted = "TYPE takes a register and a text".to_string();
    let register = match words.first().ok_or(wanted).and_then(|word| call::number(word)) {
        Ok(register) => register as usize,
        Err(why) => {
            writeln!(out, "{why}; HELP says what can be typed")?;
            return Ok(Typed::Nothing);
        }
    };
    let text = input::behind(line, 2);
    let (answer, freed) = steps::type_in(store, register, text);
    let said = match answer {
        Ok(()) => status_text(0).to_string(),
        Err(refusal) => typing::sentence(store, register, text, refusal),
    };
    let set = answer.is_ok().then_some(register);
    writeln!(out, "{said}{}", run::left(store, set, freed))?;
    Ok(Typed::Answered { refused: answer.is_err() })
}

/// Runs a typed call, or says why there is none.
fn typed_call(
    store: &mut Store,
    name: &[u8],
    numbers: &[&[u8]],
    out: &mut dyn Write,
) -> Result<Typed, Stop> {
    match Call::read(name, numbers) {
        Err(why) => {
            writeln!(out, "{why}; HELP says what can be typed")?;
            Ok(Typed::Nothing)
        }
        Ok(call) => {
            let step = steps::step(store, &call);
            writeln!(out, "{}", run::line(store, &call, step))?;
            Ok(Typed::Answered { refused: step.status != 0 })
        }
    }
}

#[cfg(test)]
mod tests {
    use super::*;

    fn said(typed: &[u8], prompt: bool) -> (String, bool) {
        let mut store = steps::fresh(20).unwrap();
        let mut out = Vec::new();
        let refused = converse(&mut store, typed, prompt, &mut out).unwrap();
        (String::from_utf8(out).unwrap(), refused)
    }

    #[test]
    fn each_line_has_its_answer() {
        let (text, refused) = said(b"symbol 0 65\r\n\n# a remark\nWRAP 1 0\nREGISTERS", false);
        let lines: Vec<&str> = text.lines().collect();
        assert!(lines[0].ends_with("done; register 0: 65"), "{text}");
        assert!(lines[1].ends_with("done; register 1: (65)"), "{text}");
        assert_eq!(
            lines[2..],
            ["register 0: 65", "register 1: (65)", "the other registers are empty"]
        );
        assert!(!refused);
    }

    #[test]
    fn a_wrong_line_is_said_and_the_next_is_answered() {
        let (text, refused) = said(b"SWAP\nHEAD 0 0\nLIVE 1\nLIVE\nQUIT\nLIVE", true);
        assert_eq!(text.matches("> ").count(), 5);
        assert!(text.contains("no call is named `SWAP`"));
        assert!(text.contains("LIVE takes 0 numbers, and here are 1"));
        assert_eq!(text.matches("\n").count(), 4, "{text}");
        assert!(refused);
    }

    #[test]
    fn a_register_is_printed() {
        let typed = b"SYMBOL 0 65\nWRAP 1 0\nPRINT 1\nprint 2\nPRINT 16\nPRINT\nPRINT x\n";
        let (text, refused) = said(typed, false);
        assert_eq!(
            text.lines().skip(2).collect::<Vec<_>>(),
            [
                "(65)",
                "",
                "no register has that number: 16, and they are 0 to 15",
                "PRINT takes 1 number, and here are 0; HELP says what can be typed",
                "`x` is no number from 0 to 4294967295; HELP says what can be typed",
            ]
        );
        assert!(!refused);
    }

    #[test]
    fn a_text_is_typed_in() {
        let typed = b"TYPE 0 65 (66)\r\ntype 1 (65  66)\nTYPE 1 1 2\nTYPE 0\nTYPE 1 ()\nPRINT 1\n";
        let (text, refused) = said(typed, false);
        assert_eq!(
            text.lines().collect::<Vec<_>>(),
            [
                "done; register 0: 65 (66)",
                "23 at byte 4: no text of an expression: no space can stand here",
                "no room: the text needs 2 new cells, and 1 can be had; collected, and no cell was dead",
                "done; register 0: empty",
                "done; register 1: ()",
                "()",
            ]
        );
        assert!(refused);
    }

    #[test]
    fn a_text_for_no_register_is_said_to_be_none() {
        let (text, refused) = said(b"TYPE 16 1\nTYPE 0 7 # 8\nTYPE 1 1 1 1 1\nTYPE 1\n", false);
        assert_eq!(
            text.lines().collect::<Vec<_>>(),
            [
                "no register has that number: 16, and they are 0 to 15",
                "23 at byte 2: no text of an expression: `#` cannot stand here",
                "done; register 1: 1 1 1 1",
                "done; register 1: empty",
            ]
        );
        assert!(refused);
        let (text, refused) = said(b"TYPE\nTYPE x 1\nTYPE (1)\n", false);
        assert_eq!(text.matches("; HELP says what can be typed\n").count(), 3, "{text}");
        assert!(text.starts_with("TYPE takes a register and a text; "), "{text}");
        assert!(!refused);
    }

    #[test]
    fn a_text_that_makes_the_store_collect_says_so() {
        for (typed, went) in [
            ("TYPE 0 1 2\nTYPE 0\nTYPE 0 3 4 5\n", "2 dead cells went"),
            ("TYPE 0 1 2\nTYPE 0 3 4 5\n", "2 cells of its old expression went"),
            ("TYPE 0 1\nTYPE 0 2\nTYPE 0 3 4 5\n", "1 dead cell and 1 of its old expression went"),
        ] {
            let (text, _) = said(typed.as_bytes(), false);
            let last = format!("done; register 0: 3 4 5; collected, and {went}\n");
            assert!(text.ends_with(&last), "{text}");
        }
    }

    #[test]
    fn a_long_line_is_passed_over() {
        let mut typed = vec![b'x'; 5_000_000];
        typed.extend(b"\nLIVE\n");
        let (text, _) = said(&typed, false);
        let lines: Vec<&str> = text.lines().collect();
        assert_eq!(lines.len(), 2);
        assert_eq!(lines[0], "a line has at most 1000 bytes");
        assert!(lines[1].starts_with("LIVE"));
        assert!(said(&vec![0; 100_000], false).0.starts_with("a line has at most"));
    }
}
