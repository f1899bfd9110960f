//! `type`: a text typed into a register of a dump, and the dump that results.

use std::ffi::OsString;
use std::io::Write;

use zelmotar::{status_text, Refusal, Store, MAX_CODE, MAX_DEPTH, MAX_TERMS, MIN_CODE, REGISTERS};

use crate::args::{self, Args, Takes};
use crate::check::damage;
use crate::outcome::{Ended, Outcome, Stop};
use crate::{dump, steps};

const TAKES: Takes = Takes {
    command: "type",
    flags: &[],
    valued: &["--top", "--dump"],
    names: "a dump file, a register and a text",
    count: (3, 3),
};

/// Types the text into the register that the words of the command line name, and writes the dump that
/// results. Where the text is refused nothing is written, though the store may have been collected for it.
///
/// # Errors
///
/// As [`Stop`] says; [`Stop::Refused`] if the store is not sound or the library does not type the text in.
pub fn command(words: &[OsString], out: &mut dyn Write) -> Ended {
    let args = Args::read(&TAKES, words)?;
    let register = args::number("register", &args.names[1])? as usize;
    let mut store = dump::read(&args.names[0], args.number("--top")?)?;
    let text = args.names[2].as_encoded_bytes();
    store
        .type_in(register, text)
        .map_err(|refusal| Stop::Refused(sentence(&store, register, text, refusal)))?;
    match args.value("--dump") {
        Some(name) => dump::write(name, &store)?,
        None => out.write_all(dump::written(&store).as_bytes())?,
    }
    Ok(Outcome::Done)
}

/// The sentence that says why the library does not type a text into a register; the store is the one that it
/// left.
pub fn sentence(store: &Store, register: usize, text: &[u8], refusal: Refusal) -> String {
    if let Some(offset) = refusal.offset() {
        let before = offset.checked_sub(1).map(|place| text[place]);
        return sentence_at(offset, before, text.get(offset).copied(), refusal);
    }
    let why = match refusal {
        Refusal::NoRoom => {
            let (need, free) = (steps::terms(text), room(store, register));
            format!("the text needs {need} new cells, and {free} can be had")
        }
        Refusal::NoRegister => format!("{register}, and they are 0 to {}", REGISTERS - 1),
        _ => return damage(store).unwrap_or_else(|| refusal.to_string()),
    };
    format!("{refusal}: {why}")
}

/// The sentence about a place of a text at which it is refused, by the bytes before it and at it, if there are any.
pub fn sentence_at(
    offset: usize,
    before: Option<u8>,
    byte: Option<u8>,
    refusal: Refusal,
) -> String {
    let why = match refusal {
        Refusal::BadCode { .. } => no_code(before),
        Refusal::TooDeepAt { .. } => format!("over {MAX_DEPTH} would be open here"),
        Refusal::TooManyTerms { .. } => format!("over {MAX_TERMS} would have begun here"),
        _ => cannot_stand(byte),
    };
    let number = refusal.number();
    format!("{number} at byte {offset}: {}: {why}", status_text(number))
}

/// How many new cells can be had for a text in a register of a sound store: what the register holds does not
/// count.
fn room(store: &Store, register: usize) -> usize {
    let mut without = store.clone();
    without.type_in(register, b"").expect("a text of no bytes needs no room");
    without.collect().expect("a sound store is collected");
    without.capacity() - without.top()
}

/// What is wrong with a code, by the byte before the digit at which it is refused: it begins with 0, or grows too
/// large.
fn no_code(before: Option<u8>) -> String {
    match before.is_some_and(|byte| byte.is_ascii_digit()) {
        false => format!("a code begins with no 0, and the least is {MIN_CODE}"),
        true => format!("it is over {MAX_CODE}"),
    }
}

/// What is wrong with a text that is none: a byte of it, or that it has no more.
fn cannot_stand(byte: Option<u8>) -> String {
    match byte {
        None => "the text ends too soon".to_string(),
        Some(b' ') => "no space can stand here".to_string(),
        Some(byte @ b'!'..=b'~') => format!("`{}` cannot stand here", char::from(byte)),
        Some(byte) => format!("the byte {byte} stands in no text"),
    }
}

#[cfg(test)]
mod tests {
    use super::*;

    /// What is said of a text for a register of a fresh store with two heap cells.
    fn says(register: usize, text: &[u8]) -> String {
        let mut store = Store::new(18).unwrap();
        let refusal = store.type_in(register, text).unwrap_err();
        sentence(&store, register, text, refusal)
    }

    #[test]
    fn a_refusal_is_said_with_its_place() {
        let not_text = "no text of an expression";
        assert_eq!(says(0, b"1 (2 x)"), format!("23 at byte 5: {not_text}: `x` cannot stand here"));
        assert_eq!(says(0, b"1  2"), format!("23 at byte 2: {not_text}: no space can stand here"));
        assert_eq!(says(0, b"1 (2"), format!("23 at byte 4: {not_text}: the text ends too soon"));
        assert_eq!(
            says(0, b"\xc3"),
            format!("23 at byte 0: {not_text}: the byte 195 stands in no text")
        );
        assert_eq!(
            says(0, b"268435456"),
            "13 at byte 8: the code is 0 or too large: it is over 268435455"
        );
        for (text, at) in [(&b"0"[..], 0), (b"01", 0), (b"10 0", 3), (b"1 (0)", 3)] {
            assert_eq!(
                says(0, text),
                format!(
                    "13 at byte {at}: the code is 0 or too large: a code begins with no 0, and the least is 1"
                )
            );
        }
        assert_eq!(
            says(0, &[b'('; 70]),
            "21 at byte 64: brackets are nested too deep: over 64 would be open here"
        );
        assert_eq!(
            says(0, &b"1 ".repeat(70_000)),
            "24 at byte 131072: too many terms: over 65536 would have begun here"
        );
    }

    #[test]
    fn what_the_register_holds_can_be_had_and_what_others_hold_cannot() {
        let mut store = Store::new(20).unwrap();
        store.type_str(0, "1 2").unwrap();
        store.type_str(1, "(3)").unwrap();
        for (register, free) in [(0, 2), (1, 2), (2, 0)] {
            let refusal = store.type_str(register, "4 5 6").unwrap_err();
            assert_eq!(
                sentence(&store, register, b"4 5 6", refusal),
                format!("no room: the text needs 3 new cells, and {free} can be had")
            );
        }
    }

    #[test]
    fn a_refusal_without_a_place_is_said_with_its_figures() {
        assert_eq!(says(0, b"1 (2)"), "no room: the text needs 3 new cells, and 2 can be had");
        assert_eq!(says(16, b"1"), "no register has that number: 16, and they are 0 to 15");
        let mut short = Store::from_parts(vec![0; 3], 16);
        let refusal = short.type_in(0, b"1").unwrap_err();
        assert!(sentence(&short, 0, b"1", refusal).starts_with("No store has 3 words"));
    }
}
