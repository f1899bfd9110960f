//! A store in a file: its words and `top`.
//!
//! As text: a line `TOP n`, then the words in their order, in decimal or as `0x` and hexadecimal
//! digits, any number of them to a line; `#` starts a comment. As bytes: the words alone, four bytes
//! each, the least significant first; `top` is then said on the command line.

use std::ffi::OsStr;
use std::fmt::Write;

use zelmotar::{Store, REGISTERS};

use crate::args::Takes;
use crate::batch::Wrong;
use crate::call;
use crate::input::{self, lines, quoted, text};
use crate::outcome::Stop;

/// What a command on a dump takes, beside options of its own.
pub const fn takes(command: &'static str, flags: &'static [&'static str]) -> Takes {
    Takes { command, flags, valued: &["--top"], names: "one dump file", count: (1, 1) }
}

/// The store in a file, whether it is sound or not: as text, or as bytes where `top` is given.
///
/// # Errors
///
/// As of [`input::read`], or [`Stop::Refused`] if it is no dump.
pub fn read(name: &OsStr, top: Option<u32>) -> Result<Store, Stop> {
    let input = input::read(name)?;
    match top {
        Some(top) => {
            let words = of_bytes(&input.bytes);
            let words = words.map_err(|why| Stop::Refused(format!("{}: {why}", input.name)))?;
            Ok(Store::from_parts(words, top as usize))
        }
        None => of_text(&input.bytes).map_err(|wrong| {
            Stop::Refused(format!("{}:{}: {}", input.name, wrong.line, wrong.why))
        }),
    }
}

/// The words in bytes.
///
/// # Errors
///
/// A sentence, if they are no whole words.
pub fn of_bytes(bytes: &[u8]) -> Result<Vec<u32>, String> {
    if bytes.len() % 4 != 0 {
        return Err(format!("{} bytes are no whole words of four bytes", bytes.len()));
    }
    Ok(bytes
        .chunks_exact(4)
        .map(|word| u32::from_le_bytes([word[0], word[1], word[2], word[3]]))
        .collect())
}

/// The store in a text.
fn of_text(bytes: &[u8]) -> Result<Store, Wrong> {
    let at = |line| move |why| Wrong { line, why };
    let text = text(bytes).map_err(at(1))?;
    let mut top = None;
    let mut all = Vec::new();
    for (line, words) in lines(text) {
        let Some((name, numbers)) = words.split_first() else { continue };
        match (top, name.eq_ignore_ascii_case(b"TOP")) {
            (None, true) => top = Some(top_of(numbers).map_err(at(line))?),
            (None, false) => return Err(at(line)(first())),
            (Some(_), true) => return Err(at(line)("top is said once".to_string())),
            (Some(_), false) => {
                let read: Result<Vec<u32>, String> =
                    words.iter().map(|word| number(word)).collect();
                all.extend(read.map_err(at(line))?);
            }
        }
    }
    let last = lines(text).count();
    Ok(Store::from_parts(all, top.ok_or_else(|| at(last)(first()))? as usize))
}

fn first() -> String {
    "the first line of a dump is `TOP n`; a dump of bytes wants --top".to_string()
}

/// The number after `TOP`.
fn top_of(numbers: &[&[u8]]) -> Result<u32, String> {
    call::takes("TOP", 1, numbers)?;
    call::number(numbers[0])
}

/// The number in a word of a dump, decimal or hexadecimal.
fn number(word: &[u8]) -> Result<u32, String> {
    let Some(digits) = word.strip_prefix(b"0x").or_else(|| word.strip_prefix(b"0X")) else {
        return call::number(word);
    };
    let hex = std::str::from_utf8(digits).ok();
    hex.filter(|hex| hex.bytes().all(|byte| byte.is_ascii_hexdigit()))
        .and_then(|hex| u32::from_str_radix(hex, 16).ok())
        .ok_or_else(|| format!("{} is no word of 32 bits", quoted(word)))
}

/// Writes a store to a file, as text.
///
/// # Errors
///
/// [`Stop::Usage`] if the file cannot be written.
pub fn write(name: &OsStr, store: &Store) -> Result<(), Stop> {
    input::write(name, written(store))
}

/// A store as a text, a cell a line.
pub fn written(store: &Store) -> String {
    let mut text = format!("# {} cells\nTOP {}\n", store.capacity(), store.top());
    for (c, cell) in store.words().chunks(2).enumerate() {
        let what = if c < REGISTERS { "register" } else { "cell" };
        writeln!(text, "{:#010x} {:#010x}  # {what} {c}", cell[0], cell[1])
            .expect("a text takes all");
    }
    text
}

#[cfg(test)]
mod tests {
    use super::*;
    use zelmotar_model::{make, random::Random};

    #[test]
    fn what_is_written_is_read_again() {
        let mut random = Random::of("dumps");
        for _ in 0..100 {
            let capacity = make::capacity(&mut random);
            let (words, top) = make::sound(&mut random, capacity, make::Runs::Any);
            let bytes: Vec<u8> = words.iter().flat_map(|word| word.to_le_bytes()).collect();
            assert_eq!(of_bytes(&bytes), Ok(words.clone()));
            let store = Store::from_parts(words, top);
            assert_eq!(of_text(written(&store).as_bytes()), Ok(store));
        }
    }

    #[test]
    fn words_are_decimal_or_hexadecimal() {
        let store =
            of_text(b"\xef\xbb\xbftop 23 # cells\r\n4294967295 0xFFFFFFFF\r\n0x0\n").unwrap();
        assert_eq!((store.words(), store.top()), (&[u32::MAX, u32::MAX, 0][..], 23));
    }

    #[test]
    fn what_is_no_dump_is_refused() {
        for (text, line) in [
            (&b""[..], 1),
            (b"0 0 0", 1),
            (b"TOP\n", 1),
            (b"TOP 16 17\n", 1),
            (b"TOP 0x10\n", 1),
            (b"TOP 16\nTOP 16\n", 2),
            (b"TOP 16\n0 0x100000000\n", 2),
            (b"TOP 16\n0\n0x\n", 3),
            (b"TOP 16\n0x+1\n", 2),
            (b"TOP 16\n-1\n", 2),
            (b"\x7fELF\0\0", 1),
        ] {
            assert_eq!(of_text(text).unwrap_err().line, line, "{text:?}");
        }
        assert!(of_bytes(&[0; 7]).is_err());
    }
}
