//! Calls as they are written: a name, then numbers.

use std::fmt;

use crate::input::quoted;

/// The names, in the order of the operations, each with the words that its numbers become: the
/// operation o, d, a and b. CALL is the last, and has the four words of any call.
const FORMS: [(&str, &str); 13] = [
    ("CLEAR", "d"),
    ("COPY", "da"),
    ("SYMBOL", "da"),
    ("WRAP", "da"),
    ("JOIN", "dab"),
    ("HEAD", "da"),
    ("REST", "da"),
    ("OPEN", "da"),
    ("LENGTH", "a"),
    ("FIRST", "a"),
    ("LIVE", ""),
    ("COLLECT", ""),
    ("CALL", "odab"),
];

/// A call that was written, and the four words that it is.
#[derive(Clone, Copy, Debug, PartialEq, Eq)]
pub struct Call {
    form: usize,
    /// Operation, d, a and b.
    pub words: [u32; 4],
}

/// The number of words that a call has at `part` of its form.
fn place(part: u8) -> usize {
    b"odab".iter().position(|&known| known == part).expect("a form has only these letters")
}

impl Call {
    /// The call in a name and numbers.
    ///
    /// # Errors
    ///
    /// A sentence, if there is no such call or the numbers are not right.
    pub fn read(name: &[u8], numbers: &[&[u8]]) -> Result<Call, String> {
        let form = FORMS
            .iter()
            .position(|(known, _)| name.eq_ignore_ascii_case(known.as_bytes()))
            .ok_or_else(|| format!("no call is named {}", quoted(name)))?;
        let (known, parts) = FORMS[form];
        takes(known, parts.len(), numbers)?;
        let mut words = [if form < 12 { form as u32 } else { 0 }, 0, 0, 0];
        for (part, word) in parts.bytes().zip(numbers) {
            words[place(part)] = number(word)?;
        }
        Ok(Call { form, words })
    }

    /// The register that the call sets if it is done.
    pub fn sets(&self) -> Option<usize> {
        (self.words[0] < 8).then_some(self.words[1] as usize)
    }
}

/// The call as it is written, with one blank between two words.
impl fmt::Display for Call {
    fn fmt(&self, f: &mut fmt::Formatter<'_>) -> fmt::Result {
        let (name, parts) = FORMS[self.form];
        let numbers = parts.bytes().map(|part| format!(" {}", self.words[place(part)]));
        f.pad(&format!("{name}{}", numbers.collect::<String>()))
    }
}

/// Whether there are as many numbers as `name` takes.
///
/// # Errors
///
/// A sentence, if there are not.
pub fn takes(name: &str, count: usize, numbers: &[&[u8]]) -> Result<(), String> {
    if numbers.len() == count {
        return Ok(());
    }
    let plural = if count == 1 { "" } else { "s" };
    Err(format!("{name} takes {count} number{plural}, and here are {}", numbers.len()))
}

/// The number that a word is.
///
/// # Errors
///
/// A sentence, if it is none from 0 to 4294967295.
pub fn number(word: &[u8]) -> Result<u32, String> {
    let digits = std::str::from_utf8(word).ok();
    digits
        .filter(|digits| digits.len() <= 10 && digits.bytes().all(|byte| byte.is_ascii_digit()))
        .and_then(|digits| digits.parse().ok())
        .ok_or_else(|| format!("{} is no number from 0 to 4294967295", quoted(word)))
}

#[cfg(test)]
mod tests {
    use super::*;
    use crate::input::words;
    use zelmotar::Call as Wrapped;

    fn read(line: &str) -> Result<Call, String> {
        let words = words(line.as_bytes());
        Call::read(words[0], &words[1..])
    }

    #[test]
    fn every_name_has_the_words_that_the_package_sends() {
        for (line, call) in [
            ("CLEAR 1", Wrapped::Clear { d: 1 }),
            ("COPY 1 2", Wrapped::Copy { d: 1, a: 2 }),
            ("SYMBOL 1 2", Wrapped::Symbol { d: 1, code: 2 }),
            ("WRAP 1 2", Wrapped::Wrap { d: 1, a: 2 }),
            ("JOIN 1 2 3", Wrapped::Join { d: 1, a: 2, b: 3 }),
            ("HEAD 1 2", Wrapped::Head { d: 1, a: 2 }),
            ("REST 1 2", Wrapped::Rest { d: 1, a: 2 }),
            ("OPEN 1 2", Wrapped::Open { d: 1, a: 2 }),
            ("LENGTH 1", Wrapped::Length { a: 1 }),
            ("FIRST 1", Wrapped::First { a: 1 }),
            ("LIVE", Wrapped::Live),
            ("COLLECT", Wrapped::Collect),
        ] {
            let read = read(line).unwrap();
            assert_eq!(read.words, call.words(), "{line}");
            assert_eq!(read.to_string(), line);
        }
        let any = read("call 12 99 0 7").unwrap();
        assert_eq!((any.words, any.to_string()), ([12, 99, 0, 7], "CALL 12 99 0 7".to_string()));
    }

    #[test]
    fn what_is_no_call_is_refused() {
        for (line, why) in [
            ("SWAP 0 1", "no call is named `SWAP`"),
            ("JOIN 0 1", "JOIN takes 3 numbers, and here are 2"),
            ("LIVE 0", "LIVE takes 0 numbers, and here are 1"),
            ("CLEAR", "CLEAR takes 1 number, and here are 0"),
            ("CLEAR x", "`x` is no number from 0 to 4294967295"),
            ("CLEAR 4294967296", "`4294967296` is no number from 0 to 4294967295"),
            ("CLEAR 00000000000", "`00000000000` is no number from 0 to 4294967295"),
            ("CLEAR +1", "`+1` is no number from 0 to 4294967295"),
        ] {
            assert_eq!(read(line), Err(why.to_string()));
        }
    }
}
