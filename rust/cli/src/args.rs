//! The words of the command line: options, options with a value, and names.

use std::ffi::{OsStr, OsString};

use crate::outcome::Stop;

/// What a command takes.
pub struct Takes {
    /// The command, as it is typed.
    pub command: &'static str,
    /// Options without a value.
    pub flags: &'static [&'static str],
    /// Options that a value follows.
    pub valued: &'static [&'static str],
    /// What the names stand for, for the sentence that refuses them.
    pub names: &'static str,
    /// The least and the greatest number of names.
    pub count: (usize, usize),
}

/// The words of one command, sorted.
#[derive(Debug, Default)]
pub struct Args {
    flags: Vec<&'static str>,
    valued: Vec<(&'static str, OsString)>,
    /// What is no option, in order.
    pub names: Vec<OsString>,
}

impl Args {
    /// Sorts the words that follow a command. After `--` all are names, and `-` always is one.
    ///
    /// # Errors
    ///
    /// [`Stop::Usage`] for an option that is not known or said twice, one without its value, and
    /// too few or too many names.
    pub fn read(takes: &Takes, words: &[OsString]) -> Result<Args, Stop> {
        let mut args = Args::default();
        let mut words = words.iter();
        while let Some(word) = words.next() {
            if word == "--" {
                args.names.extend(words.cloned());
                break;
            }
            if word == "-" || !word.as_encoded_bytes().starts_with(b"-") {
                args.names.push(word.clone());
            } else {
                args.option(takes, word, &mut words)?;
            }
        }
        if (takes.count.0..=takes.count.1).contains(&args.names.len()) {
            return Ok(args);
        }
        Err(refused(takes, &format!("takes {}, and here are {}", takes.names, args.names.len())))
    }

    /// Takes one option, and its value from what follows it.
    fn option<'a>(
        &mut self,
        takes: &Takes,
        word: &OsStr,
        rest: &mut impl Iterator<Item = &'a OsString>,
    ) -> Result<(), Stop> {
        if let Some(flag) = takes.flags.iter().find(|flag| word == **flag) {
            if self.has(flag) {
                return Err(refused(takes, &format!("takes {flag} once")));
            }
            self.flags.push(flag);
            return Ok(());
        }
        let Some(name) = takes.valued.iter().find(|name| word == **name) else {
            return Err(refused(takes, &format!("knows no {}", word.to_string_lossy())));
        };
        let value =
            rest.next().ok_or_else(|| refused(takes, &format!("wants more after {name}")))?;
        if self.value(name).is_some() {
            return Err(refused(takes, &format!("takes {name} once")));
        }
        self.valued.push((name, value.clone()));
        Ok(())
    }

    /// Whether an option without a value was given.
    pub fn has(&self, flag: &str) -> bool {
        self.flags.contains(&flag)
    }

    /// The value of an option, if it was given.
    pub fn value(&self, name: &str) -> Option<&OsStr> {
        self.valued.iter().find(|(given, _)| *given == name).map(|(_, value)| value.as_os_str())
    }

    /// The number that an option was given.
    ///
    /// # Errors
    ///
    /// [`Stop::Usage`] if it is no number from 0 to 4294967295.
    pub fn number(&self, name: &str) -> Result<Option<u32>, Stop> {
        self.value(name).map(|value| number(name, value)).transpose()
    }
}

/// The number in a word that stands for `what`.
///
/// # Errors
///
/// [`Stop::Usage`] if it is no number from 0 to 4294967295.
pub fn number(what: &str, word: &OsStr) -> Result<u32, Stop> {
    let text = word.to_str().filter(|text| text.bytes().all(|byte| byte.is_ascii_digit()));
    text.and_then(|text| text.parse().ok()).ok_or_else(|| {
        let shown = word.to_string_lossy();
        Stop::Usage(format!("{what}: `{shown}` is no number from 0 to 4294967295"))
    })
}

/// The refusal of a command's words.
fn refused(takes: &Takes, why: &str) -> Stop {
    Stop::Usage(format!("{} {why} (zelmotar-cli --help)", takes.command))
}

#[cfg(test)]
mod tests {
    use super::*;

    const TAKES: Takes = Takes {
        command: "try",
        flags: &["--loud"],
        valued: &["--top"],
        names: "one file",
        count: (1, 1),
    };

    fn read(words: &[&str]) -> Result<Args, Stop> {
        Args::read(&TAKES, &words.iter().map(OsString::from).collect::<Vec<_>>())
    }

    #[test]
    fn options_stand_anywhere_and_names_may_look_like_them() {
        let args = read(&["a=b", "--top", "20", "--loud"]).unwrap();
        assert!(args.has("--loud"));
        assert_eq!(args.number("--top").unwrap(), Some(20));
        assert_eq!(args.names, ["a=b"]);
        assert_eq!(read(&["--", "--loud"]).unwrap().names, ["--loud"]);
        assert_eq!(read(&["-"]).unwrap().names, ["-"]);
    }

    #[test]
    fn what_is_not_known_is_refused() {
        for words in [
            &["--quiet", "x"][..],
            &[],
            &["x", "y"],
            &["x", "--top"],
            &["--loud", "--loud", "x"],
            &["--top", "1", "--top", "1", "x"],
        ] {
            assert!(matches!(read(words), Err(Stop::Usage(_))), "{words:?}");
        }
        for number in ["-1", "", "4294967296", "0x10", "+1"] {
            assert!(read(&["x", "--top", number]).unwrap().number("--top").is_err(), "{number}");
        }
    }
}
