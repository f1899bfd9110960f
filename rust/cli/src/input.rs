//! Files and standard input, read whole up to a limit or as they come; files, written whole.

use std::ffi::OsStr;
use std::fs::{self, File};
use std::io::{self, Read};

use crate::outcome::Stop;

/// The most bytes that are read: two million calls, each with its comment, are well below it.
const MOST_BYTES: usize = 1 << 28;

/// What was read, with the name to cite it by.
pub struct Input {
    /// The name as it was given.
    pub name: String,
    /// The bytes.
    pub bytes: Vec<u8>,
}

/// Reads the file with a name, or standard input for `-`.
///
/// # Errors
///
/// [`Stop::Usage`] if it is a folder or cannot be read, [`Stop::Refused`] if it is too long.
pub fn read(name: &OsStr) -> Result<Input, Stop> {
    let (name, bytes) = read_with(name, take)?;
    if bytes.len() > MOST_BYTES {
        return Err(Stop::Refused(format!("{name} has more than {MOST_BYTES} bytes")));
    }
    Ok(Input { name, bytes })
}

/// Hands the file with a name, or standard input for `-`, to a reader, and gives the name to cite it by with what
/// the reader makes of it. So nothing need be held that is read.
///
/// # Errors
///
/// [`Stop::Usage`] if it is a folder or cannot be read.
pub fn read_with<T>(
    name: &OsStr,
    reader: impl FnOnce(&mut dyn Read) -> io::Result<T>,
) -> Result<(String, T), Stop> {
    let shown = name.to_string_lossy().into_owned();
    let unread = |why: &dyn std::fmt::Display| Stop::Usage(format!("cannot read {shown}: {why}"));
    let made = if name == "-" {
        reader(&mut io::stdin().lock())
    } else if fs::metadata(name).is_ok_and(|about| about.is_dir()) {
        return Err(unread(&"it is a folder"));
    } else {
        File::open(name).and_then(|mut file| reader(&mut file))
    };
    let made = made.map_err(|error| match error.kind() {
        io::ErrorKind::NotFound => unread(&"no such file"),
        _ => unread(&error),
    })?;
    Ok((shown, made))
}

/// What `from` has, and at most one byte over the limit.
fn take(from: &mut dyn Read) -> io::Result<Vec<u8>> {
    let mut bytes = Vec::new();
    from.take(MOST_BYTES as u64 + 1).read_to_end(&mut bytes)?;
    Ok(bytes)
}

/// Writes a file.
///
/// # Errors
///
/// [`Stop::Usage`] if it cannot be written.
pub fn write(name: &OsStr, bytes: impl AsRef<[u8]>) -> Result<(), Stop> {
    fs::write(name, bytes)
        .map_err(|error| Stop::Usage(format!("cannot write {}: {error}", name.to_string_lossy())))
}

/// A text without the mark that some editors put at its start.
///
/// # Errors
///
/// A sentence, if the mark says that the text is in 16-bit units.
pub fn text(bytes: &[u8]) -> Result<&[u8], String> {
    if bytes.starts_with(&[0xff, 0xfe]) || bytes.starts_with(&[0xfe, 0xff]) {
        return Err("the text is UTF-16; save it as UTF-8".to_string());
    }
    Ok(bytes.strip_prefix(&[0xef, 0xbb, 0xbf]).unwrap_or(bytes))
}

/// The lines of a text with their numbers, each as its words: blanks part them, `#` starts a comment.
pub fn lines(text: &[u8]) -> impl Iterator<Item = (usize, Vec<&[u8]>)> {
    text.split(|&byte| byte == b'\n').enumerate().map(|(i, line)| (i + 1, words(line)))
}

/// The words of one line.
pub fn words(line: &[u8]) -> Vec<&[u8]> {
    let said = line.split(|&byte| byte == b'#').next().unwrap_or(line);
    said.split(u8::is_ascii_whitespace).filter(|word| !word.is_empty()).collect()
}

/// What is behind the first `count` words of a line and one blank after them, byte for byte up to the line's
/// end. A comment is none here.
pub fn behind(line: &[u8], count: usize) -> &[u8] {
    let mut rest = unended(line);
    for _ in 0..count {
        rest = rest.trim_ascii_start();
        let end = rest.iter().position(u8::is_ascii_whitespace).unwrap_or(rest.len());
        rest = &rest[end..];
    }
    rest.get(1..).unwrap_or(rest)
}

/// A line without its end, `\n` or `\r\n`, and without a `\r` that stands there alone.
pub fn unended(line: &[u8]) -> &[u8] {
    let line = line.strip_suffix(b"\n").unwrap_or(line);
    line.strip_suffix(b"\r").unwrap_or(line)
}

/// A word in quotes for a sentence: cut if it is long, and nothing in it that moves a terminal.
pub fn quoted(word: &[u8]) -> String {
    const MOST: usize = 40;
    let text = String::from_utf8_lossy(&word[..word.len().min(4 * MOST)]).into_owned();
    let mut shown = String::new();
    for letter in text.chars().take(MOST) {
        match letter {
            letter if letter.is_control() => shown.extend(letter.escape_default()),
            letter => shown.push(letter),
        }
    }
    let more = if text.chars().count() > MOST { ".." } else { "" };
    format!("`{shown}{more}`")
}

#[cfg(test)]
mod tests {
    use super::*;

    #[test]
    fn a_mark_at_the_start_is_passed_over() {
        assert_eq!(text(b"\xef\xbb\xbfLIVE"), Ok(&b"LIVE"[..]));
        assert_eq!(text(b"LIVE"), Ok(&b"LIVE"[..]));
        assert!(text(b"\xff\xfeL\0").is_err());
    }

    #[test]
    fn comments_blanks_and_line_ends_go() {
        let all: Vec<_> = lines(b"A  1\r\n# B\n\n\tC#D").collect();
        assert_eq!(all[0], (1, vec![&b"A"[..], b"1"]));
        assert_eq!(all[1], (2, vec![]));
        assert_eq!(all[3], (4, vec![&b"C"[..]]));
    }

    #[test]
    fn what_is_behind_some_words_stands_as_it_is() {
        assert_eq!(behind(b" TYPE  0 1  (2) \r\n", 2), b"1  (2) ");
        assert_eq!(behind(b"TYPE 0  1 # 2", 2), b" 1 # 2");
        assert_eq!(behind(b"TYPE\t0\t", 2), b"");
        assert_eq!(behind(b"TYPE 0\n", 2), b"");
        assert_eq!(behind(b"TYPE", 2), b"");
    }

    #[test]
    fn one_line_end_goes() {
        for line in [&b"1 2"[..], b"1 2\n", b"1 2\r\n", b"1 2\r"] {
            assert_eq!(unended(line), b"1 2");
        }
        for (line, rest) in [(&b"1\n\n"[..], &b"1\n"[..]), (b"1\n\r", b"1\n"), (b"\r\r\n", b"\r")] {
            assert_eq!(unended(line), rest);
        }
    }

    #[test]
    fn quoted_words_are_short_and_plain() {
        assert_eq!(quoted(b"SWAP"), "`SWAP`");
        assert_eq!(quoted(b"\x1b[2J\0"), "`\\u{1b}[2J\\u{0}`");
        assert_eq!(quoted(&[b'x'; 5000]).len(), 44);
        assert!(quoted(&[0xff; 3]).contains('\u{fffd}'));
    }
}
