//! `count`: a text read in pieces, and what it takes to type it in.

use std::ffi::OsString;
use std::io::{self, ErrorKind, Read, Write};

use zelmotar::{Counted, Pieces, Refusal};

use crate::args::{Args, Takes};
use crate::input;
use crate::outcome::{Ended, Outcome, Stop};
use crate::typing;

/// The most bytes of a piece.
const PIECE: usize = 65_536;

const TAKES: Takes =
    Takes { command: "count", flags: &[], valued: &[], names: "one text file", count: (1, 1) };

/// Counts the text that the words of the command line name.
///
/// # Errors
///
/// As [`Stop`] says; [`Stop::Refused`] if it is a text that the library does not type in, room for it aside.
pub fn command(words: &[OsString], out: &mut dyn Write) -> Ended {
    let args = Args::read(&TAKES, words)?;
    let (name, counted) = input::read_with(&args.names[0], |from| count(from, PIECE))?;
    let Counted { terms, most } =
        counted.map_err(|sentence| Stop::Refused(format!("{name}: {sentence}")))?;
    let (cells, wide) = (numbered(terms, "new cell"), numbered(most, "term"));
    writeln!(out, "The text needs {cells}; its widest level has {wide}.")?;
    Ok(Outcome::Done)
}

/// So many of something.
fn numbered(count: usize, what: &str) -> String {
    format!("{count} {what}{}", if count == 1 { "" } else { "s" })
}

/// What a text comes to, or the sentence that says why it is refused. No more of it is held than a piece, and no
/// more is read than up to the piece with the byte that is refused.
fn count(from: &mut dyn Read, most: usize) -> io::Result<Result<Counted, String>> {
    let (mut text, mut space) = (Text::default(), vec![0; most]);
    loop {
        match from.read(&mut space) {
            Ok(0) => return Ok(text.end()),
            Ok(length) => {
                if let Err(sentence) = text.take(&space[..length]) {
                    return Ok(Err(sentence));
                }
            }
            Err(error) if error.kind() == ErrorKind::Interrupted => {}
            Err(error) => return Err(error),
        }
    }
}

/// A text as far as it is read.
#[derive(Debug, Default)]
struct Text {
    pieces: Pieces,
    /// The last byte that was fed.
    last: Option<u8>,
    /// What was read and not fed, since the text is without it if it ends here: the end of a line.
    held: Vec<u8>,
}

impl Text {
    /// Takes what was read, or gives the sentence that says why a byte is refused.
    fn take(&mut self, read: &[u8]) -> Result<(), String> {
        let mut bytes = std::mem::take(&mut self.held);
        bytes.extend(read);
        self.held = bytes.split_off(input::unended(&bytes).len());
        let start = self.pieces.offset();
        self.pieces = self.pieces.feed(&bytes);
        if let Some(refusal) = self.pieces.refusal() {
            let place = self.pieces.offset() - start;
            let before = place.checked_sub(1).map_or(self.last, |before| Some(bytes[before]));
            return Err(self.sentence(before, Some(bytes[place]), refusal));
        }
        self.last = bytes.last().copied().or(self.last);
        Ok(())
    }

    /// What the text comes to if it ends here, or the sentence that says why it is refused.
    fn end(&self) -> Result<Counted, String> {
        self.pieces.end().map_err(|refusal| self.sentence(self.last, None, refusal))
    }

    fn sentence(&self, before: Option<u8>, byte: Option<u8>, refusal: Refusal) -> String {
        typing::sentence_at(self.pieces.offset(), before, byte, refusal)
    }
}

#[cfg(test)]
mod tests {
    use super::*;
    use zelmotar::Store;
    use zelmotar_model::make::{self, pieces::letters};
    use zelmotar_model::random::Random;

    /// What is said of a text that is read so many bytes at a time.
    fn said(mut text: &[u8], most: usize) -> Result<Counted, String> {
        count(&mut text, most).expect("it can be read")
    }

    #[test]
    fn a_text_needs_so_many_cells() {
        for (text, terms, most) in [
            ("", 0, 0),
            ("7", 1, 1),
            ("65 (66 67) ()", 5, 3),
            ("(1 2 3 4) 5", 6, 4),
            ("(())", 2, 1),
        ] {
            for end in ["", "\n", "\r\n", "\r"] {
                let text = [text, end].concat();
                for pieces in [1, 2, 3, 100] {
                    let counted = said(text.as_bytes(), pieces);
                    assert_eq!(counted, Ok(Counted { terms, most }), "{text:?}");
                }
            }
        }
        assert_eq!(numbered(0, "term"), "0 terms");
        assert_eq!(numbered(1, "term"), "1 term");
    }

    /// Whatever is read at a time, what is said is what is said of the text when it is typed in, and of a copy of it.
    #[test]
    fn a_text_is_said_to_be_what_typing_it_in_says() {
        let mut random = Random::of("counted texts");
        let mut met = [0; 2];
        for round in 0..20_000 {
            let mut text = make::text(&mut random);
            match round % 3 {
                0 => {}
                1 => make::spoil_text(&mut random, &mut text),
                _ => text = letters(&mut random, 10),
            }
            if input::unended(&text) != text {
                continue;
            }
            let mut copy = Pieces::new();
            io::copy(&mut &text[..], &mut copy).expect("a text takes all");
            let mut store = Store::new(300).expect("the capacity is allowed");
            let counted = match store.type_in(0, &text) {
                Ok(()) | Err(Refusal::NoRoom) => copy.end(),
                Err(refusal) => Err(refusal),
            };
            assert_eq!(counted, copy.end());
            let expected = counted.map_err(|refusal| typing::sentence(&store, 0, &text, refusal));
            met[usize::from(expected.is_ok())] += 1;
            text.extend(random.pick(&["", "\n", "\r\n"]).bytes());
            let most = random.pick(&[1, 2, 7, 1_000]);
            assert_eq!(said(&text, most), expected, "{}", text.escape_ascii());
        }
        assert!(met.iter().all(|&count| count > 2_000), "{met:?}");
    }

    #[test]
    fn only_the_end_of_the_last_line_is_no_part_of_a_text() {
        for (text, sentence) in [
            ("1\n2\n", "23 at byte 1: no text of an expression: the byte 10 stands in no text"),
            ("1\n\n", "23 at byte 1: no text of an expression: the byte 10 stands in no text"),
            ("1\r2\r\n", "23 at byte 1: no text of an expression: the byte 13 stands in no text"),
            ("1\n\r\n", "23 at byte 1: no text of an expression: the byte 10 stands in no text"),
            ("(1\n", "23 at byte 2: no text of an expression: the text ends too soon"),
            ("1 \n", "23 at byte 2: no text of an expression: the text ends too soon"),
        ] {
            for most in [1, 2, 3, 100] {
                assert_eq!(said(text.as_bytes(), most), Err(sentence.to_string()), "{text:?}");
            }
        }
    }

    #[test]
    fn a_text_without_an_end_is_read_up_to_the_byte_that_is_refused() {
        for (byte, sentence) in [
            (b'1', "13 at byte 9: the code is 0 or too large: it is over 268435455"),
            (b'(', "21 at byte 64: brackets are nested too deep: over 64 would be open here"),
            (b'\n', "23 at byte 0: no text of an expression: the byte 10 stands in no text"),
        ] {
            for most in [1, 5, PIECE] {
                let said = count(&mut io::repeat(byte), most).expect("it can be read");
                assert_eq!(said, Err(sentence.to_string()));
            }
        }
    }

    /// A reader of a symbol and a blank without end, which is interrupted again and again, and counts what is read.
    struct Line {
        read: usize,
        calls: usize,
    }

    impl Read for Line {
        fn read(&mut self, space: &mut [u8]) -> io::Result<usize> {
            self.calls += 1;
            if self.calls % 2 == 0 {
                return Err(ErrorKind::Interrupted.into());
            }
            for byte in &mut *space {
                *byte = if self.read % 2 == 0 { b'7' } else { b' ' };
                self.read += 1;
            }
            Ok(space.len())
        }
    }

    #[test]
    fn a_line_that_never_ends_has_too_many_terms() {
        let mut line = Line { read: 0, calls: 0 };
        let said = count(&mut line, 1_000).expect("it can be read");
        let sentence = "24 at byte 131072: too many terms: over 65536 would have begun here";
        assert_eq!((said, line.read), (Err(sentence.to_string()), 132_000));
    }

    #[test]
    fn what_cannot_be_read_is_no_refusal() {
        struct Broken;
        impl Read for Broken {
            fn read(&mut self, _: &mut [u8]) -> io::Result<usize> {
                Err(ErrorKind::ConnectionReset.into())
            }
        }
        let error = count(&mut Broken, 10).expect_err("it cannot be read");
        assert_eq!(error.kind(), ErrorKind::ConnectionReset);
    }
}
