//! A batch as it is written: a capacity, then a call a line.

use crate::call::{number, takes, Call};
use crate::input::{lines, text};

/// A batch that was read.
#[derive(Clone, Debug, PartialEq, Eq)]
pub struct Batch {
    /// The number of cells that the store is to have.
    pub capacity: u32,
    /// The calls, in order.
    pub calls: Vec<Call>,
}

/// What one line of a batch says.
enum Line {
    Capacity(u32),
    Call(Call),
}

/// What is wrong with a text, and in which line.
#[derive(Clone, Debug, PartialEq, Eq)]
pub struct Wrong {
    /// The line, counted from 1.
    pub line: usize,
    /// A sentence.
    pub why: String,
}

impl Batch {
    /// The batch in a text.
    ///
    /// # Errors
    ///
    /// The first line that is wrong.
    pub fn read(bytes: &[u8]) -> Result<Batch, Wrong> {
        let at = |line| move |why| Wrong { line, why };
        let text = text(bytes).map_err(at(1))?;
        let mut capacity = None;
        let mut calls = Vec::new();
        for (line, words) in lines(text) {
            let Some((name, numbers)) = words.split_first() else { continue };
            match (read(name, numbers).map_err(at(line))?, capacity) {
                (Line::Capacity(cells), None) => capacity = Some(cells),
                (Line::Capacity(_), Some(_)) => return Err(at(line)(twice())),
                (Line::Call(_), None) => return Err(at(line)(first())),
                (Line::Call(call), Some(_)) => calls.push(call),
            }
        }
        let last = lines(text).count();
        Ok(Batch { capacity: capacity.ok_or_else(|| at(last)(first()))?, calls })
    }

    /// The words of all calls.
    pub fn call_words(&self) -> Vec<u32> {
        self.calls.iter().flat_map(|call| call.words).collect()
    }

    /// What the program reads: the capacity, then the calls, all little-endian.
    pub fn program_input(&self) -> Vec<u8> {
        let calls = self.calls.iter().flat_map(|call| call.words);
        std::iter::once(self.capacity).chain(calls).flat_map(u32::to_le_bytes).collect()
    }
}

/// What a line with these words says.
fn read(name: &[u8], numbers: &[&[u8]]) -> Result<Line, String> {
    if !name.eq_ignore_ascii_case(b"CAPACITY") {
        return Call::read(name, numbers).map(Line::Call);
    }
    takes("CAPACITY", 1, numbers)?;
    number(numbers[0]).map(Line::Capacity)
}

fn first() -> String {
    "the first line is `CAPACITY n`".to_string()
}

fn twice() -> String {
    "the capacity is said once".to_string()
}

#[cfg(test)]
mod tests {
    use super::*;

    fn wrong(text: &[u8]) -> (usize, String) {
        let wrong = Batch::read(text).unwrap_err();
        (wrong.line, wrong.why)
    }

    #[test]
    fn a_batch_is_a_capacity_and_calls() {
        let text = b"\xef\xbb\xbf# a store\r\ncapacity 20 # cells\r\n\r\nSYMBOL 0 65\r\nLIVE";
        let batch = Batch::read(text).unwrap();
        assert_eq!(batch.capacity, 20);
        assert_eq!(batch.call_words(), [2, 0, 65, 0, 10, 0, 0, 0]);
        assert_eq!(batch.program_input().len(), 4 + 32);
        assert_eq!(batch.program_input()[..8], [20, 0, 0, 0, 2, 0, 0, 0]);
    }

    #[test]
    fn the_first_wrong_line_is_named() {
        assert_eq!(wrong(b""), (1, first()));
        assert_eq!(wrong(b"# nothing\n"), (2, first()));
        assert_eq!(wrong(b"LIVE\nCAPACITY 20\n"), (1, first()));
        assert_eq!(wrong(b"CAPACITY 20\nCAPACITY 20\n"), (2, twice()));
        assert_eq!(wrong(b"CAPACITY 20\nLIVE\nSWAP\n").0, 3);
        assert_eq!(wrong(b"\x7fELF\x02\x01\0\0\0").0, 1);
        assert!(wrong(b"\xff\xfeC\0A\0").1.contains("UTF-16"));
    }
}
