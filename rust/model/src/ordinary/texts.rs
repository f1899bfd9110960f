//! How a register is written as text, and a text read: by recursion over brackets. Codes are written by two
//! digits at a time. What is read becomes a tree, which is laid once there is room for it.

use super::{ends, on, pair, set, EMPTY};
use crate::plain::{MAX_CODE, MAX_DEPTH, MAX_TERMS, MIN_CODE};

/// The numbers 00 to 99, side by side.
const PAIRS: [[u8; 2]; 100] = {
    let mut pairs = [[0; 2]; 100];
    let mut n = 0;
    while n < 100 {
        pairs[n] = [b'0' + (n / 10) as u8, b'0' + (n % 10) as u8];
        n += 1;
    }
    pairs
};

/// A text space, and how much of it is written.
struct Pen<'a> {
    space: &'a mut [u8],
    length: usize,
}

impl Pen<'_> {
    /// Writes a byte, or gives 22 where there is no room for it.
    #[inline]
    fn put(&mut self, byte: u8) -> Result<(), u32> {
        *self.space.get_mut(self.length).ok_or(22u32)? = byte;
        self.length += 1;
        Ok(())
    }

    /// Writes a code.
    #[inline]
    fn put_code(&mut self, mut code: u32) -> Result<(), u32> {
        let (mut digits, mut first) = ([0; 10], 10);
        while code >= 100 {
            first -= 2;
            digits[first..first + 2].copy_from_slice(&PAIRS[(code % 100) as usize]);
            code /= 100;
        }
        if code >= 10 {
            first -= 2;
            digits[first..first + 2].copy_from_slice(&PAIRS[code as usize]);
        } else {
            first -= 1;
            digits[first] = b'0' + code as u8;
        }
        let end = self.length + 10 - first;
        let room = self.space.get_mut(self.length..end).ok_or(22u32)?;
        room.copy_from_slice(&digits[first..]);
        self.length = end;
        Ok(())
    }

    /// Writes the terms of a run inside `open` brackets.
    fn put_run(&mut self, words: &[u32], l: usize, r: usize, open: usize) -> Result<(), u32> {
        for c in l..=r {
            if c > l {
                self.put(b' ')?;
            }
            match pair(words, c) {
                [code, 0] => self.put_code(code)?,
                _ if open == MAX_DEPTH => return Err(21),
                _ => {
                    self.put(b'(')?;
                    if let Some((l, r)) = ends(words, c) {
                        self.put_run(words, l, r, open + 1)?;
                    }
                    self.put(b')')?;
                }
            }
        }
        Ok(())
    }
}

/// Writes the text of a register of a sound store and gives its length, or 21 or 22. What was written
/// until then stays, and nothing after it is touched.
pub fn write(words: &[u32], register: usize, space: &mut [u8]) -> Result<usize, u32> {
    let mut pen = Pen { space, length: 0 };
    if let Some((l, r)) = ends(words, register) {
        pen.put_run(words, l, r, 0)?;
    }
    Ok(pen.length)
}

/// A term of a tree.
#[derive(Clone, Copy, Debug)]
struct Node {
    /// The term's own cell, once it is known: that of a symbol at once, that of a bracket when its contents
    /// are laid.
    cell: [u32; 2],
    /// The number of the next term on the same level; what is in a bracket comes before it.
    next: u32,
}

/// An expression as a tree: its terms in the order of the text, in one list that is kept from text to text.
#[derive(Debug, Default)]
pub struct Tree(Vec<Node>);

/// A text, and how much of it is read.
struct Eye<'a> {
    text: &'a [u8],
    at: usize,
}

impl Eye<'_> {
    /// The byte to be read; 0 after the last, which stands in no text.
    #[inline]
    fn byte(&self) -> u8 {
        *self.text.get(self.at).unwrap_or(&0)
    }

    /// Reads a code that begins here, or gives 13.
    #[inline]
    fn code(&mut self) -> Result<u32, u32> {
        let mut code = u32::from(self.byte() - b'0');
        if code < MIN_CODE {
            return Err(13);
        }
        self.at += 1;
        while self.byte().is_ascii_digit() {
            code = 10 * code + u32::from(self.byte() - b'0');
            if code > MAX_CODE {
                return Err(13);
            }
            self.at += 1;
        }
        Ok(code)
    }
}

impl Tree {
    /// The tree of a text in place of what was here, or the status that refuses it, and where.
    pub fn read(&mut self, text: &[u8]) -> Result<(), (u32, usize)> {
        self.0.clear();
        let mut eye = Eye { text, at: 0 };
        let read = match text {
            [] => Ok(()),
            _ => self.read_terms(&mut eye, 0),
        };
        match read {
            Ok(()) if eye.at < text.len() => Err((23, eye.at)),
            read => read.map_err(|status| (status, eye.at)),
        }
    }

    /// Reads one term or more inside `open` brackets, with one space between each two.
    fn read_terms(&mut self, eye: &mut Eye, open: usize) -> Result<(), u32> {
        loop {
            let this = self.0.len();
            match eye.byte() {
                b'(' if open == MAX_DEPTH => return Err(21),
                b'0'..=b'9' | b'(' if this == MAX_TERMS => return Err(24),
                b'0'..=b'9' => {
                    let code = eye.code()?;
                    self.0.push(Node { cell: [code, 0], next: this as u32 + 1 });
                }
                b'(' => {
                    eye.at += 1;
                    self.0.push(Node { cell: EMPTY, next: 0 });
                    if eye.byte() != b')' {
                        self.read_terms(eye, open + 1)?;
                    }
                    if eye.byte() != b')' {
                        return Err(23);
                    }
                    eye.at += 1;
                    self.0[this].next = self.0.len() as u32;
                }
                _ => return Err(23),
            }
            if eye.byte() != b' ' {
                return Ok(());
            }
            eye.at += 1;
        }
    }

    /// The number of terms on all levels.
    pub fn count(&self) -> usize {
        self.0.len()
    }

    /// Lays the tree from `top` upward, for which there is room, and gives the cell around it.
    pub fn lay(&mut self, words: &mut [u32], top: &mut usize) -> [u32; 2] {
        self.lay_terms(words, top, 0, self.0.len())
    }

    /// Lays the terms from number `from` up to `end`: what their brackets hold, then themselves.
    fn lay_terms(
        &mut self,
        words: &mut [u32],
        top: &mut usize,
        from: usize,
        end: usize,
    ) -> [u32; 2] {
        if from == end {
            return EMPTY;
        }
        let mut this = from;
        while this < end {
            let next = self.0[this].next as usize;
            if next > this + 1 {
                self.0[this].cell = self.lay_terms(words, top, this + 1, next);
            }
            this = next;
        }
        let l = *top;
        this = from;
        while this < end {
            let Node { cell, next } = self.0[this];
            set(words, *top, cell);
            *top += 1;
            this = next as usize;
        }
        on(l, *top - 1)
    }
}
