//! A text counted as it comes in pieces, in one pass and with nothing kept of it but numbers.

use crate::plain::{MAX_CODE, MAX_DEPTH, MAX_TERMS};

/// What the last byte was.
#[derive(Clone, Copy, Debug, Default)]
enum Stand {
    /// None yet, or an opening bracket.
    #[default]
    Begun,
    Blank,
    /// A digit of this number so far.
    Number(u32),
    Closed,
    /// One that is refused with this status.
    Refused(u32),
}

/// A text as far as it is read. The counts of the open expressions are in a list that grows, and a piece changes
/// the counter in its place.
#[derive(Debug, Default)]
pub struct Counter {
    stand: Stand,
    /// The bytes that are read.
    at: usize,
    /// The terms begun on all levels, in the innermost open expression, and the most in any one.
    terms: usize,
    own: usize,
    most: usize,
    /// Those of the expressions around the innermost one.
    around: Vec<usize>,
}

impl Counter {
    /// Reads one piece more.
    pub fn feed(&mut self, piece: &[u8]) {
        for &byte in piece {
            match self.after(byte) {
                Ok(stand) => self.stand = stand,
                Err(status) => {
                    self.stand = Stand::Refused(status);
                    return;
                }
            }
            self.at += 1;
        }
    }

    /// Where the text stands after one byte more, or the status that refuses it.
    #[inline]
    fn after(&mut self, byte: u8) -> Result<Stand, u32> {
        use Stand::{Begun, Blank, Closed, Number, Refused};
        match (byte, self.stand) {
            (_, Refused(status)) => Err(status),
            (b'0'..=b'9', Number(code)) => match 10 * code + u32::from(byte - b'0') {
                code if code <= MAX_CODE => Ok(Number(code)),
                _ => Err(13),
            },
            (b'0'..=b'9', Begun | Blank) => {
                self.begin()?;
                match byte {
                    b'0' => Err(13),
                    _ => Ok(Number(u32::from(byte - b'0'))),
                }
            }
            (b'(', Begun | Blank) if self.around.len() == MAX_DEPTH => Err(21),
            (b'(', Begun | Blank) => {
                self.begin()?;
                self.around.push(self.own);
                self.own = 0;
                Ok(Begun)
            }
            (b')', Begun | Number(_) | Closed) => {
                self.own = self.around.pop().ok_or(23_u32)?;
                Ok(Closed)
            }
            (b' ', Number(_) | Closed) => Ok(Blank),
            _ => Err(23),
        }
    }

    /// Begins a term, or gives 24.
    #[inline]
    fn begin(&mut self) -> Result<(), u32> {
        if self.terms == MAX_TERMS {
            return Err(24);
        }
        self.terms += 1;
        self.own += 1;
        self.most = self.most.max(self.own);
        Ok(())
    }

    /// What the text comes to if it ends here: its terms on all levels, and the most on one.
    ///
    /// # Errors
    ///
    /// The status that refuses it, and where.
    pub fn end(&self) -> Result<(usize, usize), (u32, usize)> {
        match self.stand {
            Stand::Refused(status) => Err((status, self.at)),
            Stand::Blank => Err((23, self.at)),
            _ if !self.around.is_empty() => Err((23, self.at)),
            _ => Ok((self.terms, self.most)),
        }
    }
}
