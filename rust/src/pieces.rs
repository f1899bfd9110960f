//! A text that comes in pieces: whether it can be typed in, and what that takes.

use core::fmt;

use crate::{ffi, Refusal};

/// What it takes to type a text in.
#[derive(Clone, Copy, Debug, PartialEq, Eq, Hash)]
#[must_use]
pub struct Counted {
    /// The number of terms on all levels, and so of the new cells, one a term.
    pub terms: usize,
    /// The most terms that any one expression in the text has at its own level, be it the whole text or what a
    /// bracket holds; 0 for a text of no bytes.
    pub most: usize,
}

/// A text that comes in pieces, judged as it comes.
///
/// Each piece is [fed](Pieces::feed) when it comes, be it long, short or empty. At the [end](Pieces::end) it is
/// known whether the text is one that [`Store::type_in`](crate::Store::type_in) reads, and what it takes to type
/// it in. No store is needed for that, nothing is laid, and nothing of the text is kept: a `Pieces` has some 300
/// bytes, however long the text is. It allocates nothing.
///
/// However a text is cut, the `Pieces` that it leaves are equal, and the end answers what typing in the whole
/// text would, store and room aside. An offset counts from the first byte of the first piece. Once a byte is
/// refused, further pieces change nothing.
///
/// ```
/// use zelmotar::{Counted, Pieces, Refusal, Store, FIRST_HEAP_CELL};
///
/// # fn main() -> Result<(), Refusal> {
/// let text = Pieces::new().feed(b"65 (6").feed(b"6 67) (").feed(b")");
/// assert_eq!(text.end(), Ok(Counted { terms: 5, most: 3 }));
/// assert_eq!(text, Pieces::new().feed(b"65 (66 67) ()"));
///
/// // A store with just so many heap cells has room for it.
/// let mut store = Store::new(FIRST_HEAP_CELL + 5)?;
/// store.type_str(0, "65 (66 67) ()")?;
/// assert_eq!(store.top(), store.capacity());
///
/// let text = Pieces::new().feed(b"65 (6").feed(b"6  67)");
/// assert_eq!(text.end(), Err(Refusal::NotText { offset: 7 }));
/// assert_eq!(text.feed(b" 68"), text);
/// # Ok(())
/// # }
/// ```
///
/// Pieces can be collected from anything that lends bytes, and added to a text in the same way:
///
/// ```
/// use zelmotar::{Counted, Pieces};
///
/// let mut text: Pieces = ["65 (6", "", "6 67)"].into_iter().collect();
/// text.extend([b" (", b") "].iter());
/// text.extend(Some(String::from("7")));
/// assert_eq!(text.end(), Ok(Counted { terms: 6, most: 4 }));
/// ```
#[derive(Clone, Copy, PartialEq, Eq)]
#[must_use = "feeding gives a new one, and leaves the old as it was"]
pub struct Pieces(ffi::Pieces);

impl Pieces {
    /// A text of which no byte has come yet.
    pub fn new() -> Self {
        Pieces(ffi::text_start())
    }

    /// The text with one piece more.
    pub fn feed(self, piece: &[u8]) -> Self {
        Pieces(ffi::text_feed(self.0, piece))
    }

    /// What the text comes to if it ends here. It may be asked at any time, and the text fed further.
    ///
    /// # Errors
    ///
    /// What comes first in the text, with its offset: [`Refusal::NotText`] at a byte that cannot stand there or
    /// where the text ends too soon, [`Refusal::BadCode`], [`Refusal::TooDeepAt`] or [`Refusal::TooManyTerms`],
    /// as for [`Store::type_in`](crate::Store::type_in).
    ///
    /// # Panics
    ///
    /// If the linked library answers a number that is no status for a text, so that something else is linked in
    /// its place.
    ///
    /// ```
    /// use zelmotar::{Counted, Pieces, Refusal};
    ///
    /// let text = Pieces::new();
    /// assert_eq!(text.end(), Ok(Counted { terms: 0, most: 0 }));
    /// let text = text.feed(b"65 (66");
    /// assert_eq!(text.end(), Err(Refusal::NotText { offset: 6 })); // It ends too soon.
    /// let text = text.feed(b"7)");
    /// assert_eq!(text.end(), Ok(Counted { terms: 3, most: 2 }));
    /// let text = text.feed(b" 0");
    /// assert_eq!(text.end(), Err(Refusal::BadCode { offset: 9 }));
    /// ```
    pub fn end(self) -> Result<Counted, Refusal> {
        let counted = ffi::text_end(self.0);
        Refusal::of_counted(counted)?;
        Ok(Counted { terms: counted.terms, most: counted.most })
    }

    /// Why a byte that has come is refused, if one is; no more need be fed then. The [end](Pieces::end) alone does
    /// not tell that, as it refuses a text too that would only end too soon.
    ///
    /// ```
    /// use zelmotar::{Pieces, Refusal};
    ///
    /// let text = Pieces::new().feed(b"65 (66");
    /// assert_eq!(text.refusal(), None);
    /// assert_eq!(text.feed(b")1").refusal(), Some(Refusal::NotText { offset: 7 }));
    /// ```
    pub fn refusal(&self) -> Option<Refusal> {
        Refusal::at(self.0.stand, self.0.offset)
    }

    /// What the text has taken so far, up to its last byte or to the one that is refused. Neither number ever
    /// falls, so a text that is too large already need not be fed to its end.
    ///
    /// ```
    /// use zelmotar::{Counted, Pieces};
    ///
    /// let text = Pieces::new().feed(b"65 (66 67 68");
    /// assert_eq!(text.so_far(), Counted { terms: 5, most: 3 });
    /// ```
    pub fn so_far(&self) -> Counted {
        // It is at most the number of terms, and so fits.
        Counted { terms: self.0.terms, most: self.0.most as usize }
    }

    /// The number of bytes that are read: all that have come, or those before the one that is refused.
    pub fn offset(&self) -> usize {
        self.0.offset
    }

    /// The number of brackets that are open, at most [`MAX_DEPTH`](crate::MAX_DEPTH).
    pub fn depth(&self) -> usize {
        self.0.depth
    }
}

/// A text of which no byte has come yet.
impl Default for Pieces {
    fn default() -> Self {
        Pieces::new()
    }
}

/// The fields of [`raw::Pieces`](crate::raw::Pieces), but of the counts only those of brackets that are open.
impl fmt::Debug for Pieces {
    fn fmt(&self, f: &mut fmt::Formatter<'_>) -> fmt::Result {
        let ffi::Pieces { stand, code, offset, depth, terms, own, most, counts } = &self.0;
        f.debug_struct("Pieces")
            .field("stand", stand)
            .field("code", code)
            .field("offset", offset)
            .field("depth", depth)
            .field("terms", terms)
            .field("own", own)
            .field("most", most)
            .field("counts", &&counts[..counts.len().min(*depth)])
            .finish()
    }
}

/// Feeds each item as a piece.
impl<P: AsRef<[u8]>> Extend<P> for Pieces {
    fn extend<I: IntoIterator<Item = P>>(&mut self, pieces: I) {
        *self = pieces.into_iter().fold(*self, |text, piece| text.feed(piece.as_ref()));
    }
}

/// A text of which each item is a piece.
impl<P: AsRef<[u8]>> FromIterator<P> for Pieces {
    fn from_iter<I: IntoIterator<Item = P>>(pieces: I) -> Self {
        let mut text = Pieces::new();
        text.extend(pieces);
        text
    }
}

/// Each string that is written is a piece. No write fails: a text that is refused takes what comes and stays as it
/// is, and [`end`](Pieces::end) says why, for which a formatting error has no room.
///
/// ```
/// use std::fmt::Write;
/// use zelmotar::{Counted, Pieces, Store};
///
/// # fn main() -> Result<(), Box<dyn std::error::Error>> {
/// let mut store = Store::new(64)?;
/// store.type_str(0, "65 (66 67) ()")?;
/// // A copy of the register, typed in from its text, takes as many cells as this.
/// let mut text = Pieces::new();
/// write!(text, "{}", store.look(0))?;
/// assert_eq!(text.end(), Ok(Counted { terms: 5, most: 3 }));
/// # Ok(())
/// # }
/// ```
impl fmt::Write for Pieces {
    fn write_str(&mut self, piece: &str) -> fmt::Result {
        *self = self.feed(piece.as_bytes());
        Ok(())
    }
}

/// Each write is a piece, and takes all of it. No write fails: a text that is refused takes what comes and stays as
/// it is, so that whoever copies into it need not tell a text that is none from a line that broke;
/// [`end`](Pieces::end) says why it is refused, with the offset. There is nothing to flush.
///
/// It is here with the feature `std`.
///
/// ```
/// use std::io;
/// use zelmotar::{Counted, Pieces, Refusal};
///
/// # fn main() -> io::Result<()> {
/// let mut text = Pieces::new();
/// assert_eq!(io::copy(&mut &b"65 (66 67)"[..], &mut text)?, 10);
/// assert_eq!(text.end(), Ok(Counted { terms: 4, most: 2 }));
/// assert_eq!(io::copy(&mut &b"\n65"[..], &mut text)?, 3);
/// assert_eq!(text.end(), Err(Refusal::NotText { offset: 10 }));
/// # Ok(())
/// # }
/// ```
#[cfg(feature = "std")]
impl std::io::Write for Pieces {
    fn write(&mut self, piece: &[u8]) -> std::io::Result<usize> {
        *self = self.feed(piece);
        Ok(piece.len())
    }

    fn flush(&mut self) -> std::io::Result<()> {
        Ok(())
    }
}
