//! The terms of a register, read from the lent cells.

#[cfg(feature = "alloc")]
use alloc::vec;
use core::fmt;
use core::iter::FusedIterator;

/// The second word of an empty bracket; with a right end added, that of any other.
const BRACKET: u32 = 0x8000_0000;

/// The most terms that [`Debug`](fmt::Debug) writes out, and the most brackets that it goes inward.
const MOST_SHOWN: usize = 64;
const DEEPEST_SHOWN: usize = 8;

/// One term of an expression.
///
/// Terms are equal if they say the same, as [`Terms`] are.
#[derive(Clone, Debug)]
#[cfg_attr(feature = "alloc", derive(PartialEq, Eq))]
#[must_use]
pub enum Term<'a> {
    /// A symbol and its code.
    Symbol(u32),
    /// A bracket and the terms in it.
    Bracket(Terms<'a>),
}

/// The terms of a register or of a bracket, in order.
///
/// It borrows the words of the store and copies nothing. Terms in brackets are met by iterating
/// over the brackets' own `Terms`.
///
/// Through sharing, a small store can hold an expression of very many terms. A walk through all
/// brackets, as [`Display`](fmt::Display) makes it, takes as long as the expression is when written
/// out in full. [`Debug`](fmt::Debug) writes the first 64 terms, at most 8 brackets deep, and `..`
/// for what it leaves out.
///
/// Two `Terms` are equal if the terms still to come denote the same expression, in whichever stores
/// and whatever they share. That takes no longer for sharing: at most as many runs are compared as
/// the two stores have cells. Writing out and comparing need the feature `alloc`.
///
/// ```
/// use zelmotar::{Call, Store, Term};
///
/// # fn main() -> Result<(), Box<dyn std::error::Error>> {
/// let mut store = Store::new(64)?;
/// store.run_all(&[
///     Call::Symbol { d: 0, code: 65 },
///     Call::Wrap { d: 1, a: 0 },
///     Call::Join { d: 2, a: 0, b: 1 },
/// ])?;
/// let terms = store.look(2);
/// assert_eq!(terms.len(), 2);
/// assert_eq!(terms.to_string(), "65 (65)");
/// for term in terms {
///     match term {
///         Term::Symbol(code) => assert_eq!(code, 65),
///         Term::Bracket(inside) => assert_eq!(inside, store.look(0)),
///     }
/// }
/// # Ok(())
/// # }
/// ```
#[derive(Clone)]
#[must_use]
pub struct Terms<'a> {
    /// All words of a sound store, since brackets name cells anywhere below their own.
    words: &'a [u32],
    /// Offsets of the cells still to come, in words and both even.
    from: usize,
    to: usize,
}

impl<'a> Terms<'a> {
    /// The terms of `words[from..to]`, whole cells of a sound store.
    pub(crate) fn new(words: &'a [u32], from: usize, to: usize) -> Self {
        Terms { words, from, to }
    }

    /// The lent cells of the terms still to come, two words to a cell.
    pub fn cells(&self) -> &'a [u32] {
        &self.words[self.from..self.to]
    }

    /// All words of the store that the terms are in.
    #[cfg(feature = "alloc")]
    pub(crate) fn words(&self) -> &'a [u32] {
        self.words
    }

    /// The address of the next cell, whether or not there is one.
    #[cfg(feature = "alloc")]
    pub(crate) fn address(&self) -> usize {
        self.from / 2
    }

    /// The term of the cell whose words begin at offset `i`.
    fn at(&self, i: usize) -> Term<'a> {
        match (self.words[i], self.words[i + 1]) {
            (code, 0) => Term::Symbol(code),
            (_, BRACKET) => Term::Bracket(Terms::new(self.words, 0, 0)),
            (left, right) => {
                let (left, right) = (left as usize, (right ^ BRACKET) as usize);
                Term::Bracket(Terms::new(self.words, 2 * left, 2 * right + 2))
            }
        }
    }
}

impl<'a> Iterator for Terms<'a> {
    type Item = Term<'a>;

    fn next(&mut self) -> Option<Term<'a>> {
        if self.from == self.to {
            return None;
        }
        self.from += 2;
        Some(self.at(self.from - 2))
    }

    fn size_hint(&self) -> (usize, Option<usize>) {
        let left = (self.to - self.from) / 2;
        (left, Some(left))
    }
}

impl DoubleEndedIterator for Terms<'_> {
    fn next_back(&mut self) -> Option<Self::Item> {
        if self.from == self.to {
            return None;
        }
        self.to -= 2;
        Some(self.at(self.to))
    }
}

impl ExactSizeIterator for Terms<'_> {}

impl FusedIterator for Terms<'_> {}

/// The code, or the terms of the bracket between parentheses.
#[cfg(feature = "alloc")]
impl fmt::Display for Term<'_> {
    fn fmt(&self, f: &mut fmt::Formatter<'_>) -> fmt::Result {
        match self {
            Term::Symbol(code) => write!(f, "{code}"),
            Term::Bracket(inside) => write!(f, "({inside})"),
        }
    }
}

/// The codes with a blank between two terms and parentheses for brackets, as in `1 (2 ()) 3`.
#[cfg(feature = "alloc")]
impl fmt::Display for Terms<'_> {
    fn fmt(&self, f: &mut fmt::Formatter<'_>) -> fmt::Result {
        // A stack and not recursion: brackets may be nested some thousand deep.
        let mut open = vec![self.clone()];
        let mut first = true;
        while let Some(terms) = open.last_mut() {
            let Some(term) = terms.next() else {
                open.pop();
                if !open.is_empty() {
                    f.write_str(")")?;
                }
                first = false;
                continue;
            };
            if !first {
                f.write_str(" ")?;
            }
            first = matches!(term, Term::Bracket(_));
            match term {
                Term::Symbol(code) => write!(f, "{code}")?,
                Term::Bracket(inside) => {
                    f.write_str("(")?;
                    open.push(inside);
                }
            }
        }
        Ok(())
    }
}

impl fmt::Debug for Terms<'_> {
    fn fmt(&self, f: &mut fmt::Formatter<'_>) -> fmt::Result {
        f.write_str("Terms(")?;
        write_some(f, self.clone(), DEEPEST_SHOWN, &mut { MOST_SHOWN })?;
        f.write_str(")")
    }
}

/// Writes terms as [`Display`](fmt::Display) does, but at most `left` of them and at most `deep`
/// brackets inward, with `..` where something is left out.
fn write_some(
    f: &mut fmt::Formatter<'_>,
    terms: Terms,
    deep: usize,
    left: &mut usize,
) -> fmt::Result {
    for (i, term) in terms.enumerate() {
        if i > 0 {
            f.write_str(" ")?;
        }
        if *left == 0 {
            return f.write_str("..");
        }
        *left -= 1;
        match term {
            Term::Symbol(code) => write!(f, "{code}")?,
            Term::Bracket(inside) if deep == 0 && inside.len() > 0 => f.write_str("(..)")?,
            Term::Bracket(inside) => {
                f.write_str("(")?;
                write_some(f, inside, deep.saturating_sub(1), left)?;
                f.write_str(")")?;
            }
        }
    }
    Ok(())
}
