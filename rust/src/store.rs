//! A store with the words that it stands in.

#[cfg(feature = "alloc")]
use alloc::{string::String, vec, vec::Vec};
use core::str::from_utf8;

use crate::answer::no_status;
use crate::ffi;
#[cfg(feature = "alloc")]
use crate::{file_bytes, Stopped, Trailer, MAX_CALLS, MAX_CELLS};
use crate::{Answer, Call, Refusal, Terms};

/// What holds the words where a store's type does not say it: a vector, or without an allocator words
/// that are lent for good.
#[cfg(feature = "alloc")]
type Words = Vec<u32>;
#[cfg(not(feature = "alloc"))]
type Words = &'static mut [u32];

/// The bytes in which [`Store::print_string`] tries first; twice as many each time after.
#[cfg(feature = "alloc")]
const FIRST_SPACE: usize = 256;

/// An expression store: its words, owned or borrowed, and its `top`.
///
/// `W` is what holds the words: `Vec<u32>` for a store that owns them, `&mut [u32]` for one that
/// borrows them, or anything else that lends a slice, such as an array.
///
/// Nothing in a `Store` is trusted. Every request has the library check the words first, so a store
/// made of damaged words is refused and does no harm. The check takes time with the number of words,
/// and a batch of many calls has it once.
///
/// # Panics
///
/// A request panics if the linked library answers a number that is no status or no rule of the
/// store's or prints what is no text, so that something else is linked in its place, or if `W` lends
/// another slice each time that it is asked.
///
/// ```
/// use zelmotar::{Answer, Call, Store};
///
/// # fn main() -> Result<(), zelmotar::Refusal> {
/// // Owned words.
/// let mut owned = Store::new(64)?;
/// assert_eq!(owned.call(Call::Symbol { d: 0, code: 65 })?, Answer::Done);
///
/// // Borrowed words, the smallest store that there is.
/// let mut words = [0; 32];
/// let mut lent = Store::fresh(&mut words[..])?;
/// assert_eq!(lent.capacity(), 16);
/// assert_eq!(lent.call(Call::Live)?, Answer::Value(0));
/// # Ok(())
/// # }
/// ```
#[derive(Clone, Debug, PartialEq, Eq, Hash)]
pub struct Store<W = Words> {
    words: W,
    top: usize,
}

#[cfg(feature = "alloc")]
impl Store<Vec<u32>> {
    /// A fresh store of `capacity` cells that owns its words.
    ///
    /// # Errors
    ///
    /// [`Refusal::BadLength`] if the capacity is under 16 or over [`MAX_CELLS`].
    ///
    /// # Panics
    ///
    /// As every request: see [`Store`].
    ///
    /// ```
    /// use zelmotar::{Refusal, Store};
    ///
    /// assert_eq!(Store::new(64)?.top(), 16);
    /// assert_eq!(Store::new(15), Err(Refusal::BadLength));
    /// # Ok::<(), Refusal>(())
    /// ```
    pub fn new(capacity: usize) -> Result<Self, Refusal> {
        // One cell over the limit is refused as any greater capacity is, and can be allocated.
        let cells = capacity.min(MAX_CELLS + 1);
        Store::fresh(vec![0; 2 * cells])
    }

    /// The store that a file holds, in words of its own, as many as the file's trailer asks for.
    ///
    /// Whatever the bytes are, no more is allocated than the largest store has.
    ///
    /// # Errors
    ///
    /// As for [`load`](Store::load), but for [`Refusal::WrongSlice`], which never comes.
    ///
    /// # Panics
    ///
    /// As every request: see [`Store`].
    ///
    /// ```
    /// use zelmotar::{Refusal, Rule, Store};
    ///
    /// # fn main() -> Result<(), Refusal> {
    /// let mut store = Store::new(64)?;
    /// store.type_str(0, "(7 1 12)")?;
    /// let mut file = store.to_file()?;
    ///
    /// let swapped = Store::from_file(&file)?;
    /// assert_eq!(swapped, store);
    /// assert_eq!(swapped.look(0).to_string(), "(7 1 12)");
    ///
    /// assert_eq!(Store::from_file(&file[1..]), Err(Refusal::BadDistance));
    /// assert_eq!(Store::from_file(&file[..15]), Err(Refusal::ShortFile));
    /// file[4] ^= 1; // A bit of the first heap cell, the symbol 7 in cell 16.
    /// let refusal = Store::from_file(&file).unwrap_err();
    /// assert_eq!((refusal.cell(), refusal.rule()), (Some(16), Some(Rule::BadSymbol)));
    /// # Ok(())
    /// # }
    /// ```
    pub fn from_file(file: &[u8]) -> Result<Self, Refusal> {
        // A file that is refused for its trailer is refused whatever is lent.
        let words = Trailer::of(file).map_or(0, Trailer::words);
        Store::load(vec![0; words], file)
    }
}

impl<W> Store<W> {
    /// The store that stands in `words` with the given `top`, as [`into_parts`](Store::into_parts)
    /// gave them. Nothing is checked yet; [`check`](Store::check) does that.
    ///
    /// ```
    /// use zelmotar::{Refusal, Store};
    ///
    /// let (mut words, top) = Store::new(16)?.into_parts();
    /// words[6] = 5;
    /// let refusal = Store::from_parts(words, top).check().unwrap_err();
    /// assert_eq!(refusal.cell(), Some(3));
    /// assert_eq!(
    ///     refusal.to_string(),
    ///     "a cell breaks its rule: cell 3: it is an empty bracket whose first word is not 0"
    /// );
    /// # Ok::<(), Refusal>(())
    /// ```
    pub fn from_parts(words: W, top: usize) -> Self {
        Store { words, top }
    }

    /// The words and `top`.
    pub fn into_parts(self) -> (W, usize) {
        (self.words, self.top)
    }

    /// The end of the occupied cells: cells 16 up to but not including `top` are occupied.
    pub fn top(&self) -> usize {
        self.top
    }
}

impl<W: AsRef<[u32]> + AsMut<[u32]>> Store<W> {
    /// Writes a fresh store into `words`, two words to a cell, whatever they held.
    ///
    /// # Errors
    ///
    /// [`Refusal::BadLength`] if the number of words is odd, under 32 or over 8,192. A borrowed slice
    /// is then as it was.
    ///
    /// # Panics
    ///
    /// As every request: see [`Store`].
    pub fn fresh(mut words: W) -> Result<Self, Refusal> {
        let reply = ffi::fresh(words.as_mut());
        Refusal::of(reply)?;
        Ok(Store { words, top: reply.top })
    }

    /// Writes the store that a file holds into `words`, whatever they held; they must be two for
    /// each cell of the file's capacity, which [`Trailer::words`](crate::Trailer::words) tells. It
    /// allocates nothing.
    ///
    /// The file is read from its end: bytes before its first heap cell do not count. It holds a
    /// collected store, and this is it, word for word and with its `top`. [`save`](Store::save)
    /// gives the same bytes again. A file has no checksum: changed bytes are refused only where
    /// they are those of no store that is sound and collected.
    ///
    /// # Errors
    ///
    /// The first that applies, and a borrowed slice is then as it was:
    ///
    /// - [`Refusal::ShortFile`] if the file is under 16 bytes, and so has no trailer;
    /// - [`Refusal::BadEdition`] if its edition is not [`EDITION`](crate::EDITION);
    /// - [`Refusal::BadDistance`] if its distance is not 8(`n` + 16) + 16 for the `n` heap cells of
    ///   the trailer, or more than the file has;
    /// - [`Refusal::BadCapacity`] if its capacity is under 16 + `n` or over
    ///   [`MAX_CELLS`](crate::MAX_CELLS);
    /// - [`Refusal::WrongSlice`] if the number of words is not twice that capacity;
    /// - [`Refusal::Damaged`] if a cell of the file breaks its rule; its address and its rule are
    ///   those that it has in the store;
    /// - [`Refusal::NotCollected`] if a heap cell is reached from no register.
    ///
    /// # Panics
    ///
    /// As every request: see [`Store`].
    ///
    /// ```
    /// use zelmotar::{Refusal, Store};
    ///
    /// # fn main() -> Result<(), Refusal> {
    /// let mut file = [0; 200];
    /// let length = Store::fresh([0; 36])?.save(&mut file)?;
    /// let mut words = [7; 40];
    /// let store = Store::load(&mut words[..36], &file[..length])?;
    /// assert_eq!((store.capacity(), store.top()), (18, 16));
    /// assert_eq!(Store::load(&mut words[..], &file[..length]), Err(Refusal::WrongSlice));
    /// // With the zeros behind it, it is another file.
    /// assert_eq!(Store::load(&mut words[..36], &file), Err(Refusal::BadEdition));
    /// # Ok(())
    /// # }
    /// ```
    pub fn load(mut words: W, file: &[u8]) -> Result<Self, Refusal> {
        let reply = ffi::load(words.as_mut(), file);
        Refusal::of_loaded(reply)?;
        Ok(Store { words, top: reply.top })
    }

    /// The words of the store, two to a cell.
    pub fn words(&self) -> &[u32] {
        self.words.as_ref()
    }

    /// The number of cells that the words have room for, registers included.
    pub fn capacity(&self) -> usize {
        self.words().len() / 2
    }

    /// Whether the store is sound.
    ///
    /// # Errors
    ///
    /// [`Refusal::BadLength`], [`Refusal::BadTop`] or [`Refusal::Damaged`], in this order; the last
    /// with the first damaged cell and the [`Rule`](crate::Rule) that it breaks.
    ///
    /// # Panics
    ///
    /// As every request: see [`Store`].
    pub fn check(&self) -> Result<(), Refusal> {
        Refusal::of(ffi::check(self.words(), self.top))
    }

    /// Collects the store and gives the number of live cells.
    ///
    /// Live cells close up in their order, from cell 16 on, and what follows them is zero.
    /// Registers denote what they did before.
    ///
    /// # Errors
    ///
    /// As for [`check`](Store::check); the store is then as it was.
    ///
    /// # Panics
    ///
    /// As every request: see [`Store`].
    ///
    /// ```
    /// use zelmotar::{Call, Store};
    ///
    /// # fn main() -> Result<(), Box<dyn std::error::Error>> {
    /// let mut store = Store::new(64)?;
    /// store.run_all(&[Call::Symbol { d: 0, code: 1 }, Call::Symbol { d: 0, code: 2 }])?;
    /// assert_eq!(store.top(), 18);
    /// assert_eq!(store.collect()?, 1);
    /// assert_eq!(store.top(), 17);
    /// assert_eq!(store.look(0).to_string(), "2");
    /// # Ok(())
    /// # }
    /// ```
    pub fn collect(&mut self) -> Result<u32, Refusal> {
        let reply = ffi::collect(self.words.as_mut(), self.top);
        self.top = reply.top;
        Refusal::of(reply)?;
        Ok(reply.value)
    }

    /// Runs a batch of calls and gives one answer for each.
    ///
    /// A refused call does not stop the calls after it; with [`run_all`](Store::run_all) it does. So the
    /// answers are to be looked at, though the compiler, which warns of one that is dropped, does not
    /// warn of a vector of them. The store collects itself where a call would not fit otherwise, and
    /// only there; [`Call`] says what counts then.
    ///
    /// # Errors
    ///
    /// As for [`check`](Store::check), or [`Refusal::BadCalls`] for more than
    /// [`MAX_CALLS`](crate::MAX_CALLS) calls; no call is run then and the store is as it was.
    ///
    /// # Panics
    ///
    /// As every request: see [`Store`].
    ///
    /// ```
    /// use zelmotar::{Answer, Call, Fault, Store};
    ///
    /// # fn main() -> Result<(), zelmotar::Refusal> {
    /// let answers = Store::new(64)?.run(&[
    ///     Call::Symbol { d: 0, code: 65 },
    ///     Call::Open { d: 1, a: 0 },
    ///     Call::First { a: 0 },
    /// ])?;
    /// assert_eq!(answers, [Answer::Done, Answer::Refused(Fault::Kind), Answer::Value(65)]);
    /// # Ok(())
    /// # }
    /// ```
    #[cfg(feature = "alloc")]
    pub fn run(&mut self, calls: &[Call]) -> Result<Vec<Answer>, Refusal> {
        let words: Vec<u32> = calls.iter().flat_map(|call| call.words()).collect();
        let mut space = vec![0; 2 * calls.len()];
        self.run_words(&words, &mut space)?;
        Ok(calls
            .iter()
            .zip(space.chunks_exact(2))
            .map(|(&call, answer)| read(call, answer))
            .collect())
    }

    /// Runs calls up to the first that is refused, and gives one answer for each.
    ///
    /// The list may be as long as one likes. What is left is what the calls would leave one by one; yet
    /// the words are checked, and copied in case a call is refused, once for [`MAX_CALLS`] calls.
    ///
    /// # Errors
    ///
    /// [`Stopped::Store`] as for [`check`](Store::check), and the store is then as it was.
    /// [`Stopped::Call`] says which call is refused; those before it are done.
    ///
    /// # Panics
    ///
    /// As every request: see [`Store`].
    ///
    /// ```
    /// use zelmotar::{Call, Fault, Stopped, Store};
    ///
    /// # fn main() -> Result<(), zelmotar::Refusal> {
    /// let mut store = Store::new(64)?;
    /// let calls = [
    ///     Call::Symbol { d: 0, code: 65 },
    ///     Call::Open { d: 1, a: 0 },
    ///     Call::Clear { d: 0 },
    /// ];
    /// let stopped = store.run_all(&calls).unwrap_err();
    /// assert_eq!(stopped, Stopped::Call { at: 1, call: calls[1], fault: Fault::Kind });
    /// assert_eq!(
    ///     stopped.to_string(),
    ///     "call 1, OPEN 1 0: its first term is of the other kind"
    /// );
    /// assert_eq!(store.look(0).to_string(), "65");
    /// # Ok(())
    /// # }
    /// ```
    #[cfg(feature = "alloc")]
    pub fn run_all(&mut self, calls: &[Call]) -> Result<Vec<Answer>, Stopped> {
        let mut answers = Vec::with_capacity(calls.len());
        loop {
            let rest = &calls[answers.len()..];
            answers.extend(self.run_to_refusal(&rest[..rest.len().min(MAX_CALLS)])?);
            if let Some(&Answer::Refused(fault)) = answers.last() {
                let at = answers.len() - 1;
                return Err(Stopped::Call { at, call: calls[at], fault });
            }
            if answers.len() == calls.len() {
                return Ok(answers);
            }
        }
    }

    /// Runs a batch up to the first call that is refused, and gives the answers up to that one's.
    #[cfg(feature = "alloc")]
    fn run_to_refusal(&mut self, calls: &[Call]) -> Result<Vec<Answer>, Refusal> {
        let (words, top) = (self.words().to_vec(), self.top);
        let answers = self.run(calls)?;
        let Some(at) = answers.iter().position(|answer| !answer.is_done()) else {
            return Ok(answers);
        };
        // The calls after the refused one have been run too. So the store goes back to what it was, and
        // forward up to the refused one, which is run again since it may have collected the store.
        self.words.as_mut().copy_from_slice(&words);
        self.top = top;
        self.run(&calls[..=at])
    }

    /// Runs one call and gives its answer. It allocates nothing.
    ///
    /// # Errors
    ///
    /// As for [`check`](Store::check).
    ///
    /// # Panics
    ///
    /// As every request: see [`Store`].
    pub fn call(&mut self, call: Call) -> Result<Answer, Refusal> {
        let mut space = [0; 2];
        self.run_words(&call.words(), &mut space)?;
        Ok(read(call, &space))
    }

    /// Runs a batch that is given in words, four to a call, and writes two answer words a call, the
    /// status and the value. Answer words after those become 0. It allocates nothing.
    ///
    /// # Errors
    ///
    /// As for [`check`](Store::check), then [`Refusal::BadCalls`] if the list is over 4,096 words or
    /// not a multiple of four, or [`Refusal::ShortAnswers`] if `answers` is under two words a call.
    /// Store and answers are then as they were.
    ///
    /// # Panics
    ///
    /// As every request: see [`Store`].
    ///
    /// ```
    /// use zelmotar::Store;
    ///
    /// # fn main() -> Result<(), zelmotar::Refusal> {
    /// let mut answers = [7; 6];
    /// let calls = [[10, 0, 0, 0], [12, 99, 0, 0]].concat();
    /// Store::new(16)?.run_words(&calls, &mut answers)?;
    /// assert_eq!(answers, [0, 0, 10, 0, 0, 0]);
    /// # Ok(())
    /// # }
    /// ```
    pub fn run_words(&mut self, calls: &[u32], answers: &mut [u32]) -> Result<(), Refusal> {
        let reply = ffi::run(self.words.as_mut(), self.top, calls, answers);
        self.top = reply.top;
        Refusal::of(reply)
    }

    /// The terms of a register, in the lent cells.
    ///
    /// There are none if the register is empty or over 15, or the store is not sound;
    /// [`check`](Store::check) tells which.
    pub fn look(&self, register: usize) -> Terms<'_> {
        let words = self.words();
        let span = ffi::look(words, self.top, register);
        Terms::new(words, span.from, span.to)
    }

    /// Prints a register into `space` and gives the part of it that is the text: codes in decimal, one
    /// blank between two terms and parentheses for brackets, as in `1 (2 ()) 3`. It allocates nothing.
    ///
    /// The bytes after the text become 0. What is shared is printed each time that it occurs, yet the
    /// time goes with the words and with `space` alone, however long the text would be.
    ///
    /// # Errors
    ///
    /// As for [`check`](Store::check), then [`Refusal::NoRegister`] if the register is over 15. Else
    /// what comes first in the text: [`Refusal::TooDeep`] at a bracket with which more than
    /// [`MAX_DEPTH`](crate::MAX_DEPTH) would be open, [`Refusal::ShortSpace`] at a byte that does not
    /// fit. `space` is all 0 then, whatever it held.
    ///
    /// # Panics
    ///
    /// As every request: see [`Store`].
    ///
    /// ```
    /// use zelmotar::{Answer, Call, Refusal, Store};
    ///
    /// # fn main() -> Result<(), Refusal> {
    /// let mut words = [0; 40];
    /// let mut store = Store::fresh(&mut words[..])?;
    /// assert_eq!(store.call(Call::Symbol { d: 0, code: 65 })?, Answer::Done);
    /// assert_eq!(store.call(Call::Wrap { d: 1, a: 0 })?, Answer::Done);
    ///
    /// let mut space = [b'?'; 6];
    /// assert_eq!(store.print(1, &mut space)?, "(65)");
    /// assert_eq!(&space, b"(65)\0\0");
    /// assert_eq!(store.print(1, &mut space[..3]), Err(Refusal::ShortSpace));
    /// assert_eq!(&space, b"\0\0\0)\0\0");
    /// assert_eq!(store.print(16, &mut space), Err(Refusal::NoRegister));
    /// # Ok(())
    /// # }
    /// ```
    pub fn print<'a>(&self, register: usize, space: &'a mut [u8]) -> Result<&'a str, Refusal> {
        let text = ffi::print(self.words(), self.top, register, space);
        Refusal::of_text(text)?;
        let written = space.get(..text.length).and_then(|bytes| from_utf8(bytes).ok());
        Ok(written
            .unwrap_or_else(|| panic!("the linked library prints what is no text of zelmotar")))
    }

    /// Prints a register as a string of at most `limit` bytes.
    ///
    /// There is a limit because what is shared is printed each time that it occurs: a few hundred cells
    /// can have a text that no memory holds. What is allocated grows with the text up to the limit.
    ///
    /// # Errors
    ///
    /// As for [`print`](Store::print) into a space of `limit` bytes: [`Refusal::ShortSpace`] if the text
    /// is longer than that.
    ///
    /// # Panics
    ///
    /// As every request: see [`Store`].
    ///
    /// ```
    /// use zelmotar::{Call, Refusal, Store};
    ///
    /// # fn main() -> Result<(), Box<dyn std::error::Error>> {
    /// let mut store = Store::new(256)?;
    /// let mut calls = vec![Call::Symbol { d: 0, code: 65 }];
    /// for _ in 0..60 {
    ///     calls.extend([Call::Wrap { d: 0, a: 0 }, Call::Join { d: 0, a: 0, b: 0 }]);
    /// }
    /// store.run_all(&calls[..5])?;
    /// assert_eq!(store.print_string(0, 1_000)?, "((65) (65)) ((65) (65))");
    /// store.run_all(&calls)?;
    /// assert_eq!(store.print_string(0, 1_000_000), Err(Refusal::ShortSpace));
    /// # Ok(())
    /// # }
    /// ```
    #[cfg(feature = "alloc")]
    pub fn print_string(&self, register: usize, limit: usize) -> Result<String, Refusal> {
        let mut length = FIRST_SPACE.min(limit);
        loop {
            match self.print(register, &mut vec![0; length]).map(String::from) {
                Err(Refusal::ShortSpace) if length < limit => {
                    length = length.saturating_mul(2).min(limit);
                }
                printed => return printed,
            }
        }
    }

    /// Types a text into a register: the register becomes the expression of which this is the text, laid in
    /// new cells, one a term. It allocates nothing.
    ///
    /// Only a text as [`print`](Store::print) writes it is read: codes in decimal, none of which begins with 0,
    /// one blank between two terms and none elsewhere, at most [`MAX_DEPTH`](crate::MAX_DEPTH) brackets open
    /// at one place, and at most [`MAX_TERMS`](crate::MAX_TERMS) terms. A text of no bytes makes the register
    /// empty. The store collects itself where the new cells would not fit otherwise, and only there. What the
    /// register held does not count then and goes, but for cells that another register reaches; so it need
    /// not be emptied first. How many new cells a text takes, [`Pieces`](crate::Pieces) tells before.
    ///
    /// # Errors
    ///
    /// As for [`check`](Store::check), then [`Refusal::NoRegister`] if the register is over 15. Else what
    /// comes first in the text, with its offset: [`Refusal::NotText`] at a byte that cannot stand there or
    /// where the text ends too soon, [`Refusal::BadCode`] at a 0 that begins a term or a digit that takes a code
    /// over [`MAX_CODE`](crate::MAX_CODE), [`Refusal::TooDeepAt`] at a bracket with which too many would be open,
    /// [`Refusal::TooManyTerms`] at a byte that begins a term with which there would be too many. At one byte
    /// the bracket goes before the term, and the term before the 0. The store is then as it was. Last
    /// [`Refusal::NoRoom`], and then the store has been collected and every register has its expression.
    ///
    /// # Panics
    ///
    /// As every request: see [`Store`].
    ///
    /// ```
    /// use zelmotar::{Refusal, Store};
    ///
    /// # fn main() -> Result<(), Refusal> {
    /// let mut words = [0; 42];
    /// let mut store = Store::fresh(&mut words[..])?;
    /// store.type_in(1, b"65 (66 67) ()")?;
    /// assert_eq!(store.top(), 21);
    /// assert_eq!(store.print(1, &mut [0; 13])?, "65 (66 67) ()");
    ///
    /// assert_eq!(store.type_in(1, b"65  66"), Err(Refusal::NotText { offset: 3 }));
    /// assert_eq!(store.type_in(1, b"268435456"), Err(Refusal::BadCode { offset: 8 }));
    /// assert_eq!(store.type_in(1, b"10 0"), Err(Refusal::BadCode { offset: 3 }));
    /// let long = b"1 ".repeat(65_537);
    /// assert_eq!(store.type_in(1, &long), Err(Refusal::TooManyTerms { offset: 131_072 }));
    /// assert_eq!(store.type_in(2, b"65"), Err(Refusal::NoRoom));
    /// assert_eq!(store.type_in(16, b"65"), Err(Refusal::NoRegister));
    /// assert_eq!(store.type_in(1, b"1 2 3 4 5 6"), Err(Refusal::NoRoom));
    /// assert_eq!(store.print(1, &mut [0; 13])?, "65 (66 67) ()");
    ///
    /// store.type_in(1, b"1 2 3 4 5")?; // What it held makes room.
    /// assert_eq!(store.print(1, &mut [0; 13])?, "1 2 3 4 5");
    /// # Ok(())
    /// # }
    /// ```
    pub fn type_in(&mut self, register: usize, text: &[u8]) -> Result<(), Refusal> {
        let typed = ffi::type_in(self.words.as_mut(), self.top, register, text);
        self.top = typed.top;
        Refusal::of_typed(typed)
    }

    /// Types the bytes of a string into a register.
    ///
    /// # Errors
    ///
    /// As for [`type_in`](Store::type_in). An offset counts bytes; all before it are ASCII, so the string can
    /// be cut there.
    ///
    /// # Panics
    ///
    /// As every request: see [`Store`].
    ///
    /// ```
    /// use zelmotar::{Refusal, Store};
    ///
    /// # fn main() -> Result<(), Refusal> {
    /// let mut store = Store::new(64)?;
    /// store.type_str(0, "1 (2 (3) 4) 5 ()")?;
    /// assert_eq!(store.look(0).to_string(), "1 (2 (3) 4) 5 ()");
    ///
    /// // Another store gets a copy, as text.
    /// let mut other = Store::new(24)?;
    /// other.type_str(3, &store.print_string(0, 100)?)?;
    /// assert_eq!(other.look(3), store.look(0));
    /// # Ok(())
    /// # }
    /// ```
    pub fn type_str(&mut self, register: usize, text: &str) -> Result<(), Refusal> {
        self.type_in(register, text.as_bytes())
    }

    /// Collects the store, writes it into `space` as a file, and gives the length of the file. It
    /// allocates nothing.
    ///
    /// The file is at the start of `space`, and the bytes after it become 0. They are no part of
    /// it, as a file is read from its end: only `space[..length]` is to be kept. With
    /// [`file_bytes`](crate::file_bytes) of `top` there is always room.
    ///
    /// # Errors
    ///
    /// As for [`check`](Store::check), and the store is then as it was. Then
    /// [`Refusal::ShortSpace`] if the file has more bytes than `space`, and the store has been
    /// collected. `space` is all 0 in both cases, whatever it held.
    ///
    /// # Panics
    ///
    /// As every request: see [`Store`].
    ///
    /// ```
    /// use zelmotar::{file_bytes, Refusal, Store};
    ///
    /// # fn main() -> Result<(), Refusal> {
    /// let mut words = [0; 40];
    /// let mut store = Store::fresh(&mut words[..])?;
    /// store.type_in(0, b"1 2 3")?;
    /// store.type_in(0, b"7")?;
    /// assert_eq!(store.top(), 20);
    ///
    /// let mut space = [1; file_bytes(20)];
    /// assert_eq!(store.save(&mut space)?, file_bytes(17)); // One cell is live.
    /// assert_eq!(store.top(), 17);
    /// assert_eq!(space[..8], [7, 0, 0, 0, 0, 0, 0, 0]);
    /// assert_eq!(space[file_bytes(17)..], [0; 24]);
    ///
    /// assert_eq!(store.save(&mut space[..151]), Err(Refusal::ShortSpace));
    /// assert_eq!(space, [0; file_bytes(20)]);
    /// # Ok(())
    /// # }
    /// ```
    pub fn save(&mut self, space: &mut [u8]) -> Result<usize, Refusal> {
        let saved = ffi::save(self.words.as_mut(), self.top, space);
        self.top = saved.top;
        Refusal::of_saved(saved)?;
        Ok(saved.length)
    }

    /// Collects the store and gives its file, for [`load`](Store::load) or `from_file` on another
    /// machine.
    ///
    /// # Errors
    ///
    /// As for [`check`](Store::check); the store is then as it was.
    ///
    /// # Panics
    ///
    /// As every request: see [`Store`].
    ///
    /// ```
    /// use zelmotar::{Refusal, Store};
    ///
    /// # fn main() -> Result<(), Refusal> {
    /// let mut store = Store::new(64)?;
    /// store.type_str(0, "65 66")?;
    /// store.type_str(0, "(67)")?;
    /// let file = store.to_file()?;
    /// assert_eq!((store.top(), file.len()), (18, 160));
    ///
    /// // Bytes before the first heap cell do not count.
    /// let longer = [b"site 12\n", &file[..]].concat();
    /// assert_eq!(Store::from_file(&longer)?.to_file()?, file);
    /// # Ok(())
    /// # }
    /// ```
    #[cfg(feature = "alloc")]
    pub fn to_file(&mut self) -> Result<Vec<u8>, Refusal> {
        // A greater `top` is refused whatever is lent.
        let mut file = vec![0; file_bytes(self.top.min(MAX_CELLS))];
        let length = self.save(&mut file)?;
        file.truncate(length);
        Ok(file)
    }
}

/// The answer to `call` in its two words.
///
/// # Panics
///
/// If the status is no number of the library's, so that something else is linked in its place.
fn read(call: Call, answer: &[u32]) -> Answer {
    Answer::from_words(call, answer[0], answer[1]).unwrap_or_else(|| no_status(answer[0]))
}
