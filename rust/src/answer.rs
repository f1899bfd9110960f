//! What comes back: answers to calls, and refusals of a whole request.

use core::error::Error;
use core::fmt;

use crate::ffi::{Counted, Reply, Saved, Text, Typed};
use crate::{status_text, Call, Rule};

/// The answer to one call of a batch.
///
/// It is written as `done`, `done: 65` or `refused: no room`. The compiler warns of one that is dropped:
///
/// ```compile_fail
/// #![deny(unused_must_use)]
/// # fn main() -> Result<(), zelmotar::Refusal> {
/// zelmotar::Store::fresh([0; 32])?.call(zelmotar::Call::Live)?;
/// # Ok(())
/// # }
/// ```
///
/// ```
/// #![deny(unused_must_use)]
/// # fn main() -> Result<(), zelmotar::Refusal> {
/// let answer = zelmotar::Store::fresh([0; 32])?.call(zelmotar::Call::Live)?;
/// assert_eq!(answer.to_string(), "done: 0");
/// # Ok(())
/// # }
/// ```
#[derive(Clone, Copy, Debug, PartialEq, Eq, Hash)]
#[must_use = "a call may be refused, and the calls after it still go on"]
pub enum Answer {
    /// The call is done, and has no value.
    Done,
    /// The call is done, and this is its value.
    Value(u32),
    /// The call is refused. Later calls of the batch go on.
    Refused(Fault),
}

impl Answer {
    /// The answer in the two words that the store gave for `call`.
    ///
    /// `None` if the status is no number of the store's.
    pub fn from_words(call: Call, status: u32, value: u32) -> Option<Answer> {
        match status {
            0 if call.has_value() => Some(Answer::Value(value)),
            0 => Some(Answer::Done),
            number => Fault::from_number(number).map(Answer::Refused),
        }
    }

    /// Whether the call is done, with or without a value.
    pub fn is_done(self) -> bool {
        !matches!(self, Answer::Refused(_))
    }

    /// The value, if the call is done and has one.
    pub fn value(self) -> Option<u32> {
        match self {
            Answer::Value(value) => Some(value),
            Answer::Done | Answer::Refused(_) => None,
        }
    }

    /// The fault, if the call is refused.
    pub fn fault(self) -> Option<Fault> {
        match self {
            Answer::Refused(fault) => Some(fault),
            Answer::Done | Answer::Value(_) => None,
        }
    }
}

impl fmt::Display for Answer {
    fn fmt(&self, f: &mut fmt::Formatter<'_>) -> fmt::Result {
        match self {
            Answer::Done => f.write_str(status_text(0)),
            Answer::Value(value) => write!(f, "{}: {value}", status_text(0)),
            Answer::Refused(fault) => write!(f, "refused: {fault}"),
        }
    }
}

/// Why one call is refused: the first that applies.
///
/// All but [`Room`](Fault::Room) leave every word of the store as it was.
#[derive(Clone, Copy, Debug, PartialEq, Eq, Hash)]
#[must_use]
pub enum Fault {
    /// 10: the operation is over 11. No [`Call`] has such an operation.
    Operation,
    /// 11: a register is over 15.
    Register,
    /// 12: a word that the call does not use is not 0. No [`Call`] has such a word.
    StrayWord,
    /// 13: a symbol's code is 0, or over [`MAX_CODE`](crate::MAX_CODE).
    Code,
    /// 14: the call asks for the first term of an empty register.
    Empty,
    /// 15: `Open` on a symbol, or `First` on a bracket.
    Kind,
    /// 16: there is no room for the new cells; [`Call`] says what counts. The store has been collected, and
    /// every register has its expression.
    Room,
}

impl Fault {
    /// Every fault, in the order in which the store tests for them.
    pub const ALL: [Fault; 7] = [
        Fault::Operation,
        Fault::Register,
        Fault::StrayWord,
        Fault::Code,
        Fault::Empty,
        Fault::Kind,
        Fault::Room,
    ];

    /// The status number of the fault, 10 to 16.
    pub const fn number(self) -> u32 {
        match self {
            Fault::Operation => 10,
            Fault::Register => 11,
            Fault::StrayWord => 12,
            Fault::Code => 13,
            Fault::Empty => 14,
            Fault::Kind => 15,
            Fault::Room => 16,
        }
    }

    /// The fault with a status number.
    pub fn from_number(number: u32) -> Option<Fault> {
        Fault::ALL.into_iter().find(|fault| fault.number() == number)
    }
}

/// The text of its number in [`STATUSES`](crate::STATUSES).
impl fmt::Display for Fault {
    fn fmt(&self, f: &mut fmt::Formatter<'_>) -> fmt::Result {
        f.write_str(status_text(self.number()))
    }
}

impl Error for Fault {}

/// Why a whole request is refused: the first that applies.
///
/// After a refusal the words, the answer space and `top` are as they came, but for
/// [`NoRoom`](Refusal::NoRoom) of a typed text and [`ShortSpace`](Refusal::ShortSpace) of a file,
/// which leave the store collected. A space for a text or a file is not as it came: whatever
/// refuses to write there, all its bytes are 0 then. More requests will bring more refusals, and
/// more may come to be said of a damaged cell: a match has a case for the rest.
#[derive(Clone, Copy, Debug, PartialEq, Eq, Hash)]
#[must_use]
#[non_exhaustive]
pub enum Refusal {
    /// 1: the number of words is odd, under 32 or over 8,192.
    BadLength,
    /// 2: `top` is under 16 or over the capacity.
    BadTop,
    /// 3: a cell breaks its rule, in the store that is lent or in the one that a file holds.
    #[non_exhaustive]
    Damaged {
        /// The first damaged cell, the one with the lowest address.
        cell: u32,
        /// The rule that it breaks, the first that applies.
        rule: Rule,
    },
    /// 4: the call list is over 4,096 words or not a multiple of four.
    BadCalls,
    /// 5: the answer space is under two words a call.
    ShortAnswers,
    /// 13: a term of a text begins with 0, or a digit takes a code over [`MAX_CODE`](crate::MAX_CODE). Here
    /// and below, where a refusal has an offset, the text is one that is typed in or comes in
    /// [`Pieces`](crate::Pieces).
    BadCode {
        /// The place of the digit in the text, from 0.
        offset: usize,
    },
    /// 16: there is no room for a typed text, not even without what its register held. The store has been
    /// collected, and every register has its expression.
    NoRoom,
    /// 20: the register to be printed or typed in is over 15.
    NoRegister,
    /// 21: a bracket of a printed text would be one over the [`MAX_DEPTH`](crate::MAX_DEPTH) that may be
    /// open.
    TooDeep,
    /// 21: a bracket of a text is one over the [`MAX_DEPTH`](crate::MAX_DEPTH) that may be open.
    TooDeepAt {
        /// The place of the bracket in the text, from 0.
        offset: usize,
    },
    /// 22: a byte of the text does not fit into the text space, or the file does not fit into its
    /// space. For a file the store has been collected, and every register has its expression.
    ShortSpace,
    /// 23: a text is that of no expression.
    NotText {
        /// The place of the first byte that cannot stand there, from 0; the length where the text ends too
        /// soon.
        offset: usize,
    },
    /// 24: a term of a text is one over the [`MAX_TERMS`](crate::MAX_TERMS) that it may have. At one byte
    /// [`TooDeepAt`](Refusal::TooDeepAt) goes before it, and it before [`BadCode`](Refusal::BadCode).
    TooManyTerms {
        /// The place of the byte that begins the term, from 0.
        offset: usize,
    },
    /// 30: a file has fewer bytes than a trailer, [`Trailer::BYTES`](crate::Trailer::BYTES).
    ShortFile,
    /// 31: a file is of another edition than [`EDITION`](crate::EDITION).
    BadEdition,
    /// 32: the distance in a file's trailer is not that of its heap cells, or is beyond the file.
    BadDistance,
    /// 33: no store has the capacity in a file's trailer, or it is too small for the heap cells.
    BadCapacity,
    /// 34: no register reaches some heap cell of a file.
    NotCollected,
    /// 35: the words lent for a file are not two for each cell of the capacity in its trailer.
    WrongSlice,
}

impl Refusal {
    /// The status number of the refusal: 1 to 5, 20 to 22 for printing, 13, 16, 20, 21, 23 and 24 for
    /// typing, all but 16 and 20 of these for a text in pieces, 22 for saving, 3 and 30 to 35 for loading.
    pub const fn number(self) -> u32 {
        match self {
            Refusal::BadLength => 1,
            Refusal::BadTop => 2,
            Refusal::Damaged { .. } => 3,
            Refusal::BadCalls => 4,
            Refusal::ShortAnswers => 5,
            Refusal::BadCode { .. } => 13,
            Refusal::NoRoom => 16,
            Refusal::NoRegister => 20,
            Refusal::TooDeep | Refusal::TooDeepAt { .. } => 21,
            Refusal::ShortSpace => 22,
            Refusal::NotText { .. } => 23,
            Refusal::TooManyTerms { .. } => 24,
            Refusal::ShortFile => 30,
            Refusal::BadEdition => 31,
            Refusal::BadDistance => 32,
            Refusal::BadCapacity => 33,
            Refusal::NotCollected => 34,
            Refusal::WrongSlice => 35,
        }
    }

    /// The damaged cell, if that is the refusal.
    pub const fn cell(self) -> Option<u32> {
        match self {
            Refusal::Damaged { cell, .. } => Some(cell),
            _ => None,
        }
    }

    /// The rule that the damaged cell breaks, if that is the refusal.
    ///
    /// ```
    /// use zelmotar::{Rule, Store};
    ///
    /// let (mut words, top) = Store::new(20)?.into_parts();
    /// words[38] = 7; // A word of cell 19, which is free.
    /// let refusal = Store::from_parts(words, top).check().unwrap_err();
    /// assert_eq!((refusal.cell(), refusal.rule()), (Some(19), Some(Rule::BeyondTop)));
    /// # Ok::<(), zelmotar::Refusal>(())
    /// ```
    pub const fn rule(self) -> Option<Rule> {
        match self {
            Refusal::Damaged { rule, .. } => Some(rule),
            _ => None,
        }
    }

    /// The place in a text that is refused, if a text is: the offset of a byte, or the length where the text
    /// ends too soon.
    ///
    /// ```
    /// use zelmotar::Store;
    ///
    /// let refusal = Store::new(64)?.type_str(0, "65 (66 x)").unwrap_err();
    /// assert_eq!((refusal.number(), refusal.offset()), (23, Some(7)));
    /// assert_eq!(refusal.to_string(), "no text of an expression: byte 7");
    /// # Ok::<(), zelmotar::Refusal>(())
    /// ```
    pub const fn offset(self) -> Option<usize> {
        match self {
            Refusal::BadCode { offset }
            | Refusal::TooDeepAt { offset }
            | Refusal::NotText { offset }
            | Refusal::TooManyTerms { offset } => Some(offset),
            _ => None,
        }
    }

    /// The refusal in the reply of a check, a fresh store, a collection or a batch, if it is one.
    ///
    /// # Panics
    ///
    /// If the status is no number that these give, or the rule of a damaged cell is none, so that
    /// something else is linked in the library's place.
    pub(crate) fn of(reply: Reply) -> Result<(), Refusal> {
        match reply.status {
            4 => Err(Refusal::BadCalls),
            5 => Err(Refusal::ShortAnswers),
            status => Refusal::of_store(status, reply.value, reply.rule),
        }
    }

    /// The refusal in what printing answers, if it is one.
    ///
    /// # Panics
    ///
    /// As [`of`](Refusal::of).
    pub(crate) fn of_text(text: Text) -> Result<(), Refusal> {
        match text.status {
            20 => Err(Refusal::NoRegister),
            21 => Err(Refusal::TooDeep),
            22 => Err(Refusal::ShortSpace),
            // The value is a cell, and so fits a word.
            status => Refusal::of_store(status, text.value as u32, text.rule),
        }
    }

    /// The refusal in what typing answers, if it is one.
    ///
    /// # Panics
    ///
    /// As [`of`](Refusal::of).
    pub(crate) fn of_typed(typed: Typed) -> Result<(), Refusal> {
        match (typed.status, Refusal::at(typed.status, typed.value)) {
            (_, Some(refusal)) => Err(refusal),
            (16, _) => Err(Refusal::NoRoom),
            (20, _) => Err(Refusal::NoRegister),
            // The value is a cell, and so fits a word.
            (status, _) => Refusal::of_store(status, typed.value as u32, typed.rule),
        }
    }

    /// The refusal in what a text in pieces answers at its end, if it is one.
    ///
    /// # Panics
    ///
    /// As [`of`](Refusal::of).
    pub(crate) fn of_counted(counted: Counted) -> Result<(), Refusal> {
        match (counted.status, Refusal::at(counted.status, counted.value)) {
            (0, _) => Ok(()),
            (_, Some(refusal)) => Err(refusal),
            (other, None) => no_status(other),
        }
    }

    /// The refusal of a text with a status and an offset; `None` if the status is of something else.
    pub(crate) fn at(status: u32, offset: usize) -> Option<Refusal> {
        match status {
            13 => Some(Refusal::BadCode { offset }),
            21 => Some(Refusal::TooDeepAt { offset }),
            23 => Some(Refusal::NotText { offset }),
            24 => Some(Refusal::TooManyTerms { offset }),
            _ => None,
        }
    }

    /// The refusal in what saving answers, if it is one.
    ///
    /// # Panics
    ///
    /// As [`of`](Refusal::of).
    pub(crate) fn of_saved(saved: Saved) -> Result<(), Refusal> {
        match saved.status {
            22 => Err(Refusal::ShortSpace),
            status => Refusal::of_store(status, saved.value, saved.rule),
        }
    }

    /// The refusal in the reply of loading, if it is one. No store is lent, so 1 and 2 are none.
    ///
    /// # Panics
    ///
    /// As [`of`](Refusal::of).
    pub(crate) fn of_loaded(reply: Reply) -> Result<(), Refusal> {
        match reply.status {
            0 => Ok(()),
            3 => Err(Refusal::damaged(reply.value, reply.rule)),
            30 => Err(Refusal::ShortFile),
            31 => Err(Refusal::BadEdition),
            32 => Err(Refusal::BadDistance),
            33 => Err(Refusal::BadCapacity),
            34 => Err(Refusal::NotCollected),
            35 => Err(Refusal::WrongSlice),
            other => no_status(other),
        }
    }

    /// The refusal of a store that is lent, with the value of its status and the rule.
    fn of_store(status: u32, value: u32, rule: u32) -> Result<(), Refusal> {
        match status {
            0 => Ok(()),
            1 => Err(Refusal::BadLength),
            2 => Err(Refusal::BadTop),
            3 => Err(Refusal::damaged(value, rule)),
            other => no_status(other),
        }
    }

    /// The refusal for a damaged cell, with the number of its rule.
    fn damaged(cell: u32, rule: u32) -> Refusal {
        let rule = Rule::from_number(rule).unwrap_or_else(|| no_rule(rule));
        Refusal::Damaged { cell, rule }
    }
}

/// Panics, as the library never gives this number for what was asked.
pub(crate) fn no_status(number: u32) -> ! {
    panic!("the linked library answers {number}, which is no status of zelmotar for what was asked")
}

/// Panics, as the library never gives this number for the rule of a damaged cell.
fn no_rule(number: u32) -> ! {
    panic!("the linked library answers rule {number}, which is no rule of zelmotar")
}

/// The text of its number in [`STATUSES`](crate::STATUSES), and the damaged cell with its rule or the byte
/// of the text where there is one.
impl fmt::Display for Refusal {
    fn fmt(&self, f: &mut fmt::Formatter<'_>) -> fmt::Result {
        f.write_str(status_text(self.number()))?;
        match (*self, self.offset()) {
            (Refusal::Damaged { cell, rule }, _) => write!(f, ": cell {cell}: {rule}"),
            (_, Some(offset)) => write!(f, ": byte {offset}"),
            _ => Ok(()),
        }
    }
}

impl Error for Refusal {}

#[cfg(test)]
mod tests {
    use super::*;

    /// Each kind of answer, with a status and a rule: the refusal in it.
    fn refusals(status: u32, rule: u32) -> [Result<(), Refusal>; 5] {
        let (value, top, length) = (19, 20, 0);
        let reply = Reply { status, rule, value, top };
        [
            Refusal::of(reply),
            Refusal::of_text(Text { status, rule, value: 19, length }),
            Refusal::of_typed(Typed { status, rule, value: 19, top }),
            Refusal::of_saved(Saved { status, rule, value, top, length }),
            Refusal::of_loaded(reply),
        ]
    }

    #[test]
    fn a_damaged_cell_has_its_rule_in_every_answer() {
        for rule in Rule::ALL {
            let damaged = Err(Refusal::Damaged { cell: 19, rule });
            assert_eq!(refusals(3, rule.number()), [damaged; 5]);
        }
        assert_eq!(refusals(0, 0), [Ok(()); 5]);
    }

    #[test]
    fn a_text_is_refused_alike_whether_it_is_typed_in_or_comes_in_pieces() {
        let (rule, value, top, terms, most) = (0, 7, 20, 0, 0);
        for status in [13, 21, 23, 24] {
            let refusal = Refusal::of_typed(Typed { status, rule, value, top }).unwrap_err();
            assert_eq!((refusal.number(), refusal.offset()), (status, Some(7)));
            assert_eq!(Refusal::of_counted(Counted { status, value, terms, most }), Err(refusal));
        }
        let done = Counted { status: 0, value: 0, terms: 5, most: 3 };
        assert_eq!(Refusal::of_counted(done), Ok(()));
    }

    #[test]
    #[should_panic = "answers 16, which is no status"]
    fn a_text_in_pieces_is_not_refused_for_room() {
        let _ = Refusal::of_counted(Counted { status: 16, value: 0, terms: 0, most: 0 });
    }

    #[test]
    #[should_panic = "answers rule 0, which is no rule"]
    fn no_rule_at_all_is_none() {
        let _ = refusals(3, 0);
    }

    #[test]
    #[should_panic = "answers rule 7, which is no rule"]
    fn a_number_over_the_last_rule_is_none() {
        let _ = refusals(3, 7);
    }
}
