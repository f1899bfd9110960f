//! Calls, the four words that each is sent as, and the line that each is written as.

use core::fmt;

use crate::Fault;

/// One call on a store.
///
/// Registers have the numbers 0 to 15; `d` is the one that changes. They may coincide. A number out
/// of range is no error here: the store refuses the call and says so in its
/// [`Answer`](crate::Answer).
///
/// Where the new cells of a call do not fit, the store collects itself. What `d` held until then does not
/// count and goes, unless the call reads `d` too; cells that another register reaches count and stay. So a
/// register need not be cleared before it is overwritten. If the new cells do not fit even then, the call is
/// refused with [`Fault::Room`], and `d` keeps what it held.
///
/// ```
/// use zelmotar::Call;
///
/// assert_eq!(Call::Join { d: 2, a: 0, b: 1 }.words(), [4, 2, 0, 1]);
/// assert_eq!(Call::Length { a: 7 }.words(), [8, 0, 7, 0]);
/// assert_eq!(Call::Length { a: 7 }.to_string(), "LENGTH 7");
/// assert_eq!(Call::try_from([8, 0, 7, 0]), Ok(Call::Length { a: 7 }));
/// ```
///
/// In a store with one heap cell:
///
/// ```
/// use zelmotar::{Answer, Call, Fault, Store};
///
/// # fn main() -> Result<(), zelmotar::Refusal> {
/// let answers = Store::new(17)?.run(&[
///     Call::Symbol { d: 0, code: 65 },
///     Call::Symbol { d: 0, code: 66 },
///     Call::Wrap { d: 0, a: 0 },
/// ])?;
/// assert_eq!(answers, [Answer::Done, Answer::Done, Answer::Refused(Fault::Room)]);
/// # Ok(())
/// # }
/// ```
#[derive(Clone, Copy, Debug, PartialEq, Eq, Hash)]
pub enum Call {
    /// Register `d` becomes empty.
    Clear {
        /// The register that changes.
        d: u32,
    },
    /// Register `d` becomes the expression of `a`; the cells are shared.
    Copy {
        /// The register that changes.
        d: u32,
        /// The register that is read.
        a: u32,
    },
    /// Register `d` becomes one symbol. It needs one new cell; what `d` held does not count.
    Symbol {
        /// The register that changes.
        d: u32,
        /// The code of the symbol, [`MIN_CODE`](crate::MIN_CODE) to [`MAX_CODE`](crate::MAX_CODE).
        code: u32,
    },
    /// Register `d` becomes one bracket around the expression of `a`. It needs one new cell; what `d` held
    /// counts only where `a` is the same register.
    Wrap {
        /// The register that changes.
        d: u32,
        /// The register whose expression goes into the bracket.
        a: u32,
    },
    /// Register `d` becomes the terms of `a`, then those of `b`.
    ///
    /// If one of the two is empty the other one is shared. Else it needs a new cell for each term
    /// of both; what `d` held counts only where `a` or `b` is the same register.
    Join {
        /// The register that changes.
        d: u32,
        /// The register whose terms come first.
        a: u32,
        /// The register whose terms follow.
        b: u32,
    },
    /// Register `d` becomes the first term of `a`, shared.
    Head {
        /// The register that changes.
        d: u32,
        /// The register that is read; it must not be empty.
        a: u32,
    },
    /// Register `d` becomes `a` less its first term, shared.
    Rest {
        /// The register that changes.
        d: u32,
        /// The register that is read; it must not be empty.
        a: u32,
    },
    /// Register `d` becomes the contents of the bracket that is the first term of `a`, shared.
    Open {
        /// The register that changes.
        d: u32,
        /// The register that is read; its first term must be a bracket.
        a: u32,
    },
    /// The answer's value is the number of terms of `a`, those inside brackets not counted.
    Length {
        /// The register that is read.
        a: u32,
    },
    /// The answer's value is the code of the symbol that is the first term of `a`.
    First {
        /// The register that is read; its first term must be a symbol.
        a: u32,
    },
    /// The answer's value is the number of live cells.
    Live,
    /// Collects the store; the answer's value is the number of live cells.
    Collect,
}

/// What an operation makes of the three words after its number.
type Form = fn(u32, u32, u32) -> Call;

/// Each operation in order: its name, which of d, a and b it uses, and the call.
const OPERATIONS: [(&str, [bool; 3], Form); 12] = [
    ("CLEAR", [true, false, false], |d, _, _| Call::Clear { d }),
    ("COPY", [true, true, false], |d, a, _| Call::Copy { d, a }),
    ("SYMBOL", [true, true, false], |d, code, _| Call::Symbol { d, code }),
    ("WRAP", [true, true, false], |d, a, _| Call::Wrap { d, a }),
    ("JOIN", [true, true, true], |d, a, b| Call::Join { d, a, b }),
    ("HEAD", [true, true, false], |d, a, _| Call::Head { d, a }),
    ("REST", [true, true, false], |d, a, _| Call::Rest { d, a }),
    ("OPEN", [true, true, false], |d, a, _| Call::Open { d, a }),
    ("LENGTH", [false, true, false], |_, a, _| Call::Length { a }),
    ("FIRST", [false, true, false], |_, a, _| Call::First { a }),
    ("LIVE", [false, false, false], |_, _, _| Call::Live),
    ("COLLECT", [false, false, false], |_, _, _| Call::Collect),
];

impl Call {
    /// The call as the store reads it: operation, d, a and b. A word that is not used is 0.
    pub const fn words(self) -> [u32; 4] {
        match self {
            Call::Clear { d } => [0, d, 0, 0],
            Call::Copy { d, a } => [1, d, a, 0],
            Call::Symbol { d, code } => [2, d, code, 0],
            Call::Wrap { d, a } => [3, d, a, 0],
            Call::Join { d, a, b } => [4, d, a, b],
            Call::Head { d, a } => [5, d, a, 0],
            Call::Rest { d, a } => [6, d, a, 0],
            Call::Open { d, a } => [7, d, a, 0],
            Call::Length { a } => [8, 0, a, 0],
            Call::First { a } => [9, 0, a, 0],
            Call::Live => [10, 0, 0, 0],
            Call::Collect => [11, 0, 0, 0],
        }
    }

    /// The name of the operation, as `SYMBOL`.
    pub const fn name(self) -> &'static str {
        OPERATIONS[self.words()[0] as usize].0
    }

    /// Whether a value comes back when the call is done.
    pub const fn has_value(self) -> bool {
        matches!(self, Call::Length { .. } | Call::First { .. } | Call::Live | Call::Collect)
    }
}

impl From<Call> for [u32; 4] {
    fn from(call: Call) -> Self {
        call.words()
    }
}

/// The call that [`words`](Call::words) gives as these four.
///
/// Two faults can be in words that are in no `Call`, and they are the errors: [`Fault::Operation`], and
/// else [`Fault::StrayWord`]. A register or a code out of range is left to the store to refuse.
///
/// ```
/// use zelmotar::{Call, Fault};
///
/// assert_eq!(Call::try_from([4, 2, 0, 1]), Ok(Call::Join { d: 2, a: 0, b: 1 }));
/// assert_eq!(Call::try_from([12, 0, 0, 0]), Err(Fault::Operation));
/// assert_eq!(Call::try_from([0, 0, 1, 0]), Err(Fault::StrayWord));
/// assert_eq!(Call::try_from([0, 16, 0, 0]), Ok(Call::Clear { d: 16 }));
/// ```
impl TryFrom<[u32; 4]> for Call {
    type Error = Fault;

    fn try_from([operation, d, a, b]: [u32; 4]) -> Result<Self, Fault> {
        let row = usize::try_from(operation).ok().and_then(|number| OPERATIONS.get(number));
        let (_, uses, form) = row.ok_or(Fault::Operation)?;
        match uses.iter().zip([d, a, b]).any(|(&used, word)| !used && word != 0) {
            true => Err(Fault::StrayWord),
            false => Ok(form(d, a, b)),
        }
    }
}

/// The name and the operands, as in a batch that is written as text: `SYMBOL 0 65`, `LIVE`.
impl fmt::Display for Call {
    fn fmt(&self, f: &mut fmt::Formatter<'_>) -> fmt::Result {
        let [operation, operands @ ..] = self.words();
        let (name, uses, _) = OPERATIONS[operation as usize];
        f.write_str(name)?;
        for (_, operand) in uses.iter().zip(operands).filter(|(&used, _)| used) {
            write!(f, " {operand}")?;
        }
        Ok(())
    }
}
