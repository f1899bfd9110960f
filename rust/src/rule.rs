//! The rules of a cell, by the number that a damaged cell comes with.

use core::fmt;

/// The rule that a damaged cell breaks: the first that applies.
///
/// A cell is two words. Of the second, bit 31 says bracket, bit 30 is the used bit, bits 29 and 28
/// are the chain bits, and the lower 28 bits are the right end; the first is a code or the left
/// end. Rule 1 is one of every cell. Rules 2 to 5 are those of cells below `top`, the registers
/// and the occupied ones, and rule 6 is that of all others. A cell that breaks none is sound,
/// whatever the other cells are.
///
/// A repair bench mends what it can mend without a guess, and hands on the rest:
///
/// ```
/// use zelmotar::{Refusal, Rule, Store};
///
/// # fn main() -> Result<(), Refusal> {
/// let mut store = Store::new(24)?;
/// store.type_str(0, "7 (1 12)")?;
/// let (mut words, top) = store.into_parts();
/// words[37] |= 1 << 30; // The second word of cell 18, the symbol 7.
/// words[46] = 99; // The first word of cell 23, which is free.
///
/// let mut found = Vec::new();
/// while let Err(refusal) = Store::from_parts(&mut words[..], top).check() {
///     let (Some(cell), Some(rule)) = (refusal.cell(), refusal.rule()) else {
///         return Err(refusal);
///     };
///     found.push((cell, rule, rule.number()));
///     let first = 2 * cell as usize;
///     match rule {
///         Rule::StrayBit => words[first + 1] &= !(7 << 28),
///         Rule::BadEmpty => words[first] = 0,
///         Rule::BeyondTop => words[first..first + 2].fill(0),
///         Rule::NotBracket | Rule::BadSymbol | Rule::BadEnds => return Err(refusal),
///     }
/// }
/// assert_eq!(found, [(18, Rule::StrayBit, 1), (23, Rule::BeyondTop, 6)]);
/// assert_eq!(Store::from_parts(words, top).look(0).to_string(), "7 (1 12)");
/// # Ok(())
/// # }
/// ```
#[derive(Clone, Copy, Debug, PartialEq, Eq, Hash)]
#[must_use]
pub enum Rule {
    /// 1: bit 30, 29 or 28 of the second word is set, in any cell.
    StrayBit,
    /// 2: a register has bit 31 of its second word off.
    NotBracket,
    /// 3: bit 31 of the second word is on, the right end is 0, and the first word is not 0.
    BadEmpty,
    /// 4: an occupied cell has bit 31 of its second word off, and is no symbol: that has 0 as its
    /// second word, and a code from [`MIN_CODE`](crate::MIN_CODE) to [`MAX_CODE`](crate::MAX_CODE)
    /// as its first. So a cell of two zero words that is below `top` breaks this one.
    BadSymbol,
    /// 5: bit 31 of the second word is on, the right end is not 0, and the ends are not those of a
    /// run: the left one 16 at least, the right one no less than that, and below `top` in a
    /// register, below the cell's own address in an occupied cell.
    BadEnds,
    /// 6: a cell from `top` on is not two zero words.
    BeyondTop,
}

impl Rule {
    /// Every rule, in the order in which the store tests for them.
    pub const ALL: [Rule; 6] = [
        Rule::StrayBit,
        Rule::NotBracket,
        Rule::BadEmpty,
        Rule::BadSymbol,
        Rule::BadEnds,
        Rule::BeyondTop,
    ];

    /// The number of the rule, 1 to 6.
    pub const fn number(self) -> u32 {
        match self {
            Rule::StrayBit => 1,
            Rule::NotBracket => 2,
            Rule::BadEmpty => 3,
            Rule::BadSymbol => 4,
            Rule::BadEnds => 5,
            Rule::BeyondTop => 6,
        }
    }

    /// The rule with a number. 0 is none: it comes with every status but that of a damaged cell.
    pub fn from_number(number: u32) -> Option<Rule> {
        Rule::ALL.into_iter().find(|rule| rule.number() == number)
    }

    /// Its name in C, less the `ZELMOTAR_RULE_` before it.
    pub const fn name(self) -> &'static str {
        match self {
            Rule::StrayBit => "STRAY_BIT",
            Rule::NotBracket => "NOT_BRACKET",
            Rule::BadEmpty => "BAD_EMPTY",
            Rule::BadSymbol => "BAD_SYMBOL",
            Rule::BadEnds => "BAD_ENDS",
            Rule::BeyondTop => "BEYOND_TOP",
        }
    }
}

/// What is wrong with a cell that breaks it, as `its ends are out of order or out of range`.
impl fmt::Display for Rule {
    fn fmt(&self, f: &mut fmt::Formatter<'_>) -> fmt::Result {
        f.write_str(match self {
            Rule::StrayBit => "its used bit or a chain bit is set",
            Rule::NotBracket => "it is a register and not a bracket",
            Rule::BadEmpty => "it is an empty bracket whose first word is not 0",
            Rule::BadSymbol => "it is neither a bracket nor a symbol",
            Rule::BadEnds => "its ends are out of order or out of range",
            Rule::BeyondTop => "it is beyond top and not two zero words",
        })
    }
}
