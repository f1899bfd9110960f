//! Two ways of looking for damage in a store whose length and `top` are in range.
//!
//! - [`OneByOne`], the usual way: cell by cell, and it stops at the first that is damaged.
//! - [`ByBlocks`]: all cells of a block, and then it asks whether any was damaged. No test waits
//!   for another, so the compiler makes vectors of them, and there is no branch to guess wrong.

use crate::plain::{is_code, BRACKET, FIRST_HEAP_CELL};

/// A way of looking for damage.
pub trait Checks: Default {
    /// The first damaged cell.
    fn damaged(&self, words: &[u32], top: usize) -> Option<usize>;

    /// The first damaged cell, and the rule that it breaks.
    fn broken(&self, words: &[u32], top: usize) -> Option<(u32, u32)> {
        self.damaged(words, top).map(|c| (c as u32, rule(words, top, c)))
    }
}

/// The used bit and the two chain bits.
const STRAY: u32 = 7 << 28;

/// The rule that a damaged cell breaks. It is asked once, of the one cell that was found, so nothing in the
/// search for it need tell the rules apart.
#[cold]
fn rule(words: &[u32], top: usize, c: usize) -> u32 {
    match words[2 * c + 1] {
        second if second & STRAY != 0 => 1,
        _ if c >= top => 6,
        BRACKET => 3,
        second if second > BRACKET => 5,
        _ if c < FIRST_HEAP_CELL => 2,
        _ => 4,
    }
}

/// The words of the registers, of the occupied heap cells and of the cells from `top` on.
fn parts(words: &[u32], top: usize) -> [&[u32]; 3] {
    let (registers, heap) = words.split_at(2 * FIRST_HEAP_CELL);
    let (heap, beyond) = heap.split_at(2 * (top - FIRST_HEAP_CELL));
    [registers, heap, beyond]
}

/// Cell by cell.
#[derive(Debug, Default)]
pub struct OneByOne;

impl OneByOne {
    /// Whether two words are a bracket in order. `limit` is the cell's own address, or `top` in a
    /// register.
    fn bracket(first: u32, second: u32, limit: u32) -> bool {
        // Any stray flag puts the right end beyond every limit.
        let right = second ^ BRACKET;
        if right == 0 {
            first == 0
        } else {
            FIRST_HEAP_CELL as u32 <= first && first <= right && right < limit
        }
    }
}

impl Checks for OneByOne {
    fn damaged(&self, words: &[u32], top: usize) -> Option<usize> {
        let [registers, heap, beyond] = parts(words, top);
        let register = |cell: &[u32]| Self::bracket(cell[0], cell[1], top as u32);
        if let Some(c) = registers.chunks_exact(2).position(|cell| !register(cell)) {
            return Some(c);
        }
        for (c, cell) in (FIRST_HEAP_CELL as u32..).zip(heap.chunks_exact(2)) {
            let symbol = cell[1] == 0 && is_code(cell[0]);
            if !symbol && !Self::bracket(cell[0], cell[1], c) {
                return Some(c as usize);
            }
        }
        beyond.iter().position(|&word| word != 0).map(|i| top + i / 2)
    }
}

/// Block by block.
#[derive(Debug, Default)]
pub struct ByBlocks;

impl ByBlocks {
    /// Cells in a block: enough to make up for the question at its end, and few to go through a
    /// second time where one is damaged.
    const CELLS: usize = 128;

    /// The address of the first of `cells` that is `bad` by its words and its address. They lie
    /// from `from` on.
    #[inline]
    fn first_bad(cells: &[u32], from: usize, bad: impl Fn(u32, u32, u32) -> bool) -> Option<usize> {
        let mut from = from;
        for block in cells.chunks(2 * Self::CELLS) {
            let addressed = (from as u32..).zip(block.chunks_exact(2));
            let mut tests = addressed.map(|(c, cell)| bad(cell[0], cell[1], c));
            if tests.clone().fold(0, |any, test| any | u32::from(test)) != 0 {
                return tests.position(|test| test).map(|at| from + at);
            }
            from += Self::CELLS;
        }
        None
    }

    /// Whether two words are a symbol in order.
    #[inline]
    fn symbol(first: u32, second: u32) -> bool {
        (second == 0) & is_code(first)
    }

    /// Whether two words are a bracket in order, as [`OneByOne`] says it, without a branch.
    #[inline]
    fn bracket(first: u32, second: u32, limit: u32) -> bool {
        let right = second ^ BRACKET;
        let empty = first | right == 0;
        empty | (FIRST_HEAP_CELL as u32 <= first) & (first <= right) & (right < limit)
    }
}

impl Checks for ByBlocks {
    fn damaged(&self, words: &[u32], top: usize) -> Option<usize> {
        let [registers, heap, beyond] = parts(words, top);
        let no_register = |first, second, _| !Self::bracket(first, second, top as u32);
        let no_term =
            |first, second, c| !(Self::symbol(first, second) | Self::bracket(first, second, c));
        Self::first_bad(registers, 0, no_register)
            .or_else(|| Self::first_bad(heap, FIRST_HEAP_CELL, no_term))
            .or_else(|| Self::first_bad(beyond, top, |first, second, _| first | second != 0))
    }
}
