//! Three ways of marking what is reached, each in a table beside the store.
//!
//! - [`Walk`] over a [`ByteSet`], the usual way: a byte a cell, and runs on an explicit stack.
//! - [`Walk`] over a [`BitSet`]: a bit a cell and the same stack. It passes over what is marked 64
//!   cells at a time where runs overlap.
//! - [`Linear`]: an address a cell and no stack. It looks at every cell once, however runs overlap.

use super::ends;
use crate::plain::FIRST_HEAP_CELL;

/// A way of marking.
pub trait Marks: Default {
    /// Marks what is reached in a sound store, nothing else, and gives its number.
    fn mark(&mut self, words: &[u32], top: usize) -> usize;
    /// Whether heap cell `c` is marked.
    fn has(&self, c: usize) -> bool;
}

/// A set of cells.
pub trait Set: Default {
    /// Empties the set and makes room for `cells` cells.
    fn reset(&mut self, cells: usize);
    /// Adds cells `l` to `r` and hands those that were not in it to `fresh`.
    fn add(&mut self, l: usize, r: usize, fresh: impl FnMut(usize));
    /// Whether cell `c` is in it.
    fn has(&self, c: usize) -> bool;
}

/// A byte for each cell.
#[derive(Debug, Default)]
pub struct ByteSet(Vec<bool>);

impl Set for ByteSet {
    fn reset(&mut self, cells: usize) {
        self.0.clear();
        self.0.resize(cells, false);
    }

    fn add(&mut self, l: usize, r: usize, mut fresh: impl FnMut(usize)) {
        for (i, mark) in self.0[l..=r].iter_mut().enumerate() {
            if !*mark {
                *mark = true;
                fresh(l + i);
            }
        }
    }

    fn has(&self, c: usize) -> bool {
        self.0[c]
    }
}

/// A bit for each cell.
#[derive(Debug, Default)]
pub struct BitSet(Vec<u64>);

impl Set for BitSet {
    fn reset(&mut self, cells: usize) {
        self.0.clear();
        self.0.resize(cells.div_ceil(64), 0);
    }

    fn add(&mut self, l: usize, r: usize, mut fresh: impl FnMut(usize)) {
        for block in l / 64..=r / 64 {
            let from = if block == l / 64 { !0 << (l % 64) } else { !0 };
            let upto = if block == r / 64 { !0 >> (63 - r % 64) } else { !0 };
            let mut new = from & upto & !self.0[block];
            self.0[block] |= new;
            while new != 0 {
                fresh(64 * block + new.trailing_zeros() as usize);
                new &= new - 1;
            }
        }
    }

    fn has(&self, c: usize) -> bool {
        self.0[c / 64] >> (c % 64) & 1 == 1
    }
}

/// Marking run by run: the cells met are in a set, the runs still to go through on a stack.
#[derive(Debug, Default)]
pub struct Walk<S> {
    met: S,
    runs: Vec<(usize, usize)>,
}

impl<S: Set> Marks for Walk<S> {
    fn mark(&mut self, words: &[u32], top: usize) -> usize {
        self.met.reset(top);
        self.runs.clear();
        self.runs.extend((0..FIRST_HEAP_CELL).filter_map(|register| ends(words, register)));
        let mut live = 0;
        while let Some((l, r)) = self.runs.pop() {
            let runs = &mut self.runs;
            self.met.add(l, r, |c| {
                live += 1;
                runs.extend(ends(words, c));
            });
        }
        live
    }

    fn has(&self, c: usize) -> bool {
        self.met.has(c)
    }
}

/// Marking in one sweep down.
///
/// The table has, for each cell, the lowest left end of the reached runs that end there, and after
/// the sweep that of those that end there or above.
#[derive(Debug, Default)]
pub struct Linear(Vec<u32>);

/// Enters the run of the reached holder at `c`.
#[inline]
fn enter(words: &[u32], low: &mut [u32], c: usize) {
    if let Some((l, r)) = ends(words, c) {
        low[r] = low[r].min(l as u32);
    }
}

impl Marks for Linear {
    fn mark(&mut self, words: &[u32], top: usize) -> usize {
        self.0.clear();
        self.0.resize(top, u32::MAX);
        let (words, low) = (&words[..2 * top], &mut self.0[..top]);
        (0..FIRST_HEAP_CELL).for_each(|register| enter(words, low, register));
        let (mut lowest, mut live) = (u32::MAX, 0);
        // Contents lie below their bracket, so all runs over a cell are entered when it is met.
        for c in (FIRST_HEAP_CELL..top).rev() {
            lowest = lowest.min(low[c]);
            low[c] = lowest;
            if lowest as usize <= c {
                live += 1;
                enter(words, low, c);
            }
        }
        live
    }

    fn has(&self, c: usize) -> bool {
        self.0[c] as usize <= c
    }
}
