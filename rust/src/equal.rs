//! When two lists of terms denote the same expression.
//!
//! Sharing lets a store of 80 cells denote more terms than could ever be walked, so cells are
//! compared and not terms: once two bracket cells are to be compared they count as one, and what
//! counts as one is not compared again. Cells that count as one are classes, each with one cell
//! that stands for it (union by a forest). Two classes become one at most as often as there are
//! cells, and each time one run is compared with another. If no difference is met, all
//! that was taken to be equal is: a bracket's contents lie below it, so nothing rests on itself.

use alloc::vec;
use alloc::vec::Vec;

use crate::{Term, Terms};

/// Which cells of the two stores count as one. The second store's cells are numbered after those of
/// the first, or as those of the first if the two are one store.
struct Classes {
    /// For each cell one that it counts as; a cell that stands for its class has itself.
    parent: Vec<usize>,
    /// What is added to an address in the second store.
    second: usize,
}

impl Classes {
    /// Every cell of the two stores on its own.
    fn of(one: &[u32], other: &[u32]) -> Classes {
        let same = core::ptr::eq(one, other);
        let second = if same { 0 } else { one.len() / 2 };
        Classes { parent: (0..second + other.len() / 2).collect(), second }
    }

    /// The cell that stands for the class of `cell`.
    fn root(&mut self, mut cell: usize) -> usize {
        while self.parent[cell] != cell {
            // Halving the way keeps ways short.
            self.parent[cell] = self.parent[self.parent[cell]];
            cell = self.parent[cell];
        }
        cell
    }

    /// Lets two cells count as one, and says whether they did not before.
    fn join(&mut self, one: usize, other: usize) -> bool {
        let (one, other) = (self.root(one), self.root(self.second + other));
        self.parent[one] = other;
        one != other
    }
}

impl PartialEq for Terms<'_> {
    fn eq(&self, other: &Self) -> bool {
        let mut classes = Classes::of(self.words(), other.words());
        let mut runs = vec![(self.clone(), other.clone())];
        while let Some((one, other)) = runs.pop() {
            if !alike(one, other, &mut classes, &mut runs) {
                return false;
            }
        }
        true
    }
}

impl Eq for Terms<'_> {}

/// Compares two runs cell by cell, and notes in `runs` the contents of those brackets that do not
/// count as one yet.
fn alike<'a, 'b>(
    mut one: Terms<'a>,
    mut other: Terms<'b>,
    classes: &mut Classes,
    runs: &mut Vec<(Terms<'a>, Terms<'b>)>,
) -> bool {
    if one.len() != other.len() {
        return false;
    }
    loop {
        let cells = (one.address(), other.address());
        match (one.next(), other.next()) {
            (None, _) | (_, None) => return true,
            (Some(Term::Symbol(code)), Some(Term::Symbol(wanted))) if code == wanted => {}
            (Some(Term::Bracket(inside)), Some(Term::Bracket(wanted))) => {
                if classes.join(cells.0, cells.1) {
                    runs.push((inside, wanted));
                }
            }
            _ => return false,
        }
    }
}
