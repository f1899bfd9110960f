//! The same store written for speed, the measure of the benchmarks.
//!
//! It is what one writes who may use memory beside the store: marks in a side table, a table of new
//! addresses and a copy of what is loaded, all kept from call to call so that nothing is allocated
//! twice. A store chooses how it [checks](Checks) and how it [marks](Marks), and nothing else
//! differs. There are three: [`Usual`], [`WithBits`] and [`Better`]. A text that is only counted
//! needs none of them but a [`Counter`].
//!
//! Statuses, values and words are those of [`plain`](crate::plain), and of [`files`](crate::files);
//! tests hold them equal.

mod checks;
mod counts;
mod files;
mod marks;
mod texts;

pub use checks::{ByBlocks, Checks, OneByOne};
pub use counts::Counter;
pub use marks::{BitSet, ByteSet, Linear, Marks, Set, Walk};

use texts::Tree;

use crate::files::Saved;
use crate::plain::{
    is_code, Reply, Text, Typed, BRACKET, FIRST_HEAP_CELL, MAX_CALL_WORDS, MAX_CELLS,
};

/// The store with a check, a way of marking, the side tables of the collector, the tree of a text and
/// the cells of a file.
#[derive(Debug, Default)]
pub struct Ordinary<C, M> {
    checks: C,
    marks: M,
    place: Vec<u32>,
    tree: Tree,
    cells: Vec<u32>,
}

/// The usual store: checked cell by cell, marked with a byte a cell.
pub type Usual = Ordinary<OneByOne, Walk<ByteSet>>;
/// The usual store with a bit a cell in place of the byte.
pub type WithBits = Ordinary<OneByOne, Walk<BitSet>>;
/// The better store: checked by blocks, marked in one sweep.
pub type Better = Ordinary<ByBlocks, Linear>;

/// Both words of an empty bracket.
const EMPTY: [u32; 2] = [0, BRACKET];

/// The ends of a bracket with contents.
#[inline]
fn ends(words: &[u32], c: usize) -> Option<(usize, usize)> {
    let second = words[2 * c + 1];
    (second > BRACKET).then(|| (words[2 * c] as usize, (second ^ BRACKET) as usize))
}

/// Both words of a cell.
#[inline]
fn pair(words: &[u32], c: usize) -> [u32; 2] {
    [words[2 * c], words[2 * c + 1]]
}

/// Writes both words of a cell.
#[inline]
fn set(words: &mut [u32], c: usize, cell: [u32; 2]) {
    words[2 * c..2 * c + 2].copy_from_slice(&cell);
}

/// The cell with the ends `l` and `r`.
#[inline]
fn on(l: usize, r: usize) -> [u32; 2] {
    [l as u32, BRACKET | r as u32]
}

/// The cell at `c` with its ends at their new addresses.
#[inline]
fn mended(words: &[u32], place: &[u32], c: usize) -> [u32; 2] {
    match ends(words, c) {
        Some((l, r)) => [place[l], BRACKET | place[r]],
        None => pair(words, c),
    }
}

/// Packs the marked cells low, fills `place` with the new addresses and gives the new `top`. Both
/// slices end at the old one. As arguments they are known to lie apart, so that the loop need not
/// look again where they are.
fn slide(words: &mut [u32], place: &mut [u32], marks: &impl Marks) -> usize {
    let mut next = FIRST_HEAP_CELL;
    // Contents lie below their bracket, so their new addresses are known when it moves.
    for c in FIRST_HEAP_CELL..place.len() {
        place[c] = next as u32;
        if marks.has(c) {
            let moved = mended(words, place, c);
            set(words, next, moved);
            next += 1;
        }
    }
    for register in 0..FIRST_HEAP_CELL {
        let moved = mended(words, place, register);
        set(words, register, moved);
    }
    words[2 * next..].fill(0);
    next
}

/// Which operand words of an operation are registers and which are unused, as bits: d 1, a 2, b 4.
const USES: [(u32, u32); 12] = [
    (1, 6), // CLEAR d
    (3, 4), // COPY d a
    (1, 4), // SYMBOL d code
    (3, 4), // WRAP d a
    (7, 0), // JOIN d a b
    (3, 4), // HEAD d a
    (3, 4), // REST d a
    (3, 4), // OPEN d a
    (2, 5), // LENGTH a
    (2, 5), // FIRST a
    (0, 7), // LIVE
    (0, 7), // COLLECT
];

/// Refusals 10 to 13, or 0.
fn misspelt(call: &[u32]) -> u32 {
    let Some(&(registers, unused)) = USES.get(call[0] as usize) else {
        return 10;
    };
    let over = |i: usize| u32::from(call[i] > 15) << (i - 1);
    let set = |i: usize| u32::from(call[i] != 0) << (i - 1);
    if (over(1) | over(2) | over(3)) & registers != 0 {
        11
    } else if (set(1) | set(2) | set(3)) & unused != 0 {
        12
    } else if call[0] == 2 && !is_code(call[2]) {
        13
    } else {
        0
    }
}

/// Whether a slice of `n` words may hold a store.
fn fits(n: usize) -> bool {
    n % 2 == 0 && (2 * FIRST_HEAP_CELL..=2 * MAX_CELLS).contains(&n)
}

/// A fresh store, or refusal 1. Nothing is checked or marked, so it is the same for all.
pub fn fresh(words: &mut [u32]) -> Reply {
    if !fits(words.len()) {
        return Reply { status: 1, rule: 0, value: 0, top: 0 };
    }
    let (registers, rest) = words.split_at_mut(2 * FIRST_HEAP_CELL);
    registers.chunks_exact_mut(2).for_each(|cell| cell.copy_from_slice(&EMPTY));
    rest.fill(0);
    Reply { status: 0, rule: 0, value: 0, top: FIRST_HEAP_CELL }
}

impl<C: Checks, M: Marks> Ordinary<C, M> {
    /// The check.
    pub fn check(&self, words: &[u32], top: usize) -> Reply {
        let n = words.len();
        let (status, rule, value) = if !fits(n) {
            (1, 0, 0)
        } else if top < FIRST_HEAP_CELL || top > n / 2 {
            (2, 0, 0)
        } else {
            self.checks.broken(words, top).map_or((0, 0, 0), |(c, rule)| (3, rule, c))
        };
        Reply { status, rule, value, top }
    }

    /// A look at a register: the part of the words that holds its cells, as offsets.
    pub fn look(&self, words: &[u32], top: usize, register: usize) -> (usize, usize) {
        if register >= FIRST_HEAP_CELL || self.check(words, top).status != 0 {
            return (0, 0);
        }
        ends(words, register).map_or((0, 0), |(l, r)| (2 * l, 2 * r + 2))
    }

    /// Prints a register.
    pub fn print(&self, words: &[u32], top: usize, register: usize, space: &mut [u8]) -> Text {
        let Reply { status, rule, value, .. } = self.check(words, top);
        let written = match (status, register < FIRST_HEAP_CELL) {
            (0, true) => texts::write(words, register, space),
            (0, false) => Err(20),
            _ => Err(status),
        };
        let length = *written.as_ref().unwrap_or(&0);
        space[length..].fill(0);
        Text { status: written.err().unwrap_or(0), rule, value: value as usize, length }
    }

    /// Types a text into a register.
    pub fn type_in(
        &mut self,
        words: &mut [u32],
        top: usize,
        register: usize,
        text: &[u8],
    ) -> Typed {
        let Reply { status, rule, value, .. } = self.check(words, top);
        let refused = match (status, register < FIRST_HEAP_CELL) {
            (0, true) => self.tree.read(text).err(),
            (0, false) => Some((20, 0)),
            _ => Some((status, value as usize)),
        };
        if let Some((status, value)) = refused {
            return Typed { status, rule, value, top };
        }
        let mut top = top;
        let status = match self.room(words, &mut top, self.tree.count(), register, false) {
            Err(status) => status,
            Ok(()) => {
                let cell = self.tree.lay(words, &mut top);
                set(words, register, cell);
                0
            }
        };
        Typed { status, rule, value: 0, top }
    }

    /// Packs the marked cells low and gives the new `top`.
    fn pack(&mut self, words: &mut [u32], top: usize) -> usize {
        // An address is written before it is read, so what an earlier collection left may stay.
        self.place.resize(self.place.len().max(top), 0);
        slide(&mut words[..2 * top], &mut self.place[..top], &self.marks)
    }

    /// Collects a sound store and gives the new `top`.
    fn compact(&mut self, words: &mut [u32], top: usize) -> usize {
        self.marks.mark(words, top);
        self.pack(words, top)
    }

    /// Collecting alone.
    pub fn collect(&mut self, words: &mut [u32], top: usize) -> Reply {
        let checked = self.check(words, top);
        if checked.status != 0 {
            return checked;
        }
        let top = self.compact(words, top);
        Reply { status: 0, rule: 0, value: (top - FIRST_HEAP_CELL) as u32, top }
    }

    /// Saves the store into a space.
    pub fn save(&mut self, words: &mut [u32], top: usize, space: &mut [u8]) -> Saved {
        let Reply { status, rule, value, top } = self.collect(words, top);
        let written = match status {
            0 => files::write(words, top, space),
            _ => Err(status),
        };
        let length = *written.as_ref().unwrap_or(&0);
        space[length..].fill(0);
        let value = if status == 0 { 0 } else { value };
        Saved { status: written.err().unwrap_or(0), rule, value, top, length }
    }

    /// Loads a file. Its cells are judged in a table of their own, since the words must stay as they
    /// are where it is refused.
    pub fn load(&mut self, words: &mut [u32], file: &[u8]) -> Reply {
        let refused = |status, rule, value| Reply { status, rule, value, top: 0 };
        let top = match files::judge(file, words.len()) {
            Ok(top) => top,
            Err(status) => return refused(status, 0, 0),
        };
        self.cells.resize(2 * top, 0);
        files::read(&mut self.cells, file);
        if let Some((c, rule)) = self.checks.broken(&self.cells, top) {
            return refused(3, rule, c);
        }
        if FIRST_HEAP_CELL + self.marks.mark(&self.cells, top) != top {
            return refused(34, 0, 0);
        }
        let (occupied, free) = words.split_at_mut(2 * top);
        occupied.copy_from_slice(&self.cells);
        free.fill(0);
        Reply { status: 0, rule: 0, value: 0, top }
    }

    /// Makes room for `need` cells, collecting if it must. Unless `d` is `kept` it is emptied first, and set
    /// again where there is no room all the same.
    fn room(
        &mut self,
        words: &mut [u32],
        top: &mut usize,
        need: usize,
        d: usize,
        kept: bool,
    ) -> Result<(), u32> {
        let capacity = words.len() / 2;
        if *top + need <= capacity {
            return Ok(());
        }
        let old = pair(words, d);
        let sought = if kept { old } else { EMPTY };
        set(words, d, sought);
        let live = self.marks.mark(words, *top);
        let fits = FIRST_HEAP_CELL + live + need <= capacity;
        if !fits && sought != old {
            set(words, d, old);
            self.marks.mark(words, *top);
        }
        *top = self.pack(words, *top);
        if fits {
            Ok(())
        } else {
            Err(16)
        }
    }

    /// Lays one cell; it is read after room is made, since a collection may mend it.
    fn lay(
        &mut self,
        words: &mut [u32],
        top: &mut usize,
        d: usize,
        kept: bool,
        cell: impl FnOnce(&[u32]) -> [u32; 2],
    ) -> Result<(), u32> {
        self.room(words, top, 1, d, kept)?;
        let cell = cell(words);
        set(words, *top, cell);
        set(words, d, on(*top, *top));
        *top += 1;
        Ok(())
    }

    /// JOIN.
    fn join(
        &mut self,
        words: &mut [u32],
        top: &mut usize,
        d: usize,
        a: usize,
        b: usize,
    ) -> Result<(), u32> {
        let (Some((al, ar)), Some((bl, br))) = (ends(words, a), ends(words, b)) else {
            let shared = if ends(words, a).is_none() { b } else { a };
            let cell = pair(words, shared);
            set(words, d, cell);
            return Ok(());
        };
        self.room(words, top, ar - al + br - bl + 2, d, d == a || d == b)?;
        let start = *top;
        for source in [a, b] {
            let (l, r) = ends(words, source).expect("an operand is not emptied");
            words.copy_within(2 * l..2 * r + 2, 2 * *top);
            *top += r - l + 1;
        }
        set(words, d, on(start, *top - 1));
        Ok(())
    }

    /// One call: its value, or its refusal.
    fn step(&mut self, words: &mut [u32], top: &mut usize, call: &[u32]) -> Result<usize, u32> {
        match misspelt(call) {
            0 => {}
            status => return Err(status),
        }
        let (d, a, b) = (call[1] as usize, call[2] as usize, call[3] as usize);
        match call[0] {
            0 => set(words, d, EMPTY),
            1 => set(words, d, pair(words, a)),
            2 => self.lay(words, top, d, false, |_| [call[2], 0])?,
            3 => self.lay(words, top, d, d == a, |words| pair(words, a))?,
            4 => self.join(words, top, d, a, b)?,
            8 => return Ok(ends(words, a).map_or(0, |(l, r)| r - l + 1)),
            10 => return Ok(self.marks.mark(words, *top)),
            11 => {
                *top = self.compact(words, *top);
                return Ok(*top - FIRST_HEAP_CELL);
            }
            operation => return first(words, operation, d, a),
        }
        Ok(0)
    }

    /// A batch.
    pub fn run(
        &mut self,
        words: &mut [u32],
        top: usize,
        calls: &[u32],
        answers: &mut [u32],
    ) -> Reply {
        let checked = self.check(words, top);
        if checked.status != 0 {
            return checked;
        }
        if calls.len() > MAX_CALL_WORDS || calls.len() % 4 != 0 {
            return Reply { status: 4, ..checked };
        }
        if answers.len() < calls.len() / 2 {
            return Reply { status: 5, ..checked };
        }
        let mut top = top;
        let (told, after) = answers.split_at_mut(calls.len() / 2);
        for (call, answer) in calls.chunks_exact(4).zip(told.chunks_exact_mut(2)) {
            let (status, value) = match self.step(words, &mut top, call) {
                Ok(value) => (0, value as u32),
                Err(status) => (status, 0),
            };
            (answer[0], answer[1]) = (status, value);
        }
        after.fill(0);
        Reply { top, ..checked }
    }
}

/// HEAD, REST, OPEN and FIRST.
fn first(words: &mut [u32], operation: u32, d: usize, a: usize) -> Result<usize, u32> {
    let (l, r) = ends(words, a).ok_or(14u32)?;
    let [first, second] = pair(words, l);
    match operation {
        5 => set(words, d, on(l, l)),
        6 if l == r => set(words, d, EMPTY),
        6 => set(words, d, on(l + 1, r)),
        7 if second != 0 => set(words, d, [first, second]),
        9 if second == 0 => return Ok(first as usize),
        _ => return Err(15),
    }
    Ok(0)
}
