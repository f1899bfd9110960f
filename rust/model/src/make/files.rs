//! Random files: good ones, and those with a fault of a certain kind.
//!
//! A fault is made on purpose, yet the file may be good all the same, as where a bit of a code
//! changes, or may have another fault as well.

use super::rules::{break_any, Place};
use super::{sound, spoil_word, Runs};
use crate::files::{self, TRAILER};
use crate::plain::{self, put, Cell, FIRST_HEAP_CELL, MAX_CELLS};
use crate::random::Random;

/// How a file comes about.
#[derive(Clone, Copy, Debug, PartialEq, Eq)]
pub enum Kind {
    /// The file of a collected store.
    Good,
    /// The same with other bytes before it.
    Lengthened,
    /// Bytes are missing at the end.
    CutAtEnd,
    /// Bytes are missing at the front.
    CutAtFront,
    /// A bit or two are others.
    Flipped,
    /// A word of the trailer or two are others.
    Trailer,
    /// The distance is that of the heap cells in 32 bits, and not beyond them as a rule.
    Wrapped,
    /// The trailer is right, and the store is sound and has dead cells.
    Uncollected,
    /// The trailer is right, and the store is damaged.
    Damaged,
    /// One of a store as it is, changed in two of these ways.
    Mixed,
}

impl Kind {
    /// Every kind.
    pub const ALL: [Kind; 10] = [
        Kind::Good,
        Kind::Lengthened,
        Kind::CutAtEnd,
        Kind::CutAtFront,
        Kind::Flipped,
        Kind::Trailer,
        Kind::Wrapped,
        Kind::Uncollected,
        Kind::Damaged,
        Kind::Mixed,
    ];

    /// The kinds that are a change of any file.
    const CHANGES: [Kind; 6] = [
        Kind::Lengthened,
        Kind::CutAtEnd,
        Kind::CutAtFront,
        Kind::Flipped,
        Kind::Trailer,
        Kind::Wrapped,
    ];

    /// The kind in a few words.
    pub fn name(self) -> &'static str {
        match self {
            Kind::Good => "good",
            Kind::Lengthened => "lengthened",
            Kind::CutAtEnd => "cut at the end",
            Kind::CutAtFront => "cut at the front",
            Kind::Flipped => "bits flipped",
            Kind::Trailer => "trailer spoilt",
            Kind::Wrapped => "distance wrapped",
            Kind::Uncollected => "not collected",
            Kind::Damaged => "damaged",
            Kind::Mixed => "mixed",
        }
    }
}

/// A collected store of at most so many cells, and often one without a free cell: words and `top`.
pub fn collected(random: &mut Random, capacity: usize) -> (Vec<u32>, usize) {
    let runs = random.pick(&[Runs::Short, Runs::Recent, Runs::Any]);
    let (mut words, top) = sound(random, capacity, runs);
    if top > FIRST_HEAP_CELL && random.one_in(2) {
        // Else most of it would be dead.
        let l = random.within(FIRST_HEAP_CELL..=top - 1);
        put(&mut words, random.below(FIRST_HEAP_CELL), Cell::Bracket(l, top - 1));
    }
    let top = plain::collect(&mut words, top).top;
    if random.one_in(3) {
        words.truncate(2 * top);
    }
    (words, top)
}

/// A cell with its ends one higher.
fn raised(cell: Option<Cell>) -> Cell {
    match cell.expect("the store is sound") {
        Cell::Bracket(l, r) => Cell::Bracket(l + 1, r + 1),
        other => other,
    }
}

/// Puts a dead cell before all cells of the heap.
fn put_dead_first(random: &mut Random, words: &mut Vec<u32>, top: &mut usize) {
    let below = (0..*top).map(|c| raised(Cell::read(words[2 * c], words[2 * c + 1])));
    let cells: Vec<Cell> = below.collect();
    if *top == words.len() / 2 {
        words.extend([0; 2]);
    }
    *top += 1;
    put(words, FIRST_HEAP_CELL, Cell::Symbol(super::code(random)));
    for (c, &cell) in cells.iter().enumerate() {
        put(words, if c < FIRST_HEAP_CELL { c } else { c + 1 }, cell);
    }
}

/// Puts a dead cell after all cells of the heap.
fn put_dead_last(random: &mut Random, words: &mut Vec<u32>, top: &mut usize) {
    if *top == words.len() / 2 {
        words.extend([0; 2]);
    }
    let cell = match super::run(random, *top, Runs::Any) {
        Some((l, r)) if random.one_in(2) => Cell::Bracket(l, r),
        _ => Cell::Symbol(super::code(random)),
    };
    put(words, *top, cell);
    *top += 1;
}

/// A sound store that has dead cells as a rule: one or a few at a certain place, or many.
fn uncollected(random: &mut Random, capacity: usize) -> (Vec<u32>, usize) {
    if random.one_in(4) {
        let runs = random.pick(&[Runs::Short, Runs::Recent, Runs::Any]);
        return sound(random, capacity, runs);
    }
    // Room for the dead cell.
    let (mut words, mut top) = collected(random, capacity.min(MAX_CELLS - 1));
    match random.below(4) {
        0 => put_dead_first(random, &mut words, &mut top),
        1 => put_dead_last(random, &mut words, &mut top),
        2 => put(&mut words, random.below(FIRST_HEAP_CELL), Cell::Empty),
        _ => (0..4).for_each(|_| super::shorten(random, &mut words)),
    }
    (words, top)
}

/// A store in which words below `top` are spoilt.
fn damaged(random: &mut Random, capacity: usize) -> (Vec<u32>, usize) {
    let (mut words, top) = match random.below(4) {
        0 => uncollected(random, capacity),
        _ => collected(random, capacity),
    };
    let below = &mut words[..2 * top];
    match random.below(8) {
        0 => below.iter_mut().for_each(|word| *word = random.word()),
        1 => super::wipe(random, below, top),
        2 => break_any(random, below, top, &[Place::Register, Place::Occupied]),
        _ => (0..=random.below(3)).for_each(|_| spoil_word(random, below, top)),
    }
    (words, top)
}

/// A word that is likely to be mistaken for the `right` one, or to break a rule only just.
fn telling_word(random: &mut Random, right: u32) -> u32 {
    let little = random.below(41) as u32;
    match random.below(9) {
        0 => random.word(),
        1 => random.pick(&[0, 1, 2, 15, 16, 17, 4095, 4096, 4097]),
        2 => right.wrapping_add(random.pick(&[1, 4, 8, 16])),
        3 => right.wrapping_sub(random.pick(&[1, 4, 8, 16])),
        4 => right.wrapping_add(random.pick(&[1 << 29, 1 << 30, 1 << 31, 3 << 30])),
        5 => right ^ 1 << random.below(32),
        6 => right.swap_bytes(),
        _ => random.pick(&[0u32, 1 << 28, 1 << 29, 1 << 31]).wrapping_add(little).wrapping_sub(20),
    }
}

/// One word of the trailer of a file, if it has one: the distance, the heap cells, the capacity or
/// the edition, counted from 0.
pub fn trailer_word(file: &[u8], i: usize) -> Option<u32> {
    let at = file.len().checked_sub(TRAILER)? + 4 * i;
    file[at..at + 4].try_into().ok().map(u32::from_le_bytes)
}

/// Writes one word of the trailer of a file that has one, counted as above.
pub fn put_trailer_word(file: &mut [u8], i: usize, word: u32) {
    let at = file.len() - TRAILER + 4 * i;
    file[at..at + 4].copy_from_slice(&word.to_le_bytes());
}

/// Spoils a word of the trailer.
fn spoil_trailer(random: &mut Random, file: &mut [u8]) {
    let i = random.below(4);
    if let Some(right) = trailer_word(file, i) {
        let word = telling_word(random, right);
        put_trailer_word(file, i, word);
    }
}

/// Tells another distance, and a number of heap cells that has it in 32 bits.
fn wrap_trailer(random: &mut Random, file: &mut [u8]) {
    if file.len() < TRAILER {
        return;
    }
    // In cells, of which the trailer is two and the registers are sixteen. Where there are fewer,
    // the heap cells are fewer than none.
    let whole = file.len() / 8;
    let cells = match random.below(3) {
        0 => random.below(19),
        1 => random.below(whole + 1),
        _ => whole,
    };
    let (cells, rounds) = (cells as u32, random.below(8) as u32);
    put_trailer_word(file, 0, 8 * cells);
    put_trailer_word(file, 1, cells.wrapping_sub(18).wrapping_add(rounds << 29));
}

/// Bytes to stand before a file, few as a rule, or another file.
fn before(random: &mut Random) -> Vec<u8> {
    let count = match random.below(20) {
        0 => random.within(1_000..=5_000),
        1..=3 => {
            let (words, top) = collected(random, 20);
            return files::file(&words, top);
        }
        _ => random.within(1..=40),
    };
    (0..count).map(|_| random.word() as u8).collect()
}

/// Changes a bit, if there is any; half of the time one of the lowest eight of a word, which may be
/// an end or a code.
fn flip(random: &mut Random, file: &mut [u8]) {
    let words = file.len() / 4;
    let at = match random.below(2) {
        0 if words > 0 => file.len() - 4 * random.within(1..=words),
        _ if file.is_empty() => return,
        _ => random.below(file.len()),
    };
    file[at] ^= 1 << random.below(8);
}

/// Changes a file as its kind says. Those of a kind that is made of a store stay as they are.
fn change(random: &mut Random, file: &mut Vec<u8>, kind: Kind) {
    let most = random.pick(&[4, 20, file.len()]).min(file.len());
    match kind {
        Kind::Good | Kind::Uncollected | Kind::Damaged => {}
        Kind::Lengthened => drop(file.splice(..0, before(random))),
        Kind::CutAtEnd => file.truncate(file.len() - random.below(most + 1)),
        Kind::CutAtFront => drop(file.drain(..random.below(most + 1))),
        Kind::Flipped => (0..random.pick(&[1, 1, 1, 2])).for_each(|_| flip(random, file)),
        Kind::Trailer => (0..random.pick(&[1, 1, 2])).for_each(|_| spoil_trailer(random, file)),
        Kind::Wrapped => wrap_trailer(random, file),
        Kind::Mixed => {
            for _ in 0..2 {
                let kind = random.pick(&Kind::CHANGES);
                change(random, file, kind);
            }
        }
    }
}

/// A file of a kind, of a store with at most so many cells.
pub fn file(random: &mut Random, capacity: usize, kind: Kind) -> Vec<u8> {
    let made = match kind {
        Kind::Mixed => random.pick(&[Kind::Good, Kind::Uncollected, Kind::Damaged]),
        kind => kind,
    };
    let (words, top) = match made {
        Kind::Uncollected => uncollected(random, capacity),
        Kind::Damaged => damaged(random, capacity),
        _ => collected(random, capacity),
    };
    let mut file = files::file(&words, top);
    change(random, &mut file, kind);
    file
}

/// Words for a file to be loaded into, full of junk: as many as it asks for as a rule, as far as
/// there may be so many.
pub fn slice(random: &mut Random, file: &[u8]) -> Vec<u32> {
    let capacity = trailer_word(file, 2).map_or(20, |word| word as usize);
    let length = match (random.below(24), 2 * capacity.min(MAX_CELLS + 1)) {
        (0, right) => random.pick(&[right + 1, right + 2, (2 * right).min(9_000), 0, 32, 8_192]),
        (1, right) => right.saturating_sub(random.pick(&[1, 2, right / 2])),
        (_, right) => right,
    };
    (0..length).map(|_| random.word()).collect()
}

/// A space for the file of a store, full of junk: exact, longer, too short or none. Of a store that
/// is not sound the file is taken to have no heap cells.
pub fn space(random: &mut Random, words: &[u32], top: usize) -> Vec<u8> {
    let live = match plain::check(words, top).status {
        0 => plain::live(words, top),
        _ => 0,
    };
    super::text_space(random, files::distance(live as u64) as usize)
}
