//! Cells that break a rule, made for it: which rule it is need not be judged.
//!
//! The rule that a cell is made for is the first that applies to it. Later ones may apply as well, read by
//! themselves: a register of two zeros is no symbol either, and a cell with a stray bit may have any fault.

use std::ops::Range;

use crate::plain::{Cell, BRACKET, FIRST_HEAP_CELL, MAX_CODE};
use crate::random::Random;

/// Where a cell stands.
#[derive(Clone, Copy, Debug, PartialEq, Eq, Hash, PartialOrd, Ord)]
pub enum Place {
    /// It is a register.
    Register,
    /// It is a heap cell below `top`.
    Occupied,
    /// It is a cell from `top` on.
    Free,
}

impl Place {
    /// Every place.
    pub const ALL: [Place; 3] = [Place::Register, Place::Occupied, Place::Free];

    /// The place of cell `c`.
    pub fn of(c: usize, top: usize) -> Place {
        match (c < FIRST_HEAP_CELL, c < top) {
            (true, _) => Place::Register,
            (false, true) => Place::Occupied,
            (false, false) => Place::Free,
        }
    }

    /// The place in a word.
    pub fn name(self) -> &'static str {
        match self {
            Place::Register => "register",
            Place::Occupied => "occupied",
            Place::Free => "free",
        }
    }

    /// The rules that a cell there can break.
    pub fn rules(self) -> &'static [u32] {
        match self {
            Place::Register => &[1, 2, 3, 5],
            Place::Occupied => &[1, 3, 4, 5],
            Place::Free => &[1, 6],
        }
    }

    /// The cells there, in a store whose `top` is in range.
    pub fn cells(self, capacity: usize, top: usize) -> Range<usize> {
        match self {
            Place::Register => 0..FIRST_HEAP_CELL,
            Place::Occupied => FIRST_HEAP_CELL..top,
            Place::Free => top..capacity,
        }
    }
}

/// The used bit and the two chain bits.
const STRAY: u32 = 7 << 28;

/// Any word, often one that is an end, a code or 0.
fn any(random: &mut Random, top: usize) -> u32 {
    let near = random.pick(&[0, 0, 1, 15, 16, 17, 65, top as u32, top as u32 + 1, MAX_CODE]);
    match random.below(4) {
        0 => random.word(),
        1 => near.wrapping_sub(1),
        _ => near,
    }
}

/// Any word that is not 0.
fn any_but_zero(random: &mut Random, top: usize) -> u32 {
    any(random, top).max(1)
}

/// A number from `least` to `most`, often one of these two.
fn from_to(random: &mut Random, least: u32, most: u32) -> u32 {
    match random.below(4) {
        0 => least,
        1 => most,
        2 => random.within(least as usize..=most.min(least.saturating_add(20)) as usize) as u32,
        _ => random.within(least as usize..=most as usize) as u32,
    }
}

/// Both words of a bracket that is not empty and whose ends are not those of a run below `limit`.
fn bad_ends(random: &mut Random, limit: u32) -> [u32; 2] {
    let first = FIRST_HEAP_CELL as u32;
    let (l, r) = match random.below(4) {
        // The left end is too low, wherever the right one is.
        0 => (from_to(random, 0, first - 1), from_to(random, 1, MAX_CODE)),
        // The left end is above the right one, wherever they are.
        1 => {
            let r = from_to(random, 1, MAX_CODE);
            (from_to(random, r + 1, u32::MAX), r)
        }
        2 => {
            let r = from_to(random, 1, limit - 1);
            (from_to(random, r + 1, limit), r)
        }
        // The right end is too high, wherever the left one is.
        _ => (from_to(random, 0, limit), from_to(random, limit, MAX_CODE)),
    };
    [l, BRACKET | r]
}

/// Both words of cell `c` such that `rule` is the first that it breaks. It must be one that it can break.
pub fn broken(random: &mut Random, top: usize, c: usize, rule: u32) -> [u32; 2] {
    let place = Place::of(c, top);
    assert!(place.rules().contains(&rule), "a cell that is {} breaks no rule {rule}", place.name());
    let flags = random.pick(&[0, BRACKET]);
    match rule {
        1 => {
            let stray = random.within(1..=7) as u32;
            [any(random, top), any(random, top) & !STRAY | flags | stray << 28]
        }
        2 => [any(random, top), any(random, top) & MAX_CODE],
        3 => [any_but_zero(random, top), BRACKET],
        4 => match random.below(3) {
            0 => [0, 0],
            1 => [from_to(random, MAX_CODE + 1, u32::MAX), 0],
            _ => [any(random, top), from_to(random, 1, MAX_CODE)],
        },
        5 if place == Place::Register => bad_ends(random, top as u32),
        5 => bad_ends(random, c as u32),
        _ => match random.below(3) {
            0 => [any_but_zero(random, top), 0],
            1 => [any(random, top), from_to(random, 1, MAX_CODE) | flags],
            _ => {
                // A cell that would be sound below `top`.
                let cell = random.pick(&[Cell::Symbol(65), Cell::Empty, Cell::Bracket(16, 16)]);
                cell.spelt().into()
            }
        },
    }
}

/// Breaks a rule in some cell of a place, and gives its address. Nothing is done where there is none.
pub fn break_cell(
    random: &mut Random,
    words: &mut [u32],
    top: usize,
    place: Place,
    rule: u32,
) -> Option<usize> {
    let cells = place.cells(words.len() / 2, top);
    if cells.is_empty() || cells.end > words.len() / 2 {
        return None;
    }
    let c = random.within(cells.start..=cells.end - 1);
    words[2 * c..2 * c + 2].copy_from_slice(&broken(random, top, c, rule));
    Some(c)
}

/// Breaks some rule in some cell.
pub fn break_any(random: &mut Random, words: &mut [u32], top: usize, places: &[Place]) {
    let place = random.pick(places);
    let rule = random.pick(place.rules());
    break_cell(random, words, top, place, rule);
}
