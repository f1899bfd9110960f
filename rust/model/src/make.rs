//! Random stores, damage, call lists, text spaces, texts and, in [`files`], files. Cells that break a certain
//! rule are in [`rules`], and texts cut into pieces, with what may be kept of them, in [`pieces`].
//!
//! Stores are made cell by cell and not by calls, so that they have overlapping runs, dead cells
//! between live ones and brackets that no call would lay. Small capacities are the most frequent:
//! there a few calls fill the store, and room runs out. Stores for printing nest brackets about as
//! deep as may be, or share so much that their text could never be written out. Texts for typing are
//! those of an expression, then spoilt or cut; and stores for them have about as much room as they need.
//! Stores in which room is short hold little that is dead, and are as long as new cells can just be laid in
//! them, or just not.

pub mod files;
pub mod pieces;
pub mod rules;

use crate::plain::{
    self, put, Cell, BRACKET, FIRST_HEAP_CELL, MAX_CELLS, MAX_CODE, MAX_DEPTH, MIN_CODE,
};
use crate::random::Random;

/// How long the runs of a random store are, and where they lie.
#[derive(Clone, Copy, Debug, PartialEq, Eq)]
pub enum Runs {
    /// One to four cells.
    Short,
    /// One to eight cells, more often those just below than those far down.
    Recent,
    /// Anything that fits.
    Any,
}

/// A capacity, small as a rule.
pub fn capacity(random: &mut Random) -> usize {
    match random.below(20) {
        0..=15 => random.within(16..=40),
        16..=18 => random.within(41..=128),
        _ => random.within(129..=600),
    }
}

/// The ends of a run of cells from 16 up to but not including `limit`, or none if there is no cell.
pub fn run(random: &mut Random, limit: usize, runs: Runs) -> Option<(usize, usize)> {
    if limit <= FIRST_HEAP_CELL {
        return None;
    }
    let lowest = match runs {
        Runs::Short | Runs::Any => FIRST_HEAP_CELL,
        Runs::Recent => random.within(FIRST_HEAP_CELL..=limit - 1),
    };
    let end = random.within(lowest..=limit - 1);
    let other = match runs {
        Runs::Short => end.saturating_sub(random.below(4)).max(FIRST_HEAP_CELL),
        Runs::Recent => end.saturating_sub(random.below(8)).max(FIRST_HEAP_CELL),
        Runs::Any => random.within(FIRST_HEAP_CELL..=limit - 1),
    };
    Some((end.min(other), end.max(other)))
}

/// A symbol code, often a small one, the least or the largest.
fn code(random: &mut Random) -> u32 {
    match random.below(8) {
        0 => MAX_CODE,
        1 => (random.word() & MAX_CODE).max(MIN_CODE),
        _ => MIN_CODE + random.below(6) as u32,
    }
}

/// A cell that may stand at `c` of the heap.
pub fn heap_cell(random: &mut Random, c: usize, runs: Runs) -> Cell {
    match (random.below(9), run(random, c, runs)) {
        (0..=3, Some((l, r))) => Cell::Bracket(l, r),
        (4, _) => Cell::Empty,
        _ => Cell::Symbol(code(random)),
    }
}

/// A sound store of the given capacity: its words and its `top`.
pub fn sound(random: &mut Random, capacity: usize, runs: Runs) -> (Vec<u32>, usize) {
    let mut words = vec![0; 2 * capacity];
    let top = match random.below(4) {
        0 => FIRST_HEAP_CELL,
        1 => capacity,
        _ => random.within(FIRST_HEAP_CELL..=capacity),
    };
    for c in FIRST_HEAP_CELL..top {
        let cell = heap_cell(random, c, runs);
        put(&mut words, c, cell);
    }
    let sparse = random.pick(&[2, 4, 12]);
    for register in 0..FIRST_HEAP_CELL {
        let cell = match run(random, top, runs) {
            Some((l, r)) if random.one_in(sparse) => Cell::Bracket(l, r),
            _ => Cell::Empty,
        };
        put(&mut words, register, cell);
    }
    (words, top)
}

/// Takes the first or the last term off one register, if that has more than one.
fn shorten(random: &mut Random, words: &mut [u32]) {
    let register = random.below(FIRST_HEAP_CELL);
    if let Some(Cell::Bracket(l, r)) = Cell::read(words[2 * register], words[2 * register + 1]) {
        if l < r {
            let shorter = random.pick(&[Cell::Bracket(l + 1, r), Cell::Bracket(l, r - 1)]);
            put(words, register, shorter);
        }
    }
}

/// A sound store of about so many cells, none of them free and few dead as a rule: its words and `top`. Nearly
/// all of the registers `held` have something in them, cells of their own or those of others.
fn packed(random: &mut Random, capacity: usize, held: &[usize]) -> (Vec<u32>, usize) {
    let runs = random.pick(&[Runs::Short, Runs::Recent, Runs::Any]);
    let (mut words, mut top) = sound(random, capacity, runs);
    words.truncate(2 * top);
    for &register in held.iter().cycle().skip(random.below(held.len())).take(held.len()) {
        let ends = match random.below(16) {
            0 => None,
            1..=7 => run(random, top, Runs::Short),
            _ => {
                let l = top;
                top += random.within(1..=3);
                words.resize(2 * top, 0);
                (l..top).for_each(|c| put(&mut words, c, heap_cell(random, c, runs)));
                Some((l, top - 1))
            }
        };
        put(&mut words, register, ends.map_or(Cell::Empty, |(l, r)| Cell::Bracket(l, r)));
    }
    if !random.one_in(4) {
        top = plain::collect(&mut words, top).top;
        words.truncate(2 * top);
        // And then the odd cell dies, wherever it lies.
        (0..random.below(6)).for_each(|_| shorten(random, &mut words));
    }
    (words, top)
}

/// A word that is likely to break a rule only just.
fn telling_word(random: &mut Random, top: usize) -> u32 {
    let near = random.pick(&[0, 1, 15, 16, 17, top.wrapping_sub(1) as u32, top as u32, MAX_CODE]);
    let flags = random.pick(&[0, 0, BRACKET, BRACKET, BRACKET, 1 << 30, 1 << 29, 1 << 28]);
    match random.below(6) {
        0 => random.word(),
        1 => near.wrapping_add(1) | flags,
        _ => near | flags,
    }
}

/// Spoils one word, if there is any.
fn spoil_word(random: &mut Random, words: &mut [u32], top: usize) {
    if words.is_empty() {
        return;
    }
    let i = random.below(words.len());
    if random.one_in(2) {
        words[i] ^= 1 << random.below(32);
    } else {
        words[i] = telling_word(random, top);
    }
}

/// Wipes an occupied heap cell, if there is any: both of its words become 0.
pub fn wipe(random: &mut Random, words: &mut [u32], top: usize) {
    let occupied = FIRST_HEAP_CELL..top.min(words.len() / 2);
    if !occupied.is_empty() {
        let c = random.within(occupied.start..=occupied.end - 1);
        words[2 * c..2 * c + 2].fill(0);
    }
}

/// A length for a store, allowed or not.
fn telling_length(random: &mut Random) -> usize {
    random.pick(&[0, 1, 2, 30, 31, 32, 33, 34, 35, 64, 65, 8190, 8191, 8192, 8193, 8194])
}

/// Damages a store: its words, its `top` or its length. Now and then it stays sound.
pub fn damage(random: &mut Random, words: &mut Vec<u32>, top: &mut usize) {
    let capacity = words.len() / 2;
    match random.below(10) {
        0 => *top = random.pick(&[0, 1, 15, 16, capacity, capacity + 1, usize::MAX]),
        1 => *top = random.below(2 * capacity + 2),
        2 if random.one_in(8) => words.resize(telling_length(random), 0),
        2 => words.truncate(random.below(words.len() + 1)),
        3 => words.push(0),
        4 => words.iter_mut().for_each(|word| *word = random.word()),
        5 if capacity > 1 => {
            let c = random.below(capacity - 1);
            words[2 * c..2 * c + 4].rotate_left(2);
        }
        6 => wipe(random, words, *top),
        7 => rules::break_any(random, words, *top, &rules::Place::ALL),
        _ => (0..=random.below(3)).for_each(|_| spoil_word(random, words, *top)),
    }
}

/// A register, most often one of the first four so that calls meet each other's results.
fn register(random: &mut Random) -> u32 {
    match random.below(4) {
        0 => random.below(16) as u32,
        _ => random.below(4) as u32,
    }
}

/// A call whose words are in order.
pub fn call(random: &mut Random) -> [u32; 4] {
    const OFTEN: [u32; 24] =
        [0, 1, 1, 2, 2, 2, 2, 3, 3, 3, 4, 4, 4, 4, 5, 6, 6, 7, 7, 8, 9, 10, 10, 11];
    let operation = random.pick(&OFTEN);
    let (d, a, b) = (register(random), register(random), register(random));
    match operation {
        0 => [0, d, 0, 0],
        2 => [2, d, code(random), 0],
        4 => [4, d, a, b],
        8 | 9 => [operation, 0, a, 0],
        10 | 11 => [operation, 0, 0, 0],
        _ => [operation, d, a, 0],
    }
}

/// A call that lays new cells, by its operation: 2, 3 or 4. One operand in four is the register that it sets.
fn building_call(random: &mut Random, operation: u32) -> [u32; 4] {
    let d = random.below(FIRST_HEAP_CELL) as u32;
    let [a, b] = [(); 2].map(|()| match random.below(4) {
        0 => d,
        _ => random.below(FIRST_HEAP_CELL) as u32,
    });
    match operation {
        2 => [2, d, code(random), 0],
        3 => [3, d, a, 0],
        _ => [4, d, a, b],
    }
}

/// A call with one or two words spoilt; now and then it is still in order.
fn spoilt_call(random: &mut Random) -> [u32; 4] {
    let mut call = call(random);
    for _ in 0..=random.below(2) {
        call[random.below(4)] = match random.below(8) {
            0..=3 => random.below(21) as u32,
            4 => random.word(),
            _ => random.pick(&[0, 1, 12, 15, 16, 99, MAX_CODE, MAX_CODE + 1, u32::MAX]),
        };
    }
    call
}

/// A list of `count` calls, some of them spoilt.
pub fn calls(random: &mut Random, count: usize) -> Vec<u32> {
    let spoilt = random.pick(&[3, 8, 40]);
    (0..count)
        .flat_map(|_| match random.one_in(spoilt) {
            true => spoilt_call(random),
            false => call(random),
        })
        .collect()
}

/// Brings a call list to a length that is, more often than not, refused.
pub fn stretch(random: &mut Random, calls: &mut Vec<u32>) {
    match random.below(12) {
        0 => calls.resize(random.pick(&[4092, 4095, 4096, 4097, 4100, 5000]), 0),
        _ => calls.resize(calls.len() + random.below(6), random.below(20) as u32),
    }
}

/// An answer space for a list of `call_words` words, full of junk: exact, longer or too short.
pub fn answers(random: &mut Random, call_words: usize) -> Vec<u32> {
    let exact = call_words / 4 * 2;
    let length = match random.below(8) {
        0 => random.below(exact + 1),
        1..=3 => exact + random.below(9),
        _ => exact,
    };
    (0..length).map(|_| random.word()).collect()
}

/// A code that is likely to be written wrong: where digits become more, and with zeros in it.
fn telling_code(random: &mut Random) -> u32 {
    let power = 10u32.pow(random.below(9) as u32);
    match random.below(6) {
        0 => (power - 1).max(MIN_CODE),
        1 => power,
        2 => power + random.below(10) as u32,
        3 => power * random.within(1..=2) as u32,
        4 => random.pick(&[MIN_CODE, MAX_CODE - 1, MAX_CODE]),
        _ => ((random.word() & MAX_CODE) % (10 * power)).max(MIN_CODE),
    }
}

/// Gives the symbols of a sound store codes of all lengths.
pub fn recode(random: &mut Random, words: &mut [u32], top: usize) {
    let symbols =
        words[2 * FIRST_HEAP_CELL..2 * top].chunks_exact_mut(2).filter(|cell| cell[1] == 0);
    symbols.for_each(|cell| cell[0] = telling_code(random));
}

/// A store of some heap cells, a few free ones, and one register that is not empty: its words and `top`.
fn holding(random: &mut Random, heap: &[Cell], register: usize, ends: Cell) -> (Vec<u32>, usize) {
    let top = FIRST_HEAP_CELL + heap.len();
    let mut words = vec![0; 2 * (top + random.below(4))];
    plain::fresh(&mut words);
    (FIRST_HEAP_CELL..).zip(heap).for_each(|(c, &cell)| put(&mut words, c, cell));
    put(&mut words, register, ends);
    (words, top)
}

/// Puts a few terms at the end of the heap, none of them deeper than the deepest of `runs` is.
fn put_beside(random: &mut Random, heap: &mut Vec<Cell>, runs: &[Cell], most: usize) {
    for _ in 0..random.below(most + 1) {
        heap.push(match random.below(12) {
            0 if !runs.is_empty() => random.pick(runs),
            0..=2 => Cell::Empty,
            _ => Cell::Symbol(telling_code(random)),
        });
    }
}

/// A store whose `register` has so many brackets inside one another, with other terms before and after
/// each of them, at most so many as `most` says.
pub fn nest(
    random: &mut Random,
    brackets: usize,
    most: usize,
    register: usize,
) -> (Vec<u32>, usize) {
    let (mut heap, mut runs) = (Vec::new(), Vec::new());
    let mut inside = Cell::Empty;
    for _ in 0..brackets {
        let l = FIRST_HEAP_CELL + heap.len();
        put_beside(random, &mut heap, &runs, most);
        heap.push(inside);
        put_beside(random, &mut heap, &runs, most);
        runs.push(inside);
        inside = Cell::Bracket(l, FIRST_HEAP_CELL + heap.len() - 1);
    }
    holding(random, &heap, register, inside)
}

/// A store whose `register` has as many brackets inside one another as there are `levels`, and at each
/// of them two or three around the same run. So its terms are 2 to the power of `levels` at least.
pub fn doubled(random: &mut Random, levels: usize, register: usize) -> (Vec<u32>, usize) {
    let mut heap = vec![Cell::Symbol(telling_code(random))];
    let mut inside = Cell::Bracket(FIRST_HEAP_CELL, FIRST_HEAP_CELL);
    for _ in 0..levels {
        let l = FIRST_HEAP_CELL + heap.len();
        heap.extend(vec![inside; random.pick(&[2, 2, 3])]);
        inside = Cell::Bracket(l, FIRST_HEAP_CELL + heap.len() - 1);
    }
    holding(random, &heap, register, inside)
}

/// The bytes of a register's text up to its end or to a bracket that is one too many, but no more than
/// `most`; `most` too where there is no text.
pub fn text_end(words: &[u32], top: usize, register: usize, most: usize) -> usize {
    if register >= FIRST_HEAP_CELL || plain::check(words, top).status != 0 {
        return most;
    }
    let fits = plain::text(words, register).take_while(|&(_, open)| open <= MAX_DEPTH);
    fits.take(most).count()
}

/// A space full of junk, for a text or a file of `end` bytes: exact, longer or too short.
pub fn text_space(random: &mut Random, end: usize) -> Vec<u8> {
    let length = match random.below(10) {
        0 => 0,
        1 => random.below(end + 1),
        2 | 3 => end.saturating_sub(1),
        4 => end + 1,
        5 | 6 => end + random.below(40),
        _ => end,
    };
    (0..length).map(|_| random.word() as u8).collect()
}

/// The digits of a code. One in `wild` is too large or begins with a 0, and none where that is 0.
fn put_code(random: &mut Random, text: &mut Vec<u8>, wild: usize) {
    /// Codes over the limit: by one, by a digit, and beyond what a word holds.
    const TOO_LARGE: [&str; 10] = [
        "268435456",
        "268435460",
        "268435500",
        "300000000",
        "999999999",
        "2684354550",
        "4294967295",
        "4294967297",
        "9999999999",
        "18446744073709551617",
    ];
    let digits = match (wild > 0 && random.one_in(wild), random.below(4)) {
        (false, _) => telling_code(random).to_string(),
        (true, 0) => random.pick(&TOO_LARGE).to_string(),
        (true, 1) => format!("0{}", telling_code(random)),
        (true, 2) => "0".repeat(random.within(1..=2)),
        (true, _) => {
            let over = random.next() % 10u64.pow(random.below(11) as u32);
            (u64::from(MAX_CODE) + 1 + over).to_string()
        }
    };
    text.extend(digits.bytes());
}

/// Terms with one space between each two, `left` at most on all levels, and brackets at most `depth` deep.
fn put_terms(random: &mut Random, text: &mut Vec<u8>, left: &mut usize, depth: usize, wild: usize) {
    let least = if random.one_in(4) { 0 } else { 1 };
    for i in 0..random.within(least..=7).min(*left) {
        if *left == 0 {
            return;
        }
        *left -= 1;
        text.extend((i > 0).then_some(b' '));
        if depth > 0 && random.one_in(3) {
            text.push(b'(');
            put_terms(random, text, left, depth - 1, wild);
            text.push(b')');
        } else {
            put_code(random, text, wild);
        }
    }
}

/// So many brackets inside one another, with other terms before and after each of them, at most so many
/// as `most` says.
fn put_nest(random: &mut Random, text: &mut Vec<u8>, brackets: usize, most: usize, wild: usize) {
    fn beside(random: &mut Random, text: &mut Vec<u8>, wild: usize) {
        match random.one_in(5) {
            true => text.extend(b"()"),
            false => put_code(random, text, wild),
        }
    }
    for _ in 0..brackets {
        for _ in 0..random.below(most + 1) {
            beside(random, text, wild);
            text.push(b' ');
        }
        text.push(b'(');
    }
    for _ in 0..brackets {
        text.push(b')');
        for _ in 0..random.below(most + 1) {
            text.push(b' ');
            beside(random, text, wild);
        }
    }
}

/// A text of an expression, of few terms as a rule. Now and then its brackets are too deep, or nearly, or a
/// code is too large or begins with a 0.
pub fn text(random: &mut Random) -> Vec<u8> {
    let mut text = Vec::new();
    let wild = random.pick(&[0, 0, 0, 0, 3, 20]);
    match random.below(12) {
        0 | 1 => {
            let (brackets, most) = (random.within(62..=67), random.pick(&[0, 0, 1, 2]));
            put_nest(random, &mut text, brackets, most, wild);
        }
        2 => {
            let (brackets, most) = (random.within(2..=61), random.below(3));
            put_nest(random, &mut text, brackets, most, wild);
        }
        3 => {
            // Side by side, so that there are more terms than on one level of the other texts.
            for i in 0..random.below(60) {
                text.extend((i > 0).then_some(b' '));
                put_code(random, &mut text, wild);
            }
        }
        _ => {
            let (mut left, depth) = (random.pick(&[1, 3, 10, 30, 80]), random.pick(&[1, 3, 70]));
            put_terms(random, &mut text, &mut left, depth, wild);
        }
    }
    text
}

/// A text of an expression with at most so many terms on all levels. Only for room can it be refused.
fn short_text(random: &mut Random, most: usize) -> Vec<u8> {
    let (mut text, mut left) = (Vec::new(), most);
    put_terms(random, &mut text, &mut left, 3, 0);
    text
}

/// A byte that is likely to stand in a text, or any.
fn telling_byte(random: &mut Random) -> u8 {
    match random.below(8) {
        0 => random.word() as u8,
        _ => random.pick(b"00123456789   ((()))x/:'*"),
    }
}

/// Changes, puts in or takes out one byte of a text. Now and then it is one of an expression still.
pub fn spoil_text(random: &mut Random, text: &mut Vec<u8>) {
    let (at, byte) = (random.below(text.len() + 1), telling_byte(random));
    match (random.below(3), at < text.len()) {
        (0, true) => text[at] = byte,
        (1, true) => drop(text.remove(at)),
        _ => text.insert(at, byte),
    }
}

/// Cuts a text off, at its end as a rule.
pub fn cut_text(random: &mut Random, text: &mut Vec<u8>) {
    let at = random.below(text.len() + 1);
    match random.one_in(8) {
        true => drop(text.drain(..at)),
        false => text.truncate(at),
    }
}

/// Gives a sound store so many cells that `need` new ones just fit or just do not, as it is or once it is
/// collected; or leaves it as it is.
pub fn crowd(random: &mut Random, words: &mut Vec<u32>, top: usize, need: usize) {
    let edge = match random.below(4) {
        0 => return,
        1 => top + need,
        _ => FIRST_HEAP_CELL + plain::live(words, top) + need,
    };
    let capacity = (edge + random.below(4)).saturating_sub(2);
    words.resize(2 * capacity.clamp(top, MAX_CELLS), 0);
}

/// Gives a sound store so many cells that `need` new ones for register `d` do not fit as it is, and just fit or
/// just do not once it is collected, with `d` as it is or empty; or, now and then, that they just fit as it is.
fn tighten(random: &mut Random, words: &mut Vec<u32>, top: usize, need: usize, d: usize) {
    let counted = match random.below(12) {
        0 => return words.resize(2 * (top + need), 0),
        1..=4 => plain::live(words, top),
        _ => plain::live_without(words, top, d),
    };
    let capacity = FIRST_HEAP_CELL + counted + need - random.pick(&[0, 0, 1, 2]);
    words.resize(2 * capacity.min(top + need - 1).max(top), 0);
}

/// A nearly full store, made of one of about so many cells, and a call that lays new cells in it, by its
/// operation: words, `top` and call.
pub fn tight_call(
    random: &mut Random,
    capacity: usize,
    operation: u32,
) -> (Vec<u32>, usize, [u32; 4]) {
    let call = building_call(random, operation);
    let [_, d, a, b] = call.map(|word| word as usize);
    let held = match operation {
        2 => vec![d],
        3 => vec![d, a],
        _ => vec![d, a, b],
    };
    let (mut words, top) = packed(random, capacity, &held);
    let need = plain::need(&words, &call);
    tighten(random, &mut words, top, need, d);
    (words, top, call)
}

/// The same for a text of at most so many terms: words, `top`, the register that it is typed into and the text.
pub fn tight_text(
    random: &mut Random,
    capacity: usize,
    most: usize,
) -> (Vec<u32>, usize, usize, Vec<u8>) {
    let (d, text) = (random.below(FIRST_HEAP_CELL), short_text(random, most));
    let (mut words, top) = packed(random, capacity, &[d]);
    let need = plain::read(&text).expect("nothing in it is refused").0.len();
    tighten(random, &mut words, top, need, d);
    (words, top, d, text)
}
