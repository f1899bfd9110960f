//! The store in words, the plain way.
//!
//! One cell at a time is decoded into a [`Cell`]. The collector marks into a side table with an
//! explicit stack, numbers the reached cells in a second table and writes a second vector. A register
//! is printed byte by byte, from a stack of what is still to come, and a text is read byte by byte, with
//! a stack of the brackets that are open. Nothing here is quick or in place.

/// The number of registers, and so the address of the first heap cell.
pub const FIRST_HEAP_CELL: usize = 16;
/// The largest capacity, in cells.
pub const MAX_CELLS: usize = 4096;
/// The longest call list, in words.
pub const MAX_CALL_WORDS: usize = 4096;
/// The least symbol code.
pub const MIN_CODE: u32 = 1;
/// The largest symbol code.
pub const MAX_CODE: u32 = (1 << 28) - 1;
/// The second word of an empty bracket.
pub const BRACKET: u32 = 1 << 31;
/// The most brackets that may be open at one place of a text.
pub const MAX_DEPTH: usize = 64;
/// The most terms of a text, on all levels.
pub const MAX_TERMS: usize = 1 << 16;

/// What a function of the store answers.
#[derive(Clone, Copy, Debug, PartialEq, Eq)]
pub struct Reply {
    /// 0, or the number of the refusal.
    pub status: u32,
    /// The rule that the cell breaks where the status is 3, else 0.
    pub rule: u32,
    /// The number named beside the status.
    pub value: u32,
    /// The end of the occupied cells afterwards.
    pub top: usize,
}

/// What printing answers.
#[derive(Clone, Copy, Debug, PartialEq, Eq)]
pub struct Text {
    /// 0, or the number of the refusal.
    pub status: u32,
    /// The rule that the cell breaks where the status is 3, else 0.
    pub rule: u32,
    /// The number named beside the status.
    pub value: usize,
    /// The bytes of the text; 0 where it is refused.
    pub length: usize,
}

/// What typing answers.
#[derive(Clone, Copy, Debug, PartialEq, Eq)]
pub struct Typed {
    /// 0, or the number of the refusal.
    pub status: u32,
    /// The rule that the cell breaks where the status is 3, else 0.
    pub rule: u32,
    /// The number named beside the status: a cell, an offset in the text, or 0.
    pub value: usize,
    /// The end of the occupied cells afterwards.
    pub top: usize,
}

/// A cell as the rules tell cells apart.
#[derive(Clone, Copy, Debug, PartialEq, Eq)]
pub enum Cell {
    /// A symbol and its code.
    Symbol(u32),
    /// A bracket with nothing in it.
    Empty,
    /// A bracket and its ends, both inclusive.
    Bracket(usize, usize),
}

/// Whether a word may be the code of a symbol.
pub fn is_code(word: u32) -> bool {
    (MIN_CODE..=MAX_CODE).contains(&word)
}

impl Cell {
    /// The cell that two words spell. `None` where they spell none at any address.
    pub fn read(first: u32, second: u32) -> Option<Cell> {
        let (flags, right) = (second >> 28, second & MAX_CODE);
        match (flags, right) {
            (0, 0) if is_code(first) => Some(Cell::Symbol(first)),
            (8, 0) if first == 0 => Some(Cell::Empty),
            (8, 1..) => Some(Cell::Bracket(first as usize, right as usize)),
            _ => None,
        }
    }

    /// The two words that spell the cell.
    pub fn spelt(self) -> (u32, u32) {
        match self {
            Cell::Symbol(code) => (code, 0),
            Cell::Empty => (0, BRACKET),
            Cell::Bracket(l, r) => (l as u32, BRACKET + r as u32),
        }
    }
}

/// Puts `cell` at address `c`.
pub fn put(words: &mut [u32], c: usize, cell: Cell) {
    (words[2 * c], words[2 * c + 1]) = cell.spelt();
}

/// The cell at address `c` of a sound store.
fn at(words: &[u32], c: usize) -> Cell {
    Cell::read(words[2 * c], words[2 * c + 1])
        .expect("a sound store has only cells that spell something")
}

/// The ends of the bracket or register at `c`, if it has any.
fn ends(words: &[u32], c: usize) -> Option<(usize, usize)> {
    match at(words, c) {
        Cell::Bracket(l, r) => Some((l, r)),
        _ => None,
    }
}

/// The rule that cell `c` breaks in a store whose length and `top` are in range, the first of the list that
/// applies; 0 where it breaks none.
pub fn broken_rule(words: &[u32], top: usize, c: usize) -> u32 {
    let (first, second) = (words[2 * c], words[2 * c + 1]);
    let bit = |i: u32| second >> i & 1 == 1;
    let (l, r) = (first as usize, (second & MAX_CODE) as usize);
    let (register, below) = (c < FIRST_HEAP_CELL, c < top);
    let limit = if register { top } else { c };
    let symbol = second == 0 && is_code(first);
    let run = FIRST_HEAP_CELL <= l && l <= r && r < limit;
    let applies = [
        // 1: a stray used or chain bit.
        bit(30) || bit(29) || bit(28),
        // 2: a register that is no bracket.
        below && register && !bit(31),
        // 3: a bad empty form.
        below && second == BRACKET && first != 0,
        // 4: a bad symbol form.
        below && !register && !bit(31) && !symbol,
        // 5: ends out of order or range.
        below && bit(31) && r != 0 && !run,
        // 6: words beyond `top`.
        !below && (first != 0 || second != 0),
    ];
    (1..).zip(applies).find(|&(_, applies)| applies).map_or(0, |(rule, _)| rule)
}

/// Whether a slice of `n` words may hold a store.
fn fits(n: usize) -> bool {
    n % 2 == 0 && (2 * FIRST_HEAP_CELL..=2 * MAX_CELLS).contains(&n)
}

/// The check: 0, or refusals 1 to 3. `top` comes back as it came.
pub fn check(words: &[u32], top: usize) -> Reply {
    let reply = |status, rule, value| Reply { status, rule, value, top };
    if !fits(words.len()) {
        return reply(1, 0, 0);
    }
    let capacity = words.len() / 2;
    if !(FIRST_HEAP_CELL..=capacity).contains(&top) {
        return reply(2, 0, 0);
    }
    match (0..capacity).find(|&c| broken_rule(words, top, c) != 0) {
        Some(c) => reply(3, broken_rule(words, top, c), c as u32),
        None => reply(0, 0, 0),
    }
}

/// A fresh store, or refusal 1 with `top` 0.
pub fn fresh(words: &mut [u32]) -> Reply {
    if !fits(words.len()) {
        return Reply { status: 1, rule: 0, value: 0, top: 0 };
    }
    words.fill(0);
    for register in 0..FIRST_HEAP_CELL {
        put(words, register, Cell::Empty);
    }
    Reply { status: 0, rule: 0, value: 0, top: FIRST_HEAP_CELL }
}

/// The part of the words that holds a register's cells, as offsets; (0, 0) where there is none.
pub fn look(words: &[u32], top: usize, register: usize) -> (usize, usize) {
    if check(words, top).status != 0 || register >= FIRST_HEAP_CELL {
        return (0, 0);
    }
    match ends(words, register) {
        Some((l, r)) => (2 * l, 2 * (r + 1)),
        None => (0, 0),
    }
}

/// What of a text is still to come.
#[derive(Clone, Copy, Debug)]
enum Piece {
    /// One byte.
    Byte(u8),
    /// The terms of the cells between two addresses, both inclusive.
    Run(usize, usize),
}

/// The bytes of a text one after the other, each with the number of brackets open there, its own
/// included if it is one. None is made before it is asked for, since a text may have no end in sight.
#[derive(Clone, Debug)]
pub struct Bytes<'a> {
    words: &'a [u32],
    /// What is still to come and the brackets open there, the next piece last.
    ahead: Vec<(Piece, usize)>,
}

/// The text of a register of a sound store.
pub fn text(words: &[u32], register: usize) -> Bytes<'_> {
    let ahead = ends(words, register).map(|(l, r)| (Piece::Run(l, r), 0)).into_iter().collect();
    Bytes { words, ahead }
}

impl Bytes<'_> {
    /// Puts the text of the term at `c` before all that is to come.
    fn put_term(&mut self, c: usize, open: usize) {
        if let Cell::Symbol(code) = at(self.words, c) {
            let digits = code.to_string();
            self.ahead.extend(digits.bytes().rev().map(|digit| (Piece::Byte(digit), open)));
            return;
        }
        self.ahead.push((Piece::Byte(b')'), open + 1));
        self.ahead.extend(ends(self.words, c).map(|(l, r)| (Piece::Run(l, r), open + 1)));
        self.ahead.push((Piece::Byte(b'('), open + 1));
    }
}

impl Iterator for Bytes<'_> {
    type Item = (u8, usize);

    fn next(&mut self) -> Option<(u8, usize)> {
        loop {
            match self.ahead.pop()? {
                (Piece::Byte(byte), open) => return Some((byte, open)),
                (Piece::Run(l, r), open) => {
                    if l < r {
                        self.ahead.push((Piece::Run(l + 1, r), open));
                        self.ahead.push((Piece::Byte(b' '), open));
                    }
                    self.put_term(l, open);
                }
            }
        }
    }
}

/// Writes bytes from left to right and gives their number, or 21 or 22 at the first that is refused.
fn write(bytes: Bytes, space: &mut [u8]) -> Result<usize, u32> {
    let mut length = 0;
    for (byte, open) in bytes {
        if open > MAX_DEPTH {
            return Err(21);
        }
        *space.get_mut(length).ok_or(22u32)? = byte;
        length += 1;
    }
    Ok(length)
}

/// Printing a register: the text and zeros after it, or a refusal and nothing but zeros.
pub fn print(words: &[u32], top: usize, register: usize, space: &mut [u8]) -> Text {
    space.fill(0);
    let Reply { status, rule, value, .. } = check(words, top);
    if status != 0 {
        return Text { status, rule, value: value as usize, length: 0 };
    }
    let written = match register < FIRST_HEAP_CELL {
        true => write(text(words, register), space),
        false => Err(20),
    };
    match written {
        Ok(length) => Text { status: 0, rule: 0, value: 0, length },
        Err(status) => {
            space.fill(0);
            Text { status, rule: 0, value: 0, length: 0 }
        }
    }
}

/// For each address below `top`, whether one of the registers reaches a heap cell there. The store is sound.
fn reached_from(words: &[u32], top: usize, registers: impl Iterator<Item = usize>) -> Vec<bool> {
    let mut seen = vec![false; top];
    let mut runs: Vec<_> = registers.filter_map(|register| ends(words, register)).collect();
    while let Some((l, r)) = runs.pop() {
        for (c, seen) in (l..).zip(&mut seen[l..=r]) {
            if !*seen {
                *seen = true;
                runs.extend(ends(words, c));
            }
        }
    }
    seen
}

/// For each address below `top`, whether a heap cell there is reached. The store is sound.
pub fn reached(words: &[u32], top: usize) -> Vec<bool> {
    reached_from(words, top, 0..FIRST_HEAP_CELL)
}

/// The number of reached heap cells of a sound store.
pub fn live(words: &[u32], top: usize) -> usize {
    reached(words, top).iter().filter(|&&seen| seen).count()
}

/// The number of heap cells of a sound store that are reached still if register `d` is empty.
pub fn live_without(words: &[u32], top: usize, d: usize) -> usize {
    let others = (0..FIRST_HEAP_CELL).filter(|&register| register != d);
    reached_from(words, top, others).iter().filter(|&&seen| seen).count()
}

/// Collects a sound store and gives the new `top`.
fn compact(words: &mut [u32], top: usize) -> usize {
    let seen = reached(words, top);
    let mut place: Vec<usize> = (0..top).collect();
    let mut next = FIRST_HEAP_CELL;
    for c in FIRST_HEAP_CELL..top {
        place[c] = next;
        next += usize::from(seen[c]);
    }
    let mut second = vec![0; words.len()];
    for c in (0..top).filter(|&c| c < FIRST_HEAP_CELL || seen[c]) {
        let moved = match at(words, c) {
            Cell::Bracket(l, r) => Cell::Bracket(place[l], place[r]),
            other => other,
        };
        put(&mut second, place[c], moved);
    }
    words.copy_from_slice(&second);
    next
}

/// Collecting alone: 0 with live and the new `top`, or refusals 1 to 3 with nothing changed.
pub fn collect(words: &mut [u32], top: usize) -> Reply {
    let checked = check(words, top);
    if checked.status != 0 {
        return checked;
    }
    let top = compact(words, top);
    Reply { status: 0, rule: 0, value: (top - FIRST_HEAP_CELL) as u32, top }
}

/// What an operand word is to an operation.
#[derive(Clone, Copy, PartialEq, Eq)]
enum Operand {
    Register,
    Code,
    Unused,
}

/// The operand words d, a and b of the twelve operations.
const OPERANDS: [[Operand; 3]; 12] = {
    use Operand::{Code, Register, Unused};
    [
        [Register, Unused, Unused],     // CLEAR
        [Register, Register, Unused],   // COPY
        [Register, Code, Unused],       // SYMBOL
        [Register, Register, Unused],   // WRAP
        [Register, Register, Register], // JOIN
        [Register, Register, Unused],   // HEAD
        [Register, Register, Unused],   // REST
        [Register, Register, Unused],   // OPEN
        [Unused, Register, Unused],     // LENGTH
        [Unused, Register, Unused],     // FIRST
        [Unused, Unused, Unused],       // LIVE
        [Unused, Unused, Unused],       // COLLECT
    ]
};

/// The refusal 10 to 13 of a call, which its words alone decide, or 0.
fn refused_by_words(call: &[u32]) -> u32 {
    let Some(operands) = OPERANDS.get(call[0] as usize) else {
        return 10;
    };
    let any =
        |operand, bad: fn(u32) -> bool| (0..3).any(|i| operands[i] == operand && bad(call[i + 1]));
    if any(Operand::Register, |word| word > 15) {
        11
    } else if any(Operand::Unused, |word| word != 0) {
        12
    } else if any(Operand::Code, |word| !is_code(word)) {
        13
    } else {
        0
    }
}

/// The refusal 14 or 15 of a call whose words are in order, or 0.
fn refused_by_store(words: &[u32], call: &[u32]) -> u32 {
    if ![5, 6, 7, 9].contains(&call[0]) {
        return 0;
    }
    let Some((l, _)) = ends(words, call[2] as usize) else {
        return 14;
    };
    match (call[0], at(words, l)) {
        (7, Cell::Symbol(_)) => 15,
        (9, Cell::Empty | Cell::Bracket(..)) => 15,
        _ => 0,
    }
}

/// The number of cells in a register.
fn length(words: &[u32], register: u32) -> usize {
    ends(words, register as usize).map_or(0, |(l, r)| r - l + 1)
}

/// The number of new cells that an unrefused call needs.
pub fn need(words: &[u32], call: &[u32]) -> usize {
    match call[0] {
        2 | 3 => 1,
        4 => match (length(words, call[2]), length(words, call[3])) {
            (0, _) | (_, 0) => 0,
            (a, b) => a + b,
        },
        _ => 0,
    }
}

/// Whether the register that a call sets is one of its operand registers too.
fn reads_what_it_sets(call: &[u32]) -> bool {
    let operands = OPERANDS[call[0] as usize];
    (1..3).any(|i| operands[i] == Operand::Register && call[i + 1] == call[1])
}

/// Makes room for `need` new cells that register `d` is to hold, and says whether there is room.
///
/// Only where they do not fit above `top` is the store collected. What `d` holds counts if it is `kept`, as
/// an operand is; else it is about to go, and room is sought in the store with `d` empty. Where there is none
/// the store is collected as it is.
fn room(words: &mut [u32], top: &mut usize, need: usize, d: usize, kept: bool) -> bool {
    let capacity = words.len() / 2;
    if *top + need <= capacity {
        return true;
    }
    let counted = if kept { live(words, *top) } else { live_without(words, *top, d) };
    let fits = FIRST_HEAP_CELL + counted + need <= capacity;
    if fits && !kept {
        put(words, d, Cell::Empty);
    }
    *top = compact(words, *top);
    fits
}

/// Lays `cells` from `top` upward and sets register `d` on them.
fn lay(words: &mut [u32], top: &mut usize, d: usize, cells: &[Cell]) {
    let l = *top;
    for &cell in cells {
        put(words, *top, cell);
        *top += 1;
    }
    put(words, d, Cell::Bracket(l, *top - 1));
}

/// JOIN: shares where one side is empty, else copies the cells of both.
fn join(words: &mut [u32], top: &mut usize, call: &[u32]) {
    let d = call[1] as usize;
    match (ends(words, call[2] as usize), ends(words, call[3] as usize)) {
        (None, _) => put(words, d, at(words, call[3] as usize)),
        (_, None) => put(words, d, at(words, call[2] as usize)),
        (Some((al, ar)), Some((bl, br))) => {
            let cells: Vec<_> = (al..=ar).chain(bl..=br).map(|c| at(words, c)).collect();
            lay(words, top, d, &cells);
        }
    }
}

/// The first cell of a register, and the register's cell without it.
fn parted(words: &[u32], register: usize) -> (usize, Cell) {
    let (l, r) = ends(words, register).expect("refusal 14 comes first");
    (l, if l == r { Cell::Empty } else { Cell::Bracket(l + 1, r) })
}

/// Does a call that nothing refuses and that has room, and gives its value.
fn perform(words: &mut [u32], top: &mut usize, call: &[u32]) -> u32 {
    let (d, a) = (call[1] as usize, call[2] as usize);
    match call[0] {
        0 => put(words, d, Cell::Empty),
        1 => put(words, d, at(words, a)),
        2 => lay(words, top, d, &[Cell::Symbol(call[2])]),
        3 => lay(words, top, d, &[at(words, a)]),
        4 => join(words, top, call),
        5 => {
            let (first, _) = parted(words, a);
            put(words, d, Cell::Bracket(first, first));
        }
        6 => {
            let (_, rest) = parted(words, a);
            put(words, d, rest);
        }
        7 => {
            let (first, _) = parted(words, a);
            put(words, d, at(words, first));
        }
        8 => return length(words, call[2]) as u32,
        9 => return words[2 * parted(words, a).0],
        10 => return live(words, *top) as u32,
        _ => {
            *top = compact(words, *top);
            return (*top - FIRST_HEAP_CELL) as u32;
        }
    }
    0
}

/// One call on a sound store: its status and value.
pub fn step(words: &mut [u32], top: &mut usize, call: &[u32]) -> (u32, u32) {
    let refused = match refused_by_words(call) {
        0 => refused_by_store(words, call),
        number => number,
    };
    if refused != 0 {
        return (refused, 0);
    }
    let need = need(words, call);
    match room(words, top, need, call[1] as usize, reads_what_it_sets(call)) {
        true => (0, perform(words, top, call)),
        false => (16, 0),
    }
}

/// What comes before the next byte of a text.
#[derive(Clone, Copy, Debug, PartialEq, Eq)]
enum Behind {
    /// Nothing, or an opening bracket.
    Start,
    /// A space.
    Space,
    /// The digits of a code, and the code so far.
    Digits(u32),
    /// A closing bracket.
    Close,
}

/// A text as far as it is read.
#[derive(Debug)]
struct Reading {
    behind: Behind,
    /// The cells that are laid already. The first of them counts as cell 0.
    laid: Vec<Cell>,
    /// The own terms of the whole text, then those of each open bracket, the innermost last.
    open: Vec<Vec<Cell>>,
    /// How many terms have begun, on all levels.
    begun: usize,
}

impl Reading {
    /// The own terms of the innermost open bracket, or of the text where none is open.
    fn own(&mut self) -> &mut Vec<Cell> {
        self.open.last_mut().expect("the text's own terms are never taken off before its end")
    }

    /// Ends the code that is being read, if one is.
    fn end_code(&mut self) {
        if let Behind::Digits(code) = self.behind {
            self.own().push(Cell::Symbol(code));
        }
    }

    /// Lays the own terms of the innermost bracket side by side, and gives the bracket around them. What
    /// its brackets hold was laid when they were closed.
    fn shut(&mut self) -> Cell {
        let own = self.open.pop().expect("a bracket is open, or the text ends");
        let l = self.laid.len();
        self.laid.extend(&own);
        if own.is_empty() {
            Cell::Empty
        } else {
            Cell::Bracket(l, self.laid.len() - 1)
        }
    }

    /// Begins a term with a digit or an opening bracket, or gives the status that refuses it, the first of the
    /// list that applies.
    fn begin(&mut self, byte: u8, brackets: usize) -> Result<(), u32> {
        let applies = [
            (21, byte == b'(' && brackets == MAX_DEPTH),
            (24, self.begun == MAX_TERMS),
            (13, byte == b'0'),
        ];
        self.begun += 1;
        applies.into_iter().find(|&(_, applies)| applies).map_or(Ok(()), |(status, _)| Err(status))
    }

    /// Reads one byte more, or gives the status that refuses it.
    fn take(&mut self, byte: u8) -> Result<(), u32> {
        let ends_a_term = matches!(self.behind, Behind::Digits(_) | Behind::Close);
        // The whole text stands below the brackets.
        let brackets = self.open.len() - 1;
        self.behind = match (byte, self.behind) {
            (b'0'..=b'9', Behind::Start | Behind::Space) => {
                self.begin(byte, brackets)?;
                Behind::Digits(u32::from(byte - b'0'))
            }
            (b'0'..=b'9', Behind::Digits(code)) => match code * 10 + u32::from(byte - b'0') {
                code if is_code(code) => Behind::Digits(code),
                _ => return Err(13),
            },
            (b'(', Behind::Start | Behind::Space) => {
                self.begin(byte, brackets)?;
                self.open.push(Vec::new());
                Behind::Start
            }
            (b')', behind) if brackets > 0 && behind != Behind::Space => {
                self.end_code();
                let bracket = self.shut();
                self.own().push(bracket);
                Behind::Close
            }
            (b' ', _) if ends_a_term => {
                self.end_code();
                Behind::Space
            }
            _ => return Err(23),
        };
        Ok(())
    }
}

/// Reads a text: its cells in the order in which they are laid, the first of them counted as cell 0, and
/// the cell of a register around it; or the status that refuses it, and where.
///
/// # Errors
///
/// 13, 21, 23 or 24, with an offset.
pub fn read(text: &[u8]) -> Result<(Vec<Cell>, Cell), (u32, usize)> {
    let (laid, open) = (Vec::new(), vec![Vec::new()]);
    let mut reading = Reading { behind: Behind::Start, laid, open, begun: 0 };
    for (offset, &byte) in text.iter().enumerate() {
        reading.take(byte).map_err(|status| (status, offset))?;
    }
    if reading.open.len() > 1 || reading.behind == Behind::Space {
        return Err((23, text.len()));
    }
    reading.end_code();
    let register = reading.shut();
    Ok((reading.laid, register))
}

/// A cell with its ends so many cells higher.
fn raised(cell: Cell, by: usize) -> Cell {
    match cell {
        Cell::Bracket(l, r) => Cell::Bracket(l + by, r + by),
        other => other,
    }
}

/// Typing a register in: the text's cells from `top` upward and the register on them, or a refusal. All
/// but 16, which leaves the store collected, change nothing.
pub fn type_in(words: &mut [u32], top: usize, register: usize, text: &[u8]) -> Typed {
    let Reply { status, rule, value, .. } = check(words, top);
    if status != 0 {
        return Typed { status, rule, value: value as usize, top };
    }
    if register >= FIRST_HEAP_CELL {
        return Typed { status: 20, rule: 0, value: 0, top };
    }
    let (cells, around) = match read(text) {
        Ok(read) => read,
        Err((status, value)) => return Typed { status, rule: 0, value, top },
    };
    let mut top = top;
    if !room(words, &mut top, cells.len(), register, false) {
        return Typed { status: 16, rule: 0, value: 0, top };
    }
    for (c, &cell) in (top..).zip(&cells) {
        put(words, c, raised(cell, top));
    }
    put(words, register, raised(around, top));
    Typed { status: 0, rule: 0, value: 0, top: top + cells.len() }
}

/// A batch: each call's status and value go to `answers`, and zeros after them.
pub fn run(words: &mut [u32], top: usize, calls: &[u32], answers: &mut [u32]) -> Reply {
    let checked = check(words, top);
    if checked.status != 0 {
        return checked;
    }
    let reply = |status, top| Reply { status, rule: 0, value: 0, top };
    if calls.len() > MAX_CALL_WORDS || calls.len() % 4 != 0 {
        return reply(4, top);
    }
    if answers.len() < calls.len() / 4 * 2 {
        return reply(5, top);
    }
    answers.fill(0);
    let mut top = top;
    for (call, answer) in calls.chunks(4).zip(answers.chunks_mut(2)) {
        (answer[0], answer[1]) = step(words, &mut top, call);
    }
    reply(0, top)
}
