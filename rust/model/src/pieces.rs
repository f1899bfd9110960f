//! A text that comes in pieces, by the rules of the numbers that are kept of it.
//!
//! What a whole text comes to is for [`trees`](crate::trees) to say. Here any numbers are judged, those that no text
//! leaves too, one rule after the other.

use crate::plain::{is_code, MAX_DEPTH, MAX_TERMS};

/// What is kept of a text as far as it is read.
#[derive(Clone, Copy, Debug, PartialEq, Eq)]
pub struct State {
    /// 0 where a level has begun, 1 after a blank, 2 in a number, 3 after a closing bracket; or the status that
    /// refuses the text.
    pub stand: u32,
    /// The number so far, where `stand` is 2.
    pub code: u32,
    /// The bytes that are read.
    pub offset: usize,
    /// The brackets that are open.
    pub depth: usize,
    /// The terms begun on all levels.
    pub terms: usize,
    /// The terms begun in the innermost open expression.
    pub own: u32,
    /// The most terms of one expression at its own level so far.
    pub most: u32,
    /// For each open bracket, the outermost first, the terms begun around it, itself included.
    pub counts: [u32; MAX_DEPTH],
}

/// What a text answers at its end.
#[derive(Clone, Copy, Debug, PartialEq, Eq)]
pub struct Counted {
    /// 0, or the number of the refusal.
    pub status: u32,
    /// The offset named beside the status, or 0.
    pub value: usize,
    /// The terms on all levels; 0 where the text is refused.
    pub terms: usize,
    /// The most on one level; 0 where the text is refused.
    pub most: usize,
}

/// A text of which no byte has come.
pub const START: State = State {
    stand: 0,
    code: 0,
    offset: 0,
    depth: 0,
    terms: 0,
    own: 0,
    most: 0,
    counts: [0; MAX_DEPTH],
};

impl State {
    /// Which of the eight rules hold for numbers that go on, in order.
    pub fn rules(&self) -> [bool; 8] {
        let within = |count: u32| count as usize <= self.terms;
        // No more bytes than these can come before one more term begins, closing brackets aside: a blank, and in a
        // number the digits before it, each of which makes the number larger by one at least.
        let ahead = match self.stand {
            0 | 3 => 1,
            2 => (1u128 << 28).saturating_sub(u128::from(self.code)),
            _ => 0,
        };
        let [offset, depth, terms] = [self.offset, self.depth, self.terms].map(|n| n as u128);
        [
            self.stand <= 3,
            self.stand != 2 || self.code < 1 << 28,
            self.depth <= MAX_DEPTH,
            self.terms <= MAX_TERMS,
            within(self.own),
            within(self.most),
            self.counts.iter().take(self.depth).all(|&count| within(count)),
            offset + depth + ahead <= (terms << 28) + 1,
        ]
    }

    /// Whether the numbers go on: all others stay as they are, whatever comes.
    pub fn goes_on(&self) -> bool {
        self.rules().into_iter().all(|holds| holds)
    }

    /// The numbers after one byte more, where they go on.
    fn after(&self, byte: u8) -> State {
        let refused = |stand| State { stand, code: 0, ..*self };
        let passed = State { code: 0, offset: self.offset + 1, ..*self };
        let one_more = self.own + 1;
        let begun =
            State { terms: self.terms + 1, own: one_more, most: self.most.max(one_more), ..passed };
        let (may_begin, full) = (matches!(self.stand, 0 | 1), self.terms == MAX_TERMS);
        match byte {
            b'(' if may_begin && self.depth == MAX_DEPTH => refused(21),
            b'(' | b'0'..=b'9' if may_begin && full => refused(24),
            b'0' if may_begin => refused(13),
            b'1'..=b'9' if may_begin => State { stand: 2, code: u32::from(byte - b'0'), ..begun },
            b'(' if may_begin => {
                let mut opened = State { stand: 0, own: 0, depth: self.depth + 1, ..begun };
                opened.counts[self.depth] = one_more;
                opened
            }
            b'0'..=b'9' if self.stand == 2 => match 10 * self.code + u32::from(byte - b'0') {
                code if is_code(code) => State { code, ..passed },
                _ => refused(13),
            },
            b')' if matches!(self.stand, 0 | 2 | 3) && self.depth > 0 => {
                let depth = self.depth - 1;
                State { stand: 3, depth, own: self.counts[depth], ..passed }
            }
            b' ' if matches!(self.stand, 2 | 3) => State { stand: 1, ..passed },
            _ => refused(23),
        }
    }

    /// The numbers after a piece.
    pub fn feed(self, piece: &[u8]) -> State {
        if !self.goes_on() {
            return self;
        }
        let mut state = self;
        if state.stand != 2 {
            state.code = 0;
        }
        for &byte in piece {
            if state.stand <= 3 {
                state = state.after(byte);
            }
        }
        state
    }

    /// What is answered if the text ends here.
    pub fn end(&self) -> Counted {
        if self.goes_on() && self.stand != 1 && self.depth == 0 {
            let most = self.most as usize;
            return Counted { status: 0, value: 0, terms: self.terms, most };
        }
        let status = if [13, 21, 24].contains(&self.stand) { self.stand } else { 23 };
        Counted { status, value: self.offset, terms: 0, most: 0 }
    }
}
