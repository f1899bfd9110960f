//! Texts of any letters, texts cut into pieces, and what may be kept of a text that comes so.

use crate::pieces::{State, START};
use crate::plain::{MAX_CODE, MAX_DEPTH, MAX_TERMS};
use crate::random::Random;

/// How a text is cut.
#[derive(Clone, Copy, Debug, PartialEq, Eq)]
pub enum Cut {
    /// Not at all.
    Whole,
    /// Before every byte.
    Bytes,
    /// At a few places, some of them the same, so that there are empty pieces.
    Anywhere,
    /// Into many short pieces, empty ones among them.
    Short,
}

impl Cut {
    /// Every way.
    pub const ALL: [Cut; 4] = [Cut::Whole, Cut::Bytes, Cut::Anywhere, Cut::Short];

    /// What it is called.
    pub fn name(self) -> &'static str {
        match self {
            Cut::Whole => "whole",
            Cut::Bytes => "byte by byte",
            Cut::Anywhere => "cut anywhere",
            Cut::Short => "cut short",
        }
    }

    /// The pieces of a text.
    pub fn pieces<'a>(self, random: &mut Random, text: &'a [u8]) -> Vec<&'a [u8]> {
        let mut places: Vec<usize> = match self {
            Cut::Whole => Vec::new(),
            Cut::Bytes => (1..text.len()).collect(),
            Cut::Anywhere => (0..=random.below(5)).map(|_| random.below(text.len() + 1)).collect(),
            Cut::Short => (0..=text.len()).flat_map(|at| vec![at; random.below(3)]).collect(),
        };
        places.sort_unstable();
        places.push(text.len());
        let starts = std::iter::once(0).chain(places.iter().copied());
        starts.zip(&places).map(|(from, &to)| &text[from..to]).collect()
    }
}

/// Bytes of those that stand in texts, and one that does not.
pub fn letters(random: &mut Random, most: usize) -> Vec<u8> {
    (0..random.below(most + 1)).map(|_| random.pick(b"0123456789() x")).collect()
}

/// A text of about as many terms as may be, in brackets that are often as many as may be open. What comes last is
/// likely to be refused, for the term that it begins or for something else.
pub fn long(random: &mut Random) -> Vec<u8> {
    let open = random.pick(&[0, 1, 62, 63, 64]);
    let terms: &[(&str, usize)] = match open {
        64 => &[("7", 1), ("268435455", 1), ("10", 1)],
        63 => &[("7", 1), ("()", 1), ("(8)", 2), ("(1 2 3)", 4)],
        _ => &[("7", 1), ("(())", 2), ("()", 1), ("(8 (9) 10)", 5)],
    };
    let mut left = MAX_TERMS - open - random.below(3);
    let mut text = b"(".repeat(open);
    while left > 0 {
        let (term, count) = random.pick(terms);
        if count <= left {
            text.extend(term.bytes());
            text.push(b' ');
            left -= count;
        }
    }
    let last =
        random.pick(&["", "1", "0", "1 0", "(", "()", "1 ()", "1 (", "268435456", "x", ")", " 1"]);
    text.extend(last.bytes());
    if last.is_empty() {
        text.pop();
    }
    text.extend(b")".repeat(open));
    text
}

/// Bytes that go on from somewhere in a text: those of texts and blanks, digits and brackets in a row.
pub fn further(random: &mut Random) -> Vec<u8> {
    let mut bytes = match random.below(4) {
        0 => super::text(random),
        1 => b"(".repeat(random.pick(&[1, 2, 63, 64, 65])),
        2 => b")".repeat(random.pick(&[1, 2, 63, 64, 65])),
        _ => letters(random, 12),
    };
    if random.one_in(2) {
        bytes.insert(0, random.pick(b"01289 ()"));
    }
    bytes
}

/// What is kept of some text as far as it is read.
pub fn met(random: &mut Random) -> State {
    let mut text = super::text(random);
    super::cut_text(random, &mut text);
    START.feed(&text)
}

/// The largest offset with which these numbers go on, if there is one.
fn farthest(state: &State) -> Option<usize> {
    let ahead = match state.stand {
        1 => 0,
        2 => (MAX_CODE as usize + 1).checked_sub(state.code as usize)?,
        _ => 1,
    };
    let all = state.terms.checked_mul(MAX_CODE as usize + 1)?.checked_add(1)?;
    all.checked_sub(state.depth)?.checked_sub(ahead)
}

/// A number up to `most`, often one of the least or of the largest.
fn up_to(random: &mut Random, most: usize) -> usize {
    match random.below(6) {
        0 => 0,
        1 => most.min(1),
        2 => most.saturating_sub(1),
        3 => most,
        _ => random.within(0..=most),
    }
}

/// Numbers that a text may have left or not, most of which go on: each of them is within its limits, and often at
/// one.
pub fn within(random: &mut Random) -> State {
    let stand = random.pick(&[0, 1, 2, 2, 3]);
    let code = match stand {
        // Where one digit more just fits, or just does not.
        2 => random.pick(&[0, 1, 9, 26_843_544, 26_843_545, 26_843_546, MAX_CODE]),
        _ => random.pick(&[0, 0, 7, MAX_CODE, MAX_CODE + 1, u32::MAX]),
    };
    let depth = up_to(random, MAX_DEPTH);
    let terms = up_to(random, MAX_TERMS);
    let [own, most] = [(); 2].map(|()| up_to(random, terms) as u32);
    let mut state =
        State { stand, code, offset: 0, depth, terms, own, most, counts: [0; MAX_DEPTH] };
    for (i, count) in state.counts.iter_mut().enumerate() {
        // What is behind those of the open brackets may be anything.
        *count = if i < depth { up_to(random, terms) as u32 } else { random.word() };
    }
    state.offset = up_to(random, farthest(&state).unwrap_or(0));
    state
}

/// Takes one of the numbers over its limit, as a rule by one; or anywhere.
pub fn spoil(random: &mut Random, state: &mut State) {
    let over = (state.terms as u32).wrapping_add(1);
    let count = random.pick(&[over, over, u32::MAX]);
    match random.below(8) {
        0 => state.stand = random.pick(&[4, 5, 13, 21, 22, 23, 24, 25, u32::MAX]),
        1 => (state.stand, state.code) = (2, random.pick(&[MAX_CODE + 1, u32::MAX])),
        2 => state.depth = random.pick(&[MAX_DEPTH + 1, MAX_DEPTH + 1, usize::MAX]),
        3 => state.terms = random.pick(&[MAX_TERMS + 1, MAX_TERMS + 1, usize::MAX]),
        4 => state.own = count,
        5 => state.most = count,
        6 if (1..=MAX_DEPTH).contains(&state.depth) => {
            state.counts[random.below(state.depth)] = count;
        }
        _ => {
            let next = farthest(state).map_or(0, |offset| offset + 1);
            state.offset = random.pick(&[next, next, next, usize::MAX]);
        }
    }
}

/// Any numbers: those that a text left, those that it may have left, and those with one or more over their limits.
pub fn state(random: &mut Random) -> State {
    let mut state = if random.one_in(3) { met(random) } else { within(random) };
    if random.one_in(2) {
        (0..=random.below(4) / 3).for_each(|_| spoil(random, &mut state));
    }
    state
}
