//! Calls and texts on nearly full stores, where what a register holds makes room or does not.
//!
//! Nearly all of them make the library collect. Then the new cells just fit or just do not, beside the old
//! cells of register d, which is set, or in place of them. Where d is read too its old cells count; else only
//! those of them do that another register reaches as well.

use std::slice;

use zelmotar::raw;
use zelmotar_model::make;
use zelmotar_model::plain::{self, put, Cell, FIRST_HEAP_CELL};
use zelmotar_model::random::Random;

use crate::act::Act;
use crate::case::{answers_for, Case};
use crate::meaning;
use crate::tally::Rooms;
use crate::types::Type;

/// What is asked, in turn.
const ASKED: [&str; 4] = ["SYMBOL", "WRAP", "JOIN", "text"];

/// What comes of it. Where one name goes on from another, its cases are some of those of the other.
const AS_IT_IS: &str = "not collected";
const EMPTY: &str = "d is empty";
const BESIDE: &str = "done beside d's old cells";
const IN_PLACE: &str = "done in place of d's old cells";
const IN_PART: &str = "done in place of d's old cells, some of which stay";
const FULL: &str = "16 without d's old cells";
const FULL_IN_PART: &str = "16 without d's old cells, some of which would go";
const FULL_HELD: &str = "16 without d's old cells, which others hold";
const READ: &str = "16 with d's old cells, as d is read";
const READ_FULL: &str = "16 with d's old cells or without";
const SHARED: &str = "d's old cells are shared";

/// A store, and a call or a text for it.
#[derive(Debug)]
struct Ask {
    words: Vec<u32>,
    top: usize,
    act: Act,
    /// The registers that are read.
    read: Vec<usize>,
    /// The number of new cells.
    need: usize,
}

impl Ask {
    /// A nearly full store, and one of [`ASKED`].
    fn new(random: &mut Random, asked: usize) -> Ask {
        let capacity = make::capacity(random);
        if asked == 3 {
            let most = random.pick(&[1, 4, 12]);
            let (words, top, d, text) = make::tight_text(random, capacity, most);
            let need = plain::read(&text).expect("nothing in it is refused").0.len();
            return Ask { words, top, act: Act::Text(d, text), read: vec![], need };
        }
        let (words, top, call) = make::tight_call(random, capacity, asked as u32 + 2);
        // SYMBOL reads no register, WRAP one and JOIN two.
        let read = call[2..2 + asked].iter().map(|&word| word as usize).collect();
        let need = plain::need(&words, &call);
        Ask { words, top, act: Act::Call(call), read, need }
    }

    /// Asks library and model, and gives the status of both. It is what expressions with no addresses say too.
    fn hold(&self, random: &mut Random) -> u32 {
        let (words, top, register) = (self.words.clone(), self.top, self.act.sets());
        let status = match &self.act {
            Act::Call(call) => {
                // The answer space is a short text too.
                let text = random.pick(&["7", "1 2", "(3)", "() 4"]);
                let (calls, answers) = (call.to_vec(), answers_for(text.as_bytes(), 2));
                Case { words, top, calls, answers, register }.hold().statuses[0]
            }
            Act::Text(_, text) => Type { words, top, register, text: text.clone() }.hold().status,
        };
        let meant = meaning::compare(&self.words, top, slice::from_ref(&self.act));
        meant.unwrap_or_else(|difference| panic!("{difference}\n{self:?}"));
        status
    }

    /// Whether the new cells do not fit above `top`.
    fn collects(&self) -> bool {
        self.top + self.need > self.words.len() / 2
    }

    /// What came of it, said in the numbers of live cells.
    fn came(&self, status: u32) -> Vec<&'static str> {
        let d = self.act.sets();
        if !self.collects() {
            assert_eq!(status, 0, "{self:?}");
            return vec![AS_IT_IS];
        }
        // What any register reaches, what one beside d does, and what d does.
        let all = plain::live(&self.words, self.top);
        let others = plain::live_without(&self.words, self.top, d);
        let mut alone = self.words.clone();
        (0..FIRST_HEAP_CELL).filter(|&i| i != d).for_each(|i| put(&mut alone, i, Cell::Empty));
        let own = plain::live(&alone, self.top);

        let fits = |live: usize| FIRST_HEAP_CELL + live + self.need <= self.words.len() / 2;
        let reads_d = self.read.contains(&d);
        let counted = if reads_d { all } else { others };
        assert_eq!(status, if fits(counted) { 0 } else { 16 }, "{self:?}");
        if own == 0 {
            return vec![EMPTY];
        }
        let mut came = match (fits(all), fits(others), reads_d) {
            (true, ..) => vec![BESIDE],
            (false, true, true) => vec![READ],
            (false, false, true) => vec![READ_FULL],
            (false, true, false) => vec![IN_PLACE],
            (false, false, false) => vec![FULL],
        };
        let shares = own + others > all;
        came.extend(shares.then_some(SHARED));
        came.extend((came[0] == IN_PLACE && shares).then_some(IN_PART));
        came.extend((came[0] == FULL && others < all).then_some(FULL_IN_PART));
        came.extend((came[0] == FULL && fits(all - own)).then_some(FULL_HELD));
        came
    }

    /// What the library leaves, and the status, where some calls come before.
    fn after(&self, calls: &[[u32; 4]]) -> (Vec<u32>, usize, u32) {
        let (mut words, mut top) = (self.words.clone(), self.top);
        for &call in calls {
            let answer = Act::Call(call).ask(&mut words, &mut top).expect("the store is sound");
            assert_eq!(answer.0, 0);
        }
        let answer = self.act.ask(&mut words, &mut top).expect("the store is sound");
        (words, top, answer.0)
    }
}

#[test]
fn nearly_full_stores() {
    let mut random = Random::of("nearly full stores");
    let mut tally = Rooms::default();
    for round in 0..160_000 {
        let asked = round % ASKED.len();
        let ask = Ask::new(&mut random, asked);
        let status = ask.hold(&mut random);
        tally.add(ASKED[asked], &ask.came(status));
    }
    tally.print("nearly full stores");
    tally.assert_met(&ASKED, 40_000);
    tally.assert_met(&[AS_IT_IS, EMPTY, BESIDE, IN_PLACE, IN_PART, FULL], 2_000);
    tally.assert_met(&[FULL_IN_PART, FULL_HELD, READ, READ_FULL, SHARED], 2_000);
}

/// By the library alone: a call or a text without room leaves what a collection does. One with room leaves what
/// it does after a collection, and after d is cleared before that, unless d is read.
#[test]
fn what_is_left_in_nearly_full_stores() {
    const COLLECT: [u32; 4] = [11, 0, 0, 0];
    let mut random = Random::of("left in nearly full stores");
    let mut met = [0; 3];
    for round in 0..120_000 {
        let ask = Ask::new(&mut random, round % ASKED.len());
        let (words, top, status) = ask.after(&[]);
        let clear = [0, ask.act.sets() as u32, 0, 0];
        if status == 16 {
            let mut collected = ask.words.clone();
            let reply = raw::collect(&mut collected, ask.top);
            assert_eq!((reply.status, reply.top), (0, top), "{ask:?}");
            assert_eq!(words, collected, "{ask:?}");
            met[0] += 1;
        } else if !ask.collects() {
            // Cells stay where they are, whether they are dead or not.
            let heap = 2 * FIRST_HEAP_CELL..2 * ask.top;
            assert_eq!((words.len(), top), (ask.words.len(), ask.top + ask.need), "{ask:?}");
            assert_eq!(words[heap.clone()], ask.words[heap], "{ask:?}");
            met[1] += 1;
        } else {
            let before = match ask.read.contains(&ask.act.sets()) {
                true => vec![COLLECT],
                false => vec![clear, COLLECT],
            };
            assert_eq!((words, top, status), ask.after(&before), "{ask:?}");
            met[2] += 1;
        }
    }
    assert!(met.iter().all(|&count| count > 5_000), "{met:?}");
}
