//! Raw bytes as store, calls, answer space, text and file.
//!
//! Byte strings are changed at random and read as a case; one that shows something new is kept and
//! changed further. 100,000 strings are tried, or as many as fit in `ZELMOTAR_FUZZ_SECONDS`.
//!
//! A string has a head of 12 bytes, little-endian: the number of store words, of call words and of
//! answer words (two bytes each), the register (two bytes) and `top` (four bytes). Then come the
//! words themselves, four bytes each, in the same order. What is missing at the end is zero.

use std::collections::HashSet;
use std::env;
use std::time::{Duration, Instant};

use zelmotar_model::make::files::{file, trailer_word, Kind};
use zelmotar_model::make::{self, Runs};
use zelmotar_model::plain;
use zelmotar_model::random::Random;

use crate::case::{answers_for, Case, Ran, Told};
use crate::tally::{
    Tally, BATCH_STATUSES, CALL_STATUSES, FILE_RULES, LOAD_STATUSES, RULES, SAVE_STATUSES,
    TYPE_STATUSES,
};

const HEAD: usize = 12;
const USUAL_COUNT: usize = 100_000;
/// Lengths are cut to this many words, a little more than any that passes.
const MOST_WORDS: usize = 8_400;
/// Strings that are kept to be changed further.
const MOST_KEPT: usize = 500;

/// Reads little-endian numbers; zeros follow the last byte.
struct Reader<'a>(&'a [u8]);

impl Reader<'_> {
    fn number(&mut self, width: usize) -> usize {
        let (here, after) = self.0.split_at(width.min(self.0.len()));
        self.0 = after;
        here.iter().rev().fold(0, |number, &byte| number << 8 | usize::from(byte))
    }

    fn words(&mut self, count: usize) -> Vec<u32> {
        (0..count.min(MOST_WORDS)).map(|_| self.number(4) as u32).collect()
    }
}

/// The case that a byte string says.
fn read(bytes: &[u8]) -> Case {
    let mut reader = Reader(bytes);
    let [words, calls, answers, register] = [2; 4].map(|width| reader.number(width));
    let top = match reader.number(4) {
        0xffff_ffff => usize::MAX,
        top => top,
    };
    let words = reader.words(words);
    let calls = reader.words(calls);
    let answers = reader.words(answers);
    Case { words, top, calls, answers, register }
}

/// The byte string that says a case.
fn write(case: &Case) -> Vec<u8> {
    let lengths = [case.words.len(), case.calls.len(), case.answers.len(), case.register];
    let head = lengths.iter().flat_map(|&number| (number as u16).to_le_bytes());
    let words = [&case.words, &case.calls, &case.answers].into_iter().flatten();
    head.chain((case.top as u32).to_le_bytes())
        .chain(words.flat_map(|word| word.to_le_bytes()))
        .collect()
}

/// A case to start from. The answer space is a text or, one time in three, a file for as many words.
fn seed(random: &mut Random) -> Case {
    let (capacity, runs) = (random.within(16..=30), random.pick(&[Runs::Short, Runs::Any]));
    let (mut words, mut top) = make::sound(random, capacity, runs);
    let count = random.below(12);
    let calls = make::calls(random, count);
    let space = calls.len() / 2 + random.below(3);
    let mut answers = answers_for(&make::text(random), space);
    if random.one_in(3) {
        let kind = random.pick(&[Kind::Good, Kind::Uncollected]);
        let file = file(random, capacity, kind);
        words = vec![0; 2 * trailer_word(&file, 2).expect("it has a trailer") as usize];
        top = plain::fresh(&mut words).top;
        answers = Reader(&file).words(file.len() / 4);
    }
    Case { words, top, calls, answers, register: random.below(17) }
}

/// One random change of a byte string.
fn change(random: &mut Random, bytes: &mut Vec<u8>, other: &[u8]) {
    if bytes.len() < HEAD {
        bytes.resize(HEAD, 0);
    }
    let at = random.below(bytes.len());
    match random.below(9) {
        0 | 1 => bytes[at] ^= 1 << random.below(8),
        2 => bytes[at] = random.pick(&[0, 1, 15, 16, 17, 0x7f, 0x80, 0xff]),
        3 => bytes[at] = bytes[at].wrapping_add(random.pick(&[1, 255])),
        4 => bytes[random.below(HEAD)] = random.word() as u8,
        5 => bytes.truncate(at.max(HEAD)),
        6 => copy_within(random, bytes),
        7 => splice(random, bytes, other),
        _ => bytes.extend((0..16).map(|_| random.below(17) as u8)),
    }
}

/// Copies a word, a cell or a call over another place.
fn copy_within(random: &mut Random, bytes: &mut [u8]) {
    let width = random.pick(&[4, 8, 16]);
    if bytes.len() < HEAD + width {
        return;
    }
    let places = (bytes.len() - HEAD - width) / 4 + 1;
    let (from, to) = (HEAD + 4 * random.below(places), HEAD + 4 * random.below(places));
    bytes.copy_within(from..from + width, to);
}

/// Takes the tail of another string from some place on.
fn splice(random: &mut Random, bytes: &mut Vec<u8>, other: &[u8]) {
    let at = HEAD + 4 * random.below(bytes.len().min(other.len()).saturating_sub(HEAD) / 4 + 1);
    if at <= other.len() && at <= bytes.len() {
        bytes.truncate(at);
        bytes.extend(&other[at..]);
    }
}

/// What is new about a case: its status, rule and value, the set of its calls' statuses, and
/// whether a collection freed cells.
fn shown(ran: &Ran) -> (Told, u32, bool) {
    let set = ran.statuses.iter().fold(0, |set, status| set | 1 << status);
    ((ran.status, ran.rule, ran.value), set, ran.freed)
}

/// Whether to go on, by count or by time.
fn clock() -> impl Fn(usize) -> bool {
    let seconds = env::var("ZELMOTAR_FUZZ_SECONDS").ok();
    let seconds =
        seconds.map(|text| text.parse().expect("ZELMOTAR_FUZZ_SECONDS is a whole number"));
    let (start, limit) = (Instant::now(), seconds.map(Duration::from_secs));
    move |done| match limit {
        Some(limit) => start.elapsed() < limit,
        None => done < USUAL_COUNT,
    }
}

#[test]
fn changed_byte_strings() {
    let mut random = Random::of("byte strings");
    let mut kept: Vec<Vec<u8>> = (0..40).map(|_| write(&seed(&mut random))).collect();
    let (mut seen, mut tally, go_on) = (HashSet::new(), Tally::default(), clock());
    // How far a text is read, and what is answered of files, are told apart from the rest: all at once would
    // be new too often.
    let (mut read_so_far, mut filed_so_far) = (HashSet::new(), HashSet::new());
    let mut done = 0;
    while go_on(done) {
        let mut bytes = kept[random.below(kept.len())].clone();
        let other = kept[random.below(kept.len())].clone();
        (0..=random.below(4)).for_each(|_| change(&mut random, &mut bytes, &other));
        let ran = read(&bytes).hold();
        let is_new = seen.insert(shown(&ran))
            | read_so_far.insert(ran.texts.clone())
            | filed_so_far.insert((ran.saved, ran.loaded));
        if is_new && kept.len() < MOST_KEPT {
            kept.push(bytes);
        }
        tally.add(&ran);
        done += 1;
    }
    tally.print("byte strings");
    tally.assert_met(&BATCH_STATUSES, &CALL_STATUSES, &TYPE_STATUSES);
    tally.assert_met_in_files(&SAVE_STATUSES, &LOAD_STATUSES);
    tally.assert_broken(&RULES, &FILE_RULES);
}

#[test]
fn reading_undoes_writing() {
    let mut random = Random::of("writing");
    for _ in 0..1_000 {
        let case = seed(&mut random);
        assert_eq!(format!("{:?}", read(&write(&case))), format!("{case:?}"));
    }
}
