//! Random stores, sound and damaged, with random lists and answer spaces.

use zelmotar_model::make::{self, Runs};
use zelmotar_model::plain::{put, Cell, FIRST_HEAP_CELL};
use zelmotar_model::random::Random;

use crate::case::Case;
use crate::tally::{Tally, BATCH_STATUSES, CALL_STATUSES, RULES};

/// A case on a store, with `count` calls and an answer space of some length.
fn case(random: &mut Random, (words, top): (Vec<u32>, usize), count: usize) -> Case {
    let calls = make::calls(random, count);
    let answers = make::answers(random, calls.len());
    let register = random.below(18);
    Case { words, top, calls, answers, register }
}

/// A store of a small capacity as a rule.
fn store(random: &mut Random) -> (Vec<u32>, usize) {
    let (capacity, runs) = (make::capacity(random), random.pick(&[Runs::Short, Runs::Any]));
    make::sound(random, capacity, runs)
}

#[test]
fn sound_stores() {
    let mut random = Random::of("sound stores in batches");
    let mut tally = Tally::default();
    for _ in 0..120_000 {
        let store = store(&mut random);
        let count = if random.one_in(500) { random.below(1025) } else { random.below(25) };
        tally.add(&case(&mut random, store, count).hold());
    }
    tally.print("sound stores");
    tally.assert_met(&[0, 5], &CALL_STATUSES, &[0, 20, 23]);
}

#[test]
fn damaged_stores_and_lists() {
    let mut random = Random::of("damaged stores in batches");
    let mut tally = Tally::default();
    for _ in 0..120_000 {
        let (mut words, mut top) = store(&mut random);
        if random.below(3) > 0 {
            make::damage(&mut random, &mut words, &mut top);
        }
        let count = random.below(10);
        let mut case = case(&mut random, (words, top), count);
        if random.one_in(3) {
            make::stretch(&mut random, &mut case.calls);
            case.answers = make::answers(&mut random, case.calls.len());
        }
        case.register = random.pick(&[case.register, 16, usize::MAX]);
        tally.add(&case.hold());
    }
    tally.print("damaged stores");
    tally.assert_met(&BATCH_STATUSES, &CALL_STATUSES, &[0, 1, 2, 3, 20, 23]);
    tally.assert_broken(&RULES, &[]);
}

#[test]
fn large_stores() {
    let mut random = Random::of("large stores in batches");
    let mut tally = Tally::default();
    for _ in 0..600 {
        let capacity = random.pick(&[4096, 4096, 4095, 2048, 1000]);
        // Long runs make each collection slow, so they come with few calls.
        let (runs, most) = random.pick(&[(Runs::Short, 1024), (Runs::Short, 100), (Runs::Any, 4)]);
        let mut store = make::sound(&mut random, capacity, runs);
        // A register over the whole heap keeps every cell, so that room runs out on a large store too.
        if store.1 > FIRST_HEAP_CELL && random.one_in(2) {
            put(&mut store.0, FIRST_HEAP_CELL - 1, Cell::Bracket(FIRST_HEAP_CELL, store.1 - 1));
        }
        if random.one_in(5) {
            make::damage(&mut random, &mut store.0, &mut store.1);
        }
        let count = random.within(most / 2..=most);
        tally.add(&case(&mut random, store, count).hold());
    }
    tally.print("large stores");
    tally.assert_met(&[0, 3], &CALL_STATUSES, &[3, 23]);
}
