//! Call for call, and text for text, against expressions with no addresses.
//!
//! Each call is a batch of its own, so that what the registers denote is seen after every one. The
//! numbers of live cells before a call or a text, in all and without the register that is set, are counted by
//! the model, from the words as the library left them.

use zelmotar_model::make::{self, Runs};
use zelmotar_model::plain;
use zelmotar_model::random::Random;
use zelmotar_model::trees::{Live, Trees};

use crate::act::{acts, Act};
use crate::case::Ran;
use crate::shrink::shrunk;
use crate::tally::{Tally, CALL_STATUSES};

/// What a call or a text means: its status and value.
fn meant(trees: &mut Trees, act: &Act, live: Live, capacity: usize) -> (u32, usize) {
    match act {
        Act::Call(call) => {
            let (status, value) = trees.step(*call, live, capacity);
            (status, value as usize)
        }
        Act::Text(register, text) => trees.type_in(*register, text, live, capacity),
    }
}

/// Asks one by one and says which differs from its meaning; else gives the statuses.
pub fn compare(words: &[u32], top: usize, acts: &[Act]) -> Result<Ran, String> {
    let (mut words, mut top) = (words.to_vec(), top);
    let mut trees = Trees::denoted_by(&words, top);
    let (mut statuses, mut texts) = (Vec::new(), Vec::new());
    for act in acts {
        let (all, others) =
            (plain::live(&words, top), plain::live_without(&words, top, act.sets()));
        let live = Live { all, others };
        let expected = meant(&mut trees, act, live, words.len() / 2);
        let answer = act.ask(&mut words, &mut top)?;
        if answer != expected {
            return Err(format!("{act:?}: answered {answer:?}, meant {expected:?} with {live:?}"));
        }
        if plain::check(&words, top).status != 0 {
            return Err(format!("{act:?}: the store is not sound afterwards"));
        }
        if trees.pool.denoted(&words, top) != trees.registers {
            return Err(format!("{act:?}: a register denotes something else afterwards"));
        }
        match act {
            Act::Call(_) => statuses.push(answer.0),
            Act::Text(..) => texts.push(answer),
        }
    }
    let (saved, loaded) = (None, None);
    Ok(Ran { status: 0, rule: 0, value: 0, statuses, freed: false, texts, saved, loaded })
}

#[test]
fn calls_and_texts_mean_what_trees_say() {
    let mut random = Random::of("meaning of calls");
    let mut tally = Tally::default();
    for _ in 0..25_000 {
        let capacity = make::capacity(&mut random);
        let (words, top) = make::sound(&mut random, capacity, Runs::Short);
        let count = random.below(25);
        let acts = acts(&mut random, count);
        tally.add(&compare(&words, top, &acts).unwrap_or_else(|_| {
            let small = shrunk(&acts, |acts| compare(&words, top, acts).is_err());
            let difference = compare(&words, top, &small).unwrap_err();
            panic!("{difference}\ncalls and texts {small:?}\ntop {top}\nwords {words:?}");
        }));
    }
    tally.print("meaning");
    tally.assert_met(&[0], &CALL_STATUSES, &[0, 13, 16, 20, 21, 23]);
}
