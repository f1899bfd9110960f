//! Stores that differ in dead cells, collections and cuts between batches only.
//!
//! Such stores are alike: no answer but COLLECT's tells them apart, be it to a call or to a text that is
//! typed in, and once each is collected they are the same words with the same `top`. The library alone is
//! run here; the model only makes the stores.

use zelmotar::raw;
use zelmotar_model::make::{self, Runs};
use zelmotar_model::plain::{self, Cell, FIRST_HEAP_CELL};
use zelmotar_model::random::Random;

use crate::act::{acts, Act};
use crate::case::Ran;
use crate::shrink::shrunk;
use crate::tally::{Tally, CALL_STATUSES};

/// The well-formed call that may be put in anywhere.
const COLLECT: [u32; 4] = [11, 0, 0, 0];

/// Words and `top`.
type Lent = (Vec<u32>, usize);

/// What precedes a call or a text in one of the two stores.
#[derive(Clone, Copy, Debug)]
struct Before {
    collections: usize,
    cut: bool,
}

/// A call or a text, and what precedes it in either store.
#[derive(Clone, Debug)]
struct Turn {
    act: Act,
    before: [Before; 2],
}

/// What one store is asked at once: a batch, or a text.
enum Request<'a> {
    Batch(Vec<u32>),
    Text(&'a Act),
}

/// What a call or a text is answered: the status and the value.
type Told = (u32, usize);

/// The addresses before which a cell can be put into a collected store without lying in a run.
fn gaps(words: &[u32], top: usize) -> Vec<usize> {
    let mut torn = vec![false; top + 1];
    for cell in words[..2 * top].chunks(2) {
        if let Some(Cell::Bracket(l, r)) = Cell::read(cell[0], cell[1]) {
            torn[l + 1..=r].fill(true);
        }
    }
    (FIRST_HEAP_CELL..=top).filter(|&c| !torn[c]).collect()
}

/// A store alike to a collected one, with dead cells put in at random.
fn padded(random: &mut Random, words: &[u32], top: usize) -> Lent {
    let (gaps, spare) = (gaps(words, top), words.len() / 2 - top);
    let mut dead = vec![0; top + 1];
    for _ in 0..random.below(spare + 1) {
        dead[random.pick(&gaps)] += 1;
    }
    let place = |c: usize| c + dead[..=c].iter().sum::<usize>();
    let mut padded = vec![0; words.len()];
    for c in 0..top {
        let cell = match Cell::read(words[2 * c], words[2 * c + 1]) {
            Some(Cell::Bracket(l, r)) => Cell::Bracket(place(l), place(r)),
            other => other.expect("the store is sound"),
        };
        plain::put(&mut padded, place(c), cell);
    }
    for address in gaps.iter().flat_map(|&c| place(c) - dead[c]..place(c)) {
        let cell = make::heap_cell(random, address, Runs::Any);
        plain::put(&mut padded, address, cell);
    }
    let top = place(top);
    (padded, top)
}

/// Two alike stores.
fn pair(random: &mut Random) -> [Lent; 2] {
    let (capacity, runs) = (make::capacity(random), random.pick(&[Runs::Short, Runs::Any]));
    let lent = make::sound(random, capacity, runs);
    let mut collected = lent.0.clone();
    let top = plain::collect(&mut collected, lent.1).top;
    let other = padded(random, &collected, top);
    match random.below(3) {
        0 => [padded(random, &collected, top), other],
        1 => [(collected, top), other],
        _ => [lent, other],
    }
}

/// What precedes a call or a text, at random.
fn before(random: &mut Random) -> Before {
    Before {
        collections: if random.one_in(4) { random.within(1..=2) } else { 0 },
        cut: random.one_in(5),
    }
}

/// Calls and texts with collections and cuts put in at random.
fn turns(random: &mut Random) -> Vec<Turn> {
    let count = random.below(30);
    let acts = acts(random, count).into_iter().filter(|act| *act != Act::Call(COLLECT));
    acts.map(|act| Turn { act, before: [before(random), before(random)] }).collect()
}

/// What one store is to be asked. A text ends the batch before it.
fn requests(turns: &[Turn], side: usize) -> Vec<Request<'_>> {
    let (mut requests, mut batch) = (Vec::new(), Vec::new());
    for turn in turns {
        let Before { collections, cut } = turn.before[side];
        if cut {
            requests.push(Request::Batch(std::mem::take(&mut batch)));
        }
        (0..collections).for_each(|_| batch.extend(COLLECT));
        match &turn.act {
            Act::Call(call) => batch.extend(call),
            text => {
                requests.push(Request::Batch(std::mem::take(&mut batch)));
                requests.push(Request::Text(text));
            }
        }
    }
    requests.push(Request::Batch(batch));
    requests
}

/// Runs one store, then collects it: all answers but COLLECT's, the words and `top`.
fn outcome((words, top): &Lent, turns: &[Turn], side: usize) -> Result<(Vec<Told>, Lent), String> {
    let (mut words, mut top) = (words.clone(), *top);
    let mut told = Vec::new();
    for request in requests(turns, side) {
        let batch = match request {
            Request::Batch(batch) => batch,
            Request::Text(text) => {
                told.push(text.ask(&mut words, &mut top)?);
                continue;
            }
        };
        let mut answers = vec![7; batch.len() / 2];
        let reply = raw::run(&mut words, top, &batch, &mut answers);
        if reply.status != 0 {
            return Err(format!("a batch of store {side} is refused: {reply:?}"));
        }
        top = reply.top;
        let calls = batch.chunks(4).zip(answers.chunks(2)).filter(|(call, _)| *call != COLLECT);
        told.extend(calls.map(|(_, answer)| (answer[0], answer[1] as usize)));
    }
    top = raw::collect(&mut words, top).top;
    Ok((told, (words, top)))
}

/// Says how the two stores come to differ; else gives what the calls and the texts are answered.
fn compare(stores: &[Lent; 2], turns: &[Turn]) -> Result<Ran, String> {
    let first = outcome(&stores[0], turns, 0)?;
    let second = outcome(&stores[1], turns, 1)?;
    if first.0 != second.0 {
        return Err(format!("answers {:?} and {:?}", first.0, second.0));
    }
    if first.1 != second.1 {
        return Err(format!("collected stores {:?} and {:?}", first.1, second.1));
    }
    let told = turns.iter().zip(&first.0);
    let (calls, texts): (Vec<_>, Vec<_>) =
        told.partition(|(turn, _)| matches!(turn.act, Act::Call(_)));
    Ok(Ran {
        status: 0,
        rule: 0,
        value: 0,
        statuses: calls.iter().map(|(_, answer)| answer.0).collect(),
        freed: false,
        texts: texts.iter().map(|(_, &answer)| answer).collect(),
        saved: None,
        loaded: None,
    })
}

#[test]
fn alike_stores_cannot_be_told_apart() {
    let mut random = Random::of("alike stores");
    let mut tally = Tally::default();
    for _ in 0..40_000 {
        let stores = pair(&mut random);
        let turns = turns(&mut random);
        let ran = compare(&stores, &turns).unwrap_or_else(|_| {
            let small = shrunk(&turns, |turns| compare(&stores, turns).is_err());
            let difference = compare(&stores, &small).unwrap_err();
            panic!("{difference}\nstores {stores:?}\nturns {small:?}");
        });
        tally.add(&ran);
    }
    tally.print("alike pairs");
    tally.assert_met(&[0], &CALL_STATUSES, &[0, 13, 16, 20, 21, 23]);
}

#[test]
fn padded_stores_are_sound_and_collect_to_the_same() {
    let mut random = Random::of("padding");
    for _ in 0..5_000 {
        let stores = pair(&mut random);
        let collected = stores.map(|(mut words, top)| {
            let reply = plain::collect(&mut words, top);
            assert_eq!(reply.status, 0, "{reply:?} {words:?}");
            (words, reply.top)
        });
        assert_eq!(collected[0], collected[1]);
    }
}
