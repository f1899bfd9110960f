//! Calls run and texts typed in one by one, so that what each did to the store can be told.
//!
//! A store that is run call by call answers as it does when it is lent the whole list, which is
//! proved. So nothing is lost by looking in between.

use zelmotar::{raw, Refusal, Store};

use crate::call::Call;
use crate::cells;

/// What became of one call.
#[derive(Clone, Copy, Debug, PartialEq, Eq)]
pub struct Step {
    /// The status, 0 or 10 to 16.
    pub status: u32,
    /// The value.
    pub value: u32,
    /// Which cells went, if the store was collected.
    pub freed: Option<Freed>,
}

/// How many cells went in a collection, and why.
#[derive(Clone, Copy, Debug, PartialEq, Eq)]
pub struct Freed {
    /// Cells that were dead before.
    pub dead: usize,
    /// Cells that only the set register's old expression reached.
    pub old: usize,
}

/// A fresh store of some capacity.
///
/// # Errors
///
/// The status with which the library refuses it, and its value.
pub fn fresh(capacity: u32) -> Result<Store, (u32, u32)> {
    // One cell over the limit is refused as any greater capacity is, and can be allocated.
    let cells = (capacity as usize).min(zelmotar::MAX_CELLS + 1);
    let mut words = vec![0; 2 * cells];
    let reply = raw::fresh(&mut words);
    match reply.status {
        0 => Ok(Store::from_parts(words, reply.top)),
        status => Err((status, reply.value)),
    }
}

/// How the library takes a whole list of calls: its status and value. The store is as it was.
pub fn verdict(store: &Store, calls: &[u32]) -> (u32, u32) {
    let mut answers = vec![0; calls.len() / 2];
    let reply = raw::run(&mut store.words().to_vec(), store.top(), calls, &mut answers);
    (reply.status, reply.value)
}

/// Runs one call on a sound store.
///
/// A call collects exactly where it is COLLECT and done, or needs more cells than are free above
/// `top`; then it is done, or refused for room.
pub fn step(store: &mut Store, call: &Call) -> Step {
    let (before, need) = (Before::of(store), need(store, call));
    let mut answer = [0; 2];
    store.run_words(&call.words, &mut answer).expect("one call on a sound store is not refused");
    let [status, value] = answer;
    let asked = call.words[0] == 11 && status == 0;
    let forced = matches!(status, 0 | 16) && before.top + need > store.capacity();
    let laid = if status == 0 { need } else { 0 };
    let freed = (asked || forced).then(|| before.freed(store, laid));
    Step { status, value, freed }
}

/// Types a text into a register: what the library answers, and which cells went if the store was collected
/// for it.
///
/// A text collects exactly where nothing but room may refuse it and it needs more cells than are free above
/// `top`.
pub fn type_in(
    store: &mut Store,
    register: usize,
    text: &[u8],
) -> (Result<(), Refusal>, Option<Freed>) {
    let (before, need) = (Before::of(store), terms(text));
    let answer = store.type_in(register, text);
    let (done, full) = (answer.is_ok(), answer == Err(Refusal::NoRoom));
    let laid = if done { need } else { 0 };
    let forced = (done || full) && before.top + need > store.capacity();
    (answer, forced.then(|| before.freed(store, laid)))
}

/// A sound store before something is done to it.
struct Before {
    top: usize,
    dead: usize,
}

impl Before {
    fn of(store: &Store) -> Before {
        let dead = cells::reached(store).iter().filter(|&&is_reached| !is_reached).count();
        Before { top: store.top(), dead }
    }

    /// Which cells went in the collection, if so many were laid after it. What went is what `top` lacks now,
    /// and the dead cells are among it.
    fn freed(&self, store: &Store, laid: usize) -> Freed {
        Freed { dead: self.dead, old: self.top + laid - store.top() - self.dead }
    }
}

/// The number of terms of an expression's text on all levels, and so of the new cells that it needs: one for
/// each bracket that opens, and one wherever digits begin.
pub fn terms(text: &[u8]) -> usize {
    let brackets = text.iter().filter(|&&byte| byte == b'(').count();
    let codes = text.chunk_by(|one, next| one.is_ascii_digit() == next.is_ascii_digit());
    brackets + codes.filter(|part| part[0].is_ascii_digit()).count()
}

/// How many new cells a call needs if nothing else is wrong with it.
fn need(store: &Store, call: &Call) -> usize {
    let length = |register: u32| store.look(register as usize).len();
    match call.words {
        [2 | 3, ..] => 1,
        [4, _, a, b] if length(a) > 0 && length(b) > 0 => length(a) + length(b),
        _ => 0,
    }
}

#[cfg(test)]
mod tests {
    use super::*;
    use crate::batch::Batch;
    use zelmotar_model::{make, random::Random};

    /// The call whose four words these are.
    fn call(words: [u32; 4]) -> Call {
        let numbers = words.map(|word| word.to_string());
        Call::read(b"CALL", &numbers.each_ref().map(|number| number.as_bytes())).unwrap()
    }

    /// A sound store. Half of them have no dead cell, and two free ones at most.
    fn made(random: &mut Random) -> Store {
        let capacity = make::capacity(random);
        let (words, top) = make::sound(random, capacity, make::Runs::Short);
        let store = Store::from_parts(words, top);
        if random.one_in(2) {
            return store;
        }
        let (mut words, top) = collected(&store).0.into_parts();
        words.truncate(2 * (top + random.below(3)));
        Store::from_parts(words, top)
    }

    /// The store after a collection, and how many cells went.
    fn collected(store: &Store) -> (Store, usize) {
        let mut after = store.clone();
        after.collect().unwrap();
        let freed = store.top() - after.top();
        (after, freed)
    }

    /// The store with register `d` empty.
    fn without(store: &Store, d: u32) -> Store {
        let (mut words, top) = store.clone().into_parts();
        words[2 * d as usize..][..2].copy_from_slice(&[0, 1 << 31]);
        Store::from_parts(words, top)
    }

    /// The store that is collected for a call if it is then done: what `d` holds goes, unless the call reads
    /// it.
    fn sought(store: &Store, call: &Call) -> Store {
        match call.words {
            [2, d, ..] => without(store, d),
            [3, d, a, _] if a != d => without(store, d),
            [4, d, a, b] if a != d && b != d => without(store, d),
            _ => store.clone(),
        }
    }

    /// Which of five things was told: not collected, or collected and which cells went, none of them, the
    /// dead, the old expression's, or both.
    fn kind(freed: Option<Freed>) -> usize {
        match freed.map(|Freed { dead, old }| (dead > 0, old > 0)) {
            None => 0,
            Some((false, false)) => 1,
            Some((true, false)) => 2,
            Some((false, true)) => 3,
            Some((true, true)) => 4,
        }
    }

    #[test]
    fn the_first_example_is_collected_twice() {
        let text =
            std::fs::read(concat!(env!("CARGO_MANIFEST_DIR"), "/../../examples/first.batch"))
                .unwrap();
        let batch = Batch::read(&text).unwrap();
        let mut store = fresh(batch.capacity).unwrap();
        let steps: Vec<Step> = batch.calls.iter().map(|call| step(&mut store, call)).collect();
        let freed: Vec<_> = steps.iter().map(|step| step.freed).collect();
        let told = |dead| Some(Freed { dead, old: 0 });
        assert_eq!(freed, [None, None, None, told(0), None, None, told(2), None, None]);
        assert_eq!((steps[8].status, steps[8].value, store.top()), (0, 3, 19));
    }

    #[test]
    fn what_is_said_of_collecting_is_what_the_words_show() {
        let mut random = Random::of("steps");
        let mut seen = [0; 5];
        for _ in 0..60_000 {
            let before = made(&mut random);
            let top = before.top();
            let call = call(make::call(&mut random));
            let mut after = before.clone();
            let told = step(&mut after, &call);
            seen[kind(told.freed)] += 1;
            let Some(freed) = told.freed else {
                // not collected: no occupied cell has moved or gone
                assert_eq!(before.words()[32..2 * top], after.words()[32..2 * top], "{call}");
                continue;
            };
            // collected: as if a collection had come just before the call
            let dead = collected(&before).1;
            let full = told.status == 16;
            let (mut packed, gone) = collected(&if full { before } else { sought(&before, &call) });
            let again = step(&mut packed, &call);
            assert_eq!((again.status, again.value), (told.status, told.value), "{call}");
            assert_eq!((&packed, freed), (&after, Freed { dead, old: gone - dead }), "{call}");
        }
        assert!(seen.iter().all(|&count| count > 100), "{seen:?}");
    }

    #[test]
    fn what_is_said_of_collecting_for_a_text_is_what_the_words_show() {
        let mut random = Random::of("texts in steps");
        let mut seen = [[0; 5]; 2];
        for _ in 0..20_000 {
            let (text, (mut words, top)) =
                (make::text(&mut random), made(&mut random).into_parts());
            make::crowd(&mut random, &mut words, top, terms(&text));
            let before = Store::from_parts(words, top);
            let mut after = before.clone();
            let (answer, told) = type_in(&mut after, 0, &text);
            seen[usize::from(answer.is_err())][kind(told)] += 1;
            let Some(freed) = told else {
                assert_eq!(before.words()[32..2 * top], after.words()[32..2 * top]);
                continue;
            };
            let (kept, dead) = collected(&before);
            let (packed, gone) = collected(&without(&before, 0));
            match answer {
                Ok(()) => {
                    let live = 2 * packed.top();
                    assert_eq!(packed.words()[32..live], after.words()[32..live]);
                    assert_eq!(freed, Freed { dead, old: gone - dead });
                    assert_eq!(after.top(), packed.top() + terms(&text));
                }
                refused => {
                    assert_eq!((refused, &kept), (Err(Refusal::NoRoom), &after));
                    assert_eq!(freed, Freed { dead, old: 0 });
                }
            }
        }
        // A collection in which nothing goes makes no room, and what a register holds goes only if there is.
        let [done, refused] = seen;
        assert!([0, 2, 3, 4].iter().all(|&kind| done[kind] > 100) && done[1] == 0, "{seen:?}");
        assert!(refused[..3].iter().all(|&count| count > 100), "{seen:?}");
        assert_eq!(refused[3..], [0, 0]);
    }

    #[test]
    fn the_terms_of_a_text_are_counted_on_all_levels() {
        for (text, count) in [("", 0), ("7", 1), ("()", 1), ("1 (2 (3) 4) 5 ()", 8), ("10 20", 2)] {
            assert_eq!(terms(text.as_bytes()), count, "{text}");
        }
    }

    #[test]
    fn no_store_of_another_capacity_and_no_list_too_long() {
        for capacity in [0, 15, 4097, u32::MAX] {
            assert_eq!(fresh(capacity), Err((1, 0)));
        }
        let store = fresh(16).unwrap();
        assert_eq!(verdict(&store, &[0; 4096]), (0, 0));
        assert_eq!(verdict(&store, &[0; 4100]), (4, 0));
    }
}
