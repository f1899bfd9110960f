//! Code 0, which no symbol has: in a call, in a text, in a cell and in a file. What is answered is said here too,
//! apart from the model.

use zelmotar_model::make::files::collected;
use zelmotar_model::make::{self, Runs};
use zelmotar_model::plain::{self, Reply, FIRST_HEAP_CELL};
use zelmotar_model::random::Random;
use zelmotar_model::{files, trees};

use crate::case::{compare_load, Case};
use crate::types::Type;

/// A sound store with a heap cell at least.
fn store(random: &mut Random) -> (Vec<u32>, usize) {
    loop {
        let capacity = make::capacity(random);
        let runs = random.pick(&[Runs::Short, Runs::Recent, Runs::Any]);
        let (words, top) = make::sound(random, capacity, runs);
        if FIRST_HEAP_CELL < top {
            return (words, top);
        }
    }
}

/// The lowest occupied heap cell of zeros.
fn lowest_wiped(words: &[u32], top: usize) -> usize {
    let wiped = |&c: &usize| words[2 * c..2 * c + 2] == [0, 0];
    (FIRST_HEAP_CELL..top).find(wiped).expect("a cell was wiped")
}

#[test]
fn wiped_cells_are_damaged() {
    let mut random = Random::of("wiped cells");
    for _ in 0..20_000 {
        let (mut words, top) = store(&mut random);
        (0..=random.below(3)).for_each(|_| make::wipe(&mut random, &mut words, top));
        let c = lowest_wiped(&words, top);
        let calls = make::calls(&mut random, 3);
        let answers = (0..6).map(|_| random.word()).collect();
        // The case compares every function, so all of them refuse as the batch, the text and the save do.
        let ran = Case { words, top, calls, answers, register: random.below(16) }.hold();
        let told = (3, 4, c as u32);
        assert_eq!((ran.status, ran.rule, ran.value), told);
        assert_eq!((ran.texts, ran.saved), (vec![(3, c)], Some(told)));
    }
}

#[test]
fn free_cells_are_zeros() {
    let mut random = Random::of("free cells");
    let mut met = 0;
    for _ in 0..20_000 {
        let (words, top) = store(&mut random);
        if 2 * top < words.len() {
            // The same words with a higher `top`: the first free cell would be a symbol of code 0.
            let higher = random.within(top + 1..=words.len() / 2);
            let (sound, wiped) = (plain::check(&words, top), plain::check(&words, higher));
            assert_eq!(sound, Reply { status: 0, rule: 0, value: 0, top });
            assert_eq!(wiped, Reply { status: 3, rule: 4, value: top as u32, top: higher });
            let case = |top| Case {
                words: words.clone(),
                top,
                calls: Vec::new(),
                answers: Vec::new(),
                register: 0,
            };
            assert_eq!((case(top).hold().status, case(higher).hold().status), (0, 3));
            met += 1;
        }
    }
    assert!(met > 5_000, "{met}");
}

#[test]
fn no_call_makes_a_symbol_of_code_zero() {
    let mut random = Random::of("SYMBOL with code 0");
    for _ in 0..20_000 {
        let (words, top) = store(&mut random);
        let d = random.below(16) as u32;
        let calls = vec![2, d, 0, 0, 2, d, 1, 0];
        let case = Case { words, top, calls, answers: vec![7; 4], register: 0 };
        let ran = case.hold();
        assert_eq!((ran.status, ran.statuses[0]), (0, 13));
        assert!([0, 16].contains(&ran.statuses[1]), "{:?}", ran.statuses);
    }
}

/// The places of a text where a code begins.
fn codes_begin(text: &[u8]) -> Vec<usize> {
    let digit = |at: usize| text[at].is_ascii_digit();
    (0..text.len()).filter(|&at| digit(at) && (at == 0 || !digit(at - 1))).collect()
}

#[test]
fn a_zero_that_begins_a_term() {
    let mut random = Random::of("zeros in texts");
    let mut met = [0; 3];
    for _ in 0..40_000 {
        let mut text = make::text(&mut random);
        let places = codes_begin(&text);
        if plain::read(&text).is_err() || places.is_empty() {
            continue;
        }
        let at = random.pick(&places);
        // In place of the first digit, before it, or alone.
        let how = random.below(3);
        match how {
            0 => text[at] = b'0',
            1 => text.insert(at, b'0'),
            _ => {
                let end = (at..text.len()).find(|&i| !text[i].is_ascii_digit());
                text.splice(at..end.unwrap_or(text.len()), *b"0");
            }
        }
        assert_eq!(trees::Pool::default().read(&text), Err((13, at)));
        let (words, top) = store(&mut random);
        let typed = Type { words, top, register: random.below(16), text }.hold();
        assert_eq!((typed.status, typed.value, typed.top), (13, at, top));
        met[how] += 1;
    }
    assert!(met.iter().all(|&count| count > 5_000), "{met:?}");
}

#[test]
fn wiped_cells_in_files() {
    let mut random = Random::of("wiped cells in files");
    let mut met = 0;
    for _ in 0..20_000 {
        let capacity = make::capacity(&mut random);
        let (mut words, top) = collected(&mut random, capacity);
        if top == FIRST_HEAP_CELL {
            continue;
        }
        make::wipe(&mut random, &mut words, top);
        let c = lowest_wiped(&words, top);
        let junk = vec![7; words.len()];
        let (reply, left) = compare_load(&junk, &files::file(&words, top)).expect("they agree");
        assert_eq!((reply, left), (Reply { status: 3, rule: 4, value: c as u32, top: 0 }, junk));
        met += 1;
    }
    assert!(met > 5_000, "{met}");
}
