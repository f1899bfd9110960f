//! Terms: the iterator, equality, and what is written of them.

use zelmotar::{Call, Store, Term, Terms, MAX_CELLS};
use zelmotar_model::make::{self, Runs};
use zelmotar_model::random::Random;
use zelmotar_model::trees::{self, Pool, Trees};

fn fresh(capacity: usize) -> Store {
    Store::new(capacity).expect("the capacity is allowed")
}

#[test]
fn looks_that_are_empty() {
    let mut store = fresh(20);
    store.run_all(&[Call::Symbol { d: 0, code: 5 }]).expect("there is room");
    assert_eq!(store.look(0).cells(), [5, 0]);
    for register in [1, 15, 16, usize::MAX] {
        assert_eq!(store.look(register).cells(), []);
        assert!(
            store.look(register).next().is_none() && store.look(register).next_back().is_none()
        );
    }
}

/// Holds terms against an expression, down to at most `left` terms.
fn same_terms(terms: Terms, pool: &Pool, expression: &[trees::Name], left: &mut usize) {
    assert_eq!(terms.len(), expression.len());
    for (term, &name) in terms.zip(expression) {
        if *left == 0 {
            return;
        }
        *left -= 1;
        match (term, pool.term(name)) {
            (Term::Symbol(code), trees::Term::Symbol(expected)) => assert_eq!(code, *expected),
            (Term::Bracket(inside), trees::Term::Parens(expected)) => {
                same_terms(inside, pool, expected, left)
            }
            (term, expected) => panic!("{term:?} is not {expected:?}"),
        }
    }
}

#[test]
fn terms_are_those_of_the_model() {
    let mut random = Random::of("terms");
    for _ in 0..3_000 {
        let capacity = random.within(16..=40);
        let (words, top) = make::sound(&mut random, capacity, Runs::Short);
        let trees = Trees::denoted_by(&words, top);
        let store = Store::from_parts(words, top);
        for (register, expression) in trees.registers.iter().enumerate() {
            same_terms(store.look(register), &trees.pool, expression, &mut 500);
        }
    }
}

#[test]
fn terms_from_both_ends() {
    let mut store = fresh(32);
    let mut calls: Vec<Call> = Vec::new();
    for code in 1..=4 {
        calls.extend([Call::Symbol { d: 1, code }, Call::Join { d: 0, a: 0, b: 1 }]);
    }
    store.run_all(&calls).expect("there is room");
    let mut terms = store.look(0);
    assert!(matches!(terms.next(), Some(Term::Symbol(1))));
    assert!(matches!(terms.next_back(), Some(Term::Symbol(4))));
    assert_eq!(
        (terms.len(), terms.to_string(), format!("{terms:?}")),
        (2, "2 3".into(), "Terms(2 3)".into())
    );
    assert_eq!(terms.rev().count(), 2);
}

#[test]
fn brackets_some_thousand_deep_are_written_out() {
    let mut store = fresh(MAX_CELLS);
    for _ in 0..4 {
        store.run_all(&[Call::Wrap { d: 0, a: 0 }; 1020]).expect("there is room");
    }
    assert_eq!(store.top(), MAX_CELLS);
    let text = "(".repeat(4080) + &")".repeat(4080);
    assert_eq!(store.look(0).to_string(), text);
    assert_eq!(store.look(0).next().expect("there is one").to_string(), text);
    let some = format!("Terms({}(..){})", "(".repeat(8), ")".repeat(8));
    assert_eq!(format!("{:?}", store.look(0)), some);
    let other = store.clone();
    assert!(store.look(0) == other.look(0));
}

/// A store whose register 0 denotes `code` doubled as often as said: each time two brackets around
/// one run.
fn doubled(code: u32, times: usize) -> Store {
    let mut store = fresh(16 + 3 * times + 3);
    store.run_all(&[Call::Symbol { d: 0, code }]).expect("there is room");
    for _ in 0..times {
        store
            .run_all(&[Call::Wrap { d: 0, a: 0 }, Call::Join { d: 0, a: 0, b: 0 }])
            .expect("there is room");
    }
    store
}

#[test]
fn what_is_shared_a_billion_times_is_shown_in_a_line() {
    assert_eq!(format!("{:?}", doubled(5, 2).look(0)), "Terms(((5) (5)) ((5) (5)))");
    for times in [20, 60, 1_000] {
        let store = doubled(5, times);
        for text in [
            format!("{:?}", store.look(0)),
            format!("{:#?}", store.look(0)),
            format!("{:?}", store.look(0).next()),
        ] {
            assert!(text.len() < 500 && text.contains(".."), "{text}");
        }
    }
    let mut words = fresh(MAX_CELLS).into_parts().0;
    words[32..].chunks_mut(2).for_each(|cell| cell[0] = 1);
    words[..2].copy_from_slice(&[16, (1 << 31) + 4095]);
    let text = format!("{:?}", Store::from_parts(words, MAX_CELLS).look(0));
    assert_eq!(text, format!("Terms({}..)", "1 ".repeat(64)));
}

#[test]
fn what_is_shared_a_billion_times_is_compared_at_once() {
    let (one, same, deeper) = (doubled(5, 1_000), doubled(5, 1_000), doubled(5, 1_001));
    let other = doubled(6, 1_000);
    assert!(one.look(0) == same.look(0) && same.look(0) == one.look(0));
    assert!(one.look(0) == one.look(0));
    assert!(one.look(0) != deeper.look(0) && one.look(0) != other.look(0));
    assert!(one.look(0).next() == one.look(0).next_back());
}

/// Expressions of two stores, register by register: equal exactly if the model names them alike.
fn compared(words: [&[u32]; 2], tops: [usize; 2]) -> [usize; 2] {
    let mut pool = Pool::default();
    let named = [pool.denoted(words[0], tops[0]), pool.denoted(words[1], tops[1])];
    let stores = [0, 1].map(|i| Store::from_parts(words[i].to_vec(), tops[i]));
    let mut met = [0; 2];
    for (i, one) in named[0].iter().enumerate() {
        for (j, other) in named[1].iter().enumerate() {
            let equal = stores[0].look(i) == stores[1].look(j);
            assert_eq!(equal, one == other, "{i} of {:?}, {j} of {:?}", stores[0], stores[1]);
            met[usize::from(equal)] += usize::from(!one.is_empty() && !other.is_empty());
        }
    }
    met
}

#[test]
fn terms_are_equal_exactly_if_expressions_are() {
    let mut random = Random::of("equal terms");
    let mut met = [0; 2];
    for _ in 0..2_000 {
        let (capacity, runs) = (random.within(20..=60), random.pick(&[Runs::Short, Runs::Any]));
        let (words, top) = make::sound(&mut random, capacity, runs);
        // Few codes, so that unlike cells often denote the same.
        let mut words: Vec<u32> = words;
        for cell in words[32..2 * top].chunks_mut(2).filter(|cell| cell[1] == 0) {
            cell[0] = 1 + cell[0] % 2;
        }
        let mut collected = Store::from_parts(words.clone(), top);
        collected.collect().expect("the store is sound");
        let (mut changed, low) = collected.into_parts();
        let tops = [top, low];
        for pair in [compared([&words, &changed], tops), compared([&words, &words], [top, top])] {
            met = [met[0] + pair[0], met[1] + pair[1]];
        }
        if let Some(cell) = changed[32..2 * low].chunks_mut(2).find(|cell| cell[1] == 0) {
            cell[0] = 3 - cell[0];
        }
        compared([&words, &changed], tops);
    }
    assert!(met.iter().all(|&count| count > 10_000), "{met:?}");
}
