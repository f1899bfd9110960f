//! Texts in pieces, by the rules of the numbers that are kept of them, held against the whole text.

use zelmotar_model::make;
use zelmotar_model::make::pieces::{letters, long, Cut};
use zelmotar_model::pieces::{Counted, State, START};
use zelmotar_model::random::Random;
use zelmotar_model::trees::Pool;

/// What a whole text comes to.
fn counted(text: &[u8]) -> Counted {
    match Pool::default().counted(text) {
        Ok((terms, most)) => Counted { status: 0, value: 0, terms, most },
        Err((status, value)) => Counted { status, value, terms: 0, most: 0 },
    }
}

fn fed(pieces: &[&[u8]]) -> State {
    pieces.iter().fold(START, |state, piece| state.feed(piece))
}

#[test]
fn the_rules_say_what_the_whole_text_does() {
    let mut random = Random::of("pieces");
    let mut met = [0; 25];
    for round in 0..100_000 {
        let mut text = make::text(&mut random);
        match round % 4 {
            0 => {}
            1 => make::spoil_text(&mut random, &mut text),
            2 => make::cut_text(&mut random, &mut text),
            _ => text = letters(&mut random, 12),
        }
        let cut = random.pick(&Cut::ALL);
        let pieces = cut.pieces(&mut random, &text);
        assert_eq!(pieces.concat(), text);
        let (state, expected) = (fed(&pieces), counted(&text));
        let shown = String::from_utf8_lossy(&text);
        assert_eq!(state.end(), expected, "{shown}");
        assert_eq!(state, START.feed(&text), "{shown}");
        assert_eq!(state.goes_on(), state.stand <= 3, "{shown}");
        met[expected.status as usize] += 1;
    }
    assert!([0, 13, 21, 23].iter().all(|&status| met[status] > 1_000), "{met:?}");
}

#[test]
fn the_rules_say_what_a_long_text_does() {
    let mut random = Random::of("long pieces");
    let mut met = [0; 25];
    for _ in 0..200 {
        let text = long(&mut random);
        let pieces = Cut::Anywhere.pieces(&mut random, &text);
        let (state, expected) = (fed(&pieces), counted(&text));
        assert_eq!(state.end(), expected);
        assert_eq!(state, START.feed(&text));
        met[expected.status as usize] += 1;
    }
    assert!([0, 13, 21, 23, 24].iter().all(|&status| met[status] > 0), "{met:?}");
}

/// The counts of the expressions that are open, by the words of what they are: how many terms begin in each of them,
/// on its own level.
fn open_by_definition(text: &[u8]) -> Vec<u32> {
    let mut open = vec![0];
    for (at, &byte) in text.iter().enumerate() {
        let begins =
            byte == b'(' || byte.is_ascii_digit() && !(at > 0 && text[at - 1].is_ascii_digit());
        *open.last_mut().expect("the whole text is open") += u32::from(begins);
        match byte {
            b'(' => open.push(0),
            b')' => drop(open.pop()),
            _ => {}
        }
    }
    open
}

#[test]
fn what_is_kept_of_a_text_is_what_its_fields_say() {
    let mut random = Random::of("fields of pieces");
    let mut met = [0; 4];
    for _ in 0..20_000 {
        let mut text = make::text(&mut random);
        text.truncate(random.below(text.len() + 1));
        let state = START.feed(&text);
        if state.stand > 3 {
            continue;
        }
        let open = open_by_definition(&text);
        let (own, counts) = open.split_last().expect("the whole text is open");
        assert_eq!((state.offset, state.depth), (text.len(), counts.len()));
        assert_eq!((state.own, &state.counts[..state.depth]), (*own, counts));
        let stand = match text.last() {
            None | Some(b'(') => 0,
            Some(b' ') => 1,
            Some(b')') => 3,
            Some(_) => 2,
        };
        let digits = text.rsplit(|byte| !byte.is_ascii_digit()).next().unwrap_or_default();
        let code = String::from_utf8_lossy(digits).parse().unwrap_or(0);
        assert_eq!((state.stand, state.code), (stand, code));
        met[stand as usize] += 1;
    }
    assert!(met.iter().all(|&count| count > 500), "{met:?}");
}

#[test]
fn feeding_a_whole_is_feeding_its_parts() {
    let mut random = Random::of("cuts of pieces");
    let mut met = [0; 2];
    for _ in 0..100_000 {
        let state = make::pieces::state(&mut random);
        let bytes = make::pieces::further(&mut random);
        let (first, second) = bytes.split_at(random.below(bytes.len() + 1));
        let whole = state.feed(&bytes);
        assert_eq!(state.feed(first).feed(second), whole, "{state:?} {bytes:?}");
        met[usize::from(state.goes_on())] += 1;
        if !state.goes_on() {
            assert_eq!(whole, state);
        }
    }
    assert!(met.iter().all(|&count| count > 20_000), "{met:?}");
}
