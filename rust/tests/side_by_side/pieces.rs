//! Texts that come in pieces, cut at random and at their limits, and what is kept of them with any numbers in it.
//!
//! What a text comes to is held against the whole text, which the model reads as a tree and counts then, and against
//! typing it in. What is kept between two pieces is held against the rules of its numbers, field by field.

use std::fmt::Write;

use zelmotar::{raw, Counted, Pieces, Refusal, Store, MAX_CELLS, MAX_DEPTH, MAX_TERMS};
use zelmotar_model::make::pieces::{further, letters, long, met, state, within, Cut};
use zelmotar_model::make::{self, Runs};
use zelmotar_model::pieces::{self, State, START};
use zelmotar_model::plain::FIRST_HEAP_CELL;
use zelmotar_model::random::{self, Random};
use zelmotar_model::trees::Pool;

use crate::guarded::Guarded;
use crate::shrink::shrunk;
use crate::tally::Texts;
use crate::types::Type;

/// The numbers of the model in the library's type.
fn as_library(state: State) -> raw::Pieces {
    let State { stand, code, offset, depth, terms, own, most, counts } = state;
    raw::Pieces { stand, code, offset, depth, terms, own, most, counts }
}

/// The numbers of the library in the model's type.
fn as_model(state: raw::Pieces) -> State {
    let raw::Pieces { stand, code, offset, depth, terms, own, most, counts } = state;
    State { stand, code, offset, depth, terms, own, most, counts }
}

/// Feeds a piece by library and model, and says what differs; else gives what both leave.
fn compare_feed(state: State, piece: &[u8]) -> Result<State, String> {
    let mut lent = Guarded::around(piece);
    let library = as_model(raw::text_feed(as_library(state), lent.lent()));
    let model = state.feed(piece);
    if library != model {
        let piece = piece.escape_ascii();
        return Err(format!(
            "`{piece}` to {state:?}: the library has {library:?}, the model {model:?}"
        ));
    }
    match lent.opened("piece")? == piece {
        true => Ok(model),
        false => Err("the piece is written, and not only read".to_string()),
    }
}

/// Ends a text by library and model, and says what differs; else gives what both answer.
fn compare_end(state: State) -> Result<pieces::Counted, String> {
    let raw::Counted { status, value, terms, most } = raw::text_end(as_library(state));
    let (library, model) = (pieces::Counted { status, value, terms, most }, state.end());
    match library == model {
        true => Ok(model),
        false => Err(format!("end of {state:?}: the library has {library:?}, the model {model:?}")),
    }
}

/// What a whole text comes to.
fn counted(text: &[u8]) -> pieces::Counted {
    match Pool::default().counted(text) {
        Ok((terms, most)) => pieces::Counted { status: 0, value: 0, terms, most },
        Err((status, value)) => pieces::Counted { status, value, terms: 0, most: 0 },
    }
}

/// What the wrapper says at the end, in the numbers of the library.
fn wrapped(text: Pieces) -> pieces::Counted {
    match text.end() {
        Ok(Counted { terms, most }) => pieces::Counted { status: 0, value: 0, terms, most },
        Err(refusal) => {
            let value = refusal.offset().expect("a text is refused at a place");
            pieces::Counted { status: refusal.number(), value, terms: 0, most: 0 }
        }
    }
}

/// Feeds pieces from the start, and says what differs first: from the rules, from the whole text, or from a text that
/// was refused before. Else gives what the text comes to.
fn compare(pieces: &[&[u8]]) -> Result<pieces::Counted, String> {
    let mut state = as_model(raw::text_start());
    if state != START {
        return Err(format!("the library starts with {state:?}"));
    }
    for piece in pieces {
        let before = state;
        state = compare_feed(state, piece)?;
        if before.stand > 3 && state != before {
            return Err(format!("a refused text is changed: {before:?} to {state:?}"));
        }
        compare_end(state)?;
    }
    let text = pieces.concat();
    let (end, expected) = (compare_end(state)?, counted(&text));
    let of_wrapper = wrapped(pieces.iter().collect());
    if end != expected || of_wrapper != expected {
        return Err(format!(
            "it ends with {end:?} and {of_wrapper:?}, the whole with {expected:?}"
        ));
    }
    match as_model(raw::text_feed(raw::text_start(), &text)) == state {
        true => Ok(end),
        false => Err(format!("the whole text leaves other numbers than {state:?}")),
    }
}

/// Feeds pieces and fails with as few of them as still differ.
#[track_caller]
fn hold(pieces: &[&[u8]]) -> pieces::Counted {
    compare(pieces).unwrap_or_else(|_| {
        let small = shrunk(pieces, |pieces| compare(pieces).is_err());
        let difference = compare(&small).err().unwrap_or_default();
        let shown: Vec<_> = small.iter().map(|piece| piece.escape_ascii().to_string()).collect();
        panic!("seed {}: {difference}\nthe pieces {shown:?}", random::seed());
    })
}

/// A text of one of four kinds, and what the kind is called.
fn text(random: &mut Random, kind: usize) -> (&'static str, Vec<u8>) {
    let mut text = make::text(random);
    match kind % 4 {
        0 => ("of expressions", text),
        1 => {
            make::spoil_text(random, &mut text);
            ("spoilt", text)
        }
        2 => {
            make::cut_text(random, &mut text);
            ("cut off", text)
        }
        _ => ("of any letters", letters(random, 14)),
    }
}

#[test]
fn texts_cut_at_random() {
    let mut random = Random::of("texts in pieces");
    let (mut kinds, mut cuts) = (Texts::default(), Texts::default());
    for round in 0..160_000 {
        let (kind, text) = text(&mut random, round);
        let cut = random.pick(&Cut::ALL);
        let status = hold(&cut.pieces(&mut random, &text)).status;
        kinds.add(kind, status);
        cuts.add(cut.name(), status);
    }
    kinds.print("texts cut at random");
    cuts.print("the same by their cuts");
    Cut::ALL.iter().for_each(|cut| cuts.assert_met(cut.name(), &[0, 13, 21, 23], 1_000));
    kinds.assert_met("of expressions", &[0, 13, 21], 1_000);
    kinds.assert_met("spoilt", &[0, 13, 21, 23], 1_000);
    kinds.assert_met("cut off", &[0, 13, 21, 23], 1_000);
    kinds.assert_met("of any letters", &[0, 13, 23], 1_000);
}

#[test]
fn every_short_text_in_every_cut() {
    const BYTES: &[u8] = b"012 ()x";
    let mut tally = Texts::default();
    let mut texts = vec![Vec::new()];
    for length in 0..=5 {
        for text in &texts {
            // Each bit says whether there is a cut behind a byte.
            for cuts in 0..1 << length {
                let mut pieces = vec![];
                let mut from = 0;
                for at in (1..=length).filter(|at| cuts >> (at - 1) & 1 == 1) {
                    pieces.push(&text[from..at]);
                    from = at;
                }
                pieces.push(&text[from..]);
                tally.add("every cut", hold(&pieces).status);
            }
        }
        // A text is not made longer after a byte that is refused but by one.
        texts.retain(|text| counted(text).status == 0 || counted(text).value + 1 >= length);
        let longer = |text: &Vec<u8>, &byte: &u8| [&text[..], &[byte]].concat();
        let next = texts.iter().flat_map(|text| BYTES.iter().map(move |byte| longer(text, byte)));
        texts = next.collect();
    }
    tally.print("every short text");
    tally.assert_met("every cut", &[0, 13, 23], 1_000);
}

/// Asserts that a text is refused, or typed in with as many new cells as are counted, and with no fewer.
fn assert_typed_alike(random: &mut Random, text: &[u8], counted: Result<Counted, Refusal>) {
    let capacity = counted.map_or(FIRST_HEAP_CELL, |counted| FIRST_HEAP_CELL + counted.terms);
    let mut store = Store::new(capacity).expect("the capacity is allowed");
    let before = store.clone();
    assert_eq!(store.type_in(random.below(16), text), counted.map(drop));
    assert_eq!(store.top(), capacity);
    match counted {
        Err(_) => assert_eq!(store, before),
        Ok(counted) if counted.terms > 0 => {
            let mut store = Store::new(capacity - 1).expect("the capacity is allowed");
            assert_eq!(store.type_in(random.below(16), text), Err(Refusal::NoRoom));
        }
        Ok(_) => {}
    }
}

#[test]
fn a_text_is_typed_in_with_as_many_cells_as_are_counted() {
    let mut random = Random::of("cells of pieces");
    let mut tally = Texts::default();
    for round in 0..60_000 {
        let (kind, text) = text(&mut random, round);
        let cut = random.pick(&Cut::ALL);
        let pieces: Pieces = cut.pieces(&mut random, &text).into_iter().collect();
        assert_typed_alike(&mut random, &text, pieces.end());
        tally.add(kind, pieces.end().map_or_else(Refusal::number, |_| 0));
    }
    tally.print("texts counted, then typed in");
    tally.assert_met("of expressions", &[0, 13, 21], 300);
    tally.assert_met("spoilt", &[0, 13, 21, 23], 300);
    tally.assert_met("cut off", &[0, 13, 21, 23], 300);
    tally.assert_met("of any letters", &[0, 13, 23], 300);
}

/// In a store that holds something already, as many cells are laid above `top` if they fit there.
#[test]
fn a_text_is_laid_above_top_as_counted() {
    let mut random = Random::of("cells above top");
    let mut met = [0; 3];
    for _ in 0..20_000 {
        let capacity = make::capacity(&mut random);
        let (words, top) = make::sound(&mut random, capacity, Runs::Short);
        let (mut store, text) = (Store::from_parts(words, top), make::text(&mut random));
        let Ok(Counted { terms, .. }) = Pieces::new().feed(&text).end() else {
            continue;
        };
        let typed = store.type_in(random.below(16), &text);
        if top + terms <= capacity {
            assert_eq!((typed, store.top()), (Ok(()), top + terms));
            met[0] += 1;
        } else {
            assert!(store.top() <= top + terms);
            met[if typed.is_ok() { 1 } else { 2 }] += 1;
        }
    }
    assert!(met.iter().all(|&count| count > 300), "{met:?}");
}

/// The rules of numbers that go on, by name.
const RULES: [&str; 8] = ["stand", "code", "depth", "terms", "own", "most", "counts", "offset"];

#[test]
fn any_numbers_are_fed_and_ended_by_the_rules() {
    let mut random = Random::of("any numbers");
    let mut tally = Texts::default();
    for _ in 0..240_000 {
        let (state, piece) = (state(&mut random), further(&mut random));
        let piece = if random.one_in(8) { &[] } else { &piece[..] };
        let held = |outcome: Result<State, String>| outcome.unwrap_or_else(|why| panic!("{why}"));
        let after = held(compare_feed(state, piece));
        for state in [state, after] {
            compare_end(state).unwrap_or_else(|why| panic!("{why}"));
        }
        let broken: Vec<usize> = (0..8).filter(|&rule| !state.rules()[rule]).collect();
        match broken[..] {
            [] => tally.add("that go on", after.stand),
            // Over nothing but this one limit.
            [rule] => tally.add(RULES[rule], 0),
            _ => tally.add("over more than one limit", 0),
        }
        if !broken.is_empty() {
            assert_eq!((after, after.end().terms), (state, 0));
        }
    }
    tally.print("any numbers");
    tally.assert_met("that go on", &[0, 1, 2, 3, 13, 21, 23, 24], 200);
    RULES.iter().for_each(|name| tally.assert_met(name, &[0], 500));
    tally.assert_met("over more than one limit", &[0], 500);
}

/// By the library alone: what comes of a piece is what comes of its parts one after the other, in every field.
#[test]
fn feeding_a_whole_is_feeding_its_parts() {
    let mut random = Random::of("parts of pieces");
    let mut met = [0; 3];
    for round in 0..200_000 {
        let kind = round % 3;
        let state = match kind {
            0 => self::met(&mut random),
            1 => within(&mut random),
            _ => state(&mut random),
        };
        let (start, bytes) = (as_library(state), further(&mut random));
        let whole = raw::text_feed(start, &bytes);
        let parts = random.pick(&Cut::ALL).pieces(&mut random, &bytes);
        let fed = parts.iter().fold(start, |state, piece| raw::text_feed(state, piece));
        assert_eq!(fed, whole, "{state:?} `{}`", bytes.escape_ascii());
        assert_eq!(raw::text_end(fed), raw::text_end(whole));
        met[kind] += usize::from(whole != start);
    }
    assert!(met.iter().all(|&count| count > 10_000), "{met:?}");
}

#[test]
fn pieces_after_a_refusal_change_no_field() {
    let mut random = Random::of("pieces after a refusal");
    let long = b"1 ".repeat(MAX_TERMS);
    let deep = b"(".repeat(MAX_DEPTH);
    for (text, byte, stand) in [
        (&b"(7 (1 2) "[..], b'0', 13),
        (b"(7 (1 26843545", b'6', 13),
        (&deep, b'(', 21),
        (b"(7 (1 2) ", b')', 23),
        (b"(7 (1 2)", b'3', 23),
        (&long, b'1', 24),
        (&long, b'(', 24),
    ] {
        let before = raw::text_feed(raw::text_start(), text);
        let refused = raw::text_feed(before, &[byte]);
        // The offset is that of the byte, and all but the stand and the code are as they were.
        assert_eq!((before.offset, before.stand <= 3), (text.len(), true));
        assert_eq!(refused, raw::Pieces { stand, code: 0, ..before });
        let mut state = refused;
        for _ in 0..100 {
            state = raw::text_feed(state, &further(&mut random));
            assert_eq!(state, refused);
        }
        let end = raw::Counted { status: stand, value: text.len(), terms: 0, most: 0 };
        assert_eq!(raw::text_end(state), end);
    }
}

/// Texts and what they come to, worked out by hand.
#[test]
fn texts_counted_by_hand() {
    for (text, terms, most) in [
        ("", 0, 0),
        ("7", 1, 1),
        ("268435455", 1, 1),
        ("()", 1, 1),
        ("(7)", 2, 1),
        ("1 2 3", 3, 3),
        ("65 (66 67) ()", 5, 3),
        ("(1 2 3 4) 5", 6, 4),
        ("1 (2 (3 4 5) 6) 7", 9, 3),
        ("(() () (() () ())) 1", 8, 3),
        ("((1 2 3 4 5))", 7, 5),
    ] {
        let expected = pieces::Counted { status: 0, value: 0, terms, most };
        for at in 0..=text.len() {
            let (first, second) = text.as_bytes().split_at(at);
            assert_eq!(hold(&[first, b"", second]), expected, "{text}");
        }
    }
    for (text, status, value) in [
        (" ", 23, 0),
        ("1  2", 23, 2),
        ("(1 )", 23, 3),
        ("1 ", 23, 2),
        ("(1", 23, 2),
        ("1)", 23, 1),
        ("1(", 23, 1),
        ("()1", 23, 2),
        ("1\n", 23, 1),
        ("0", 13, 0),
        ("1 01", 13, 2),
        ("1 268435456 x", 13, 10),
        ("x 0", 23, 0),
    ] {
        let expected = pieces::Counted { status, value, terms: 0, most: 0 };
        for at in 0..=text.len() {
            let (first, second) = text.as_bytes().split_at(at);
            assert_eq!(hold(&[first, b"", second]), expected, "{text}");
        }
    }
}

/// A text in a few ways of cutting it: whole, in two parts anywhere, and before its last bytes.
fn hold_cuts(random: &mut Random, text: &[u8]) -> pieces::Counted {
    let whole = hold(&[text]);
    let end = text.len();
    for at in [random.below(end + 1), end - 1, end.saturating_sub(2)] {
        let (first, second) = text.split_at(at);
        assert_eq!(hold(&[first, second]), whole);
    }
    whole
}

/// Typed in, a text is refused alike, in a fresh store of a size, and nothing changes.
fn assert_typed_refused(capacity: usize, text: &[u8], status: u32, offset: usize) {
    let (words, top) = Store::new(capacity).expect("the capacity is allowed").into_parts();
    let typed = Type { words: words.clone(), top, register: 3, text: text.to_vec() }.hold();
    assert_eq!((typed.status, typed.value, typed.top), (status, offset, top));
    let mut store = Store::from_parts(words, top);
    let before = store.clone();
    let refusal = store.type_in(3, text).expect_err("it is refused");
    assert_eq!((refusal.number(), refusal.offset().unwrap_or(0)), (status, offset));
    assert_eq!(store, before);
}

#[test]
fn as_many_terms_as_may_be_and_one_more() {
    let mut random = Random::of("most terms");
    let symbols = |count: usize| vec!["1"; count].join(" ");
    let (open, shut) = ("(".repeat(MAX_DEPTH), ")".repeat(MAX_DEPTH));
    let inside = MAX_TERMS - MAX_DEPTH;
    let brackets = vec!["()"; MAX_TERMS].join(" ");
    let long = symbols(MAX_TERMS) + " ";
    let deep = open.clone() + &symbols(inside);
    for (text, most) in [
        (symbols(MAX_TERMS), MAX_TERMS),
        (brackets.clone(), MAX_TERMS),
        (format!("({})", symbols(MAX_TERMS - 1)), MAX_TERMS - 1),
        (vec!["(7)"; MAX_TERMS / 2].join(" "), MAX_TERMS / 2),
        (deep.clone() + &shut, inside),
        (format!("{} {open}{shut}", symbols(inside)), inside + 1),
        (vec![[&*open, &*shut].concat(); MAX_TERMS / MAX_DEPTH].join(" "), MAX_TERMS / MAX_DEPTH),
    ] {
        let expected = pieces::Counted { status: 0, value: 0, terms: MAX_TERMS, most };
        assert_eq!(hold_cuts(&mut random, text.as_bytes()), expected);
        assert_typed_refused(MAX_CELLS, text.as_bytes(), 16, 0);
    }
    for (text, status, value) in [
        (long.clone(), 23, long.len()),
        (format!("{long}1"), 24, long.len()),
        (format!("{long}9 x"), 24, long.len()),
        (format!("{long}0"), 24, long.len()),
        (format!("{long}("), 24, long.len()),
        (format!("{long})"), 23, long.len()),
        (format!("{long} "), 23, long.len()),
        (format!("{long}x"), 23, long.len()),
        (format!("{brackets} ()"), 24, brackets.len() + 1),
        (format!("{brackets}()"), 23, brackets.len()),
        (format!("{brackets} 0"), 24, brackets.len() + 1),
        // With 64 brackets open: a term, a 0 and one bracket more; and after one is closed.
        (format!("{deep} 1"), 24, deep.len() + 1),
        (format!("{deep} 0"), 24, deep.len() + 1),
        (format!("{deep} ("), 21, deep.len() + 1),
        (format!("{deep}) ("), 24, deep.len() + 2),
        (format!("{deep}) 0"), 24, deep.len() + 2),
        // The last term that may be, and a code that is none in it.
        (format!("{}268435456", &long[..long.len() - 2]), 13, long.len() + 6),
        (format!("{}0", &long[..long.len() - 2]), 13, long.len() - 2),
        (format!("{}(", &deep[..deep.len() - 1]), 21, deep.len() - 1),
    ] {
        let expected = pieces::Counted { status, value, terms: 0, most: 0 };
        assert_eq!(hold_cuts(&mut random, text.as_bytes()), expected);
        assert_typed_refused(MAX_CELLS, text.as_bytes(), status, value);
        assert_typed_refused(FIRST_HEAP_CELL, text.as_bytes(), status, value);
    }
}

#[test]
fn as_many_brackets_as_may_be_open_and_one_more() {
    let mut random = Random::of("most brackets");
    let nest = |brackets: usize| ["(".repeat(brackets), ")".repeat(brackets)].concat();
    let expected = pieces::Counted { status: 0, value: 0, terms: MAX_DEPTH, most: 1 };
    assert_eq!(hold_cuts(&mut random, nest(MAX_DEPTH).as_bytes()), expected);
    // Each bracket has one term more before it than the one around it, so all counts differ.
    let steps: String = (0..MAX_DEPTH).map(|i| "1 ".repeat(i) + "(").collect();
    let (before, after) = (steps.len(), ")".repeat(MAX_DEPTH));
    let state = raw::text_feed(raw::text_start(), steps.as_bytes());
    assert_eq!((state.depth, state.own, state.most), (MAX_DEPTH, 0, MAX_DEPTH as u32));
    assert!((1..).zip(state.counts).all(|(terms, count)| terms == count), "{state:?}");
    let terms = MAX_DEPTH * (MAX_DEPTH + 1) / 2;
    let expected = pieces::Counted { status: 0, value: 0, terms, most: MAX_DEPTH };
    assert_eq!(hold_cuts(&mut random, (steps.clone() + &after).as_bytes()), expected);
    // When they are closed again, each goes on where it was.
    let closed: String = (0..MAX_DEPTH).map(|_| ") 1").collect();
    let expected = pieces::Counted { terms: terms + MAX_DEPTH, most: MAX_DEPTH + 1, ..expected };
    assert_eq!(hold_cuts(&mut random, (steps.clone() + &closed).as_bytes()), expected);
    for (text, status, value) in [
        (nest(MAX_DEPTH + 1), 21, MAX_DEPTH),
        (format!("{steps}("), 21, before),
        (format!("{steps}1 ("), 21, before + 2),
        (format!("{steps}1("), 23, before + 1),
        (format!("{steps}) (("), 21, before + 3),
        (format!("{steps}{after})"), 23, before + MAX_DEPTH),
        (steps.clone(), 23, before),
    ] {
        let expected = pieces::Counted { status, value, terms: 0, most: 0 };
        assert_eq!(hold_cuts(&mut random, text.as_bytes()), expected);
        assert_typed_refused(MAX_CELLS, text.as_bytes(), status, value);
    }
}

#[test]
fn long_texts() {
    let mut random = Random::of("long texts in pieces");
    let mut tally = Texts::default();
    for _ in 0..150 {
        let text = long(&mut random);
        let end = hold(&Cut::Anywhere.pieces(&mut random, &text));
        let (status, offset) = if end.status == 0 { (16, 0) } else { (end.status, end.value) };
        assert_typed_refused(random.pick(&[16, 17, 100]), &text, status, offset);
        tally.add("about as many terms as may be", end.status);
    }
    tally.print("long texts");
    tally.assert_met("about as many terms as may be", &[0, 13, 21, 23, 24], 1);
}

#[test]
fn every_way_to_feed_is_the_same() {
    let mut random = Random::of("ways to feed");
    let mut met = [0; 2];
    for round in 0..20_000 {
        let (_, text) = text(&mut random, round);
        let pieces = random.pick(&Cut::ALL).pieces(&mut random, &text);
        let fed = pieces.iter().fold(Pieces::new(), |text, piece| text.feed(piece));
        assert_eq!(fed, Pieces::new().feed(&text));
        let collected: Pieces = pieces.iter().collect();
        let (first, second) = pieces.split_at(random.below(pieces.len()));
        let mut extended: Pieces = first.iter().map(|piece| piece.to_vec()).collect();
        extended.extend(second);
        assert_eq!((collected, extended), (fed, fed));
        if let Ok(strings) = pieces.iter().map(|piece| std::str::from_utf8(piece)).collect() {
            let strings: Vec<&str> = strings;
            let mut written = Pieces::default();
            strings.iter().for_each(|piece| written.write_str(piece).expect("no write fails"));
            assert_eq!(written, fed);
        }
        #[cfg(feature = "std")]
        {
            use std::io::Write;
            let mut written = Pieces::default();
            for piece in &pieces {
                assert_eq!(written.write(piece).ok(), Some(piece.len()));
                written.flush().expect("there is nothing to flush");
            }
            assert_eq!(written, fed);
        }
        // What the wrapper tells of it is what is kept.
        let kept = as_model(raw::text_feed(raw::text_start(), &text));
        let so_far = Counted { terms: kept.terms, most: kept.most as usize };
        assert_eq!((fed.so_far(), fed.offset(), fed.depth()), (so_far, kept.offset, kept.depth));
        match fed.refusal() {
            None => assert!(kept.stand <= 3 && fed.offset() == text.len()),
            Some(refusal) => {
                assert_eq!((refusal.number(), refusal.offset()), (kept.stand, Some(kept.offset)));
                assert_eq!(fed.end(), Err(refusal));
            }
        }
        met[usize::from(fed.refusal().is_some())] += 1;
    }
    assert!(met.iter().all(|&count| count > 3_000), "{met:?}");
}

#[test]
fn a_text_in_pieces_is_shown_with_the_counts_of_open_brackets_alone() {
    let text = Pieces::new().feed(b"1 (2 (3) 4 (56");
    assert_eq!(
        format!("{text:?}"),
        "Pieces { stand: 2, code: 56, offset: 14, depth: 2, terms: 8, own: 1, most: 4, \
         counts: [2, 4] }"
    );
    assert!(format!("{:?}", Pieces::new()).ends_with("most: 0, counts: [] }"));
}
