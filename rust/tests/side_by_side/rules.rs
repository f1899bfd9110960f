//! The rule that a damaged cell breaks, as every function tells it. What is answered is said here too, apart from
//! the model: by hand, or by how the cell was made.

use zelmotar::raw;
use zelmotar_model::files;
use zelmotar_model::make::rules::{break_cell, Place};
use zelmotar_model::make::{self, Runs};
use zelmotar_model::plain::FIRST_HEAP_CELL;
use zelmotar_model::random::Random;

use crate::case::{compare_load, Case, Told};
use crate::tally::{self, RULES};

/// The second word of an empty bracket.
const EMPTY: u32 = 1 << 31;

/// The used bit and the two chain bits.
const USED: u32 = 1 << 30;
const LEFT: u32 = 1 << 29;
const RIGHT: u32 = 1 << 28;

/// The largest code.
const LAST: u32 = (1 << 28) - 1;

/// What the status, the rule and the value of a reply are.
fn of_reply(reply: raw::Reply) -> Told {
    (reply.status, reply.rule, reply.value)
}

/// What each of the functions that check a store tells of it, by name. The file of its cells below `top` is
/// loaded too, but where the cell that is asked after is beyond that.
fn told(words: &[u32], top: usize, c: usize) -> Vec<(&'static str, Told)> {
    let lent = || words.to_vec();
    let text = raw::print(words, top, 0, &mut [7; 9]);
    let typed = raw::type_in(&mut lent(), top, 0, b"7");
    let saved = raw::save(&mut lent(), top, &mut [7; 9]);
    let mut told = vec![
        ("check", of_reply(raw::check(words, top))),
        ("collect", of_reply(raw::collect(&mut lent(), top))),
        ("run", of_reply(raw::run(&mut lent(), top, &[10, 0, 0, 0], &mut [7; 2]))),
        ("print", (text.status, text.rule, text.value as u32)),
        ("type", (typed.status, typed.rule, typed.value as u32)),
        ("save", (saved.status, saved.rule, saved.value)),
    ];
    if c < top {
        let file = files::file(words, top);
        told.push(("load", of_reply(raw::load(&mut lent(), &file))));
    }
    told
}

/// Asserts that every function tells the rule of a cell.
#[track_caller]
fn assert_told(words: &[u32], top: usize, c: usize, rule: u32) {
    for (function, told) in told(words, top, c) {
        let cell = &words[2 * c..2 * c + 2];
        assert_eq!(told, (3, rule, c as u32), "{function}: cell {c} {cell:?}, top {top}");
    }
}

/// A sound store of 24 cells with `top` 20: the symbols 65 and 66 in cells 16 and 17, brackets on both and on none
/// in 18 and 19, and these two in register 4.
fn sound() -> Vec<u32> {
    let mut words = vec![0; 48];
    words[..32].chunks_mut(2).for_each(|register| register[1] = EMPTY);
    words[32..40].copy_from_slice(&[65, 0, 66, 0, 16, EMPTY + 17, 0, EMPTY]);
    words[8..10].copy_from_slice(&[18, EMPTY + 19]);
    words
}

/// Asserts the rules of some cells, each put into that store.
#[track_caller]
fn assert_rules(rows: &[(usize, [u32; 2], u32)]) {
    for &(c, cell, rule) in rows {
        let mut words = sound();
        words[2 * c..2 * c + 2].copy_from_slice(&cell);
        match rule {
            0 => assert_eq!(raw::check(&words, 20).status, 0, "cell {c} {cell:?}"),
            _ => assert_told(&words, 20, c, rule),
        }
    }
}

#[test]
fn the_store_is_sound() {
    for (function, told) in told(&sound(), 20, 0) {
        let expected = match function {
            "collect" => (0, 0, 4),
            // Its space is too short.
            "save" => (22, 0, 0),
            _ => (0, 0, 0),
        };
        assert_eq!(told, expected, "{function}");
    }
}

#[test]
fn each_rule_in_a_register() {
    for c in [0, 4, 15] {
        assert_rules(&[
            (c, [0, EMPTY], 0),
            (c, [16, EMPTY + 16], 0),
            (c, [16, EMPTY + 19], 0),
            (c, [19, EMPTY + 19], 0),
            // 1: each bit alone, and all of them.
            (c, [0, EMPTY + USED], 1),
            (c, [16, EMPTY + LEFT + 16], 1),
            (c, [0, EMPTY + RIGHT], 1),
            (c, [16, EMPTY + USED + LEFT + RIGHT + 16], 1),
            // 2: a symbol, and ends without the bracket bit.
            (c, [65, 0], 2),
            (c, [16, 16], 2),
            (c, [u32::MAX, LAST], 2),
            // 3: one that is no end, and all of them.
            (c, [1, EMPTY], 3),
            (c, [16, EMPTY], 3),
            (c, [u32::MAX, EMPTY], 3),
            // 5: too low, out of order, and too high.
            (c, [15, EMPTY + 16], 5),
            (c, [0, EMPTY + 1], 5),
            (c, [17, EMPTY + 16], 5),
            (c, [EMPTY + 16, EMPTY + 16], 5),
            (c, [16, EMPTY + 20], 5),
            (c, [16, EMPTY + LAST], 5),
        ]);
    }
}

#[test]
fn each_rule_in_an_occupied_cell() {
    assert_rules(&[
        (16, [0, EMPTY], 0),
        (16, [1, 0], 0),
        (19, [LAST, 0], 0),
        (19, [16, EMPTY + 18], 0),
        (19, [18, EMPTY + 18], 0),
        // 1: each bit alone, and all of them.
        (16, [65, USED], 1),
        (17, [66, LEFT], 1),
        (18, [16, EMPTY + RIGHT + 17], 1),
        (19, [0, EMPTY + USED + LEFT + RIGHT], 1),
        // 3: one that is no end, and all of them.
        (16, [1, EMPTY], 3),
        (18, [16, EMPTY], 3),
        (19, [u32::MAX, EMPTY], 3),
        // 4: two zeros, a code that is too large, and a right end without the bracket bit.
        (16, [0, 0], 4),
        (19, [0, 0], 4),
        (17, [LAST + 1, 0], 4),
        (17, [u32::MAX, 0], 4),
        (16, [65, 1], 4),
        (18, [16, 17], 4),
        (19, [0, LAST], 4),
        // 5: too low, out of order, and too high. No ends are below the first heap cell.
        (16, [16, EMPTY + 16], 5),
        (16, [0, EMPTY + 1], 5),
        (18, [15, EMPTY + 17], 5),
        (18, [17, EMPTY + 16], 5),
        (18, [16, EMPTY + 18], 5),
        (18, [16, EMPTY + 19], 5),
        (19, [16, EMPTY + LAST], 5),
    ]);
}

#[test]
fn each_rule_in_a_free_cell() {
    for c in [20, 21, 23] {
        assert_rules(&[
            (c, [0, 0], 0),
            // 1: each bit alone, and all of them.
            (c, [0, USED], 1),
            (c, [0, LEFT], 1),
            (c, [0, RIGHT], 1),
            (c, [0, EMPTY + USED + LEFT + RIGHT], 1),
            // 6: a word, the other, and cells that would be sound below `top`.
            (c, [1, 0], 6),
            (c, [0, 1], 6),
            (c, [65, 0], 6),
            (c, [0, EMPTY], 6),
            (c, [16, EMPTY + 17], 6),
            (c, [u32::MAX, EMPTY + LAST], 6),
        ]);
    }
}

/// Cells to which two rules apply if each is read by itself. The lower number is told.
#[test]
fn the_first_of_two_rules() {
    assert_rules(&[
        // 1 with 2, 3, 5.
        (0, [65, USED], 1),
        (0, [0, LEFT], 1),
        (0, [16, EMPTY + LEFT], 1),
        (0, [17, EMPTY + RIGHT + 16], 1),
        // 1 with 3, 4, 5.
        (18, [20, EMPTY + RIGHT], 1),
        (18, [0, USED], 1),
        (18, [65, LEFT + 1], 1),
        (18, [17, EMPTY + USED + 16], 1),
        // 1 with 6.
        (22, [7, LEFT], 1),
        (22, [0, EMPTY + RIGHT], 1),
        // 2 with 4: it is no symbol either.
        (0, [0, 0], 2),
        (0, [65, 1], 2),
        (0, [LAST + 1, 0], 2),
        // 2 with 5: the ends are out of order, too.
        (0, [17, 16], 2),
        // 3 with 5: the left end would be above the right one.
        (0, [20, EMPTY], 3),
        (18, [20, EMPTY], 3),
        // 6 with what would be 3, 4 or 5 below `top`.
        (22, [20, EMPTY], 6),
        (22, [65, 1], 6),
        (22, [17, EMPTY + 16], 6),
    ]);
}

/// The first damaged cell is told with its own rule, whatever the others break.
#[test]
fn the_rule_is_that_of_the_first_damaged_cell() {
    let broken = [
        (3, [65, 0], 2),
        (4, [0, EMPTY + USED], 1),
        (16, [7, EMPTY], 3),
        (17, [0, 0], 4),
        (18, [18, EMPTY + 17], 5),
        (19, [1, LEFT], 1),
        (20, [5, 0], 6),
        (23, [0, RIGHT], 1),
    ];
    let mut words = sound();
    for (c, cell, rule) in broken.into_iter().rev() {
        words[2 * c..2 * c + 2].copy_from_slice(&cell);
        assert_told(&words, 20, c, rule);
    }
}

/// The rule goes with `top`: what is free is not occupied.
#[test]
fn the_rule_of_a_cell_by_top() {
    // Cells 16 to 19 are 65, 66, a bracket on both and an empty one. Register 4 has 18 and 19.
    for (top, c, rule) in [(21, 20, 4), (24, 20, 4), (19, 4, 5), (18, 4, 5), (16, 4, 5)] {
        assert_told(&sound(), top, c, rule);
    }
    let mut words = sound();
    words[8..10].copy_from_slice(&[0, EMPTY]);
    for (top, c) in [(19, 19), (18, 18), (17, 17), (16, 16)] {
        assert_told(&words, top, c, 6);
    }
}

#[test]
fn no_other_status_has_a_rule() {
    // Three words, `top` out of range, calls and answers out of order, a space that is too short, a text that is
    // none, and files that are refused for their trailers or for a dead cell.
    let words = sound();
    let lent = || sound();
    assert_eq!(of_reply(raw::check(&words[..3], 16)), (1, 0, 0));
    assert_eq!(of_reply(raw::fresh(&mut [7; 3])), (1, 0, 0));
    for top in [15, 25, usize::MAX] {
        assert_eq!(of_reply(raw::check(&words, top)), (2, 0, 0));
        assert_eq!(of_reply(raw::collect(&mut lent(), top)), (2, 0, 0));
    }
    assert_eq!(of_reply(raw::run(&mut lent(), 20, &[0; 3], &mut [])), (4, 0, 0));
    assert_eq!(of_reply(raw::run(&mut lent(), 20, &[0; 4], &mut [])), (5, 0, 0));
    for (register, space, status) in [(16, 9, 20), (4, 2, 22)] {
        let text = raw::print(&words, 20, register, &mut vec![7; space]);
        assert_eq!((text.status, text.rule), (status, 0));
    }
    for (text, status) in [("0", 13), ("1 2 3 4 5", 16), ("x", 23), (&"(".repeat(65), 21)] {
        let typed = raw::type_in(&mut lent(), 20, 0, text.as_bytes());
        assert_eq!((typed.status, typed.rule), (status, 0), "{text}");
    }
    let file = files::file(&words, 20);
    for (n, file, status) in [
        (48, &file[..15], 30),
        (48, &file[..100], 31),
        (48, &file[1..], 32),
        (46, &file[..], 35),
        (48, &file[..], 0),
    ] {
        assert_eq!(of_reply(raw::load(&mut vec![7; n], file)), (status, 0, 0));
    }
    let mut dead = sound();
    dead[8..10].copy_from_slice(&[0, EMPTY]);
    assert_eq!(of_reply(raw::load(&mut lent(), &files::file(&dead, 20))), (34, 0, 0));
}

/// A place and a rule that can be broken there, in turn.
fn turn(round: usize) -> (Place, u32) {
    let rules = |&place: &Place| place.rules().iter().map(move |&rule| (place, rule));
    let turns: Vec<_> = Place::ALL.iter().flat_map(rules).collect();
    turns[round % turns.len()]
}

#[test]
fn one_damaged_cell() {
    let mut random = Random::of("one damaged cell");
    let mut tally = tally::Rules::default();
    for round in 0..60_000 {
        let (capacity, (place, rule)) = (make::capacity(&mut random), turn(round));
        let runs = random.pick(&[Runs::Short, Runs::Recent, Runs::Any]);
        let (mut words, top) = make::sound(&mut random, capacity, runs);
        let Some(c) = break_cell(&mut random, &mut words, top, place, rule) else {
            continue;
        };
        assert_told(&words, top, c, rule);
        if c < top {
            // Nothing is written where a file is refused.
            let junk: Vec<u32> = words.iter().map(|word| !word).collect();
            let (reply, left) = compare_load(&junk, &files::file(&words, top)).expect("they agree");
            assert_eq!((reply.rule, reply.top, left), (rule, 0, junk));
        }
        // The case compares every function with the model, and the words that are left.
        let register = random.below(FIRST_HEAP_CELL);
        let ran =
            Case { words, top, calls: vec![10, 0, 0, 0], answers: vec![7; 2], register }.hold();
        let told = (3, rule, c as u32);
        assert_eq!(((ran.status, ran.rule, ran.value), ran.saved), (told, Some(told)));
        tally.add(place.name(), rule);
    }
    tally.print("one damaged cell");
    for place in Place::ALL {
        tally.assert_met(place.name(), place.rules(), 2_000);
    }
}

#[test]
fn one_damaged_cell_of_a_large_store() {
    let mut random = Random::of("one damaged cell of a large store");
    let mut tally = tally::Rules::default();
    for round in 0..2_000 {
        let (capacity, (place, rule)) = (random.pick(&[4096, 4095, 2048, 1000]), turn(round));
        let runs = random.pick(&[Runs::Short, Runs::Recent]);
        let (mut words, top) = make::sound(&mut random, capacity, runs);
        if let Some(c) = break_cell(&mut random, &mut words, top, place, rule) {
            assert_told(&words, top, c, rule);
            tally.add(place.name(), rule);
        }
    }
    tally.print("one damaged cell of a large store");
    for place in Place::ALL {
        tally.assert_met(place.name(), place.rules(), 50);
    }
}

/// What is told of two or more damaged cells is told of the lowest.
#[test]
fn some_damaged_cells() {
    let mut random = Random::of("some damaged cells");
    let mut met = [0; RULES.len()];
    for _ in 0..20_000 {
        let capacity = make::capacity(&mut random);
        let (mut words, top) = make::sound(&mut random, capacity, Runs::Any);
        let mut broken: Vec<(usize, u32)> = Vec::new();
        for _ in 0..random.within(2..=4) {
            let (place, rule) = turn(random.below(10));
            if let Some(c) = break_cell(&mut random, &mut words, top, place, rule) {
                broken.retain(|&(other, _)| other != c);
                broken.push((c, rule));
            }
        }
        if let Some(&(c, rule)) = broken.iter().min() {
            assert_told(&words, top, c, rule);
            met[rule as usize - 1] += 1;
        }
    }
    assert!(met.iter().all(|&count| count > 100), "{met:?}");
}
