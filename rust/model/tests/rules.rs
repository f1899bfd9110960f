//! The rules of cells, held against a list of cells, against what a cell was before it had a rule, and against
//! cells that are made to break one.

use std::collections::BTreeMap;

use zelmotar_model::files;
use zelmotar_model::make::rules::{break_cell, broken, Place};
use zelmotar_model::make::{self, Runs};
use zelmotar_model::ordinary::{Better, Checks, Marks, Ordinary, Usual, WithBits};
use zelmotar_model::plain::{self, broken_rule, Cell, Reply, Text, Typed, FIRST_HEAP_CELL};
use zelmotar_model::random::Random;

/// The second word of an empty bracket.
const EMPTY: u32 = 1 << 31;

/// The used bit and the two chain bits.
const USED: u32 = 1 << 30;
const LEFT: u32 = 1 << 29;
const RIGHT: u32 = 1 << 28;

/// A store of 18 cells with `top` 17, empty registers and the symbol 65 in cell 16, but for one cell.
fn with(c: usize, cell: [u32; 2]) -> Vec<u32> {
    let mut words = vec![0; 36];
    plain::fresh(&mut words);
    plain::put(&mut words, FIRST_HEAP_CELL, Cell::Symbol(65));
    words[2 * c..2 * c + 2].copy_from_slice(&cell);
    words
}

/// Cells of such a store, each with the rule that it breaks.
const CELLS: [(usize, [u32; 2], u32); 38] = [
    // A register.
    (0, [0, EMPTY], 0),
    (0, [16, EMPTY + 16], 0),
    (0, [16, EMPTY + USED + 16], 1),
    (0, [0, EMPTY + LEFT], 1),
    (0, [0, EMPTY + RIGHT], 1),
    (0, [65, USED], 1),
    (0, [16, EMPTY + LEFT], 1),
    (0, [17, EMPTY + RIGHT + 16], 1),
    (0, [65, 0], 2),
    (0, [0, 0], 2),
    (0, [16, 16], 2),
    (0, [1, EMPTY], 3),
    (0, [16, EMPTY], 3),
    (0, [17, EMPTY + 16], 5),
    (0, [15, EMPTY + 16], 5),
    (0, [0, EMPTY + 16], 5),
    (15, [16, EMPTY + 17], 5),
    // An occupied cell.
    (16, [0, EMPTY], 0),
    (16, [1, 0], 0),
    (16, [0x0fff_ffff, 0], 0),
    (16, [65, RIGHT], 1),
    (16, [0, RIGHT], 1),
    (16, [20, EMPTY + USED], 1),
    (16, [17, EMPTY + USED + 16], 1),
    (16, [16, EMPTY], 3),
    (16, [20, EMPTY], 3),
    (16, [0, 0], 4),
    (16, [65, 1], 4),
    (16, [0x1000_0000, 0], 4),
    (16, [0, 16], 4),
    (16, [16, EMPTY + 16], 5),
    (16, [0, EMPTY + 1], 5),
    // A free one.
    (17, [0, 0], 0),
    (17, [0, LEFT], 1),
    (17, [7, LEFT], 1),
    (17, [65, 0], 6),
    (17, [0, EMPTY], 6),
    (17, [0, 1], 6),
];

#[test]
fn the_rule_of_each_of_a_list_of_cells() {
    for (c, cell, rule) in CELLS {
        let words = with(c, cell);
        assert_eq!(broken_rule(&words, 17, c), rule, "cell {c} {cell:?}");
        let expected = match rule {
            0 => Reply { status: 0, rule, value: 0, top: 17 },
            _ => Reply { status: 3, rule, value: c as u32, top: 17 },
        };
        assert_eq!(plain::check(&words, 17), expected, "cell {c} {cell:?}");
    }
}

/// Whether a cell is sound, as it was said before there were numbers.
fn is_sound(words: &[u32], top: usize, c: usize) -> bool {
    let (first, second) = (words[2 * c], words[2 * c + 1]);
    if c >= top {
        return first == 0 && second == 0;
    }
    let limit = if c < FIRST_HEAP_CELL { top } else { c };
    match Cell::read(first, second) {
        None => false,
        Some(Cell::Symbol(_)) => c >= FIRST_HEAP_CELL,
        Some(Cell::Empty) => true,
        Some(Cell::Bracket(l, r)) => FIRST_HEAP_CELL <= l && l <= r && r < limit,
    }
}

/// Words about every edge of a rule, in a store of 24 cells with `top` 20.
fn edges() -> Vec<u32> {
    let near = [0, 1, 2, 15, 16, 17, 18, 19, 20, 21, 23, 24, 0x0fff_fffe, 0x0fff_ffff];
    let flags = (0..16).map(|flags| flags << 28);
    flags.flat_map(|flags| near.map(|word| flags | word)).collect()
}

#[test]
fn a_cell_breaks_a_rule_exactly_if_it_was_damaged_before() {
    let mut fresh = vec![0; 48];
    plain::fresh(&mut fresh);
    let mut met = BTreeMap::new();
    for c in [0, 7, 15, 16, 17, 18, 19, 20, 23] {
        for first in edges() {
            for second in edges() {
                (fresh[2 * c], fresh[2 * c + 1]) = (first, second);
                let rule = broken_rule(&fresh, 20, c);
                assert_eq!(rule == 0, is_sound(&fresh, 20, c), "cell {c} {first:#x} {second:#x}");
                *met.entry((Place::of(c, 20), rule)).or_insert(0) += 1;
            }
        }
    }
    let mut all = Vec::new();
    for place in Place::ALL {
        all.push((place, 0));
        all.extend(place.rules().iter().map(|&rule| (place, rule)));
    }
    assert!(met.keys().eq(&all), "{met:?}");
}

/// Counts by place and rule.
#[derive(Debug, Default)]
struct Met(BTreeMap<(Place, u32), usize>);

impl Met {
    fn add(&mut self, place: Place, rule: u32) {
        *self.0.entry((place, rule)).or_default() += 1;
    }

    /// Asserts that every rule was met in every place where it can be broken, and nothing else.
    fn assert_all(&self, least: usize) {
        let rules = |&place: &Place| place.rules().iter().map(move |&rule| (place, rule));
        assert!(self.0.keys().copied().eq(Place::ALL.iter().flat_map(rules)), "{self:?}");
        assert!(self.0.values().all(|&count| count >= least), "{self:?}");
    }
}

/// A place and a rule that can be broken there, in turn.
fn turn(round: usize) -> (Place, u32) {
    let rules = |&place: &Place| place.rules().iter().map(move |&rule| (place, rule));
    let turns: Vec<_> = Place::ALL.iter().flat_map(rules).collect();
    turns[round % turns.len()]
}

/// A sound store of a small capacity as a rule.
fn sound(random: &mut Random) -> (Vec<u32>, usize) {
    let capacity = make::capacity(random);
    let runs = random.pick(&[Runs::Short, Runs::Recent, Runs::Any]);
    make::sound(random, capacity, runs)
}

#[test]
fn cells_that_are_made_to_break_a_rule_break_it() {
    let mut random = Random::of("made to break a rule");
    let mut met = Met::default();
    for round in 0..60_000 {
        let ((mut words, top), (place, rule)) = (sound(&mut random), turn(round));
        if let Some(c) = break_cell(&mut random, &mut words, top, place, rule) {
            assert_eq!(Place::of(c, top), place);
            let told = Reply { status: 3, rule, value: c as u32, top };
            assert_eq!(plain::check(&words, top), told, "{:?}", &words[2 * c..2 * c + 2]);
            met.add(place, rule);
        }
    }
    met.assert_all(2_000);
}

/// A stray bit is made to come with every other fault that there is, and with none.
#[test]
fn stray_bits_come_with_every_other_rule() {
    let mut random = Random::of("stray bits beside");
    let mut met = BTreeMap::new();
    for (place, c) in Place::ALL.into_iter().zip([3, 18, 22]) {
        for _ in 0..20_000 {
            let [first, second] = broken(&mut random, 20, c, 1);
            let mut words = vec![0; 48];
            (words[2 * c], words[2 * c + 1]) = (first, second & !(USED | LEFT | RIGHT));
            *met.entry((place, broken_rule(&words, 20, c))).or_insert(0) += 1;
        }
    }
    let others = |place: Place| {
        let later = place.rules().iter().filter(|&&rule| rule != 1);
        [0].into_iter().chain(later.copied()).map(move |rule| (place, rule))
    };
    assert!(met.keys().copied().eq(Place::ALL.into_iter().flat_map(others)), "{met:?}");
    assert!(met.values().all(|&count| count > 50), "{met:?}");
}

/// Ends are made to be wrong in each way alone: too low, out of order or too high.
#[test]
fn bad_ends_are_bad_in_every_way() {
    let mut random = Random::of("bad ends");
    for (c, limit) in [(3, 20), (16, 16), (18, 18)] {
        let mut met = [0; 3];
        for _ in 0..5_000 {
            let [l, second] = broken(&mut random, 20, c, 5);
            let r = second - EMPTY;
            match (l < 16, l > r, r >= limit) {
                (true, false, false) => met[0] += 1,
                (false, true, false) => met[1] += 1,
                (false, false, true) => met[2] += 1,
                _ => {}
            }
        }
        assert!(met.iter().all(|&count| count > 50), "cell {c}: {met:?}");
    }
}

#[test]
fn random_damage_breaks_every_rule_in_every_place() {
    let mut random = Random::of("rules of damage");
    let mut met = Met::default();
    for _ in 0..60_000 {
        let (mut words, mut top) = sound(&mut random);
        make::damage(&mut random, &mut words, &mut top);
        let reply = plain::check(&words, top);
        match reply.status {
            3 => met.add(Place::of(reply.value as usize, top), reply.rule),
            _ => assert_eq!(reply.rule, 0),
        }
    }
    met.assert_all(200);
}

/// What a quick store answers of a store with a damaged cell: each entry with its name, and the file of it
/// loaded where the cell is below `top`.
fn told<C: Checks, M: Marks>(
    quick: &mut Ordinary<C, M>,
    words: &[u32],
    top: usize,
    c: usize,
) -> Vec<(&'static str, (u32, u32, usize))> {
    let lent = || words.to_vec();
    let reply = |Reply { status, rule, value, .. }| (status, rule, value as usize);
    let Text { status, rule, value, .. } = quick.print(words, top, 0, &mut [7; 9]);
    let printed = (status, rule, value);
    let Typed { status, rule, value, .. } = quick.type_in(&mut lent(), top, 0, b"1");
    let typed = (status, rule, value);
    let saved = quick.save(&mut lent(), top, &mut [7; 9]);
    let mut told = vec![
        ("check", reply(quick.check(words, top))),
        ("collect", reply(quick.collect(&mut lent(), top))),
        ("run", reply(quick.run(&mut lent(), top, &[], &mut []))),
        ("print", printed),
        ("type", typed),
        ("save", (saved.status, saved.rule, saved.value as usize)),
    ];
    if c < top {
        let file = files::file(words, top);
        told.push(("load", reply(quick.load(&mut vec![7; words.len()], &file))));
    }
    told
}

#[test]
fn the_quick_stores_tell_the_rule_in_every_entry() {
    let mut random = Random::of("quick rules");
    let (mut usual, mut bits) = (Usual::default(), WithBits::default());
    let mut better = Better::default();
    let mut met = Met::default();
    for round in 0..10_000 {
        let ((mut words, top), (place, rule)) = (sound(&mut random), turn(round));
        if let Some(c) = break_cell(&mut random, &mut words, top, place, rule) {
            let mut all = told(&mut usual, &words, top, c);
            all.extend(told(&mut bits, &words, top, c));
            all.extend(told(&mut better, &words, top, c));
            for (entry, told) in all {
                assert_eq!(told, (3, rule, c), "{entry} {:?}", &words[2 * c..2 * c + 2]);
            }
            met.add(place, rule);
        }
    }
    met.assert_all(300);
}
