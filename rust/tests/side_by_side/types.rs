//! Random texts, typed into stores that have about as much room as they need.
//!
//! A third of the texts are those of an expression, a third have one byte changed, put in or taken out, and a
//! third are cut. What is typed is printed again, and what is printed is typed again.

use zelmotar::{raw, Refusal, Store};
use zelmotar_model::make::{self, Runs};
use zelmotar_model::plain::{self, put, Cell, Typed, FIRST_HEAP_CELL};
use zelmotar_model::random::Random;
use zelmotar_model::trees::Trees;

use crate::case::{compare_type, listed};
use crate::pages::next_is_high;
use crate::shrink::{lessened, shrunk};
use crate::tally::{Types, TYPE_STATUSES};

/// What goes into a typing.
#[derive(Clone, Debug)]
pub struct Type {
    pub words: Vec<u32>,
    pub top: usize,
    pub register: usize,
    pub text: Vec<u8>,
}

impl Type {
    /// A text for a store, which gets about as many cells as the text needs.
    fn about(
        random: &mut Random,
        (mut words, top): (Vec<u32>, usize),
        register: usize,
        text: Vec<u8>,
    ) -> Type {
        let need = plain::read(&text).map_or(3, |(cells, _)| cells.len());
        make::crowd(random, &mut words, top, need);
        Type { words, top, register, text }
    }

    /// Types by library and model, and says what differs first.
    fn compare(&self) -> Result<Typed, String> {
        // Two slices are lent, and each is to change sides from one typing to the next.
        next_is_high();
        compare_type(&self.words, self.top, self.register, &self.text)
    }

    /// Types and fails with a small version of it if anything differs.
    pub fn hold(&self) -> Typed {
        self.compare().unwrap_or_else(|_| {
            let with_text = |text: &[u8]| Type { text: text.to_vec(), ..self.clone() };
            let text = shrunk(&self.text, |text| with_text(text).compare().is_err());
            let with = |words: &[u32], top| Type { words: words.to_vec(), top, ..with_text(&text) };
            let differs = |words: &[u32], top| with(words, top).compare().is_err();
            let (words, top) = lessened(&self.words, self.top, differs);
            let difference = with(&words, top).compare().err().unwrap_or_default();
            let cells = listed(&words, top, self.register);
            panic!("{difference}\n{cells}the text `{}`", text.escape_ascii());
        })
    }

    /// Types and counts it.
    fn count(&self, tally: &mut Types) -> Typed {
        let typed = self.hold();
        let need = plain::read(&self.text).map_or(0, |(cells, _)| cells.len());
        tally.add(typed.status, need > 0 && self.top + need > self.words.len() / 2);
        typed
    }
}

/// A store of a small capacity as a rule.
fn store(random: &mut Random) -> (Vec<u32>, usize) {
    let capacity = make::capacity(random);
    let runs = random.pick(&[Runs::Short, Runs::Recent, Runs::Any]);
    make::sound(random, capacity, runs)
}

/// A register, and now and then a number that is none.
fn register(random: &mut Random) -> usize {
    match random.below(60) {
        0 => random.pick(&[16, 17, 1 << 32, usize::MAX]),
        _ => random.below(FIRST_HEAP_CELL),
    }
}

/// A text of one of the three kinds.
fn text(random: &mut Random, kind: usize) -> Vec<u8> {
    let mut text = make::text(random);
    match kind % 3 {
        0 => {}
        1 => make::spoil_text(random, &mut text),
        _ => make::cut_text(random, &mut text),
    }
    text
}

#[test]
fn sound_stores() {
    let mut random = Random::of("sound stores in types");
    let mut tally = Types::default();
    for kind in 0..120_000 {
        let (store, register) = (store(&mut random), register(&mut random));
        let text = text(&mut random, kind);
        Type::about(&mut random, store, register, text).count(&mut tally);
    }
    tally.print("sound stores typed in");
    tally.assert_met(&[0, 13, 16, 20, 21, 23], 500);
}

#[test]
fn damaged_stores() {
    let mut random = Random::of("damaged stores in types");
    let mut tally = Types::default();
    for kind in 0..60_000 {
        let (store, register) = (store(&mut random), register(&mut random));
        let text = text(&mut random, kind);
        let mut typing = Type::about(&mut random, store, register, text);
        if random.below(3) > 0 {
            make::damage(&mut random, &mut typing.words, &mut typing.top);
        }
        let before = typing.clone();
        let typed = typing.count(&mut tally);
        if (1..=3).contains(&typed.status) {
            let mut words = before.words.clone();
            let library = raw::type_in(&mut words, before.top, before.register, &before.text);
            assert_eq!((library.top, words), (before.top, before.words));
        }
    }
    tally.print("damaged stores typed in");
    tally.assert_met(&TYPE_STATUSES, 200);
}

#[test]
fn what_is_typed_is_printed_again() {
    let mut random = Random::of("printed after typed");
    let mut met = [0; 2];
    for kind in 0..40_000 {
        let (store, register) = (store(&mut random), random.below(FIRST_HEAP_CELL));
        let text = text(&mut random, kind);
        let Type { words, top, .. } = Type::about(&mut random, store, register, text.clone());
        let mut store = Store::from_parts(words, top);
        let before: Vec<_> = (0..16).map(|i| store.print_string(i, 2_000)).collect();
        let outcome = store.type_in(register, &text);
        for (i, before) in before.into_iter().enumerate() {
            // No other register changes, and where it is refused none does.
            if i != register || outcome.is_err() {
                assert_eq!(store.print_string(i, 2_000), before, "{outcome:?}");
            }
        }
        if outcome.is_err() {
            met[0] += 1;
            continue;
        }
        let mut space = vec![b'?'; text.len() + random.below(3)];
        let printed = store.print(register, &mut space);
        assert_eq!(printed.map(str::as_bytes), Ok(&text[..]));
        if let Some(shorter) = text.len().checked_sub(1) {
            let space = &mut vec![0; shorter];
            assert_eq!(store.print(register, space), Err(Refusal::ShortSpace));
        }
        met[1] += 1;
    }
    assert!(met.iter().all(|&count| count > 5_000), "{met:?}");
}

#[test]
fn what_is_printed_is_typed_again() {
    let mut random = Random::of("typed after printed");
    let (mut met, mut full) = ([0; 2], 0);
    for round in 0..20_000 {
        let (from, to) = (random.below(FIRST_HEAP_CELL), random.below(FIRST_HEAP_CELL));
        let (mut words, top) = match round % 4 {
            0 => {
                let brackets = random.within(60..=64);
                make::nest(&mut random, brackets, 1, from)
            }
            1 => {
                let levels = random.within(1..=5);
                make::doubled(&mut random, levels, from)
            }
            _ => store(&mut random),
        };
        make::recode(&mut random, &mut words, top);
        if round % 4 > 1 {
            let ends = make::run(&mut random, top, Runs::Recent);
            put(&mut words, from, ends.map_or(Cell::Empty, |(l, r)| Cell::Bracket(l, r)));
        }
        let Ok(text) = Store::from_parts(&mut words[..], top).print_string(from, 4_000) else {
            continue;
        };
        let Type { words, top, text, .. } =
            Type::about(&mut random, (words, top), to, text.into_bytes());
        let mut trees = Trees::denoted_by(&words, top);
        let mut store = Store::from_parts(words, top);
        match store.type_in(to, &text) {
            Err(refusal) => {
                assert_eq!(refusal, Refusal::NoRoom);
                full += 1;
            }
            Ok(()) => {
                trees.registers[to] = trees.registers[from].clone();
                let space = &mut vec![0; text.len()];
                assert_eq!(store.print(to, space).map(str::as_bytes), Ok(&text[..]));
                met[usize::from(text.is_empty())] += 1;
            }
        }
        // Both registers denote the same now; or each what it did, where there was no room.
        assert_eq!(trees.pool.denoted(store.words(), store.top()), trees.registers);
    }
    assert!(met.iter().all(|&count| count > 1_000) && full > 500, "{met:?} {full}");
}

#[test]
fn large_stores() {
    let mut random = Random::of("large stores in types");
    let mut tally = Types::default();
    for round in 0..400 {
        let capacity = random.pick(&[4096, 4096, 4095, 2048, 1000]);
        let runs = random.pick(&[Runs::Short, Runs::Recent, Runs::Any]);
        let (words, top) = make::sound(&mut random, capacity, runs);
        let live = plain::live(&words, top);
        // About as many terms as there is room for, or as there are cells.
        let room = random.pick(&[capacity - FIRST_HEAP_CELL - live, capacity - FIRST_HEAP_CELL]);
        let count = (room + random.below(4)).saturating_sub(2);
        let term = random.pick(&["7", "268435455", "(8)", "()"]);
        let cells = if term == "(8)" { 2 } else { 1 };
        let mut text = vec![term; count / cells].join(" ").into_bytes();
        if round % 5 == 0 {
            make::spoil_text(&mut random, &mut text);
        }
        Type { words, top, register: random.below(16), text }.count(&mut tally);
    }
    tally.print("large stores typed in");
    tally.assert_met(&[0, 16, 23], 30);
}

#[test]
fn every_short_text() {
    const BYTES: &[u8] = b"012 ()x";
    let mut tally = Types::default();
    let mut words = vec![0; 2 * 19];
    let top = plain::fresh(&mut words).top;
    let (register, mut texts) = (3, vec![Vec::new()]);
    for _ in 0..=6 {
        for text in &texts {
            let typing = Type { words: words.clone(), top, register, text: text.clone() };
            typing.count(&mut tally);
        }
        // A text is not made longer after a byte that is refused.
        texts.retain(|text| plain::read(text).err().is_none_or(|(_, at)| at == text.len()));
        let longer = |text: &Vec<u8>, &byte: &u8| [&text[..], &[byte]].concat();
        let next = texts.iter().flat_map(|text| BYTES.iter().map(move |byte| longer(text, byte)));
        texts = next.collect();
    }
    tally.print("every short text");
    tally.assert_met(&[0, 23], 500);
    tally.assert_met(&[13], 100);
}

#[test]
fn every_byte_at_every_place() {
    let mut random = Random::of("every byte");
    let mut tally = Types::default();
    let nest = ["(".repeat(64), ")".repeat(64)].concat();
    for text in ["", "1 (2 (30) 4) 5 ()", "26843545 (268435455)", &nest] {
        let mut words = vec![0; 2 * (16 + 66)];
        let top = plain::fresh(&mut words).top;
        let mut typing = Type { words, top, register: 0, text: text.into() };
        for at in 0..=text.len() {
            for byte in 0..=255 {
                typing.text = text.into();
                typing.text.insert(at, byte);
                if at < text.len() && random.one_in(2) {
                    typing.text.remove(at + 1);
                }
                typing.count(&mut tally);
            }
            typing.text = text[..at].into();
            typing.count(&mut tally);
        }
    }
    tally.print("every byte at every place");
    tally.assert_met(&[0, 21, 23], 20);
    tally.assert_met(&[13], 1);
}
