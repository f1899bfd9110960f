//! Random registers, printed into text spaces of every length about that of the text.

use zelmotar_model::make::{self, Runs};
use zelmotar_model::plain::{put, Cell, Text, FIRST_HEAP_CELL};
use zelmotar_model::random::Random;

use crate::case::{compare_print, listed};
use crate::pages::next_is_high;
use crate::shrink::lessened;
use crate::tally::{Prints, PRINT_STATUSES};

/// What goes into a print.
#[derive(Clone, Debug)]
struct Print {
    words: Vec<u32>,
    top: usize,
    register: usize,
    space: Vec<u8>,
}

impl Print {
    /// A print into a space of about the length at which the text ends or is stopped, `most` at most.
    fn about(
        random: &mut Random,
        (words, top): (Vec<u32>, usize),
        register: usize,
        most: usize,
    ) -> Print {
        let end = make::text_end(&words, top, register, most);
        let space = make::text_space(random, end);
        Print { words, top, register, space }
    }

    /// Prints by library and model, and says what differs first.
    fn compare(&self) -> Result<Text, String> {
        // Two slices are lent, and each is to change sides from one print to the next.
        next_is_high();
        compare_print(&self.words, self.top, self.register, &self.space)
    }

    /// Prints and fails with a small version of it if anything differs.
    fn hold(&self) -> Text {
        self.compare().unwrap_or_else(|_| {
            let with = |words: &[u32], top| Print { words: words.to_vec(), top, ..self.clone() };
            let differs = |words: &[u32], top| with(words, top).compare().is_err();
            let (words, top) = lessened(&self.words, self.top, differs);
            let small = with(&words, top);
            let difference = small.compare().err().unwrap_or_default();
            let cells = listed(&words, top, self.register);
            panic!("{difference}\n{cells}a text space of {} bytes", self.space.len());
        })
    }

    /// Prints and counts it.
    fn count(&self, tally: &mut Prints) {
        let status = self.hold().status;
        let length = self.space.len();
        // Where all bytes of the space come before the bracket that is too many, its own does not fit.
        let at_end = || make::text_end(&self.words, self.top, self.register, length + 1) == length;
        tally.add(status, status == 21 && at_end());
    }
}

/// A store of a small capacity as a rule, with codes of all lengths.
fn store(random: &mut Random) -> (Vec<u32>, usize) {
    let capacity = make::capacity(random);
    let runs = random.pick(&[Runs::Short, Runs::Recent, Runs::Any]);
    let (mut words, top) = make::sound(random, capacity, runs);
    make::recode(random, &mut words, top);
    (words, top)
}

/// A store of brackets inside one another about as deep as may be, in `register`.
fn deep(random: &mut Random, register: usize) -> (Vec<u32>, usize) {
    let (brackets, most) = (random.within(62..=67), random.pick(&[0, 0, 1, 3]));
    make::nest(random, brackets, most, register)
}

#[test]
fn sound_stores() {
    let mut random = Random::of("sound stores in prints");
    let mut tally = Prints::default();
    for _ in 0..40_000 {
        let ((mut words, top), register) = (store(&mut random), random.below(19));
        // Most registers of a random store are empty.
        if register < FIRST_HEAP_CELL && random.one_in(2) {
            let ends = make::run(&mut random, top, Runs::Recent);
            put(&mut words, register, ends.map_or(Cell::Empty, |(l, r)| Cell::Bracket(l, r)));
        }
        Print::about(&mut random, (words, top), register, 1_500).count(&mut tally);
    }
    tally.print("sound stores printed");
    tally.assert_met(&[0, 20, 22]);
}

#[test]
fn damaged_stores() {
    let mut random = Random::of("damaged stores in prints");
    let mut tally = Prints::default();
    for _ in 0..40_000 {
        let register = random.below(19);
        let (mut words, mut top) = match random.one_in(4) {
            true => deep(&mut random, register.min(15)),
            false => store(&mut random),
        };
        if random.below(3) > 0 {
            make::damage(&mut random, &mut words, &mut top);
        }
        let register = random.pick(&[register, register, register, 16, usize::MAX]);
        Print::about(&mut random, (words, top), register, 300).count(&mut tally);
    }
    tally.print("damaged stores printed");
    tally.assert_met(&PRINT_STATUSES);
}

#[test]
fn brackets_about_as_deep_as_may_be() {
    let mut random = Random::of("deep prints");
    let mut tally = Prints::default();
    for _ in 0..20_000 {
        let register = random.below(FIRST_HEAP_CELL);
        let store = deep(&mut random, register);
        Print::about(&mut random, store, register, 4_000).count(&mut tally);
    }
    tally.print("deep stores printed");
    tally.assert_met(&[0, 21, 22]);
}

#[test]
fn brackets_that_share_a_great_deal() {
    let mut random = Random::of("shared prints");
    let mut tally = Prints::default();
    for _ in 0..5_000 {
        let register = random.below(FIRST_HEAP_CELL);
        let levels = match random.below(4) {
            0 => random.within(1..=8),
            1 => 60,
            _ => random.within(55..=67),
        };
        let store = make::doubled(&mut random, levels, register);
        Print::about(&mut random, store, register, 5_000).count(&mut tally);
    }
    tally.print("shared stores printed");
    tally.assert_met(&[0, 21, 22]);
}

#[test]
fn large_stores() {
    let mut random = Random::of("large stores in prints");
    let mut tally = Prints::default();
    for _ in 0..500 {
        let capacity = random.pick(&[4096, 4096, 4095, 2048, 1000]);
        let runs = random.pick(&[Runs::Short, Runs::Recent, Runs::Any]);
        let (mut words, top) = make::sound(&mut random, capacity, runs);
        make::recode(&mut random, &mut words, top);
        // A register over many cells has a long text.
        let register = random.below(FIRST_HEAP_CELL);
        if top > FIRST_HEAP_CELL && random.one_in(2) {
            put(&mut words, register, Cell::Bracket(FIRST_HEAP_CELL, top - 1));
        }
        Print::about(&mut random, (words, top), register, 60_000).count(&mut tally);
    }
    tally.print("large stores printed");
    tally.assert_met(&[0, 22]);
}

#[test]
fn spaces_of_every_length() {
    let mut random = Random::of("spaces of every length");
    let mut tally = Prints::default();
    for round in 0..300 {
        let register = random.below(FIRST_HEAP_CELL);
        let (words, top) = match round % 3 {
            0 => store(&mut random),
            1 => deep(&mut random, register),
            _ => make::doubled(&mut random, 60, register),
        };
        let end = make::text_end(&words, top, register, 250);
        let mut print = Print { words, top, register, space: Vec::new() };
        for length in 0..=end + 4 {
            print.space = (0..length).map(|_| random.word() as u8).collect();
            print.count(&mut tally);
        }
    }
    tally.print("spaces of every length");
    tally.assert_met(&[0, 21, 22]);
}
