//! Random stores saved as files, and files of every kind loaded.
//!
//! What is saved is loaded again, and what is loaded is saved again. A file that is refused leaves
//! the words that were lent for it as they were.

use zelmotar::raw;
use zelmotar_model::files::{self, Saved, EDITION};
use zelmotar_model::make::files::{collected, file, put_trailer_word, slice, trailer_word, Kind};
use zelmotar_model::make::{self, Runs};
use zelmotar_model::plain::{self, put, Cell, Reply, FIRST_HEAP_CELL, MAX_CELLS};
use zelmotar_model::random::{self, Random};
use zelmotar_model::trees::Trees;

use crate::case::{compare_load, compare_save, listed};
use crate::guarded::Guarded;
use crate::pages::next_is_high;
use crate::shrink::{lessened, shrunk};
use crate::tally::{Files, LOAD_STATUSES, SAVE_STATUSES};

/// What a store is saved as, for a tally.
const SAVED: &str = "saved";

/// What is said of a save.
const DEAD: &str = "dead cells went";
const KEPT: &str = "no cell was dead";
const EXACT: &str = "a space as long as the file";
const LONGER: &str = "a longer space";
const A_BYTE_SHORT: &str = "a space that is a byte short";
const NONE: &str = "no space";

/// What is said of a load. Where one name goes on from another, its cases are some of those of the
/// other.
const AT_REGISTER: &str = "3 at a register";
const AT_HEAP_CELL: &str = "3 at a heap cell";
const AT_WIPED_CELL: &str = "3 at a heap cell of zeros";
const HELD_BY_NONE: &str = "3, and some heap cell is held by none";
/// 3 by each rule that a cell of a file can break, from the first on.
const BY_RULE: [&str; 5] =
    ["3 by rule 1", "3 by rule 2", "3 by rule 3", "3 by rule 4", "3 by rule 5"];
const ONE_DEAD: &str = "34 for one cell";
const FIRST_DEAD: &str = "34 for one cell, the first";
const LAST_DEAD: &str = "34 for one cell, the last";
const FULL: &str = "done, and no cell is free";
const IGNORED: &str = "done, with bytes before it";

/// What goes into a save.
#[derive(Clone, Debug)]
struct Save {
    words: Vec<u32>,
    top: usize,
    space: Vec<u8>,
}

impl Save {
    /// A save into a space of about the length of the file.
    fn about(random: &mut Random, (words, top): (Vec<u32>, usize)) -> Save {
        let space = make::files::space(random, &words, top);
        Save { words, top, space }
    }

    /// Saves by library and model, and says what differs first. A good file is loaded again.
    fn compare(&self) -> Result<Saved, String> {
        // Two slices are lent, and each is to change sides from one save to the next.
        next_is_high();
        let (saved, words, space) = compare_save(&self.words, self.top, &self.space)?;
        match saved.status {
            0 => self.loaded_again(saved, &words, &space)?,
            22 => self.collected(saved.top, &words)?,
            _ if words != self.words || saved.top != self.top => {
                return Err("save: a store that is refused is written".to_string());
            }
            _ => {}
        }
        let after = &space[saved.length..];
        match after.iter().all(|&byte| byte == 0) && (saved.status == 0 || saved.length == 0) {
            true => Ok(saved),
            false => Err("save: the bytes after the file are not all zero".to_string()),
        }
    }

    /// Says whether what is left is the store as the library collects it.
    fn collected(&self, top: usize, words: &[u32]) -> Result<(), String> {
        let mut collected = self.words.clone();
        let reply = raw::collect(&mut collected, self.top);
        match (reply.top, &collected[..]) == (top, words) {
            true => Ok(()),
            false => Err("save: what is left is not the collected store".to_string()),
        }
    }

    /// Says whether a file, loaded into words that are junk, is the collected store, and whether the
    /// file of that is the same.
    fn loaded_again(&self, saved: Saved, words: &[u32], space: &[u8]) -> Result<(), String> {
        self.collected(saved.top, words)?;
        let file = &space[..saved.length];
        let junk: Vec<u32> = self.words.iter().map(|word| !word).collect();
        let (reply, loaded) = compare_load(&junk, file)?;
        if (reply.status, reply.top, &loaded[..]) != (0, saved.top, words) {
            return Err(format!("what is saved is loaded as another store: {reply:?}"));
        }
        let mut again = vec![0xee; space.len()];
        let told = raw::save(&mut loaded.clone(), reply.top, &mut again);
        match (told.length, &again[..]) == (saved.length, space) {
            true => Ok(()),
            false => Err(format!("the collected store is saved as another file: {told:?}")),
        }
    }

    /// Saves and fails with a small version of it if anything differs.
    fn hold(&self) -> Saved {
        self.compare().unwrap_or_else(|_| {
            let with = |words: &[u32], top| Save { words: words.to_vec(), top, ..self.clone() };
            let differs = |words: &[u32], top| with(words, top).compare().is_err();
            let (words, top) = lessened(&self.words, self.top, differs);
            let difference = with(&words, top).compare().err().unwrap_or_default();
            let (cells, n) = (listed(&words, top, 0), self.space.len());
            panic!("{difference}\n{cells}a space of {n} bytes");
        })
    }

    /// Saves and counts it.
    fn count(&self, tally: &mut Files) -> Saved {
        let saved = self.hold();
        let mut came = Vec::new();
        if [0, 22].contains(&saved.status) {
            let length = files::distance((saved.top - FIRST_HEAP_CELL) as u64) as usize;
            came.push(if saved.top < self.top { DEAD } else { KEPT });
            came.extend(match self.space.len() {
                0 => Some(NONE),
                n if n == length => Some(EXACT),
                n if n > length => Some(LONGER),
                n if n == length - 1 => Some(A_BYTE_SHORT),
                _ => None,
            });
        }
        tally.add(SAVED, saved.status, &came);
        saved
    }
}

/// The heap cells that lie between the ends of no bracket, register or heap cell. In a sound store
/// some cell is dead exactly if there is such a one.
fn held_by_none(words: &[u32], top: usize) -> impl Iterator<Item = usize> {
    let mut held = vec![false; top];
    for cell in words[..2 * top].chunks(2) {
        if let Some(Cell::Bracket(l, r)) = Cell::read(cell[0], cell[1]) {
            let end = top.min(r + 1);
            held[l.min(end)..end].fill(true);
        }
    }
    (FIRST_HEAP_CELL..top).filter(move |&c| !held[c])
}

/// What goes into a load.
#[derive(Clone, Debug)]
struct Load {
    words: Vec<u32>,
    file: Vec<u8>,
}

impl Load {
    /// Loads by library and model, and says what differs first. What is loaded is saved again.
    fn compare(&self) -> Result<Reply, String> {
        next_is_high();
        let (reply, words) = compare_load(&self.words, &self.file)?;
        if reply.status == 0 {
            self.saved_again(reply.top, &words)?;
        } else if (reply.top, &words) != (0, &self.words) {
            return Err("load: a file that is refused is loaded".to_string());
        }
        Ok(reply)
    }

    /// Says whether a store, saved, is the bytes from the first heap cell on, with no word changed.
    fn saved_again(&self, top: usize, words: &[u32]) -> Result<(), String> {
        let distance = files::distance((top - FIRST_HEAP_CELL) as u64) as usize;
        let body = &self.file[self.file.len() - distance..];
        let (mut ours, mut space) = (Guarded::around(words), Guarded::around(&vec![7; distance]));
        let told = raw::save(ours.lent(), top, space.lent());
        let expected = raw::Saved { status: 0, rule: 0, value: 0, top, length: distance };
        if told != expected || space.opened("file of what is loaded")? != body {
            return Err(format!("what is loaded is saved as another file: {told:?}"));
        }
        match ours.opened("what is loaded")? == words {
            true => Ok(()),
            false => Err("what is loaded is changed when it is saved".to_string()),
        }
    }

    /// Loads and fails with a small version of it if anything differs.
    fn hold(&self) -> Reply {
        self.compare().unwrap_or_else(|_| {
            let small = self.smaller();
            let difference = small.compare().err().unwrap_or_default();
            let (seed, n) = (random::seed(), small.words.len());
            panic!("{difference}\nseed {seed}: {n} words, the file {:?}", small.file);
        })
    }

    /// The load with as few bytes and as many zeros as still differs.
    fn smaller(&self) -> Load {
        let with = |file: &[u8]| Load { file: file.to_vec(), ..self.clone() };
        let mut small = with(&shrunk(&self.file, |file| with(file).compare().is_err()));
        for i in 0..small.file.len() {
            let mut simpler = small.clone();
            simpler.file[i] = 0;
            if simpler.compare().is_err() {
                small = simpler;
            }
        }
        small
    }

    /// Loads and counts it.
    fn count(&self, kind: Kind, tally: &mut Files) -> Reply {
        let reply = self.hold();
        tally.add(kind.name(), reply.status, &self.came(reply));
        reply
    }

    /// What came of it beside the status.
    fn came(&self, reply: Reply) -> Vec<&'static str> {
        let Ok((words, top)) = files::unjudged(self.words.len(), &self.file) else {
            return Vec::new();
        };
        let mut came = Vec::new();
        match reply.status {
            0 => {
                let distance = files::distance((top - FIRST_HEAP_CELL) as u64) as usize;
                came.extend((2 * top == words.len()).then_some(FULL));
                came.extend((distance < self.file.len()).then_some(IGNORED));
            }
            3 => {
                let c = reply.value as usize;
                let (in_heap, wiped) = (c >= FIRST_HEAP_CELL, words[2 * c..2 * c + 2] == [0, 0]);
                came.push(if in_heap { AT_HEAP_CELL } else { AT_REGISTER });
                came.push(BY_RULE[reply.rule as usize - 1]);
                came.extend((in_heap && wiped).then_some(AT_WIPED_CELL));
                came.extend(held_by_none(&words, top).next().map(|_| HELD_BY_NONE));
            }
            _ => {
                let dead: Vec<usize> = held_by_none(&words, top).collect();
                if let [c] = dead[..] {
                    let (first, last) = (c == FIRST_HEAP_CELL, c == top - 1);
                    came.push(ONE_DEAD);
                    came.extend(first.then_some(FIRST_DEAD));
                    came.extend(last.then_some(LAST_DEAD));
                }
            }
        }
        came
    }
}

/// A store of a small capacity as a rule, half of the time one with dead cells.
fn store(random: &mut Random) -> (Vec<u32>, usize) {
    let capacity = make::capacity(random);
    match random.one_in(2) {
        true => collected(random, capacity),
        false => {
            let runs = random.pick(&[Runs::Short, Runs::Recent, Runs::Any]);
            make::sound(random, capacity, runs)
        }
    }
}

#[test]
fn sound_stores_saved() {
    let mut random = Random::of("sound stores in saves");
    let mut tally = Files::default();
    for _ in 0..60_000 {
        let store = store(&mut random);
        let mut trees = Trees::denoted_by(&store.0, store.1);
        let save = Save::about(&mut random, store);
        let saved = save.count(&mut tally);
        if saved.status == 0 && random.one_in(4) {
            let mut space = save.space.clone();
            let told = raw::save(&mut save.words.clone(), save.top, &mut space);
            let mut loaded = vec![7; save.words.len()];
            let reply = raw::load(&mut loaded, &space[..told.length]);
            assert_eq!(trees.pool.denoted(&loaded, reply.top), trees.registers, "{save:?}");
        }
    }
    tally.print("sound stores saved");
    tally.assert_met(SAVED, &[0, 22], 5_000);
    tally.assert_came(&[DEAD, KEPT, EXACT, LONGER, A_BYTE_SHORT, NONE], 3_000);
}

#[test]
fn damaged_stores_saved() {
    let mut random = Random::of("damaged stores in saves");
    let mut tally = Files::default();
    for _ in 0..40_000 {
        let (mut words, mut top) = store(&mut random);
        if random.below(3) > 0 {
            make::damage(&mut random, &mut words, &mut top);
        }
        Save::about(&mut random, (words, top)).count(&mut tally);
    }
    tally.print("damaged stores saved");
    tally.assert_met(SAVED, &SAVE_STATUSES, 1_000);
}

#[test]
fn spaces_of_every_length() {
    let mut random = Random::of("spaces of files");
    let mut tally = Files::default();
    for _ in 0..60 {
        let capacity = random.within(16..=30);
        let (words, top) = make::sound(&mut random, capacity, Runs::Any);
        for length in 0..=files::distance((top - FIRST_HEAP_CELL) as u64) as usize + 4 {
            let space = (0..length).map(|_| random.word() as u8).collect();
            Save { words: words.clone(), top, space }.count(&mut tally);
        }
    }
    tally.print("spaces of every length");
    tally.assert_met(SAVED, &[0, 22], 300);
    tally.assert_came(&[EXACT, A_BYTE_SHORT, NONE], 60);
}

#[test]
fn files_of_every_kind() {
    let mut random = Random::of("files");
    let mut tally = Files::default();
    for round in 0..300_000 {
        let (capacity, kind) = (make::capacity(&mut random), Kind::ALL[round % Kind::ALL.len()]);
        let file = file(&mut random, capacity, kind);
        let words = slice(&mut random, &file);
        Load { words, file }.count(kind, &mut tally);
    }
    tally.print("files of every kind");
    for (kind, often) in [
        (Kind::Good, &[0, 35][..]),
        (Kind::Lengthened, &[0, 35]),
        (Kind::CutAtEnd, &[0, 30, 31, 35]),
        (Kind::CutAtFront, &[0, 30, 32, 35]),
        (Kind::Flipped, &[0, 3, 31, 32, 33, 35]),
        (Kind::Trailer, &[0, 31, 32, 33, 35]),
        (Kind::Wrapped, &[0, 3, 32]),
        (Kind::Uncollected, &[0, 34, 35]),
        (Kind::Damaged, &[0, 3, 35]),
        (Kind::Mixed, &LOAD_STATUSES),
    ] {
        tally.assert_met(kind.name(), often, 30);
    }
    tally.assert_came(&[AT_REGISTER, AT_HEAP_CELL, AT_WIPED_CELL], 1_000);
    tally.assert_came(&[HELD_BY_NONE, FULL, IGNORED], 1_000);
    tally.assert_came(&BY_RULE, 500);
    tally.assert_came(&[ONE_DEAD, FIRST_DEAD, LAST_DEAD], 200);
}

/// Small files in which every kind of cell occurs: no heap, one symbol, P3 and one as random.
fn small_files(random: &mut Random) -> Vec<Vec<u8>> {
    let store = |capacity: usize, cells: &[(usize, Cell)]| {
        let mut words = vec![0; 2 * capacity];
        plain::fresh(&mut words);
        cells.iter().for_each(|&(c, cell)| put(&mut words, c, cell));
        let top = cells.iter().map(|&(c, _)| c + 1).fold(FIRST_HEAP_CELL, usize::max);
        files::file(&words, top)
    };
    let symbols = [65, 66, 67, 68].map(Cell::Symbol);
    let p3 = (16..).zip(symbols).chain([
        (20, Cell::Bracket(17, 19)),
        (21, Cell::Bracket(16, 18)),
        (0, Cell::Bracket(20, 21)),
    ]);
    let (words, top) = collected(random, 30);
    vec![
        store(16, &[]),
        store(17, &[(16, Cell::Symbol(1)), (15, Cell::Bracket(16, 16))]),
        store(24, &p3.collect::<Vec<_>>()),
        store(20, &[(16, Cell::Empty), (17, Cell::Bracket(16, 16)), (3, Cell::Bracket(16, 17))]),
        files::file(&words, top),
    ]
}

/// As many words as a file asks for, if it may.
fn words_for(random: &mut Random, file: &[u8]) -> Vec<u32> {
    let cells = trailer_word(file, 2).unwrap_or(0).min(MAX_CELLS as u32);
    (0..2 * cells).map(|_| random.word()).collect()
}

#[test]
fn every_bit_of_small_files() {
    let mut random = Random::of("bits of files");
    let mut tally = Files::default();
    for file in small_files(&mut random) {
        let words = words_for(&mut random, &file);
        for bit in 0..8 * file.len() {
            let mut flipped = file.clone();
            flipped[bit / 8] ^= 1 << (bit % 8);
            // With the words that the file asks for, as it was and as it is.
            let asked = words_for(&mut random, &flipped);
            Load { words: words.clone(), file: flipped.clone() }.count(Kind::Flipped, &mut tally);
            Load { words: asked, file: flipped }.count(Kind::Flipped, &mut tally);
        }
    }
    tally.print("every bit of small files");
    tally.assert_met(Kind::Flipped.name(), &[0, 3, 31, 32, 33], 100);
    tally.assert_met(Kind::Flipped.name(), &[34, 35], 10);
    tally.assert_came(&BY_RULE, 50);
}

#[test]
fn every_cut_of_small_files() {
    let mut random = Random::of("cuts of files");
    let mut tally = Files::default();
    let good = small_files(&mut random);
    for file in &good {
        let words = words_for(&mut random, file);
        for length in 0..=file.len() {
            for (kind, cut) in [
                (Kind::CutAtEnd, &file[..length]),
                (Kind::CutAtFront, &file[file.len() - length..]),
            ] {
                let reply =
                    Load { words: words.clone(), file: cut.to_vec() }.count(kind, &mut tally);
                assert_eq!(reply.status == 0, length == file.len(), "{length} bytes of {file:?}");
            }
        }
        // After another file, and such that the other is what is left when bytes are cut off.
        for other in &good {
            let both = [&other[..], file].concat();
            let mut load = Load { words: words.clone(), file: both.clone() };
            assert_eq!(load.count(Kind::Lengthened, &mut tally).status, 0);
            load = Load { words: words_for(&mut random, other), file: both };
            load.file.truncate(other.len());
            assert_eq!(load.count(Kind::CutAtEnd, &mut tally).status, 0);
        }
    }
    tally.print("every cut of small files");
    tally.assert_met(Kind::CutAtEnd.name(), &[30, 31], 50);
    tally.assert_met(Kind::CutAtFront.name(), &[30, 32], 50);
}

/// A file with a word of its trailer changed.
fn with_trailer_word(file: &[u8], i: usize, word: u32) -> Vec<u8> {
    let mut file = file.to_vec();
    put_trailer_word(&mut file, i, word);
    file
}

#[test]
fn trailers_about_every_power_of_two() {
    let mut random = Random::of("trailers");
    let mut tally = Files::default();
    for file in small_files(&mut random) {
        for i in 0..4 {
            let right = trailer_word(&file, i).expect("it has a trailer");
            for power in 0..=32 {
                for little in 0..48 {
                    for from in [0, right] {
                        let word = u64::from(from) + (1 << power) + little - 24;
                        let file = with_trailer_word(&file, i, word as u32);
                        let words = words_for(&mut random, &file);
                        Load { words, file }.count(Kind::Trailer, &mut tally);
                    }
                }
            }
        }
    }
    tally.print("trailers about every power of two");
    tally.assert_met(Kind::Trailer.name(), &[0, 31, 32, 33], 1_000);
}

#[test]
fn distances_that_are_right_in_32_bits() {
    let mut random = Random::of("distances");
    let mut tally = Files::default();
    for file in small_files(&mut random) {
        let capacity = trailer_word(&file, 2).expect("it has a trailer");
        for cells in 0..=file.len() as u32 / 8 + 2 {
            for rounds in 0..8 {
                // 8 times 2^29 is nothing in 32 bits, and 18 cells are registers and trailer.
                let heap_cells = cells.wrapping_sub(18).wrapping_add(rounds << 29);
                let told = heap_cells.wrapping_add(18).wrapping_mul(8);
                assert_eq!(told, 8 * cells);
                let file = with_trailer_word(&file, 0, told);
                let file = with_trailer_word(&file, 1, heap_cells);
                for capacity in [capacity, heap_cells.wrapping_add(16), 4096, heap_cells] {
                    let file = with_trailer_word(&file, 2, capacity);
                    let words = words_for(&mut random, &file);
                    let status = Load { words, file }.count(Kind::Wrapped, &mut tally).status;
                    assert!(status == 32 || rounds == 0 && cells >= 18, "{cells} {rounds}");
                }
            }
        }
    }
    tally.print("distances that are right in 32 bits");
    tally.assert_met(Kind::Wrapped.name(), &[0, 3, 32, 33], 10);
}

#[test]
fn slices_of_every_length() {
    let mut random = Random::of("slices for files");
    let mut tally = Files::default();
    for file in small_files(&mut random) {
        let right = words_for(&mut random, &file).len();
        for length in (0..=130).chain([8_190, 8_191, 8_192, 8_193, 8_194]) {
            let words = (0..length).map(|_| random.word()).collect();
            let reply = Load { words, file: file.clone() }.count(Kind::Good, &mut tally);
            assert_eq!(reply.status, if length == right { 0 } else { 35 }, "{length}");
        }
        // Whatever stands in them before: zeros, ones, a fresh store, the store itself.
        let mut itself = vec![0; right];
        assert_eq!(raw::load(&mut itself, &file).status, 0);
        let mut fresh = vec![0; right];
        assert_eq!(raw::fresh(&mut fresh).status, 0);
        for words in [vec![0; right], vec![u32::MAX; right], fresh, itself] {
            let reply = Load { words, file: file.clone() }.count(Kind::Good, &mut tally);
            assert_eq!(reply.status, 0);
        }
    }
    tally.print("slices of every length");
    tally.assert_met(Kind::Good.name(), &[35], 500);
}

#[test]
fn large_stores_saved_and_loaded() {
    let mut random = Random::of("large stores in files");
    let mut tally = Files::default();
    for round in 0..1_000 {
        let (capacity, kind) = (random.pick(&[4096, 4096, 4095, 2048]), Kind::ALL[round % 10]);
        let runs = random.pick(&[Runs::Short, Runs::Recent, Runs::Any]);
        let (mut words, top) = make::sound(&mut random, capacity, runs);
        if top > FIRST_HEAP_CELL && random.one_in(2) {
            put(&mut words, random.below(FIRST_HEAP_CELL), Cell::Bracket(FIRST_HEAP_CELL, top - 1));
        }
        Save::about(&mut random, (words, top)).count(&mut tally);
        let file = file(&mut random, capacity, kind);
        let words = slice(&mut random, &file);
        Load { words, file }.count(kind, &mut tally);
    }
    // As many heap cells as there may be, and one more.
    for heap_cells in [4080, 4081] {
        let top = FIRST_HEAP_CELL + heap_cells;
        let mut words = vec![0; 2 * top];
        plain::fresh(&mut words);
        put(&mut words, 0, Cell::Bracket(FIRST_HEAP_CELL, top - 1));
        (FIRST_HEAP_CELL..top).for_each(|c| put(&mut words, c, Cell::Symbol(c as u32)));
        let file = with_trailer_word(&files::file(&words, top), 2, 4096);
        let reply = Load { words: vec![7; 8192], file }.count(Kind::Good, &mut tally);
        assert_eq!(reply.status, if heap_cells == 4080 { 0 } else { 33 });
    }
    tally.print("large stores saved and loaded");
    tally.assert_met(SAVED, &[0, 22], 50);
    tally.assert_met(Kind::Lengthened.name(), &[0], 20);
    tally.assert_met(Kind::Damaged.name(), &[3], 20);
    tally.assert_met(Kind::Uncollected.name(), &[34], 5);
    tally.assert_met(Kind::Good.name(), &[33], 1);
}

#[test]
fn editions() {
    let mut random = Random::of("editions");
    let mut tally = Files::default();
    for file in small_files(&mut random) {
        for i in 0..2_000 {
            let edition = if i < 1_000 { i } else { random.word() };
            let file = with_trailer_word(&file, 3, edition);
            let words = words_for(&mut random, &file);
            let reply = Load { words, file }.count(Kind::Trailer, &mut tally);
            assert_eq!(reply.status, if edition == EDITION { 0 } else { 31 }, "{edition}");
        }
    }
    tally.print("editions");
    tally.assert_met(Kind::Trailer.name(), &[31], 9_000);
    tally.assert_met(Kind::Trailer.name(), &[0], 5);
}
