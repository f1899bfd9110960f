//! Stores saved and loaded, measured against a copy of as many words, the trailer's left out, and
//! against ordinary stores.
//!
//! A copy is the least that it can come to. The ordinary stores judge every cell and mark as the
//! library does, but may use memory beside the store, into which a file is read first.

use std::hint::black_box;

use zelmotar::raw;
use zelmotar_model::files::{self, Saved};
use zelmotar_model::ordinary::{Better, Usual};
use zelmotar_model::plain::{self, Cell, Reply, FIRST_HEAP_CELL};

use crate::{all_live, half_dead, least, micros, random, site, Contender, Copies, Lent};

/// The cells of each store, all of them occupied.
const CELLS: usize = 4096;

/// A full store whose heap cells are given by their addresses, those from `l` to `r` in register 0.
fn full(l: usize, r: usize, cell: impl Fn(usize) -> Cell) -> Lent {
    let (mut words, top) = crate::empty_store(CELLS);
    (top..CELLS).for_each(|c| plain::put(&mut words, c, cell(c)));
    plain::put(&mut words, 0, Cell::Bracket(l, r));
    (words, CELLS)
}

/// Symbols side by side, those from `l` to `r` in register 0.
fn symbols(l: usize, r: usize) -> Lent {
    full(l, r, |c| Cell::Symbol(c as u32))
}

/// Brackets around cells up to the one below them, the first of which is given by their addresses.
/// The topmost is in register 0.
fn brackets(first: impl Fn(usize) -> usize) -> Lent {
    full(CELLS - 1, CELLS - 1, |c| match c {
        FIRST_HEAP_CELL => Cell::Empty,
        _ => Cell::Bracket(first(c), c - 1),
    })
}

/// A store as it is collected.
fn collected((mut words, top): Lent) -> Lent {
    let top = plain::collect(&mut words, top).top;
    (words, top)
}

/// The library, a copy, the ordinary store and the better one.
type Contest<'a> = [Contender<'a>; 4];

/// Prints one row: the library's time, that for each cell, and it as a multiple of the others.
fn row(work: &str, store: &Lent, cells: usize, contest: Contest) {
    let timed = least(store, Copies::several(store), contest.map(Some));
    let [library, others @ ..] = timed.map(|time| time.expect("each is timed"));
    let per_cell = 1000.0 * library / cells as f64;
    let others = others.map(|other| format!(" {} | {:.2} |", micros(other), library / other));
    println!("| {work} | {} | {per_cell:.2} |{}", micros(library), others.concat());
}

/// A store that is saved into a space, as a contender.
fn saving<'a>(
    n: usize,
    mut save: impl FnMut(&mut [u32], usize, &mut [u8]) -> Saved + 'a,
) -> Contender<'a> {
    let mut space = vec![b'?'; n];
    Box::new(move |words, top, _| {
        let Saved { status, rule, value, top, .. } = save(words, top, &mut space);
        black_box(&space);
        Reply { status, rule, value, top }
    })
}

/// A way of saving a store into a space.
type Saves<'a> = &'a mut dyn FnMut(&mut [u32], usize, &mut [u8]) -> Saved;

/// Saves by the library.
fn library_saves(words: &mut [u32], top: usize, space: &mut [u8]) -> Saved {
    let raw::Saved { status, rule, value, top, length } = raw::save(words, top, space);
    Saved { status, rule, value, top, length }
}

/// Loads by the library.
fn library_loads(words: &mut [u32], file: &[u8]) -> Reply {
    let raw::Reply { status, rule, value, top } = raw::load(words, file);
    Reply { status, rule, value, top }
}

/// A row for a store that is saved into just so many bytes as its file has.
fn save(name: &str, store: &Lent) {
    let (words, top) = collected(store.clone());
    let file = files::file(&words, top);
    let (mut usual, mut better) = (Usual::default(), Better::default());
    let after = |save: Saves| {
        let (mut words, mut space) = (store.0.clone(), vec![b'?'; file.len()]);
        let saved = save(&mut words, store.1, &mut space);
        (saved, words, space)
    };
    let saved = Saved { status: 0, rule: 0, value: 0, top, length: file.len() };
    let expected = (saved, words, file.clone());
    assert!(after(&mut library_saves) == expected, "the library saves another file");
    assert!(after(&mut |words, top, space| usual.save(words, top, space)) == expected);
    assert!(after(&mut |words, top, space| better.save(words, top, space)) == expected);

    let mut copied = vec![0; 2 * top];
    let copy: Contender = Box::new(move |words, top, _| {
        let n = copied.len();
        copied.copy_from_slice(&words[..n]);
        black_box(&copied);
        Reply { status: 0, rule: 0, value: 0, top }
    });
    let contest = [
        saving(file.len(), library_saves),
        copy,
        saving(file.len(), move |words, top, space| usual.save(words, top, space)),
        saving(file.len(), move |words, top, space| better.save(words, top, space)),
    ];
    row(&format!("save, {name}"), store, store.1, contest);
}

/// A row for a file that is loaded, and answered with a status and a value.
fn load(name: &str, file: &[u8], status: u32, value: u32) {
    let (mut usual, mut better) = (Usual::default(), Better::default());
    let after = |load: &mut dyn FnMut(&mut [u32], &[u8]) -> Reply| {
        let mut words = vec![7; 2 * CELLS];
        (load(&mut words, file), words)
    };
    let expected = after(&mut |words, file| files::load(words, file));
    assert_eq!((expected.0.status, expected.0.value), (status, value), "{name}");
    assert!(after(&mut library_loads) == expected, "the library loads another store");
    assert!(after(&mut |words, file| usual.load(words, file)) == expected);
    assert!(after(&mut |words, file| better.load(words, file)) == expected);

    let cells = (file.len() - files::TRAILER) / 8;
    let body = vec![7; 2 * cells];
    let contest: Contest = [
        Box::new(|words, _, _| library_loads(words, file)),
        Box::new(|words, top, _| {
            words[..body.len()].copy_from_slice(&body);
            Reply { status: 0, rule: 0, value: 0, top }
        }),
        Box::new(move |words, _, _| usual.load(words, file)),
        Box::new(move |words, _, _| better.load(words, file)),
    ];
    row(&format!("load, {name}"), &(vec![7; 2 * CELLS], 0), cells, contest);
}

/// The table of files.
pub fn table() {
    println!("\nFiles of stores of {CELLS} cells, and copies of as many words.\n");
    println!(
        "| work | library, µs | per cell, ns | copy, µs | ratio | ordinary, µs | ratio | better, µs \
         | ratio |"
    );
    println!("|---|--:|--:|--:|--:|--:|--:|--:|--:|");
    let (first, last) = (FIRST_HEAP_CELL, CELLS - 1);
    let stores = [
        ("all live", all_live(CELLS)),
        ("symbols in one register", symbols(first, last)),
        ("a chain of brackets", brackets(|c| c - 1)),
        ("brackets around all below", brackets(|_| first)),
        ("site", site(CELLS, (CELLS - first) / 2)),
        ("random", collected(random(CELLS))),
    ];
    for (name, store) in &stores {
        save(name, store);
    }
    save("half dead", &half_dead(CELLS));
    for (name, (words, top)) in &stores {
        load(name, &files::file(words, *top), 0, 0);
    }
    for (name, (words, top)) in [
        ("half dead", half_dead(CELLS)),
        ("the first cell dead", symbols(first + 1, last)),
        ("the last cell dead", symbols(first, last - 1)),
    ] {
        load(name, &files::file(&words, top), 34, 0);
    }
    let (mut words, top) = symbols(first, last);
    words[2 * last + 1] = 1;
    load("the last cell damaged", &files::file(&words, top), 3, last as u32);
}
