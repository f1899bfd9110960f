//! Texts counted as they come in pieces, measured against an ordinary counter that gets the same pieces, and against
//! the library where it types the whole text in.
//!
//! The counter is changed in its place by each piece, and takes what it holds for its own. The library is handed
//! numbers by value, any there are, so it looks through them with each piece and gives new ones back.

use zelmotar::raw;
use zelmotar_model::ordinary::Counter;
use zelmotar_model::plain::{self, FIRST_HEAP_CELL, MAX_CELLS, MAX_DEPTH};

use crate::{day, empty_store, least, micros, readings, seen, symbols, text_of};
use crate::{Contender, Copies, TYPED};

/// Bytes of the pieces, where a text does not come whole.
const PIECES: [usize; 3] = [256, 16, 1];

/// Prints one row: the library's time, that for each byte, and it as a multiple of the others.
fn row(name: &str, text: &[u8], piece: usize) {
    let (cells, _) = plain::read(text).expect("it is a text");
    let capacity = FIRST_HEAP_CELL + cells.len();
    let has_room = capacity <= MAX_CELLS;
    let store = empty_store(capacity.min(MAX_CELLS));
    let library: Contender = Box::new(|_, _, _| {
        let state = text.chunks(piece).fold(raw::text_start(), raw::text_feed);
        let raw::Counted { terms, most, .. } = raw::text_end(state);
        seen(terms, most)
    });
    let ordinary: Contender = Box::new(|_, _, _| {
        let mut counter = Counter::default();
        text.chunks(piece).for_each(|piece| counter.feed(piece));
        let (terms, most) = counter.end().expect("it is a text");
        seen(terms, most)
    });
    let typing: Contender = Box::new(|words, top, _| {
        let typed = raw::type_in(words, top, TYPED, text);
        seen(typed.top - top, typed.status as usize)
    });
    let mut contest = [Some(library), Some(ordinary), has_room.then_some(typing)];
    let told = contest.each_mut().map(|contender| {
        let mut words = store.0.clone();
        contender.as_mut().map(|contender| contender(&mut words, store.1, &mut []))
    });
    assert_eq!(told[0], told[1], "the counters differ");
    assert!(told[2].is_none_or(|typed| typed == seen(cells.len(), 0)), "the text is not typed in");

    let [library, others @ ..] = least(&store, Copies::several(&store), contest);
    let library = library.expect("the library is in every row");
    let per_byte = 1000.0 * library / text.len() as f64;
    let others = others.map(|other| match other {
        Some(other) => format!(" {} | {:.2} |", micros(other), library / other),
        None => " | |".to_string(),
    });
    println!("| count, {name} | {} | {per_byte:.2} |{}", micros(library), others.concat());
}

/// The table of counts.
pub fn table() {
    println!("\nTexts counted, whole and in pieces, and typed in whole.\n");
    println!(
        "| work | library, µs | per byte, ns | ordinary, µs | ratio | typing, µs | ratio |\n\
         |---|--:|--:|--:|--:|--:|--:|"
    );
    let nest = ["(".repeat(MAX_DEPTH), ")".repeat(MAX_DEPTH)].concat();
    for (name, text) in [
        ("4000 symbols", symbols(4000)),
        ("60000 symbols", symbols(60_000)),
        ("64 brackets inside one another, 60 times", [&nest[..]; 60].join(" ").into_bytes()),
        ("day", text_of(&day())),
        ("readings", text_of(&readings(4096))),
    ] {
        row(&format!("{name}, whole"), &text, text.len());
        for piece in PIECES {
            let bytes = if piece == 1 { "byte" } else { "bytes" };
            row(&format!("{name}, {piece} {bytes} a piece"), &text, piece);
        }
    }
}
