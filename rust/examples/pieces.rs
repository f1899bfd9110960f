//! Lines that a desk sends in pieces. What a line needs and how wide it is are known before anything of
//! it is laid, so only a line that has room and can be shown goes into register 0, in the place of the one before. A
//! byte that is refused is told by its place in the line, whichever piece it came in.
//!
//! Run it with `cargo run --release --example pieces`.

use zelmotar::{Counted, Pieces, Refusal, Store, FIRST_HEAP_CELL};

/// The cells of the store's heap. Nothing but register 0 is in use, so a line can have all of them.
const HEAP: usize = 12;

/// The most terms that can be shown side by side.
const COLUMNS: usize = 4;

/// Lines as they come, each in its pieces.
const LINES: [&[&str]; 5] = [
    &["(7 2 12", "0) (7 2 ", "125) (8 ", "1 12)"],
    &["(7 2 12", "0) (8  1", " 12)"],
    &["7 2 120 ", "7 2 125"],
    &["(7 2 12", "0) (7 2 ", "125) (8 ", "1 12) (9", " 2 40)"],
    &["(9 2 40", ")"],
];

/// Feeds the pieces one after the other, up to one with a byte that is refused.
fn count(pieces: &[&str]) -> Result<Counted, Refusal> {
    let mut text = Pieces::new();
    for piece in pieces {
        text = text.feed(piece.as_bytes());
        let Counted { terms, most } = text.so_far();
        println!("> {piece:8}  so far {terms} terms, at most {most} on one level");
        if text.refusal().is_some() {
            break;
        }
    }
    text.end()
}

/// Takes a line, unless it is refused.
fn take(store: &mut Store, pieces: &[&str]) -> Result<(), Refusal> {
    let Counted { terms, most } = count(pieces)?;
    if most > COLUMNS {
        println!("{most} terms on one level, and {COLUMNS} can be shown: nothing is laid");
    } else if terms > HEAP {
        println!("{terms} cells are needed, and there are {HEAP}: nothing is laid");
    } else {
        store.type_str(0, &pieces.concat())?;
        println!("{terms} cells are needed: register 0 is {}", store.look(0));
    }
    Ok(())
}

fn main() -> Result<(), Refusal> {
    let mut store = Store::new(FIRST_HEAP_CELL + HEAP)?;
    for pieces in LINES {
        if let Err(refusal) = take(&mut store, pieces) {
            println!("refused with {}: {refusal}", refusal.number());
        }
    }
    println!("register 0 is {}, top {}", store.look(0), store.top());
    Ok(())
}
