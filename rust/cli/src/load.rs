//! `load`: a file that a store was saved to, and what the store holds.

use std::ffi::OsString;
use std::io::Write;

use zelmotar::{status_text, Refusal, Store, Trailer, EDITION, FIRST_HEAP_CELL, MAX_CELLS};

use crate::args::{Args, Takes};
use crate::cells::reached;
use crate::check::{damage, summary};
use crate::outcome::{Ended, Outcome, Stop};
use crate::{dump, input, run};

const TAKES: Takes = Takes {
    command: "load",
    flags: &[],
    valued: &["--dump"],
    names: "one saved store",
    count: (1, 1),
};

/// Loads the file that the words of the command line name, and shows the store.
///
/// # Errors
///
/// As [`Stop`] says; [`Stop::Refused`] if the library does not load the file.
pub fn command(words: &[OsString], out: &mut dyn Write) -> Ended {
    let args = Args::read(&TAKES, words)?;
    let input = input::read(&args.names[0])?;
    let store = Store::from_file(&input.bytes).map_err(|refusal| {
        Stop::Refused(format!("{}: {}", input.name, sentence(&input.bytes, refusal)))
    })?;
    if let Some(name) = args.value("--dump") {
        dump::write(name, &store)?;
    }
    writeln!(out, "Loaded from {} bytes: {}.", input.bytes.len(), summary(&store))?;
    run::registers(&store, out)?;
    Ok(Outcome::Done)
}

/// What is said of a file that the library does not load: the status, and what is wrong.
pub fn sentence(file: &[u8], refusal: Refusal) -> String {
    let why = match (refusal, Trailer::of(file)) {
        (Refusal::BadEdition, Some(trailer)) => {
            format!("it is {}, and only {EDITION} is known", trailer.edition)
        }
        (Refusal::BadDistance, Some(trailer)) => wrong_distance(trailer, file.len()),
        (Refusal::BadCapacity, Some(trailer)) => wrong_capacity(trailer),
        (Refusal::Damaged { .. }, Some(trailer)) => wrong_cell(&held(file, trailer)),
        (Refusal::NotCollected, Some(trailer)) => unreached(&held(file, trailer)),
        _ => format!("it has {} bytes, and a trailer has {}", file.len(), Trailer::BYTES),
    };
    let number = refusal.number();
    format!("refused with {number}: {}: {why}", status_text(number))
}

fn wrong_distance(Trailer { distance, heap_cells, .. }: Trailer, bytes: usize) -> String {
    let right = 8 * (u64::from(heap_cells) + FIRST_HEAP_CELL as u64) + Trailer::BYTES as u64;
    if u64::from(distance) == right {
        format!("it is {distance}, and the file has {bytes} bytes")
    } else {
        format!("it is {distance}, and for {heap_cells} heap cells must be {right}")
    }
}

fn wrong_capacity(Trailer { heap_cells, capacity, .. }: Trailer) -> String {
    let least = u64::from(heap_cells) + FIRST_HEAP_CELL as u64;
    format!("it is {capacity}, and must be at least {least} and at most {MAX_CELLS}")
}

/// The store in a file whose trailer is in order, whether it is sound or not.
fn held(file: &[u8], trailer: Trailer) -> Store {
    let (from, to) = (file.len() - trailer.distance as usize, file.len() - Trailer::BYTES);
    let mut words = dump::of_bytes(&file[from..to]).expect("cells are whole words");
    let heap_cells = trailer.heap_cells as usize;
    words.rotate_left(2 * heap_cells);
    words.resize(trailer.words(), 0);
    Store::from_parts(words, FIRST_HEAP_CELL + heap_cells)
}

/// The sentence about the damaged cell of a store, to stand behind a colon.
fn wrong_cell(store: &Store) -> String {
    damage(store).map_or(String::new(), |sentence| sentence.replacen("Cell", "cell", 1))
}

/// The first heap cell of a sound store that no register reaches.
fn unreached(store: &Store) -> String {
    let cell = reached(store).iter().position(|&is_reached| !is_reached);
    cell.map_or(String::new(), |cell| format!("no register reaches cell {cell}"))
}

#[cfg(test)]
mod tests {
    use super::*;
    use zelmotar_model::{files, make, random::Random};

    /// What is said of a file.
    fn says(file: &[u8]) -> String {
        sentence(file, Store::from_file(file).unwrap_err())
    }

    /// The file of a store of 20 cells whose registers 0 and 1 hold 65 and (66), with one of its
    /// words exchanged; from the end for a negative one.
    fn with(word: isize, other: u32) -> Vec<u8> {
        let mut store = Store::new(20).unwrap();
        store.type_str(0, "65").unwrap();
        store.type_str(1, "(66)").unwrap();
        let mut file = store.to_file().unwrap();
        let from = if word < 0 { file.len() } else { 0 };
        let at = from.wrapping_add_signed(4 * word);
        file[at..at + 4].copy_from_slice(&other.to_le_bytes());
        file
    }

    #[test]
    fn a_wrong_trailer_is_said_with_its_figures() {
        assert_eq!(
            says(&[0; 15]),
            "refused with 30: the file is too short: it has 15 bytes, and a trailer has 16"
        );
        assert_eq!(
            says(&with(-1, 7)),
            "refused with 31: the file is of no known edition: it is 7, and only 1 is known"
        );
        assert_eq!(
            says(&with(-3, 4)),
            "refused with 32: the file's distance is wrong: \
             it is 168, and for 4 heap cells must be 176"
        );
        assert_eq!(
            says(&with(-3, u32::MAX)),
            "refused with 32: the file's distance is wrong: \
             it is 168, and for 4294967295 heap cells must be 34359738504"
        );
        assert_eq!(
            says(&with(-1, 1)[1..]),
            "refused with 32: the file's distance is wrong: it is 168, and the file has 167 bytes"
        );
        for capacity in [18, 4097] {
            assert_eq!(
                says(&with(-2, capacity)),
                format!(
                    "refused with 33: the file's capacity is not allowed: \
                     it is {capacity}, and must be at least 19 and at most 4096"
                )
            );
        }
    }

    #[test]
    fn a_wrong_cell_is_named() {
        assert_eq!(
            says(&with(5, 0x8000_0012)),
            "refused with 3: a cell breaks its rule: cell 18, a heap cell, is damaged (rule 5): its \
             words are 17 and 2147483666 (0x00000011 0x80000012), and its right end, 18, is not \
             below the cell itself."
        );
        assert_eq!(
            says(&with(7, 0x8000_0013)),
            "refused with 3: a cell breaks its rule: cell 0, a register, is damaged (rule 5): its \
             words are 16 and 2147483667 (0x00000010 0x80000013), and its right end, 19, is not \
             below top, 19."
        );
        assert_eq!(
            says(&with(1, 1)),
            "refused with 3: a cell breaks its rule: cell 16, a heap cell, is damaged (rule 4): its \
             words are 65 and 1 (0x00000041 0x00000001), and a second word is 0, or has bit 31."
        );
        // The bracket becomes a symbol, and nothing holds what it held.
        assert_eq!(
            says(&with(5, 0)),
            "refused with 34: the file's store is not collected: no register reaches cell 17"
        );
    }

    /// Sound stores as files with their dead cells, which are loaded if there are none.
    #[test]
    fn an_unreached_cell_is_found_exactly_where_the_library_finds_one() {
        let mut random = Random::of("unreached");
        let mut found = [0; 2];
        for _ in 0..1000 {
            let capacity = make::capacity(&mut random);
            let (words, top) = make::sound(&mut random, capacity, make::Runs::Any);
            let file = files::file(&words, top);
            let store = Store::from_parts(words, top);
            let said = unreached(&store);
            match Store::from_file(&file) {
                Ok(loaded) => assert_eq!((loaded, said.as_str()), (store, "")),
                Err(refusal) => {
                    assert_eq!(refusal, Refusal::NotCollected);
                    assert_eq!(held(&file, Trailer::of(&file).unwrap()), store);
                    assert!(says(&file).ends_with(&said) && !said.is_empty());
                }
            }
            found[usize::from(said.is_empty())] += 1;
        }
        assert!(found.iter().all(|&count| count > 50), "{found:?}");
    }
}
