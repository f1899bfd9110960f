//! A store as a file: what is written when it is saved, and what is read when it is loaded.
//!
//! A file ends with its trailer, four words: the distance in bytes from the end of the file back to
//! the first heap cell, the number of heap cells, the capacity and the edition. Before the trailer
//! stand the sixteen registers, and before these the heap cells of the collected store. All words
//! are little-endian. What stands before the first heap cell is no part of the store.
//!
//! A file is made as one list of words. One that is read becomes a store of its own, which is
//! checked and marked as any other, and is copied over the lent words at the very end. Nothing is
//! reckoned in 32 bits.

use crate::plain::{self, Reply, FIRST_HEAP_CELL, MAX_CELLS};

/// The edition of a file as it is described here.
pub const EDITION: u32 = 1;
/// The bytes of a trailer.
pub const TRAILER: usize = 16;

/// What saving answers.
#[derive(Clone, Copy, Debug, PartialEq, Eq)]
pub struct Saved {
    /// 0, or the number of the refusal.
    pub status: u32,
    /// The rule that the cell breaks where the status is 3, else 0.
    pub rule: u32,
    /// The number named beside the status.
    pub value: u32,
    /// The end of the occupied cells afterwards.
    pub top: usize,
    /// The bytes of the file; 0 where it is refused.
    pub length: usize,
}

/// The distance from the end of a file of so many heap cells back to the first of them, in bytes.
pub fn distance(heap_cells: u64) -> u64 {
    8 * (heap_cells + FIRST_HEAP_CELL as u64) + TRAILER as u64
}

/// The words as bytes.
fn bytes(words: &[u32]) -> Vec<u8> {
    words.iter().flat_map(|word| word.to_le_bytes()).collect()
}

/// The bytes as words, four for each.
fn words(bytes: &[u8]) -> Vec<u32> {
    let word = |four: &[u8]| u32::from_le_bytes(four.try_into().expect("four bytes"));
    bytes.chunks(4).map(word).collect()
}

/// A file of the cells below `top`, which is right if the store is sound and collected.
pub fn file(words: &[u32], top: usize) -> Vec<u8> {
    let (registers, heap) = words[..2 * top].split_at(2 * FIRST_HEAP_CELL);
    let heap_cells = top - FIRST_HEAP_CELL;
    let distance = distance(heap_cells as u64) as u32;
    let trailer = [distance, heap_cells as u32, words.len() as u32 / 2, EDITION];
    bytes(&[heap, registers, &trailer].concat())
}

/// Saving: the store is collected, and its file stands at the start of the space, with zeros after
/// it; or there is a refusal and nothing but zeros. 1 to 3 change no word of the store, and 22
/// leaves it collected.
pub fn save(words: &mut [u32], top: usize, space: &mut [u8]) -> Saved {
    space.fill(0);
    let Reply { status, rule, value, top } = plain::collect(words, top);
    if status != 0 {
        return Saved { status, rule, value, top, length: 0 };
    }
    let file = file(words, top);
    match space.get_mut(..file.len()) {
        None => Saved { status: 22, rule: 0, value: 0, top, length: 0 },
        Some(start) => {
            start.copy_from_slice(&file);
            Saved { status: 0, rule: 0, value: 0, top, length: file.len() }
        }
    }
}

/// The store in a file that is loaded into so many words, and its `top`, before any cell is judged.
///
/// # Errors
///
/// 30 to 33 or 35.
pub fn unjudged(lent: usize, file: &[u8]) -> Result<(Vec<u32>, usize), u32> {
    let Some(before) = file.len().checked_sub(TRAILER) else {
        return Err(30);
    };
    let (body, trailer) = file.split_at(before);
    let trailer: Vec<u64> = words(trailer).into_iter().map(u64::from).collect();
    let [told, heap_cells, capacity, edition] = trailer[..] else {
        unreachable!("a trailer is four words");
    };
    if edition != u64::from(EDITION) {
        return Err(31);
    }
    if told != distance(heap_cells) || told > file.len() as u64 {
        return Err(32);
    }
    let top = FIRST_HEAP_CELL as u64 + heap_cells;
    if capacity < top || capacity > MAX_CELLS as u64 {
        return Err(33);
    }
    if lent as u64 != 2 * capacity {
        return Err(35);
    }
    let cells = words(&body[file.len() - told as usize..]);
    let (heap, registers) = cells.split_at(2 * heap_cells as usize);
    let mut store = [registers, heap].concat();
    store.resize(lent, 0);
    Ok((store, top as usize))
}

/// The store in a file that is loaded into so many words, and its `top`.
///
/// # Errors
///
/// 30 to 35 or 3, as it is answered.
pub fn read(lent: usize, file: &[u8]) -> Result<(Vec<u32>, usize), Reply> {
    let refused = |status| Reply { status, rule: 0, value: 0, top: 0 };
    let (store, top) = unjudged(lent, file).map_err(refused)?;
    let checked = plain::check(&store, top);
    if checked.status != 0 {
        return Err(Reply { top: 0, ..checked });
    }
    if FIRST_HEAP_CELL + plain::live(&store, top) != top {
        return Err(refused(34));
    }
    Ok((store, top))
}

/// Loading: the words become the store in the file, whatever they were, with its `top`; or there is
/// a refusal with `top` 0, and they are as they were.
pub fn load(words: &mut [u32], file: &[u8]) -> Reply {
    match read(words.len(), file) {
        Ok((store, top)) => {
            words.copy_from_slice(&store);
            Reply { status: 0, rule: 0, value: 0, top }
        }
        Err(refused) => refused,
    }
}
