//! How a store is written as a file, and a file read: its trailer by itself, all other words in two
//! stretches, a word at a time.

use crate::files::{EDITION, TRAILER};
use crate::plain::{FIRST_HEAP_CELL, MAX_CELLS};

/// Writes words as bytes, as many as there are.
fn put(bytes: &mut [u8], words: &[u32]) {
    for (four, word) in bytes.chunks_exact_mut(4).zip(words) {
        four.copy_from_slice(&word.to_le_bytes());
    }
}

/// Reads words from bytes, as many as there are.
fn take(words: &mut [u32], bytes: &[u8]) {
    for (word, four) in words.iter_mut().zip(bytes.chunks_exact(4)) {
        *word = u32::from_le_bytes([four[0], four[1], four[2], four[3]]);
    }
}

/// Writes the file of a collected store and gives its length, or 22. Nothing after it is touched.
pub fn write(words: &[u32], top: usize, space: &mut [u8]) -> Result<usize, u32> {
    let length = 8 * top + TRAILER;
    let file = space.get_mut(..length).ok_or(22u32)?;
    let (registers, heap) = words[..2 * top].split_at(2 * FIRST_HEAP_CELL);
    let (cells, trailer) = file.split_at_mut(8 * top);
    let (low, high) = cells.split_at_mut(4 * heap.len());
    put(low, heap);
    put(high, registers);
    let heap_cells = (top - FIRST_HEAP_CELL) as u32;
    put(trailer, &[length as u32, heap_cells, words.len() as u32 / 2, EDITION]);
    Ok(length)
}

/// The `top` that the trailer of a file for so many words tells, or 30 to 33 or 35.
pub fn judge(file: &[u8], lent: usize) -> Result<usize, u32> {
    let mut words = [0; TRAILER / 4];
    take(&mut words, file.last_chunk::<TRAILER>().ok_or(30u32)?);
    let [distance, heap_cells, capacity, edition] = words;
    let top = FIRST_HEAP_CELL as u64 + u64::from(heap_cells);
    let length = 8 * top + TRAILER as u64;
    if edition != EDITION {
        Err(31)
    } else if u64::from(distance) != length || length > file.len() as u64 {
        Err(32)
    } else if u64::from(capacity) < top || capacity as usize > MAX_CELLS {
        Err(33)
    } else if lent != 2 * capacity as usize {
        Err(35)
    } else {
        Ok(top as usize)
    }
}

/// Reads the cells below `top` of a file whose trailer is in order.
pub fn read(words: &mut [u32], file: &[u8]) {
    let cells = &file[file.len() - TRAILER - 4 * words.len()..];
    let (registers, heap) = words.split_at_mut(2 * FIRST_HEAP_CELL);
    take(heap, cells);
    take(registers, &cells[4 * heap.len()..]);
}
