//! Files: S1 to S8, which are saved, and L1 to L13, which are loaded.

use zelmotar::raw::{self, Reply, Saved};

use super::{closed_up, lone, overlapping, words, EMPTY};

/// What saving into so many bytes answers, and the words and the bytes that it leaves.
fn saved(words: &[u32], top: usize, n: usize) -> (Saved, Vec<u32>, Vec<u8>) {
    let (mut words, mut space) = (words.to_vec(), vec![0xee; n]);
    let saved = raw::save(&mut words, top, &mut space);
    (saved, words, space)
}

/// A store that is saved, `top` and the words after it, and its file with so many zeros behind it.
fn done(top: usize, words: Vec<u32>, file: Vec<u8>, zeros: usize) -> (Saved, Vec<u32>, Vec<u8>) {
    let length = file.len();
    (Saved { status: 0, rule: 0, value: 0, top, length }, words, [file, vec![0; zeros]].concat())
}

/// A refusal, `top` and the words after it, and its space.
fn no_file(status: u32, top: usize, words: Vec<u32>, zeros: usize) -> (Saved, Vec<u32>, Vec<u8>) {
    (Saved { status, rule: 0, value: 0, top, length: 0 }, words, vec![0; zeros])
}

/// The refusal of a damaged cell by its rule, `top` and the words after it, and its space.
fn damaged_file(
    cell: u32,
    rule: u32,
    top: usize,
    words: Vec<u32>,
    zeros: usize,
) -> (Saved, Vec<u32>, Vec<u8>) {
    (Saved { status: 3, rule, value: cell, top, length: 0 }, words, vec![0; zeros])
}

/// The file of these heap cells and of register 0, the others being empty, and its trailer.
fn file(heap: &[u32], register: [u32; 2], trailer: [u32; 4]) -> Vec<u8> {
    let others = [0, EMPTY].repeat(15);
    let words = [heap, &register, &others, &trailer].concat();
    words.iter().flat_map(|word| word.to_le_bytes()).collect()
}

/// A file without heap cells, and its trailer.
fn bare(trailer: [u32; 4]) -> Vec<u8> {
    file(&[], [0, EMPTY], trailer)
}

/// That of a fresh store of 20 cells.
fn empty() -> Vec<u8> {
    bare([144, 0, 20, 1])
}

/// A file with one heap cell.
fn one(cell: [u32; 2], register: [u32; 2], capacity: u32) -> Vec<u8> {
    file(&cell, register, [152, 1, capacity, 1])
}

/// That of P3, which is P2 collected.
fn full() -> Vec<u8> {
    let heap = [65, 0, 66, 0, 67, 0, 68, 0, 17, EMPTY + 19, 16, EMPTY + 18];
    file(&heap, [20, EMPTY + 21], [192, 6, 24, 1])
}

/// P2 with a left end that lies beyond its right end, in cell 21.
fn broken() -> Vec<u32> {
    let mut words = overlapping();
    words[42] = 23;
    words
}

#[test]
fn s1_a_fresh_store() {
    let fresh = words(20, &[]);
    assert_eq!(saved(&fresh, 16, 144), done(16, fresh, empty(), 0));
    let (bytes, brackets) = (empty(), [0, 0, 0, 0, 0, 0, 0, 128].repeat(16));
    assert_eq!(bytes[..128], brackets);
    assert_eq!(bytes[128..], [144, 0, 0, 0, 0, 0, 0, 0, 20, 0, 0, 0, 1, 0, 0, 0]);
}

#[test]
fn s2_and_s4_the_file_of_the_collected_store() {
    assert_eq!(saved(&overlapping(), 23, 192), done(22, closed_up(), full(), 0));
    assert_eq!(saved(&overlapping(), 23, 195), done(22, closed_up(), full(), 3));
    assert_eq!(saved(&closed_up(), 22, 192), done(22, closed_up(), full(), 0));
}

#[test]
fn s3_a_short_space_leaves_the_store_collected() {
    assert_eq!(saved(&overlapping(), 23, 191), no_file(22, 22, closed_up(), 191));
    assert_eq!(saved(&overlapping(), 23, 0), no_file(22, 22, closed_up(), 0));
}

#[test]
fn s5_to_s8_a_store_that_is_refused_is_not_collected() {
    assert_eq!(saved(&[7; 3], 0, 5), no_file(1, 0, vec![7; 3], 5));
    assert_eq!(saved(&broken(), 25, 5), no_file(2, 25, broken(), 5));
    assert_eq!(saved(&broken(), 23, 5), damaged_file(21, 5, 23, broken(), 5));
    assert_eq!(saved(&lone(0), 17, 5), damaged_file(16, 4, 17, lone(0), 5));
}

/// Asserts that a file is loaded into words that are junk.
#[track_caller]
fn assert_loaded(file: &[u8], top: usize, words: &[u32]) {
    let mut lent = vec![7; words.len()];
    assert_eq!(raw::load(&mut lent, file), Reply { status: 0, rule: 0, value: 0, top });
    assert_eq!(lent, words);
}

/// Asserts that a file is answered so by so many words, which stay as they are.
#[track_caller]
fn assert_answers(file: &[u8], n: usize, reply: Reply) {
    let mut lent = vec![7; n];
    assert_eq!(raw::load(&mut lent, file), reply);
    assert_eq!(lent, vec![7; n]);
}

/// Asserts that a file is refused by so many words, for no cell of it.
#[track_caller]
fn assert_refused(file: &[u8], n: usize, status: u32) {
    assert_answers(file, n, Reply { status, rule: 0, value: 0, top: 0 });
}

/// Asserts that a file is refused by so many words, for a cell and the rule that it breaks.
#[track_caller]
fn assert_damaged(file: &[u8], n: usize, cell: u32, rule: u32) {
    assert_answers(file, n, Reply { status: 3, rule, value: cell, top: 0 });
}

#[test]
fn l1_and_l2_what_was_saved_and_bytes_before_it() {
    assert_loaded(&empty(), 16, &words(20, &[]));
    assert_loaded(&full(), 22, &closed_up());
    assert_loaded(&[vec![7; 5], full()].concat(), 22, &closed_up());
}

#[test]
fn l3_no_trailer() {
    assert_refused(&[], 40, 30);
    assert_refused(&[7; 15], 40, 30);
}

#[test]
fn l4_the_edition_is_judged_before_the_distance() {
    assert_refused(&[7; 16], 40, 31);
    assert_refused(&bare([144, 0, 20, 2]), 40, 31);
    assert_refused(&bare([143, 0, 20, 0]), 40, 31);
}

#[test]
fn l5_and_l6_distances() {
    assert_refused(&bare([143, 0, 20, 1]), 40, 32);
    assert_refused(&bare([145, 0, 20, 1]), 40, 32);
    assert_refused(&bare([152, 1, 20, 1]), 40, 32);
    assert_refused(&empty()[1..], 40, 32);
    assert_refused(&empty()[128..], 40, 32);
    assert_refused(&bare([144, 536_870_912, 20, 1]), 40, 32);
    assert_refused(&bare([4_294_967_288, 536_870_893, 20, 1]), 40, 32);
    // The capacity is too small as well.
    assert_refused(&bare([143, 0, 15, 1]), 40, 32);
}

#[test]
fn l7_capacities() {
    assert_refused(&bare([144, 0, 15, 1]), 30, 33);
    assert_refused(&bare([144, 0, 4_097, 1]), 40, 33);
    let tight = one([65, 0], [16, EMPTY + 16], 16);
    assert_refused(&tight, 32, 33);
    // The slice has another length as well.
    assert_refused(&tight, 40, 33);
}

#[test]
fn l8_slices() {
    assert_refused(&empty(), 42, 35);
    assert_refused(&empty(), 39, 35);
    // A cell is damaged as well.
    assert_refused(&one([65, 1], [16, EMPTY + 16], 17), 32, 35);
}

#[test]
fn l9_and_l10_damaged_cells() {
    assert_damaged(&one([65, 1], [16, EMPTY + 16], 17), 34, 16, 4);
    assert_damaged(&one([65, 0], [17, EMPTY + 17], 17), 34, 0, 5);
    assert_damaged(&one([65, 1], [16, 16], 17), 34, 0, 2);
    // The cell is not reached either.
    assert_damaged(&one([65, 1], [0, EMPTY], 17), 34, 16, 4);
}

#[test]
fn l11_and_l12_a_cell_that_is_dead_and_the_same_held() {
    assert_refused(&one([65, 0], [0, EMPTY], 17), 34, 34);
    assert_loaded(&one([65, 0], [16, EMPTY + 16], 17), 17, &lone(65));
}

#[test]
fn l13_a_wiped_cell() {
    assert_damaged(&one([0, 0], [16, EMPTY + 16], 17), 34, 16, 4);
    // The cell is not reached either.
    assert_damaged(&one([0, 0], [0, EMPTY], 17), 34, 16, 4);
    assert_loaded(&one([1, 0], [16, EMPTY + 16], 17), 17, &lone(1));
}
