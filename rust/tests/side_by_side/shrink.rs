//! Making a failing list or store smaller.

use zelmotar_model::plain::{put, Cell, FIRST_HEAP_CELL};

/// A shorter list that still fails, found by dropping stretches of it: halves first, single
/// elements last.
pub fn shrunk<T: Clone>(list: &[T], mut fails: impl FnMut(&[T]) -> bool) -> Vec<T> {
    let mut list = list.to_vec();
    let mut width = list.len();
    while width > 0 {
        let mut at = 0;
        while at < list.len() {
            let end = (at + width).min(list.len());
            let shorter = [&list[..at], &list[end..]].concat();
            if fails(&shorter) {
                list = shorter;
            } else {
                at = end;
            }
        }
        width /= 2;
    }
    list
}

/// A store with registers emptied, heap cells made symbols and cells taken off the end, wherever it
/// still fails: its words and `top`.
pub fn lessened(
    words: &[u32],
    top: usize,
    mut fails: impl FnMut(&[u32], usize) -> bool,
) -> (Vec<u32>, usize) {
    let (mut words, mut top) = (words.to_vec(), top);
    for c in 0..words.len() / 2 {
        let mut simpler = words.clone();
        put(&mut simpler, c, if c < FIRST_HEAP_CELL { Cell::Empty } else { Cell::Symbol(1) });
        if fails(&simpler, top) {
            words = simpler;
        }
    }
    while words.len() >= 2 {
        let shorter = &words[..words.len() - 2];
        let lower = top.min(shorter.len() / 2);
        if !fails(shorter, lower) {
            break;
        }
        (words, top) = (shorter.to_vec(), lower);
    }
    (words, top)
}

#[test]
fn a_store_is_lessened_to_what_is_needed() {
    let words: Vec<u32> = (0..60).map(|c| if c == 41 { 7 } else { 9 }).collect();
    let (words, top) = lessened(&words, 25, |words, _| words.len() > 44 && words[41] == 7);
    assert_eq!((words.len(), top), (46, 23));
    assert_eq!((&words[..2], &words[40..]), (&[0, 1 << 31][..], &[9, 7, 1, 0, 1, 0][..]));
}

#[test]
fn shrinking_leaves_what_is_needed() {
    let list: Vec<u32> = (0..100).collect();
    assert_eq!(shrunk(&list, |list| list.contains(&17) && list.contains(&80)), [17, 80]);
    assert_eq!(shrunk(&list, |_| true), []);
}
