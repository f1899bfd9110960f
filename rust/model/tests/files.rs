//! Files, held against what is said of them word for word.

use std::collections::BTreeMap;

use zelmotar_model::files::{self, Saved};
use zelmotar_model::make::files::{collected, Kind};
use zelmotar_model::make::rules::Place;
use zelmotar_model::make::{self, Runs};
use zelmotar_model::ordinary::{Better, Checks, Marks, Ordinary, Usual, WithBits};
use zelmotar_model::plain::{self, Cell, Reply, FIRST_HEAP_CELL};
use zelmotar_model::random::Random;

/// The second word of an empty bracket.
const EMPTY: u32 = 1 << 31;

/// Words of the given capacity with sixteen empty registers, then `cells` put over them.
fn words(capacity: usize, cells: &[(usize, [u32; 2])]) -> Vec<u32> {
    let mut words = vec![0; 2 * capacity];
    plain::fresh(&mut words);
    for &(c, cell) in cells {
        words[2 * c..2 * c + 2].copy_from_slice(&cell);
    }
    words
}

/// The words as bytes, the lowest first.
fn bytes(words: &[u32]) -> Vec<u8> {
    words.iter().flat_map(|word| [0, 8, 16, 24].map(|shift| (word >> shift) as u8)).collect()
}

/// A file of heap cells, of registers that are empty after the given ones, and of a trailer.
fn file(heap: &[u32], registers: &[u32], trailer: [u32; 4]) -> Vec<u8> {
    let empty = [0, EMPTY].repeat(FIRST_HEAP_CELL - registers.len() / 2);
    bytes(&[heap, registers, &empty, &trailer].concat())
}

/// What saving answers and leaves: the words and the bytes of a space of so many.
fn saved(mut words: Vec<u32>, top: usize, n: usize) -> (Saved, Vec<u32>, Vec<u8>) {
    let mut space = vec![0xee; n];
    let saved = files::save(&mut words, top, &mut space);
    (saved, words, space)
}

/// Asserts that a file is answered so by so many words, and that these stay as they are.
#[track_caller]
fn assert_answers(lent: usize, file: &[u8], reply: Reply) {
    let mut words = vec![0x0bad_cafe; lent];
    assert_eq!(files::load(&mut words, file), reply);
    assert_eq!(words, vec![0x0bad_cafe; lent]);
}

/// Asserts that a file is refused by so many words, for no cell of it.
#[track_caller]
fn assert_refused(lent: usize, file: &[u8], status: u32) {
    assert_answers(lent, file, Reply { status, rule: 0, value: 0, top: 0 });
}

/// Asserts that a file is refused by so many words, for a cell and its rule.
#[track_caller]
fn assert_damaged(lent: usize, file: &[u8], cell: u32, rule: u32) {
    assert_answers(lent, file, Reply { status: 3, rule, value: cell, top: 0 });
}

#[test]
fn an_empty_store_takes_144_bytes() {
    let (saved, left, space) = saved(words(20, &[]), 16, 150);
    assert_eq!(saved, Saved { status: 0, rule: 0, value: 0, top: 16, length: 144 });
    assert_eq!(left, words(20, &[]));
    assert_eq!(space[..8], [0, 0, 0, 0, 0, 0, 0, 128]);
    assert_eq!(space[..128], space[..8].repeat(16));
    assert_eq!(space[128..144], [144, 0, 0, 0, 0, 0, 0, 0, 20, 0, 0, 0, 1, 0, 0, 0]);
    assert_eq!(space[144..], [0; 6]);
    let mut lent = vec![7; 40];
    assert_eq!(
        files::load(&mut lent, &space[..144]),
        Reply { status: 0, rule: 0, value: 0, top: 16 }
    );
    assert_eq!(lent, words(20, &[]));
}

/// P2: cells 16 to 22 are 70, which is dead, 65, 66, 67, 68 and brackets on 18..20 and 17..19.
fn p2() -> Vec<u32> {
    let heap = [[70, 0], [65, 0], [66, 0], [67, 0], [68, 0], [18, EMPTY + 20], [17, EMPTY + 19]];
    let cells = (16..).zip(heap).chain([(0, [21, EMPTY + 22])]);
    words(24, &cells.collect::<Vec<_>>())
}

/// P3: the same collected.
fn p3() -> Vec<u32> {
    let heap = [[65, 0], [66, 0], [67, 0], [68, 0], [17, EMPTY + 19], [16, EMPTY + 18]];
    let cells = (16..).zip(heap).chain([(0, [20, EMPTY + 21])]);
    words(24, &cells.collect::<Vec<_>>())
}

/// The file of both.
fn p3_file() -> Vec<u8> {
    let heap = [65, 0, 66, 0, 67, 0, 68, 0, 17, EMPTY + 19, 16, EMPTY + 18];
    file(&heap, &[20, EMPTY + 21], [192, 6, 24, 1])
}

#[test]
fn a_file_is_that_of_the_collected_store() {
    let done = Saved { status: 0, rule: 0, value: 0, top: 22, length: 192 };
    let longer = [p3_file(), vec![0; 3]].concat();
    assert_eq!(saved(p2(), 23, 192), (done, p3(), p3_file()));
    assert_eq!(saved(p2(), 23, 195), (done, p3(), longer));
    assert_eq!(saved(p3(), 22, 192), (done, p3(), p3_file()));
    for before in [vec![], vec![7; 9]] {
        let mut lent = vec![7; 48];
        let file = [before, p3_file()].concat();
        assert_eq!(files::load(&mut lent, &file), Reply { status: 0, rule: 0, value: 0, top: 22 });
        assert_eq!(lent, p3());
    }
}

#[test]
fn what_is_not_saved() {
    let refused = |status, top| Saved { status, rule: 0, value: 0, top, length: 0 };
    let odd = vec![7; 33];
    assert_eq!(saved(odd.clone(), 16, 200), (refused(1, 16), odd, vec![0; 200]));
    assert_eq!(saved(p2(), 25, 200), (refused(2, 25), p2(), vec![0; 200]));
    // The left end of cell 22 is above the right one then, and it is damaged whatever the space is.
    let mut damaged = p2();
    damaged[44] = 22;
    let told = Saved { status: 3, rule: 5, value: 22, top: 23, length: 0 };
    assert_eq!(saved(damaged.clone(), 23, 5), (told, damaged, vec![0; 5]));
    // The store is collected before the space is judged.
    assert_eq!(saved(p2(), 23, 191), (refused(22, 22), p3(), vec![0; 191]));
    assert_eq!(saved(p2(), 23, 0), (refused(22, 22), p3(), vec![]));
}

#[test]
fn each_refusal_of_a_load() {
    let empty = [144, 0, 20, 1];
    let with = |i: usize, word| {
        let mut trailer = empty;
        trailer[i] = word;
        file(&[], &[], trailer)
    };
    let good = with(0, 144);
    assert_refused(40, &[], 30);
    assert_refused(40, &good[129..], 30);
    for edition in [0, 2, 1 << 24, (1 << 31) + 1] {
        assert_refused(40, &with(3, edition), 31);
    }
    for distance in [0, 16, 143, 145, 152, (1 << 31) + 144] {
        assert_refused(40, &with(0, distance), 32);
    }
    for heap_cells in [1, 1 << 29, 1 << 30, 1 << 31, 7 << 29, u32::MAX] {
        assert_refused(40, &with(1, heap_cells), 32);
    }
    // Right as far as it goes, but the first byte of the first heap cell is missing.
    assert_refused(40, &good[1..], 32);
    assert_refused(40, &good[128..], 32);
    // Eight times 2^29 is nothing in 32 bits: the trailer alone, and less than it.
    for (distance, heap_cells) in [(16, (1 << 29) - 16), (8, (1 << 29) - 17), (0, u32::MAX - 17)] {
        assert_refused(40, &file(&[], &[], [distance, heap_cells, 20, 1]), 32);
    }
    // The distance of the most heap cells that have one in 32 bits.
    let most = (1 << 29) - 19;
    assert_refused(40, &file(&[], &[], [u32::MAX - 7, most, 20, 1]), 32);
    for capacity in [0, 15, 4097, (1 << 31) + 20, u32::MAX] {
        assert_refused(40, &with(2, capacity), 33);
    }
    // One cell more than there is room for.
    assert_refused(34, &file(&[7, 0, 8, 0], &[16, EMPTY + 17], [160, 2, 17, 1]), 33);
    let full = file(&[7, 0].repeat(4081), &[16, EMPTY + 4096], [32_792, 4081, 4096, 1]);
    assert_refused(8_192, &full, 33);
    for lent in [0, 20, 39, 41, 42, 80] {
        assert_refused(lent, &good, 35);
    }
    // Registers first, then heap cells from below.
    let damaged = [7, 0, 16, EMPTY + 17, 1 << 28, 0];
    assert_damaged(40, &file(&damaged, &[16, EMPTY + 18], [168, 3, 20, 1]), 17, 5);
    assert_damaged(40, &file(&damaged, &[16, EMPTY + 19], [168, 3, 20, 1]), 0, 5);
    assert_damaged(40, &file(&damaged, &[16, EMPTY + 18, 7, 0], [168, 3, 20, 1]), 1, 2);
    // A dead symbol, last and first.
    assert_refused(40, &file(&[7, 0, 8, 0], &[16, EMPTY + 16], [160, 2, 20, 1]), 34);
    assert_refused(40, &file(&[7, 0, 8, 0], &[17, EMPTY + 17], [160, 2, 20, 1]), 34);
    // A dead cell of zeros, which is no symbol.
    assert_damaged(40, &file(&[7, 0, 0, 0], &[16, EMPTY + 16], [160, 2, 20, 1]), 17, 4);
    assert_damaged(40, &file(&[0, 0], &[], [152, 1, 20, 1]), 16, 4);
    // Held by a dead bracket alone.
    assert_refused(40, &file(&[7, 0, 16, EMPTY + 16], &[], [160, 2, 20, 1]), 34);
}

#[test]
fn the_first_refusal_of_a_load_is_told() {
    // No edition either.
    assert_refused(40, &[0; 15], 30);
    // The distance is wrong too.
    assert_refused(40, &file(&[], &[], [143, 0, 20, 2]), 31);
    // The capacity is not allowed either.
    assert_refused(40, &file(&[], &[], [143, 0, 15, 1]), 32);
    // Nor have the words its length.
    assert_refused(40, &file(&[], &[], [144, 0, 15, 1]), 33);
    // A cell is damaged too.
    assert_refused(40, &file(&[], &[7, 0], [144, 0, 21, 1]), 35);
    // Cell 16 is dead too, and 17 damaged.
    assert_damaged(40, &file(&[7, 0, 8, EMPTY], &[], [160, 2, 20, 1]), 17, 3);
    assert_refused(40, &file(&[7, 0, 8, 0], &[], [160, 2, 20, 1]), 34);
    // All at once, one mended after the other.
    let heap = [7, 0, 8, EMPTY];
    assert_refused(40, &file(&heap, &[], [159, 2, 4097, 0])[129 + 16..], 30);
    assert_refused(40, &file(&heap, &[], [159, 2, 4097, 0]), 31);
    assert_refused(40, &file(&heap, &[], [159, 2, 4097, 1]), 32);
    assert_refused(40, &file(&heap, &[], [160, 2, 4097, 1]), 33);
    assert_refused(40, &file(&heap, &[], [160, 2, 24, 1]), 35);
    assert_damaged(48, &file(&heap, &[], [160, 2, 24, 1]), 17, 3);
}

/// Whether every heap cell lies between the ends of a register or of a heap cell.
fn all_held(words: &[u32], top: usize) -> bool {
    let holds = |holder: &[u32], c: usize| match Cell::read(holder[0], holder[1]) {
        Some(Cell::Bracket(l, r)) => l <= c && c <= r,
        _ => false,
    };
    (FIRST_HEAP_CELL..top).all(|c| words[..2 * top].chunks(2).any(|holder| holds(holder, c)))
}

#[test]
fn a_file_is_refused_for_dead_cells_exactly_if_a_cell_is_held_by_none() {
    let mut random = Random::of("dead cells of files");
    let mut met = [0; 2];
    for _ in 0..20_000 {
        let capacity = random.within(16..=48);
        let file = make::files::file(&mut random, capacity, Kind::Uncollected);
        let lent = 2 * make::files::trailer_word(&file, 2).expect("it has a trailer") as usize;
        let (store, top) = files::unjudged(lent, &file).expect("its trailer is right");
        let mut loaded = vec![7; lent];
        let reply = files::load(&mut loaded, &file);
        match all_held(&store, top) {
            true => {
                assert_eq!(reply, Reply { status: 0, rule: 0, value: 0, top });
                assert_eq!(loaded, store);
            }
            false => {
                assert_eq!(reply, Reply { status: 34, rule: 0, value: 0, top: 0 }, "{store:?}")
            }
        }
        met[usize::from(reply.status == 34)] += 1;
    }
    assert!(met.iter().all(|&count| count > 2_000), "{met:?}");
}

#[test]
fn what_is_saved_is_loaded_again() {
    let mut random = Random::of("saved and loaded");
    let mut met = [0; 4];
    for _ in 0..20_000 {
        let capacity = make::capacity(&mut random);
        let runs = random.pick(&[Runs::Short, Runs::Recent, Runs::Any]);
        let (words, top) = match random.one_in(2) {
            true => collected(&mut random, capacity),
            false => make::sound(&mut random, capacity, runs),
        };
        let mut expected = words.clone();
        let live = plain::collect(&mut expected, top).value as usize;
        let length = 8 * (live + 16) + 16;
        let n = make::text_space(&mut random, length).len();
        let (told, left, space) = saved(words, top, n);
        assert_eq!((told.value, told.top, &left), (0, 16 + live, &expected));
        if n < length {
            assert_eq!((told.status, told.length, space), (22, 0, vec![0; n]));
            met[0] += 1;
            continue;
        }
        assert_eq!((told.status, told.length), (0, length));
        assert!(space[length..].iter().all(|&byte| byte == 0));
        let mut loaded: Vec<u32> = expected.iter().map(|_| random.word()).collect();
        let reply = files::load(&mut loaded, &space[..length]);
        assert_eq!(reply, Reply { status: 0, rule: 0, value: 0, top: told.top });
        assert_eq!(loaded, expected);
        assert_eq!(saved(loaded, reply.top, n), (told, expected, space));
        met[if live + 16 < top { 1 } else { 2 }] += 1;
        met[3] += usize::from(n > length);
    }
    assert!(met.iter().all(|&count| count > 1_000), "{met:?}");
}

/// Holds the quick store against the plain one: a store saved, and a file loaded.
fn same_as_plain<C: Checks, M: Marks>(
    quick: &mut Ordinary<C, M>,
    (words, top, space): (&[u32], usize, &[u8]),
    (lent, file): (&[u32], &[u8]),
) -> [u32; 2] {
    let mut ours = (words.to_vec(), space.to_vec());
    let mut theirs = ours.clone();
    let saved = files::save(&mut theirs.0, top, &mut theirs.1);
    assert_eq!(quick.save(&mut ours.0, top, &mut ours.1), saved);
    assert_eq!(ours, theirs);
    let (mut ours, mut theirs) = (lent.to_vec(), lent.to_vec());
    let loaded = files::load(&mut theirs, file);
    assert_eq!(quick.load(&mut ours, file), loaded);
    assert_eq!(ours, theirs);
    [saved.status, loaded.status]
}

#[test]
fn the_quick_files_are_the_plain_ones() {
    let mut random = Random::of("quick files");
    let (mut usual, mut bits) = (Usual::default(), WithBits::default());
    let mut better = Better::default();
    let mut met = [[0; 36]; 2];
    for round in 0..40_000 {
        let (capacity, kind) = (make::capacity(&mut random), Kind::ALL[round % Kind::ALL.len()]);
        let runs = random.pick(&[Runs::Short, Runs::Recent, Runs::Any]);
        let (mut words, mut top) = make::sound(&mut random, capacity, runs);
        if random.one_in(3) {
            make::damage(&mut random, &mut words, &mut top);
        }
        let space = make::files::space(&mut random, &words, top);
        let file = make::files::file(&mut random, capacity, kind);
        let lent = make::files::slice(&mut random, &file);
        let (store, load) = ((&words[..], top, &space[..]), (&lent[..], &file[..]));
        let told = same_as_plain(&mut usual, store, load);
        same_as_plain(&mut bits, store, load);
        same_as_plain(&mut better, store, load);
        told.iter().zip(&mut met).for_each(|(&status, met)| met[status as usize] += 1);
    }
    assert!([0, 1, 2, 3, 22].iter().all(|&status| met[0][status] > 100), "{met:?}");
    let loads = [0, 3, 30, 31, 32, 33, 34, 35];
    assert!(loads.iter().all(|&status| met[1][status] > 50), "{met:?}");
}

#[test]
fn random_files_are_of_every_kind() {
    let mut random = Random::of("kinds of files");
    for kind in Kind::ALL {
        let mut met = [0; 36];
        for _ in 0..10_000 {
            let capacity = make::capacity(&mut random);
            let file = make::files::file(&mut random, capacity, kind);
            let mut words = make::files::slice(&mut random, &file);
            let lent = words.clone();
            let reply = files::load(&mut words, &file);
            if reply.status != 0 {
                assert_eq!((reply.top, words), (0, lent));
            }
            met[reply.status as usize] += 1;
        }
        let often: &[usize] = match kind {
            Kind::Good | Kind::Lengthened => &[0, 35],
            Kind::CutAtEnd => &[0, 30, 31],
            Kind::CutAtFront => &[0, 32, 30],
            Kind::Flipped => &[0, 3, 31, 32, 33],
            Kind::Trailer => &[0, 31, 32, 33, 35],
            Kind::Wrapped => &[0, 3, 32],
            Kind::Uncollected => &[0, 34, 35],
            Kind::Damaged => &[0, 3, 35],
            Kind::Mixed => &[0, 3, 30, 31, 32, 33, 34, 35],
        };
        assert!(often.iter().all(|&status| met[status] > 15), "{kind:?}: {met:?}");
    }
}

#[test]
fn damaged_files_break_every_rule_in_every_place() {
    let mut random = Random::of("rules of files");
    let mut met = BTreeMap::new();
    for _ in 0..20_000 {
        let capacity = make::capacity(&mut random);
        let file = make::files::file(&mut random, capacity, Kind::Damaged);
        let lent = 2 * make::files::trailer_word(&file, 2).expect("it has a trailer") as usize;
        let (_, top) = files::unjudged(lent, &file).expect("its trailer is right");
        let reply = files::load(&mut vec![7; lent], &file);
        if reply.status == 3 {
            let place = Place::of(reply.value as usize, top);
            *met.entry((place, reply.rule)).or_insert(0) += 1;
        } else {
            assert_eq!(reply.rule, 0);
        }
    }
    let places = [Place::Register, Place::Occupied];
    let all = places.iter().flat_map(|&place| place.rules().iter().map(move |&rule| (place, rule)));
    assert!(met.keys().copied().eq(all), "{met:?}");
    assert!(met.values().all(|&count| count > 200), "{met:?}");
}
