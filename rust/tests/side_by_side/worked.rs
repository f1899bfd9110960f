//! Rows that are worked out by hand: P1 to P16, T1 to T27, in [`files`] those of files, and the rows that are
//! only run.

mod files;

use zelmotar::raw::{self, Reply, Text, Typed};
use zelmotar::{Answer, Call, Fault, Refusal, Rule, Store};

/// The second word of an empty bracket.
const EMPTY: u32 = 2_147_483_648;

fn fresh(capacity: usize) -> Store {
    Store::new(capacity).expect("the capacity is allowed")
}

/// Words of the given capacity with sixteen empty registers, then `cells` put over them.
fn words(capacity: usize, cells: &[(usize, [u32; 2])]) -> Vec<u32> {
    let mut words = vec![0; 2 * capacity];
    words[..32].chunks_mut(2).for_each(|register| register[1] = EMPTY);
    for &(c, cell) in cells {
        words[2 * c..2 * c + 2].copy_from_slice(&cell);
    }
    words
}

fn refused(fault: Fault) -> Answer {
    Answer::Refused(fault)
}

/// What the check finds, a damaged cell with its rule.
fn checked(words: Vec<u32>, top: usize) -> Result<(), (u32, Rule)> {
    let damaged = |refusal: Refusal| (refusal.cell().zip(refusal.rule())).expect("it is damaged");
    Store::from_parts(words, top).check().map_err(damaged)
}

#[test]
fn p1_a_small_store_fills_up() {
    let mut store = fresh(20);
    let calls = [
        Call::Symbol { d: 0, code: 65 },
        Call::Symbol { d: 1, code: 66 },
        Call::Join { d: 2, a: 0, b: 1 },
        Call::Join { d: 3, a: 2, b: 0 },
        Call::Clear { d: 0 },
        Call::Clear { d: 1 },
        Call::Join { d: 3, a: 2, b: 2 },
        Call::Wrap { d: 3, a: 2 },
        Call::Live,
    ];
    let list: Vec<u32> = calls.iter().flat_map(|call| call.words()).collect();
    let mut answers = [9; 18];
    store.run_words(&list, &mut answers).expect("the batch is run");
    let lines: Vec<String> =
        answers.chunks(2).map(|answer| format!("{} {}", answer[0], answer[1])).collect();
    assert_eq!(lines, ["0 0", "0 0", "0 0", "16 0", "0 0", "0 0", "16 0", "0 0", "0 3"]);
    assert_eq!(store.top(), 19);
    let expected = words(
        20,
        &[
            (2, [16, 2_147_483_665]),
            (3, [18, 2_147_483_666]),
            (16, [65, 0]),
            (17, [66, 0]),
            (18, [16, 2_147_483_665]),
        ],
    );
    assert_eq!(store.words(), expected);
}

/// Overlapping runs: (B C D)(A B C) over one run of symbols, with a dead cell before them.
fn overlapping() -> Vec<u32> {
    words(
        24,
        &[
            (0, [21, EMPTY + 22]),
            (16, [70, 0]),
            (17, [65, 0]),
            (18, [66, 0]),
            (19, [67, 0]),
            (20, [68, 0]),
            (21, [18, EMPTY + 20]),
            (22, [17, EMPTY + 19]),
        ],
    )
}

/// The same collected. Its `top` is 22.
fn closed_up() -> Vec<u32> {
    words(
        24,
        &[
            (0, [20, EMPTY + 21]),
            (16, [65, 0]),
            (17, [66, 0]),
            (18, [67, 0]),
            (19, [68, 0]),
            (20, [17, EMPTY + 19]),
            (21, [16, EMPTY + 18]),
        ],
    )
}

#[test]
fn p2_and_p3_overlapping_runs_close_up_once() {
    let mut store = Store::from_parts(overlapping(), 23);
    assert_eq!(store.look(0).to_string(), "(66 67 68) (65 66 67)");
    assert_eq!(store.collect(), Ok(6));
    assert_eq!(store.top(), 22);
    assert_eq!(store.words(), closed_up());
    assert_eq!(store.look(0).to_string(), "(66 67 68) (65 66 67)");
    assert_eq!(store.collect(), Ok(6));
    assert_eq!((store.top(), store.words()), (22, &closed_up()[..]));
}

#[test]
fn p4_no_heap_at_all() {
    let mut store = fresh(16);
    assert_eq!(store.call(Call::Symbol { d: 0, code: 1 }), Ok(refused(Fault::Room)));
    assert_eq!(store.call(Call::Wrap { d: 0, a: 0 }), Ok(refused(Fault::Room)));
    assert_eq!(store.call(Call::Join { d: 0, a: 0, b: 0 }), Ok(Answer::Done));
    assert_eq!((store.top(), store.words()), (16, &words(16, &[])[..]));
}

#[test]
fn p5_the_largest_code() {
    let mut store = fresh(20);
    assert_eq!(store.call(Call::Symbol { d: 0, code: 268_435_455 }), Ok(Answer::Done));
    assert_eq!(store.call(Call::Symbol { d: 0, code: 268_435_456 }), Ok(refused(Fault::Code)));
    assert_eq!(store.call(Call::First { a: 0 }), Ok(Answer::Value(268_435_455)));
}

#[test]
fn p6_ends_of_a_bracket_in_cell_18() {
    let with_ends =
        |l, r| checked(words(24, &[(16, [1, 0]), (17, [2, 0]), (18, [l, EMPTY + r])]), 19);
    assert_eq!(with_ends(16, 17), Ok(()));
    assert_eq!(with_ends(16, 18), Err((18, Rule::BadEnds)));
    assert_eq!(with_ends(17, 16), Err((18, Rule::BadEnds)));
}

#[test]
fn p7_head_of_nothing_and_of_one_term() {
    let mut store = fresh(20);
    assert_eq!(store.call(Call::Head { d: 0, a: 0 }), Ok(refused(Fault::Empty)));
    assert_eq!(store.call(Call::Symbol { d: 0, code: 7 }), Ok(Answer::Done));
    let before = store.words().to_vec();
    assert_eq!(store.call(Call::Head { d: 0, a: 0 }), Ok(Answer::Done));
    assert_eq!(store.look(0).to_string(), "7");
    assert_eq!(store.words(), before);
}

#[test]
fn p8_the_operation_is_judged_before_the_register() {
    let mut answers = [9; 2];
    fresh(16).run_words(&[12, 99, 0, 0], &mut answers).expect("the batch is run");
    assert_eq!(answers, [10, 0]);
}

/// Symbols with these codes from cell 16 on, and registers with their ends.
fn symbols(capacity: usize, codes: &[u32], registers: &[(usize, u32, u32)]) -> Vec<u32> {
    let symbols = (16..).zip(codes).map(|(c, &code)| (c, [code, 0]));
    let registers = registers.iter().map(|&(register, l, r)| (register, [l, EMPTY + r]));
    words(capacity, &symbols.chain(registers).collect::<Vec<_>>())
}

/// Asserts what one call on a store answers, and `top` and every word after it.
#[track_caller]
fn assert_leaves(store: &mut Store, call: Call, answer: Answer, top: usize, words: &[u32]) {
    assert_eq!(store.call(call), Ok(answer), "{call}");
    assert_eq!((store.top(), store.words()), (top, words), "{call}");
}

#[test]
fn p9_room_in_place_of_a_symbol() {
    let (mut store, full) = (fresh(17), refused(Fault::Room));
    assert_leaves(&mut store, Call::Symbol { d: 0, code: 65 }, Answer::Done, 17, &lone(65));
    assert_leaves(&mut store, Call::Symbol { d: 0, code: 66 }, Answer::Done, 17, &lone(66));
    // A bracket around the symbol would hold it, and register 0 does.
    assert_leaves(&mut store, Call::Wrap { d: 0, a: 0 }, full, 17, &lone(66));
    assert_leaves(&mut store, Call::Wrap { d: 1, a: 0 }, full, 17, &lone(66));
    assert_leaves(&mut store, Call::Symbol { d: 1, code: 67 }, full, 17, &lone(66));
    // An empty bracket holds nothing.
    assert_leaves(&mut store, Call::Wrap { d: 0, a: 1 }, Answer::Done, 17, &nest(1).0);
}

#[test]
fn p9_room_above_top_is_taken_first() {
    let mut store = Store::from_parts(symbols(18, &[65], &[(0, 16, 16)]), 17);
    // The old symbol is dead then, and stays.
    let dead = symbols(18, &[65, 66], &[(0, 17, 17)]);
    assert_leaves(&mut store, Call::Symbol { d: 0, code: 66 }, Answer::Done, 18, &dead);
    // What needs no new cell collects nothing.
    let shared = symbols(18, &[65, 66], &[(0, 17, 17), (1, 17, 17)]);
    assert_leaves(&mut store, Call::Join { d: 1, a: 0, b: 2 }, Answer::Done, 18, &shared);
    assert_leaves(&mut store, Call::Join { d: 1, a: 2, b: 2 }, Answer::Done, 18, &dead);
    assert_eq!(typed(&shared, 18, 1, ""), set(18, dead));
}

#[test]
fn p10_room_beside_what_is_read() {
    // The calls need two cells. One is free, and the register that is set has one, which is read.
    let before = symbols(19, &[65, 66], &[(0, 16, 16), (1, 17, 17)]);
    let mut store = Store::from_parts(before.clone(), 18);
    for (d, a, b) in [(0, 0, 1), (1, 0, 1), (0, 1, 0), (0, 0, 0)] {
        let call = Call::Join { d, a, b };
        assert_leaves(&mut store, call, refused(Fault::Room), 18, &before);
    }
    let after = symbols(19, &[66, 66, 66], &[(0, 17, 18), (1, 16, 16)]);
    assert_leaves(&mut store, Call::Join { d: 0, a: 1, b: 1 }, Answer::Done, 19, &after);
}

#[test]
fn p11_room_that_another_register_holds_too() {
    let call = Call::Join { d: 2, a: 1, b: 0 };
    let registers = [(0, 16, 16), (1, 17, 17), (2, 18, 18), (3, 18, 18)];
    let before = symbols(20, &[65, 66, 67], &registers);
    let mut store = Store::from_parts(before.clone(), 19);
    assert_leaves(&mut store, call, refused(Fault::Room), 19, &before);
    assert_eq!(store.call(Call::Clear { d: 3 }), Ok(Answer::Done));
    let after = symbols(20, &[65, 66, 66, 65], &[(0, 16, 16), (1, 17, 17), (2, 18, 19)]);
    assert_leaves(&mut store, call, Answer::Done, 20, &after);
}

/// A full store: 70 is dead, register 0 holds 65, and register 1 holds 66 67. Its `top` is 20.
fn one_dead() -> Vec<u32> {
    symbols(20, &[70, 65, 66, 67], &[(0, 17, 17), (1, 18, 19)])
}

/// The same collected. Its `top` is 19.
fn none_dead() -> Vec<u32> {
    symbols(20, &[65, 66, 67], &[(0, 16, 16), (1, 17, 18)])
}

#[test]
fn p12_no_room_leaves_the_register_and_the_store_collected() {
    let mut store = Store::from_parts(one_dead(), 20);
    let call = Call::Join { d: 0, a: 1, b: 1 };
    assert_leaves(&mut store, call, refused(Fault::Room), 19, &none_dead());
    // Where there is room, what register 0 held goes with the dead symbol.
    let mut store = Store::from_parts(one_dead(), 20);
    let after = symbols(20, &[66, 67, 68], &[(0, 18, 18), (1, 16, 17)]);
    assert_leaves(&mut store, Call::Symbol { d: 0, code: 68 }, Answer::Done, 19, &after);
}

#[test]
fn p13_the_least_code() {
    let mut store = fresh(17);
    assert_leaves(&mut store, Call::Symbol { d: 0, code: 1 }, Answer::Done, 17, &lone(1));
    let none = Call::Symbol { d: 0, code: 0 };
    assert_leaves(&mut store, none, refused(Fault::Code), 17, &lone(1));
    assert_eq!(store.call(Call::First { a: 0 }), Ok(Answer::Value(1)));
}

#[test]
fn p14_a_wiped_cell_is_damaged_and_a_free_one_is_not() {
    assert_eq!(checked(lone(0), 17), Err((16, Rule::BadSymbol)));
    assert_eq!(checked(symbols(18, &[0, 65], &[]), 18), Err((16, Rule::BadSymbol)));
    assert_eq!(checked(symbols(18, &[65], &[]), 18), Err((17, Rule::BadSymbol)));
    assert_eq!(checked(symbols(18, &[65], &[]), 17), Ok(()));
}

/// Asserts the rules of some cells, each put into a store of 18 cells with `top` 17, empty registers and the
/// symbol 65 in cell 16.
#[track_caller]
fn assert_rules(rows: &[(usize, [u32; 2], u32)]) {
    for &(c, cell, rule) in rows {
        let words = words(18, &[(16, [65, 0]), (c, cell)]);
        let damaged = Reply { status: 3, rule, value: c as u32, top: 17 };
        assert_eq!(raw::check(&words, 17), damaged, "cell {c} {cell:?}");
    }
}

#[test]
fn p15_a_cell_for_each_rule() {
    let (used, left, right) = (1 << 30, 1 << 29, 1 << 28);
    assert_eq!(raw::check(&words(18, &[(16, [65, 0])]), 17).status, 0);
    assert_rules(&[
        (0, [16, EMPTY + used + 16], 1),
        (0, [65, 0], 2),
        (0, [16, EMPTY], 3),
        (0, [17, EMPTY + 16], 5),
        (16, [65, right], 1),
        (16, [16, EMPTY], 3),
        (16, [65, 1], 4),
        (16, [16, EMPTY + 16], 5),
        (17, [0, left], 1),
        (17, [65, 0], 6),
    ]);
}

#[test]
fn p16_the_first_of_two_rules() {
    let (used, left, right) = (1 << 30, 1 << 29, 1 << 28);
    assert_rules(&[
        (0, [65, used], 1),
        (0, [0, 0], 2),
        (0, [16, EMPTY + left], 1),
        (16, [0, right], 1),
        (16, [17, EMPTY + used + 16], 1),
        (17, [7, left], 1),
    ]);
}

/// What printing a register into so many bytes answers, and the bytes that it leaves.
fn printed(words: &[u32], top: usize, register: usize, n: usize) -> (Text, Vec<u8>) {
    let mut space = vec![0xee; n];
    let before = words.to_vec();
    let text = raw::print(words, top, register, &mut space);
    assert_eq!(words, before);
    (text, space)
}

/// A text that is done, and what is left of its space.
fn done(text: &str, zeros: usize) -> (Text, Vec<u8>) {
    let space = [text.as_bytes(), &vec![0; zeros]].concat();
    (Text { status: 0, rule: 0, value: 0, length: text.len() }, space)
}

/// A refusal, and its space.
fn no_text(status: u32, zeros: usize) -> (Text, Vec<u8>) {
    (Text { status, rule: 0, value: 0, length: 0 }, vec![0; zeros])
}

/// The refusal of a damaged cell, and its space.
fn damaged_text(cell: usize, rule: u32, zeros: usize) -> (Text, Vec<u8>) {
    (Text { status: 3, rule, value: cell, length: 0 }, vec![0; zeros])
}

/// `65 (66 67) ()` in register 1, and nothing in the others. Its `top` is 21.
fn three_terms() -> Vec<u32> {
    words(
        21,
        &[
            (1, [18, EMPTY + 20]),
            (16, [66, 0]),
            (17, [67, 0]),
            (18, [65, 0]),
            (19, [16, EMPTY + 17]),
            (20, [0, EMPTY]),
        ],
    )
}

/// So many brackets inside one another in register 0, the innermost empty; and `top`.
fn nest(brackets: u32) -> (Vec<u32>, usize) {
    let last = 15 + brackets;
    let mut words = words(last as usize + 1, &[(0, [last, EMPTY + last]), (16, [0, EMPTY])]);
    for c in 17..=last {
        words[2 * c as usize..][..2].copy_from_slice(&[c - 1, EMPTY + c - 1]);
    }
    (words, last as usize + 1)
}

/// One symbol in register 0. Its `top` is 17.
fn lone(code: u32) -> Vec<u32> {
    words(17, &[(0, [16, EMPTY + 16]), (16, [code, 0])])
}

#[test]
fn t1_a_text_that_fits_and_one_that_does_not() {
    let text = "65 (66 67) ()";
    assert_eq!(printed(&three_terms(), 21, 1, 13), done(text, 0));
    assert_eq!(printed(&three_terms(), 21, 1, 15), done(text, 2));
    assert_eq!(printed(&three_terms(), 21, 1, 12), no_text(22, 12));
}

#[test]
fn t2_an_empty_register() {
    assert_eq!(printed(&three_terms(), 21, 0, 3), done("", 3));
    assert_eq!(printed(&three_terms(), 21, 0, 0), done("", 0));
}

#[test]
fn t3_an_empty_bracket() {
    let (words, top) = nest(1);
    assert_eq!(printed(&words, top, 0, 2), done("()", 0));
}

#[test]
fn t4_codes() {
    assert_eq!(printed(&lone(268_435_455), 17, 0, 9), done("268435455", 0));
    assert_eq!(printed(&lone(100_000_002), 17, 0, 9), done("100000002", 0));
    assert_eq!(printed(&lone(1), 17, 0, 2), done("1", 1));
    for digits in 1..9 {
        let power = 10u32.pow(digits);
        for code in [power - 1, power, power + 1] {
            let text = code.to_string();
            assert_eq!(printed(&lone(code), 17, 0, text.len()), done(&text, 0));
            assert_eq!(printed(&lone(code), 17, 0, text.len() - 1), no_text(22, text.len() - 1));
        }
    }
}

#[test]
fn t5_to_t7_as_many_brackets_as_may_be_open_and_one_more() {
    let (words, top) = nest(64);
    let text = "(".repeat(64) + &")".repeat(64);
    assert_eq!(printed(&words, top, 0, 128), done(&text, 0));
    let (words, top) = nest(65);
    assert_eq!(printed(&words, top, 0, 200), no_text(21, 200));
    assert_eq!(printed(&words, top, 0, 64), no_text(21, 64));
    assert_eq!(printed(&words, top, 0, 63), no_text(22, 63));
}

#[test]
fn t8_the_last_register_and_one_that_is_none() {
    assert_eq!(printed(&three_terms(), 21, 15, 1), done("", 1));
    assert_eq!(printed(&three_terms(), 21, 16, 1), no_text(20, 1));
}

#[test]
fn t9_damage_is_judged_before_the_register() {
    let words = words(20, &[(16, [1, 0]), (17, [2, 0]), (18, [16, EMPTY + 18])]);
    assert_eq!(printed(&words, 19, 16, 1), damaged_text(18, 5, 1));
}

/// What typing a text answers, and the words that it leaves.
fn typed(words: &[u32], top: usize, register: usize, text: &str) -> (Typed, Vec<u32>) {
    let mut words = words.to_vec();
    let typed = raw::type_in(&mut words, top, register, text.as_bytes());
    (typed, words)
}

/// A text that is typed into register 0 of a fresh store of so many cells.
fn typed_fresh(capacity: usize, text: &str) -> (Typed, Vec<u32>) {
    typed(&words(capacity, &[]), 16, 0, text)
}

/// A text that is done, `top` and the words after it.
fn set(top: usize, words: Vec<u32>) -> (Typed, Vec<u32>) {
    (Typed { status: 0, rule: 0, value: 0, top }, words)
}

/// Asserts that a text is refused where it stands, in a fresh store without a heap, and that nothing changes.
#[track_caller]
fn assert_refused(text: &str, status: u32, offset: usize) {
    let before = words(16, &[]);
    let expected = (Typed { status, rule: 0, value: offset, top: 16 }, before.clone());
    assert_eq!(typed(&before, 16, 0, text), expected, "{text}");
}

#[test]
fn t10_a_text_that_fits_and_no_room_for_it_again() {
    let text = "65 (66 67) ()";
    assert_eq!(typed(&words(21, &[]), 16, 1, text), set(21, three_terms()));
    let full = Typed { status: 16, rule: 0, value: 0, top: 21 };
    assert_eq!(typed(&three_terms(), 21, 0, text), (full, three_terms()));
}

#[test]
fn t11_the_order_of_the_cells() {
    let expected = words(
        24,
        &[
            (0, [20, EMPTY + 23]),
            (16, [3, 0]),
            (17, [2, 0]),
            (18, [16, EMPTY + 16]),
            (19, [4, 0]),
            (20, [1, 0]),
            (21, [17, EMPTY + 19]),
            (22, [5, 0]),
            (23, [0, EMPTY]),
        ],
    );
    assert_eq!(typed_fresh(24, "1 (2 (3) 4) 5 ()"), set(24, expected));
}

#[test]
fn t12_what_was_printed() {
    assert_eq!(typed_fresh(17, "()"), set(17, nest(1).0));
    assert_eq!(typed_fresh(17, "268435455"), set(17, lone(268_435_455)));
    assert_eq!(typed_fresh(17, "100000002"), set(17, lone(100_000_002)));
    assert_eq!(typed_fresh(17, "1"), set(17, lone(1)));
    let text = "(".repeat(64) + &")".repeat(64);
    assert_eq!(typed_fresh(80, &text), set(80, nest(64).0));
}

#[test]
fn t13_no_bytes() {
    let mut expected = lone(7);
    expected[..2].copy_from_slice(&[0, EMPTY]);
    assert_eq!(typed(&lone(7), 17, 0, ""), set(17, expected));
}

#[test]
fn t14_room() {
    let dead = words(17, &[(16, [7, 0])]);
    let full = Typed { status: 16, rule: 0, value: 0, top: 16 };
    assert_eq!(typed(&dead, 17, 0, "1 1"), (full, words(17, &[])));
    assert_eq!(typed(&dead, 17, 0, "9"), set(17, lone(9)));
    assert_eq!(typed_fresh(16, "1"), (full, words(16, &[])));
}

#[test]
fn t15_to_t17_no_texts() {
    for text in [" ", ")", "x"] {
        assert_refused(text, 23, 0);
    }
    for (text, offset) in
        [("1)", 1), ("1(", 1), ("1  2", 2), ("( )", 1), ("(1 )", 3), ("()1", 2), ("())", 2)]
    {
        assert_refused(text, 23, offset);
    }
    for text in ["1 ", "(", "(1", "() "] {
        assert_refused(text, 23, text.len());
    }
}

#[test]
fn t18_codes_over_the_limit() {
    assert_refused("268435456", 13, 8);
    assert_refused("99999999999", 13, 8);
    assert_refused("(268435456", 13, 9);
}

#[test]
fn t19_brackets_over_the_limit() {
    let open = |brackets| "(".repeat(brackets);
    assert_refused(&open(70), 21, 64);
    assert_refused(&(open(64) + "1("), 23, 65);
    assert_refused(&(open(64) + ") (("), 21, 67);
    assert_refused(&(open(64) + &")".repeat(64) + "x"), 23, 128);
}

#[test]
fn t20_the_last_register_and_one_that_is_none() {
    let expected = words(17, &[(15, [16, EMPTY + 16]), (16, [7, 0])]);
    assert_eq!(typed(&words(17, &[]), 16, 15, "7"), set(17, expected));
    let none = Typed { status: 20, rule: 0, value: 0, top: 16 };
    assert_eq!(typed(&words(17, &[]), 16, 16, "x"), (none, words(17, &[])));
}

#[test]
fn t21_damage_is_judged_first() {
    let words = words(20, &[(16, [1, 0]), (17, [2, 0]), (18, [16, EMPTY + 18])]);
    let damaged = Typed { status: 3, rule: 5, value: 18, top: 19 };
    assert_eq!(typed(&words, 19, 16, "x"), (damaged, words));
}

#[test]
fn t22_to_t24_room_for_a_text() {
    let full = |top| Typed { status: 16, rule: 0, value: 0, top };
    assert_eq!(typed(&lone(65), 17, 0, "66"), set(17, lone(66)));
    assert_eq!(typed(&lone(65), 17, 0, "66 66"), (full(17), lone(65)));
    assert_eq!(typed(&lone(65), 17, 1, "66"), (full(17), lone(65)));
    let held = symbols(17, &[65], &[(0, 16, 16), (1, 16, 16)]);
    assert_eq!(typed(&held, 17, 0, "66"), (full(17), held));
    // The dead symbol and that of register 0 go for two terms. For three there is no room.
    let behind = symbols(18, &[70, 65], &[(0, 17, 17)]);
    assert_eq!(typed(&behind, 18, 0, "1 2"), set(18, symbols(18, &[1, 2], &[(0, 16, 17)])));
    let kept = symbols(18, &[65], &[(0, 16, 16)]);
    assert_eq!(typed(&behind, 18, 0, "1 2 3"), (full(17), kept));
    // Beside what register 1 holds.
    let after = symbols(20, &[66, 67, 8, 9], &[(0, 18, 19), (1, 16, 17)]);
    assert_eq!(typed(&one_dead(), 20, 0, "8 9"), set(20, after));
    assert_eq!(typed(&one_dead(), 20, 0, "8 (9)"), (full(19), none_dead()));
}

#[test]
fn t25_a_zero_that_begins_a_term() {
    for (text, offset) in
        [("0", 0), ("01", 0), ("0x", 0), ("10 0", 3), ("(0)", 1), ("(1 0", 3), ("1 0 x", 2)]
    {
        assert_refused(text, 13, offset);
    }
    // Nothing is collected for it.
    let dead = words(17, &[(16, [7, 0])]);
    assert_eq!(typed(&dead, 17, 0, "0"), (Typed { status: 13, rule: 0, value: 0, top: 17 }, dead));
}

#[test]
fn t26_a_zero_that_begins_none() {
    assert_eq!(typed_fresh(17, "10"), set(17, lone(10)));
    assert_eq!(typed_fresh(18, "100 20"), set(18, symbols(18, &[100, 20], &[(0, 16, 17)])));
    assert_refused("()0", 23, 2);
}

#[test]
fn t27_a_wiped_cell() {
    assert_eq!(printed(&lone(0), 17, 0, 2), damaged_text(16, 4, 2));
    let damaged = Typed { status: 3, rule: 4, value: 16, top: 17 };
    assert_eq!(typed(&lone(0), 17, 0, "1"), (damaged, lone(0)));
}

#[test]
fn run_only_store_lengths() {
    for (length, status) in [(0, 1), (30, 1), (33, 1), (8_194, 1), (32, 0), (8_192, 0)] {
        let mut words = vec![5; length];
        let reply = raw::fresh(&mut words);
        assert_eq!(
            reply,
            Reply { status, rule: 0, value: 0, top: if status == 0 { 16 } else { 0 } },
            "{length}"
        );
        assert_eq!(raw::check(&words, 16).status, status, "{length}");
        assert_eq!(raw::collect(&mut words, 16).status, status, "{length}");
        assert_eq!(raw::run(&mut words, 16, &[], &mut []).status, status, "{length}");
        assert!(status == 0 || words.iter().all(|&word| word == 5), "{length}");
    }
}

#[test]
fn run_only_tops() {
    for (top, status, codes) in
        [(15, 2, &[][..]), (21, 2, &[]), (16, 0, &[]), (20, 0, &[65, 66, 67, 68])]
    {
        let mut words = symbols(20, codes, &[]);
        let expected = Reply { status, rule: 0, value: 0, top };
        assert_eq!(raw::check(&words, top), expected);
        assert_eq!(raw::run(&mut words, top, &[], &mut []), expected);
    }
}

#[test]
fn run_only_call_lists() {
    for (length, status) in [(3, 4), (4_100, 4), (0, 0), (4_096, 0)] {
        let calls = vec![0; length];
        let mut answers = vec![9; 3_000];
        let mut words = words(16, &[]);
        let reply = raw::run(&mut words, 16, &calls, &mut answers);
        assert_eq!(reply, Reply { status, rule: 0, value: 0, top: 16 }, "{length}");
        let left = if status == 0 { 0 } else { 9 };
        assert!(answers.iter().all(|&word| word == left), "{length}");
    }
}

#[test]
fn run_only_answer_space() {
    let two_calls = [[10, 0, 0, 0], [10, 0, 0, 0]].concat();
    let mut answers = [9; 3];
    assert_eq!(fresh(16).run_words(&two_calls, &mut answers), Err(Refusal::ShortAnswers));
    assert_eq!(answers, [9; 3]);
    assert_eq!(fresh(16).run_words(&two_calls, &mut [9; 4]), Ok(()));
}

#[test]
fn run_only_registers_and_stray_words() {
    let mut store = fresh(16);
    assert_eq!(store.call(Call::Clear { d: 15 }), Ok(Answer::Done));
    assert_eq!(store.call(Call::Clear { d: 16 }), Ok(refused(Fault::Register)));
    let mut answers = [9; 2];
    store.run_words(&[0, 0, 1, 0], &mut answers).expect("the batch is run");
    assert_eq!(answers, [12, 0]);
}
