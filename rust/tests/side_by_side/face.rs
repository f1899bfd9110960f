//! The safe wrapper: its calls, its answers, its stores, the rules of damaged cells, a list that stops at a
//! refusal, texts printed and typed in, and files.

use zelmotar::{
    file_bytes, raw, status_text, Answer, Call, Fault, Pieces, Refusal, Rule, Stopped, Store,
    Trailer, EDITION, MAX_CALLS, MAX_CELLS, MAX_CODE, MAX_DEPTH, MAX_TERMS, STATUSES,
};
use zelmotar_model::files;
use zelmotar_model::make::files::{file, Kind};
use zelmotar_model::make::{self, Runs};
use zelmotar_model::random::Random;

fn fresh(capacity: usize) -> Store {
    Store::new(capacity).expect("the capacity is allowed")
}

#[test]
fn every_call_in_words() {
    let (d, a, b, code) = (1, 2, 3, 99);
    let rows = [
        (Call::Clear { d }, [0, 1, 0, 0]),
        (Call::Copy { d, a }, [1, 1, 2, 0]),
        (Call::Symbol { d, code }, [2, 1, 99, 0]),
        (Call::Wrap { d, a }, [3, 1, 2, 0]),
        (Call::Join { d, a, b }, [4, 1, 2, 3]),
        (Call::Head { d, a }, [5, 1, 2, 0]),
        (Call::Rest { d, a }, [6, 1, 2, 0]),
        (Call::Open { d, a }, [7, 1, 2, 0]),
        (Call::Length { a }, [8, 0, 2, 0]),
        (Call::First { a }, [9, 0, 2, 0]),
        (Call::Live, [10, 0, 0, 0]),
        (Call::Collect, [11, 0, 0, 0]),
    ];
    for (number, (call, words)) in rows.into_iter().enumerate() {
        assert_eq!(call.words(), words);
        assert_eq!(<[u32; 4]>::from(call), words);
        assert_eq!(Call::try_from(words), Ok(call));
        assert_eq!(call.words()[0] as usize, number);
        assert_eq!(call.has_value(), number >= 8);
    }
}

/// Words of every size, in all places that a call has.
#[test]
fn words_are_a_call_exactly_if_it_gives_them_back() {
    let mut random = Random::of("calls of words");
    let mut told = [0; 3];
    for _ in 0..100_000 {
        let operation = random.pick(&[0, 1, 2, 3, 4, 5, 6, 7, 8, 9, 10, 11, 12, 13, u32::MAX]);
        let words = [operation, 0, 0, 0].map(|word| match random.below(3) {
            0 => word,
            1 => word.wrapping_add(random.below(2) as u32),
            _ => random.pick(&[word, 15, 16, u32::MAX]),
        });
        let kind = match Call::try_from(words) {
            Ok(call) => {
                assert_eq!(call.words(), words);
                0
            }
            Err(Fault::Operation) => {
                assert!(words[0] > 11);
                1
            }
            Err(fault) => {
                assert_eq!(fault, Fault::StrayWord);
                let mut answers = [0; 2];
                fresh(16).run_words(&words, &mut answers).expect("the store is sound");
                // A bad register goes before a stray word.
                assert!(matches!(answers, [11 | 12, 0]), "{words:?} {answers:?}");
                2
            }
        };
        told[kind] += 1;
    }
    assert!(told.iter().all(|&count| count > 1_000), "{told:?}");
}

#[test]
fn every_call_as_a_line() {
    let lines = [
        "CLEAR 7",
        "COPY 7 8",
        "SYMBOL 7 8",
        "WRAP 7 8",
        "JOIN 7 8 9",
        "HEAD 7 8",
        "REST 7 8",
        "OPEN 7 8",
        "LENGTH 8",
        "FIRST 8",
        "LIVE",
        "COLLECT",
    ];
    for (operation, line) in (0..).zip(lines) {
        let uses = |word, letter| if line.contains(letter) { word } else { 0 };
        let call = Call::try_from([operation, uses(7, '7'), uses(8, '8'), uses(9, '9')]);
        let call = call.expect("no word is stray");
        assert_eq!(call.to_string(), line);
        assert!(line.starts_with(call.name()));
    }
}

#[test]
fn every_fault_by_number() {
    for (number, fault) in (10..).zip(Fault::ALL) {
        assert_eq!(fault.number(), number);
        assert_eq!(Answer::from_words(Call::Live, number, 0), Some(Answer::Refused(fault)));
        assert_eq!(fault.to_string(), status_text(number));
        assert_eq!(Answer::Refused(fault).to_string(), format!("refused: {fault}"));
    }
    assert_eq!(Answer::Done.to_string(), "done");
    assert_eq!(Answer::Value(65).to_string(), "done: 65");
    assert_eq!(Answer::from_words(Call::Live, 9, 0), None);
    assert_eq!(Answer::from_words(Call::Live, 17, 0), None);
}

#[test]
fn every_status_has_its_own_number_name_and_text() {
    for (i, status) in STATUSES.iter().enumerate() {
        assert_eq!(status_text(status.number), status.text);
        for other in &STATUSES[..i] {
            assert!(other.number < status.number, "{other:?} {status:?}");
            assert!(other.name != status.name && other.text != status.text);
        }
    }
    let numbers: Vec<u32> = STATUSES.iter().map(|status| status.number).collect();
    let expected = [0..=5, 10..=16, 20..=24, 30..=35].into_iter().flatten();
    assert_eq!(numbers, expected.collect::<Vec<u32>>());
    for number in [6, 9, 17, 19, 25, 29, 36, u32::MAX] {
        assert_eq!(status_text(number), "no such status");
    }
}

#[test]
fn every_rule_by_number_name_and_sentence() {
    let rows = [
        (Rule::StrayBit, "STRAY_BIT", "its used bit or a chain bit is set"),
        (Rule::NotBracket, "NOT_BRACKET", "it is a register and not a bracket"),
        (Rule::BadEmpty, "BAD_EMPTY", "it is an empty bracket whose first word is not 0"),
        (Rule::BadSymbol, "BAD_SYMBOL", "it is neither a bracket nor a symbol"),
        (Rule::BadEnds, "BAD_ENDS", "its ends are out of order or out of range"),
        (Rule::BeyondTop, "BEYOND_TOP", "it is beyond top and not two zero words"),
    ];
    assert_eq!(rows.map(|(rule, ..)| rule), Rule::ALL);
    for (number, (rule, name, sentence)) in (1..).zip(rows) {
        assert_eq!((rule.number(), rule.name()), (number, name));
        assert_eq!(Rule::from_number(number), Some(rule));
        assert_eq!(rule.to_string(), sentence);
    }
    for number in [0, 7, 256 + 1, u32::MAX] {
        assert_eq!(Rule::from_number(number), None);
    }
}

#[test]
fn every_answer_by_name() {
    let mut store = fresh(18);
    let rows = [
        (Call::Symbol { d: 0, code: 65 }, Answer::Done),
        (Call::Wrap { d: 1, a: 0 }, Answer::Done),
        (Call::Copy { d: 16, a: 0 }, Answer::Refused(Fault::Register)),
        (Call::Symbol { d: 2, code: 1 << 28 }, Answer::Refused(Fault::Code)),
        (Call::Rest { d: 2, a: 2 }, Answer::Refused(Fault::Empty)),
        (Call::Open { d: 2, a: 0 }, Answer::Refused(Fault::Kind)),
        (Call::First { a: 1 }, Answer::Refused(Fault::Kind)),
        (Call::Wrap { d: 2, a: 2 }, Answer::Refused(Fault::Room)),
        (Call::First { a: 0 }, Answer::Value(65)),
        (Call::Length { a: 2 }, Answer::Value(0)),
        (Call::Live, Answer::Value(2)),
        (Call::Collect, Answer::Value(2)),
    ];
    let answers = store.run(&rows.map(|(call, _)| call)).expect("the store is sound");
    assert_eq!(answers, rows.map(|(_, answer)| answer));
    assert_eq!(answers[8].value(), Some(65));
    assert_eq!(answers[7].fault(), Some(Fault::Room));
    assert!(answers[0].is_done() && answers[8].is_done() && !answers[7].is_done());
}

/// A store with so many brackets inside one another in register 0.
fn nested(brackets: usize) -> Store {
    let mut store = fresh(16 + brackets);
    store.run_all(&vec![Call::Wrap { d: 0, a: 0 }; brackets]).expect("there is room");
    store
}

#[test]
fn every_refusal_by_name() {
    let refusals = [
        Store::new(15).map(drop),
        Store::from_parts(fresh(16).into_parts().0, 17).check(),
        Store::from_parts(vec![0; 32], 16).check(),
        fresh(16).run(&vec![Call::Live; MAX_CALLS + 1]).map(drop),
        fresh(16).run_words(&Call::Live.words(), &mut [0]),
        fresh(16).print(16, &mut [0; 9]).map(drop),
        nested(MAX_DEPTH + 1).print(0, &mut [0; 999]).map(drop),
        nested(1).print(0, &mut [0]).map(drop),
    ];
    for (number, refusal) in [1, 2, 3, 4, 5, 20, 21, 22].into_iter().zip(refusals) {
        let refusal = refusal.expect_err("each is refused");
        assert_eq!(refusal.number(), number);
        let told = if number == 3 { (Some(0), Some(Rule::NotBracket)) } else { (None, None) };
        assert_eq!((refusal.cell(), refusal.rule()), told);
        assert_eq!(refusal.offset(), None);
        let cell = if number == 3 { ": cell 0: it is a register and not a bracket" } else { "" };
        assert_eq!(refusal.to_string(), status_text(number).to_owned() + cell);
    }
    assert_eq!(
        fresh(16).run(&vec![Call::Live; MAX_CALLS]).map(|answers| answers.len()),
        Ok(MAX_CALLS)
    );
}

#[test]
fn capacities_at_the_border() {
    assert_eq!(Store::new(MAX_CELLS).map(|store| store.capacity()), Ok(MAX_CELLS));
    for capacity in [0, 15, MAX_CELLS + 1, usize::MAX] {
        assert_eq!(Store::new(capacity), Err(Refusal::BadLength));
    }
}

#[test]
fn borrowed_words_stay_with_their_owner() {
    let mut words = [7; 40];
    let mut store = Store::fresh(&mut words[..]).expect("the length is allowed");
    assert_eq!(store.call(Call::Symbol { d: 3, code: 5 }), Ok(Answer::Done));
    let (_, top) = store.into_parts();
    assert_eq!((top, &words[32..34]), (17, &[5, 0][..]));
    let store = Store::from_parts(words, top);
    assert_eq!(store.look(3).to_string(), "5");
    assert_eq!(Store::fresh(&mut [7; 33][..]), Err(Refusal::BadLength));
}

#[test]
fn a_refused_request_changes_nothing() {
    let mut words = fresh(20).into_parts().0;
    words[32..40].copy_from_slice(&[65, 0, 66, 0, 67, 0, 68, 1]);
    let mut store = Store::from_parts(words, 20);
    let before = store.clone();
    let damaged = store.check().expect_err("cell 19 is no symbol");
    assert_eq!((damaged.cell(), damaged.rule()), (Some(19), Some(Rule::BadSymbol)));
    assert_eq!(store.collect(), Err(damaged));
    assert_eq!(store.run(&[Call::Live]), Err(damaged));
    assert_eq!(store.run_all(&[Call::Live]), Err(Stopped::Store(damaged)));
    assert_eq!(store.run_all(&[]), Err(Stopped::Store(damaged)));
    assert_eq!(store, before);
    assert_eq!(store.look(0).len(), 0);
    let top = Store::from_parts(store.into_parts().0, usize::MAX);
    assert_eq!(top.check(), Err(Refusal::BadTop));
}

/// What every request says of a store with one damaged cell, or of its file where that has the cell.
fn refusals(store: &Store, c: usize) -> Vec<Refusal> {
    let (mut space, other) = ([b'?'; 200], || store.clone());
    let stopped = |stopped| match stopped {
        Stopped::Store(refusal) => refusal,
        Stopped::Call { .. } => panic!("{stopped}"),
    };
    let mut outcomes = vec![
        store.check(),
        other().collect().map(drop),
        other().run(&[Call::Live]).map(drop),
        other().run_all(&[Call::Live]).map(drop).map_err(stopped),
        other().call(Call::Live).map(drop),
        other().run_words(&[], &mut []),
        store.print(0, &mut space).map(drop),
        store.print_string(0, 200).map(drop),
        other().type_in(0, b"1"),
        other().type_str(0, "1"),
        other().save(&mut space).map(drop),
        other().to_file().map(drop),
    ];
    if c < store.top() {
        let file = files::file(store.words(), store.top());
        outcomes.push(Store::load(vec![7; store.words().len()], &file).map(drop));
        outcomes.push(Store::from_file(&file).map(drop));
    }
    outcomes.into_iter().map(|outcome| outcome.expect_err("a cell is damaged")).collect()
}

#[test]
fn every_request_says_the_rule() {
    const EMPTY: u32 = 1 << 31;
    let rows = [
        (0, [0, EMPTY + (1 << 29)], Rule::StrayBit),
        (1, [16, 16], Rule::NotBracket),
        (2, [3, EMPTY], Rule::BadEmpty),
        (17, [1 << 28, 0], Rule::BadSymbol),
        (17, [16, EMPTY + 17], Rule::BadEnds),
        (19, [0, 1], Rule::BeyondTop),
    ];
    for (c, cell, rule) in rows {
        let (mut words, _) = fresh(20).into_parts();
        words[32..36].copy_from_slice(&[65, 0, 66, 0]);
        words[2 * c..2 * c + 2].copy_from_slice(&cell);
        for refusal in refusals(&Store::from_parts(words, 18), c) {
            assert_eq!((refusal.number(), refusal.offset()), (3, None));
            assert_eq!((refusal.cell(), refusal.rule()), (Some(c as u32), Some(rule)));
            let sentence = format!("a cell breaks its rule: cell {c}: {rule}");
            assert_eq!(refusal.to_string(), sentence);
            assert_eq!(Stopped::from(refusal).to_string(), sentence);
        }
    }
}

/// Runs calls one by one up to the first that is refused.
fn one_by_one(store: &mut Store, calls: &[Call]) -> Result<Vec<Answer>, Stopped> {
    let mut answers = Vec::new();
    for (at, &call) in calls.iter().enumerate() {
        match store.call(call)? {
            Answer::Refused(fault) => return Err(Stopped::Call { at, call, fault }),
            answer => answers.push(answer),
        }
    }
    Ok(answers)
}

#[test]
fn a_list_stops_at_a_refusal_and_says_which() {
    let mut random = Random::of("lists that stop");
    let (mut ends, mut stops, mut full) = (0, 0, 0);
    for _ in 0..20_000 {
        let capacity = random.within(16..=40);
        let (words, top) = make::sound(&mut random, capacity, Runs::Short);
        let mut store = Store::from_parts(words, top);
        let mut other = store.clone();
        let calls: Vec<Call> = (0..random.below(12))
            .filter_map(|_| Call::try_from(make::call(&mut random)).ok())
            .collect();
        let outcome = store.run_all(&calls);
        assert_eq!(outcome, one_by_one(&mut other, &calls), "{calls:?}");
        assert_eq!(store, other, "{calls:?}");
        match outcome {
            Ok(_) => ends += 1,
            Err(Stopped::Call { fault: Fault::Room, .. }) => full += 1,
            Err(_) => stops += 1,
        }
    }
    assert!(ends > 100 && stops > 100 && full > 100, "{ends} {stops} {full}");
}

#[test]
fn a_list_may_be_longer_than_a_batch() {
    let mut calls = vec![Call::Symbol { d: 0, code: 5 }; 2 * MAX_CALLS + 5];
    let mut store = fresh(64);
    assert_eq!(store.run_all(&calls).map(|answers| answers.len()), Ok(calls.len()));
    let at = MAX_CALLS + 3;
    calls[at] = Call::First { a: 1 };
    calls[at + 1] = Call::Clear { d: 0 };
    let stopped = store.run_all(&calls);
    assert_eq!(stopped, Err(Stopped::Call { at, call: Call::First { a: 1 }, fault: Fault::Empty }));
    assert_eq!(store.look(0).to_string(), "5");
    let text = stopped.unwrap_err().to_string();
    assert_eq!(text, "call 1027, FIRST 1: the register is empty");
}

#[test]
fn a_text_is_a_part_of_the_space_that_is_lent() {
    let mut store = fresh(32);
    let calls = [
        Call::Symbol { d: 0, code: 65 },
        Call::Wrap { d: 1, a: 0 },
        Call::Join { d: 1, a: 1, b: 0 },
    ];
    store.run_all(&calls).expect("there is room");
    let mut space = [b'?'; 9];
    let text = store.print(1, &mut space[..8]);
    assert_eq!(text, Ok("(65) 65"));
    assert_eq!(&space, b"(65) 65\0?");
    assert_eq!(store.print(2, &mut space), Ok(""));
    assert_eq!(space, [0; 9]);
    assert_eq!(store.print(2, &mut []), Ok(""));
}

#[test]
fn a_refused_print_leaves_zeros_and_the_store_as_it_was() {
    let (sound, deep) = (nested(1), nested(MAX_DEPTH + 1));
    let damaged = Store::from_parts(vec![0; 32], 16);
    let rows = [
        (Store::from_parts(vec![0; 33], 16), 0, 1),
        (Store::from_parts(vec![0; 32], 17), 0, 2),
        (damaged, 99, 3),
        (sound.clone(), 16, 20),
        (sound.clone(), usize::MAX, 20),
        (deep, 0, 21),
        (sound, 0, 22),
    ];
    for (store, register, number) in rows {
        // Two bytes do not fit into one; as many opening ones as may be fit into 64.
        let mut space = vec![b'?'; if number == 22 { 1 } else { 64 }];
        let before = store.clone();
        let refusal = store.print(register, &mut space).expect_err("each is refused");
        assert_eq!(refusal.number(), number);
        assert!(space.iter().all(|&byte| byte == 0), "{refusal}: {space:?}");
        assert_eq!(store, before);
        assert_eq!(store.print_string(register, space.len()), Err(refusal));
    }
}

#[test]
fn a_string_is_what_is_printed_into_as_many_bytes() {
    let mut random = Random::of("printed strings");
    let mut met = [0; 3];
    for _ in 0..3_000 {
        let lowest = random.pick(&[1, 62]);
        let (register, levels) = (random.below(16), random.within(lowest..=67));
        let (words, top) = match random.below(3) {
            0 => make::doubled(&mut random, levels, register),
            1 => make::nest(&mut random, levels, 2, register),
            _ => make::sound(&mut random, 64, Runs::Recent),
        };
        let end = make::text_end(&words, top, register, 3_000);
        let limit = make::text_space(&mut random, end).len();
        let store = Store::from_parts(words, top);
        let mut space = vec![0; limit];
        let printed = store.print(register, &mut space).map(String::from);
        assert_eq!(store.print_string(register, limit), printed);
        match printed {
            Ok(text) => {
                assert_eq!(store.look(register).to_string(), text);
                met[0] += 1;
            }
            Err(Refusal::TooDeep) => met[1] += 1,
            Err(refusal) => {
                assert_eq!(refusal, Refusal::ShortSpace);
                met[2] += 1;
            }
        }
    }
    assert!(met.iter().all(|&count| count > 100), "{met:?}");
}

#[test]
fn the_longest_text_that_shares_nothing() {
    let mut words = fresh(MAX_CELLS).into_parts().0;
    words[..2].copy_from_slice(&[16, (1 << 31) + MAX_CELLS as u32 - 1]);
    words[32..].chunks_mut(2).for_each(|cell| cell[0] = MAX_CODE);
    let store = Store::from_parts(words, MAX_CELLS);
    let text = store.print_string(0, usize::MAX).expect("it is printed");
    assert_eq!(text, vec!["268435455"; MAX_CELLS - 16].join(" "));
    assert_eq!(store.print_string(0, text.len()).as_ref(), Ok(&text));
    assert_eq!(store.print_string(0, text.len() - 1), Err(Refusal::ShortSpace));
}

#[test]
fn every_refusal_of_a_text_by_name() {
    let damaged = Store::from_parts(vec![0; 32], 16);
    let (deep, long) = ("(".repeat(MAX_DEPTH + 1), "1 ".repeat(MAX_TERMS));
    let (longer, zero) = (long.clone() + "1", long.clone() + "0");
    let rows = [
        (Store::from_parts(vec![0; 33], 16), 0, "x", Refusal::BadLength, 1),
        (Store::from_parts(vec![0; 32], 17), 0, "x", Refusal::BadTop, 2),
        (damaged.clone(), 99, "x", damaged.check().expect_err("register 0 is damaged"), 3),
        (fresh(17), 0, "(268435456", Refusal::BadCode { offset: 9 }, 13),
        (fresh(17), 0, "1 2", Refusal::NoRoom, 16),
        (fresh(17), 16, "x", Refusal::NoRegister, 20),
        (fresh(17), usize::MAX, "1", Refusal::NoRegister, 20),
        (fresh(17), 0, &deep, Refusal::TooDeepAt { offset: MAX_DEPTH }, 21),
        (fresh(17), 0, "1 x", Refusal::NotText { offset: 2 }, 23),
        (fresh(17), 0, "(1", Refusal::NotText { offset: 2 }, 23),
        (fresh(17), 0, &long, Refusal::NotText { offset: 2 * MAX_TERMS }, 23),
        (fresh(17), 0, &longer, Refusal::TooManyTerms { offset: 2 * MAX_TERMS }, 24),
        (fresh(17), 0, &zero, Refusal::TooManyTerms { offset: 2 * MAX_TERMS }, 24),
    ];
    for (mut store, register, text, refusal, number) in rows {
        let before = store.clone();
        assert_eq!(store.type_str(register, text), Err(refusal), "{text}");
        assert_eq!(store.type_in(register, text.as_bytes()), Err(refusal), "{text}");
        assert_eq!(store, before, "{text}");
        assert_eq!(refusal.number(), number);
        let (cell, rule, offset) = (refusal.cell(), refusal.rule(), refusal.offset());
        assert_eq!(
            (cell.is_some(), rule.is_some(), offset.is_some()),
            (number == 3, number == 3, [13, 21, 23, 24].contains(&number))
        );
        if offset.is_some() {
            // In pieces it is refused alike.
            let (first, second) = text.split_at(text.len() / 2);
            let pieces = Pieces::new().feed(first.as_bytes()).feed(second.as_bytes());
            assert_eq!(pieces.end(), Err(refusal), "{text}");
        }
        let place = match (cell.zip(rule), offset) {
            (Some((cell, rule)), _) => format!(": cell {cell}: {rule}"),
            (_, Some(offset)) => format!(": byte {offset}"),
            _ => String::new(),
        };
        assert_eq!(refusal.to_string(), status_text(number).to_owned() + &place);
    }
}

#[test]
fn a_typed_text_sets_one_register_and_moves_top() {
    let mut store = fresh(21);
    assert_eq!(store.type_in(1, b"65 (66 67) ()"), Ok(()));
    assert_eq!((store.top(), store.look(1).to_string()), (21, "65 (66 67) ()".into()));
    // What the register holds makes room for as many cells, but not where another register holds it too.
    let before = store.clone();
    assert_eq!(store.type_str(1, "1 2 3 4 5 6"), Err(Refusal::NoRoom));
    assert_eq!(store.type_str(2, "1"), Err(Refusal::NoRoom));
    assert_eq!(store, before);
    assert_eq!(store.call(Call::Copy { d: 2, a: 1 }), Ok(Answer::Done));
    assert_eq!(store.type_str(1, "1"), Err(Refusal::NoRoom));
    assert_eq!((store.top(), store.look(1).to_string()), (21, "65 (66 67) ()".into()));
    assert_eq!(store.call(Call::Clear { d: 2 }), Ok(Answer::Done));
    assert_eq!(store.type_str(1, "1 2 3 (4)"), Ok(()));
    assert_eq!((store.top(), store.look(1).to_string()), (21, "1 2 3 (4)".into()));
    assert_eq!(store.type_str(1, ""), Ok(()));
    assert_eq!((store.top(), store.look(1).len()), (21, 0));
    // Now all five cells are dead, and a collection makes room for four.
    assert_eq!(store.type_str(2, "((7) 8)"), Ok(()));
    assert_eq!((store.top(), store.look(2).to_string()), (20, "((7) 8)".into()));
    // Collected, though there is no room: the words move, and no expression changes.
    assert_eq!(store.call(Call::Open { d: 2, a: 2 }), Ok(Answer::Done));
    assert_eq!(store.type_str(0, "1 2 3"), Err(Refusal::NoRoom));
    assert_eq!((store.top(), store.look(2).to_string()), (19, "(7) 8".into()));
}

#[test]
fn the_longest_text_that_there_is_room_for() {
    let mut store = fresh(MAX_CELLS);
    let text = vec![MAX_CODE.to_string(); MAX_CELLS - 16].join(" ");
    assert_eq!(store.type_str(0, &(text.clone() + " 1")), Err(Refusal::NoRoom));
    assert_eq!(store.type_str(0, &text), Ok(()));
    assert_eq!(store.top(), MAX_CELLS);
    assert_eq!(store.print_string(0, usize::MAX).as_ref(), Ok(&text));
    // As long a text takes its place.
    let other = vec!["()"; MAX_CELLS - 16].join(" ");
    assert_eq!(store.type_str(0, &other), Ok(()));
    assert_eq!(store.print_string(0, usize::MAX), Ok(other));
    // A text far longer than any store is judged to its end all the same, or up to the first term too many.
    let long = "7 ".repeat(MAX_TERMS - 1);
    assert_eq!(store.type_str(1, &long), Err(Refusal::NotText { offset: long.len() }));
    assert_eq!(store.type_str(1, &(long.clone() + "7")), Err(Refusal::NoRoom));
    assert_eq!(store.type_str(1, &(long + "7x")), Err(Refusal::NotText { offset: 131_071 }));
    let longer = "7 ".repeat(500_000);
    assert_eq!(store.type_str(1, &longer), Err(Refusal::TooManyTerms { offset: 131_072 }));
    assert_eq!(store.type_str(1, &"9".repeat(1_000_000)), Err(Refusal::BadCode { offset: 8 }));
}

/// A full store of 24 cells with `(7 1 12) 65` in register 3, and three dead cells.
fn readings() -> Store {
    let mut store = fresh(24);
    for text in ["1 2 3", "(7 1 12) 65"] {
        store.type_str(3, text).expect("there is room");
    }
    store
}

#[test]
fn a_file_is_a_part_of_the_space_that_is_lent() {
    let mut store = readings();
    let mut space = [b'?'; 200];
    let top = store.top();
    assert_eq!(store.save(&mut space[..183]), Err(Refusal::ShortSpace));
    // The store is collected all the same, and says so.
    assert!(store.top() < top);
    assert_eq!((store.top(), store.look(3).to_string()), (21, "(7 1 12) 65".into()));
    assert_eq!((&space[..183], &space[183..]), (&[0; 183][..], &[b'?'; 17][..]));
    assert_eq!(store.save(&mut space[..190]), Ok(file_bytes(21)));
    assert_eq!((file_bytes(21), &space[184..]), (184, &b"\0\0\0\0\0\0??????????"[..]));
    let file = &space[..184];
    assert_eq!(store.to_file().as_deref(), Ok(file));
    let trailer = Trailer { distance: 184, heap_cells: 5, capacity: 24, edition: EDITION };
    assert_eq!((Trailer::of(file), trailer.words()), (Some(trailer), 48));
    assert_eq!(Store::from_file(file).as_ref(), Ok(&store));
    let mut words = [7; 48];
    let loaded = Store::load(&mut words, file).expect("it is as many words as it asks for");
    assert_eq!((loaded.top(), loaded.words()), (store.top(), store.words()));
}

#[test]
fn every_refusal_of_a_file_by_name() {
    let good = readings().to_file().expect("the store is sound");
    let with = |at: usize, byte: u8| {
        let mut file = good.clone();
        file[at] = byte;
        file
    };
    let end = good.len();
    // Cell 16 is the 7. Register 3 has five heap cells and three registers before it, and cell 20, the 65,
    // as its right end.
    let damaged = Store::from_file(&with(4, 1)).expect_err("7 is no symbol then");
    let rows = [
        (good[..15].to_vec(), Refusal::ShortFile, 30),
        (with(end - 4, 2), Refusal::BadEdition, 31),
        (good[1..].to_vec(), Refusal::BadDistance, 32),
        (with(end - 8, 20), Refusal::BadCapacity, 33),
        (with(end - 5, 128), Refusal::BadCapacity, 33),
        (with(8 * 8 + 4, 19), Refusal::NotCollected, 34),
        (with(4, 1), damaged, 3),
    ];
    for (file, refusal, number) in rows {
        assert_eq!(Store::from_file(&file), Err(refusal));
        let mut words = [7; 48];
        assert_eq!(Store::load(&mut words, &file), Err(refusal));
        assert_eq!(words, [7; 48]);
        assert_eq!((refusal.number(), refusal.offset()), (number, None));
        let (cell, rule, place) = match number {
            3 => {
                (Some(16), Some(Rule::BadSymbol), ": cell 16: it is neither a bracket nor a symbol")
            }
            _ => (None, None, ""),
        };
        assert_eq!((refusal.cell(), refusal.rule()), (cell, rule));
        assert_eq!(refusal.to_string(), status_text(number).to_owned() + place);
    }
    for n in [0, 24, 47, 49, 96] {
        assert_eq!(Store::load(vec![7; n], &good), Err(Refusal::WrongSlice));
    }
    assert_eq!(Refusal::WrongSlice.number(), 35);
}

#[test]
fn a_store_that_is_refused_is_not_saved() {
    let damaged = Store::from_parts(vec![0; 32], 16);
    let rows = [
        (Store::from_parts(vec![0; 33], 16), 1),
        (Store::from_parts(vec![0; 32], usize::MAX), 2),
        (damaged, 3),
    ];
    for (mut store, number) in rows {
        let (before, mut space) = (store.clone(), [b'?'; 200]);
        let refusal = store.save(&mut space).expect_err("each is refused");
        assert_eq!((refusal.number(), space), (number, [0; 200]));
        assert_eq!(store.to_file(), Err(refusal));
        assert_eq!(store, before);
    }
}

/// The wrapper takes the words that a file asks for, whatever it asks for, and its answer is that of the
/// library.
#[test]
fn files_of_every_kind_have_the_words_that_they_ask_for() {
    let mut random = Random::of("wrapped files");
    let mut met = [0; 36];
    for round in 0..20_000 {
        let (capacity, kind) = (make::capacity(&mut random), Kind::ALL[round % Kind::ALL.len()]);
        let file = file(&mut random, capacity, kind);
        let n = Trailer::of(&file).map_or(0, Trailer::words);
        let mut words = vec![7; n];
        let reply = raw::load(&mut words, &file);
        match Store::from_file(&file) {
            Ok(mut store) => {
                assert_eq!((0, reply.top, &words[..]), (reply.status, store.top(), store.words()));
                let distance = files::distance(store.top() as u64 - 16) as usize;
                assert_eq!(store.to_file().as_deref(), Ok(&file[file.len() - distance..]));
                assert_eq!(file_bytes(store.top()), distance);
            }
            Err(refusal) => {
                assert_eq!(refusal.number(), reply.status);
                assert_eq!(refusal.cell().unwrap_or(0), reply.value);
                assert_eq!(refusal.rule().map_or(0, Rule::number), reply.rule);
            }
        }
        met[reply.status as usize] += 1;
    }
    assert!([0, 3, 30, 31, 32, 33, 34].iter().all(|&status| met[status] > 20), "{met:?}");
    assert_eq!(met[35], 0, "{met:?}");
}
