//! A store in lent words, with nothing that allocates: what is left of the package without its feature
//! `alloc`. The tests are run with it and without.

use std::fmt::Write;
use std::mem::offset_of;

use zelmotar::{file_bytes, raw, status_text, Answer, Call, Counted, Fault, Pieces, Refusal, Rule};
use zelmotar::{Store, Term, Trailer, MAX_CODE};

#[test]
fn a_store_in_an_array() {
    let mut words = [7; 40];
    let mut store = Store::fresh(&mut words[..]).expect("the length is allowed");
    assert_eq!(store.call(Call::Symbol { d: 0, code: 65 }), Ok(Answer::Done));
    assert_eq!(store.call(Call::Wrap { d: 1, a: 0 }), Ok(Answer::Done));
    assert_eq!(store.call(Call::Open { d: 1, a: 0 }), Ok(Answer::Refused(Fault::Kind)));
    let mut terms = store.look(1);
    let Some(Term::Bracket(mut inside)) = terms.next() else {
        panic!("register 1 holds a bracket");
    };
    assert!(matches!(inside.next(), Some(Term::Symbol(65))));
    assert!(terms.next().is_none() && inside.next().is_none());
    assert_eq!((store.collect(), store.top()), (Ok(2), 18));
}

#[test]
fn a_batch_in_words() {
    let mut store = Store::fresh([0; 32]).expect("the length is allowed");
    let mut answers = [9; 6];
    store.run_words(&[10, 0, 0, 0, 2, 0, 1, 0], &mut answers).expect("the store is sound");
    assert_eq!(answers, [0, 0, 16, 0, 0, 0]);
    assert_eq!(store.run_words(&[0; 4], &mut []), Err(Refusal::ShortAnswers));
}

#[test]
fn a_text_in_an_array() {
    let mut store = Store::fresh([0; 40]).expect("the length is allowed");
    assert_eq!(store.call(Call::Symbol { d: 0, code: 65 }), Ok(Answer::Done));
    assert_eq!(store.call(Call::Wrap { d: 1, a: 0 }), Ok(Answer::Done));
    let mut space = [7; 6];
    assert_eq!(store.print(1, &mut space), Ok("(65)"));
    assert_eq!(&space, b"(65)\0\0");
    assert_eq!(store.print(1, &mut space[..3]), Err(Refusal::ShortSpace));
    assert_eq!(&space, b"\0\0\0)\0\0");
    assert_eq!(store.print(16, &mut space), Err(Refusal::NoRegister));
    assert_eq!(space, [0; 6]);
}

#[test]
fn a_text_typed_into_an_array() {
    let mut store = Store::fresh([0; 40]).expect("the length is allowed");
    assert_eq!(store.type_in(1, b"(65) ()"), Ok(()));
    assert_eq!(store.top(), 19);
    assert_eq!(store.print(1, &mut [7; 7]), Ok("(65) ()"));
    assert_eq!(store.type_in(0, b"(65"), Err(Refusal::NotText { offset: 3 }));
    assert_eq!(store.type_in(0, b"268435456"), Err(Refusal::BadCode { offset: 8 }));
    assert_eq!(store.type_in(0, &[b'('; 65]), Err(Refusal::TooDeepAt { offset: 64 }));
    assert_eq!(store.type_str(16, "65"), Err(Refusal::NoRegister));
    assert_eq!(store.type_str(0, "65 66"), Err(Refusal::NoRoom));
    assert_eq!(store.type_str(0, "65"), Ok(()));
    assert_eq!((store.top(), store.print(0, &mut [7; 2])), (20, Ok("65")));
    // What register 1 holds makes room for as many cells.
    assert_eq!(store.type_str(1, "1 2 3 4"), Err(Refusal::NoRoom));
    assert_eq!(store.type_str(1, "1 2 3"), Ok(()));
    assert_eq!((store.top(), store.print(1, &mut [7; 5])), (20, Ok("1 2 3")));
}

#[test]
fn a_text_in_pieces_from_an_array() {
    let text = Pieces::new().feed(b"(6").feed(b"").feed(b"5) (");
    assert_eq!((text.refusal(), text.so_far()), (None, Counted { terms: 3, most: 2 }));
    assert_eq!((text.offset(), text.depth()), (6, 1));
    assert_eq!(text.end(), Err(Refusal::NotText { offset: 6 }));
    let mut whole = text.feed(b")");
    assert_eq!(whole.end(), Ok(Counted { terms: 3, most: 2 }));
    assert_eq!(whole, ["(65)", " ()"].into_iter().collect());
    let mut store = Store::fresh([0; 38]).expect("the length is allowed");
    assert_eq!((store.type_in(0, b"(65) ()"), store.top()), (Ok(()), 19));
    whole.write_str(" 01").expect("no write fails");
    assert_eq!(whole.refusal(), Some(Refusal::BadCode { offset: 8 }));
    assert_eq!((whole.feed(b" 1"), whole.end()), (whole, Err(Refusal::BadCode { offset: 8 })));
    assert_eq!(Pieces::default().feed(&[b'('; 65]).end(), Err(Refusal::TooDeepAt { offset: 64 }));
    let long = (0..65_536).fold(Pieces::new(), |text, _| text.feed(b"7 "));
    assert_eq!(long.feed(b"0").end(), Err(Refusal::TooManyTerms { offset: 131_072 }));
}

#[test]
fn a_store_saved_into_an_array_and_loaded_from_it() {
    let mut store = Store::fresh([0; 40]).expect("the length is allowed");
    assert_eq!(store.type_in(1, b"(65) ()"), Ok(()));
    assert_eq!(store.type_in(1, b"7"), Ok(()));
    assert_eq!(store.top(), 20);
    let mut space = [7; file_bytes(20)];
    assert_eq!(store.save(&mut space[..151]), Err(Refusal::ShortSpace));
    assert_eq!((store.top(), &space[150..153]), (17, &[0, 7, 7][..]));
    assert_eq!(store.save(&mut space), Ok(152));
    let file = &space[..152];
    assert_eq!(Trailer::of(file).map(Trailer::words), Some(40));
    let mut words = [7; 42];
    assert_eq!(Store::load(&mut words, file), Err(Refusal::WrongSlice));
    assert_eq!(words, [7; 42]);
    let loaded = Store::load(&mut words[..40], file).expect("the file is good");
    assert_eq!((loaded.top(), loaded.words()), (17, store.words()));
    assert_eq!(loaded.print(1, &mut [7; 1]), Ok("7"));
}

#[test]
fn a_static_store_needs_no_other_type() {
    // Without an allocator `Store` alone means one whose words are lent for good.
    #[cfg(not(feature = "alloc"))]
    fn lent_for_good(words: &'static mut [u32]) -> Result<Store, Refusal> {
        Store::fresh(words)
    }
    #[cfg(feature = "alloc")]
    fn lent_for_good(words: &'static mut [u32]) -> Result<Store<&'static mut [u32]>, Refusal> {
        Store::fresh(words)
    }
    let words: &'static mut [u32] = Box::leak(Box::new([0; 34]));
    assert_eq!(lent_for_good(words).map(|store| store.capacity()), Ok(17));
}

#[test]
fn what_is_said_needs_no_allocator() {
    assert_eq!(format!("{}", Call::Join { d: 1, a: 2, b: 3 }), "JOIN 1 2 3");
    assert_eq!(format!("{}", Answer::Refused(Fault::Room)), "refused: no room");
    assert_eq!(format!("{}", Refusal::BadTop), status_text(2));
    let mut words = [0; 40];
    let mut store = Store::fresh(&mut words).expect("the length is allowed");
    assert_eq!(store.call(Call::Wrap { d: 0, a: 0 }), Ok(Answer::Done));
    assert_eq!(store.call(Call::Wrap { d: 0, a: 0 }), Ok(Answer::Done));
    assert_eq!(format!("{:?}", store.look(0)), "Terms((()))");
}

#[test]
fn a_damaged_cell_in_an_array_and_its_rule() {
    let mut words = [0; 40];
    assert_eq!(Store::fresh(&mut words).map(|store| store.top()), Ok(16));
    words[32..34].copy_from_slice(&[MAX_CODE + 1, 0]);
    let refusal = Store::from_parts(&mut words, 17).check().expect_err("no code is so large");
    assert_eq!((refusal.cell(), refusal.rule()), (Some(16), Some(Rule::BadSymbol)));
    assert_eq!(Rule::BadSymbol.number(), 4);
    assert_eq!(
        format!("{refusal}"),
        "a cell breaks its rule: cell 16: it is neither a bracket nor a symbol"
    );
}

/// A reply, a span, a text, a typed text, a save, a text in pieces and its end whose fields differ, each field read by
/// its name and by its place.
#[test]
fn each_field_of_an_answer_is_where_c_has_it() {
    let size = size_of::<usize>();
    // The first place for a size after three words.
    let third = 12usize.next_multiple_of(align_of::<usize>());
    assert_eq!(offset_of!(raw::Reply, status), 0);
    assert_eq!(offset_of!(raw::Reply, rule), 4);
    assert_eq!(offset_of!(raw::Reply, value), 8);
    assert_eq!(offset_of!(raw::Reply, top), third);
    assert_eq!(size_of::<raw::Reply>(), third + size);
    assert_eq!(offset_of!(raw::Span, from), 0);
    assert_eq!(offset_of!(raw::Span, to), size);
    assert_eq!(size_of::<raw::Span>(), 2 * size);
    assert_eq!(offset_of!(raw::Text, status), 0);
    assert_eq!(offset_of!(raw::Text, rule), 4);
    assert_eq!(offset_of!(raw::Text, value), 8);
    assert_eq!(offset_of!(raw::Text, length), 8 + size);
    assert_eq!(size_of::<raw::Text>(), 8 + 2 * size);
    assert_eq!(offset_of!(raw::Typed, status), 0);
    assert_eq!(offset_of!(raw::Typed, rule), 4);
    assert_eq!(offset_of!(raw::Typed, value), 8);
    assert_eq!(offset_of!(raw::Typed, top), 8 + size);
    assert_eq!(size_of::<raw::Typed>(), 8 + 2 * size);
    assert_eq!(offset_of!(raw::Saved, status), 0);
    assert_eq!(offset_of!(raw::Saved, rule), 4);
    assert_eq!(offset_of!(raw::Saved, value), 8);
    assert_eq!(offset_of!(raw::Saved, top), third);
    assert_eq!(offset_of!(raw::Saved, length), third + size);
    assert_eq!(size_of::<raw::Saved>(), third + 2 * size);
    assert_eq!(offset_of!(raw::Pieces, stand), 0);
    assert_eq!(offset_of!(raw::Pieces, code), 4);
    assert_eq!(offset_of!(raw::Pieces, offset), 8);
    assert_eq!(offset_of!(raw::Pieces, depth), 8 + size);
    assert_eq!(offset_of!(raw::Pieces, terms), 8 + 2 * size);
    assert_eq!(offset_of!(raw::Pieces, own), 8 + 3 * size);
    assert_eq!(offset_of!(raw::Pieces, most), 12 + 3 * size);
    assert_eq!(offset_of!(raw::Pieces, counts), 16 + 3 * size);
    assert_eq!(size_of::<raw::Pieces>(), 272 + 3 * size);
    assert_eq!(offset_of!(raw::Counted, status), 0);
    assert_eq!(offset_of!(raw::Counted, value), size);
    assert_eq!(offset_of!(raw::Counted, terms), 2 * size);
    assert_eq!(offset_of!(raw::Counted, most), 3 * size);
    assert_eq!(size_of::<raw::Counted>(), 4 * size);

    // Register 0 on cells 17 and 18, and a bracket around itself in cell 19.
    let mut words = [0; 48];
    assert_eq!(raw::fresh(&mut words).top, 16);
    words[..2].copy_from_slice(&[17, 0x8000_0000 + 18]);
    words[32..42].copy_from_slice(&[1, 0, 2, 0, 3, 0, 4, 0, 5, 0]);
    let span = raw::look(&words, 21, 0);
    assert_eq!((span.from, span.to), (34, 38));
    let text = raw::print(&words, 21, 0, &mut [7; 9]);
    assert_eq!((text.status, text.rule, text.value, text.length), (0, 0, 0, 3));
    let typed = raw::type_in(&mut words, 21, 0, b"65 (66 x");
    assert_eq!((typed.status, typed.rule, typed.value, typed.top), (23, 0, 7, 21));
    let saved = raw::save(&mut words.clone(), 21, &mut [7; 200]);
    assert_eq!((saved.status, saved.rule, saved.value), (0, 0, 0));
    assert_eq!((saved.top, saved.length), (18, 160));
    words[38..40].copy_from_slice(&[19, 0x8000_0000 + 19]);
    for reply in [raw::check(&words, 21), raw::collect(&mut words, 21)] {
        assert_eq!((reply.status, reply.rule, reply.value, reply.top), (3, 5, 19, 21));
    }
    let reply = raw::run(&mut words, 21, &[], &mut []);
    assert_eq!((reply.status, reply.rule, reply.value, reply.top), (3, 5, 19, 21));
    let text = raw::print(&words, 21, 0, &mut [7; 9]);
    assert_eq!((text.status, text.rule, text.value, text.length), (3, 5, 19, 0));
    let typed = raw::type_in(&mut words, 21, 0, b"65");
    assert_eq!((typed.status, typed.rule, typed.value, typed.top), (3, 5, 19, 21));
    let saved = raw::save(&mut words, 21, &mut [7; 200]);
    assert_eq!((saved.status, saved.rule, saved.value), (3, 5, 19));
    assert_eq!((saved.top, saved.length), (21, 0));
    // Every byte of a `top` crosses, both ways.
    let top = usize::MAX / 255 * 0xa5 - 1;
    let reply = raw::check(&words, top);
    assert_eq!((reply.status, reply.rule, reply.value, reply.top), (2, 0, 0, top));
    let typed = raw::type_in(&mut words, top, 0, b"65");
    assert_eq!((typed.status, typed.rule, typed.value, typed.top), (2, 0, 0, top));
    let saved = raw::save(&mut words, top, &mut [7; 200]);
    assert_eq!((saved.status, saved.rule, saved.value), (2, 0, 0));
    assert_eq!((saved.top, saved.length), (top, 0));

    let state = raw::text_feed(raw::text_start(), b"1 2 3 (4 (567) 8 (9 (10");
    assert_eq!((state.stand, state.code, state.offset, state.depth), (2, 10, 23, 3));
    assert_eq!((state.terms, state.own, state.most), (12, 1, 4));
    assert_eq!((&state.counts[..3], &state.counts[3..]), (&[4, 4, 2][..], &[0; 61][..]));
    let counted = raw::text_end(raw::text_feed(state, b"))) 12"));
    assert_eq!((counted.status, counted.value), (0, 0));
    assert_eq!((counted.terms, counted.most), (13, 5));
    // Every byte of every field crosses, both ways, of a text that does not go on.
    let mut counts = [0; 64];
    counts.iter_mut().zip(0x0102_0304..).for_each(|(count, number)| *count = number);
    let (stand, code, own, most) = (0xa1a2_a3a4, 0xb1b2_b3b4, 0xc1c2_c3c4, 0xd1d2_d3d4);
    let (offset, depth, terms) = (top, top - 1, top - 2);
    let state = raw::Pieces { stand, code, offset, depth, terms, own, most, counts };
    assert_eq!(raw::text_feed(state, b"1"), state);
    let counted = raw::text_end(state);
    assert_eq!((counted.status, counted.value, counted.terms, counted.most), (23, top, 0, 0));
}
