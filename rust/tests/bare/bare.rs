//! A program with neither the standard library nor an allocator, as on a controller. `tools/rust-test`
//! compiles it with rustc alone, against the package built without its feature `alloc`: if the package
//! drew in either, this would not compile, for want of an allocator or with two panic handlers.
//!
//! Its exit status is 0 if the store answers as it should, else the number of the step that did not.

#![no_std]
#![no_main]

use core::panic::PanicInfo;

use zelmotar::{Answer, Call, Counted, Pieces, Refusal, Rule, Store, Term};

#[panic_handler]
fn panic(_: &PanicInfo) -> ! {
    loop {}
}

/// The precompiled `core` names this in its tables for unwinding, and a linker that keeps them, as LLVM's
/// does, wants it. Nothing unwinds here.
#[no_mangle]
extern "C" fn rust_eh_personality() {}

/// The number of the first step that goes wrong, or 0.
fn steps() -> i32 {
    let mut words = [0; 64];
    let Ok(mut store) = Store::fresh(&mut words[..]) else {
        return 1;
    };
    let calls = [Call::Symbol { d: 0, code: 65 }, Call::Wrap { d: 1, a: 0 }, Call::Live];
    let expected = [Answer::Done, Answer::Done, Answer::Value(2)];
    for (i, (call, answer)) in calls.into_iter().zip(expected).enumerate() {
        if store.call(call) != Ok(answer) {
            return 2 + i as i32;
        }
    }
    match store.look(1).next() {
        Some(Term::Bracket(inside)) if inside.len() == 1 => {}
        _ => return 9,
    }
    let mut space = [7; 6];
    if store.print(1, &mut space) != Ok("(65)") {
        return 10;
    }
    if store.print(1, &mut space[..3]) != Err(Refusal::ShortSpace) || space[..3] != [0; 3] {
        return 11;
    }
    if store.type_in(2, b"(65) 7") != Ok(()) || store.print(2, &mut space) != Ok("(65) 7") {
        return 12;
    }
    if store.type_str(2, "(65) x") != Err(Refusal::NotText { offset: 5 }) {
        return 13;
    }
    let (words, top) = store.into_parts();
    words[1] = 0;
    match Store::from_parts(words, top).check() {
        Err(Refusal::Damaged { cell: 0, rule: Rule::NotBracket, .. }) => {}
        _ => return 14,
    }
    let text = Pieces::new().feed(b"(6").feed(b"5) 7");
    if text.end() != Ok(Counted { terms: 3, most: 2 }) {
        return 15;
    }
    if text.feed(b" x").feed(b"8").end() != Err(Refusal::NotText { offset: 7 }) {
        return 16;
    }
    0
}

#[no_mangle]
extern "C" fn main() -> i32 {
    steps()
}
