//! Words or bytes that stand between pages which fault when they are touched, read or written. For
//! Linux.
//!
//! A fault ends the whole test program with signal 11, so it cannot be overlooked; the case is not
//! printed then.

use std::cell::{Cell, RefCell};
use std::ffi::{c_int, c_long, c_void};
use std::os::unix::process::ExitStatusExt;
use std::process::Command;
use std::{env, ptr, slice};

extern "C" {
    fn mmap(
        at: *mut c_void,
        length: usize,
        protection: c_int,
        flags: c_int,
        file: c_int,
        offset: c_long,
    ) -> *mut c_void;
    fn mprotect(at: *mut c_void, length: usize, protection: c_int) -> c_int;
}

const NONE: c_int = 0;
const READ_AND_WRITE: c_int = 3;
const PRIVATE_AND_ANONYMOUS: c_int = 0x22;

/// Bytes on either side that fault, and as many between them that do not: a multiple of every page
/// size in use, and more than the longest text that is lent.
const STEP: usize = 1 << 19;

/// The words that can be touched.
const WORDS: usize = STEP / 4;

thread_local! {
    /// Pages that were used and can be again: to ask for new ones takes longer than most cases.
    static SPARE: RefCell<Vec<Pages>> = const { RefCell::new(Vec::new()) };
    static TURN: Cell<bool> = const { Cell::new(false) };
}

/// [`WORDS`] words between pages that fault. They are never given back to the system.
pub struct Pages(*mut u32);

impl Pages {
    /// Pages that nobody else uses.
    pub fn take() -> Pages {
        SPARE.with_borrow_mut(Vec::pop).unwrap_or_else(Pages::new)
    }

    /// Lets others have the pages.
    pub fn spare(self) {
        SPARE.with_borrow_mut(|spare| spare.push(self));
    }

    fn new() -> Pages {
        // SAFETY: the system chooses the place, so no memory in use is changed; and what is made
        // writable is the middle of what it gave.
        unsafe {
            let all = mmap(ptr::null_mut(), 3 * STEP, NONE, PRIVATE_AND_ANONYMOUS, -1, 0);
            assert!(all as isize != -1, "the system gives no pages");
            let middle = all.byte_add(STEP);
            assert_eq!(mprotect(middle, STEP, READ_AND_WRITE), 0);
            Pages(middle.cast())
        }
    }

    /// The words, up to the pages that fault.
    pub fn words(&mut self) -> &mut [u32] {
        // SAFETY: so many words can be touched, they are borrowed as long as the pages are, and
        // nobody else has them. The system has set them to zero.
        unsafe { slice::from_raw_parts_mut(self.0, WORDS) }
    }

    /// The same as bytes.
    pub fn bytes(&mut self) -> &mut [u8] {
        // SAFETY: as for the words; a word is four bytes, each of any value.
        unsafe { slice::from_raw_parts_mut(self.0.cast(), STEP) }
    }
}

/// Where the next list stands: alternately right after a page that faults and right before one.
pub fn next_is_high() -> bool {
    TURN.replace(!TURN.get())
}

/// What the test below asks of a process of its own: which word to touch.
const ASKED: &str = "ZELMOTAR_TOUCH";

#[test]
fn the_pages_on_both_sides_fault() {
    if let Ok(place) = env::var(ASKED) {
        let place = place.parse().expect("a place is a number");
        // SAFETY: that it is not safe is what is tried: the process is to end here if the place is
        // outside.
        unsafe { Pages::take().0.offset(place).read_volatile() };
        return;
    }
    let this = env::current_exe().expect("the test is a program");
    for (place, faults) in
        [(-1, true), (0, false), (WORDS as isize - 1, false), (WORDS as isize, true)]
    {
        // Through the shell, which can see to it that no core file is left.
        let mut command = Command::new("sh");
        command
            .args(["-c", "ulimit -c 0; exec \"$0\" --exact pages::the_pages_on_both_sides_fault"]);
        command.arg(&this);
        let status = command.env(ASKED, place.to_string()).output().expect("it is run").status;
        assert_eq!(status.signal().is_some(), faults, "word {place}: {status}");
    }
}
