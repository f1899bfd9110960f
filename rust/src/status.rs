//! The numbers that come back, each with its name and what it says: one list for Rust, C and the
//! tools.
//!
//! `include/zelmotar.h` repeats it; `tools/rust-test` holds one against the other.

/// A number that the store answers with.
#[derive(Clone, Copy, Debug, PartialEq, Eq, Hash)]
#[must_use]
pub struct Status {
    /// The number itself.
    pub number: u32,
    /// Its name in C, less the `ZELMOTAR_` before it.
    pub name: &'static str,
    /// What it says of a call, or of a whole request, in a few words.
    pub text: &'static str,
}

/// A row of [`STATUSES`].
const fn row(number: u32, name: &'static str, text: &'static str) -> Status {
    Status { number, name, text }
}

/// Every status: done, the refusals of a whole request, those of one call, those of texts and those
/// of files. A text that is typed in may be refused with 13 and 16 too, one that comes in pieces
/// with 13, and a file that is written with 22.
pub const STATUSES: [Status; 24] = [
    row(0, "DONE", "done"),
    row(1, "BAD_LENGTH", "no store has that capacity"),
    row(2, "BAD_TOP", "top is out of range"),
    row(3, "DAMAGED", "a cell breaks its rule"),
    row(4, "BAD_CALLS", "too many calls, or a broken call"),
    row(5, "SHORT_ANSWERS", "the answer space is too short"),
    row(10, "BAD_OPERATION", "no such operation"),
    row(11, "BAD_REGISTER", "no such register"),
    row(12, "STRAY_WORD", "a word that it does not use is not 0"),
    row(13, "BAD_CODE", "the code is 0 or too large"),
    row(14, "EMPTY", "the register is empty"),
    row(15, "WRONG_KIND", "its first term is of the other kind"),
    row(16, "NO_ROOM", "no room"),
    row(20, "NO_REGISTER", "no register has that number"),
    row(21, "TOO_DEEP", "brackets are nested too deep"),
    row(22, "SHORT_SPACE", "the space is too short"),
    row(23, "NOT_TEXT", "no text of an expression"),
    row(24, "TOO_MANY_TERMS", "too many terms"),
    row(30, "SHORT_FILE", "the file is too short"),
    row(31, "BAD_EDITION", "the file is of no known edition"),
    row(32, "BAD_DISTANCE", "the file's distance is wrong"),
    row(33, "BAD_CAPACITY", "the file's capacity is not allowed"),
    row(34, "NOT_COLLECTED", "the file's store is not collected"),
    row(35, "WRONG_SLICE", "the words lent are not twice the file's capacity"),
];

/// What a status says; `no such status` of any other number.
///
/// ```
/// use zelmotar::status_text;
///
/// assert_eq!(status_text(16), "no room");
/// assert_eq!(status_text(6), "no such status");
/// ```
pub fn status_text(number: u32) -> &'static str {
    match STATUSES.iter().find(|status| status.number == number) {
        Some(status) => status.text,
        None => "no such status",
    }
}
