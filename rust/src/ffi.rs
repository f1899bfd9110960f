//! The C functions of the linked library, each behind a safe function on slices.
//!
//! This is the only file with `unsafe` in it. The declarations repeat `include/zelmotar.h`; nothing
//! checks one against the other but the tests (`tests/c`, `tools/rust-test`).

/// What a function of the library answers, in numbers.
///
/// It is laid out as `zelmotar_reply` of the C header.
#[repr(C)]
#[derive(Clone, Copy, Debug, PartialEq, Eq)]
#[must_use = "the status says whether anything was done"]
pub struct Reply {
    /// 0 for done, else the number of the refusal.
    pub status: u32,
    /// The number of the rule that the cell breaks, 1 to 6, where the status is 3; else 0.
    pub rule: u32,
    /// The number that the status names: a cell, a count of live cells, or 0.
    pub value: u32,
    /// The end of the occupied cells after the call, in cells.
    pub top: usize,
}

/// A part of a store, as offsets in words; `to` is not part of it.
///
/// It is laid out as `zelmotar_span` of the C header.
#[repr(C)]
#[derive(Clone, Copy, Debug, PartialEq, Eq)]
#[must_use]
pub struct Span {
    /// The offset of the first word.
    pub from: usize,
    /// The offset after the last word.
    pub to: usize,
}

/// What printing answers, in numbers.
///
/// It is laid out as `zelmotar_text` of the C header.
#[repr(C)]
#[derive(Clone, Copy, Debug, PartialEq, Eq)]
#[must_use = "the status says whether there is a text"]
pub struct Text {
    /// 0 for done, else the number of the refusal.
    pub status: u32,
    /// The number of the rule that the cell breaks, 1 to 6, where the status is 3; else 0.
    pub rule: u32,
    /// The number that the status names: a cell, or 0.
    pub value: usize,
    /// The bytes of the text, 0 where it is refused.
    pub length: usize,
}

/// What typing answers, in numbers.
///
/// It is laid out as `zelmotar_typed` of the C header.
#[repr(C)]
#[derive(Clone, Copy, Debug, PartialEq, Eq)]
#[must_use = "the status says whether the register is set"]
pub struct Typed {
    /// 0 for done, else the number of the refusal.
    pub status: u32,
    /// The number of the rule that the cell breaks, 1 to 6, where the status is 3; else 0.
    pub rule: u32,
    /// The number that the status names: a cell, the offset of a byte of the text, or 0.
    pub value: usize,
    /// The end of the occupied cells afterwards, in cells.
    pub top: usize,
}

/// What saving answers, in numbers.
///
/// It is laid out as `zelmotar_saved` of the C header.
#[repr(C)]
#[derive(Clone, Copy, Debug, PartialEq, Eq)]
#[must_use = "the status says whether there is a file"]
pub struct Saved {
    /// 0 for done, else the number of the refusal.
    pub status: u32,
    /// The number of the rule that the cell breaks, 1 to 6, where the status is 3; else 0.
    pub rule: u32,
    /// The number that the status names: a cell, or 0.
    pub value: u32,
    /// The end of the occupied cells afterwards, in cells.
    pub top: usize,
    /// The bytes of the file, 0 where it is refused.
    pub length: usize,
}

/// A text that comes in pieces, as far as it is read, in numbers.
///
/// It is laid out as `zelmotar_pieces` of the C header. Any numbers may be in it: [`text_feed`] says which of
/// them go on.
#[repr(C)]
#[derive(Clone, Copy, Debug, PartialEq, Eq)]
#[must_use]
pub struct Pieces {
    /// Where the text stands: 0 where a level has begun, 1 after a blank, 2 in a number, 3 after a closing
    /// bracket; or the status with which it is refused, 13, 21, 23 or 24.
    pub stand: u32,
    /// The number so far where `stand` is 2, else 0.
    pub code: u32,
    /// The bytes read so far, or the offset of the byte that is refused.
    pub offset: usize,
    /// The brackets that are open, at most 64.
    pub depth: usize,
    /// The terms begun on all levels, at most 65,536.
    pub terms: usize,
    /// The terms begun in the innermost open expression.
    pub own: u32,
    /// The most terms that any one expression had at its own level so far.
    pub most: u32,
    /// For each bracket that is open, the outermost first, the terms begun in the expression that it stands
    /// in, itself included. Those behind them are left over, and say nothing.
    pub counts: [u32; 64],
}

/// What a text that came in pieces answers at its end, in numbers.
///
/// It is laid out as `zelmotar_counted` of the C header.
#[repr(C)]
#[derive(Clone, Copy, Debug, PartialEq, Eq)]
#[must_use = "the status says whether it is a text"]
pub struct Counted {
    /// 0 for done, else the number of the refusal.
    pub status: u32,
    /// The number that the status names: the offset of a byte of the text, or 0.
    pub value: usize,
    /// The terms on all levels, 0 where the text is refused.
    pub terms: usize,
    /// The most terms that any one expression has at its own level, 0 where the text is refused.
    pub most: usize,
}

extern "C" {
    fn zelmotar_check(words: *const u32, n: usize, top: usize) -> Reply;
    fn zelmotar_fresh(words: *mut u32, n: usize) -> Reply;
    fn zelmotar_collect(words: *mut u32, n: usize, top: usize) -> Reply;
    fn zelmotar_run(
        words: *mut u32,
        n: usize,
        top: usize,
        calls: *const u32,
        calls_n: usize,
        answers: *mut u32,
        answers_n: usize,
    ) -> Reply;
    fn zelmotar_look(words: *const u32, n: usize, top: usize, reg: usize) -> Span;
    fn zelmotar_print(
        words: *const u32,
        n: usize,
        top: usize,
        reg: usize,
        text: *mut u8,
        text_n: usize,
    ) -> Text;
    fn zelmotar_type(
        words: *mut u32,
        n: usize,
        top: usize,
        reg: usize,
        text: *const u8,
        text_n: usize,
    ) -> Typed;
    fn zelmotar_save(words: *mut u32, n: usize, top: usize, file: *mut u8, file_n: usize) -> Saved;
    fn zelmotar_load(words: *mut u32, n: usize, file: *const u8, file_n: usize) -> Reply;
    fn zelmotar_text_start() -> Pieces;
    fn zelmotar_text_feed(state: Pieces, piece: *const u8, piece_n: usize) -> Pieces;
    fn zelmotar_text_end(state: Pieces) -> Counted;
}

/// Checks a store: 0, or refusals 1 to 3. Nothing is written, and `top` comes back as it came.
pub fn check(words: &[u32], top: usize) -> Reply {
    // SAFETY: pointer and count are those of a live slice, which the function only reads and does
    // not keep. It takes every `top`.
    unsafe { zelmotar_check(words.as_ptr(), words.len(), top) }
}

/// Writes a fresh store: 0 with `top` 16, or refusal 1 with `top` 0 and the words as they were.
pub fn fresh(words: &mut [u32]) -> Reply {
    // SAFETY: pointer and count are those of a slice that is borrowed alone, and all that the
    // function writes is u32 within the count.
    unsafe { zelmotar_fresh(words.as_mut_ptr(), words.len()) }
}

/// Collects a store: 0 with the number of live cells and the new `top`, or refusals 1 to 3 with the
/// words and `top` as they came.
pub fn collect(words: &mut [u32], top: usize) -> Reply {
    // SAFETY: pointer and count are those of a slice that is borrowed alone, and all that the
    // function writes is u32 within the count. It takes every `top` and every word.
    unsafe { zelmotar_collect(words.as_mut_ptr(), words.len(), top) }
}

/// Runs a batch of calls of four words each, and writes two answer words for each.
///
/// It answers 0 with the new `top` and sets what is left of `answers` to zero, or refuses with 1 to
/// 5, and then words, answers and `top` are as they came.
pub fn run(words: &mut [u32], top: usize, calls: &[u32], answers: &mut [u32]) -> Reply {
    // SAFETY: each pointer and count are those of a live slice. `words` and `answers` are borrowed
    // alone, so none of the three overlap, and the function writes u32 to these two only, within
    // their counts. It takes every `top` and every word.
    unsafe {
        zelmotar_run(
            words.as_mut_ptr(),
            words.len(),
            top,
            calls.as_ptr(),
            calls.len(),
            answers.as_mut_ptr(),
            answers.len(),
        )
    }
}

/// The part of `words` that holds the cells of a register.
///
/// Both offsets are 0 where the register is empty or over 15, or the store is not sound.
pub fn look(words: &[u32], top: usize, register: usize) -> Span {
    // SAFETY: pointer and count are those of a live slice, which the function only reads and does
    // not keep. It takes every `top` and every register.
    unsafe { zelmotar_look(words.as_ptr(), words.len(), top, register) }
}

/// Prints a register into `text`, the store's words unchanged.
///
/// It answers 0 with the length and sets what is left of `text` to zero, or refuses with 1 to 3 or 20
/// to 22, and then all of `text` is zero.
pub fn print(words: &[u32], top: usize, register: usize, text: &mut [u8]) -> Text {
    // SAFETY: each pointer and count are those of a live slice. `text` is borrowed alone, so the two do
    // not overlap, and the function writes bytes to it only, within its count. It takes every `top`,
    // every register and every word.
    unsafe {
        zelmotar_print(words.as_ptr(), words.len(), top, register, text.as_mut_ptr(), text.len())
    }
}

/// Types `text` into a register; `text` is only read. In C this is `zelmotar_type`, a word that Rust keeps
/// for itself.
///
/// It answers 0 with the new `top`; or refuses with 1 to 3, 20, 13, 21, 23 or 24, and then words and `top`
/// are as they came; or refuses with 16, and then the store is collected and `top` is that of it.
pub fn type_in(words: &mut [u32], top: usize, register: usize, text: &[u8]) -> Typed {
    // SAFETY: each pointer and count are those of a live slice. `words` is borrowed alone, so the two do
    // not overlap, and the function writes u32 to it only, within its count. It takes every `top`, every
    // register, every word and every byte.
    unsafe {
        zelmotar_type(words.as_mut_ptr(), words.len(), top, register, text.as_ptr(), text.len())
    }
}

/// Collects a store and writes it into `file`.
///
/// It answers 0 with the new `top` and the length of the file, and sets what is left of `file` to
/// zero. It refuses with 1 to 3, and then words and `top` are as they came, or with 22, and then
/// the store is collected and `top` is that of it; all of `file` is zero in both cases.
pub fn save(words: &mut [u32], top: usize, file: &mut [u8]) -> Saved {
    // SAFETY: each pointer and count are those of a slice that is borrowed alone, so the two do not
    // overlap, and the function writes u32 to the one and bytes to the other, within their counts.
    // It takes every `top` and every word.
    unsafe { zelmotar_save(words.as_mut_ptr(), words.len(), top, file.as_mut_ptr(), file.len()) }
}

/// Writes the store that a file holds into `words`, whatever they held; `file` is only read.
///
/// It answers 0 with the `top` of the store; or refuses with 30 to 33, 35, 3 or 34, and then `top`
/// is 0 and the words are as they came.
pub fn load(words: &mut [u32], file: &[u8]) -> Reply {
    // SAFETY: each pointer and count are those of a live slice. `words` is borrowed alone, so the
    // two do not overlap, and the function writes u32 to it only, within its count. It takes every
    // word and every byte.
    unsafe { zelmotar_load(words.as_mut_ptr(), words.len(), file.as_ptr(), file.len()) }
}

/// A text of which no byte has come yet: every field is 0.
pub fn text_start() -> Pieces {
    // SAFETY: the function takes nothing, and what it gives back are numbers.
    unsafe { zelmotar_text_start() }
}

/// Reads one piece more of a text, of any length; `piece` is only read.
///
/// What comes back has `code` 0 unless `stand` is 2. A text that is refused already comes back as it came,
/// field by field. So does every other struct that does not go on. One goes on if all of this holds:
///
/// - `stand` is at most 3, and where it is 2 `code` is below 2^28;
/// - `depth` is at most 64 and `terms` at most 65,536;
/// - `own`, `most` and the first `depth` of `counts` are at most `terms`;
/// - `offset` + `depth` + `a` is at most 2^28 `terms` + 1, where `a` is 1 for `stand` 0 and 3, 0 for 1, and
///   2^28 - `code` for 2.
///
/// Those that texts leave do.
pub fn text_feed(state: Pieces, piece: &[u8]) -> Pieces {
    // SAFETY: pointer and count are those of a live slice, which the function only reads and does not keep.
    // It takes every byte, and every number in the struct.
    unsafe { zelmotar_text_feed(state, piece.as_ptr(), piece.len()) }
}

/// What a text comes to if it ends here.
///
/// It answers 0 with value 0, the terms on all levels and the most at one; or refuses with 13, 21, 23 or 24 and
/// the offset. A struct that does not go on and is not refused is refused with 23.
pub fn text_end(state: Pieces) -> Counted {
    // SAFETY: the function takes every number in the struct, and no pointer.
    unsafe { zelmotar_text_end(state) }
}
