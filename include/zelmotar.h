/* zelmotar.h: the expression store of Zelmotar, for C and C++.
 *
 * The functions below are those of the proved library. This file is written by hand: nothing checks it
 * against the library but the tests that link both. They hold every number in it: one more or one less,
 * and a test fails (tools/header-test).
 *
 * A store is n words that the caller lends, two words to a cell, and a number top. Cells 0 to 15 are the
 * registers, and the cells from 16 up to but not including top are occupied. A register holds an
 * expression: terms in order, each a symbol with a code or a bracket around an expression.
 *
 *   second word 0x00000000        a symbol; the first word is its code, ZELMOTAR_MIN_CODE to ZELMOTAR_MAX_CODE
 *   second word 0x80000000        an empty bracket or register; the first word is 0
 *   second word 0x80000000 + r    a bracket or register around the cells l to r; the first word is l
 *
 * Both ends are inclusive. A register's ends lie between 16 and top, those of a bracket in cell c between
 * 16 and c. Cells from top on are zero, and no other cell has both words zero: a cell below top that was wiped is
 * damaged. A store that keeps all these rules is sound.
 *
 * What holds for all twelve functions:
 *
 *   - They take any words, any top, any register, any text, whole or in pieces, and any file, and refuse by number what
 *     is not in order. A store need not be checked before it is lent; each function checks it.
 *   - A pointer must lead to as many words as its count says, aligned as uint32_t is; a pointer to bytes, to
 *     as many bytes, which may begin anywhere. It must not be null, not even where the count is 0; it may then
 *     lead anywhere.
 *   - Word lists and bytes that are lent to one call must not overlap.
 *   - They read and write nothing outside what is lent, keep no pointer, hold no state between calls, allocate
 *     nothing, do no input or output and call nothing back. Calls may run at the same time in different threads
 *     where neither writes what is lent to the other. zelmotar_check, zelmotar_look and zelmotar_print write no
 *     store, and the three for a text in pieces are lent none: how far the text has come is a value that the caller
 *     has, hands in and gets back.
 *   - Wherever the status is 1 to 5, no word is changed. zelmotar_print never changes a word, zelmotar_type changes
 *     words only where its status is 0 or 16, zelmotar_save only where it is 0 or 22, zelmotar_load only where it is 0.
 *     The bytes lent to zelmotar_print and zelmotar_save are all zero wherever the status is not 0, and those lent to
 *     zelmotar_type, zelmotar_load and zelmotar_text_feed are never changed.
 *   - A collection uses no memory that grows with the store, neither beside it nor on the stack.
 *   - The archive asks the linker for nothing but memset and memcpy: the compiler puts them in, the one for loops that
 *     write zeros, the other for structs that are handed by value. Where there is no C library, the caller brings both.
 *
 * What they cost:
 *
 *   - Time. Each that is lent words first goes over all n of them: zelmotar_fresh writes them, the others check them,
 *     but for zelmotar_load, which checks the file and writes them last. So one batch of many calls costs less than
 *     many batches of one. What comes on top is said with each function. None takes longer because cells are shared,
 *     but for zelmotar_print, which writes a shared cell wherever it is held; its time keeps within what the text space
 *     allows.
 *   - Stack. zelmotar_load uses under 17,408 bytes, most of them for a table of 4,096 words. Where 64 brackets are open
 *     zelmotar_print uses under 13,312 bytes and zelmotar_type under 11,264; for each that is not, 192 and 144 less.
 *     zelmotar_text_feed uses under 1,024, zelmotar_run and zelmotar_text_end under 512, zelmotar_collect and
 *     zelmotar_save under 256, zelmotar_fresh and zelmotar_text_start under 128, the others under 192, what memset and
 *     memcpy use included: measured on x86-64 and 64-bit Arm by painting the stack (tests/c/stack.c). Structs that are
 *     handed in and come back by value are the caller's, and not counted. It does not grow with the store, nor with the
 *     length of a text or of a file.
 */
#ifndef ZELMOTAR_H
#define ZELMOTAR_H

#include <stddef.h>
#include <stdint.h>

#ifdef __cplusplus
extern "C" {
#endif

/* The version of this file and of the library that it goes with: major, minor, patch. */
#define ZELMOTAR_VERSION_MAJOR 0
#define ZELMOTAR_VERSION_MINOR 3
#define ZELMOTAR_VERSION_PATCH 0
#define ZELMOTAR_VERSION "0.3.0"

/* Put before a function whose answer must be looked at: compilers that can warn of an answer that is dropped
 * do so. Define it as nothing to have no such warnings. */
#ifndef ZELMOTAR_USE_RESULT
#if defined(__GNUC__) || defined(__clang__)
#define ZELMOTAR_USE_RESULT __attribute__((warn_unused_result))
#elif (defined(__cplusplus) && __cplusplus >= 201703L) || (defined(__STDC_VERSION__) && __STDC_VERSION__ >= 202311L)
#define ZELMOTAR_USE_RESULT [[nodiscard]]
#else
#define ZELMOTAR_USE_RESULT
#endif
#endif

/* Limits. */
#define ZELMOTAR_REGISTERS 16         /* registers, and so the address of the first heap cell */
#define ZELMOTAR_MIN_WORDS 32         /* words of the smallest store, 16 cells */
#define ZELMOTAR_MAX_WORDS 8192       /* words of the largest store, 4,096 cells */
#define ZELMOTAR_MAX_CALL_WORDS 4096  /* words of the longest call list, 1,024 calls */
#define ZELMOTAR_MIN_CODE 1u          /* the least code of a symbol; 0 is none */
#define ZELMOTAR_MAX_CODE 0x0fffffffu /* the largest code of a symbol, 268,435,455 */
#define ZELMOTAR_MAX_DEPTH 64         /* the most brackets that may be open at one place of a text */
#define ZELMOTAR_MAX_TERMS 65536      /* the most terms of a text, counted on all levels */
#define ZELMOTAR_EDITION 1            /* the edition of a file, its last word */
#define ZELMOTAR_TRAILER_BYTES 16     /* bytes of a file's trailer; a file of fewer is too short */

/* A cell's second word. Bits 30 to 28 are for collections, and zero between calls. */
#define ZELMOTAR_BRACKET 0x80000000u     /* bit 31: a bracket or register; nothing else is set if it is empty */
#define ZELMOTAR_USED 0x40000000u        /* bit 30 */
#define ZELMOTAR_LEFT_CHAIN 0x20000000u  /* bit 29 */
#define ZELMOTAR_RIGHT_CHAIN 0x10000000u /* bit 28 */
#define ZELMOTAR_RIGHT_END 0x0fffffffu   /* the bits of the right end */

/* The two words of cell c in the words w, to read or to assign. */
#define ZELMOTAR_FIRST_WORD(w, c) ((w)[2 * (size_t)(c)])
#define ZELMOTAR_SECOND_WORD(w, c) ((w)[2 * (size_t)(c) + 1])

/* Cell c of a sound store, taken apart. Its kind is one of the first two; an empty bracket is a bracket. Only a
 * symbol has a code, and only a bracket that is not empty has ends. */
#define ZELMOTAR_IS_SYMBOL(w, c) (ZELMOTAR_SECOND_WORD(w, c) == 0)
#define ZELMOTAR_IS_BRACKET(w, c) ((ZELMOTAR_SECOND_WORD(w, c) & ZELMOTAR_BRACKET) != 0)
#define ZELMOTAR_IS_EMPTY(w, c) (ZELMOTAR_SECOND_WORD(w, c) == ZELMOTAR_BRACKET)
#define ZELMOTAR_CODE(w, c) ZELMOTAR_FIRST_WORD(w, c)
#define ZELMOTAR_LEFT(w, c) ZELMOTAR_FIRST_WORD(w, c)
#define ZELMOTAR_RIGHT(w, c) (ZELMOTAR_SECOND_WORD(w, c) & ZELMOTAR_RIGHT_END)

/* The two words of a cell, made: uint32_t cell[2] = {ZELMOTAR_SYMBOL_CELL(65)}; */
#define ZELMOTAR_SYMBOL_CELL(code) (uint32_t)(code), 0u
#define ZELMOTAR_EMPTY_CELL 0u, ZELMOTAR_BRACKET
#define ZELMOTAR_BRACKET_CELL(l, r) (uint32_t)(l), (ZELMOTAR_BRACKET | (uint32_t)(r))

/* A file holds a collected store, as words of four bytes with the lowest first: the heap cells from cell 16 on, two
 * words each; the sixteen registers; and a trailer of four words. With m heap cells these are
 *
 *   distance      the bytes from the end of the file back to the first heap cell, 8 * (m + 16) + 16
 *   heap cells    m, which is top less 16
 *   capacity      the number of cells that the store has room for, registers included
 *   edition       ZELMOTAR_EDITION
 *
 * It is read from its end, so bytes before the first heap cell do not count, and there must be none behind the trailer.
 * There is no checksum: a file whose bytes were changed is refused where its store is then not sound or not collected,
 * and else is that of another store. */

/* The bytes of the file of a collected store with this top. That of any other store has no more, as collecting never
 * raises top: so many bytes of space are always enough. */
#define ZELMOTAR_FILE_BYTES(top) (8 * (size_t)(top) + ZELMOTAR_TRAILER_BYTES)

/* What a function answers. Status and value are named with each function. rule says what is wrong with a damaged cell:
 * one of ZELMOTAR_RULE_STRAY_BIT to ZELMOTAR_RULE_BEYOND_TOP where the status is ZELMOTAR_DAMAGED, and 0 with every
 * other. top is the end of the occupied cells afterwards, in cells, and goes into the next call on the same store. */
typedef struct {
    uint32_t status;
    uint32_t rule;
    uint32_t value;
    size_t top;
} zelmotar_reply;

/* A part of a store, as offsets in words: words[from] up to but not including words[to]. */
typedef struct {
    size_t from;
    size_t to;
} zelmotar_span;

/* What a print answers: status and rule as in zelmotar_reply, the value that goes with the status, and how many bytes
 * the text has. */
typedef struct {
    uint32_t status;
    uint32_t rule;
    size_t value;
    size_t length;
} zelmotar_text;

/* What typing a register in answers: status, rule and top as in zelmotar_reply, and the value that goes with the
 * status, which is the offset of a byte where the text is refused, and so as wide as text_n. */
typedef struct {
    uint32_t status;
    uint32_t rule;
    size_t value;
    size_t top;
} zelmotar_typed;

/* What saving a store answers: status, rule, value and top as in zelmotar_reply, and how many bytes the file has. */
typedef struct {
    uint32_t status;
    uint32_t rule;
    uint32_t value;
    size_t top;
    size_t length;
} zelmotar_saved;

/* How far a text in pieces has come: zelmotar_text_start gives the first, and zelmotar_text_feed takes one and gives
 * the next. It is a value that goes from call to call, with no pointer in it; it may be kept and copied, and the same
 * one fed more than once. A caller need not look into it, but may: a stand over 3 says that the text is refused, as
 * soon as the byte at fault was fed. An expression is here the whole text or what a bracket holds, and its terms are
 * those at its own level. */
typedef struct {
    uint32_t stand;                      /* 0 where an expression has begun, 1 behind a blank, 2 in a code, 3 behind a
                                          * closing bracket; else the status with which the text is refused */
    uint32_t code;                       /* the code so far where stand is 2, else 0 */
    size_t offset;                       /* the bytes read so far, or the offset of the byte that is refused */
    size_t depth;                        /* the brackets that are open */
    size_t terms;                        /* the terms begun so far, on all levels */
    uint32_t own;                        /* the terms begun in the innermost expression that is open */
    uint32_t most;                       /* the most terms that any one expression has so far */
    uint32_t counts[ZELMOTAR_MAX_DEPTH]; /* at i, for i under depth: the terms begun in the expression that i open
                                          * brackets are around, the bracket that is open in it included */
} zelmotar_pieces;

/* What a text in pieces answers at its end: the status and the value that goes with it, which is the offset of a byte
 * where the text is refused; how many terms the text has on all levels, each of which takes one cell where it is typed
 * in; and the most that any one expression has, the whole text or what a bracket holds, at its own level. */
typedef struct {
    uint32_t status;
    size_t value;
    size_t terms;
    size_t most;
} zelmotar_counted;

/* Status of a whole request. The first that applies is given. */
enum {
    ZELMOTAR_DONE = 0,         /* done */
    ZELMOTAR_BAD_LENGTH = 1,   /* n is odd, under 32 or over 8,192; value 0 */
    ZELMOTAR_BAD_TOP = 2,      /* top is under 16 or over n / 2; value 0 */
    ZELMOTAR_DAMAGED = 3,      /* a cell breaks its rule; value: the first such cell, lowest address; rule: the one
                                * that it breaks */
    ZELMOTAR_BAD_CALLS = 4,    /* the call list is over 4,096 words or not a multiple of four; value 0 */
    ZELMOTAR_SHORT_ANSWERS = 5 /* the answer space is under two words a call; value 0 */
};

/* Rule that a damaged cell breaks. The first that applies is given. 2 to 5 concern cells below top, registers among
 * them, and 1 every cell, those from top on too. It is 0 with every status but ZELMOTAR_DAMAGED. */
enum {
    ZELMOTAR_RULE_STRAY_BIT = 1,   /* bit 30, 29 or 28 of the second word is set */
    ZELMOTAR_RULE_NOT_BRACKET = 2, /* a register, and bit 31 of the second word is not set */
    ZELMOTAR_RULE_BAD_EMPTY = 3,   /* the second word is 0x80000000, and the first is not 0 */
    ZELMOTAR_RULE_BAD_SYMBOL = 4,  /* bit 31 is not set, and the second word is not 0 or the first is no code */
    ZELMOTAR_RULE_BAD_ENDS = 5,    /* ends, but not 16 <= l <= r < top in a register, 16 <= l <= r < c in heap cell c */
    ZELMOTAR_RULE_BEYOND_TOP = 6   /* a cell from top on, and not both words are 0 */
};

/* Status of one call in a batch: ZELMOTAR_DONE, or the first of these that applies. A refused call has
 * value 0, and later calls go on. All but ZELMOTAR_NO_ROOM change no word of the store. */
enum {
    ZELMOTAR_BAD_OPERATION = 10, /* the operation is over 11 */
    ZELMOTAR_BAD_REGISTER = 11,  /* a register word that the call uses is over 15 */
    ZELMOTAR_STRAY_WORD = 12,    /* a word that the call does not use is not 0 */
    ZELMOTAR_BAD_CODE = 13,      /* SYMBOL, or a text, with a code that is 0 or over 268,435,455 */
    ZELMOTAR_EMPTY = 14,         /* HEAD, REST, OPEN or FIRST on an empty register */
    ZELMOTAR_WRONG_KIND = 15,    /* OPEN on a symbol, or FIRST on a bracket */
    ZELMOTAR_NO_ROOM = 16        /* no room for the new cells; no expression changes, and the store is left collected */
};

/* Status of a print: ZELMOTAR_DONE; or one of ZELMOTAR_BAD_LENGTH to ZELMOTAR_DAMAGED, with its value and rule; or one
 * of the first three of these, with value 0. The text is written from left to right, so of 21 and 22 it is the one of
 * the byte farther left, and ZELMOTAR_TOO_DEEP where both hold at one byte.
 *
 * Status of a register typed in: the first that applies of ZELMOTAR_BAD_LENGTH to ZELMOTAR_DAMAGED, with its value and
 * rule; ZELMOTAR_NO_REGISTER with value 0; ZELMOTAR_BAD_CODE, ZELMOTAR_TOO_DEEP, ZELMOTAR_NOT_TEXT or
 * ZELMOTAR_TOO_MANY_TERMS, whichever is at the byte farthest left, with the offset of this byte as value, counted from
 * 0; ZELMOTAR_NO_ROOM with value 0; and ZELMOTAR_DONE with value 0. ZELMOTAR_BAD_CODE is at a 0 that begins a term, or
 * at the digit that takes a code over 268,435,455. At one byte ZELMOTAR_TOO_DEEP goes before ZELMOTAR_TOO_MANY_TERMS,
 * and that before ZELMOTAR_BAD_CODE.
 *
 * Status of a text in pieces: one of the four that have an offset for a register typed in, with this offset, counted
 * from the first byte of the first piece; and ZELMOTAR_DONE with value 0. */
enum {
    ZELMOTAR_NO_REGISTER = 20,   /* the register is over 15; a store that is not sound is told first */
    ZELMOTAR_TOO_DEEP = 21,      /* the next byte would open a 65th bracket */
    ZELMOTAR_SHORT_SPACE = 22,   /* the next byte does not fit into the text space, or the file not into its space */
    ZELMOTAR_NOT_TEXT = 23,      /* no text goes on with this byte, or the text ends too soon, at its length */
    ZELMOTAR_TOO_MANY_TERMS = 24 /* the next byte would begin a 65,537th term */
};

/* Status of a store saved: the first that applies of ZELMOTAR_BAD_LENGTH to ZELMOTAR_DAMAGED, with its value and rule;
 * ZELMOTAR_SHORT_SPACE with value 0; and ZELMOTAR_DONE with value 0.
 *
 * Status of a file loaded: the first that applies of ZELMOTAR_SHORT_FILE to ZELMOTAR_BAD_CAPACITY, with value 0;
 * ZELMOTAR_WRONG_SLICE with value 0; ZELMOTAR_DAMAGED with the first damaged cell of the store in the file as value,
 * and the rule that it breaks; ZELMOTAR_NOT_COLLECTED with value 0; and ZELMOTAR_DONE with value 0. */
enum {
    ZELMOTAR_SHORT_FILE = 30,    /* under 16 bytes, and so without a trailer */
    ZELMOTAR_BAD_EDITION = 31,   /* the edition is not 1 */
    ZELMOTAR_BAD_DISTANCE = 32,  /* the distance is not 8 * (m + 16) + 16, or over file_n */
    ZELMOTAR_BAD_CAPACITY = 33,  /* the capacity is under m + 16 or over 4,096 */
    ZELMOTAR_NOT_COLLECTED = 34, /* no register reaches some heap cell */
    ZELMOTAR_WRONG_SLICE = 35    /* n is not twice the capacity */
};

/* Operations. A call is four words: operation, d, a, b. Words that are not named here must be 0. Registers
 * may coincide. A shared expression takes no new cells. No CLEAR is needed before a register is overwritten: what d
 * held does not count where room is sought, unless the call reads it. */
enum {
    ZELMOTAR_CLEAR = 0,  /* d        register d becomes empty */
    ZELMOTAR_COPY = 1,   /* d a      d becomes a, shared */
    ZELMOTAR_SYMBOL = 2, /* d a      d becomes the one symbol with code a; 1 new cell */
    ZELMOTAR_WRAP = 3,   /* d a      d becomes one bracket around a; 1 new cell */
    ZELMOTAR_JOIN = 4,    /* d a b    d becomes a then b. If a is empty b is shared, else if b is empty a is
                           *          shared, else there is a new cell for each term of both */
    ZELMOTAR_HEAD = 5,    /* d a      d becomes the first term of a, shared */
    ZELMOTAR_REST = 6,    /* d a      d becomes a less its first term, shared */
    ZELMOTAR_OPEN = 7,    /* d a      d becomes the contents of a's first term, shared */
    ZELMOTAR_LENGTH = 8,  /* a        value: the number of terms of a, those inside brackets not counted */
    ZELMOTAR_FIRST = 9,   /* a        value: the code of a's first term */
    ZELMOTAR_LIVE = 10,   /*          value: the number of live cells, those that some register reaches */
    ZELMOTAR_COLLECT = 11 /*          collects the store; value: the number of live cells */
};

/* What a status says, in a few words; "no such status" for any other number. The Rust package and the tools
 * say the same. */
static inline const char *zelmotar_status_text(uint32_t status)
{
    switch (status) {
    case ZELMOTAR_DONE: return "done";
    case ZELMOTAR_BAD_LENGTH: return "no store has that capacity";
    case ZELMOTAR_BAD_TOP: return "top is out of range";
    case ZELMOTAR_DAMAGED: return "a cell breaks its rule";
    case ZELMOTAR_BAD_CALLS: return "too many calls, or a broken call";
    case ZELMOTAR_SHORT_ANSWERS: return "the answer space is too short";
    case ZELMOTAR_BAD_OPERATION: return "no such operation";
    case ZELMOTAR_BAD_REGISTER: return "no such register";
    case ZELMOTAR_STRAY_WORD: return "a word that it does not use is not 0";
    case ZELMOTAR_BAD_CODE: return "the code is 0 or too large";
    case ZELMOTAR_EMPTY: return "the register is empty";
    case ZELMOTAR_WRONG_KIND: return "its first term is of the other kind";
    case ZELMOTAR_NO_ROOM: return "no room";
    case ZELMOTAR_NO_REGISTER: return "no register has that number";
    case ZELMOTAR_TOO_DEEP: return "brackets are nested too deep";
    case ZELMOTAR_SHORT_SPACE: return "the space is too short";
    case ZELMOTAR_NOT_TEXT: return "no text of an expression";
    case ZELMOTAR_TOO_MANY_TERMS: return "too many terms";
    case ZELMOTAR_SHORT_FILE: return "the file is too short";
    case ZELMOTAR_BAD_EDITION: return "the file is of no known edition";
    case ZELMOTAR_BAD_DISTANCE: return "the file's distance is wrong";
    case ZELMOTAR_BAD_CAPACITY: return "the file's capacity is not allowed";
    case ZELMOTAR_NOT_COLLECTED: return "the file's store is not collected";
    case ZELMOTAR_WRONG_SLICE: return "the words lent are not twice the file's capacity";
    default: return "no such status";
    }
}

/* What is wrong with a cell that breaks a rule, in a few words; 0 is for none, and any other number is "no such rule".
 * The Rust package says the same. */
static inline const char *zelmotar_rule_text(uint32_t rule)
{
    static const char *const texts[] = {
        "no rule is broken",
        "its used bit or a chain bit is set",
        "it is a register and not a bracket",
        "it is an empty bracket whose first word is not 0",
        "it is neither a bracket nor a symbol",
        "its ends are out of order or out of range",
        "it is beyond top and not two zero words",
    };
    return rule < sizeof texts / sizeof texts[0] ? texts[rule] : "no such rule";
}

/* How many words have to be lent to zelmotar_load for a file: twice the capacity in its trailer, and so at most
 * ZELMOTAR_MAX_WORDS. 0 where the file has no trailer or a capacity that is too large; zelmotar_load refuses it then,
 * whatever is lent. Nothing else of the file is looked at. */
static inline size_t zelmotar_file_words(const uint8_t *file, size_t file_n)
{
    const uint8_t *word;
    size_t cells;
    if (file_n < ZELMOTAR_TRAILER_BYTES)
        return 0;
    word = file + (file_n - 8);
    cells = word[0] + 256 * (size_t)word[1];
    return word[2] > 0 || word[3] > 0 || 2 * cells > ZELMOTAR_MAX_WORDS ? 0 : 2 * cells;
}

/* Checks a store.
 *
 * Reads the n words, and those of a damaged store twice. Writes nothing.
 * Answers ZELMOTAR_DONE with value 0 if the store is sound, else ZELMOTAR_BAD_LENGTH, ZELMOTAR_BAD_TOP or
 * ZELMOTAR_DAMAGED with the value and the rule named there. top comes back as it came. */
ZELMOTAR_USE_RESULT zelmotar_reply zelmotar_check(const uint32_t *words, size_t n, size_t top);

/* Writes a fresh store: sixteen empty registers and zeros after them, whatever the words held.
 *
 * Writes all n words, or none.
 * Answers ZELMOTAR_DONE with value 0 and top 16, or ZELMOTAR_BAD_LENGTH with value 0 and top 0. */
ZELMOTAR_USE_RESULT zelmotar_reply zelmotar_fresh(uint32_t *words, size_t n);

/* Collects a store: live cells close up in their order from cell 16 on, every reference follows, and what
 * comes after them is zero. Registers keep their expressions, and shared cells stay shared.
 *
 * Reads and writes the n words: after the check two passes over the occupied cells, whatever they share.
 * Answers ZELMOTAR_DONE with the number of live cells as value and 16 more than it as top; else, as
 * zelmotar_check does, ZELMOTAR_BAD_LENGTH, ZELMOTAR_BAD_TOP or ZELMOTAR_DAMAGED, with its value and rule, and with top
 * as it came. */
ZELMOTAR_USE_RESULT zelmotar_reply zelmotar_collect(uint32_t *words, size_t n, size_t top);

/* Runs a batch of calls, in order.
 *
 * Reads the n words and the calls_n words of the call list, four to a call. Writes the n words and all
 * answers_n words of the answer space: for call i, its status at 2 * i and its value at 2 * i + 1; words
 * after those of the last call become 0. The call list is not written.
 * The check is made once for the batch. A call then takes the same time on every store, but for JOIN, which takes
 * time with the cells that it copies, and for LIVE, COLLECT and each call that collects, which go over the
 * occupied cells as zelmotar_collect does; one that collects to make room does so twice at most.
 * New cells are laid from top upward. Only where they would not fit is the store collected, and only if
 * they do not fit then is the call refused with ZELMOTAR_NO_ROOM. What register d held until then does not count
 * and goes in that collection, unless d is an operand register too, as in WRAP 0 0; cells that another register
 * reaches count and stay. A call that is refused so leaves the store collected, and d keeps what it held.
 * Answers ZELMOTAR_DONE with value 0 and the new top once every call has its answer, refused ones too;
 * else one of ZELMOTAR_BAD_LENGTH to ZELMOTAR_SHORT_ANSWERS, with its value and rule, and then no call is run and top
 * comes back as it came. A batch of no calls is done and changes no word of the store. */
ZELMOTAR_USE_RESULT zelmotar_reply zelmotar_run(uint32_t *words, size_t n, size_t top, const uint32_t *calls,
                                                 size_t calls_n, uint32_t *answers, size_t answers_n);

/* Looks at a register: the part of the lent words that holds its cells, whole cells in their order.
 *
 * Reads the n words, for the check, whatever the register's length. Writes nothing.
 * from and to are both 0 where the register is empty or over 15, or the store is not sound; zelmotar_check
 * tells which. The offsets hold until the store is next written. */
ZELMOTAR_USE_RESULT zelmotar_span zelmotar_look(const uint32_t *words, size_t n, size_t top, size_t reg);

/* Prints a register into a text space of text_n bytes, in ASCII: a symbol is its code in decimal, a bracket is what
 * it holds between ( and ), and one blank stands between neighbours, as in 65 (66 67) (). The brackets written are
 * those inside the register, so an empty register has a text of no bytes.
 *
 * Reads the n words. Writes all text_n bytes, and no word: the text and zeros after it, or zeros alone. Where the
 * text fills the space no zero follows it. For a C string, lend text_n bytes of a buffer of text_n + 1, and have
 * the last one 0. A text may be far longer than the store, as a shared cell is written wherever it is held.
 * After the check it takes time with text_n, whatever the store shares: it ends at the first byte that does not fit.
 * Answers ZELMOTAR_DONE with value 0 and the length of the text. Else the length is 0 and every byte of the space
 * is 0, and the status is ZELMOTAR_BAD_LENGTH, ZELMOTAR_BAD_TOP or ZELMOTAR_DAMAGED as zelmotar_check has it, with its
 * value and rule, or ZELMOTAR_NO_REGISTER, ZELMOTAR_TOO_DEEP or ZELMOTAR_SHORT_SPACE with value 0. */
ZELMOTAR_USE_RESULT zelmotar_text zelmotar_print(const uint32_t *words, size_t n, size_t top, size_t reg, uint8_t *text,
                                                  size_t text_n);

/* Types a register in: it becomes what a text of text_n bytes says. A text is what zelmotar_print writes and nothing
 * else: no code begins with 0, one blank stands between neighbours and none elsewhere, and no zero byte or end of
 * line is part of it. One of over 65,536 terms, which a register with shared cells may print, is refused for that; no
 * store has room for as many. A text of no bytes makes the register empty. Whether a text is in order, and how many
 * cells it takes, zelmotar_text_end says without a store.
 *
 * Reads the n words, and the text as far as it is in order. Writes the words of the new cells and of the register, and
 * all n where it collects; the text is not written.
 * Each term takes one new cell, those inside brackets too; none is shared. They are laid from top upward: of an
 * expression first what its brackets hold, from left to right and each by the same rule, then its own terms side by
 * side. Only where they would not fit is the store collected, and only if they do not fit then is the text refused
 * with ZELMOTAR_NO_ROOM. What the register held until then does not count and goes in that collection, but for cells
 * that another register reaches; so it need not be emptied first. A text of no bytes never collects.
 * After the check it takes time with the bytes that it reads, and goes over the occupied cells as zelmotar_collect
 * does, twice at most, where it collects.
 * Answers ZELMOTAR_DONE with value 0 and the new top. Else the register keeps its expression, and so does every other,
 * and the status is, in this order: ZELMOTAR_BAD_LENGTH, ZELMOTAR_BAD_TOP or ZELMOTAR_DAMAGED as zelmotar_check has it,
 * with its value and rule; ZELMOTAR_NO_REGISTER with value 0; ZELMOTAR_BAD_CODE, ZELMOTAR_TOO_DEEP, ZELMOTAR_NOT_TEXT
 * or ZELMOTAR_TOO_MANY_TERMS, with the offset of the first byte that is not in order as value, or text_n where the text
 * ends too soon; ZELMOTAR_NO_ROOM with value 0. That one leaves the store collected, with its top; the others change no
 * word, and top comes back as it came. */
ZELMOTAR_USE_RESULT zelmotar_typed zelmotar_type(uint32_t *words, size_t n, size_t top, size_t reg, const uint8_t *text,
                                                  size_t text_n);

/* Starts a text that arrives in pieces, and gives how far it has come: nowhere, so every field is 0.
 *
 * A text in pieces is judged before anything is laid. After zelmotar_text_start, zelmotar_text_feed takes each piece as
 * it arrives, and zelmotar_text_end says whether the text is in order, how many cells it takes where it is typed in,
 * and how wide its widest expression is. However a text is cut, the answer is that for the whole.
 *
 * Reads and writes nothing, and takes the same time always. */
ZELMOTAR_USE_RESULT zelmotar_pieces zelmotar_text_start(void);

/* Feeds a text its next piece, of piece_n bytes. A text may be cut anywhere, inside a code too, and a piece may have no
 * bytes.
 *
 * Reads the piece as far as the text is in order. Writes nothing: the state that is handed in stays with the caller as
 * it is, and the piece is not written.
 * It takes time with the bytes that it reads; what comes on top is the same for each piece, up to a step for each
 * bracket that is open. So one long piece costs less than many short ones.
 * Gives how far the text has come then. At the first byte that is not in order stand becomes ZELMOTAR_BAD_CODE,
 * ZELMOTAR_TOO_DEEP, ZELMOTAR_NOT_TEXT or ZELMOTAR_TOO_MANY_TERMS and code 0, offset is that of this byte, and the
 * other fields stay as they were before it. What is fed from then on changes no field.
 *
 * Any state may be handed in, also one that neither zelmotar_text_start nor this function gave. It goes on exactly if
 * all of these hold, in numbers that do not wrap:
 *
 *   stand                     at most 3
 *   code                      under 2^28 where stand is 2; else it is not looked at
 *   depth                     at most 64
 *   terms                     at most 65,536
 *   own, most                 each at most terms
 *   counts[i]                 at most terms, for each i under depth; the others are not looked at
 *   offset + depth + ahead    at most 2^28 * terms + 1, where ahead is 1 for stand 0 and 3, 0 for stand 1, and
 *                             2^28 - code for stand 2
 *
 * One that goes on is fed, and comes back with code 0 unless its stand is 2. To a code of 0, which no text leads to, a
 * further 0 is refused as one that begins a term. Any other state comes back as it came, in every field, and the piece
 * is not read. */
ZELMOTAR_USE_RESULT zelmotar_pieces zelmotar_text_feed(zelmotar_pieces state, const uint8_t *piece, size_t piece_n);

/* Ends a text: what comes of it if no more pieces follow. That may be asked after any piece, and the same state be fed
 * further, as it stays with the caller.
 *
 * Reads nothing but the state, and writes nothing. It takes the same time always, up to a step for each bracket that is
 * open.
 * Answers ZELMOTAR_DONE with value 0, the number of terms and the most that any one expression has, both 0 for a text
 * of no bytes. zelmotar_type then takes the same text wherever there is room for so many new cells, and needs no fewer.
 * Else terms and most are 0, and the status is that with which zelmotar_type refuses the text whatever the store:
 * ZELMOTAR_BAD_CODE, ZELMOTAR_TOO_DEEP, ZELMOTAR_NOT_TEXT or ZELMOTAR_TOO_MANY_TERMS. The value is the offset of the
 * first byte that is not in order, counted from the first byte of the first piece, or the length of the text where it
 * ends too soon.
 *
 * Of any state, also one that neither of the two others gave: ZELMOTAR_DONE with value 0 and its terms and most
 * where it goes on, as zelmotar_text_feed has it, depth is 0, and stand is 0, 2 or 3. Else its stand as status where
 * that is ZELMOTAR_BAD_CODE, ZELMOTAR_TOO_DEEP or ZELMOTAR_TOO_MANY_TERMS, and ZELMOTAR_NOT_TEXT where it is not; its
 * offset as value; and 0 as terms and most. */
ZELMOTAR_USE_RESULT zelmotar_counted zelmotar_text_end(zelmotar_pieces state);

/* Saves a store: collects it as zelmotar_collect does, and writes its file into a space of file_n bytes. Loaded again
 * it is the collected store, word for word and with its top.
 *
 * Reads and writes the n words. Writes all file_n bytes: the file and zeros after it, or zeros alone. Of the space only
 * the first length bytes are to be kept, since a file is read from its end. ZELMOTAR_FILE_BYTES(top) are always enough.
 * After the check and the collection it takes time with file_n.
 * Answers ZELMOTAR_DONE with value 0, the new top and the length of the file, which is ZELMOTAR_FILE_BYTES of the new
 * top. Else the length is 0 and every byte of the space is 0, and the status is, in this order: ZELMOTAR_BAD_LENGTH,
 * ZELMOTAR_BAD_TOP or ZELMOTAR_DAMAGED as zelmotar_check has it, with its value and rule, and then no word is changed
 * and top comes back as it came; ZELMOTAR_SHORT_SPACE with value 0, and then the store is left collected, with its
 * top. */
ZELMOTAR_USE_RESULT zelmotar_saved zelmotar_save(uint32_t *words, size_t n, size_t top, uint8_t *file, size_t file_n);

/* Loads a file of file_n bytes: the words become the store that it holds, whatever they were before. Saved again it has
 * the same bytes from the first heap cell on.
 *
 * Reads the trailer, and where that is in order the bytes from the first heap cell on. Writes all n words, or none; the
 * file is not written, and is judged as a whole before the first word is. n must be twice the file's capacity, as
 * zelmotar_file_words has it, so that the store has the room that it was saved with.
 * It takes time with the cells in the file, whatever they share, and with n.
 * Answers ZELMOTAR_DONE with value 0 and 16 more than the number of heap cells as top. Else top is 0 and no word is
 * changed, and the status is, in this order: ZELMOTAR_SHORT_FILE, ZELMOTAR_BAD_EDITION, ZELMOTAR_BAD_DISTANCE,
 * ZELMOTAR_BAD_CAPACITY or ZELMOTAR_WRONG_SLICE with value 0; ZELMOTAR_DAMAGED where a cell of the store in the file
 * breaks its rule, with the lowest such cell as value and that rule; ZELMOTAR_NOT_COLLECTED with value 0. */
ZELMOTAR_USE_RESULT zelmotar_reply zelmotar_load(uint32_t *words, size_t n, const uint8_t *file, size_t file_n);

#ifdef __cplusplus
}
#endif

#endif
