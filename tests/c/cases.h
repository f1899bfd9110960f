/* cases.h: random stores, call lists, spaces for answers, texts and files, texts, whole and in pieces, and files, good
 * and bad, for the tests at the border.
 *
 * A store is made by the library itself, from a fresh one and random calls, then damaged in half of the cases.
 * The numbers are the same in every run. What the answers should be is not known here: the Rust tests hold them
 * against a model. Which rule a damaged cell breaks is in rules.h, what a text should be in texts.h, what comes of one
 * that is typed in typed.h and of one that is fed in pieces.h, and what a file should be and what comes of one in
 * files.h. */
#ifndef CASES_H
#define CASES_H

#include <stdlib.h>
#include <string.h>

#include "expect.h"
#include "files.h"
#include "pieces.h"
#include "rules.h"
#include "zelmotar.h"

#define MOST_STORE (ZELMOTAR_MAX_WORDS + 2)
#define MOST_CALLS (ZELMOTAR_MAX_CALL_WORDS + 4)
#define MOST_ANSWERS (MOST_CALLS / 2 + 8)
#define MOST_TEXT 6000                  /* more than a page */
#define MOST_TYPED (2 * MOST_TEXT + 12) /* with a code behind it, and every bracket closed */
#define MOST_BEFORE 64                  /* bytes before the first heap cell of a file */
#define MOST_FILE (LONGEST_FILE + MOST_BEFORE)

/* What goes into the twelve functions. A store is saved to space_n bytes; a file is loaded into loaded_n words; a state
 * is fed piece_n bytes of the text that is typed, from byte piece on. */
struct test_case {
    uint32_t words[MOST_STORE], calls[MOST_CALLS];
    uint8_t typed[MOST_TYPED], file[MOST_FILE];
    size_t words_n, calls_n, answers_n, text_n, typed_n, top, reg, space_n, file_n, loaded_n, piece, piece_n;
    zelmotar_pieces state;
};

/* How often each status came back, of whole requests, of calls and of prints; of what was typed in, and fed in pieces;
 * of what was saved; and of what was loaded. */
static unsigned met[ZELMOTAR_SHORT_SPACE + 1];
static unsigned typed_met[ZELMOTAR_TOO_MANY_TERMS + 1], ended_met[ZELMOTAR_TOO_MANY_TERMS + 1];
static unsigned saved_met[ZELMOTAR_SHORT_SPACE + 1], loaded_met[ZELMOTAR_WRONG_SLICE + 1];

/* How many states were fed that do not go on, and that do. */
static unsigned fed_met[2];

/* How often each rule came back from a check, and from a file that was loaded; 0 where no cell was damaged. */
static unsigned rules_met[RULES], loaded_rules_met[RULES];

static inline uint32_t random_word(void)
{
    static uint32_t state = 1988;
    state ^= state << 13;
    state ^= state >> 17;
    state ^= state << 5;
    return state;
}

static inline size_t below(size_t n) { return random_word() % n; }

/* Four words of a call: as a rule in order, now and then out of range. Codes have any number of digits. */
static inline void random_call(uint32_t call[4])
{
    static const uint32_t uses[12] = {1, 3, 3, 3, 7, 3, 3, 3, 2, 2, 0, 0}; /* bits for d, a and b */
    size_t i;
    call[0] = (uint32_t)below(12);
    for (i = 0; i < 3; i++)
        call[i + 1] = uses[call[0]] >> i & 1 ? (uint32_t)below(6) : 0;
    if (call[0] == ZELMOTAR_SYMBOL)
        call[2] = below(4) ? (uint32_t)below(1000) : random_word() >> below(32);
    if (below(12) == 0)
        call[below(4)] = below(2) ? (uint32_t)below(20) : random_word();
}

static inline void random_calls(uint32_t *calls, size_t count)
{
    for (; count > 0; count--, calls += 4)
        random_call(calls);
}

/* Capacities: small ones as a rule, some that have room for deep brackets, 512 cells, which fill a page of 4,096
 * bytes, and the largest. */
static inline size_t random_capacity(void)
{
    size_t kind = below(20);
    return kind == 0 ? ZELMOTAR_MAX_WORDS / 2 : kind < 3 ? 512 : kind < 8 ? 100 + below(60) : 16 + below(40);
}

/* Runs the first calls of the case's list, up to 100 of them, on its store. */
static inline void run_some(struct test_case *c, size_t count)
{
    uint32_t answers[200];
    zelmotar_reply answer = zelmotar_run(c->words, c->words_n, c->top, c->calls, 4 * count, answers, 200);
    EXPECT(answer.status == ZELMOTAR_DONE);
    c->top = answer.top;
}

static inline void spell(uint32_t call[4], uint32_t operation, uint32_t d, uint32_t a, uint32_t b)
{
    call[0] = operation, call[1] = d, call[2] = a, call[3] = b;
}

/* Puts brackets around what register d holds, one around the other. */
static inline void nest(struct test_case *c, uint32_t d, size_t depth)
{
    size_t i;
    for (i = 0; i < depth; i++)
        spell(c->calls + 4 * i, ZELMOTAR_WRAP, d, d, 0);
    run_some(c, depth);
}

/* Doubles the text of register d again and again; of what is doubled only its own cell is copied. */
static inline void twin(struct test_case *c, uint32_t d, size_t times)
{
    size_t i;
    for (i = 0; i < times; i++) {
        spell(c->calls + 8 * i, ZELMOTAR_WRAP, d, d, 0);
        spell(c->calls + 8 * i + 4, ZELMOTAR_JOIN, d, d, d);
    }
    run_some(c, 2 * times);
}

/* The calls set registers 0 to 5; others are empty, and those from 16 on are none. */
static inline size_t random_register(void)
{
    return below(2) ? below(6) : below(20) ? below(18) : SIZE_MAX;
}

/* A sound store in the case's words, and a register. Random calls alone hardly ever nest as deep as a text may go, or
 * give a long one, so now and then the register is brought to about there. */
static inline void make_store(struct test_case *c)
{
    zelmotar_reply answer;
    c->words_n = 2 * random_capacity();
    answer = zelmotar_fresh(c->words, c->words_n);
    EXPECT(answer.status == ZELMOTAR_DONE);
    c->top = answer.top;
    random_calls(c->calls, 100);
    run_some(c, 100);
    c->reg = random_register();
    if (c->reg < ZELMOTAR_REGISTERS && below(4) == 0)
        nest(c, (uint32_t)c->reg, ZELMOTAR_MAX_DEPTH - 4 + below(8));
    else if (c->reg < ZELMOTAR_REGISTERS && below(8) == 0)
        twin(c, (uint32_t)c->reg, below(16));
}

/* A heap cell loses both of its words, if there is one. */
static inline void wipe(struct test_case *c)
{
    size_t cells = c->top - ZELMOTAR_REGISTERS, at = ZELMOTAR_REGISTERS + (cells > 0 ? below(cells) : 0);
    if (cells > 0)
        ZELMOTAR_FIRST_WORD(c->words, at) = ZELMOTAR_SECOND_WORD(c->words, at) = 0;
}

/* Words for a cell that are about those that it may have: each an end next to a limit, or any number, with the bracket
 * bit as a rule and now and then a stray one. One bit changed in a sound store hardly ever breaks some of the rules. */
static inline void random_cell(uint32_t words[2], size_t at, size_t top)
{
    const size_t ends[10] = {0, 1, 15, 16, 17, at - 1, at, top - 1, top, random_word()};
    words[0] = (uint32_t)ends[below(10)];
    words[1] = (uint32_t)ends[below(10)] & ZELMOTAR_RIGHT_END;
    if (below(4))
        words[1] |= ZELMOTAR_BRACKET;
    if (below(6) == 0)
        words[1] |= (uint32_t)1 << (28 + below(3));
}

static inline void damage(struct test_case *c)
{
    const size_t tops[6] = {0, 15, c->words_n / 2 + 1, c->words_n / 2, SIZE_MAX, c->top + 1};
    const size_t lengths[6] = {0, 1, 30, c->words_n - 1, c->words_n + 1, MOST_STORE};
    const size_t at = below(c->words_n / 2);
    switch (below(5)) {
    case 0: c->words[below(c->words_n)] ^= (uint32_t)1 << below(32); break;
    case 1: c->top = tops[below(6)]; break;
    case 2: wipe(c); break;
    case 3: random_cell(c->words + 2 * at, at, c->top); break;
    default: c->words_n = lengths[below(6)]; break;
    }
}

/* A call list and the length of its answer space, each now and then not as it should be. */
static inline void make_lists(struct test_case *c)
{
    size_t kind = below(12), count = kind == 0 ? ZELMOTAR_MAX_CALL_WORDS / 4 : below(25);
    random_calls(c->calls, count);
    c->calls_n = kind == 1 ? MOST_CALLS : 4 * count + (kind == 2 ? below(4) : 0);
    c->answers_n = c->calls_n / 4 * 2;
    if (below(4) == 0)
        c->answers_n += below(8);
    else if (below(6) == 0)
        c->answers_n = below(c->answers_n + 1);
}

/* Lengths of a text space: none, a few bytes, some hundred, more than a page. */
static inline size_t random_space(void)
{
    const size_t most[4] = {1, 12, 300, MOST_TEXT + 1};
    return below(most[below(4)]);
}

static inline void type_byte(struct test_case *c, char byte) { c->typed[c->typed_n++] = (uint8_t)byte; }

/* Codes have any number of digits; now and then one is 0, about the largest, or over it. */
static inline void type_code(struct test_case *c)
{
    char digits[12];
    const char *p;
    uint32_t code = random_word() & ZELMOTAR_MAX_CODE;
    code = ZELMOTAR_MIN_CODE + (below(4) ? code % 100 : code >> below(28));
    if (below(300) == 0)
        code = below(3) ? ZELMOTAR_MAX_CODE - 1 + (uint32_t)below(4) : 0;
    snprintf(digits, sizeof digits, "%lu", (unsigned long)code);
    for (p = digits; *p != '\0'; p++)
        type_byte(c, *p);
}

/* One step on in a text, after what stands there last; gives how many brackets are open then. */
static inline size_t type_more(struct test_case *c, size_t open)
{
    char last = c->typed_n == 0 ? ' ' : (char)c->typed[c->typed_n - 1];
    int whole = last != ' ' && last != '('; /* a term has just ended */
    if (last != ' ' && open > 0 && below(3) == 0)
        return type_byte(c, ')'), open - 1;
    if (whole)
        return type_byte(c, ' '), open;
    if (below(3) == 0)
        return type_byte(c, '('), open + 1;
    return type_code(c), open;
}

/* The text of an expression, but that its codes may be none and its brackets too deep. Such a walk hardly ever
 * gets as deep as a text may go, so now and then it begins about there. */
static inline void make_text(struct test_case *c)
{
    size_t most = below(3) ? below(60) : random_space();
    size_t open = 0, deep = below(6) == 0 ? ZELMOTAR_MAX_DEPTH - 4 + below(8) : 0;
    c->typed_n = 0;
    for (; open < deep; open++)
        type_byte(c, '(');
    while (c->typed_n < most)
        open = type_more(c, open);
    if (c->typed_n > 0 && c->typed[c->typed_n - 1] == ' ')
        type_code(c);
    for (; open > 0; open--)
        type_byte(c, ')');
}

/* A text with one byte changed, for one that texts have or for any, or with its end cut off. */
static inline void spoil_text(struct test_case *c)
{
    static const char bytes[] = "() 0123456789";
    size_t at = below(c->typed_n + 1);
    if (at < c->typed_n && below(2))
        c->typed[at] = below(3) ? (uint8_t)bytes[below(sizeof bytes - 1)] : (uint8_t)below(256);
    else
        c->typed_n = at;
}

/* The file of the case's store, which is sound; in a third of the cases as it is, with its dead cells. What stands
 * before the first heap cell, if anything does, is of no meaning. The space to save the store to is as long as its file
 * as a rule, or about that. */
static inline void make_file(struct test_case *c)
{
    static uint32_t words[MOST_STORE];
    size_t before = below(3) ? 0 : below(MOST_BEFORE + 1), i;
    zelmotar_reply answer;
    for (i = 0; i < before; i++)
        c->file[i] = (uint8_t)below(256);
    memcpy(words, c->words, sizeof words);
    answer = zelmotar_collect(words, c->words_n, c->top);
    EXPECT(answer.status == ZELMOTAR_DONE);
    c->file_n = before;
    c->file_n += below(3) ? put_file(c->file + before, words, c->words_n, answer.top)
                          : put_file(c->file + before, c->words, c->words_n, c->top);
    c->loaded_n = c->words_n;
    c->space_n = 8 * answer.top + 16;
    if (below(2))
        c->space_n = below(4) ? c->space_n - 4 + below(16) : below(MOST_FILE + 1);
}

/* The largest store without a free cell, brackets around one another in register 0, and its file, which is the longest
 * there is, with as much space. */
static inline void make_longest(struct test_case *c)
{
    size_t left = ZELMOTAR_MAX_WORDS / 2 - ZELMOTAR_REGISTERS;
    zelmotar_reply answer;
    memset(c, 0, sizeof *c);
    c->words_n = c->loaded_n = ZELMOTAR_MAX_WORDS;
    answer = zelmotar_fresh(c->words, c->words_n);
    EXPECT(answer.status == ZELMOTAR_DONE);
    c->top = answer.top;
    for (; left >= 100; left -= 100)
        nest(c, 0, 100);
    nest(c, 0, left);
    c->file_n = c->space_n = put_file(c->file, c->words, c->words_n, c->top);
    EXPECT(c->top == ZELMOTAR_MAX_WORDS / 2 && c->file_n == LONGEST_FILE);
}

/* One word of a file's trailer set to another. 2^29 more heap cells make a distance that is the same in 32 bits. */
static inline void spoil_trailer(struct test_case *c)
{
    const size_t place = below(4);
    uint8_t *at = c->file + (c->file_n - 16 + 4 * place);
    const uint32_t old = word_at(at), cells = word_at(c->file + (c->file_n - 12));
    const uint32_t others[8] = {old - 1, old + 1, old + 8, old ^ 0x20000000u, old ^ 0x80000000u, 0, cells + 15, 4097};
    put_word(at, others[below(8)]);
}

/* One cell of a file set to other words. Its heap cells come first and then its registers, right before the trailer. */
static inline void spoil_cell(struct test_case *c)
{
    const size_t cells = word_at(c->file + (c->file_n - 12)), place = below(cells + ZELMOTAR_REGISTERS);
    const size_t at = place < cells ? ZELMOTAR_REGISTERS + place : place - cells;
    uint8_t *to = c->file + (c->file_n - 16 - 8 * (cells + ZELMOTAR_REGISTERS - place));
    uint32_t words[2];
    random_cell(words, at, ZELMOTAR_REGISTERS + cells);
    put_word(put_word(to, words[0]), words[1]);
}

/* A file with one bit, one cell or one word of its trailer changed, or cut off at either end; or words lent for it that
 * are too few or too many. */
static inline void spoil_file(struct test_case *c)
{
    const size_t lengths[6] = {0, c->loaded_n - 2, c->loaded_n - 1, c->loaded_n + 1, c->loaded_n + 2, MOST_STORE};
    size_t at;
    switch (below(7)) {
    case 0: c->file_n = below(3) ? below(c->file_n + 1) : below(20); break;
    case 1:
        at = below(c->file_n + 1);
        c->file_n -= at;
        memmove(c->file, c->file + at, c->file_n);
        break;
    case 2: spoil_trailer(c); break;
    case 3: c->loaded_n = lengths[below(6)]; break;
    case 4: spoil_cell(c); break;
    default: c->file[below(c->file_n)] ^= (uint8_t)(1u << below(8)); break;
    }
}

/* The largest offset with which a state goes on whose other fields are in order; one near 2^64 if there is none. */
static inline size_t most_offset(const zelmotar_pieces *state)
{
    return (size_t)(((uint64_t)1 << 28) * state->terms + 1 - state->depth - ahead_of(state));
}

/* A number of terms that is no more than this one: none, as many, or any. */
static inline uint32_t random_count(size_t terms)
{
    const size_t counts[3] = {0, terms, below(terms + 1)};
    return (uint32_t)counts[below(3)];
}

/* A state that goes on as a rule, whether a text leads to it or not. Its numbers are next to their limits or anywhere
 * below. */
static inline void make_state(struct test_case *c)
{
    const uint32_t codes[5] = {0, 26843545, 26843546, ZELMOTAR_MAX_CODE, (uint32_t)below(1000)};
    const size_t terms[6] = {0, 1, below(100), ZELMOTAR_MAX_TERMS - 1, ZELMOTAR_MAX_TERMS, below(ZELMOTAR_MAX_TERMS)};
    const size_t depths[5] = {0, 1, ZELMOTAR_MAX_DEPTH - 1, ZELMOTAR_MAX_DEPTH, below(ZELMOTAR_MAX_DEPTH)};
    zelmotar_pieces *state = &c->state;
    size_t i;
    state->stand = (uint32_t)below(4);
    state->code = codes[below(5)];
    state->terms = terms[below(6)];
    state->depth = depths[below(5)];
    state->own = random_count(state->terms), state->most = random_count(state->terms);
    for (i = 0; i < ZELMOTAR_MAX_DEPTH; i++)
        state->counts[i] = random_count(state->terms);
    state->offset = below(3) ? below(1000) : most_offset(state) - below(3);
}

/* A state with one number over its limit, which still goes on where that number does not count. Sums and products with
 * some of these would wrap. */
static inline void spoil_state(struct test_case *c)
{
    const uint32_t stands[9] = {4, 12, ZELMOTAR_BAD_CODE, ZELMOTAR_TOO_DEEP, ZELMOTAR_SHORT_SPACE, ZELMOTAR_NOT_TEXT,
                                ZELMOTAR_TOO_MANY_TERMS, ZELMOTAR_TOO_MANY_TERMS + 1, UINT32_MAX};
    zelmotar_pieces *state = &c->state;
    const uint32_t codes[3] = {ZELMOTAR_MAX_CODE + 1, ZELMOTAR_MAX_CODE + 2, UINT32_MAX};
    const size_t depths[4] = {ZELMOTAR_MAX_DEPTH + 1, ZELMOTAR_MAX_DEPTH + 2, SIZE_MAX, SIZE_MAX - state->offset};
    const size_t terms[3] = {ZELMOTAR_MAX_TERMS + 1, SIZE_MAX / ((size_t)1 << 28) + 1 + below(100), SIZE_MAX};
    const uint32_t over[3] = {(uint32_t)state->terms + 1, ZELMOTAR_MAX_TERMS + 1, UINT32_MAX};
    const size_t offsets[4] = {most_offset(state) + 1, SIZE_MAX, SIZE_MAX - state->depth, SIZE_MAX / 2};
    switch (below(8)) {
    case 0: state->stand = stands[below(9)]; break;
    case 1: state->code = codes[below(3)]; break;
    case 2: state->depth = depths[below(4)]; break;
    case 3: state->terms = terms[below(3)]; break;
    case 4: state->own = over[below(3)]; break;
    case 5: state->most = over[below(3)]; break;
    case 6: state->counts[below(ZELMOTAR_MAX_DEPTH)] = over[below(3)]; break;
    default: state->offset = offsets[below(4)]; break;
    }
}

/* A state, and a part of the case's text that is fed to it. */
static inline void make_piece(struct test_case *c)
{
    make_state(c);
    if (below(3) == 0)
        spoil_state(c);
    c->piece = below(c->typed_n + 1);
    c->piece_n = below(c->typed_n - c->piece + 1);
    if (below(2))
        c->piece_n %= 12;
}

static inline void make_case(struct test_case *c)
{
    memset(c, 0, sizeof *c);
    make_store(c);
    make_file(c);
    if (below(2))
        spoil_file(c);
    if (below(2))
        damage(c);
    make_lists(c);
    c->text_n = random_space();
    make_text(c);
    if (below(2))
        spoil_text(c);
    make_piece(c);
}

/* Counts the status of a run and those of its calls. */
static inline void count(zelmotar_reply answer, const uint32_t *answers, size_t calls_n)
{
    size_t i;
    met[answer.status]++;
    for (i = 0; answer.status == ZELMOTAR_DONE && i < calls_n / 4; i++)
        met[answers[2 * i]]++;
}

/* Every rule has been met; but a file has no cells from `top` on. */
static inline void expect_rules_met(void)
{
    unsigned rule;
    for (rule = 0; rule < RULES; rule++) {
        EXPECT(rules_met[rule] > 0);
        EXPECT((loaded_rules_met[rule] > 0) == (rule != ZELMOTAR_RULE_BEYOND_TOP));
    }
}

/* Whether a text is refused with this status, whatever the store. */
static inline int refuses_text(unsigned status)
{
    return status == ZELMOTAR_BAD_CODE || status == ZELMOTAR_TOO_DEEP || status == ZELMOTAR_NOT_TEXT ||
           status == ZELMOTAR_TOO_MANY_TERMS;
}

/* Every status has been met, and no number that is none; so have those of typing, of texts in pieces, of saving and of
 * loading. */
static inline void expect_all_met(void)
{
    unsigned status;
    expect_rules_met();
    for (status = 0; status <= ZELMOTAR_SHORT_SPACE; status++)
        EXPECT((met[status] > 0) == (status <= ZELMOTAR_SHORT_ANSWERS ||
                                     (status >= ZELMOTAR_BAD_OPERATION && status <= ZELMOTAR_NO_ROOM) ||
                                     status >= ZELMOTAR_NO_REGISTER));
    for (status = 0; status <= ZELMOTAR_TOO_MANY_TERMS; status++) {
        EXPECT((typed_met[status] > 0) == (status <= ZELMOTAR_DAMAGED || refuses_text(status) ||
                                           status == ZELMOTAR_NO_ROOM || status == ZELMOTAR_NO_REGISTER));
        EXPECT((ended_met[status] > 0) == (status == ZELMOTAR_DONE || refuses_text(status)));
    }
    EXPECT(fed_met[0] > 0 && fed_met[1] > 0);
    for (status = 0; status <= ZELMOTAR_SHORT_SPACE; status++)
        EXPECT((saved_met[status] > 0) == (status <= ZELMOTAR_DAMAGED || status == ZELMOTAR_SHORT_SPACE));
    for (status = 0; status <= ZELMOTAR_WRONG_SLICE; status++)
        EXPECT((loaded_met[status] > 0) == (status == ZELMOTAR_DONE || status == ZELMOTAR_DAMAGED ||
                                            status >= ZELMOTAR_SHORT_FILE));
}

#endif
