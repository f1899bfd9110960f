/* stack: the deepest stack that each function uses, in bytes, over random cases, texts of deep brackets and the longest
 * file.
 *
 * usage: stack COUNT
 *
 * A function is called on a stack of its own, which is painted beforehand; the lowest byte that lost its paint
 * says how deep the call went. The same call of a function that does nothing is taken off. The return address
 * counts where the processor puts it on the stack. Prints a line for each function, and fails if one uses as
 * much as zelmotar.h says that it stays under. For Linux and its like. */
#define _DEFAULT_SOURCE
#include <ucontext.h>

#include "cases.h"

#define PAINT 0xa5u
#define ROOM 65536

enum { CHECK, FRESH, COLLECT, RUN, LOOK, PRINT, TYPE, START, FEED, END, SAVE, LOAD, FUNCTIONS };

static const char *const names[FUNCTIONS] = {"check", "fresh",      "collect",   "run",      "look", "print",
                                             "type",  "text_start", "text_feed", "text_end", "save", "load"};
/* As zelmotar.h says. */
static const size_t under[FUNCTIONS] = {192, 128, 256, 512, 192, 13312, 11264, 128, 1024, 512, 256, 17408};

static struct test_case c;
static uint32_t words[MOST_STORE], answers[MOST_ANSWERS];
static uint8_t text[MOST_TEXT], space[MOST_FILE];
static size_t deepest[FUNCTIONS];
static unsigned char room[ROOM] __attribute__((aligned(64)));
static ucontext_t outside, inside;
static int function, hollow; /* which function is called, and whether it is the one that does nothing */
static size_t used;          /* bytes from the lowest that lost its paint to the end of the room */

static const zelmotar_reply no_answer;
static const zelmotar_span no_span;
static const zelmotar_text no_text;
static const zelmotar_typed no_typed;
static const zelmotar_saved no_saved;
static const zelmotar_counted no_counted;

/* One function for each of the twelve that takes the same and does nothing. */
static zelmotar_reply no_check(const uint32_t *w, size_t n, size_t top)
{
    (void)w, (void)n, (void)top;
    return no_answer;
}

static zelmotar_reply no_fresh(uint32_t *w, size_t n)
{
    (void)w, (void)n;
    return no_answer;
}

static zelmotar_reply no_collect(uint32_t *w, size_t n, size_t top)
{
    (void)w, (void)n, (void)top;
    return no_answer;
}

static zelmotar_reply no_run(uint32_t *w, size_t n, size_t top, const uint32_t *calls, size_t calls_n, uint32_t *a,
                              size_t answers_n)
{
    (void)w, (void)n, (void)top, (void)calls, (void)calls_n, (void)a, (void)answers_n;
    return no_answer;
}

static zelmotar_span no_look(const uint32_t *w, size_t n, size_t top, size_t reg)
{
    (void)w, (void)n, (void)top, (void)reg;
    return no_span;
}

static zelmotar_text no_print(const uint32_t *w, size_t n, size_t top, size_t reg, uint8_t *t, size_t text_n)
{
    (void)w, (void)n, (void)top, (void)reg, (void)t, (void)text_n;
    return no_text;
}

static zelmotar_typed no_type(uint32_t *w, size_t n, size_t top, size_t reg, const uint8_t *t, size_t text_n)
{
    (void)w, (void)n, (void)top, (void)reg, (void)t, (void)text_n;
    return no_typed;
}

/* Of a state one field alone is set: for all of them the compiler might call a function that uses stack itself. */
static zelmotar_pieces no_start(void)
{
    zelmotar_pieces nothing;
    nothing.stand = 0;
    return nothing;
}

static zelmotar_pieces no_feed(zelmotar_pieces state, const uint8_t *p, size_t piece_n)
{
    (void)state, (void)p, (void)piece_n;
    return no_start();
}

static zelmotar_counted no_end(zelmotar_pieces state)
{
    (void)state;
    return no_counted;
}

static zelmotar_saved no_save(uint32_t *w, size_t n, size_t top, uint8_t *f, size_t file_n)
{
    (void)w, (void)n, (void)top, (void)f, (void)file_n;
    return no_saved;
}

static zelmotar_reply no_load(uint32_t *w, size_t n, const uint8_t *f, size_t file_n)
{
    (void)w, (void)n, (void)f, (void)file_n;
    return no_answer;
}

/* Both of each kind, volatile so that the call is the same code for both. */
static zelmotar_reply (*volatile check[2])(const uint32_t *, size_t, size_t) = {zelmotar_check, no_check};
static zelmotar_reply (*volatile fresh[2])(uint32_t *, size_t) = {zelmotar_fresh, no_fresh};
static zelmotar_reply (*volatile collect[2])(uint32_t *, size_t, size_t) = {zelmotar_collect, no_collect};
static zelmotar_reply (*volatile run[2])(uint32_t *, size_t, size_t, const uint32_t *, size_t, uint32_t *,
                                          size_t) = {zelmotar_run, no_run};
static zelmotar_span (*volatile look[2])(const uint32_t *, size_t, size_t, size_t) = {zelmotar_look, no_look};
static zelmotar_text (*volatile print[2])(const uint32_t *, size_t, size_t, size_t, uint8_t *,
                                           size_t) = {zelmotar_print, no_print};
static zelmotar_typed (*volatile type[2])(uint32_t *, size_t, size_t, size_t, const uint8_t *,
                                           size_t) = {zelmotar_type, no_type};
static zelmotar_pieces (*volatile start[2])(void) = {zelmotar_text_start, no_start};
static zelmotar_pieces (*volatile feed[2])(zelmotar_pieces, const uint8_t *, size_t) = {zelmotar_text_feed, no_feed};
static zelmotar_counted (*volatile end[2])(zelmotar_pieces) = {zelmotar_text_end, no_end};
static zelmotar_saved (*volatile save[2])(uint32_t *, size_t, size_t, uint8_t *, size_t) = {zelmotar_save, no_save};
static zelmotar_reply (*volatile load[2])(uint32_t *, size_t, const uint8_t *, size_t) = {zelmotar_load, no_load};

/* A caller of its own for each function that takes or gives a state: what it has to keep for one is not to stand below
 * the other calls. */
#define APART static __attribute__((noinline)) void
APART call_start(void) { (void)!start[hollow]().stand; }
APART call_feed(void) { (void)!feed[hollow](c.state, c.typed + c.piece, c.piece_n).stand; }
APART call_end(void) { (void)!end[hollow](c.state).status; }

/* The call, and right after it, before anything else is called, the measuring. */
static void on_own_stack(void)
{
    size_t i;
    switch (function) {
    case CHECK: (void)!check[hollow](words, c.words_n, c.top).status; break;
    case FRESH: (void)!fresh[hollow](words, c.words_n).status; break;
    case COLLECT: (void)!collect[hollow](words, c.words_n, c.top).status; break;
    case RUN:
        (void)!run[hollow](words, c.words_n, c.top, c.calls, c.calls_n, answers, c.answers_n).status;
        break;
    case LOOK: (void)!look[hollow](words, c.words_n, c.top, c.reg).to; break;
    case PRINT: (void)!print[hollow](words, c.words_n, c.top, c.reg, text, c.text_n).status; break;
    case TYPE: (void)!type[hollow](words, c.words_n, c.top, c.reg, c.typed, c.typed_n).status; break;
    case START: call_start(); break;
    case FEED: call_feed(); break;
    case END: call_end(); break;
    case SAVE: (void)!save[hollow](words, c.words_n, c.top, space, c.space_n).status; break;
    default: (void)!load[hollow](words, c.loaded_n, c.file, c.file_n).status; break;
    }
    for (i = 0; i < ROOM && room[i] == PAINT; i++)
        continue;
    used = ROOM - i;
}

/* The bytes that one call uses, with those of the caller. */
static size_t use_of(int number, int nothing)
{
    memcpy(words, c.words, sizeof words);
    memset(room, PAINT, sizeof room);
    function = number, hollow = nothing;
    if (getcontext(&inside) != 0)
        exit(2);
    inside.uc_stack.ss_sp = room;
    inside.uc_stack.ss_size = sizeof room;
    inside.uc_link = &outside;
    makecontext(&inside, on_own_stack, 0);
    if (swapcontext(&outside, &inside) != 0)
        exit(2);
    return used;
}

/* What a function uses beyond one that does nothing. Its return address is used by both, so it is added where
 * it stands on the stack. */
static size_t beyond_nothing(int number)
{
#if defined(__x86_64__) || defined(__i386__)
    return use_of(number, 0) - use_of(number, 1) + sizeof(void *);
#else
    return use_of(number, 0) - use_of(number, 1);
#endif
}

/* Calls each function on the case, and keeps what it uses where that is more than before. */
static void measure(void)
{
    size_t bytes;
    int i;
    for (i = 0; i < FUNCTIONS; i++)
        if ((bytes = beyond_nothing(i)) > deepest[i])
            deepest[i] = bytes;
}

/* The case's text: these bytes, so many times. */
static void type_times(size_t times, const char *bytes)
{
    for (; times > 0; times--)
        c.typed_n += (size_t)sprintf((char *)c.typed + c.typed_n, "%s", bytes);
}

/* A text with so many brackets open in its middle: nothing or one symbol there, and on each level nothing beside the
 * bracket, or a term on either side. */
static void make_deep_text(int symbol, int wide, size_t depth)
{
    c.typed_n = 0;
    type_times(depth, wide ? "1 (" : "(");
    type_times(1, symbol ? "268435455" : "");
    type_times(depth, wide ? ") ()" : ")");
}

/* Register 0 as one symbol, or as nothing, with brackets around it. The store has room for texts as deep. */
static void make_deep(int symbol, size_t depth)
{
    zelmotar_reply answer;
    memset(&c, 0, sizeof c);
    c.words_n = 800, c.text_n = MOST_TEXT;
    answer = zelmotar_fresh(c.words, c.words_n);
    EXPECT(answer.status == ZELMOTAR_DONE);
    c.top = answer.top;
    spell(c.calls, ZELMOTAR_SYMBOL, 0, ZELMOTAR_MAX_CODE, 0);
    run_some(&c, symbol ? 1 : 0);
    nest(&c, 0, depth);
}

/* What is printed, typed and fed with so many brackets open has this status, and is measured. */
static void measure_at(int symbol, size_t depth, uint32_t status)
{
    int wide;
    for (wide = 0; wide < 2; wide++) {
        make_deep(symbol, depth), make_deep_text(symbol, wide, depth);
        EXPECT(zelmotar_print(c.words, c.words_n, c.top, 0, text, c.text_n).status == status);
        memcpy(words, c.words, sizeof words);
        EXPECT(zelmotar_type(words, c.words_n, c.top, 0, c.typed, c.typed_n).status == status);
        c.state = zelmotar_text_feed(zelmotar_text_start(), c.typed, c.piece = c.typed_n / 2);
        c.piece_n = c.typed_n - c.piece;
        EXPECT(zelmotar_text_end(zelmotar_text_feed(c.state, c.typed + c.piece, c.piece_n)).status == status);
        measure();
    }
}

/* The texts with the most brackets that may be open, and with one more. */
static void measure_deep(void)
{
    int symbol;
    for (symbol = 0; symbol < 2; symbol++) {
        measure_at(symbol, ZELMOTAR_MAX_DEPTH, ZELMOTAR_DONE);
        measure_at(symbol, ZELMOTAR_MAX_DEPTH + 1, ZELMOTAR_TOO_DEEP);
    }
}

/* The longest file, written and read; and read with a cell that no register reaches, the last of its heap. */
static void measure_longest(void)
{
    make_longest(&c);
    measure();
    EXPECT(zelmotar_save(c.words, c.words_n, c.top, space, c.space_n).status == ZELMOTAR_DONE);
    EXPECT(zelmotar_load(words, c.loaded_n, c.file, c.file_n).status == ZELMOTAR_DONE);
    put_word(put_word(c.file + (LONGEST_FILE - 144), 0), ZELMOTAR_BRACKET); /* register 0 is empty */
    EXPECT(zelmotar_load(words, c.loaded_n, c.file, c.file_n).status == ZELMOTAR_NOT_COLLECTED);
    measure();
}

/* Whether a function may do without any stack, where its return address is not there. */
static int may_use_none(int number) { return number == START || number == END; }

int main(int count_given, char **list)
{
    long left = count_given == 2 ? atol(list[1]) : 0;
    int i;
    if (left <= 0) {
        fprintf(stderr, "usage: stack COUNT\n");
        return 2;
    }
    measure_deep();
    measure_longest();
    for (; left > 0; left--) {
        make_case(&c);
        measure();
    }
    for (i = 0; i < FUNCTIONS; i++) {
        printf("zelmotar_%-10s %5u bytes of stack\n", names[i], (unsigned)deepest[i]);
        EXPECT(deepest[i] < under[i] && (deepest[i] > 0 || may_use_none(i)));
    }
    return expect_end();
}
