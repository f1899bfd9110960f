/* edges: lent words and bytes between pages that fault when they are touched, read or written.
 *
 * usage: edges COUNT
 *
 * Each list stands once right after such a page and once right before one, and so does each list of a random
 * case, for all functions that are lent any; a list that a function only reads stands in pages that cannot be written.
 * All have to answer and to leave what they do in plain memory. The rows of texts and of files of SCOPE 7.1 are tried
 * there too, every text of up to two bytes is typed and fed, texts are fed in pieces that are cut everywhere, pieces
 * are fed to states to which no text leads, a file is cut at each byte, has each bit changed and stands at every
 * alignment, and calls are run for which room is short. That the pages do fault is tried first, in processes of their
 * own. For Linux and its like. */
#define _DEFAULT_SOURCE
#include <signal.h>
#include <sys/mman.h>
#include <sys/resource.h>
#include <sys/wait.h>
#include <unistd.h>

#include "cases.h"
#include "pieces.h"
#include "texts.h"
#include "typed.h"

#define MOST_LONG (2 * ZELMOTAR_MAX_TERMS + 2 * ZELMOTAR_MAX_DEPTH) /* bytes of the texts with the most terms */

enum place { LOW, HIGH }; /* right after the lower page that faults, right before the upper one */
/* The bytes of a file stand where those of a text do, and so do those of a piece; but a long text has its own place. */
enum { STORE, CALLS, ANSWERS, TEXT, LONG, LISTS };

/* The bytes of one item of each list, and of the longest of all but the last, which is a file. */
static const size_t item[LISTS] = {sizeof(uint32_t), sizeof(uint32_t), sizeof(uint32_t), 1, 1};
static const size_t longest[LISTS] = {MOST_FILE, MOST_FILE, MOST_FILE, MOST_FILE, MOST_LONG};

/* Pages for each list: so many bytes of them can be touched, with a page that faults on either side. */
static char *pages[LISTS];
static size_t bytes[LISTS];

static struct test_case c;
static uint32_t plain[LISTS][MOST_LONG / sizeof(uint32_t)]; /* the same lists in plain memory */
static enum place place;
static const char *doing = "nothing yet"; /* the function that is called, for the message on a fault */

static void make_pages(void)
{
    const size_t page = (size_t)sysconf(_SC_PAGESIZE);
    size_t i;
    for (i = 0; i < LISTS; i++) {
        char *all;
        bytes[i] = (longest[i] + page - 1) / page * page;
        all = mmap(NULL, bytes[i] + 2 * page, PROT_NONE, MAP_PRIVATE | MAP_ANONYMOUS, -1, 0);
        if (all == MAP_FAILED)
            exit(2);
        pages[i] = all + page;
    }
}

/* Where a list of n items stands. One of none, before the upper page, stands at a byte that faults. */
static void *at(size_t i, size_t n) { return pages[i] + (place == LOW ? 0 : bytes[i] - n * item[i]); }

static void allow(size_t i, int protection)
{
    if (mprotect(pages[i], bytes[i], protection) != 0)
        exit(2);
}

/* Lends a list: sets it up with the items given, or with a pattern, and allows reading only or writing too. */
static void *lend(size_t i, const void *items, size_t n, int protection)
{
    void *list = at(i, n);
    allow(i, PROT_READ | PROT_WRITE);
    memset(pages[i], 0x5a, bytes[i]);
    if (items != NULL)
        memcpy(list, items, n * item[i]);
    memcpy(plain[i], list, n * item[i]);
    allow(i, protection);
    return list;
}

/* A list is as it is in plain memory, and what can be touched beside it is as it was. */
static void expect_same(size_t i, size_t n)
{
    const char *list = at(i, n), *end = list + n * item[i], *p;
    size_t other = 0;
    EXPECT(memcmp(list, plain[i], n * item[i]) == 0);
    for (p = pages[i]; p < pages[i] + bytes[i]; p++)
        other += (p < list || p >= end) && *p != 0x5a;
    EXPECT(other == 0);
}

static void edges_check(void)
{
    const uint32_t *words = lend(STORE, c.words, c.words_n, PROT_READ);
    zelmotar_reply here;
    doing = "zelmotar_check";
    here = zelmotar_check(words, c.words_n, c.top);
    EXPECT(same_reply(here, expected_check(plain[STORE], c.words_n, c.top)));
    rules_met[here.rule]++;
    expect_same(STORE, c.words_n);
}

static void edges_look(void)
{
    const uint32_t *words = lend(STORE, c.words, c.words_n, PROT_READ);
    zelmotar_span here, there;
    doing = "zelmotar_look";
    here = zelmotar_look(words, c.words_n, c.top, c.reg);
    there = zelmotar_look(plain[STORE], c.words_n, c.top, c.reg);
    EXPECT(here.from == there.from && here.to == there.to);
    expect_same(STORE, c.words_n);
}

static void edges_fresh(void)
{
    uint32_t *words = lend(STORE, c.words, c.words_n, PROT_READ | PROT_WRITE);
    doing = "zelmotar_fresh";
    EXPECT(same_reply(zelmotar_fresh(words, c.words_n), zelmotar_fresh(plain[STORE], c.words_n)));
    expect_same(STORE, c.words_n);
}

static void edges_collect(void)
{
    uint32_t *words = lend(STORE, c.words, c.words_n, PROT_READ | PROT_WRITE);
    doing = "zelmotar_collect";
    EXPECT(same_reply(zelmotar_collect(words, c.words_n, c.top), zelmotar_collect(plain[STORE], c.words_n, c.top)));
    expect_same(STORE, c.words_n);
}

static void edges_run(void)
{
    uint32_t *words = lend(STORE, c.words, c.words_n, PROT_READ | PROT_WRITE);
    const uint32_t *calls = lend(CALLS, c.calls, c.calls_n, PROT_READ);
    uint32_t *answers = lend(ANSWERS, NULL, c.answers_n, PROT_READ | PROT_WRITE);
    zelmotar_reply here, there;
    doing = "zelmotar_run";
    here = zelmotar_run(words, c.words_n, c.top, calls, c.calls_n, answers, c.answers_n);
    there = zelmotar_run(plain[STORE], c.words_n, c.top, plain[CALLS], c.calls_n, plain[ANSWERS], c.answers_n);
    EXPECT(same_reply(here, there));
    count(here, answers, c.calls_n);
    expect_same(STORE, c.words_n), expect_same(CALLS, c.calls_n), expect_same(ANSWERS, c.answers_n);
}

static void edges_print(void)
{
    const uint32_t *words = lend(STORE, c.words, c.words_n, PROT_READ);
    uint8_t *text = lend(TEXT, NULL, c.text_n, PROT_READ | PROT_WRITE);
    zelmotar_text here;
    doing = "zelmotar_print";
    here = zelmotar_print(words, c.words_n, c.top, c.reg, text, c.text_n);
    EXPECT(same_text(here, zelmotar_print(plain[STORE], c.words_n, c.top, c.reg, (uint8_t *)plain[TEXT], c.text_n)));
    met[here.status]++;
    expect_same(STORE, c.words_n), expect_same(TEXT, c.text_n);
}

static void edges_type(void)
{
    uint32_t *words = lend(STORE, c.words, c.words_n, PROT_READ | PROT_WRITE);
    const uint8_t *text = lend(TEXT, c.typed, c.typed_n, PROT_READ);
    zelmotar_typed here;
    doing = "zelmotar_type";
    here = zelmotar_type(words, c.words_n, c.top, c.reg, text, c.typed_n);
    EXPECT(same_typed(here, zelmotar_type(plain[STORE], c.words_n, c.top, c.reg, (uint8_t *)plain[TEXT], c.typed_n)));
    typed_met[here.status]++;
    expect_same(STORE, c.words_n), expect_same(TEXT, c.typed_n);
}

/* A piece fed where it stands next to a page that faults, and cannot be written. What was handed in is as it was. */
static zelmotar_pieces feed(zelmotar_pieces state, const void *piece, size_t piece_n)
{
    const zelmotar_pieces kept = state;
    const uint8_t *text = lend(TEXT, piece, piece_n, PROT_READ);
    zelmotar_pieces here;
    doing = "zelmotar_text_feed";
    here = zelmotar_text_feed(state, text, piece_n);
    EXPECT(same_pieces(state, kept));
    expect_same(TEXT, piece_n);
    return here;
}

/* What a state answers at its end. It is as it was afterwards. */
static zelmotar_counted end(zelmotar_pieces state)
{
    const zelmotar_pieces kept = state;
    zelmotar_counted here;
    doing = "zelmotar_text_end";
    here = zelmotar_text_end(state);
    EXPECT(same_pieces(state, kept));
    return here;
}

/* The case's state fed its piece, and the case's text fed whole. */
static void edges_feed(void)
{
    zelmotar_pieces here = feed(c.state, c.typed + c.piece, c.piece_n);
    EXPECT(same_pieces(here, expected_feed(c.state, c.typed + c.piece, c.piece_n)));
    EXPECT(same_counted(end(c.state), expected_end(c.state)) && same_counted(end(here), expected_end(here)));
    fed_met[goes_on(&c.state)]++;
    here = feed(zelmotar_text_start(), c.typed, c.typed_n);
    EXPECT(same_counted(end(here), expected_counted(c.typed, c.typed_n)));
    ended_met[end(here).status]++;
}

static void edges_save(void)
{
    uint32_t *words = lend(STORE, c.words, c.words_n, PROT_READ | PROT_WRITE);
    uint8_t *space = lend(TEXT, NULL, c.space_n, PROT_READ | PROT_WRITE);
    zelmotar_saved here;
    doing = "zelmotar_save";
    here = zelmotar_save(words, c.words_n, c.top, space, c.space_n);
    EXPECT(same_saved(here, expected_save(plain[STORE], c.words_n, c.top, (uint8_t *)plain[TEXT], c.space_n)));
    saved_met[here.status]++;
    expect_same(STORE, c.words_n), expect_same(TEXT, c.space_n);
}

static void edges_load(void)
{
    uint32_t *words = lend(STORE, NULL, c.loaded_n, PROT_READ | PROT_WRITE);
    const uint8_t *file = lend(TEXT, c.file, c.file_n, PROT_READ);
    zelmotar_reply here;
    doing = "zelmotar_load";
    here = zelmotar_load(words, c.loaded_n, file, c.file_n);
    EXPECT(same_reply(here, expected_load(plain[STORE], c.loaded_n, c.file, c.file_n)));
    loaded_met[here.status]++, loaded_rules_met[here.rule]++;
    expect_same(STORE, c.loaded_n), expect_same(TEXT, c.file_n);
}

static void edges(void)
{
    for (place = LOW; place <= HIGH; place++) {
        edges_check();
        edges_look();
        edges_fresh();
        edges_collect();
        edges_run();
        edges_print();
        edges_type();
        edges_feed();
        edges_save();
        edges_load();
    }
}

/* A register of the case printed into text_n bytes: the answer that is expected, the text, and zeros after it. */
static void prints_as(size_t reg, size_t text_n, zelmotar_text expected, const char *text)
{
    for (place = LOW; place <= HIGH; place++) {
        const uint32_t *words = lend(STORE, c.words, c.words_n, PROT_READ);
        uint8_t *space = lend(TEXT, NULL, text_n, PROT_READ | PROT_WRITE);
        doing = "zelmotar_print";
        EXPECT(same_text(zelmotar_print(words, c.words_n, c.top, reg, space, text_n), expected));
        memset(plain[TEXT], 0, text_n);
        memcpy(plain[TEXT], text, expected.length);
        expect_same(STORE, c.words_n), expect_same(TEXT, text_n);
    }
}

static void prints(size_t reg, size_t text_n, uint32_t status, const char *text)
{
    const zelmotar_text expected = {status, 0, 0, strlen(text)};
    prints_as(reg, text_n, expected, text);
}

/* A register that is not printed, as this cell breaks this rule. */
static void prints_damaged(size_t reg, size_t text_n, uint32_t rule, size_t cell)
{
    const zelmotar_text expected = {ZELMOTAR_DAMAGED, rule, cell, 0};
    prints_as(reg, text_n, expected, "");
}

/* Sets register d to l to r; empty with both 0. */
static void hold(size_t d, uint32_t l, uint32_t r)
{
    ZELMOTAR_FIRST_WORD(c.words, d) = l;
    ZELMOTAR_SECOND_WORD(c.words, d) = ZELMOTAR_BRACKET + r;
}

/* A store with register d on l to r. Cells are put from 16 on. */
static void start_with(size_t cells, size_t d, uint32_t l, uint32_t r)
{
    zelmotar_reply answer;
    c.words_n = 2 * cells;
    answer = zelmotar_fresh(c.words, c.words_n);
    EXPECT(answer.status == ZELMOTAR_DONE);
    c.top = answer.top;
    hold(d, l, r);
}

/* One of 100 cells. */
static void start(uint32_t l, uint32_t r) { start_with(100, 0, l, r); }

static void put(uint32_t first, uint32_t second)
{
    ZELMOTAR_FIRST_WORD(c.words, c.top) = first;
    ZELMOTAR_SECOND_WORD(c.words, c.top) = second;
    c.top++;
}

static void rows_of_terms(void)
{
    start(18, 20); /* T1 */
    put(66, 0), put(67, 0), put(65, 0), put(ZELMOTAR_BRACKET_CELL(16, 17)), put(ZELMOTAR_EMPTY_CELL);
    prints(0, 13, 0, "65 (66 67) ()");
    prints(0, 15, 0, "65 (66 67) ()");
    prints(0, 12, 22, "");
    start(0, 0); /* T2 */
    prints(0, 3, 0, "");
    prints(0, 0, 0, "");
    start(16, 16); /* T3 */
    put(ZELMOTAR_EMPTY_CELL);
    prints(0, 2, 0, "()");
    start(16, 16), put(268435455, 0); /* T4 */
    prints(0, 9, 0, "268435455");
    start(16, 16), put(100000002, 0);
    prints(0, 9, 0, "100000002");
    start(16, 16), put(1, 0);
    prints(0, 2, 0, "1");
}

static void rows_of_depth(void)
{
    char text[129] = "";
    memset(text, '(', 64), memset(text + 64, ')', 64);
    start(0, 0), nest(&c, 0, 64); /* T5 */
    prints(0, 128, 0, text);
    start(0, 0), nest(&c, 0, 65);
    prints(0, 200, 21, ""); /* T6 */
    prints(0, 64, 21, "");  /* T7 */
    prints(0, 63, 22, "");
}

static void rows_of_refusals(void)
{
    start(0, 0); /* T8 */
    prints(15, 3, 0, "");
    prints(16, 3, 20, "");
    prints(16, 0, 20, "");
    put(65, 0), put(66, 0), put(ZELMOTAR_BRACKET_CELL(16, 18)); /* T9 */
    prints_damaged(16, 3, 5, 18);
    c.top = 101;
    prints(16, 3, 2, "");
    c.words_n = 30;
    prints(16, 3, 1, "");
    start(16, 16), put(0, 0); /* T27: a wiped cell */
    prints_damaged(0, 2, 4, 16);
}

/* A text typed into a register of the case: the answer that is expected, with the case's `top`, and the case's store as
 * the one that it leaves. `before` is the one that it is typed into. */
static void types_as(const struct test_case *before, size_t reg, const char *text, size_t text_n,
                     zelmotar_typed expected)
{
    EXPECT(before->words_n == c.words_n);
    for (place = LOW; place <= HIGH; place++) {
        uint32_t *words = lend(STORE, before->words, before->words_n, PROT_READ | PROT_WRITE);
        const uint8_t *typed = lend(TEXT, text, text_n, PROT_READ);
        doing = "zelmotar_type";
        EXPECT(same_typed(zelmotar_type(words, before->words_n, before->top, reg, typed, text_n), expected));
        memcpy(plain[STORE], c.words, c.words_n * sizeof *c.words);
        expect_same(STORE, c.words_n), expect_same(TEXT, text_n);
    }
}

static void types(const struct test_case *before, size_t reg, const char *text, uint32_t status, size_t value)
{
    types_as(before, reg, text, strlen(text), typed_answer(status, value, c.top));
}

/* A text that changes nothing, typed into the case's own store. */
static void refuses(size_t reg, const char *text, uint32_t status, size_t value)
{
    types(&c, reg, text, status, value);
}

/* A text that changes nothing, as this cell of the case's store breaks this rule. */
static void refuses_damaged(size_t reg, const char *text, uint32_t rule, size_t cell)
{
    const zelmotar_typed expected = {ZELMOTAR_DAMAGED, rule, cell, c.top};
    types_as(&c, reg, text, strlen(text), expected);
}

/* A fresh store to type into. */
static const struct test_case *fresh_one(size_t cells)
{
    static struct test_case one;
    zelmotar_reply answer;
    one.words_n = 2 * cells;
    answer = zelmotar_fresh(one.words, one.words_n);
    EXPECT(answer.status == ZELMOTAR_DONE);
    one.top = answer.top;
    return &one;
}

static void typed_rows_of_terms(void)
{
    start_with(21, 1, 18, 20); /* T10 */
    put(66, 0), put(67, 0), put(65, 0), put(ZELMOTAR_BRACKET_CELL(16, 17)), put(ZELMOTAR_EMPTY_CELL);
    types(fresh_one(21), 1, "65 (66 67) ()", 0, 0);
    refuses(0, "65 (66 67) ()", 16, 0);
    start_with(24, 0, 20, 23); /* T11 */
    put(3, 0), put(2, 0), put(ZELMOTAR_BRACKET_CELL(16, 16)), put(4, 0);
    put(1, 0), put(ZELMOTAR_BRACKET_CELL(17, 19)), put(5, 0), put(ZELMOTAR_EMPTY_CELL);
    types(fresh_one(24), 0, "1 (2 (3) 4) 5 ()", 0, 0);
    start_with(17, 0, 16, 16), put(ZELMOTAR_EMPTY_CELL); /* T12 */
    types(fresh_one(17), 0, "()", 0, 0);
    start_with(17, 0, 16, 16), put(268435455, 0);
    types(fresh_one(17), 0, "268435455", 0, 0);
    start_with(17, 0, 16, 16), put(100000002, 0);
    types(fresh_one(17), 0, "100000002", 0, 0);
    start_with(17, 0, 16, 16), put(1, 0);
    types(fresh_one(17), 0, "1", 0, 0);
    start_with(17, 0, 16, 16), put(10, 0); /* T26: a 0 that begins no term */
    types(fresh_one(17), 0, "10", 0, 0);
    start_with(18, 0, 16, 17), put(100, 0), put(20, 0);
    types(fresh_one(18), 0, "100 20", 0, 0);
}

/* So many opening brackets, and what stands behind them. */
static const char *brackets(size_t opened, const char *behind)
{
    static char text[200];
    memset(text, '(', opened);
    strcpy(text + opened, behind);
    return text;
}

static void typed_rows_of_depth(void)
{
    char closed[66] = "";
    memset(closed, ')', 64);
    start_with(80, 0, 0, 0), nest(&c, 0, 64); /* T12, the text of T5 */
    types(fresh_one(80), 0, brackets(64, closed), 0, 0);
    start_with(16, 0, 0, 0); /* T19 */
    refuses(0, brackets(70, ""), 21, 64);
    refuses(0, brackets(64, "1("), 23, 65);
    refuses(0, brackets(64, ") (("), 21, 67);
    closed[64] = 'x';
    refuses(0, brackets(64, closed), 23, 128);
}

/* A store whose heap is full with one symbol, which register 0 holds, or which is dead. */
static struct test_case full;
static void fill(uint32_t l, uint32_t r) { start_with(17, 0, l, r), put(7, 0), full = c; }

static void typed_rows_of_room(void)
{
    fill(16, 16), start_with(17, 0, 0, 0), put(7, 0); /* T13 */
    types(&full, 0, "", 0, 0);
    fill(0, 0), start_with(17, 0, 0, 0); /* T14 */
    types(&full, 0, "1 1", 16, 0);
    start_with(17, 0, 16, 16), put(9, 0);
    types(&full, 0, "9", 0, 0);
    start_with(16, 0, 0, 0);
    refuses(0, "1", 16, 0);
    fill(0, 0); /* a text of no bytes does not collect, and one that is refused by itself does not */
    refuses(0, "", 0, 0), refuses(0, "1 1 ", 23, 4), refuses(0, "1 268435456", 13, 10);
    refuses(0, "0", 13, 0);
    start_with(18, 0, 16, 16), put(7, 0), full = c; /* nor does one for which there is room */
    start_with(18, 0, 17, 17), put(7, 0), put(9, 0);
    types(&full, 0, "9", 0, 0);
}

/* Rows in which there is no room beside what the register holds. */
static void typed_rows_of_overwriting(void)
{
    fill(16, 16), start_with(17, 0, 16, 16), put(9, 0); /* it goes if there is room without it, */
    types(&full, 0, "9", 0, 0);
    refuses(0, "1 1", 16, 0), refuses(1, "9", 16, 0); /* is kept if there is none, and goes for no other register */
    hold(1, 16, 16), refuses(0, "9", 16, 0);          /* what another register reaches counts */
    start_with(18, 0, 17, 17), put(7, 0), put(8, 0), full = c; /* with a dead cell: collected, and it is kept */
    start_with(18, 0, 16, 16), put(8, 0);
    types(&full, 0, "1 1 1", 16, 0);
    start_with(18, 0, 16, 17), put(1, 0), put(2, 0); /* both go, even if one would do */
    types(&full, 0, "1 2", 0, 0);
    start_with(18, 0, 16, 16), put(9, 0);
    types(&full, 0, "9", 0, 0);
    start_with(18, 0, 16, 17), hold(1, 17, 17), put(7, 0), put(8, 0), full = c; /* of two cells one stays */
    refuses(0, "1 1", 16, 0);
    start_with(18, 0, 17, 17), hold(1, 16, 16), put(8, 0), put(9, 0);
    types(&full, 0, "9", 0, 0);
}

/* Rows in which the text is refused by itself, so in a store without room. */
static void typed_rows_of_bytes(void)
{
    start_with(16, 0, 0, 0);
    refuses(0, " ", 23, 0), refuses(0, ")", 23, 0), refuses(0, "x", 23, 0); /* T15 */
    refuses(0, "1)", 23, 1), refuses(0, "1(", 23, 1), refuses(0, "1  2", 23, 2); /* T16 */
    refuses(0, "( )", 23, 1), refuses(0, "(1 )", 23, 3), refuses(0, "()1", 23, 2), refuses(0, "())", 23, 2);
    refuses(0, "1 ", 23, 2), refuses(0, "(", 23, 1), refuses(0, "(1", 23, 2), refuses(0, "() ", 23, 3); /* T17 */
    refuses(0, "268435456", 13, 8), refuses(0, "99999999999", 13, 8), refuses(0, "(268435456", 13, 9); /* T18 */
    refuses(0, "0", 13, 0), refuses(0, "01", 13, 0), refuses(0, "0x", 13, 0), refuses(0, "10 0", 13, 3); /* T25 */
    refuses(0, "(0)", 13, 1), refuses(0, "(1 0", 13, 3), refuses(0, "1 0 x", 13, 2);
    refuses(0, "()0", 23, 2); /* T26 */
    types_as(&c, 0, "1\0", 2, typed_answer(23, 1, c.top)); /* a C string with the byte that ends it */
}

static void typed_rows_of_refusals(void)
{
    start_with(17, 15, 16, 16), put(7, 0); /* T20 */
    types(fresh_one(17), 15, "7", 0, 0);
    refuses(16, "x", 20, 0), refuses(SIZE_MAX, "x", 20, 0), refuses(SIZE_MAX, "", 20, 0);
    start(0, 0), put(65, 0), put(66, 0), put(ZELMOTAR_BRACKET_CELL(16, 18)); /* T21 */
    refuses_damaged(16, "x", 5, 18), refuses_damaged(SIZE_MAX, "", 5, 18);
    c.top = 101;
    refuses(16, "x", 2, 0);
    c.words_n = 30;
    refuses(16, "x", 1, 0);
    start_with(17, 0, 16, 16), put(0, 0); /* T27 */
    refuses_damaged(0, "1", 4, 16), refuses_damaged(16, "0", 4, 16);
}

/* A text fed in two pieces, cut at every place, and byte by byte with a piece of no bytes before, between and behind:
 * what it answers at its end. */
static void ends_as(const char *text, size_t text_n, zelmotar_counted expected)
{
    zelmotar_pieces state;
    size_t i;
    for (place = LOW; place <= HIGH; place++) {
        for (i = 0; i <= text_n; i++) {
            state = feed(feed(zelmotar_text_start(), text, i), text + i, text_n - i);
            EXPECT(same_counted(end(state), expected));
        }
        state = feed(zelmotar_text_start(), "", 0);
        for (i = 0; i < text_n; i++)
            state = feed(feed(state, text + i, 1), "", 0);
        EXPECT(same_counted(end(state), expected));
    }
}

/* A text in order with so many terms, and so many where the most are. */
static void counts(const char *text, size_t terms, size_t most)
{
    ends_as(text, strlen(text), counted(ZELMOTAR_DONE, 0, terms, most));
}

/* A text that is refused. Where that is at a byte, and not at the end, nothing that is fed after it changes a field. */
static void ends_bytes(const char *text, size_t text_n, uint32_t status, size_t value)
{
    static const char *const more[8] = {"", " ", "(", ")", "0", "7", "x", "7 (8) 9"};
    zelmotar_pieces state;
    size_t i;
    ends_as(text, text_n, counted(status, value, 0, 0));
    if (value == text_n)
        return;
    for (i = 0, place = HIGH; i < 8; i++) {
        state = feed(zelmotar_text_start(), text, text_n);
        EXPECT(state.stand == status && state.code == 0 && state.offset == value);
        EXPECT(same_pieces(feed(state, more[i], strlen(more[i])), state));
    }
}

static void ends(const char *text, uint32_t status, size_t value) { ends_bytes(text, strlen(text), status, value); }

static void pieces_rows_of_terms(void)
{
    const zelmotar_pieces nowhere = {0, 0, 0, 0, 0, 0, 0, {0}};
    EXPECT(same_pieces(zelmotar_text_start(), nowhere));
    EXPECT(same_counted(end(zelmotar_text_start()), counted(0, 0, 0, 0))); /* no pieces */
    counts("", 0, 0);
    counts("1", 1, 1), counts("()", 1, 1), counts("10", 1, 1), counts("100 20", 2, 2), counts("268435455", 1, 1);
    counts("65 (66 67) ()", 5, 3), counts("1 (2 (3) 4) 5 ()", 8, 4);
    counts("1 (2 3 4) 5", 6, 3);                /* as many inside as outside */
    counts("(1 2) (3 4 5 (6 7 8 9)) 1", 13, 4); /* the most inside, on two levels */
    counts("((1 2 3 4 5)) 6", 8, 5), counts("(1 2 3) 4 5 6", 7, 4), counts("1 2 3 (4)", 5, 4);
    counts("() () ()", 3, 3), counts("(())", 2, 1), counts("((()) 1)", 4, 2), counts("(1) (2 3) ()", 6, 3);
}

static void pieces_rows_of_bytes(void)
{
    ends(" ", 23, 0), ends(")", 23, 0), ends("x", 23, 0), ends("1)", 23, 1), ends("1(", 23, 1), ends("1  2", 23, 2);
    ends("( )", 23, 1), ends("(1 )", 23, 3), ends("()1", 23, 2), ends("())", 23, 2), ends("()(", 23, 2);
    ends("1 ", 23, 2), ends("(", 23, 1), ends("(1", 23, 2), ends("() ", 23, 3), ends("(1 (2) 3", 23, 8);
    ends("268435456", 13, 8), ends("99999999999", 13, 8), ends("(268435456", 13, 9), ends("1 4294967297", 13, 10);
    ends("0", 13, 0), ends("01", 13, 0), ends("0x", 13, 0), ends("10 0", 13, 3), ends("(0)", 13, 1);
    ends("(1 0", 13, 3), ends("1 0 x", 13, 2), ends("()0", 23, 2), ends("1\n", 23, 1), ends("1\t2", 23, 1);
    ends_bytes("1\0", 2, 23, 1), ends_bytes("(1\xff", 3, 23, 2); /* the byte that ends a C string, and the largest */
}

static void pieces_rows_of_depth(void)
{
    char closed[66] = "";
    memset(closed, ')', 64);
    counts(brackets(64, closed), 64, 1);
    ends(brackets(70, ""), 21, 64), ends(brackets(65, ""), 21, 64), ends(brackets(64, ""), 23, 64);
    ends(brackets(64, "1("), 23, 65), ends(brackets(64, "1 ("), 21, 66), ends(brackets(64, ") (("), 21, 67);
    closed[64] = 'x';
    ends(brackets(64, closed), 23, 128);
}

/* At any place of a text its end may be asked for, and it goes on as if it had not been. */
static void pieces_rows_of_ends(void)
{
    static const char text[] = "65 (66 67) ()";
    const size_t done[4] = {1, 2, 10, 13}; /* the places at which the text may end, and the terms up to there */
    const size_t terms[4] = {1, 1, 4, 5}, most[4] = {1, 1, 2, 3};
    zelmotar_pieces state = zelmotar_text_start();
    size_t i, next = 0;
    for (i = 1, place = HIGH; i < sizeof text; i++) {
        state = feed(state, text + i - 1, 1);
        if (next < 4 && done[next] == i)
            EXPECT(same_counted(end(state), counted(0, 0, terms[next], most[next]))), next++;
        else
            EXPECT(same_counted(end(state), counted(23, i, 0, 0)));
    }
    EXPECT(next == 4);
}

/* Every way to cut a text into pieces, each right before the page that faults. */
static void every_cut(const char *text)
{
    const size_t text_n = strlen(text);
    const zelmotar_counted expected = expected_counted((const uint8_t *)text, text_n);
    unsigned long way;
    place = HIGH;
    allow(TEXT, PROT_READ | PROT_WRITE);
    doing = "zelmotar_text_feed";
    for (way = 0; way >> (text_n - 1) == 0; way++) {
        zelmotar_pieces state = zelmotar_text_start();
        size_t from = 0, to;
        for (to = 1; to <= text_n; to++)
            if (to == text_n || way >> (to - 1) & 1) {
                state = zelmotar_text_feed(state, memcpy(at(TEXT, to - from), text + from, to - from), to - from);
                from = to;
            }
        EXPECT(same_counted(zelmotar_text_end(state), expected));
    }
}

static void every_way(void)
{
    every_cut("65 (66 67) ()"), every_cut("(1 (2 3) ()) 4"), every_cut("1 268435455"), every_cut("268435456 (1");
    every_cut("1 (10 20) 0 ("), every_cut("1 (10 20) 3 ("), every_cut("12 (34 56))7");
}

/* A text that is longer than any store has room for. */
static uint8_t many[MOST_LONG];
static size_t many_n;

/* So many brackets open, symbols up to so many terms on all levels, and what stands behind them. */
static void make_many(size_t opened, size_t terms, const char *behind)
{
    size_t i;
    memset(many, '(', opened);
    many_n = opened;
    for (i = opened; i < terms; i++)
        many_n += (size_t)sprintf((char *)many + many_n, i == opened ? "7" : " 7");
    many_n += (size_t)sprintf((char *)many + many_n, "%s", behind);
}

/* The long text whole, in pieces of some thousand bytes, and cut about its end: what it answers there. What is typed is
 * refused in the same way, or for want of room, and nothing changes. */
static void ends_many(uint32_t status, size_t value, size_t terms, size_t most)
{
    const zelmotar_counted expected = counted(status, value, terms, most);
    const zelmotar_typed typed = typed_answer(status == ZELMOTAR_DONE ? ZELMOTAR_NO_ROOM : status, value, c.top);
    for (place = LOW; place <= HIGH; place++) {
        uint32_t *words = lend(STORE, c.words, c.words_n, PROT_READ | PROT_WRITE);
        const uint8_t *text = lend(LONG, many, many_n, PROT_READ);
        zelmotar_pieces state = zelmotar_text_start();
        size_t from, n;
        for (from = 0; from < many_n; from += n) {
            n = many_n - from < 30011 ? many_n - from : 30011;
            state = feed(state, many + from, n);
        }
        EXPECT(same_counted(end(state), expected));
        for (n = 0; n < 5; n++) {
            doing = "zelmotar_text_feed";
            state = zelmotar_text_feed(zelmotar_text_start(), text, many_n - n);
            EXPECT(same_counted(end(feed(state, many + many_n - n, n)), expected));
        }
        doing = "zelmotar_type";
        EXPECT(same_typed(zelmotar_type(words, c.words_n, c.top, 0, text, many_n), typed));
        expect_same(STORE, c.words_n), expect_same(LONG, many_n);
        typed_met[typed.status]++, ended_met[status]++;
    }
}

/* 65,536 terms, and one more: 2 * 65,536 - 1 bytes where none is in a bracket, and one byte fewer for each that is open
 * before them. */
static void pieces_rows_of_many(void)
{
    char closed[65] = "";
    memset(closed, ')', 64);
    start_with(17, 0, 16, 16), put(7, 0); /* a store without room */
    make_many(0, 65536, ""), ends_many(0, 0, 65536, 65536);
    make_many(0, 65536, " 7"), ends_many(24, 131072, 0, 0);
    make_many(0, 65536, " ("), ends_many(24, 131072, 0, 0);
    make_many(0, 65536, " 0"), ends_many(24, 131072, 0, 0); /* and not 13 */
    make_many(0, 65536, " x"), ends_many(23, 131072, 0, 0);
    make_many(0, 65536, "("), ends_many(23, 131071, 0, 0);
    make_many(0, 65536, "77"), ends_many(0, 0, 65536, 65536);
    make_many(0, 65535, " 0"), ends_many(13, 131070, 0, 0);
    make_many(0, 65535, " ()"), ends_many(0, 0, 65536, 65536);
    make_many(0, 65535, " (7"), ends_many(24, 131071, 0, 0);
    make_many(64, 65536, closed), ends_many(0, 0, 65536, 65472);
    make_many(64, 65536, ""), ends_many(23, 131007, 0, 0);
    make_many(64, 65536, " ("), ends_many(21, 131008, 0, 0); /* and not 24 */
    make_many(64, 65536, " 7"), ends_many(24, 131008, 0, 0);
    make_many(64, 65536, " 0"), ends_many(24, 131008, 0, 0);
    make_many(64, 65536, ") ("), ends_many(24, 131009, 0, 0);
    make_many(63, 65535, " (("), ends_many(21, 131008, 0, 0);
    make_many(62, 65535, " (("), ends_many(24, 131009, 0, 0);
    make_many(1, 65536, ") 7"), ends_many(24, 131072, 0, 0);
}

/* A state with so many brackets open and so many terms, all else 0. */
static zelmotar_pieces made(uint32_t stand, size_t depth, size_t terms)
{
    zelmotar_pieces state = {0, 0, 0, 0, 0, 0, 0, {0}};
    state.stand = stand, state.depth = depth, state.terms = terms;
    return state;
}

/* A state that goes on: it comes back with no code where that does not count, a blank is judged, and so is its end. */
static void goes(zelmotar_pieces state)
{
    const int ended = state.stand == CODE || state.stand == CLOSED, whole = state.depth == 0 && state.stand != BLANK;
    const zelmotar_counted too_soon = counted(23, state.offset, 0, 0), done = counted(0, 0, state.terms, state.most);
    zelmotar_pieces same = state, behind = state;
    if (state.stand != CODE)
        same.code = 0;
    behind.code = 0, behind.stand = ended ? BLANK : ZELMOTAR_NOT_TEXT, behind.offset += (size_t)ended;
    for (place = LOW; place <= HIGH; place++) {
        EXPECT(same_pieces(feed(state, "", 0), same));
        EXPECT(same_pieces(feed(state, " ", 1), behind));
        EXPECT(same_counted(end(state), whole ? done : too_soon));
    }
}

/* A state that does not go on: it comes back as it came, whatever is fed, and has this status at its end. */
static void stays(zelmotar_pieces state, uint32_t status)
{
    static const char *const more[7] = {"", " ", "(", ")", "0", "7", "7 (8) 9"};
    size_t i;
    for (place = LOW; place <= HIGH; place++) {
        for (i = 0; i < 7; i++)
            EXPECT(same_pieces(feed(state, more[i], strlen(more[i])), state));
        EXPECT(same_counted(end(state), counted(status, state.offset, 0, 0)));
    }
}

static void states_by_stand(void)
{
    static const uint32_t others[12] = {4, 5, 12, 14, 16, 20, 22, 23, 25, 256, 0x80000000u, UINT32_MAX};
    zelmotar_pieces state;
    uint32_t stand;
    size_t i;
    for (stand = BEGUN; stand <= CLOSED; stand++) {
        state = made(stand, 0, 2), state.own = 1, state.most = 2, goes(state);
        state.code = 268435455, goes(state);
        state.depth = 1, state.counts[0] = 2, goes(state);
    }
    for (i = 0; i < 12; i++)
        stays(made(others[i], 0, 2), 23), stays(made(others[i], 2, 2), 23);
    stays(made(13, 0, 2), 13), stays(made(21, 0, 2), 21), stays(made(24, 0, 2), 24), stays(made(24, 65, SIZE_MAX), 24);
}

static void states_by_code(void)
{
    static const uint32_t over[3] = {268435456, 0x80000000u, UINT32_MAX};
    zelmotar_pieces state;
    uint32_t stand;
    size_t i;
    for (i = 0; i < 3; i++)
        for (stand = BEGUN; stand <= CLOSED; stand++) {
            state = made(stand, 1, 9), state.code = over[i];
            if (stand == CODE)
                stays(state, 23);
            else
                goes(state);
        }
    state = made(CODE, 0, 1), goes(state); /* a code that no digit gives */
    state.code = 1, goes(state), state.code = 268435455, goes(state);
}

static void states_by_number(void)
{
    const size_t wrap = SIZE_MAX / 268435456 + 1; /* 2^28 times this is 2^64 */
    zelmotar_pieces state;
    goes(made(CLOSED, 64, 65536)), stays(made(CLOSED, 65, 65536), 23), stays(made(CLOSED, SIZE_MAX, 65536), 23);
    state = made(CLOSED, SIZE_MAX, 65536), state.offset = 3, stays(state, 23);
    goes(made(CLOSED, 0, 65536)), stays(made(CLOSED, 0, 65537), 23), stays(made(CLOSED, 0, SIZE_MAX), 23);
    stays(made(CLOSED, 0, wrap), 23), stays(made(CLOSED, 0, wrap + 9), 23), stays(made(CLOSED, 0, 2 * wrap), 23);
    state = made(CLOSED, 0, 9), state.own = 9, goes(state), state.own = 10, stays(state, 23);
    state.own = UINT32_MAX, stays(state, 23);
    state = made(CLOSED, 0, 9), state.most = 9, goes(state), state.most = 10, stays(state, 23);
    state.most = UINT32_MAX, stays(state, 23);
}

/* The counts of the brackets that are open, and of none. */
static void states_by_count(void)
{
    static const size_t depths[4] = {1, 2, 63, 64};
    zelmotar_pieces state;
    size_t i, at_depth;
    for (i = 0; i < 4; i++)
        for (at_depth = 0; at_depth < 64; at_depth++) {
            state = made(BEGUN, depths[i], 9), state.counts[at_depth] = 9, goes(state);
            state.counts[at_depth] = 10;
            if (at_depth < depths[i])
                stays(state, 23);
            else
                goes(state);
        }
    state = made(BEGUN, 0, 9), state.counts[0] = UINT32_MAX, goes(state);
}

/* An offset that is as large as it may be; one more; and some whose sums wrap. */
static void goes_to(zelmotar_pieces state, size_t ahead)
{
    state.offset = (size_t)268435456 * state.terms + 1 - state.depth - ahead, goes(state);
    state.offset++, stays(state, 23);
    state.offset = SIZE_MAX / 2, stays(state, 23);
    state.offset = SIZE_MAX, stays(state, 23);
    state.offset = SIZE_MAX - (state.depth + ahead) / 2, stays(state, 23);
}

static void states_by_offset(void)
{
    static const size_t terms[4] = {1, 2, 65535, 65536}, depths[3] = {0, 1, 64};
    zelmotar_pieces state;
    size_t i, j;
    for (i = 0; i < 4; i++)
        for (j = 0; j < 3; j++) {
            goes_to(made(BEGUN, depths[j], terms[i]), 1), goes_to(made(BLANK, depths[j], terms[i]), 0);
            goes_to(made(CLOSED, depths[j], terms[i]), 1);
            state = made(CODE, depths[j], terms[i]), state.code = 268435455, goes_to(state, 1);
            state.code = 268435000, goes_to(state, 456);
        }
    state = made(CODE, 0, 2), state.code = 1, goes_to(state, 268435455);
    goes_to(made(BEGUN, 0, 0), 1), goes_to(made(CLOSED, 0, 0), 1); /* without a term hardly any goes on */
    goes_to(made(BLANK, 0, 0), 0), goes_to(made(BLANK, 1, 0), 0), stays(made(BLANK, 2, 0), 23);
    stays(made(BEGUN, 1, 0), 23), stays(made(CLOSED, 1, 0), 23), stays(made(CODE, 0, 0), 23);
    state = made(CODE, 0, 0), state.code = 268435455, goes_to(state, 1), state.code = 268435454, stays(state, 23);
}

/* A byte fed to a state that is refused with this status: the other fields stay. */
static void refuses_byte(zelmotar_pieces state, const char *byte, uint32_t status)
{
    zelmotar_pieces expected = state;
    expected.stand = status, expected.code = 0;
    for (place = LOW; place <= HIGH; place++)
        EXPECT(same_pieces(feed(state, byte, 1), expected));
}

/* A byte fed to a state that takes it and becomes this one, one byte on. */
static void takes_byte(zelmotar_pieces state, const char *byte, zelmotar_pieces expected)
{
    expected.offset = state.offset + 1;
    for (place = LOW; place <= HIGH; place++)
        EXPECT(same_pieces(feed(state, byte, 1), expected));
}

/* With the most terms or the most brackets, or one fewer: which of them is told, and what is still taken. */
static void states_at_limits(void)
{
    zelmotar_pieces state, then;
    uint32_t stand;
    for (stand = BEGUN; stand <= BLANK; stand++) {
        refuses_byte(made(stand, 63, 65536), "(", 24), refuses_byte(made(stand, 64, 65536), "(", 21);
        refuses_byte(made(stand, 64, 65535), "(", 21), refuses_byte(made(stand, 64, 65535), "0", 13);
        refuses_byte(made(stand, 64, 65536), "7", 24), refuses_byte(made(stand, 0, 65536), "0", 24);
        refuses_byte(made(stand, 0, 65536), " ", 23), refuses_byte(made(stand, 0, 65536), "x", 23);
        state = made(stand, 63, 65535), state.own = state.most = 65535;
        then = made(BEGUN, 64, 65536), then.most = then.counts[63] = 65536, takes_byte(state, "(", then);
        then = made(CODE, 63, 65536), then.code = 7, then.own = then.most = 65536, takes_byte(state, "7", then);
        state.own = 65533; /* no more than there are elsewhere */
        then = made(BEGUN, 64, 65536), then.most = 65535, then.counts[63] = 65534, takes_byte(state, "(", then);
        then = made(CODE, 63, 65536), then.code = 7, then.own = 65534, then.most = 65535, takes_byte(state, "7", then);
    }
}

/* Brackets closed, and codes that go on, in states to which no text leads. */
static void states_of_bytes(void)
{
    zelmotar_pieces state = made(CLOSED, 2, 9), then = made(CLOSED, 1, 9);
    state.own = 3, state.counts[0] = 4, state.counts[1] = 5, state.counts[2] = 6;
    then.own = 5, then.counts[0] = 4, then.counts[1] = 5, then.counts[2] = 6;
    takes_byte(state, ")", then);
    state.stand = BEGUN, takes_byte(state, ")", then), state.stand = CODE, takes_byte(state, ")", then);
    state.stand = BLANK, refuses_byte(state, ")", 23), refuses_byte(made(CLOSED, 0, 9), ")", 23);
    state = made(CODE, 0, 9), then = made(CODE, 0, 9); /* a code that no digit gives is followed by one, not by 0 */
    then.code = 7, takes_byte(state, "7", then), refuses_byte(state, "0", 13);
    state.code = 26843545, then.code = 268435455, takes_byte(state, "5", then), refuses_byte(state, "6", 13);
    state.code = 26843546, refuses_byte(state, "0", 13), refuses_byte(state, "(", 23);
    state.code = 268435455, refuses_byte(state, "0", 13), refuses_byte(state, "x", 23);
    then = made(BLANK, 0, 9), takes_byte(state, " ", then);
    refuses_byte(made(CLOSED, 0, 9), "7", 23), refuses_byte(made(CLOSED, 0, 9), "(", 23);
}

/* A call on a store: its status, with value 0, and the case's store as the one that it leaves. */
static void runs(const struct test_case *before, uint32_t operation, uint32_t d, uint32_t a, uint32_t b,
                 uint32_t status)
{
    const zelmotar_reply expected = reply_of(ZELMOTAR_DONE, c.top);
    uint32_t call[4];
    spell(call, operation, d, a, b);
    for (place = LOW; place <= HIGH; place++) {
        uint32_t *words = lend(STORE, before->words, before->words_n, PROT_READ | PROT_WRITE);
        const uint32_t *calls = lend(CALLS, call, 4, PROT_READ);
        uint32_t *answers = lend(ANSWERS, NULL, 2, PROT_READ | PROT_WRITE);
        doing = "zelmotar_run";
        EXPECT(same_reply(zelmotar_run(words, before->words_n, before->top, calls, 4, answers, 2), expected));
        memcpy(plain[STORE], c.words, c.words_n * sizeof *c.words);
        plain[ANSWERS][0] = status, plain[ANSWERS][1] = 0;
        expect_same(STORE, c.words_n), expect_same(CALLS, 4), expect_same(ANSWERS, 2);
    }
}

static void rows_of_symbols(void)
{
    start_with(17, 0, 16, 16), put(65, 0), full = c;
    runs(fresh_one(17), ZELMOTAR_SYMBOL, 0, 65, 0, 0);
    start_with(17, 0, 16, 16), put(66, 0); /* what the register holds goes */
    runs(&full, ZELMOTAR_SYMBOL, 0, 66, 0, 0);
    runs(&c, ZELMOTAR_WRAP, 0, 0, 0, 16); /* but not where it is read, or where another is set */
    runs(&c, ZELMOTAR_SYMBOL, 1, 66, 0, 16);
    hold(1, 16, 16), runs(&c, ZELMOTAR_SYMBOL, 0, 66, 0, 16); /* what another register reaches counts */
    start_with(17, 5, 16, 16), put(65, 0), full = c;
    start_with(17, 5, 16, 16), put(5, 0); /* a code that is the register's number */
    runs(&full, ZELMOTAR_SYMBOL, 5, 5, 0, 0);
    runs(&c, ZELMOTAR_SYMBOL, 5, 0, 0, 13); /* P13: no code, for which nothing is collected */
    start_with(18, 0, 16, 16), put(65, 0), full = c; /* where there is room nothing goes, */
    start_with(18, 0, 17, 17), put(65, 0), put(66, 0);
    runs(&full, ZELMOTAR_SYMBOL, 0, 66, 0, 0);
    full = c, start_with(18, 0, 16, 16), put(67, 0); /* and else both cells, even if one would do */
    runs(&full, ZELMOTAR_SYMBOL, 0, 67, 0, 0);
}

static void rows_of_brackets(void)
{
    start_with(18, 0, 16, 16), hold(1, 17, 17), put(7, 0), put(8, 0), full = c;
    runs(&c, ZELMOTAR_WRAP, 0, 0, 0, 16), runs(&c, ZELMOTAR_WRAP, 1, 1, 0, 16), runs(&c, ZELMOTAR_WRAP, 2, 0, 0, 16);
    start_with(18, 0, 17, 17), hold(1, 16, 16), put(8, 0), put(ZELMOTAR_BRACKET_CELL(16, 16)); /* 7 goes, 8 moves */
    runs(&full, ZELMOTAR_WRAP, 0, 1, 0, 0);
    start_with(18, 0, 16, 16), hold(1, 17, 17), put(7, 0), put(ZELMOTAR_BRACKET_CELL(16, 16)); /* 8 goes */
    runs(&full, ZELMOTAR_WRAP, 1, 0, 0, 0);
    start_with(18, 0, 17, 17), put(7, 0), put(8, 0), full = c; /* a dead cell goes for a register that is read */
    start_with(18, 0, 17, 17), put(8, 0), put(ZELMOTAR_BRACKET_CELL(16, 16));
    runs(&full, ZELMOTAR_WRAP, 0, 0, 0, 0);
}

/* A store of so many cells, with registers 0, 1 and 2 as 1, 2 and 3 4. */
static void start_of_joins(size_t cells)
{
    start_with(cells, 0, 16, 16), hold(1, 17, 17), hold(2, 18, 19);
    put(1, 0), put(2, 0), put(3, 0), put(4, 0);
}

static void rows_of_joins(void)
{
    start_of_joins(21), full = c; /* register 2 is read, first or second, and counts */
    runs(&c, ZELMOTAR_JOIN, 2, 2, 0, 16), runs(&c, ZELMOTAR_JOIN, 2, 0, 2, 16), runs(&c, ZELMOTAR_JOIN, 3, 0, 1, 16);
    ZELMOTAR_CODE(c.words, 18) = 1, ZELMOTAR_CODE(c.words, 19) = 2; /* it is not read, and what it holds goes */
    runs(&full, ZELMOTAR_JOIN, 2, 0, 1, 0);
    start_of_joins(20), full = c; /* with an empty side it shares, and nothing goes */
    hold(2, 16, 16), runs(&full, ZELMOTAR_JOIN, 2, 0, 3, 0), runs(&full, ZELMOTAR_JOIN, 2, 3, 0, 0);
    start_of_joins(20), hold(3, 19, 19); /* what a third register reaches counts, */
    runs(&c, ZELMOTAR_JOIN, 2, 0, 1, 16);
    start_of_joins(21), hold(3, 19, 19), full = c; /* and stays */
    start_with(21, 0, 16, 16), hold(1, 17, 17), hold(2, 19, 20), hold(3, 18, 18);
    put(1, 0), put(2, 0), put(4, 0), put(1, 0), put(2, 0);
    runs(&full, ZELMOTAR_JOIN, 2, 0, 1, 0);
    start_with(20, 0, 17, 18), hold(2, 19, 19), put(9, 0), put(1, 0), put(2, 0), put(3, 0), full = c;
    start_with(20, 0, 16, 17), hold(2, 18, 18), put(1, 0), put(2, 0), put(3, 0); /* 9 is dead and goes, 3 is kept */
    runs(&full, ZELMOTAR_JOIN, 2, 0, 0, 16);
}

/* The case's file: words, so many empty registers, and a trailer, each behind what there is. */
static void add_word(uint32_t word) { put_word(c.file + c.file_n, word), c.file_n += 4; }

static void add_cell(uint32_t first, uint32_t second) { add_word(first), add_word(second); }

static void add_empty(size_t count)
{
    for (; count > 0; count--)
        add_cell(ZELMOTAR_EMPTY_CELL);
}

static void add_trailer(uint32_t distance, uint32_t cells, uint32_t capacity, uint32_t edition)
{
    add_word(distance), add_word(cells), add_word(capacity), add_word(edition);
}

/* A file without heap cells whose trailer says what it says. */
static void file_of_none(uint32_t distance, uint32_t cells, uint32_t capacity, uint32_t edition)
{
    c.file_n = 0, add_empty(16), add_trailer(distance, cells, capacity, edition);
}

/* A file with one heap cell, and with register 0 in these words. */
static void file_of_one(uint32_t first, uint32_t second, uint32_t l, uint32_t r, uint32_t capacity)
{
    c.file_n = 0, add_cell(first, second), add_cell(l, r), add_empty(15), add_trailer(152, 1, capacity, 1);
}

/* So many bytes before the case's file. */
static void precede(size_t count)
{
    memmove(c.file + count, c.file, c.file_n);
    memset(c.file, 7, count);
    c.file_n += count;
}

/* P2 as it is lent, then as the case's store, collected, and as its file. */
static struct test_case p2;
static void collected_p2(void)
{
    start_with(24, 0, 21, 22), put(70, 0), put(65, 0), put(66, 0), put(67, 0), put(68, 0);
    put(ZELMOTAR_BRACKET_CELL(18, 20)), put(ZELMOTAR_BRACKET_CELL(17, 19)), p2 = c;
    start_with(24, 0, 20, 21), put(65, 0), put(66, 0), put(67, 0), put(68, 0);
    put(ZELMOTAR_BRACKET_CELL(17, 19)), put(ZELMOTAR_BRACKET_CELL(16, 18));
    c.file_n = 0, add_cell(65, 0), add_cell(66, 0), add_cell(67, 0), add_cell(68, 0);
    add_cell(ZELMOTAR_BRACKET_CELL(17, 19)), add_cell(ZELMOTAR_BRACKET_CELL(16, 18));
    add_cell(ZELMOTAR_BRACKET_CELL(20, 21)), add_empty(15), add_trailer(192, 6, 24, 1);
}

/* A store saved to so many bytes: the answer that is expected, with the case's `top`; the case's store as the one that
 * is left; and its file and zeros behind it, or zeros alone. */
static void saves_as(const struct test_case *before, size_t space_n, zelmotar_saved expected)
{
    EXPECT(before->words_n == c.words_n);
    for (place = LOW; place <= HIGH; place++) {
        uint32_t *words = lend(STORE, before->words, before->words_n, PROT_READ | PROT_WRITE);
        uint8_t *space = lend(TEXT, NULL, space_n, PROT_READ | PROT_WRITE);
        doing = "zelmotar_save";
        EXPECT(same_saved(zelmotar_save(words, before->words_n, before->top, space, space_n), expected));
        memcpy(plain[STORE], c.words, c.words_n * sizeof *c.words);
        memset(plain[TEXT], 0, space_n);
        memcpy(plain[TEXT], c.file, expected.length);
        expect_same(STORE, c.words_n), expect_same(TEXT, space_n);
    }
}

static void saves(const struct test_case *before, size_t space_n, uint32_t status)
{
    const zelmotar_saved expected = {status, 0, 0, c.top, status == ZELMOTAR_DONE ? c.file_n : 0};
    saves_as(before, space_n, expected);
}

/* The case's store, which is not saved, as this cell breaks this rule. */
static void saves_damaged(size_t space_n, uint32_t rule, uint32_t cell)
{
    const zelmotar_saved expected = {ZELMOTAR_DAMAGED, rule, cell, c.top, 0};
    saves_as(&c, space_n, expected);
}

/* The case's file loaded into so many words, with so many bytes between it and the page that faults: the answer that is
 * expected; the case's store, or every word as it was lent. */
static void loads_as(size_t between, size_t loaded_n, zelmotar_reply expected)
{
    static uint8_t lent[MOST_FILE];
    for (place = LOW; place <= HIGH; place++) {
        size_t shift = place == LOW ? between : 0;
        uint32_t *words = lend(STORE, NULL, loaded_n, PROT_READ | PROT_WRITE);
        const uint8_t *file;
        memcpy(lent + shift, c.file, c.file_n);
        file = (const uint8_t *)lend(TEXT, lent, c.file_n + between, PROT_READ) + shift;
        doing = "zelmotar_load";
        EXPECT(same_reply(zelmotar_load(words, loaded_n, file, c.file_n), expected));
        if (expected.status == ZELMOTAR_DONE)
            memcpy(plain[STORE], c.words, loaded_n * sizeof *c.words);
        expect_same(STORE, loaded_n), expect_same(TEXT, c.file_n + between);
    }
}

static void loads_beside(size_t between, size_t loaded_n, uint32_t status)
{
    loads_as(between, loaded_n, reply_of(status, status == ZELMOTAR_DONE ? c.top : 0));
}

static void loads(size_t loaded_n, uint32_t status) { loads_beside(0, loaded_n, status); }

/* A file that is not loaded, as this cell in it breaks this rule. */
static void loads_damaged(size_t loaded_n, uint32_t rule, uint32_t cell)
{
    const zelmotar_reply expected = {ZELMOTAR_DAMAGED, rule, cell, 0};
    loads_as(0, loaded_n, expected);
}

static void rows_of_saving(void)
{
    start_with(20, 0, 0, 0), file_of_none(144, 0, 20, 1); /* S1 */
    saves(fresh_one(20), 144, 0), saves(fresh_one(20), 160, 0), saves(fresh_one(20), 143, 22);
    collected_p2(); /* S2 to S4 */
    saves(&p2, 192, 0), saves(&p2, 195, 0), saves(&p2, 191, 22), saves(&p2, 0, 22);
    saves(&c, 192, 0), saves(&c, 191, 22);
    c = p2, ZELMOTAR_LEFT(c.words, 21) = 23; /* S5 to S7: 1, 2 and 3, each before the next, and all before 22 */
    saves_damaged(5, 5, 21), saves_damaged(192, 5, 21), saves_damaged(0, 5, 21);
    c.top = 25, saves(&c, 5, 2);
    c.top = 0, saves(&c, 192, 2);
    c.words_n = 3, saves(&c, 5, 1), saves(&c, 0, 1);
    start_with(17, 0, 16, 16), put(0, 0), saves_damaged(152, 4, 16); /* S8 */
}

static void rows_of_loading(void)
{
    start_with(20, 0, 0, 0), file_of_none(144, 0, 20, 1); /* L1 */
    loads(40, 0);
    collected_p2(), loads(48, 0);
    precede(5), loads(48, 0); /* L2 */
    start_with(17, 0, 16, 16), put(65, 0), file_of_one(65, 0, 16, ZELMOTAR_BRACKET + 16, 17); /* L12 */
    loads(34, 0);
}

/* Rows of files that are refused for their trailer, whatever is lent, or for the number of words lent. */
static void rows_of_trailers(void)
{
    static const size_t lent[5] = {40, 0, 32, 38, 8192};
    size_t i;
    for (i = 0; i < 5; i++) {
        c.file_n = 0, loads(lent[i], 30); /* L3 */
        file_of_none(144, 0, 20, 1), c.file_n = 15, loads(lent[i], 30);
        c.file_n = 0, add_trailer(7, 7, 7, 7), loads(lent[i], 31); /* L4 */
        file_of_none(144, 0, 20, 2), loads(lent[i], 31);
        file_of_none(143, 0, 20, 0), loads(lent[i], 31);
        file_of_none(144, 0, 20, 257), loads(lent[i], 31);
        file_of_none(143, 0, 20, 1), loads(lent[i], 32); /* L5 */
        file_of_none(145, 0, 20, 1), loads(lent[i], 32);
        file_of_none(152, 1, 20, 1), loads(lent[i], 32);
        file_of_none(145, 0, 20, 1), precede(8), loads(lent[i], 32);
        c.file_n = 0, add_trailer(144, 0, 20, 1), loads(lent[i], 32);
        file_of_none(144, 0x20000000u, 20, 1), loads(lent[i], 32); /* L6 */
        file_of_none(0xfffffff8u, 0x20000000u - 19, 20, 1), loads(lent[i], 32);
        file_of_none(144, 0xffffffffu, 20, 1), loads(lent[i], 32);
        file_of_none(143, 0, 15, 1), loads(lent[i], 32);
        file_of_none(144, 0, 15, 1), loads(lent[i], 33); /* L7 */
        file_of_none(144, 0, 4097, 1), loads(lent[i], 33);
        file_of_none(144, 0, 0x80000014u, 1), loads(lent[i], 33);
        file_of_one(65, 0, 16, ZELMOTAR_BRACKET + 16, 16), loads(lent[i], 33);
        file_of_none(144, 0, 21, 1), loads(lent[i], 35); /* L8 */
    }
    file_of_none(144, 0, 20, 1), loads(42, 35), loads(39, 35), loads(41, 35), loads(20, 35);
    file_of_one(65, 1, 16, ZELMOTAR_BRACKET + 16, 17), loads(32, 35);
}

/* Rows of files that are refused for a cell. */
static void rows_of_cells(void)
{
    file_of_one(65, 1, 16, ZELMOTAR_BRACKET + 16, 17), loads_damaged(34, 4, 16); /* L9 */
    file_of_one(65, 0, 17, ZELMOTAR_BRACKET + 17, 17), loads_damaged(34, 5, 0);
    file_of_one(65, 1, 16, 16, 17), loads_damaged(34, 2, 0);
    file_of_one(65, 1, ZELMOTAR_EMPTY_CELL, 17), loads_damaged(34, 4, 16); /* L10 */
    file_of_one(65, 0, ZELMOTAR_EMPTY_CELL, 17), loads(34, 34); /* L11 */
    c.file_n = 0, add_cell(65, 0), add_cell(ZELMOTAR_BRACKET_CELL(16, 16)); /* held, and still not reached */
    add_empty(16), add_trailer(160, 2, 20, 1), loads(40, 34);
    file_of_one(0, 0, 16, ZELMOTAR_BRACKET + 16, 17), loads_damaged(34, 4, 16); /* L13 */
    file_of_one(0, 0, ZELMOTAR_EMPTY_CELL, 17), loads_damaged(34, 4, 16);
    start_with(17, 0, 16, 16), put(1, 0), file_of_one(1, 0, 16, ZELMOTAR_BRACKET + 16, 17), loads(34, 0);
}

/* The case's file, into the words of P2, held against the second reader. */
static void load_p2(void)
{
    c.loaded_n = 48;
    for (place = LOW; place <= HIGH; place++)
        edges_load();
}

/* P2 saved to every number of bytes; its file, with bytes before it, and each bit changed; the file cut at each byte,
 * from either end; and whole, with every number of bytes up to two words between it and the page that faults. */
static void every_file(void)
{
    size_t i;
    collected_p2();
    for (i = 0; i <= 8; i++)
        loads_beside(i, 48, 0), loads_beside(i, 46, 35);
    for (i = 0; i < 8 * 200; i++) {
        collected_p2(), precede(8), c.file[i / 8] ^= (uint8_t)(1u << i % 8);
        load_p2();
    }
    for (i = 0; i < 192; i++) {
        collected_p2(), c.file_n = i;
        load_p2();
        collected_p2(), c.file_n -= i, memmove(c.file, c.file + i, c.file_n);
        load_p2();
    }
    for (c = p2, c.space_n = 0; c.space_n <= 200; c.space_n++)
        for (place = LOW; place <= HIGH; place++)
            edges_save();
}

static void longest_file(void)
{
    make_longest(&c);
    saves(&c, c.file_n, 0), saves(&c, c.file_n - 1, 22), loads(c.words_n, 0);
    c.file[0] = 1, loads_damaged(c.words_n, 3, ZELMOTAR_REGISTERS); /* it is an empty bracket */
}

/* Types a text into a register of a small store with a word on either side, and holds it against the second reader and
 * layer. The text stands before the page that faults, and can be written there, so that it is seen if it is. */
static void type_short(const uint8_t *given, size_t text_n)
{
    enum { WORDS = 2 * 18, GUARD = 0x5a5a5a5a };
    uint32_t words[WORDS + 2] = {GUARD}, expected[WORDS + 2] = {GUARD};
    uint8_t *text = at(TEXT, text_n);
    zelmotar_typed answer;
    expected[WORDS + 1] = words[WORDS + 1] = GUARD;
    EXPECT(zelmotar_fresh(words + 1, WORDS).status == ZELMOTAR_DONE);
    EXPECT(zelmotar_fresh(expected + 1, WORDS).status == ZELMOTAR_DONE);
    memcpy(text, given, text_n);
    doing = "zelmotar_type";
    answer = zelmotar_type(words + 1, WORDS, ZELMOTAR_REGISTERS, 3, text, text_n);
    EXPECT(same_typed(answer, expected_type(expected + 1, WORDS, ZELMOTAR_REGISTERS, 3, given, text_n)));
    EXPECT(memcmp(words, expected, sizeof words) == 0 && memcmp(text, given, text_n) == 0);
}

/* Feeds the same text, cut at every place, and holds what it answers at its end against the second judge. */
static void feed_short(const uint8_t *given, size_t text_n)
{
    const zelmotar_counted expected = expected_counted(given, text_n);
    size_t i;
    doing = "zelmotar_text_feed";
    for (i = 0; i <= text_n; i++) {
        const size_t rest = text_n - i;
        zelmotar_pieces state = zelmotar_text_feed(zelmotar_text_start(), memcpy(at(TEXT, i), given, i), i);
        state = zelmotar_text_feed(state, memcpy(at(TEXT, rest), given + i, rest), rest);
        EXPECT(same_counted(zelmotar_text_end(state), expected));
    }
}

static void try_short(const uint8_t *given, size_t text_n) { type_short(given, text_n), feed_short(given, text_n); }

/* Every text of one byte and of two, and every one of up to seven of the bytes that texts have, with two digits. */
static void every_short_text(void)
{
    static const char of[] = "( )07";
    uint8_t text[7];
    unsigned long number, rest, count = 1;
    size_t n, i;
    place = HIGH;
    allow(TEXT, PROT_READ | PROT_WRITE);
    for (number = 0; number < 65536; number++) {
        text[0] = (uint8_t)(number % 256), text[1] = (uint8_t)(number / 256);
        try_short(text, 2);
        if (number < 256)
            try_short(text, 1);
    }
    for (n = 0; n <= sizeof text; n++, count *= sizeof of - 1)
        for (number = 0; number < count; number++) {
            for (i = 0, rest = number; i < n; i++, rest /= sizeof of - 1)
                text[i] = (uint8_t)of[rest % (sizeof of - 1)];
            try_short(text, n);
        }
}

/* Whether a process of its own, doing what is asked, is ended by a fault. */
static int faults(void (*act)(void))
{
    const struct rlimit no_core = {0, 0};
    int status = 0;
    pid_t child = fork();
    if (child == 0) {
        if (setrlimit(RLIMIT_CORE, &no_core) == 0)
            act();
        _exit(0);
    }
    return child > 0 && waitpid(child, &status, 0) == child && WIFSIGNALED(status) &&
           (WTERMSIG(status) == SIGSEGV || WTERMSIG(status) == SIGBUS);
}

static volatile uint32_t touched;
static uint32_t *smallest(void) { return lend(STORE, c.words, 32, PROT_READ); }
static void touch_before(void) { place = LOW, touched = smallest()[-1]; }
static void touch_after(void) { place = HIGH, touched = smallest()[32]; }
static void touch_written(void) { place = LOW, smallest()[0] = 1; }
static void touch_nothing(void) { place = LOW, touched = smallest()[0]; }

/* The library on words that are one cell fewer than it is told, and on a store that it may only read. */
static void check_beyond(void)
{
    place = HIGH;
    touched = zelmotar_check(lend(STORE, c.words, 38, PROT_READ), 40, 16).status;
}

static void fresh_unwritable(void) { touched = zelmotar_fresh(lend(STORE, c.words, 40, PROT_READ), 40).status; }

/* A print into one byte fewer than it is told, and into bytes that it may only read. */
static void print_beyond(void)
{
    place = HIGH;
    touched = zelmotar_print(c.words, 40, 16, 0, lend(TEXT, NULL, 2, PROT_READ | PROT_WRITE), 3).status;
}

static void print_unwritable(void)
{
    touched = zelmotar_print(c.words, 40, 16, 0, lend(TEXT, NULL, 3, PROT_READ), 3).status;
}

/* A text one byte shorter than it is told, and a store that may only be read. */
static void type_beyond(void)
{
    place = HIGH;
    touched = zelmotar_type(c.words, 40, 16, 0, lend(TEXT, "12", 2, PROT_READ), 3).status;
}

static void type_unwritable(void)
{
    touched = zelmotar_type(lend(STORE, c.words, 40, PROT_READ), 40, 16, 0, (const uint8_t *)"12", 2).status;
}

/* A piece one byte shorter than it is told. */
static void feed_beyond(void)
{
    place = HIGH;
    touched = zelmotar_text_feed(zelmotar_text_start(), lend(TEXT, "12", 2, PROT_READ), 3).stand;
}

/* A store saved to one byte fewer than it is told, and to bytes that it may only read. */
static void save_beyond(void)
{
    place = HIGH;
    touched = zelmotar_save(c.words, 40, 16, lend(TEXT, NULL, 143, PROT_READ | PROT_WRITE), 144).status;
}

static void save_unwritable(void)
{
    touched = zelmotar_save(c.words, 40, 16, lend(TEXT, NULL, 144, PROT_READ), 144).status;
}

/* A file one byte shorter than it is told, and words that may only be read. */
static void load_beyond(void)
{
    place = HIGH;
    touched = zelmotar_load(c.words, 40, lend(TEXT, c.file, 143, PROT_READ), 144).status;
}

static void load_unwritable(void)
{
    touched = zelmotar_load(lend(STORE, c.words, 40, PROT_READ), 40, c.file, 144).status;
}

static void expect_faults(void)
{
    EXPECT(zelmotar_fresh(c.words, 40).status == ZELMOTAR_DONE);
    EXPECT(put_file(c.file, c.words, 40, 16) == 144);
    EXPECT(faults(touch_before) && faults(touch_after) && faults(touch_written) && !faults(touch_nothing));
    EXPECT(faults(check_beyond) && faults(fresh_unwritable));
    EXPECT(faults(print_beyond) && faults(print_unwritable));
    EXPECT(faults(type_beyond) && faults(type_unwritable) && faults(feed_beyond));
    EXPECT(faults(save_beyond) && faults(save_unwritable));
    EXPECT(faults(load_beyond) && faults(load_unwritable));
}

static void on_fault(int number)
{
    static const char text[] = "edges: a page was touched that is not lent, by ";
    ssize_t said = write(2, text, sizeof text - 1);
    said += write(2, doing, strlen(doing)), said += write(2, "\n", 1);
    _exit(said > 0 ? 128 + number : 1);
}

int main(int count_given, char **list)
{
    long left = count_given == 2 ? atol(list[1]) : 0;
    if (left <= 0) {
        fprintf(stderr, "usage: edges COUNT\n");
        return 2;
    }
    make_pages();
    expect_faults();
    signal(SIGSEGV, on_fault), signal(SIGBUS, on_fault);
    rows_of_terms();
    rows_of_depth();
    rows_of_refusals();
    typed_rows_of_terms();
    typed_rows_of_depth();
    typed_rows_of_room();
    typed_rows_of_overwriting();
    typed_rows_of_bytes();
    typed_rows_of_refusals();
    pieces_rows_of_terms();
    pieces_rows_of_bytes();
    pieces_rows_of_depth();
    pieces_rows_of_ends();
    pieces_rows_of_many();
    every_way();
    states_by_stand();
    states_by_code();
    states_by_number();
    states_by_count();
    states_by_offset();
    states_at_limits();
    states_of_bytes();
    rows_of_symbols();
    rows_of_brackets();
    rows_of_joins();
    rows_of_saving();
    rows_of_loading();
    rows_of_trailers();
    rows_of_cells();
    every_file();
    longest_file();
    every_short_text();
    for (; left > 0; left--) {
        make_case(&c);
        edges();
    }
    expect_all_met();
    return expect_end();
}
