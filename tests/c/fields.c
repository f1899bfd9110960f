/* fields: the layout of the seven structs that come back, one of which is handed in too. Each field has its place and
 * size, and is read by name and by its bytes from answers whose fields all differ. Every function that tells of a
 * damaged cell hands on the rule that it breaks, and the rule is 0 with every other status. */
#include <string.h>

#include "expect.h"
#include "files.h"
#include "rules.h"
#include "zelmotar.h"

#define WORDS 64

static uint32_t words[WORDS];

/* Whether the bytes at a place of a struct are those of a number. */
#define AT(place, field, number) (memcmp((const char *)&(place) + offsetof_##field, &(number), sizeof(number)) == 0)

/* All answers begin alike. Their values differ in width, but what follows a value is as wide as a size_t, and so stands
 * in one place behind either. */
enum { offsetof_status = 0, offsetof_rule = 4, offsetof_value = 8, offsetof_top = 8 + sizeof(size_t) };
enum { offsetof_length = 8 + sizeof(size_t) };           /* of a text */
enum { offsetof_saved_length = 8 + 2 * sizeof(size_t) }; /* of saving, behind top */
enum { offsetof_from = 0, offsetof_to = sizeof(size_t) };
/* Of a text in pieces, and of its end. */
enum { offsetof_stand = 0, offsetof_code = 4, offsetof_offset = 8, offsetof_depth = 8 + sizeof(size_t) };
enum { offsetof_terms = 8 + 2 * sizeof(size_t), offsetof_own = 8 + 3 * sizeof(size_t) };
enum { offsetof_most = 12 + 3 * sizeof(size_t), offsetof_counts = 16 + 3 * sizeof(size_t) };
enum { offsetof_counted_value = sizeof(size_t), offsetof_counted_terms = 2 * sizeof(size_t) };
enum { offsetof_counted_most = 3 * sizeof(size_t) };

/* Whether a field of a struct has this place and this size. */
#define STANDS(type, field, place, size) (offsetof(type, field) == (place) && sizeof(((type *)0)->field) == (size))

/* Whether a struct begins with a status and a rule. */
#define BEGINS(type) (STANDS(type, status, offsetof_status, 4) && STANDS(type, rule, offsetof_rule, 4))

static void layout(void)
{
    const size_t wide = sizeof(size_t);
    EXPECT(BEGINS(zelmotar_reply) && sizeof(zelmotar_reply) == 8 + 2 * wide);
    EXPECT(STANDS(zelmotar_reply, value, offsetof_value, 4) && STANDS(zelmotar_reply, top, offsetof_top, wide));
    EXPECT(STANDS(zelmotar_span, from, offsetof_from, wide) && STANDS(zelmotar_span, to, offsetof_to, wide));
    EXPECT(sizeof(zelmotar_span) == 2 * wide);
    EXPECT(BEGINS(zelmotar_text) && sizeof(zelmotar_text) == 8 + 2 * wide);
    EXPECT(STANDS(zelmotar_text, value, offsetof_value, wide) && STANDS(zelmotar_text, length, offsetof_length, wide));
    EXPECT(BEGINS(zelmotar_typed) && sizeof(zelmotar_typed) == 8 + 2 * wide);
    EXPECT(STANDS(zelmotar_typed, value, offsetof_value, wide) && STANDS(zelmotar_typed, top, offsetof_top, wide));
    EXPECT(BEGINS(zelmotar_saved) && sizeof(zelmotar_saved) == 8 + 3 * wide);
    EXPECT(STANDS(zelmotar_saved, value, offsetof_value, 4) && STANDS(zelmotar_saved, top, offsetof_top, wide));
    EXPECT(STANDS(zelmotar_saved, length, offsetof_saved_length, wide));
}

static void layout_of_pieces(void)
{
    const size_t wide = sizeof(size_t);
    EXPECT(STANDS(zelmotar_pieces, stand, offsetof_stand, 4) && STANDS(zelmotar_pieces, code, offsetof_code, 4));
    EXPECT(STANDS(zelmotar_pieces, offset, offsetof_offset, wide));
    EXPECT(STANDS(zelmotar_pieces, depth, offsetof_depth, wide));
    EXPECT(STANDS(zelmotar_pieces, terms, offsetof_terms, wide));
    EXPECT(STANDS(zelmotar_pieces, own, offsetof_own, 4) && STANDS(zelmotar_pieces, most, offsetof_most, 4));
    EXPECT(STANDS(zelmotar_pieces, counts, offsetof_counts, 4 * 64));
    EXPECT(sizeof(zelmotar_pieces) == 16 + 3 * wide + 4 * 64 && (wide != 8 || sizeof(zelmotar_pieces) == 296));
    EXPECT(STANDS(zelmotar_counted, status, offsetof_status, 4));
    EXPECT(STANDS(zelmotar_counted, value, offsetof_counted_value, wide));
    EXPECT(STANDS(zelmotar_counted, terms, offsetof_counted_terms, wide));
    EXPECT(STANDS(zelmotar_counted, most, offsetof_counted_most, wide));
    EXPECT(sizeof(zelmotar_counted) == 4 * wide);
}

/* An answer, field by field: by name and by bytes. */
static void reads(zelmotar_reply answer, uint32_t status, uint32_t rule, uint32_t value, size_t top)
{
    EXPECT(answer.status == status && AT(answer, status, status));
    EXPECT(answer.rule == rule && AT(answer, rule, rule));
    EXPECT(answer.value == value && AT(answer, value, value));
    EXPECT(answer.top == top && AT(answer, top, top));
}

/* A store whose heap cells below top are symbols, with register 0 on those from l to r. */
static void symbols(size_t top, uint32_t l, uint32_t r)
{
    const uint32_t holder[2] = {ZELMOTAR_BRACKET_CELL(l, r)};
    size_t c;
    EXPECT(zelmotar_fresh(words, WORDS).status == ZELMOTAR_DONE);
    memcpy(words, holder, sizeof holder);
    for (c = ZELMOTAR_REGISTERS; c < top; c++)
        ZELMOTAR_FIRST_WORD(words, c) = 7;
}

/* For each rule a cell of a store whose `top` is 21, and the words with which it breaks that rule. */
static const struct damage {
    uint32_t cell, first, second;
} damages[RULES] = {
    {0, 17, ZELMOTAR_BRACKET + 18},  /* none */
    {20, 7, ZELMOTAR_USED},          /* a symbol with a used bit */
    {6, 17, 18},                     /* a register without its bracket bit */
    {9, 17, ZELMOTAR_BRACKET},       /* a register with a left end alone */
    {18, 7, 18},                     /* a symbol with a right end */
    {19, 19, ZELMOTAR_BRACKET + 19}, /* a bracket around itself */
    {25, 7, 0},                      /* a symbol beyond top */
};

/* Register 0 on the symbols 17 and 18, and the one cell that breaks the rule. */
static void damaged_store(uint32_t rule)
{
    const struct damage damage = damages[rule];
    symbols(21, 17, 18);
    ZELMOTAR_FIRST_WORD(words, damage.cell) = damage.first;
    ZELMOTAR_SECOND_WORD(words, damage.cell) = damage.second;
}

static void answers(void)
{
    const size_t far = SIZE_MAX / 255 * 0xa5 - 1; /* each byte of it is set */
    const uint32_t calls[4] = {ZELMOTAR_LIVE, 0, 0, 0};
    uint32_t space[2] = {0, 0};
    reads(zelmotar_fresh(words, WORDS), 0, 0, 0, 16);
    reads(zelmotar_fresh(words, WORDS - 1), 1, 0, 0, 0);
    damaged_store(5);
    reads(zelmotar_check(words, WORDS, far), 2, 0, 0, far);
    reads(zelmotar_check(words, WORDS - 1, far), 1, 0, 0, far);
    reads(zelmotar_collect(words, WORDS, far), 2, 0, 0, far);
    reads(zelmotar_run(words, WORDS, far, calls, 4, space, 2), 2, 0, 0, far);
    symbols(21, 17, 18);
    reads(zelmotar_check(words, WORDS, 21), 0, 0, 0, 21);
    reads(zelmotar_run(words, WORDS, 21, calls, 3, space, 2), 4, 0, 0, 21);
    reads(zelmotar_run(words, WORDS, 21, calls, 4, space, 1), 5, 0, 0, 21);
    reads(zelmotar_run(words, WORDS, 21, calls, 4, space, 2), 0, 0, 0, 21);
    reads(zelmotar_collect(words, WORDS, 21), 0, 0, 2, 18);
}

static void spans(void)
{
    const size_t from = 34, to = 38;
    zelmotar_span span;
    symbols(21, 17, 18);
    span = zelmotar_look(words, WORDS, 21, 0);
    EXPECT(span.from == from && AT(span, from, from));
    EXPECT(span.to == to && AT(span, to, to));
}

/* What a print answers, field by field: by name and by bytes. */
static void reads_text(zelmotar_text answer, uint32_t status, uint32_t rule, size_t value, size_t length)
{
    EXPECT(answer.status == status && AT(answer, status, status));
    EXPECT(answer.rule == rule && AT(answer, rule, rule));
    EXPECT(answer.value == value && AT(answer, value, value));
    EXPECT(answer.length == length && AT(answer, length, length));
}

/* The last text is of brackets around the two cells before them, two by two, and longer than one byte can count. */
static void texts(void)
{
    static uint8_t text[2000];
    uint32_t c;
    damaged_store(5);
    reads_text(zelmotar_print(words, WORDS, 50, 0, text, 5), 2, 0, 0, 0);
    reads_text(zelmotar_print(words, WORDS - 1, 50, 0, text, 5), 1, 0, 0, 0);
    symbols(18, 16, 17);
    reads_text(zelmotar_print(words, WORDS, 18, 0, text, 5), 0, 0, 0, 3);
    reads_text(zelmotar_print(words, WORDS, 18, 16, text, 5), 20, 0, 0, 0);
    reads_text(zelmotar_print(words, WORDS, 18, 0, text, 2), 22, 0, 0, 0);
    for (c = 18; c < 32; c += 2) {
        words[2 * c] = words[2 * c + 2] = c - 2;
        words[2 * c + 1] = words[2 * c + 3] = ZELMOTAR_BRACKET + c - 1;
    }
    words[0] = 30, words[1] = ZELMOTAR_BRACKET + 31;
    reads_text(zelmotar_print(words, WORDS, 32, 0, text, 2000), 0, 0, 0, 1019);
}

/* What typing answers, field by field: by name and by bytes. */
static void reads_typed(zelmotar_typed answer, uint32_t status, uint32_t rule, size_t value, size_t top)
{
    EXPECT(answer.status == status && AT(answer, status, status));
    EXPECT(answer.rule == rule && AT(answer, rule, rule));
    EXPECT(answer.value == value && AT(answer, value, value));
    EXPECT(answer.top == top && AT(answer, top, top));
}

/* The longest text is in order up to an offset that two bytes of a word have to count. */
static void typings(void)
{
    const size_t far = SIZE_MAX / 255 * 0xa5 - 1; /* each byte of it is set */
    static uint8_t text[1001];
    size_t i;
    text[0] = '1', text[1] = ' ', text[2] = '2';
    damaged_store(5);
    reads_typed(zelmotar_type(words, WORDS, far, 0, text, 3), 2, 0, 0, far);
    reads_typed(zelmotar_type(words, WORDS - 1, far, 0, text, 3), 1, 0, 0, far);
    symbols(17, 0, 0);
    reads_typed(zelmotar_type(words, WORDS, 17, 16, text, 3), 20, 0, 0, 17);
    reads_typed(zelmotar_type(words, WORDS, 17, far, text, 3), 20, 0, 0, 17);
    reads_typed(zelmotar_type(words, WORDS, 17, 0, text, 2), 23, 0, 2, 17);
    reads_typed(zelmotar_type(words, WORDS, 17, 0, (const uint8_t *)"1 0", 3), 13, 0, 2, 17);
    reads_typed(zelmotar_type(words, WORDS, 17, 0, text, 3), 0, 0, 0, 19);
    for (i = 0; i < 1000; i++)
        text[i] = i % 2 == 0 ? '7' : ' ';
    text[1000] = ')';
    reads_typed(zelmotar_type(words, WORDS, 19, 0, text, 1000), 23, 0, 1000, 19);
    reads_typed(zelmotar_type(words, WORDS, 19, 0, text, 1001), 23, 0, 1000, 19);
    reads_typed(zelmotar_type(words, WORDS, 19, 0, text, 999), 16, 0, 0, 18);
    memset(text, '(', 65);
    reads_typed(zelmotar_type(words, WORDS, 18, 0, text, 65), 21, 0, 64, 18);
}

/* A text in pieces, field by field: by name and by bytes. */
static void reads_pieces(zelmotar_pieces state, zelmotar_pieces expected)
{
    EXPECT(state.stand == expected.stand && AT(state, stand, expected.stand));
    EXPECT(state.code == expected.code && AT(state, code, expected.code));
    EXPECT(state.offset == expected.offset && AT(state, offset, expected.offset));
    EXPECT(state.depth == expected.depth && AT(state, depth, expected.depth));
    EXPECT(state.terms == expected.terms && AT(state, terms, expected.terms));
    EXPECT(state.own == expected.own && AT(state, own, expected.own));
    EXPECT(state.most == expected.most && AT(state, most, expected.most));
    EXPECT(memcmp(state.counts, expected.counts, sizeof expected.counts) == 0 && AT(state, counts, expected.counts));
}

/* What it answers at its end, in the same way. */
static void reads_counted(zelmotar_counted answer, uint32_t status, size_t value, size_t terms, size_t most)
{
    EXPECT(answer.status == status && AT(answer, status, status));
    EXPECT(answer.value == value && AT(answer, counted_value, value));
    EXPECT(answer.terms == terms && AT(answer, counted_terms, terms));
    EXPECT(answer.most == most && AT(answer, counted_most, most));
}

static zelmotar_pieces feed(zelmotar_pieces state, const char *piece)
{
    return zelmotar_text_feed(state, (const uint8_t *)piece, strlen(piece));
}

/* A text with three brackets open and one closed, cut inside a code, and refused at last. */
static void pieces(void)
{
    zelmotar_pieces expected = {0, 0, 0, 0, 0, 0, 0, {0}}, state = zelmotar_text_start();
    reads_pieces(state, expected);
    reads_counted(zelmotar_text_end(state), 0, 0, 0, 0);
    state = feed(state, "1 2 3 4 (5 (6 7) (8 9 10 11 12 (13 12");
    expected.stand = 2, expected.code = 12, expected.offset = 37, expected.depth = 3;
    expected.terms = 18, expected.own = 2, expected.most = 6;
    expected.counts[0] = 5, expected.counts[1] = 3, expected.counts[2] = 6;
    reads_pieces(state, expected);
    reads_counted(zelmotar_text_end(state), 23, 37, 0, 0);
    state = feed(state, "3)");
    expected.stand = 3, expected.code = 0, expected.offset = 39, expected.depth = 2, expected.own = 6;
    reads_pieces(state, expected);
    reads_counted(zelmotar_text_end(feed(state, "))")), 0, 0, 18, 6);
    state = feed(state, " 26843545678");
    expected.stand = 13, expected.offset = 48, expected.terms = 19, expected.own = expected.most = 7;
    reads_pieces(state, expected);
    reads_counted(zelmotar_text_end(state), 13, 48, 0, 0);
}

/* A state whose bytes all differ from those beside them, as it goes in and comes back; and one that goes on, with
 * numbers that two bytes and more have to count. */
static void states(void)
{
    zelmotar_pieces state, kept;
    size_t i;
    for (i = 0; i < sizeof state; i++)
        ((unsigned char *)&state)[i] = (unsigned char)(1 + i % 251);
    kept = state;
    reads_pieces(feed(state, "7"), kept);
    reads_counted(zelmotar_text_end(state), 23, kept.offset, 0, 0);
    reads_pieces(state, kept);
    state = zelmotar_text_start();
    state.stand = 3, state.offset = 0xedcba98765, state.terms = 0xfedc, state.own = 0x1234, state.most = 0xba98;
    reads_counted(zelmotar_text_end(state), 0, 0, 0xfedc, 0xba98);
    state.depth = 1, state.counts[0] = 0x4321, kept = feed(state, ")");
    reads_counted(zelmotar_text_end(kept), 0, 0, 0xfedc, 0xba98);
    state.offset++, state.depth = 0, state.own = 0x4321;
    reads_pieces(kept, state);
}

/* What saving answers, field by field: by name and by bytes. */
static void reads_saved(zelmotar_saved answer, uint32_t status, uint32_t rule, uint32_t value, size_t top,
                        size_t length)
{
    EXPECT(answer.status == status && AT(answer, status, status));
    EXPECT(answer.rule == rule && AT(answer, rule, rule));
    EXPECT(answer.value == value && AT(answer, value, value));
    EXPECT(answer.top == top && AT(answer, top, top));
    EXPECT(answer.length == length && AT(answer, saved_length, length));
}

/* The last store is full, and its file longer than one byte can count. */
static void files(void)
{
    const size_t far = SIZE_MAX / 255 * 0xa5 - 1; /* each byte of it is set */
    static uint8_t file[300];
    damaged_store(5);
    reads_saved(zelmotar_save(words, WORDS, far, file, 300), 2, 0, 0, far, 0);
    reads_saved(zelmotar_save(words, WORDS - 1, far, file, 300), 1, 0, 0, far, 0);
    symbols(21, 17, 18);
    reads(zelmotar_load(words, WORDS, file, put_file(file, words, WORDS, 21)), 34, 0, 0, 0);
    reads_saved(zelmotar_save(words, WORDS, 21, file, 159), 22, 0, 0, 18, 0);
    reads_saved(zelmotar_save(words, WORDS, 18, file, 300), 0, 0, 0, 18, 160);
    reads(zelmotar_load(words, WORDS, file, 160), 0, 0, 0, 18);
    reads(zelmotar_load(words, WORDS, file, 15), 30, 0, 0, 0);
    reads(zelmotar_load(words, WORDS, file, 159), 31, 0, 0, 0);
    reads(zelmotar_load(words, WORDS, file + 1, 159), 32, 0, 0, 0);
    reads(zelmotar_load(words, WORDS - 1, file, 160), 35, 0, 0, 0);
    file[152] = 15; /* the capacity */
    reads(zelmotar_load(words, WORDS, file, 160), 33, 0, 0, 0);
    symbols(32, 16, 31);
    reads_saved(zelmotar_save(words, WORDS, 32, file, 300), 0, 0, 0, 32, 272);
    reads(zelmotar_load(words, WORDS, file, 272), 0, 0, 0, 32);
}

/* A damaged store, by every function that refuses it: all tell the same cell and the same rule. */
static void refusals(uint32_t rule, uint32_t cell)
{
    uint8_t space[300] = {'7'};
    damaged_store(rule);
    reads(zelmotar_check(words, WORDS, 21), 3, rule, cell, 21);
    reads(zelmotar_collect(words, WORDS, 21), 3, rule, cell, 21);
    reads(zelmotar_run(words, WORDS, 21, words, 0, words, 0), 3, rule, cell, 21);
    reads_typed(zelmotar_type(words, WORDS, 21, 0, space, 1), 3, rule, cell, 21);
    reads_text(zelmotar_print(words, WORDS, 21, 0, space, sizeof space), 3, rule, cell, 0);
    reads_saved(zelmotar_save(words, WORDS, 21, space, sizeof space), 3, rule, cell, 21, 0);
}

/* Each rule; and but for the last, whose cell is in no file, that of the file with this cell. */
static void rules(void)
{
    static uint8_t file[300];
    uint32_t rule;
    for (rule = 1; rule < RULES; rule++)
        refusals(rule, damages[rule].cell);
    for (rule = 1; rule < ZELMOTAR_RULE_BEYOND_TOP; rule++) {
        damaged_store(rule);
        reads(zelmotar_load(words, WORDS, file, put_file(file, words, WORDS, 21)), 3, rule, damages[rule].cell, 0);
    }
}

int main(void)
{
    layout();
    layout_of_pieces();
    answers();
    spans();
    texts();
    typings();
    pieces();
    states();
    files();
    rules();
    return expect_end();
}
