/* stress: the twelve functions on random cases, in memory that is exactly as long as what is lent.
 *
 * usage: stress COUNT
 *
 * It is made for valgrind, which sees each byte that is touched outside, and each decision that hangs on a word
 * that nobody wrote: a fresh store, the words for a file and all spaces are lent as malloc gives them. What the check
 * says is held against a second judge of cells (rules.h), what is printed against a second printer (texts.h), what is
 * typed in, word by word, against a second reader and layer (typed.h), what is fed in pieces, field by field, against
 * two judges of such texts (pieces.h), and what is saved and loaded, byte by byte and word by word, against a second
 * writer and reader of files (files.h). What is typed in is printed again, and what is printed is typed in again; what
 * is fed in pieces is typed in as a whole; what is saved is loaded again, and what is loaded is saved again. */
#include "cases.h"
#include "pieces.h"
#include "rules.h"
#include "texts.h"
#include "typed.h"

static struct test_case c;
/* Texts laid in a store as it was, in one that was collected for them, and in one that has room only without what their
 * register held; and those for which there was none, though their register held something. */
static unsigned roomy, collected, replacing, kept;
/* Pieces fed to a text that was refused before. */
static unsigned fed_after;
/* Stores saved from which dead cells went, and files loaded with bytes before their first heap cell. */
static unsigned shrunk, preceded;

/* A list of its own with the given words; malloc's own words if none are given. */
static uint32_t *lend(const uint32_t *words, size_t n)
{
    uint32_t *list = malloc(n * sizeof *list + (n == 0));
    if (list == NULL)
        exit(2);
    if (words != NULL)
        memcpy(list, words, n * sizeof *list);
    return list;
}

/* Bytes of their own, as given; as malloc gives them if none are. */
static uint8_t *lend_bytes(const uint8_t *given, size_t n)
{
    uint8_t *bytes = malloc(n + (n == 0));
    if (bytes == NULL)
        exit(2);
    if (given != NULL)
        memcpy(bytes, given, n);
    return bytes;
}

static void stress_reading(void)
{
    uint32_t *words = lend(c.words, c.words_n);
    zelmotar_reply answer = zelmotar_check(words, c.words_n, c.top);
    zelmotar_span span = zelmotar_look(words, c.words_n, c.top, c.reg);
    EXPECT(same_reply(answer, expected_check(c.words, c.words_n, c.top)));
    EXPECT(memcmp(words, c.words, c.words_n * sizeof *words) == 0);
    rules_met[answer.rule]++;
    EXPECT(span.from <= span.to && span.to <= c.words_n);
    EXPECT(answer.status == ZELMOTAR_DONE || span.to == 0);
    free(words);
}

static void stress_fresh(void)
{
    uint32_t *words = lend(NULL, c.words_n);
    zelmotar_reply answer = zelmotar_fresh(words, c.words_n);
    EXPECT(answer.rule == 0 && answer.value == 0);
    if (answer.status == ZELMOTAR_DONE)
        EXPECT(zelmotar_check(words, c.words_n, answer.top).status == ZELMOTAR_DONE);
    free(words);
}

static void stress_collect(void)
{
    uint32_t *words = lend(c.words, c.words_n);
    zelmotar_reply answer = zelmotar_collect(words, c.words_n, c.top);
    zelmotar_reply checked = expected_check(c.words, c.words_n, c.top);
    if (checked.status == ZELMOTAR_DONE) {
        EXPECT(answer.status == ZELMOTAR_DONE && answer.rule == 0);
        EXPECT(answer.top == answer.value + ZELMOTAR_REGISTERS && answer.top <= c.top);
    } else {
        EXPECT(same_reply(answer, checked) && memcmp(words, c.words, c.words_n * sizeof *words) == 0);
    }
    free(words);
}

/* How the case's batch should be refused, if at all (SCOPE 5.1). */
static zelmotar_reply expected_refusal(void)
{
    zelmotar_reply answer = expected_check(c.words, c.words_n, c.top);
    if (answer.status == ZELMOTAR_DONE && (c.calls_n > ZELMOTAR_MAX_CALL_WORDS || c.calls_n % 4 != 0))
        answer.status = ZELMOTAR_BAD_CALLS;
    else if (answer.status == ZELMOTAR_DONE && c.answers_n < c.calls_n / 4 * 2)
        answer.status = ZELMOTAR_SHORT_ANSWERS;
    return answer;
}

static void stress_run(void)
{
    uint32_t *words = lend(c.words, c.words_n), *calls = lend(c.calls, c.calls_n), *answers = lend(NULL, c.answers_n);
    zelmotar_reply answer = zelmotar_run(words, c.words_n, c.top, calls, c.calls_n, answers, c.answers_n);
    zelmotar_reply refusal = expected_refusal();
    size_t i;
    count(answer, answers, c.calls_n);
    if (refusal.status == ZELMOTAR_DONE) {
        EXPECT(same_reply(answer, reply_of(ZELMOTAR_DONE, answer.top)));
        EXPECT(zelmotar_check(words, c.words_n, answer.top).status == ZELMOTAR_DONE);
        for (i = c.calls_n / 2; i < c.answers_n; i++)
            EXPECT(answers[i] == 0);
    } else {
        EXPECT(same_reply(answer, refusal) && memcmp(words, c.words, c.words_n * sizeof *words) == 0);
    }
    EXPECT(memcmp(calls, c.calls, c.calls_n * sizeof *calls) == 0);
    free(words), free(calls), free(answers);
}

/* A register is printed with these bytes. */
static void expect_printed(const uint32_t *words, size_t n, size_t top, size_t reg, const uint8_t *text, size_t text_n)
{
    uint8_t *space = lend_bytes(NULL, text_n);
    zelmotar_text answer = zelmotar_print(words, n, top, reg, space, text_n);
    EXPECT(answer.status == ZELMOTAR_DONE && answer.length == text_n && memcmp(space, text, text_n) == 0);
    free(space);
}

/* A text that was printed, typed into a fresh store. One of m terms has 2m - 1 bytes at least, so there is room for
 * those of MOST_TEXT bytes. */
static void type_again(const uint8_t *text, size_t text_n)
{
    static uint32_t words[ZELMOTAR_MAX_WORDS];
    zelmotar_reply made = zelmotar_fresh(words, ZELMOTAR_MAX_WORDS);
    zelmotar_typed answer = zelmotar_type(words, ZELMOTAR_MAX_WORDS, made.top, c.reg, text, text_n);
    EXPECT(answer.status == ZELMOTAR_DONE && answer.top == made.top + need_of(text, text_n));
    expect_printed(words, ZELMOTAR_MAX_WORDS, answer.top, c.reg, text, text_n);
}

/* One print into a space of text_n bytes. */
static zelmotar_text stress_print(size_t text_n)
{
    uint32_t *words = lend(c.words, c.words_n);
    uint8_t *text = lend_bytes(NULL, text_n), *expected = lend_bytes(NULL, text_n);
    zelmotar_text answer = zelmotar_print(words, c.words_n, c.top, c.reg, text, text_n);
    EXPECT(same_text(answer, expected_print(c.words, c.words_n, c.top, c.reg, expected, text_n)));
    EXPECT(memcmp(text, expected, text_n) == 0 && memcmp(words, c.words, c.words_n * sizeof *words) == 0);
    met[answer.status]++;
    if (answer.status == ZELMOTAR_DONE)
        type_again(text, answer.length);
    free(words), free(text), free(expected);
    return answer;
}

/* A text that was printed fits into as many bytes as it has, and not into one fewer. */
static void stress_prints(void)
{
    zelmotar_text answer = stress_print(c.text_n);
    if (answer.status == ZELMOTAR_DONE)
        EXPECT(stress_print(answer.length).status == ZELMOTAR_DONE);
    if (answer.length > 0)
        EXPECT(stress_print(answer.length - 1).status == ZELMOTAR_SHORT_SPACE);
}

/* Counts the case's text by where it had room. */
static void count_room(uint32_t status)
{
    size_t need = need_of(c.typed, c.typed_n), cells = c.words_n / 2;
    if (status == ZELMOTAR_NO_ROOM)
        kept += !ZELMOTAR_IS_EMPTY(c.words, c.reg);
    else if (status != ZELMOTAR_DONE)
        return;
    else if (need <= cells - c.top)
        roomy++;
    else if (ZELMOTAR_REGISTERS + reached_without(c.words, c.top, SIZE_MAX) + need <= cells)
        collected++;
    else
        replacing++;
}

/* The case's text typed in: the answer, every word, and the text as it was. What was typed is printed with the same
 * bytes. */
static zelmotar_typed stress_type(void)
{
    uint32_t *words = lend(c.words, c.words_n), *expected = lend(c.words, c.words_n);
    uint8_t *text = lend_bytes(c.typed, c.typed_n);
    zelmotar_typed answer = zelmotar_type(words, c.words_n, c.top, c.reg, text, c.typed_n);
    EXPECT(same_typed(answer, expected_type(expected, c.words_n, c.top, c.reg, c.typed, c.typed_n)));
    EXPECT(memcmp(words, expected, c.words_n * sizeof *words) == 0 && memcmp(text, c.typed, c.typed_n) == 0);
    typed_met[answer.status]++;
    count_room(answer.status);
    if (answer.status == ZELMOTAR_DONE)
        expect_printed(words, c.words_n, answer.top, c.reg, text, c.typed_n);
    free(words), free(expected), free(text);
    return answer;
}

/* A piece of its own, fed to a state: every field, and the piece as it was. The state that was handed in is as it was,
 * and answers at its end what it should. */
static zelmotar_pieces stress_feed(zelmotar_pieces state, const uint8_t *bytes, size_t n)
{
    const zelmotar_pieces before = state;
    uint8_t *piece = lend_bytes(bytes, n);
    zelmotar_pieces next = zelmotar_text_feed(state, piece, n);
    EXPECT(same_pieces(next, expected_feed(before, bytes, n)) && memcmp(piece, bytes, n) == 0);
    EXPECT(same_counted(zelmotar_text_end(state), expected_end(before)) && same_pieces(state, before));
    fed_met[goes_on(&before)]++;
    free(piece);
    return next;
}

/* What a text answers at its end is what the whole judge says, and what comes of it where it is typed into the largest
 * store. */
static void expect_ended(zelmotar_pieces state, const uint8_t *text, size_t text_n)
{
    static uint32_t words[ZELMOTAR_MAX_WORDS], fresh[ZELMOTAR_MAX_WORDS];
    const size_t room = ZELMOTAR_MAX_WORDS / 2 - ZELMOTAR_REGISTERS;
    zelmotar_counted answer = zelmotar_text_end(state);
    zelmotar_typed typed;
    EXPECT(same_counted(answer, expected_counted(text, text_n)));
    ended_met[answer.status]++;
    EXPECT(zelmotar_fresh(words, ZELMOTAR_MAX_WORDS).status == ZELMOTAR_DONE);
    memcpy(fresh, words, sizeof words);
    typed = zelmotar_type(words, ZELMOTAR_MAX_WORDS, ZELMOTAR_REGISTERS, 0, text, text_n);
    if (answer.status == ZELMOTAR_DONE && answer.terms <= room) {
        EXPECT(same_typed(typed, typed_answer(ZELMOTAR_DONE, 0, ZELMOTAR_REGISTERS + answer.terms)));
        return;
    }
    if (answer.status == ZELMOTAR_DONE)
        answer.status = ZELMOTAR_NO_ROOM;
    EXPECT(same_typed(typed, typed_answer(answer.status, answer.value, ZELMOTAR_REGISTERS)));
    EXPECT(memcmp(words, fresh, sizeof words) == 0);
    typed_met[typed.status]++;
}

/* A text fed in pieces of up to so many bytes, none too. Now and then what came so far is judged as a whole. */
static void stress_pieces(const uint8_t *text, size_t text_n, size_t longest)
{
    zelmotar_pieces state = zelmotar_text_start();
    size_t from = 0, n;
    EXPECT(same_counted(zelmotar_text_end(state), counted(ZELMOTAR_DONE, 0, 0, 0)));
    do {
        n = below(longest + 1);
        if (n > text_n - from)
            n = text_n - from;
        fed_after += state.stand > CLOSED && n > 0;
        state = stress_feed(state, text + from, n);
        from += n;
        if (below(16) == 0)
            EXPECT(same_counted(zelmotar_text_end(state), expected_counted(text, from)));
    } while (from < text_n || below(3) == 0);
    expect_ended(state, text, text_n);
}

/* The case's text in pieces, long or short, but none of single bytes where they would be too many; and its state, to
 * which as a rule no text leads, fed a part of the text, at once and cut in two. */
static void stress_fed(void)
{
    static const size_t longest[4] = {MOST_TYPED, 200, 20, 1};
    const uint8_t *part = c.typed + c.piece;
    zelmotar_pieces at_once = stress_feed(c.state, part, c.piece_n);
    size_t cut = below(c.piece_n + 1);
    zelmotar_pieces in_two = stress_feed(stress_feed(c.state, part, cut), part + cut, c.piece_n - cut);
    EXPECT(same_pieces(at_once, in_two) && same_counted(zelmotar_text_end(at_once), expected_end(at_once)));
    stress_pieces(c.typed, c.typed_n, longest[below(c.typed_n < 300 ? 4 : 3)]);
}

/* A file is loaded with these words. */
static void expect_loaded(const uint8_t *file, size_t file_n, const uint32_t *expected, size_t n, size_t top)
{
    uint32_t *words = lend(NULL, n);
    uint8_t *bytes = lend_bytes(file, file_n);
    EXPECT(same_reply(zelmotar_load(words, n, bytes, file_n), reply_of(ZELMOTAR_DONE, top)));
    EXPECT(memcmp(words, expected, n * sizeof *words) == 0);
    free(words), free(bytes);
}

/* The case's store saved to space_n bytes: the answer, every word and every byte. Loaded again it is the same. */
static zelmotar_saved stress_save(size_t space_n)
{
    uint32_t *words = lend(c.words, c.words_n), *expected = lend(c.words, c.words_n);
    uint8_t *space = lend_bytes(NULL, space_n), *written = lend_bytes(NULL, space_n);
    zelmotar_saved answer = zelmotar_save(words, c.words_n, c.top, space, space_n);
    EXPECT(same_saved(answer, expected_save(expected, c.words_n, c.top, written, space_n)));
    EXPECT(memcmp(words, expected, c.words_n * sizeof *words) == 0 && memcmp(space, written, space_n) == 0);
    saved_met[answer.status]++;
    if (answer.status == ZELMOTAR_DONE) {
        shrunk += answer.top < c.top;
        expect_loaded(space, answer.length, words, c.words_n, answer.top);
    }
    free(words), free(expected), free(space), free(written);
    return answer;
}

/* A store that was saved fits into as many bytes as its file has, and not into one fewer. */
static void stress_saves(void)
{
    zelmotar_saved answer = stress_save(c.space_n);
    if (answer.status != ZELMOTAR_DONE)
        return;
    EXPECT(answer.length == ZELMOTAR_FILE_BYTES(answer.top));
    EXPECT(stress_save(answer.length).status == ZELMOTAR_DONE);
    EXPECT(stress_save(answer.length - 1).status == ZELMOTAR_SHORT_SPACE);
}

/* What was loaded is saved with the bytes of the case's file from the first heap cell on, and is collected before. */
static void save_again(const uint32_t *loaded, size_t top)
{
    uint32_t *words = lend(loaded, c.loaded_n);
    size_t length = ZELMOTAR_FILE_BYTES(top);
    uint8_t *space = lend_bytes(NULL, length);
    zelmotar_saved answer = zelmotar_save(words, c.loaded_n, top, space, length);
    EXPECT(answer.status == ZELMOTAR_DONE && answer.top == top && answer.length == length && length <= c.file_n);
    EXPECT(memcmp(space, c.file + (c.file_n - length), length) == 0);
    EXPECT(memcmp(words, loaded, c.loaded_n * sizeof *words) == 0);
    preceded += length < c.file_n;
    free(words), free(space);
}

/* The case's file loaded over words that are of no meaning for it: the answer, every word, and the file as it was. */
static zelmotar_reply stress_load(void)
{
    uint32_t *words = lend(c.words, c.loaded_n), *expected = lend(c.words, c.loaded_n), *unset = lend(NULL, c.loaded_n);
    uint8_t *file = lend_bytes(c.file, c.file_n);
    zelmotar_reply answer = zelmotar_load(words, c.loaded_n, file, c.file_n);
    EXPECT(same_reply(answer, expected_load(expected, c.loaded_n, c.file, c.file_n)));
    EXPECT(memcmp(words, expected, c.loaded_n * sizeof *words) == 0 && memcmp(file, c.file, c.file_n) == 0);
    EXPECT(same_reply(answer, zelmotar_load(unset, c.loaded_n, file, c.file_n)));
    if (answer.status == ZELMOTAR_DONE || answer.status == ZELMOTAR_WRONG_SLICE)
        EXPECT((zelmotar_file_words(file, c.file_n) == c.loaded_n) == (answer.status == ZELMOTAR_DONE));
    loaded_met[answer.status]++, loaded_rules_met[answer.rule]++;
    if (answer.status == ZELMOTAR_DONE)
        save_again(words, answer.top);
    free(words), free(expected), free(unset), free(file);
    return answer;
}

enum { REGISTER, OCCUPIED, FREE, PLACES }; /* the kinds of place that a cell has */

/* How often each rule was broken in each kind of place, one cell after the other; 0 where no cell was damaged. */
static unsigned broken[RULES][PLACES];

/* A store of 24 cells with four symbols, one cell of which is set to these words: what the check says of it, and what
 * comes of its file, which has that cell if it is below `top`. The words lent for the file are as the last one left
 * them. */
static void stress_cell(size_t at, uint32_t first, uint32_t second)
{
    enum { WORDS = 2 * 24, TOP = 20 };
    static uint32_t words[WORDS], loaded[WORDS], expected[WORDS];
    uint8_t file[ZELMOTAR_FILE_BYTES(TOP)];
    zelmotar_reply answer = zelmotar_fresh(words, WORDS);
    EXPECT(zelmotar_type(words, WORDS, answer.top, 0, (const uint8_t *)"7 7 7 7", 7).top == TOP);
    ZELMOTAR_FIRST_WORD(words, at) = first, ZELMOTAR_SECOND_WORD(words, at) = second;
    answer = zelmotar_check(words, WORDS, TOP);
    EXPECT(same_reply(answer, expected_check(words, WORDS, TOP)));
    broken[answer.rule][at < ZELMOTAR_REGISTERS ? REGISTER : at < TOP ? OCCUPIED : FREE]++;
    EXPECT(put_file(file, words, WORDS, TOP) == sizeof file);
    answer = zelmotar_load(loaded, WORDS, file, sizeof file);
    EXPECT(same_reply(answer, expected_load(expected, WORDS, file, sizeof file)));
    EXPECT(memcmp(loaded, expected, sizeof loaded) == 0);
}

/* The words next to every limit, with each set of flags. */
static void stress_words(size_t at)
{
    static const uint32_t firsts[12] = {0, 1, 15, 16, 17, 18, 19, 20, 21, 268435455, 268435456, UINT32_MAX};
    static const uint32_t rights[10] = {0, 1, 15, 16, 17, 18, 19, 20, 21, 268435455};
    uint32_t flags;
    size_t i, j;
    for (i = 0; i < 12; i++)
        for (j = 0; j < 10; j++)
            for (flags = 0; flags < 16; flags++)
                stress_cell(at, firsts[i], flags << 28 | rights[j]);
}

/* The first and the last cell of each kind of place, and one in the heap between them. Each rule is broken wherever it
 * can be, and nowhere else. */
static void stress_cells(void)
{
    static const size_t cells[7] = {0, 15, 16, 18, 19, 20, 23};
    static const unsigned can_be[RULES][PLACES] = {{1, 1, 1}, {1, 1, 1}, {1, 0, 0}, {1, 1, 0},
                                                   {0, 1, 0}, {1, 1, 0}, {0, 0, 1}};
    size_t i, j;
    for (i = 0; i < 7; i++)
        stress_words(cells[i]);
    for (i = 0; i < RULES; i++)
        for (j = 0; j < PLACES; j++)
            EXPECT((broken[i][j] > 0) == can_be[i][j]);
}

/* A text of more than 2^50 bytes: a print that went on after the first byte that it cannot write would not end. */
static void stress_endless(void)
{
    memset(&c, 0, sizeof c);
    c.words_n = 1000, c.top = ZELMOTAR_REGISTERS;
    EXPECT(zelmotar_fresh(c.words, c.words_n).status == ZELMOTAR_DONE);
    twin(&c, 0, 50);
    EXPECT(stress_print(MOST_TEXT).status == ZELMOTAR_SHORT_SPACE);
    nest(&c, 0, 20);
    EXPECT(stress_print(MOST_TEXT).status == ZELMOTAR_TOO_DEEP);
}

/* The most terms that any store has room for, in a fresh one and in the place of as many; one more; and the last byte
 * of that text out of order. The full store is saved, and its file, the longest there is, is loaded. */
static void stress_full(void)
{
    const size_t most = ZELMOTAR_MAX_WORDS / 2 - ZELMOTAR_REGISTERS;
    zelmotar_typed answer;
    memset(&c, 0, sizeof c);
    c.words_n = ZELMOTAR_MAX_WORDS, c.top = ZELMOTAR_REGISTERS;
    EXPECT(zelmotar_fresh(c.words, c.words_n).status == ZELMOTAR_DONE);
    type_byte(&c, '7');
    while (c.typed_n < 2 * most - 1)
        type_byte(&c, ' '), type_byte(&c, '7');
    answer = stress_type();
    EXPECT(answer.status == ZELMOTAR_DONE && answer.top == ZELMOTAR_MAX_WORDS / 2);
    c.top = zelmotar_type(c.words, c.words_n, c.top, c.reg, c.typed, c.typed_n).top;
    answer = stress_type();
    EXPECT(answer.status == ZELMOTAR_DONE && answer.top == ZELMOTAR_MAX_WORDS / 2);
    type_byte(&c, ' '), type_byte(&c, '7');
    EXPECT(stress_type().status == ZELMOTAR_NO_ROOM);
    c.typed[c.typed_n - 1] = ')';
    answer = stress_type();
    EXPECT(answer.status == ZELMOTAR_NOT_TEXT && answer.value == 2 * most);
    EXPECT(stress_save(LONGEST_FILE).status == ZELMOTAR_DONE);
    c.loaded_n = c.words_n, c.file_n = put_file(c.file, c.words, c.words_n, c.top);
    EXPECT(stress_load().status == ZELMOTAR_DONE);
}

/* A text in order again and again, with blanks between, up to so many bytes; one of them is changed as a rule. Gives
 * its length. */
static size_t repeat_text(uint8_t *text, size_t most)
{
    static const char bytes[] = "() 07x";
    size_t length;
    do
        make_text(&c);
    while (c.typed_n == 0 || judge_text(c.typed, c.typed_n).status != ZELMOTAR_DONE);
    memcpy(text, c.typed, c.typed_n);
    for (length = c.typed_n; length + 1 + c.typed_n <= most; length += 1 + c.typed_n)
        text[length] = ' ', memcpy(text + length + 1, c.typed, c.typed_n);
    if (below(4))
        text[below(length)] = (uint8_t)bytes[below(sizeof bytes - 1)];
    return length;
}

/* Texts about as long as those with the most terms, and longer. */
static void stress_long(void)
{
    static uint8_t text[8 * ZELMOTAR_MAX_TERMS];
    static const size_t longest[3] = {3000, 40000, sizeof text};
    size_t round, length;
    for (round = 0; round < 30; round++) {
        length = repeat_text(text, sizeof text / 16 * (1 + below(16)));
        stress_pieces(text, length, longest[round % 3]);
    }
}

int main(int count_given, char **list)
{
    long left = count_given == 2 ? atol(list[1]) : 0;
    if (left <= 0) {
        fprintf(stderr, "usage: stress COUNT\n");
        return 2;
    }
    stress_cells();
    stress_endless();
    stress_full();
    stress_long();
    for (; left > 0; left--) {
        make_case(&c);
        stress_reading();
        stress_fresh();
        stress_collect();
        stress_run();
        stress_prints();
        (void)stress_type();
        stress_fed();
        stress_saves();
        (void)stress_load();
    }
    expect_all_met();
    EXPECT(roomy > 0 && collected > 0 && replacing > 0 && kept > 0);
    EXPECT(shrunk > 0 && preceded > 0 && fed_after > 0);
    return expect_end();
}
