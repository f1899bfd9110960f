/* numbers: every number of zelmotar.h, held against what the library does with it.
 *
 * usage: numbers VERSION, where VERSION is the Rust package's, as 0.3.0
 *
 * tools/header-test changes each number by one and sees this test fail. So a status is not only compared with
 * what a call answers: each operation has an effect here that no other has, each limit passes and fails one
 * step beyond, each rule is broken alone and beside others, and each macro is used on a cell that the library wrote. */
#include <string.h>

#include "expect.h"
#include "zelmotar.h"

#define CELLS 100

static uint32_t words[ZELMOTAR_MAX_WORDS + 4], calls[ZELMOTAR_MAX_CALL_WORDS + 8];
static uint32_t answers[ZELMOTAR_MAX_CALL_WORDS + 8];
static size_t top;
static uint32_t value;     /* of the last call */
static size_t terms, most; /* of the last text that was fed */
static uint8_t text[4 * ZELMOTAR_MAX_DEPTH];
static uint8_t file[20 * CELLS];
static size_t length; /* of the last file that was saved */

/* Runs one call and gives its status. */
static uint32_t call(uint32_t operation, uint32_t d, uint32_t a, uint32_t b)
{
    uint32_t list[4], told[2] = {99, 99};
    zelmotar_reply answer;
    list[0] = operation, list[1] = d, list[2] = a, list[3] = b;
    answer = zelmotar_run(words, 2 * CELLS, top, list, 4, told, 2);
    EXPECT(answer.status == 0 && answer.rule == 0 && answer.value == 0);
    top = answer.top;
    value = told[1];
    return told[0];
}

static void start(void)
{
    zelmotar_reply answer = zelmotar_fresh(words, 2 * CELLS);
    EXPECT(answer.status == ZELMOTAR_DONE);
    top = answer.top;
}

/* Whether register d holds exactly the cells l to r. */
static int holds(size_t d, size_t l, size_t r)
{
    zelmotar_span span = zelmotar_look(words, 2 * CELLS, top, d);
    return span.from == 2 * l && span.to == 2 * r + 2;
}

/* Each operation by an effect that only it has. Register 0 is never empty, so that no word that is read as
 * register 0 passes unseen. */
static void operations(void)
{
    start();
    EXPECT(call(ZELMOTAR_SYMBOL, 0, 9, 0) == 0 && holds(0, 16, 16) && words[32] == 9 && words[33] == 0);
    EXPECT(call(ZELMOTAR_SYMBOL, 1, 65, 0) == 0 && holds(1, 17, 17));
    EXPECT(call(ZELMOTAR_WRAP, 3, 1, 0) == 0 && holds(3, 18, 18) && words[36] == 17);
    EXPECT(call(ZELMOTAR_JOIN, 4, 3, 0) == 0 && holds(4, 19, 20) && words[38] == 17 && words[40] == 9);
    EXPECT(call(ZELMOTAR_COPY, 2, 4, 0) == 0 && holds(2, 19, 20) && top == 21);
    EXPECT(call(ZELMOTAR_HEAD, 5, 4, 0) == 0 && holds(5, 19, 19) && top == 21);
    EXPECT(call(ZELMOTAR_REST, 6, 4, 0) == 0 && holds(6, 20, 20) && top == 21);
    EXPECT(call(ZELMOTAR_OPEN, 7, 4, 0) == 0 && holds(7, 17, 17) && top == 21);
    EXPECT(call(ZELMOTAR_LENGTH, 0, 4, 0) == 0 && value == 2);
    EXPECT(call(ZELMOTAR_FIRST, 0, 1, 0) == 0 && value == 65);
    EXPECT(call(ZELMOTAR_CLEAR, 3, 0, 0) == 0 && holds(4, 19, 20) && words[6] == 0);
    EXPECT(call(ZELMOTAR_LIVE, 0, 0, 0) == 0 && value == 4 && top == 21);
    EXPECT(call(ZELMOTAR_COLLECT, 0, 0, 0) == 0 && value == 4 && top == 20);
}

/* Each status of one call, in a store with no cell to spare. */
static void statuses_of_a_call(void)
{
    uint32_t n;
    start();
    EXPECT(call(ZELMOTAR_CLEAR, 0, 0, 0) == ZELMOTAR_DONE);
    EXPECT(call(12, 99, 0, 0) == ZELMOTAR_BAD_OPERATION);
    EXPECT(call(ZELMOTAR_CLEAR, ZELMOTAR_REGISTERS, 0, 0) == ZELMOTAR_BAD_REGISTER);
    EXPECT(call(ZELMOTAR_CLEAR, ZELMOTAR_REGISTERS - 1, 0, 0) == ZELMOTAR_DONE);
    EXPECT(call(ZELMOTAR_CLEAR, 0, 1, 0) == ZELMOTAR_STRAY_WORD);
    EXPECT(call(ZELMOTAR_SYMBOL, 0, ZELMOTAR_MAX_CODE + 1, 0) == ZELMOTAR_BAD_CODE);
    EXPECT(call(ZELMOTAR_SYMBOL, 0, ZELMOTAR_MAX_CODE, 0) == ZELMOTAR_DONE);
    EXPECT(call(ZELMOTAR_SYMBOL, 0, ZELMOTAR_MIN_CODE - 1, 0) == ZELMOTAR_BAD_CODE);
    EXPECT(call(ZELMOTAR_SYMBOL, 0, ZELMOTAR_MIN_CODE, 0) == ZELMOTAR_DONE);
    EXPECT(call(ZELMOTAR_HEAD, 1, 1, 0) == ZELMOTAR_EMPTY);
    EXPECT(call(ZELMOTAR_OPEN, 1, 0, 0) == ZELMOTAR_WRONG_KIND);
    for (n = 0; n < CELLS - ZELMOTAR_REGISTERS - 1; n++)
        EXPECT(call(ZELMOTAR_WRAP, 0, 0, 0) == ZELMOTAR_DONE);
    EXPECT(call(ZELMOTAR_WRAP, 0, 0, 0) == ZELMOTAR_NO_ROOM);
}

/* Each status of a whole request, with its value, and `top` as it came. */
static void statuses_of_a_request(void)
{
    zelmotar_reply answer;
    start();
    EXPECT(zelmotar_check(words, 2 * CELLS, top).status == ZELMOTAR_DONE);
    EXPECT(zelmotar_check(words, 2 * CELLS + 1, top).status == ZELMOTAR_BAD_LENGTH);
    EXPECT(zelmotar_check(words, 2 * CELLS, CELLS + 1).status == ZELMOTAR_BAD_TOP);
    EXPECT(zelmotar_run(words, 2 * CELLS, top, calls, 3, answers, 2).status == ZELMOTAR_BAD_CALLS);
    EXPECT(zelmotar_run(words, 2 * CELLS, top, calls, 4, answers, 1).status == ZELMOTAR_SHORT_ANSWERS);
    EXPECT(call(ZELMOTAR_SYMBOL, 0, ZELMOTAR_MIN_CODE, 0) == ZELMOTAR_DONE && words[32] == ZELMOTAR_MIN_CODE);
    words[32] = ZELMOTAR_MIN_CODE - 1;
    answer = zelmotar_check(words, 2 * CELLS, top);
    EXPECT(answer.status == ZELMOTAR_DAMAGED && answer.value == ZELMOTAR_REGISTERS && answer.top == top);
    EXPECT(answer.rule == ZELMOTAR_RULE_BAD_SYMBOL);
    ZELMOTAR_FIRST_WORD(words, 7) = 1;
    answer = zelmotar_check(words, 2 * CELLS, top);
    EXPECT(answer.status == ZELMOTAR_DAMAGED && answer.value == 7 && answer.top == top);
    EXPECT(answer.rule == ZELMOTAR_RULE_BAD_EMPTY);
}

/* Prints a register into text_n bytes and gives the status. */
static uint32_t print(size_t reg, size_t text_n)
{
    zelmotar_text answer = zelmotar_print(words, 2 * CELLS, top, reg, text, text_n);
    EXPECT(answer.rule == 0 && answer.value == 0 && (answer.status == 0 || answer.length == 0));
    return answer.status;
}

/* Each status of a print, and the depth that it goes to and no farther. */
static void statuses_of_a_print(void)
{
    uint32_t n;
    start();
    EXPECT(print(ZELMOTAR_REGISTERS, sizeof text) == ZELMOTAR_NO_REGISTER);
    EXPECT(print(ZELMOTAR_REGISTERS - 1, sizeof text) == ZELMOTAR_DONE);
    for (n = 0; n < ZELMOTAR_MAX_DEPTH; n++)
        EXPECT(call(ZELMOTAR_WRAP, 0, 0, 0) == ZELMOTAR_DONE);
    EXPECT(print(0, 2 * ZELMOTAR_MAX_DEPTH) == ZELMOTAR_DONE);
    EXPECT(print(0, 2 * ZELMOTAR_MAX_DEPTH - 1) == ZELMOTAR_SHORT_SPACE);
    EXPECT(call(ZELMOTAR_WRAP, 0, 0, 0) == ZELMOTAR_DONE);
    EXPECT(print(0, sizeof text) == ZELMOTAR_TOO_DEEP);
}

/* Types a text into a register and gives the status. */
static uint32_t type(size_t reg, const char *typed)
{
    zelmotar_typed answer = zelmotar_type(words, 2 * CELLS, top, reg, (const uint8_t *)typed, strlen(typed));
    EXPECT(answer.rule == 0);
    top = answer.top;
    value = (uint32_t)answer.value;
    return answer.status;
}

/* Each status of a register typed in, with the offset where there is one: the least code, the largest and the deepest
 * bracket are in order, and one less or more is not. */
static void statuses_of_typing(void)
{
    char typed[2 * ZELMOTAR_MAX_DEPTH + 2] = "";
    size_t n;
    start();
    EXPECT(type(ZELMOTAR_REGISTERS, "x") == ZELMOTAR_NO_REGISTER && value == 0);
    EXPECT(type(ZELMOTAR_REGISTERS - 1, "x") == ZELMOTAR_NOT_TEXT && value == 0);
    EXPECT(type(ZELMOTAR_REGISTERS - 1, "(7 ") == ZELMOTAR_NOT_TEXT && value == 3 && top == ZELMOTAR_REGISTERS);
    snprintf(typed, sizeof typed, "7 %lu", (unsigned long)ZELMOTAR_MAX_CODE + 1);
    EXPECT(type(0, typed) == ZELMOTAR_BAD_CODE && value == strlen(typed) - 1 && top == ZELMOTAR_REGISTERS);
    snprintf(typed, sizeof typed, "7 %lu", (unsigned long)ZELMOTAR_MIN_CODE - 1);
    EXPECT(type(0, typed) == ZELMOTAR_BAD_CODE && value == 2 && top == ZELMOTAR_REGISTERS);
    snprintf(typed, sizeof typed, "7 %lu", (unsigned long)ZELMOTAR_MAX_CODE);
    EXPECT(type(0, typed) == ZELMOTAR_DONE && value == 0 && holds(0, 16, 17) && words[34] == ZELMOTAR_MAX_CODE);
    memset(typed, '(', ZELMOTAR_MAX_DEPTH), memset(typed + ZELMOTAR_MAX_DEPTH, ')', ZELMOTAR_MAX_DEPTH);
    typed[2 * ZELMOTAR_MAX_DEPTH] = '\0';
    EXPECT(type(1, typed) == ZELMOTAR_DONE && top == 18 + ZELMOTAR_MAX_DEPTH && holds(1, top - 1, top - 1));
    EXPECT(type(1, typed) == ZELMOTAR_DONE && top == 18 + ZELMOTAR_MAX_DEPTH && holds(1, top - 1, top - 1));
    EXPECT(type(2, typed) == ZELMOTAR_NO_ROOM && value == 0 && top == 18 + ZELMOTAR_MAX_DEPTH);
    memset(typed, '(', sizeof typed - 1);
    EXPECT(type(1, typed) == ZELMOTAR_TOO_DEEP && value == ZELMOTAR_MAX_DEPTH);
    for (n = 0; n < ZELMOTAR_REGISTERS; n++)
        EXPECT(type(n, "") == ZELMOTAR_DONE && ZELMOTAR_IS_EMPTY(words, n));
}

/* So many terms, as a string. */
static const char *terms_of(size_t count)
{
    static char typed[2 * (ZELMOTAR_MAX_TERMS + 2)];
    size_t i;
    for (i = 0; i < 2 * count; i++)
        typed[i] = i % 2 == 0 ? '7' : ' ';
    typed[2 * count - 1] = '\0';
    return typed;
}

/* Feeds a text in two pieces, the first of them so long, and gives the status at its end. */
static uint32_t feed(const char *typed, size_t first)
{
    const uint8_t *bytes = (const uint8_t *)typed;
    zelmotar_pieces state = zelmotar_text_feed(zelmotar_text_start(), bytes, first);
    zelmotar_counted answer = zelmotar_text_end(zelmotar_text_feed(state, bytes + first, strlen(typed) - first));
    EXPECT(answer.status == ZELMOTAR_DONE ? answer.value == 0 : answer.terms == 0 && answer.most == 0);
    value = (uint32_t)answer.value;
    terms = answer.terms, most = answer.most;
    return answer.status;
}

/* Each status of a text in pieces, and the most terms that a text has, in pieces and typed in: as many are in order,
 * though no store has room for them, and one more is not. */
static void statuses_of_pieces(void)
{
    char typed[2 * ZELMOTAR_MAX_DEPTH + 2] = "";
    start();
    EXPECT(feed("7 (8 9) ()", 4) == ZELMOTAR_DONE && terms == 5 && most == 3);
    EXPECT(feed("7 (8 9) ", 4) == ZELMOTAR_NOT_TEXT && value == 8);
    snprintf(typed, sizeof typed, "7 %lu", (unsigned long)ZELMOTAR_MAX_CODE);
    EXPECT(feed(typed, 4) == ZELMOTAR_DONE && terms == 2 && most == 2);
    snprintf(typed, sizeof typed, "7 %lu", (unsigned long)ZELMOTAR_MAX_CODE + 1);
    EXPECT(feed(typed, 4) == ZELMOTAR_BAD_CODE && value == strlen(typed) - 1);
    EXPECT(feed("7 0", 2) == ZELMOTAR_BAD_CODE && value == 2);
    memset(typed, '(', ZELMOTAR_MAX_DEPTH), memset(typed + ZELMOTAR_MAX_DEPTH, ')', ZELMOTAR_MAX_DEPTH);
    typed[2 * ZELMOTAR_MAX_DEPTH] = '\0';
    EXPECT(feed(typed, 4) == ZELMOTAR_DONE && terms == ZELMOTAR_MAX_DEPTH && most == 1);
    memset(typed, '(', sizeof typed - 1);
    EXPECT(feed(typed, 4) == ZELMOTAR_TOO_DEEP && value == ZELMOTAR_MAX_DEPTH);
    EXPECT(feed(terms_of(ZELMOTAR_MAX_TERMS), 4) == ZELMOTAR_DONE);
    EXPECT(terms == ZELMOTAR_MAX_TERMS && most == ZELMOTAR_MAX_TERMS);
    EXPECT(type(0, terms_of(ZELMOTAR_MAX_TERMS)) == ZELMOTAR_NO_ROOM && value == 0);
    EXPECT(feed(terms_of(ZELMOTAR_MAX_TERMS + 1), 4) == ZELMOTAR_TOO_MANY_TERMS && value == 2 * ZELMOTAR_MAX_TERMS);
    EXPECT(type(0, terms_of(ZELMOTAR_MAX_TERMS + 1)) == ZELMOTAR_TOO_MANY_TERMS && value == 2 * ZELMOTAR_MAX_TERMS);
}

/* Saves the store to so many bytes and gives the status. */
static uint32_t save(size_t file_n)
{
    zelmotar_saved answer = zelmotar_save(words, 2 * CELLS, top, file, file_n);
    EXPECT(answer.rule == 0 && answer.value == 0 && (answer.status == 0 || answer.length == 0));
    top = answer.top, length = answer.length;
    return answer.status;
}

/* A store saved to as many bytes as its file has, and to one fewer. The file of an empty store has 144 bytes; each cell
 * takes eight more. */
static void statuses_of_saving(void)
{
    start();
    EXPECT(save(ZELMOTAR_FILE_BYTES(ZELMOTAR_REGISTERS)) == ZELMOTAR_DONE && length == 144);
    EXPECT(length == ZELMOTAR_FILE_BYTES(ZELMOTAR_REGISTERS) && file[length - 4] == ZELMOTAR_EDITION);
    EXPECT(save(ZELMOTAR_FILE_BYTES(ZELMOTAR_REGISTERS) - 1) == ZELMOTAR_SHORT_SPACE && top == ZELMOTAR_REGISTERS);
    EXPECT(type(0, "7 7 7 7 7") == ZELMOTAR_DONE && type(0, "7 7 7") == ZELMOTAR_DONE);
    EXPECT(save(ZELMOTAR_FILE_BYTES(top)) == ZELMOTAR_DONE && top == ZELMOTAR_REGISTERS + 3 && length == 168);
    EXPECT(length == ZELMOTAR_FILE_BYTES(ZELMOTAR_REGISTERS + 3));
    ZELMOTAR_FIRST_WORD(words, 7) = 1;
    EXPECT(zelmotar_save(words, 2 * CELLS, top, file, sizeof file).status == ZELMOTAR_DAMAGED);
    EXPECT(zelmotar_save(words, 2 * CELLS, CELLS + 1, file, sizeof file).status == ZELMOTAR_BAD_TOP);
    EXPECT(zelmotar_save(words, 2 * CELLS + 1, top, file, sizeof file).status == ZELMOTAR_BAD_LENGTH);
}

/* Loads the last file that was saved, less its first bytes, with word i of it exchanged for another; from the end for a
 * negative one. Gives the status. */
static uint32_t load_with(long i, uint32_t word, size_t less)
{
    uint8_t *at = file + (i < 0 ? length : 0) + 4 * i, kept[4];
    zelmotar_reply answer;
    int k;
    memcpy(kept, at, sizeof kept);
    for (k = 0; k < 4; k++)
        at[k] = (uint8_t)(word >> 8 * k);
    answer = zelmotar_load(words, 2 * CELLS, file + less, length - less);
    memcpy(at, kept, sizeof kept);
    EXPECT(answer.status == ZELMOTAR_DONE ? answer.top == top : answer.top == 0);
    EXPECT(answer.value == (answer.status == ZELMOTAR_DAMAGED ? ZELMOTAR_REGISTERS : 0));
    EXPECT(answer.rule == (answer.status == ZELMOTAR_DAMAGED ? ZELMOTAR_RULE_BAD_SYMBOL : 0));
    return answer.status;
}

/* Each status of a file loaded, by one word of the trailer or of the first of three heap cells. */
static void statuses_of_loading(void)
{
    start();
    EXPECT(type(0, "7 8 9") == ZELMOTAR_DONE && save(sizeof file) == ZELMOTAR_DONE);
    EXPECT(load_with(-1, ZELMOTAR_EDITION, 0) == ZELMOTAR_DONE);
    EXPECT(load_with(-1, ZELMOTAR_EDITION, length - ZELMOTAR_TRAILER_BYTES + 1) == ZELMOTAR_SHORT_FILE);
    EXPECT(load_with(-1, ZELMOTAR_EDITION, length - ZELMOTAR_TRAILER_BYTES) == ZELMOTAR_BAD_DISTANCE);
    EXPECT(load_with(-1, ZELMOTAR_EDITION + 1, 0) == ZELMOTAR_BAD_EDITION);
    EXPECT(load_with(-2, ZELMOTAR_MAX_WORDS / 2 + 1, 0) == ZELMOTAR_BAD_CAPACITY);
    EXPECT(load_with(-2, ZELMOTAR_MAX_WORDS / 2, 0) == ZELMOTAR_WRONG_SLICE);
    EXPECT(load_with(-2, ZELMOTAR_REGISTERS + 3, 0) == ZELMOTAR_WRONG_SLICE);
    EXPECT(load_with(-2, ZELMOTAR_REGISTERS + 2, 0) == ZELMOTAR_BAD_CAPACITY);
    EXPECT(load_with(-3, 4, 0) == ZELMOTAR_BAD_DISTANCE);
    EXPECT(load_with(0, ZELMOTAR_MAX_CODE, 0) == ZELMOTAR_DONE && words[32] == ZELMOTAR_MAX_CODE);
    EXPECT(load_with(0, ZELMOTAR_MAX_CODE + 1, 0) == ZELMOTAR_DAMAGED);
    EXPECT(load_with(0, ZELMOTAR_MIN_CODE, 0) == ZELMOTAR_DONE && words[32] == ZELMOTAR_MIN_CODE);
    EXPECT(load_with(0, ZELMOTAR_MIN_CODE - 1, 0) == ZELMOTAR_DAMAGED);
    EXPECT(load_with(6, ZELMOTAR_REGISTERS + 1, 0) == ZELMOTAR_NOT_COLLECTED);
}

/* The words to be lent for a file that ends with a trailer of this capacity. */
static size_t words_for(uint32_t capacity)
{
    static const uint8_t rest[12] = {144, 0, 0, 0, 0, 0, 0, 0, 0, 0, 0, 0};
    uint8_t last[20] = {0xff, 0xff, 0xff, 0xff};
    int k;
    memcpy(last + 4, rest, sizeof rest);
    for (k = 0; k < 4; k++)
        last[12 + k] = (uint8_t)(capacity >> 8 * k);
    last[16] = ZELMOTAR_EDITION;
    return zelmotar_file_words(last, sizeof last);
}

static void words_for_files(void)
{
    static const uint8_t full[16] = {144, 0, 0, 0, 0, 0, 0, 0, 20, 0, 0, 0, 1};
    EXPECT(words_for(20) == 40 && words_for(0) == 0 && words_for(258) == 516);
    EXPECT(words_for(ZELMOTAR_MAX_WORDS / 2) == ZELMOTAR_MAX_WORDS && words_for(ZELMOTAR_MAX_WORDS / 2 + 1) == 0);
    EXPECT(words_for(0x00010014) == 0 && words_for(0x01000014) == 0 && words_for(0xffffffffu) == 0);
    EXPECT(zelmotar_file_words(full, 16) == 40 && zelmotar_file_words(full, 15) == 0);
    EXPECT(zelmotar_file_words(full, 0) == 0);
}

static void limits(void)
{
    EXPECT(zelmotar_fresh(words, ZELMOTAR_MIN_WORDS).status == 0);
    EXPECT(zelmotar_fresh(words, ZELMOTAR_MIN_WORDS).top == ZELMOTAR_REGISTERS);
    EXPECT(zelmotar_fresh(words, ZELMOTAR_MIN_WORDS - 2).status == 1);
    EXPECT(zelmotar_fresh(words, ZELMOTAR_MAX_WORDS).status == 0);
    EXPECT(zelmotar_fresh(words, ZELMOTAR_MAX_WORDS + 2).status == 1);
    start();
    memset(calls, 0, sizeof calls);
    EXPECT(zelmotar_run(words, 2 * CELLS, top, calls, ZELMOTAR_MAX_CALL_WORDS, answers,
                        ZELMOTAR_MAX_CALL_WORDS / 2).status == 0);
    EXPECT(zelmotar_run(words, 2 * CELLS, top, calls, ZELMOTAR_MAX_CALL_WORDS + 4, answers,
                        ZELMOTAR_MAX_CALL_WORDS).status == 4);
}

/* The bits of a second word: each where SCOPE 1.2 has it, together all of the word. */
static void masks(void)
{
    EXPECT(ZELMOTAR_BRACKET == (uint32_t)1 << 31);
    EXPECT(ZELMOTAR_USED == (uint32_t)1 << 30);
    EXPECT(ZELMOTAR_LEFT_CHAIN == (uint32_t)1 << 29);
    EXPECT(ZELMOTAR_RIGHT_CHAIN == (uint32_t)1 << 28);
    EXPECT((uint64_t)ZELMOTAR_BRACKET + ZELMOTAR_USED + ZELMOTAR_LEFT_CHAIN + ZELMOTAR_RIGHT_CHAIN +
               ZELMOTAR_RIGHT_END == 0xffffffffu);
}

/* Puts two words into cell c. */
static void put(size_t c, const uint32_t cell[2])
{
    ZELMOTAR_FIRST_WORD(words, c) = cell[0];
    ZELMOTAR_SECOND_WORD(words, c) = cell[1];
}

/* Cells that the library wrote, taken apart. */
static void cells_taken_apart(void)
{
    start();
    EXPECT(ZELMOTAR_FIRST_WORD(words, 15) == words[30] && ZELMOTAR_SECOND_WORD(words, 15) == words[31]);
    EXPECT(ZELMOTAR_IS_BRACKET(words, 0) && ZELMOTAR_IS_EMPTY(words, 0) && !ZELMOTAR_IS_SYMBOL(words, 0));
    EXPECT(call(ZELMOTAR_SYMBOL, 0, 65, 0) == 0 && call(ZELMOTAR_WRAP, 1, 0, 0) == 0);
    EXPECT(call(ZELMOTAR_JOIN, 2, 0, 1) == 0 && call(ZELMOTAR_WRAP, 3, 2, 0) == 0);
    EXPECT(ZELMOTAR_IS_SYMBOL(words, 16) && !ZELMOTAR_IS_BRACKET(words, 16) && !ZELMOTAR_IS_EMPTY(words, 16));
    EXPECT(ZELMOTAR_CODE(words, 16) == 65);
    EXPECT(ZELMOTAR_IS_BRACKET(words, 17) && !ZELMOTAR_IS_EMPTY(words, 17) && !ZELMOTAR_IS_SYMBOL(words, 17));
    EXPECT(ZELMOTAR_LEFT(words, 17) == 16 && ZELMOTAR_RIGHT(words, 17) == 16);
    EXPECT(ZELMOTAR_LEFT(words, 20) == 18 && ZELMOTAR_RIGHT(words, 20) == 19);
}

/* A store of made cells, which the library finds sound and takes apart; and one with each stray bit. */
static void cells_made(void)
{
    const uint32_t symbol[2] = {ZELMOTAR_SYMBOL_CELL(66)}, hollow[2] = {ZELMOTAR_EMPTY_CELL};
    const uint32_t bracket[2] = {ZELMOTAR_BRACKET_CELL(16, 17)}, holder[2] = {ZELMOTAR_BRACKET_CELL(18, 18)};
    const uint32_t stray[3] = {ZELMOTAR_USED, ZELMOTAR_LEFT_CHAIN, ZELMOTAR_RIGHT_CHAIN};
    zelmotar_reply answer;
    int i;
    start();
    put(16, symbol), put(17, hollow), put(18, bracket), put(0, holder);
    top = 19;
    EXPECT(zelmotar_check(words, 2 * CELLS, top).status == 0);
    EXPECT(call(ZELMOTAR_OPEN, 1, 0, 0) == 0 && holds(1, 16, 17));
    EXPECT(call(ZELMOTAR_LENGTH, 0, 1, 0) == 0 && value == 2);
    EXPECT(call(ZELMOTAR_FIRST, 0, 1, 0) == 0 && value == 66);
    for (i = 0; i < 3; i++) {
        put(18, bracket);
        ZELMOTAR_SECOND_WORD(words, 18) |= stray[i];
        answer = zelmotar_check(words, 2 * CELLS, top);
        EXPECT(answer.status == 3 && answer.rule == ZELMOTAR_RULE_STRAY_BIT && answer.value == 18);
    }
}

/* A store whose registers 0 and 1 hold the symbols in cells 16 to 18 and the bracket in cell 19 around them, with one
 * cell set to these words. Gives the rule that the check tells of it, or 0 where the store is still sound. */
static uint32_t rule_with(size_t c, uint32_t first, uint32_t second)
{
    zelmotar_reply answer;
    start();
    EXPECT(type(0, "7 8 9") == ZELMOTAR_DONE && call(ZELMOTAR_WRAP, 1, 0, 0) == ZELMOTAR_DONE && top == 20);
    ZELMOTAR_FIRST_WORD(words, c) = first, ZELMOTAR_SECOND_WORD(words, c) = second;
    answer = zelmotar_check(words, 2 * CELLS, top);
    EXPECT(answer.status == (answer.rule == 0 ? ZELMOTAR_DONE : ZELMOTAR_DAMAGED));
    EXPECT(answer.value == (answer.rule == 0 ? 0 : c) && answer.top == top);
    return answer.rule;
}

/* Words of a register: those next to the limits of each rule, and one step beyond. */
static void rules_of_a_register(void)
{
    EXPECT(rule_with(0, ZELMOTAR_EMPTY_CELL) == 0);
    EXPECT(rule_with(15, ZELMOTAR_BRACKET_CELL(16, 16)) == 0 && rule_with(15, ZELMOTAR_BRACKET_CELL(16, 19)) == 0);
    EXPECT(rule_with(0, 0, ZELMOTAR_BRACKET | ZELMOTAR_USED) == ZELMOTAR_RULE_STRAY_BIT);
    EXPECT(rule_with(7, 16, ZELMOTAR_BRACKET | ZELMOTAR_LEFT_CHAIN | 19) == ZELMOTAR_RULE_STRAY_BIT);
    EXPECT(rule_with(15, 16, ZELMOTAR_BRACKET | ZELMOTAR_RIGHT_CHAIN | 19) == ZELMOTAR_RULE_STRAY_BIT);
    EXPECT(rule_with(0, ZELMOTAR_SYMBOL_CELL(7)) == ZELMOTAR_RULE_NOT_BRACKET);
    EXPECT(rule_with(15, 16, 19) == ZELMOTAR_RULE_NOT_BRACKET);
    EXPECT(rule_with(15, 1, ZELMOTAR_BRACKET) == ZELMOTAR_RULE_BAD_EMPTY);
    EXPECT(rule_with(15, ZELMOTAR_BRACKET_CELL(15, 16)) == ZELMOTAR_RULE_BAD_ENDS);
    EXPECT(rule_with(15, ZELMOTAR_BRACKET_CELL(18, 17)) == ZELMOTAR_RULE_BAD_ENDS);
    EXPECT(rule_with(15, ZELMOTAR_BRACKET_CELL(16, 20)) == ZELMOTAR_RULE_BAD_ENDS);
    EXPECT(rule_with(0, ZELMOTAR_BRACKET_CELL(0, 1)) == ZELMOTAR_RULE_BAD_ENDS);
}

static void rules_of_an_occupied_cell(void)
{
    EXPECT(rule_with(16, ZELMOTAR_EMPTY_CELL) == 0 && rule_with(19, ZELMOTAR_BRACKET_CELL(16, 18)) == 0);
    EXPECT(rule_with(16, ZELMOTAR_SYMBOL_CELL(ZELMOTAR_MIN_CODE)) == 0);
    EXPECT(rule_with(19, ZELMOTAR_SYMBOL_CELL(ZELMOTAR_MAX_CODE)) == 0);
    EXPECT(rule_with(16, 0, ZELMOTAR_BRACKET | ZELMOTAR_USED) == ZELMOTAR_RULE_STRAY_BIT);
    EXPECT(rule_with(18, 16, ZELMOTAR_BRACKET | ZELMOTAR_LEFT_CHAIN | 17) == ZELMOTAR_RULE_STRAY_BIT);
    EXPECT(rule_with(19, 16, ZELMOTAR_BRACKET | ZELMOTAR_RIGHT_CHAIN | 18) == ZELMOTAR_RULE_STRAY_BIT);
    EXPECT(rule_with(16, 1, ZELMOTAR_BRACKET) == ZELMOTAR_RULE_BAD_EMPTY);
    EXPECT(rule_with(16, 0, 0) == ZELMOTAR_RULE_BAD_SYMBOL && rule_with(19, 0, 0) == ZELMOTAR_RULE_BAD_SYMBOL);
    EXPECT(rule_with(16, ZELMOTAR_SYMBOL_CELL(ZELMOTAR_MAX_CODE + 1)) == ZELMOTAR_RULE_BAD_SYMBOL);
    EXPECT(rule_with(16, 65, 1) == ZELMOTAR_RULE_BAD_SYMBOL && rule_with(19, 16, 18) == ZELMOTAR_RULE_BAD_SYMBOL);
    EXPECT(rule_with(19, ZELMOTAR_BRACKET_CELL(15, 18)) == ZELMOTAR_RULE_BAD_ENDS);
    EXPECT(rule_with(19, ZELMOTAR_BRACKET_CELL(18, 17)) == ZELMOTAR_RULE_BAD_ENDS);
    EXPECT(rule_with(18, ZELMOTAR_BRACKET_CELL(16, 18)) == ZELMOTAR_RULE_BAD_ENDS);
    EXPECT(rule_with(16, ZELMOTAR_BRACKET_CELL(0, 1)) == ZELMOTAR_RULE_BAD_ENDS);
}

/* What a cell below `top` may hold, a free cell may not. */
static void rules_of_a_free_cell(void)
{
    EXPECT(rule_with(20, 0, 0) == 0 && rule_with(CELLS - 1, 0, 0) == 0);
    EXPECT(rule_with(20, 0, ZELMOTAR_USED) == ZELMOTAR_RULE_STRAY_BIT);
    EXPECT(rule_with(20, 0, ZELMOTAR_LEFT_CHAIN) == ZELMOTAR_RULE_STRAY_BIT);
    EXPECT(rule_with(CELLS - 1, 0, ZELMOTAR_RIGHT_CHAIN) == ZELMOTAR_RULE_STRAY_BIT);
    EXPECT(rule_with(20, 1, 0) == ZELMOTAR_RULE_BEYOND_TOP && rule_with(20, 0, 1) == ZELMOTAR_RULE_BEYOND_TOP);
    EXPECT(rule_with(20, ZELMOTAR_EMPTY_CELL) == ZELMOTAR_RULE_BEYOND_TOP);
    EXPECT(rule_with(20, ZELMOTAR_BRACKET_CELL(16, 19)) == ZELMOTAR_RULE_BEYOND_TOP);
    EXPECT(rule_with(CELLS - 1, ZELMOTAR_SYMBOL_CELL(7)) == ZELMOTAR_RULE_BEYOND_TOP);
}

/* Words that break two rules, if each is read by itself: the lower number is told. 3 is also 5, as the right end 0 is
 * below the left one. */
static void rules_together(void)
{
    EXPECT(rule_with(7, 0, ZELMOTAR_USED) == ZELMOTAR_RULE_STRAY_BIT);                          /* 1 and 2 */
    EXPECT(rule_with(7, 20, ZELMOTAR_BRACKET | ZELMOTAR_USED) == ZELMOTAR_RULE_STRAY_BIT);      /* 1 and 3 */
    EXPECT(rule_with(18, 20, ZELMOTAR_BRACKET | ZELMOTAR_USED) == ZELMOTAR_RULE_STRAY_BIT);
    EXPECT(rule_with(18, 0, ZELMOTAR_USED) == ZELMOTAR_RULE_STRAY_BIT);                         /* 1 and 4 */
    EXPECT(rule_with(18, 65, ZELMOTAR_USED | 1) == ZELMOTAR_RULE_STRAY_BIT);
    EXPECT(rule_with(7, 17, ZELMOTAR_BRACKET | ZELMOTAR_USED | 16) == ZELMOTAR_RULE_STRAY_BIT); /* 1 and 5 */
    EXPECT(rule_with(18, 16, ZELMOTAR_BRACKET | ZELMOTAR_USED | 18) == ZELMOTAR_RULE_STRAY_BIT);
    EXPECT(rule_with(20, 1, ZELMOTAR_USED | 1) == ZELMOTAR_RULE_STRAY_BIT);                     /* 1 and 6 */
    EXPECT(rule_with(7, 0, 0) == ZELMOTAR_RULE_NOT_BRACKET);                                    /* 2 and 4 */
    EXPECT(rule_with(7, 65, 1) == ZELMOTAR_RULE_NOT_BRACKET);
    EXPECT(rule_with(7, 20, 16) == ZELMOTAR_RULE_NOT_BRACKET);                                  /* 2 and 5 */
    EXPECT(rule_with(7, 20, ZELMOTAR_BRACKET) == ZELMOTAR_RULE_BAD_EMPTY);                      /* 3 and 5 */
    EXPECT(rule_with(18, 20, ZELMOTAR_BRACKET) == ZELMOTAR_RULE_BAD_EMPTY);
}

/* Of two damaged cells the lower one is told with its own rule, though that of the other has a lower number. */
static void rules_of_two_cells(void)
{
    zelmotar_reply answer;
    EXPECT(rule_with(20, 0, ZELMOTAR_USED) == ZELMOTAR_RULE_STRAY_BIT);
    ZELMOTAR_FIRST_WORD(words, 18) = 0;
    answer = zelmotar_check(words, 2 * CELLS, top);
    EXPECT(answer.value == 18 && answer.rule == ZELMOTAR_RULE_BAD_SYMBOL);
    ZELMOTAR_FIRST_WORD(words, 7) = 20, ZELMOTAR_SECOND_WORD(words, 7) = ZELMOTAR_BRACKET | 20;
    answer = zelmotar_check(words, 2 * CELLS, top);
    EXPECT(answer.value == 7 && answer.rule == ZELMOTAR_RULE_BAD_ENDS);
}

/* What is said of numbers that are no rule; tests/c/table.c has the others. */
static void texts_of_rules(void)
{
    EXPECT(strcmp(zelmotar_rule_text(0), "no rule is broken") == 0);
    EXPECT(strcmp(zelmotar_rule_text(7), "no such rule") == 0);
    EXPECT(strcmp(zelmotar_rule_text(UINT32_MAX), "no such rule") == 0);
}

static void version(const char *package)
{
    char here[40];
    snprintf(here, sizeof here, "%d.%d.%d", ZELMOTAR_VERSION_MAJOR, ZELMOTAR_VERSION_MINOR, ZELMOTAR_VERSION_PATCH);
    EXPECT(strcmp(here, package) == 0);
    EXPECT(strcmp(ZELMOTAR_VERSION, package) == 0);
}

int main(int count, char **list)
{
    if (count != 2) {
        fprintf(stderr, "usage: numbers VERSION\n");
        return 2;
    }
    version(list[1]);
    operations();
    statuses_of_a_call();
    statuses_of_a_request();
    statuses_of_a_print();
    statuses_of_typing();
    statuses_of_pieces();
    statuses_of_saving();
    statuses_of_loading();
    words_for_files();
    limits();
    masks();
    cells_taken_apart();
    cells_made();
    rules_of_a_register();
    rules_of_an_occupied_cell();
    rules_of_a_free_cell();
    rules_together();
    rules_of_two_cells();
    texts_of_rules();
    return expect_end();
}
