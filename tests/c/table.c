/* table: the numbers, names and texts of zelmotar.h as lines. rust/examples/table.rs prints those of the Rust
 * package, and tools/rust-test holds one against the other. */
#include <stdio.h>

#include "zelmotar.h"

#define STATUS(name) printf("status %d %s: %s\n", ZELMOTAR_##name, #name, zelmotar_status_text(ZELMOTAR_##name))
#define RULE(name) printf("rule %d %s: %s\n", ZELMOTAR_RULE_##name, #name, zelmotar_rule_text(ZELMOTAR_RULE_##name))
#define OPERATION(name) printf("operation %d %s\n", ZELMOTAR_##name, #name)
#define PLACE(type, field) printf(" %s at %u", #field, (unsigned)offsetof(type, field))

static void print_limits(void)
{
    printf("version %d.%d.%d\n", ZELMOTAR_VERSION_MAJOR, ZELMOTAR_VERSION_MINOR, ZELMOTAR_VERSION_PATCH);
    printf("registers %u\n", (unsigned)ZELMOTAR_REGISTERS);
    printf("most cells %u\n", (unsigned)ZELMOTAR_MAX_WORDS / 2);
    printf("most calls %u\n", (unsigned)ZELMOTAR_MAX_CALL_WORDS / 4);
    printf("least code %u\n", (unsigned)ZELMOTAR_MIN_CODE);
    printf("most code %u\n", (unsigned)ZELMOTAR_MAX_CODE);
    printf("most depth %u\n", (unsigned)ZELMOTAR_MAX_DEPTH);
    printf("most terms %u\n", (unsigned)ZELMOTAR_MAX_TERMS);
}

static void print_statuses(void)
{
    STATUS(DONE);
    STATUS(BAD_LENGTH);
    STATUS(BAD_TOP);
    STATUS(DAMAGED);
    STATUS(BAD_CALLS);
    STATUS(SHORT_ANSWERS);
    STATUS(BAD_OPERATION);
    STATUS(BAD_REGISTER);
    STATUS(STRAY_WORD);
    STATUS(BAD_CODE);
    STATUS(EMPTY);
    STATUS(WRONG_KIND);
    STATUS(NO_ROOM);
    STATUS(NO_REGISTER);
    STATUS(TOO_DEEP);
    STATUS(SHORT_SPACE);
    STATUS(NOT_TEXT);
    STATUS(TOO_MANY_TERMS);
    STATUS(SHORT_FILE);
    STATUS(BAD_EDITION);
    STATUS(BAD_DISTANCE);
    STATUS(BAD_CAPACITY);
    STATUS(NOT_COLLECTED);
    STATUS(WRONG_SLICE);
}

static void print_rules(void)
{
    RULE(STRAY_BIT);
    RULE(NOT_BRACKET);
    RULE(BAD_EMPTY);
    RULE(BAD_SYMBOL);
    RULE(BAD_ENDS);
    RULE(BEYOND_TOP);
}

static void print_operations(void)
{
    OPERATION(CLEAR);
    OPERATION(COPY);
    OPERATION(SYMBOL);
    OPERATION(WRAP);
    OPERATION(JOIN);
    OPERATION(HEAD);
    OPERATION(REST);
    OPERATION(OPEN);
    OPERATION(LENGTH);
    OPERATION(FIRST);
    OPERATION(LIVE);
    OPERATION(COLLECT);
}

/* What every small number says, status or not, and the largest. */
static void print_texts(void)
{
    uint32_t number;
    for (number = 0; number < 100; number++)
        printf("%u says %s\n", (unsigned)number, zelmotar_status_text(number));
    printf("%u says %s\n", (unsigned)UINT32_MAX, zelmotar_status_text(UINT32_MAX));
}

/* How many words a file with this capacity in its trailer asks for. */
static void print_words(uint32_t capacity)
{
    uint8_t trailer[ZELMOTAR_TRAILER_BYTES] = {144, 0, 0, 0, 0, 0, 0, 0, 0, 0, 0, 0, ZELMOTAR_EDITION};
    int i;
    for (i = 0; i < 4; i++)
        trailer[8 + i] = (uint8_t)(capacity >> 8 * i);
    printf("%u words for a capacity of %u\n", (unsigned)zelmotar_file_words(trailer, sizeof trailer),
           (unsigned)capacity);
}

static void print_files(void)
{
    static const size_t tops[3] = {ZELMOTAR_REGISTERS, ZELMOTAR_REGISTERS + 1, ZELMOTAR_MAX_WORDS / 2};
    static const uint32_t capacities[9] = {0, 15, 16, 258, 4096, 4097, 0x00010010, 0x01000010, UINT32_MAX};
    size_t i;
    printf("edition %u, a trailer of %u bytes\n", (unsigned)ZELMOTAR_EDITION, (unsigned)ZELMOTAR_TRAILER_BYTES);
    for (i = 0; i < 3; i++)
        printf("a file of %u bytes with top %u\n", (unsigned)ZELMOTAR_FILE_BYTES(tops[i]), (unsigned)tops[i]);
    for (i = 0; i < 9; i++)
        print_words(capacities[i]);
}

static void print_layout(void)
{
    printf("answer of %u bytes:", (unsigned)sizeof(zelmotar_reply));
    PLACE(zelmotar_reply, status);
    PLACE(zelmotar_reply, rule);
    PLACE(zelmotar_reply, value);
    PLACE(zelmotar_reply, top);
    printf("\nspan of %u bytes:", (unsigned)sizeof(zelmotar_span));
    PLACE(zelmotar_span, from);
    PLACE(zelmotar_span, to);
    printf("\ntext of %u bytes:", (unsigned)sizeof(zelmotar_text));
    PLACE(zelmotar_text, status);
    PLACE(zelmotar_text, rule);
    PLACE(zelmotar_text, value);
    PLACE(zelmotar_text, length);
    printf("\ntyped of %u bytes:", (unsigned)sizeof(zelmotar_typed));
    PLACE(zelmotar_typed, status);
    PLACE(zelmotar_typed, rule);
    PLACE(zelmotar_typed, value);
    PLACE(zelmotar_typed, top);
    printf("\nsaved of %u bytes:", (unsigned)sizeof(zelmotar_saved));
    PLACE(zelmotar_saved, status);
    PLACE(zelmotar_saved, rule);
    PLACE(zelmotar_saved, value);
    PLACE(zelmotar_saved, top);
    PLACE(zelmotar_saved, length);
    printf("\n");
}

/* The two structs of a text in pieces. */
static void print_pieces(void)
{
    printf("pieces of %u bytes:", (unsigned)sizeof(zelmotar_pieces));
    PLACE(zelmotar_pieces, stand);
    PLACE(zelmotar_pieces, code);
    PLACE(zelmotar_pieces, offset);
    PLACE(zelmotar_pieces, depth);
    PLACE(zelmotar_pieces, terms);
    PLACE(zelmotar_pieces, own);
    PLACE(zelmotar_pieces, most);
    PLACE(zelmotar_pieces, counts);
    printf("\ncounted of %u bytes:", (unsigned)sizeof(zelmotar_counted));
    PLACE(zelmotar_counted, status);
    PLACE(zelmotar_counted, value);
    PLACE(zelmotar_counted, terms);
    PLACE(zelmotar_counted, most);
    printf("\n");
}

int main(void)
{
    print_limits();
    print_statuses();
    print_rules();
    print_operations();
    print_texts();
    print_files();
    print_layout();
    print_pieces();
    return 0;
}
