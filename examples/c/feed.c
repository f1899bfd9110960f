/* A feed's readings in a store: a bracket of feed, unit and value for each, side by side in one register.
 *
 * Shows the functions in use, with every status looked at: that of each request and that of each call in it. Printing
 * is in print.c, typing in type.c, what arrives in pieces in pieces.c, saving and loading in swap.c. The store is small
 * on purpose, so that it collects itself while the readings come in, and at last has no room for one more. */
#include <stdio.h>
#include <stdlib.h>

#include "zelmotar.h"

#define WORDS (ZELMOTAR_MIN_WORDS + 64) /* a heap of 32 cells */
#define MILLIAMPS 2

static uint32_t store[WORDS];
static size_t top;

/* Ends the program unless a status is the one that is expected. */
static void demand(const char *what, uint32_t status, uint32_t expected)
{
    if (status == expected)
        return;
    fprintf(stderr, "%s: status %u, %s\n", what, (unsigned)status, zelmotar_status_text(status));
    exit(1);
}

/* The calls that add one reading to register 0; registers 1 and 2 are put to use and cleared again. */
static void spell_reading(uint32_t calls[9][4], uint32_t feed, uint32_t value)
{
    const uint32_t spelt[9][4] = {
        {ZELMOTAR_SYMBOL, 1, feed, 0},   {ZELMOTAR_SYMBOL, 2, MILLIAMPS, 0}, {ZELMOTAR_JOIN, 1, 1, 2},
        {ZELMOTAR_SYMBOL, 2, value, 0},  {ZELMOTAR_JOIN, 1, 1, 2},           {ZELMOTAR_WRAP, 1, 1, 0},
        {ZELMOTAR_JOIN, 0, 0, 1},        {ZELMOTAR_CLEAR, 1, 0, 0},          {ZELMOTAR_CLEAR, 2, 0, 0},
    };
    int i, j;
    for (i = 0; i < 9; i++)
        for (j = 0; j < 4; j++)
            calls[i][j] = spelt[i][j];
}

/* Runs one call that cannot be refused and gives its value. */
static uint32_t ask(uint32_t operation, uint32_t a)
{
    uint32_t call[4] = {0, 0, 0, 0}, answers[2];
    zelmotar_reply answer;
    call[0] = operation;
    call[2] = a;
    answer = zelmotar_run(store, WORDS, top, call, 4, answers, 2);
    demand("asking", answer.status, ZELMOTAR_DONE);
    demand("the call that asks", answers[0], ZELMOTAR_DONE);
    top = answer.top;
    return answers[1];
}

/* Adds a reading and says so. Gives the first status of a call that is not 0, if there is one.
 *
 * A refused call does not stop those after it. Still no part of a reading gets into register 0: the JOIN
 * onto it needs more cells than any call before it, so it is refused whenever one of them is. */
static uint32_t add_reading(uint32_t feed, uint32_t value)
{
    uint32_t calls[9][4], answers[18];
    size_t before = top;
    zelmotar_reply answer;
    int i;
    spell_reading(calls, feed, value);
    answer = zelmotar_run(store, WORDS, top, calls[0], 36, answers, 18);
    demand("adding a reading", answer.status, ZELMOTAR_DONE);
    top = answer.top;
    for (i = 0; i < 9; i++)
        if (answers[2 * i] != ZELMOTAR_DONE)
            return answers[2 * i];
    printf("feed %u reads %u mA, top %u%s\n", (unsigned)feed, (unsigned)value, (unsigned)top,
           top < before ? ", collected on the way" : "");
    return ZELMOTAR_DONE;
}

/* Prints the readings of register 0 from the lent cells. A look has no status; on a store that is not sound it
 * would be empty, as it is for an empty register, so the check comes first. */
static void print_readings(void)
{
    zelmotar_span span;
    size_t c, part;
    demand("the check", zelmotar_check(store, WORDS, top).status, ZELMOTAR_DONE);
    span = zelmotar_look(store, WORDS, top, 0);
    for (c = span.from / 2; c < span.to / 2; c++) {
        printf("cell %2u: (", (unsigned)c);
        for (part = ZELMOTAR_LEFT(store, c); part <= ZELMOTAR_RIGHT(store, c); part++)
            printf("%s%u", part == ZELMOTAR_LEFT(store, c) ? "" : " ", (unsigned)ZELMOTAR_CODE(store, part));
        printf(")\n");
    }
}

/* Adds readings until one is refused, which must be for room. */
static void fill(void)
{
    uint32_t status = ZELMOTAR_DONE, hour;
    for (hour = 0; status == ZELMOTAR_DONE; hour++)
        status = add_reading(7, 120 + 5 * hour);
    demand("the last reading", status, ZELMOTAR_NO_ROOM);
    printf("reading %u is refused: %s\n", (unsigned)hour, zelmotar_status_text(status));
}

int main(void)
{
    zelmotar_reply answer = zelmotar_fresh(store, WORDS);
    demand("a fresh store", answer.status, ZELMOTAR_DONE);
    top = answer.top;
    fill();

    answer = zelmotar_collect(store, WORDS, top);
    demand("collecting", answer.status, ZELMOTAR_DONE);
    top = answer.top;
    printf("collected: %u cells live, top %u\n", (unsigned)answer.value, (unsigned)top);
    printf("register 0 has %u readings\n", (unsigned)ask(ZELMOTAR_LENGTH, 0));
    print_readings();

    ZELMOTAR_SECOND_WORD(store, ZELMOTAR_REGISTERS + 4) = 1;
    answer = zelmotar_check(store, WORDS, top);
    demand("the check after a stray write", answer.status, ZELMOTAR_DAMAGED);
    printf("after a stray write: %s, the first is cell %u\n", zelmotar_status_text(answer.status),
           (unsigned)answer.value);
    return 0;
}
