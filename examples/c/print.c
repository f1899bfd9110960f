/* A reading, feed 7 at 12 A, is kept in a store and printed as text, into spaces long enough and too short.
 *
 * Every status is looked at: that of each request, that of each call and that of each print. */
#include <stdio.h>
#include <stdlib.h>

#include "zelmotar.h"

#define WORDS 80 /* 40 cells */
#define AMPS 1
#define SPACE 20 /* the most bytes lent for a text */

static uint32_t store[WORDS];
static size_t top;

/* Ends the program unless a status is the one that is expected. */
static void demand(const char *what, uint32_t status, uint32_t expected)
{
    if (status == expected)
        return;
    fprintf(stderr, "%s: status %u, %s\n", what, (unsigned)status, zelmotar_status_text(status));
    exit(1);
}

/* Makes the store, and the reading in register 0. */
static void keep_reading(void)
{
    const uint32_t calls[6][4] = {
        {ZELMOTAR_SYMBOL, 0, 7, 0},  {ZELMOTAR_SYMBOL, 1, AMPS, 0}, {ZELMOTAR_JOIN, 0, 0, 1}, /* 7 AMPS */
        {ZELMOTAR_SYMBOL, 1, 12, 0}, {ZELMOTAR_JOIN, 0, 0, 1},      {ZELMOTAR_WRAP, 0, 0, 0}, /* (7 AMPS 12) */
    };
    uint32_t answers[12];
    zelmotar_reply answer = zelmotar_fresh(store, WORDS);
    int i;
    demand("a fresh store", answer.status, ZELMOTAR_DONE);
    answer = zelmotar_run(store, WORDS, answer.top, calls[0], 24, answers, 12);
    demand("the batch", answer.status, ZELMOTAR_DONE);
    for (i = 0; i < 6; i++)
        demand("a call", answers[2 * i], ZELMOTAR_DONE);
    top = answer.top;
}

/* Prints a register into text_n bytes, at most SPACE, and shows the text, or why there is none. The byte after
 * those that are lent is 0, so the text is a C string even where it fills them. */
static void show(size_t reg, size_t text_n, uint32_t expected)
{
    uint8_t text[SPACE + 1];
    zelmotar_text answer = zelmotar_print(store, WORDS, top, reg, text, text_n);
    demand("a print", answer.status, expected);
    text[text_n] = 0;
    printf("register %u into %u bytes: ", (unsigned)reg, (unsigned)text_n);
    if (answer.status == ZELMOTAR_DONE)
        printf("%s, %u of them\n", (const char *)text, (unsigned)answer.length);
    else if (answer.status == ZELMOTAR_DAMAGED)
        printf("%s, the first is cell %u\n", zelmotar_status_text(answer.status), (unsigned)answer.value);
    else
        printf("%s\n", zelmotar_status_text(answer.status));
}

int main(void)
{
    keep_reading();
    show(0, SPACE, ZELMOTAR_DONE);
    show(0, 8, ZELMOTAR_DONE);
    show(0, 7, ZELMOTAR_SHORT_SPACE);
    show(ZELMOTAR_REGISTERS, SPACE, ZELMOTAR_NO_REGISTER);
    ZELMOTAR_SECOND_WORD(store, ZELMOTAR_REGISTERS + 4) = 1; /* a stray write */
    show(0, SPACE, ZELMOTAR_DAMAGED);
    return 0;
}
