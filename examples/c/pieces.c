/* An operator's desk that reads the lines of a terminal in pieces: each piece is fed as it arrives, and a line is
 * judged before anything of it is laid.
 *
 * At the end of a line the desk knows how many cells it takes and how wide its widest expression is, and types it in
 * only where there is room for so many. Each line goes into the next register, so no cell is dead, and those from top
 * on are all that are free. Every status is looked at: that of each request, each line and each print.
 *
 * It reads standard input, such as the file pieces.in beside it, until that ends or every register has a line. */
#include <stdio.h>
#include <stdlib.h>

#include "zelmotar.h"

#define HEAP 8            /* the cells that lines can have */
#define PIECE 6           /* the most bytes of a piece */
#define SPACE (10 * HEAP) /* no line of so many terms is longer: each takes up to nine digits and a blank */
#define WORDS (2 * (ZELMOTAR_REGISTERS + HEAP))

static uint32_t store[WORDS];
static size_t top, reg;
static uint8_t line[SPACE]; /* what has arrived, kept to be typed in; for a longer line there is no room anyway */
static size_t length;
static int last; /* the byte that was read last, or EOF */

/* Ends the program unless a request is done. */
static void demand(const char *what, uint32_t status)
{
    if (status == ZELMOTAR_DONE)
        return;
    fprintf(stderr, "%s: status %u, %s\n", what, (unsigned)status, zelmotar_status_text(status));
    exit(1);
}

/* Reads a piece, as far as the line goes, and gives its length. The end of the line is no part of it. */
static size_t arrive(uint8_t piece[PIECE])
{
    size_t n = 0;
    while (n < PIECE && (last = getchar()) != '\n' && last != EOF)
        piece[n++] = (uint8_t)last;
    return n;
}

/* Shows a piece, and keeps it as far as there is space. */
static void keep(const uint8_t *piece, size_t n)
{
    size_t i;
    printf("%s", length == 0 ? "> " : "|");
    for (i = 0; i < n; i++, length++) {
        putchar(piece[i]);
        if (length < SPACE)
            line[length] = piece[i];
    }
}

/* Feeds a line as it arrives. How far it has come is a value that goes from one call to the next. */
static zelmotar_counted receive(void)
{
    zelmotar_pieces state = zelmotar_text_start();
    uint8_t piece[PIECE];
    length = 0;
    do {
        size_t n = arrive(piece);
        state = zelmotar_text_feed(state, piece, n);
        keep(piece, n);
    } while (last != '\n' && last != EOF);
    printf("\n");
    return zelmotar_text_end(state);
}

/* Types the line into the next register, and prints that back. The byte after those that are lent is 0, so the text is
 * a C string. */
static void type(void)
{
    uint8_t text[SPACE + 1] = {0};
    zelmotar_typed typed = zelmotar_type(store, WORDS, top, reg, line, length);
    zelmotar_text printed;
    demand("typing", typed.status);
    top = typed.top;
    printed = zelmotar_print(store, WORDS, top, reg, text, SPACE);
    demand("a print", printed.status);
    printf("  register %u: %s, top %u\n", (unsigned)reg, (const char *)text, (unsigned)top);
    reg++;
}

/* Receives a line, and says what comes of it. */
static void take(void)
{
    zelmotar_counted answer = receive();
    size_t left = WORDS / 2 - top;
    if (answer.status != ZELMOTAR_DONE) {
        printf("  byte %u: %s\n", (unsigned)answer.value, zelmotar_status_text(answer.status));
        return;
    }
    printf("  takes %u cells, up to %u side by side, and %u are free\n", (unsigned)answer.terms, (unsigned)answer.most,
           (unsigned)left);
    if (answer.terms <= left)
        type();
    else
        printf("  %s\n", zelmotar_status_text(ZELMOTAR_NO_ROOM));
}

int main(void)
{
    zelmotar_reply made = zelmotar_fresh(store, WORDS);
    demand("a fresh store", made.status);
    top = made.top;
    while (reg < ZELMOTAR_REGISTERS && (last = getchar()) != EOF) {
        ungetc(last, stdin);
        take();
    }
    return 0;
}
