/* An operator's desk: lines that are typed at a terminal go into register 0, each in the place of the one before.
 *
 * A line that is refused is shown with a mark under the byte at fault, and the register keeps what it had. After each
 * line the register is printed back. Every status is looked at: that of each request, each line and each print. */
#include <stdio.h>
#include <stdlib.h>
#include <string.h>

#include "zelmotar.h"

#define WORDS 44 /* a heap of 6 cells */
#define SPACE 40 /* the most bytes lent for a text */

static uint32_t store[WORDS];
static size_t top;

/* Ends the program unless a status is the one that is expected. */
static void demand(const char *what, uint32_t status, uint32_t expected)
{
    if (status == expected)
        return;
    fprintf(stderr, "%s: status %u, %s\n", what, (unsigned)status, zelmotar_status_text(status));
    exit(1);
}

/* Whether the value that goes with a status is the offset of a byte of the line. */
static int tells_offset(uint32_t status)
{
    return status == ZELMOTAR_BAD_CODE || status == ZELMOTAR_TOO_DEEP || status == ZELMOTAR_NOT_TEXT ||
           status == ZELMOTAR_TOO_MANY_TERMS;
}

/* Prints register 0 back. The byte after those that are lent is 0, so the text is a C string. */
static void show(void)
{
    uint8_t text[SPACE + 1] = {0};
    zelmotar_text answer = zelmotar_print(store, WORDS, top, 0, text, SPACE);
    demand("a print", answer.status, ZELMOTAR_DONE);
    printf("  register 0: %s, top %u\n", (const char *)text, (unsigned)top);
}

/* Types a line in. Neither the end of the line nor the zero byte of the string is part of its text. top is that of
 * the answer whatever the status: a line that finds no room leaves the store collected. */
static void type(const char *line, uint32_t expected)
{
    zelmotar_typed answer = zelmotar_type(store, WORDS, top, 0, (const uint8_t *)line, strlen(line));
    demand("a line", answer.status, expected);
    top = answer.top;
    printf("> %s\n", line);
    if (tells_offset(answer.status))
        printf("  %*s^ %s\n", (int)answer.value, "", zelmotar_status_text(answer.status));
    else
        printf("  %s\n", zelmotar_status_text(answer.status));
    show();
}

int main(void)
{
    zelmotar_reply made = zelmotar_fresh(store, WORDS);
    demand("a fresh store", made.status, ZELMOTAR_DONE);
    top = made.top;
    type("(7 1 12)", ZELMOTAR_DONE);
    type("(7 1 12", ZELMOTAR_NOT_TEXT);          /* the end comes too soon */
    type("(7  1 12)", ZELMOTAR_NOT_TEXT);        /* one blank too many */
    type("(7 1 4294967295)", ZELMOTAR_BAD_CODE); /* at the digit that makes it too large */
    type("(7 0 12)", ZELMOTAR_BAD_CODE);         /* at the 0, which no code begins with */
    type("8 2", ZELMOTAR_DONE);                  /* the cells of the line before are dead now */
    type("(8 2) 3", ZELMOTAR_DONE);              /* and have gone with those of 8 2, as there was no other room */
    type("(7 1 12) (8 2 13)", ZELMOTAR_NO_ROOM);
    return 0;
}
