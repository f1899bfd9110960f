/* texts.h: what a print should give, by a second printer that is written apart from the library.
 *
 * It is not recursive: the brackets that are open lie in a list, and every byte goes through one function, which
 * ends the text where it does not fit. Whether the store is sound is told by the second judge (rules.h). */
#ifndef TEXTS_H
#define TEXTS_H

#include <stdio.h>
#include <string.h>

#include "rules.h"
#include "zelmotar.h"

/* A text as it is written, up to the first byte that cannot be. */
struct writing {
    uint8_t *text;
    size_t text_n, length;
    uint32_t status;
};

static inline void put_byte(struct writing *w, char byte)
{
    if (w->status != ZELMOTAR_DONE)
        return;
    if (w->length == w->text_n)
        w->status = ZELMOTAR_SHORT_SPACE;
    else
        w->text[w->length++] = (uint8_t)byte;
}

static inline void put_code(struct writing *w, uint32_t code)
{
    char digits[12];
    const char *p;
    snprintf(digits, sizeof digits, "%lu", (unsigned long)code);
    for (p = digits; *p != '\0'; p++)
        put_byte(w, *p);
}

/* The run of a bracket that is open: its first cell, the one that comes next, and the one after its last. */
struct run {
    size_t first, next, end;
};

static inline struct run run_of(const uint32_t *words, size_t c)
{
    struct run run = {0, 0, 0};
    if (!ZELMOTAR_IS_EMPTY(words, c)) {
        run.first = run.next = ZELMOTAR_LEFT(words, c);
        run.end = (size_t)ZELMOTAR_RIGHT(words, c) + 1;
    }
    return run;
}

/* Writes what register reg of a sound store holds. Run 0 is the register's own, and stands for no bracket. */
static inline void put_register(struct writing *w, const uint32_t *words, size_t reg)
{
    struct run runs[ZELMOTAR_MAX_DEPTH + 1];
    size_t open = 0, c;
    runs[0] = run_of(words, reg);
    while (w->status == ZELMOTAR_DONE) {
        if (runs[open].next == runs[open].end) {
            if (open == 0)
                return;
            put_byte(w, ')'), open--;
            continue;
        }
        c = runs[open].next++;
        if (c > runs[open].first)
            put_byte(w, ' ');
        if (ZELMOTAR_IS_SYMBOL(words, c))
            put_code(w, ZELMOTAR_CODE(words, c));
        else if (open < ZELMOTAR_MAX_DEPTH)
            put_byte(w, '('), runs[++open] = run_of(words, c);
        else if (w->status == ZELMOTAR_DONE)
            w->status = ZELMOTAR_TOO_DEEP;
    }
}

/* What a print should answer, and what it should leave in its space (SCOPE 5.7). */
static inline zelmotar_text expected_print(const uint32_t *words, size_t n, size_t top, size_t reg, uint8_t *text,
                                            size_t text_n)
{
    zelmotar_reply checked = expected_check(words, n, top);
    zelmotar_text answer = {0, 0, 0, 0};
    struct writing w = {NULL, 0, 0, ZELMOTAR_DONE};
    w.text = text, w.text_n = text_n;
    if (checked.status != ZELMOTAR_DONE)
        w.status = checked.status, answer.rule = checked.rule, answer.value = checked.value;
    else if (reg >= ZELMOTAR_REGISTERS)
        w.status = ZELMOTAR_NO_REGISTER;
    else
        put_register(&w, words, reg);
    answer.status = w.status;
    answer.length = w.status == ZELMOTAR_DONE ? w.length : 0;
    memset(text + answer.length, 0, text_n - answer.length);
    return answer;
}

static inline int same_text(zelmotar_text one, zelmotar_text other)
{
    return one.status == other.status && one.rule == other.rule && one.value == other.value &&
           one.length == other.length;
}

#endif
