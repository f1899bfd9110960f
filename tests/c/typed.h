/* typed.h: what typing a register in should give, by a second reader and a second layer that are written apart from the
 * library, from SCOPE 5.8.
 *
 * Neither is recursive. The reader judges a byte by the one to its left, the brackets that are open there, the terms
 * before it and the code that it goes on with. The layer keeps the terms that have no cell yet in a list, and lays
 * those of a bracket when it closes. Whether there is room is told by a count of the cells that are reached, and
 * whether the store is sound by the second judge (rules.h). What a collection leaves of it is the library's own. */
#ifndef TYPED_H
#define TYPED_H

#include <string.h>

#include "rules.h"
#include "zelmotar.h"

static inline int is_digit(int byte) { return byte >= '0' && byte <= '9'; }

/* Whether a byte may stand right of another, as far as these two say; 0 is left of the first. */
static inline int may_follow(int left, int byte)
{
    switch (byte) {
    case '(': return left == 0 || left == ' ' || left == '(';
    case ')': return left == '(' || left == ')' || is_digit(left);
    case ' ': return left == ')' || is_digit(left);
    default: return is_digit(byte) && left != ')';
    }
}

/* Whether a term begins at byte i of a text that is in order up to there. */
static inline int begins_term(const uint8_t *text, size_t i)
{
    return text[i] == '(' || (is_digit(text[i]) && (i == 0 || !is_digit(text[i - 1])));
}

/* A text's refusal, or ZELMOTAR_DONE, and the offset that goes with it. */
struct judgement {
    uint32_t status;
    size_t at;
};

static inline struct judgement judged(uint32_t status, size_t at)
{
    struct judgement result;
    result.status = status, result.at = at;
    return result;
}

static inline struct judgement judge_text(const uint8_t *text, size_t text_n)
{
    uint32_t code = 0; /* of the digits to the left, where there are any */
    size_t open = 0, terms = 0, i;
    int left = 0, byte;
    for (i = 0; i < text_n; i++, left = byte) {
        byte = text[i];
        if (!may_follow(left, byte) || (byte == ')' && open == 0))
            return judged(ZELMOTAR_NOT_TEXT, i);
        if (byte == '(' && open++ == ZELMOTAR_MAX_DEPTH)
            return judged(ZELMOTAR_TOO_DEEP, i);
        if (begins_term(text, i) && terms++ == ZELMOTAR_MAX_TERMS)
            return judged(ZELMOTAR_TOO_MANY_TERMS, i);
        if (is_digit(byte))
            code = 10 * (is_digit(left) ? code : 0) + (uint32_t)(byte - '0');
        if (is_digit(byte) && (code < ZELMOTAR_MIN_CODE || code > ZELMOTAR_MAX_CODE))
            return judged(ZELMOTAR_BAD_CODE, i);
        open -= byte == ')';
    }
    return open > 0 || left == ' ' ? judged(ZELMOTAR_NOT_TEXT, text_n) : judged(ZELMOTAR_DONE, 0);
}

/* The cells that a text in order needs. */
static inline size_t need_of(const uint8_t *text, size_t text_n)
{
    size_t need = 0, i;
    for (i = 0; i < text_n; i++)
        need += (size_t)begins_term(text, i);
    return need;
}

/* The terms that have no cell yet, as the words of the cells that they will get; those of the innermost open bracket
 * are last. */
struct waiting {
    uint32_t words[ZELMOTAR_MAX_WORDS];
    size_t n; /* in terms */
};

static inline void wait_for_cell(struct waiting *w, uint32_t first, uint32_t second)
{
    w->words[2 * w->n] = first, w->words[2 * w->n + 1] = second;
    w->n++;
}

/* Lays the terms that wait, but for the first so many, at `top`, and gives a bracket or register on them. */
static inline void lay_terms(struct waiting *w, size_t kept, uint32_t *words, size_t *top, uint32_t holder[2])
{
    size_t count = w->n - kept;
    memcpy(words + 2 * *top, w->words + 2 * kept, 2 * count * sizeof *words);
    holder[0] = count == 0 ? 0 : (uint32_t)*top;
    holder[1] = ZELMOTAR_BRACKET + (count == 0 ? 0 : (uint32_t)(*top + count - 1));
    *top += count, w->n = kept;
}

/* Lays a text in order, for which there is room, and sets register reg; gives the new `top`. */
static inline size_t lay_text(uint32_t *words, size_t top, size_t reg, const uint8_t *text, size_t text_n)
{
    static struct waiting w;
    size_t kept[ZELMOTAR_MAX_DEPTH], open = 0, i; /* for each open bracket, the terms that waited before it */
    uint32_t holder[2];
    w.n = 0;
    for (i = 0; i < text_n; i++) {
        if (text[i] == '(') {
            kept[open++] = w.n;
        } else if (text[i] == ')') {
            lay_terms(&w, kept[--open], words, &top, holder);
            wait_for_cell(&w, holder[0], holder[1]);
        } else if (is_digit(text[i])) {
            if (begins_term(text, i))
                wait_for_cell(&w, 0, 0);
            w.words[2 * w.n - 2] = 10 * w.words[2 * w.n - 2] + (uint32_t)(text[i] - '0');
        }
    }
    lay_terms(&w, 0, words, &top, words + 2 * reg);
    return top;
}

/* Marks the cells that a register or cell holds. */
static inline void mark_held(const uint32_t *words, size_t holder, unsigned char *marked)
{
    size_t c;
    if (ZELMOTAR_IS_BRACKET(words, holder) && !ZELMOTAR_IS_EMPTY(words, holder))
        for (c = ZELMOTAR_LEFT(words, holder); c <= ZELMOTAR_RIGHT(words, holder); c++)
            marked[c] = 1;
}

/* The heap cells that are reached while register reg counts as empty; all that are reached where it is no register. All
 * that hold a cell are registers or stand above it. */
static inline size_t reached_without(const uint32_t *words, size_t top, size_t reg)
{
    unsigned char marked[ZELMOTAR_MAX_WORDS / 2] = {0};
    size_t reached = 0, c;
    for (c = 0; c < ZELMOTAR_REGISTERS; c++)
        if (c != reg)
            mark_held(words, c, marked);
    for (c = top - 1; c >= ZELMOTAR_REGISTERS; c--)
        if (marked[c])
            reached++, mark_held(words, c, marked);
    return reached;
}

/* Collects a store that has no room above `top` for what register reg becomes, and gives the new `top`. What the
 * register holds goes if there is room without it, and else is kept. */
static inline size_t collect_for(uint32_t *words, size_t n, size_t top, size_t reg, size_t need)
{
    if (ZELMOTAR_REGISTERS + reached_without(words, top, reg) + need <= n / 2)
        ZELMOTAR_FIRST_WORD(words, reg) = 0, ZELMOTAR_SECOND_WORD(words, reg) = ZELMOTAR_BRACKET;
    return zelmotar_collect(words, n, top).top;
}

/* An answer that names no damaged cell. */
static inline zelmotar_typed typed_answer(uint32_t status, size_t value, size_t top)
{
    const zelmotar_typed answer = {status, 0, value, top};
    return answer;
}

/* What typing should answer, and what it should leave in the words (SCOPE 5.8). */
static inline zelmotar_typed expected_type(uint32_t *words, size_t n, size_t top, size_t reg, const uint8_t *text,
                                            size_t text_n)
{
    const zelmotar_reply checked = expected_check(words, n, top);
    const zelmotar_typed refused = {checked.status, checked.rule, checked.value, top};
    struct judgement judgement;
    size_t need;
    if (checked.status != ZELMOTAR_DONE)
        return refused;
    if (reg >= ZELMOTAR_REGISTERS)
        return typed_answer(ZELMOTAR_NO_REGISTER, 0, top);
    judgement = judge_text(text, text_n);
    if (judgement.status != ZELMOTAR_DONE)
        return typed_answer(judgement.status, judgement.at, top);
    need = need_of(text, text_n);
    if (need > n / 2 - top)
        top = collect_for(words, n, top, reg, need);
    if (need > n / 2 - top)
        return typed_answer(ZELMOTAR_NO_ROOM, 0, top);
    return typed_answer(ZELMOTAR_DONE, 0, lay_text(words, top, reg, text, text_n));
}

static inline int same_typed(zelmotar_typed one, zelmotar_typed other)
{
    return one.status == other.status && one.rule == other.rule && one.value == other.value && one.top == other.top;
}

#endif
