/* rules.h: which rule a damaged cell breaks, and what a check should answer, by a second judge that is written apart
 * from the library, from SCOPE 1.2 to 1.4, 1.6, 5.1 and 5.2. */
#ifndef RULES_H
#define RULES_H

#include "zelmotar.h"

#define RULES (ZELMOTAR_RULE_BEYOND_TOP + 1) /* numbers of rules, with 0 for none */

/* The first rule that the words of cell c break, or 0. Each line says its rule in full, and takes nothing from those
 * above it: where more than one is broken, their order alone decides. */
static inline uint32_t rule_broken(uint32_t first, uint32_t second, size_t c, size_t top)
{
    const int occupied = c < top, bracket = second >> 31 == 1, empty = first == 0 && second == 0x80000000u;
    const uint32_t right = second & 0x0fffffffu;
    const size_t end = c < 16 ? top : c; /* below which the ends lie */
    if ((second >> 28) % 8 != 0)
        return ZELMOTAR_RULE_STRAY_BIT;
    if (c < 16 && !bracket)
        return ZELMOTAR_RULE_NOT_BRACKET;
    if (occupied && bracket && right == 0 && first != 0)
        return ZELMOTAR_RULE_BAD_EMPTY;
    if (occupied && !bracket && (second != 0 || first < 1 || first > 268435455))
        return ZELMOTAR_RULE_BAD_SYMBOL;
    if (occupied && bracket && !empty && (first < 16 || first > right || right >= end))
        return ZELMOTAR_RULE_BAD_ENDS;
    if (!occupied && (first != 0 || second != 0))
        return ZELMOTAR_RULE_BEYOND_TOP;
    return 0;
}

/* An answer that names no damaged cell, with value 0. */
static inline zelmotar_reply reply_of(uint32_t status, size_t top)
{
    const zelmotar_reply answer = {status, 0, 0, top};
    return answer;
}

/* What a check should answer: 1, 2, or 3 with the lowest damaged cell and its rule, or 0. */
static inline zelmotar_reply expected_check(const uint32_t *words, size_t n, size_t top)
{
    size_t c;
    if (n % 2 != 0 || n < 32 || n > 8192)
        return reply_of(ZELMOTAR_BAD_LENGTH, top);
    if (top < 16 || top > n / 2)
        return reply_of(ZELMOTAR_BAD_TOP, top);
    for (c = 0; c < n / 2; c++) {
        const uint32_t rule = rule_broken(words[2 * c], words[2 * c + 1], c, top);
        const zelmotar_reply damaged = {ZELMOTAR_DAMAGED, rule, (uint32_t)c, top};
        if (rule != 0)
            return damaged;
    }
    return reply_of(ZELMOTAR_DONE, top);
}

static inline int same_reply(zelmotar_reply one, zelmotar_reply other)
{
    return one.status == other.status && one.rule == other.rule && one.value == other.value && one.top == other.top;
}

#endif
