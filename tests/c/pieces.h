/* pieces.h: what a text in pieces should give, by two judges that are written apart from the library.
 *
 * One takes the whole text, knows of no pieces and says what the answer at its end should be: whether it is in order by
 * the second reader (typed.h), and what it counts by going down into each bracket. The other takes any state, also one
 * that no text leads to, and goes on from it byte by byte as zelmotar.h says. */
#ifndef PIECES_H
#define PIECES_H

#include <string.h>

#include "typed.h"
#include "zelmotar.h"

enum { BEGUN, BLANK, CODE, CLOSED }; /* the stands of a text that is not refused */

static inline int same_counted(zelmotar_counted one, zelmotar_counted other)
{
    return one.status == other.status && one.value == other.value && one.terms == other.terms &&
           one.most == other.most;
}

/* No byte of a state is padding, so two are the same where all their bytes are. */
static inline int same_pieces(zelmotar_pieces one, zelmotar_pieces other)
{
    return memcmp(&one, &other, sizeof one) == 0;
}

static inline zelmotar_counted counted(uint32_t status, size_t value, size_t terms, size_t most)
{
    zelmotar_counted answer;
    answer.status = status, answer.value = value, answer.terms = terms, answer.most = most;
    return answer;
}

/* Counts the terms of the expression that stands at a place of a text in order, and those of the brackets in it; gives
 * the place behind it, which is its closing bracket or the end. */
static inline const uint8_t *count_terms(const uint8_t *at, const uint8_t *end, zelmotar_counted *answer)
{
    size_t own = 0;
    while (at < end && *at != ')') {
        own += *at != ' ';
        if (*at == '(')
            at = count_terms(at + 1, end, answer);
        else if (is_digit(*at))
            while (at + 1 < end && is_digit(at[1]))
                at++;
        at++;
    }
    answer->terms += own;
    if (answer->most < own)
        answer->most = own;
    return at;
}

/* What a text should answer at its end, however it was cut. */
static inline zelmotar_counted expected_counted(const uint8_t *text, size_t text_n)
{
    const struct judgement judgement = judge_text(text, text_n);
    zelmotar_counted answer = counted(judgement.status, judgement.at, 0, 0);
    if (judgement.status == ZELMOTAR_DONE)
        count_terms(text, text + text_n, &answer);
    return answer;
}

/* What zelmotar.h has as ahead, of a state whose stand and code are in order. */
static inline uint64_t ahead_of(const zelmotar_pieces *state)
{
    if (state->stand == CODE)
        return ((uint64_t)1 << 28) - state->code;
    return state->stand == BLANK ? 0 : 1;
}

/* Whether a state goes on. All arithmetic is in 64 bits, where nothing wraps: a sum with an offset is made only if that
 * alone is no more than it may be. */
static inline int goes_on(const zelmotar_pieces *state)
{
    uint64_t most;
    size_t i;
    if (state->stand > CLOSED || (state->stand == CODE && state->code > 268435455))
        return 0;
    if (state->depth > 64 || state->terms > 65536 || state->own > state->terms || state->most > state->terms)
        return 0;
    for (i = 0; i < state->depth; i++)
        if (state->counts[i] > state->terms)
            return 0;
    most = ((uint64_t)1 << 28) * state->terms + 1;
    return state->offset <= most && state->offset + state->depth + ahead_of(state) <= most;
}

/* How a state that goes on refuses a byte, or ZELMOTAR_DONE. */
static inline uint32_t refusal_of(const zelmotar_pieces *state, int byte)
{
    const int ended = state->stand == CODE || state->stand == CLOSED; /* behind a term, where none may begin */
    const uint64_t code = 10 * (uint64_t)state->code + (uint64_t)(byte - '0'); /* where it is a digit in a code */
    switch (byte) {
    case '(':
        if (ended)
            return ZELMOTAR_NOT_TEXT;
        if (state->depth == 64)
            return ZELMOTAR_TOO_DEEP;
        return state->terms == 65536 ? ZELMOTAR_TOO_MANY_TERMS : ZELMOTAR_DONE;
    case ')': return state->stand == BLANK || state->depth == 0 ? ZELMOTAR_NOT_TEXT : ZELMOTAR_DONE;
    case ' ': return ended ? ZELMOTAR_DONE : ZELMOTAR_NOT_TEXT;
    default:
        if (!is_digit(byte) || state->stand == CLOSED)
            return ZELMOTAR_NOT_TEXT;
        if (state->stand == CODE)
            return code < 1 || code > 268435455 ? ZELMOTAR_BAD_CODE : ZELMOTAR_DONE;
        if (state->terms == 65536)
            return ZELMOTAR_TOO_MANY_TERMS;
        return byte == '0' ? ZELMOTAR_BAD_CODE : ZELMOTAR_DONE;
    }
}

/* One term more where the state stands. */
static inline void begin_term(zelmotar_pieces *state)
{
    state->terms++, state->own++;
    if (state->most < state->own)
        state->most = state->own;
}

/* Takes a byte that is not refused. */
static inline void take_byte(zelmotar_pieces *state, int byte)
{
    const uint32_t code = 10 * state->code + (uint32_t)(byte - '0');
    const int begins = state->stand != CODE && byte != ' ' && byte != ')';
    state->offset++;
    state->code = 0;
    if (begins)
        begin_term(state);
    if (byte == '(')
        state->counts[state->depth++] = state->own, state->own = 0, state->stand = BEGUN;
    else if (byte == ')')
        state->own = state->counts[--state->depth], state->stand = CLOSED;
    else if (byte == ' ')
        state->stand = BLANK;
    else
        state->code = code, state->stand = CODE;
}

/* What should come of a state that is fed a piece. */
static inline zelmotar_pieces expected_feed(zelmotar_pieces state, const uint8_t *piece, size_t piece_n)
{
    uint32_t status;
    size_t i;
    if (!goes_on(&state))
        return state;
    if (state.stand != CODE)
        state.code = 0;
    for (i = 0; i < piece_n; i++) {
        status = refusal_of(&state, piece[i]);
        if (status != ZELMOTAR_DONE) {
            state.stand = status, state.code = 0;
            return state;
        }
        take_byte(&state, piece[i]);
    }
    return state;
}

/* What a state should answer if its text ends there. */
static inline zelmotar_counted expected_end(zelmotar_pieces state)
{
    if (goes_on(&state) && state.depth == 0 && state.stand != BLANK)
        return counted(ZELMOTAR_DONE, 0, state.terms, state.most);
    if (state.stand == ZELMOTAR_BAD_CODE || state.stand == ZELMOTAR_TOO_DEEP || state.stand == ZELMOTAR_TOO_MANY_TERMS)
        return counted(state.stand, state.offset, 0, 0);
    return counted(ZELMOTAR_NOT_TEXT, state.offset, 0, 0);
}

#endif
