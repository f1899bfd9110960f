/* files.h: what saving and loading a store should give, by a second writer and a second reader of files that are
 * written apart from the library, from SCOPE 2.5, 5.9 and 5.10.
 *
 * The reader takes a file's store out whole and then judges it. That each heap cell is reached is told by a count
 * (typed.h), and whether a store is sound by the second judge (rules.h). What a collection leaves of it is the
 * library's own. */
#ifndef FILES_H
#define FILES_H

#include <string.h>

#include "rules.h"
#include "typed.h"
#include "zelmotar.h"

#define LONGEST_FILE ZELMOTAR_FILE_BYTES(ZELMOTAR_MAX_WORDS / 2)

/* Writes a word, the lowest byte first, and gives the place behind it. */
static inline uint8_t *put_word(uint8_t *at, size_t word)
{
    int i;
    for (i = 0; i < 4; i++, word /= 256)
        *at++ = (uint8_t)(word % 256);
    return at;
}

/* The word whose bytes stand at a place. */
static inline uint32_t word_at(const uint8_t *at)
{
    uint32_t word = 0;
    int i;
    for (i = 3; i >= 0; i--)
        word = 256 * word + at[i];
    return word;
}

/* Writes the file of a store as it is, whether it is collected or not, and gives its length. */
static inline size_t put_file(uint8_t *file, const uint32_t *words, size_t n, size_t top)
{
    uint8_t *at = file;
    size_t i;
    for (i = 2 * ZELMOTAR_REGISTERS; i < 2 * top; i++)
        at = put_word(at, words[i]);
    for (i = 0; i < 2 * ZELMOTAR_REGISTERS; i++)
        at = put_word(at, words[i]);
    at = put_word(at, 8 * top + 16); /* 8 * (m + 16) + 16, with m = top - 16 heap cells */
    at = put_word(at, top - ZELMOTAR_REGISTERS);
    at = put_word(at, n / 2);
    at = put_word(at, 1);
    return (size_t)(at - file);
}

/* What saving should answer, and what it should leave in the words and in its space (SCOPE 5.10). */
static inline zelmotar_saved expected_save(uint32_t *words, size_t n, size_t top, uint8_t *space, size_t space_n)
{
    static uint8_t file[LONGEST_FILE];
    const zelmotar_reply checked = expected_check(words, n, top);
    zelmotar_saved answer = {checked.status, checked.rule, checked.value, top, 0};
    size_t length;
    memset(space, 0, space_n);
    if (checked.status != ZELMOTAR_DONE)
        return answer;
    answer.top = zelmotar_collect(words, n, top).top;
    length = put_file(file, words, n, answer.top);
    if (length > space_n) {
        answer.status = ZELMOTAR_SHORT_SPACE;
        return answer;
    }
    memcpy(space, file, length);
    answer.length = length;
    return answer;
}

/* The trailer of a file. All arithmetic with it is in 64 bits, where nothing wraps. */
struct trailer {
    uint64_t distance, cells, capacity, edition;
};

static inline struct trailer trailer_of(const uint8_t *file, size_t file_n)
{
    const uint8_t *at = file + file_n - 16;
    struct trailer t;
    t.distance = word_at(at), t.cells = word_at(at + 4), t.capacity = word_at(at + 8), t.edition = word_at(at + 12);
    return t;
}

/* What the trailer alone says of a file that is long enough for one, where n words are lent. */
static inline uint32_t judge_trailer(struct trailer t, size_t file_n, size_t n)
{
    if (t.edition != 1)
        return ZELMOTAR_BAD_EDITION;
    if (t.distance != 8 * (t.cells + 16) + 16 || t.distance > file_n)
        return ZELMOTAR_BAD_DISTANCE;
    if (t.capacity < 16 + t.cells || t.capacity > 4096)
        return ZELMOTAR_BAD_CAPACITY;
    return n == 2 * t.capacity ? ZELMOTAR_DONE : ZELMOTAR_WRONG_SLICE;
}

/* The store in a file whose trailer is in order: cell by cell, the first of the heap at `heap`. */
static inline void take_store(uint32_t *words, struct trailer t, const uint8_t *heap)
{
    size_t c, cells = (size_t)t.cells;
    memset(words, 0, 2 * (size_t)t.capacity * sizeof *words);
    for (c = 0; c < cells + ZELMOTAR_REGISTERS; c++) {
        size_t to = c < cells ? c + ZELMOTAR_REGISTERS : c - cells;
        ZELMOTAR_FIRST_WORD(words, to) = word_at(heap + 8 * c);
        ZELMOTAR_SECOND_WORD(words, to) = word_at(heap + 8 * c + 4);
    }
}

/* What loading should answer, and what it should leave in the words (SCOPE 5.9). */
static inline zelmotar_reply expected_load(uint32_t *words, size_t n, const uint8_t *file, size_t file_n)
{
    static uint32_t store[ZELMOTAR_MAX_WORDS];
    zelmotar_reply checked;
    struct trailer t;
    uint32_t status;
    size_t top;
    if (file_n < 16)
        return reply_of(ZELMOTAR_SHORT_FILE, 0);
    t = trailer_of(file, file_n);
    status = judge_trailer(t, file_n, n);
    if (status != ZELMOTAR_DONE)
        return reply_of(status, 0);
    take_store(store, t, file + (file_n - (size_t)t.distance));
    top = ZELMOTAR_REGISTERS + (size_t)t.cells;
    checked = expected_check(store, n, top);
    if (checked.status != ZELMOTAR_DONE) {
        checked.top = 0;
        return checked;
    }
    if (reached_without(store, top, SIZE_MAX) != t.cells)
        return reply_of(ZELMOTAR_NOT_COLLECTED, 0);
    memcpy(words, store, n * sizeof *words);
    return checked;
}

static inline int same_saved(zelmotar_saved one, zelmotar_saved other)
{
    return one.status == other.status && one.rule == other.rule && one.value == other.value && one.top == other.top &&
           one.length == other.length;
}

#endif
