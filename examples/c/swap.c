/* A controller is swapped: yesterday's readings are saved to a file, the words go with the old controller, and the new
 * one takes the store up again. Files that were damaged on the way are refused, and change no word.
 *
 * usage: swap [FILE]
 *
 * FILE is written, read and removed again; it is swap.store if none is named. Every status is looked at. A file has no
 * checksum: here a bit of a right end is changed, and the cell then breaks its rule; a bit of a code would only make it
 * another code. */
#include <stdio.h>
#include <stdlib.h>
#include <string.h>

#include "zelmotar.h"

#define WORDS 96 /* 48 cells, in either controller */
#define SPACE 80 /* the most bytes lent for a text */

static uint32_t store[WORDS];
static size_t top;
static uint8_t file[ZELMOTAR_FILE_BYTES(WORDS / 2)]; /* room for the file of any store of 48 cells */

/* Ends the program unless a status is the one that is expected. */
static void demand(const char *what, uint32_t status, uint32_t expected)
{
    if (status == expected)
        return;
    fprintf(stderr, "%s: status %u, %s\n", what, (unsigned)status, zelmotar_status_text(status));
    exit(1);
}

/* Ends the program unless something went well outside the store. */
static void demand_file(const char *name, int well)
{
    if (well)
        return;
    perror(name);
    exit(1);
}

static void type(const char *text)
{
    zelmotar_typed answer = zelmotar_type(store, WORDS, top, 0, (const uint8_t *)text, strlen(text));
    demand("the readings", answer.status, ZELMOTAR_DONE);
    top = answer.top;
}

/* Prints register 0. The byte after those that are lent is 0, so the text is a C string. */
static void show(const char *when)
{
    uint8_t text[SPACE + 1] = {0};
    zelmotar_text answer = zelmotar_print(store, WORDS, top, 0, text, SPACE);
    demand("a print", answer.status, ZELMOTAR_DONE);
    printf("%s: %s, top %u\n", when, (const char *)text, (unsigned)top);
}

/* Saves the store to a file of this name. Of the space only the bytes of the file are written. */
static void save(const char *name)
{
    zelmotar_saved answer = zelmotar_save(store, WORDS, top, file, sizeof file);
    FILE *to;
    demand("saving", answer.status, ZELMOTAR_DONE);
    top = answer.top;
    to = fopen(name, "wb");
    demand_file(name, to != NULL);
    demand_file(name, fwrite(file, 1, answer.length, to) == answer.length);
    demand_file(name, fclose(to) == 0);
    printf("saved: %u bytes, top %u\n", (unsigned)answer.length, (unsigned)top);
}

/* Reads the file and gives its length. */
static size_t read_file(const char *name)
{
    FILE *from = fopen(name, "rb");
    size_t length;
    demand_file(name, from != NULL);
    length = fread(file, 1, sizeof file, from);
    demand_file(name, ferror(from) == 0 && fclose(from) == 0);
    return length;
}

/* Loads a file, which must have the status that is expected; where it is refused, says why. */
static void load(const char *what, const uint8_t *from, size_t length, uint32_t expected)
{
    zelmotar_reply answer = zelmotar_load(store, WORDS, from, length);
    demand(what, answer.status, expected);
    if (answer.status == ZELMOTAR_DONE)
        top = answer.top;
    else if (answer.status == ZELMOTAR_DAMAGED)
        printf("%s: %s, the first is cell %u: %s\n", what, zelmotar_status_text(answer.status), (unsigned)answer.value,
               zelmotar_rule_text(answer.rule));
    else
        printf("%s: %s\n", what, zelmotar_status_text(answer.status));
}

/* The old controller. A reading is a bracket of feed, unit and value; 1 is for A and 2 for mA. What register 0 held
 * before is dead, and does not go into the file. */
static void run_old(const char *name)
{
    zelmotar_reply made = zelmotar_fresh(store, WORDS);
    demand("a fresh store", made.status, ZELMOTAR_DONE);
    top = made.top;
    type("(7 2 118)");
    type("(7 2 120) (7 2 125) (8 1 12)");
    show("yesterday");
    save(name);
}

int main(int count, char **list)
{
    const char *name = count > 1 ? list[1] : "swap.store";
    size_t length;
    run_old(name);
    memset(store, 0xff, sizeof store), memset(file, 0xff, sizeof file);
    printf("the controller is swapped\n");

    length = read_file(name);
    printf("the file asks for %u words\n", (unsigned)zelmotar_file_words(file, length));
    load("taking up", file, length, ZELMOTAR_DONE);
    show("today");

    load("cut off after 100 bytes", file, 100, ZELMOTAR_BAD_EDITION);
    load("without its first 100 bytes", file + 100, length - 100, ZELMOTAR_BAD_DISTANCE);
    file[8 * 9 + 4] ^= 16; /* the lowest byte of the right end of cell 25, the first bracket behind nine symbols */
    load("with a bit changed", file, length, ZELMOTAR_DAMAGED);
    show("still");
    demand_file(name, remove(name) == 0);
    return 0;
}
