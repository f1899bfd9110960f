/* One reading, feed 7 at 12 A, in a store that is collected; then its unit is asked for. README.md shows a part. */
#include <stdio.h>

#include "zelmotar.h"

#define AMPS 1

int main(void)
{
    const uint32_t calls[10][4] = {
        {ZELMOTAR_SYMBOL, 0, 7, 0},  {ZELMOTAR_SYMBOL, 1, AMPS, 0}, {ZELMOTAR_JOIN, 0, 0, 1}, /* 7 AMPS */
        {ZELMOTAR_SYMBOL, 1, 12, 0}, {ZELMOTAR_JOIN, 0, 0, 1},      {ZELMOTAR_WRAP, 0, 0, 0}, /* (7 AMPS 12) */
        {ZELMOTAR_COLLECT, 0, 0, 0}, {ZELMOTAR_OPEN, 1, 0, 0},      {ZELMOTAR_REST, 1, 1, 0}, /* AMPS 12 */
        {ZELMOTAR_FIRST, 0, 1, 0},                                                            /* its value: AMPS */
    };
    uint32_t words[80], answers[20]; /* 40 cells; a status and a value for each call */
    zelmotar_reply answer = zelmotar_fresh(words, 80);
    answer = zelmotar_run(words, 80, answer.top, calls[0], 40, answers, 20);
    printf("unit %u, %s\n", (unsigned)answers[19], zelmotar_status_text(answers[18]));
    /* A fresh store that is refused has top 0, with which the batch is refused too. */
    return answer.status != ZELMOTAR_DONE || answers[18] != ZELMOTAR_DONE || answers[19] != AMPS;
}
