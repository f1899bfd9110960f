/* One symbol goes into a store, and its code comes back. */
#include <stdio.h>
#include <zelmotar.h>

#define WORDS (ZELMOTAR_MIN_WORDS + 32) /* a heap of 16 cells */

int main(void)
{
    uint32_t words[WORDS], answers[4];
    const uint32_t calls[8] = {ZELMOTAR_SYMBOL, 0, 65, 0, ZELMOTAR_FIRST, 0, 0, 0};
    zelmotar_reply answer = zelmotar_fresh(words, WORDS);
    answer = zelmotar_run(words, WORDS, answer.top, calls, 8, answers, 4);
    printf("status %u, code %u, top %u\n", (unsigned)answer.status, (unsigned)answers[3], (unsigned)answer.top);
    return answer.status != ZELMOTAR_DONE;
}
