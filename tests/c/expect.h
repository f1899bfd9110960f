/* expect.h: what the C tests share. EXPECT counts what holds and says what does not; a test ends with
 * `return expect_end();`, which prints the counts as the last line and is the exit status. */
#ifndef EXPECT_H
#define EXPECT_H

#include <stdio.h>

static unsigned expect_passed, expect_failed;

static inline void expect(int holds, const char *what, const char *file, int line)
{
    if (holds) {
        expect_passed++;
    } else {
        expect_failed++;
        printf("%s:%d: %s does not hold\n", file, line, what);
    }
}

#define EXPECT(what) expect((what) != 0, #what, __FILE__, __LINE__)

static inline int expect_end(void)
{
    printf("%u passed, %u failed\n", expect_passed, expect_failed);
    return expect_failed != 0 || expect_passed == 0;
}

#endif
