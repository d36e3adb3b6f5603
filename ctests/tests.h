/* Counts tests, and prints each that fails. */
#ifndef TESTS_H
#define TESTS_H

#include <inttypes.h>
#include <stdio.h>

static int tests, passed;

static inline int is_as_wanted(const char *call, const char *what, uint32_t got, uint32_t wanted)
{
    if (got != wanted)
        printf("%s, %s: %" PRIu32 ", not %" PRIu32 "\n", call, what, got, wanted);
    return got == wanted;
}

static inline void expect(const char *call, const char *what, uint32_t got, uint32_t wanted)
{
    tests++;
    passed += is_as_wanted(call, what, got, wanted);
}

/* The exit status. */
static inline int finished(const char *of)
{
    printf("%s: %d of %d tests passed\n", of, passed, tests);
    return passed == tests ? 0 : 1;
}

#endif
