/* What tests of refusals share: faulty sheets, and a look at what was lent. */
#ifndef REFUSED_H
#define REFUSED_H

#include <string.h>

#include "shares.h"
#include "tests.h"

/* Most are of 2 agents, 5 chores, weights 1 and 3, and rows eeeee and dddde, but for the fault. */
struct fault {
    const char *what;
    uint8_t number;
    const char *bytes;
    size_t length;
};

#define FAULT(what, number, bytes) {what, number, bytes, sizeof bytes - 1}

static const struct fault faults[] = {
    FAULT("no agents", SHARES_BAD_AGENTS, "\0\0\5\0\1\0\3" "\x00\xf0"),
    FAULT("33 agents", SHARES_BAD_AGENTS, "\41\0\5\0\1\0\3" "\x00\xf0"),
    FAULT("4,001 chores", SHARES_BAD_CHORES, "\2\x0f\xa1\0\1\0\3" "\x00\xf0"),
    FAULT("4,000 chores, low byte first", SHARES_BAD_CHORES, "\2\xa0\x0f\0\1\0\3" "\x00\xf0"),
    FAULT("65,535 chores", SHARES_BAD_CHORES, "\2\xff\xff\0\1\0\3" "\x00\xf0"),
    FAULT("easy weight 0", SHARES_BAD_WEIGHTS, "\2\0\5\0\0\0\3" "\x00\xf0"),
    FAULT("easy weight 257", SHARES_BAD_WEIGHTS, "\2\0\5\1\1\0\3" "\x00\xf0"),
    FAULT("equal weights", SHARES_BAD_WEIGHTS, "\2\0\5\0\1\0\1" "\x00\xf0"),
    FAULT("difficult weight 1001", SHARES_BAD_WEIGHTS, "\2\0\5\0\1\3\351" "\x00\xf0"),
    FAULT("the bit after the first row", SHARES_BAD_PADDING, "\2\0\5\0\1\0\3" "\x04\xf0"),
    FAULT("the last bit beside the first row", SHARES_BAD_PADDING, "\2\0\5\0\1\0\3" "\x01\xf0"),
    FAULT("the bit after the last row", SHARES_BAD_PADDING, "\2\0\5\0\1\0\3" "\x00\xf4"),
    FAULT("the last bit of all", SHARES_BAD_PADDING, "\2\0\5\0\1\0\3" "\x00\xf1"),
    FAULT("rows that start inside a byte", SHARES_BAD_PADDING, "\2\0\5\0\1\0\3" "\x07\x80"),
    FAULT("low bits first", SHARES_BAD_PADDING, "\2\0\5\0\1\0\3" "\x00\x0f"),
    FAULT("7 chores, the bit after the last row", SHARES_BAD_PADDING, "\2\0\7\0\1\0\3" "\x00\xff"),
    FAULT("9 chores, the bit after the first row", SHARES_BAD_PADDING, "\2\0\11\0\1\0\3" "\x00\x40\xff\x80"),
    FAULT("9 chores, the last bit of all", SHARES_BAD_PADDING, "\2\0\11\0\1\0\3" "\x00\x00\xff\x81"),
    FAULT("no bytes", SHARES_BAD_LENGTH, ""),
    FAULT("6 bytes", SHARES_BAD_LENGTH, "\2\0\5\0\1\0"),
    FAULT("no rows", SHARES_BAD_LENGTH, "\2\0\5\0\1\0\3"),
    FAULT("a byte too few", SHARES_BAD_LENGTH, "\2\0\5\0\1\0\3" "\x00"),
    FAULT("a byte too many", SHARES_BAD_LENGTH, "\2\0\5\0\1\0\3" "\x00\xf0\x00"),
    FAULT("5 chores, low byte first", SHARES_BAD_LENGTH, "\2\5\0\0\1\0\3" "\x00\xf0"),
    FAULT("7 chores in no byte", SHARES_BAD_LENGTH, "\2\0\7\0\1\0\3"),
    FAULT("8 chores in two bytes", SHARES_BAD_LENGTH, "\2\0\10\0\1\0\3" "\x00\x00\xff\x00"),
    FAULT("9 chores in a byte", SHARES_BAD_LENGTH, "\2\0\11\0\1\0\3" "\x00\xff"),
    FAULT("a byte too many without chores", SHARES_BAD_LENGTH, "\2\0\0\0\1\0\3" "\x00"),
    FAULT("a byte for each mark", SHARES_BAD_LENGTH, "\2\5\0\1\0\3" "eeeeedddde"),

    /* Two faults: the number is the first one's. */
    FAULT("6 bytes, no agents", SHARES_BAD_LENGTH, "\0\0\5\0\1\0"),
    FAULT("6 bytes, 65,535 chores", SHARES_BAD_LENGTH, "\2\xff\xff\0\1\0"),
    FAULT("6 bytes, easy weight 0", SHARES_BAD_LENGTH, "\2\0\5\0\0\0"),
    FAULT("33 agents, 4,001 chores", SHARES_BAD_AGENTS, "\41\x0f\xa1\0\1\0\3" "\x00\xf0"),
    FAULT("no agents, equal weights", SHARES_BAD_AGENTS, "\0\0\5\0\1\0\1" "\x00\xf0"),
    FAULT("no agents, no rows", SHARES_BAD_AGENTS, "\0\0\5\0\1\0\3"),
    FAULT("no agents, a set bit", SHARES_BAD_AGENTS, "\0\0\5\0\1\0\3" "\x04\xf0"),
    FAULT("4,001 chores, easy weight 0", SHARES_BAD_CHORES, "\2\x0f\xa1\0\0\0\3" "\x00\xf0"),
    FAULT("4,001 chores, no rows", SHARES_BAD_CHORES, "\2\x0f\xa1\0\1\0\3"),
    FAULT("equal weights, a byte too few", SHARES_BAD_WEIGHTS, "\2\0\5\0\1\0\1" "\x00"),
    FAULT("equal weights, a set bit", SHARES_BAD_WEIGHTS, "\2\0\5\0\1\0\1" "\x04\xf0"),
    FAULT("a byte too few, a set bit", SHARES_BAD_LENGTH, "\2\0\5\0\1\0\3" "\x04"),
    FAULT("a byte too many, a set bit", SHARES_BAD_LENGTH, "\2\0\5\0\1\0\3" "\x00\xf4\x00"),
};
#define FAULTS (sizeof faults / sizeof *faults)

/* The number for weights where one must be a multiple of the other: 14 comes after 3. */
static inline uint8_t number_for(uint32_t a, uint32_t b)
{
    if (a == 0 || b <= a || b > SHARES_MAX_WEIGHT)
        return SHARES_BAD_WEIGHTS;
    return b % a == 0 ? SHARES_OK : SHARES_BAD_MULTIPLE;
}

/* Fills what is about to be lent, so that a write is seen. */
static inline void fill_lent(void *lent, size_t size)
{
    uint8_t *bytes = lent;
    for (size_t i = 0; i < size; i++)
        bytes[i] = (uint8_t)(37 * i + 101);
}

static inline int is_kept(const char *call, const char *what, const void *lent, const void *before, size_t size)
{
    int kept = memcmp(lent, before, size) == 0;
    if (!kept)
        printf("%s, %s: something lent has changed\n", call, what);
    return kept;
}

#endif
