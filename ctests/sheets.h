/* Sheets to try the calls on. They are packed here, out of marks as text, and not by the header's own functions: those
 * are tested by this. */
#ifndef SHEETS_H
#define SHEETS_H

#include <string.h>

#include "shares.h"

/* The largest sheets. */
#define AGENTS SHARES_MAX_AGENTS
#define CHORES SHARES_MAX_CHORES
#define MARKS (AGENTS * CHORES)
#define SHEET SHARES_MAX_SHEET
#define PRICES (SHARES_PRICE_BYTES * CHORES)
/* Two strands that are such a sheet together, with the seam inside a byte. */
#define SEAM 1997
#define FIRST SHARES_SHEET_BYTES(AGENTS, SEAM)
#define SECOND SHARES_SHEET_BYTES(AGENTS, CHORES - SEAM)
/* A record of more moves than these sheets take, and of far fewer than a sheet might take. */
#define RECORD (SHARES_MOVE_BYTES * 10000)

/* What two sheets must have in common. */
struct terms {
    uint32_t agents, easy, difficult;
};

/* A row of `width` marks for each agent, one after the other: 'e' for easy, 'd' for difficult. */
struct rows {
    struct terms terms;
    const char *marks;
    size_t width;
};

/* Two bytes, high byte first. Hands back the place after them. */
static inline uint8_t *put_two(uint8_t *at, size_t number)
{
    *at++ = SHARES_AS(uint8_t, number >> 8 & 0xff);
    *at++ = SHARES_AS(uint8_t, number & 0xff);
    return at;
}

/* One row, from a fresh byte on. Hands back the place after it. */
static inline uint8_t *put_row(uint8_t *at, const char *marks, size_t chores)
{
    for (size_t c = 0; c < chores; c++) {
        if (c % 8 == 0)
            *at++ = 0;
        if (marks[c] == 'd')
            at[-1] = SHARES_AS(uint8_t, at[-1] + (128 >> c % 8));
    }
    return at;
}

/* The sheet of the chores from `from` to before `to`, counted from 0. Hands back its length. */
static inline size_t pack(uint8_t *sheet, const struct rows *rows, size_t from, size_t to)
{
    uint8_t *at = sheet;
    *at++ = SHARES_AS(uint8_t, rows->terms.agents);
    at = put_two(at, to - from);
    at = put_two(at, rows->terms.easy);
    at = put_two(at, rows->terms.difficult);
    for (size_t i = 0; i < rows->terms.agents; i++)
        at = put_row(at, rows->marks + rows->width * i + from, to - from);
    return SHARES_AS(size_t, at - sheet);
}

/* A number below `below`, and the next state. */
static inline uint32_t draw(uint32_t *state, uint32_t below)
{
    *state = *state * 1664525 + 1013904223;
    return (*state >> 16) % below;
}

/* Marks as a coin falls. */
static inline void toss_marks(char *marks, size_t count, uint32_t seed)
{
    for (size_t k = 0; k < count; k++)
        marks[k] = draw(&seed, 2) == 0 ? 'e' : 'd';
}

/* Marks as the bits of a number are, the lowest first: 1 for difficult. */
static inline void spell_marks(char *marks, size_t count, uint32_t number)
{
    for (size_t k = 0; k < count; k++)
        marks[k] = number >> k & 1 ? 'd' : 'e';
}

/* The marks of a largest sheet. Each chore is easy for one agent and now and then for another. Low numbers like far
 * more of them, so that prices are cut. */
static inline struct rows draw_rows(char *marks, uint32_t seed)
{
    struct rows rows = {{AGENTS, 1, 3}, marks, CHORES};
    memset(marks, 'd', MARKS);
    for (size_t c = 0; c < CHORES; c++) {
        uint32_t home = draw(&seed, 1 + draw(&seed, 1 + draw(&seed, AGENTS)));
        marks[CHORES * home + c] = 'e';
        if (draw(&seed, 20) == 0)
            marks[CHORES * draw(&seed, AGENTS) + c] = 'e';
    }
    return rows;
}

/* A largest sheet and its two strands. */
struct joinable {
    uint8_t sheet[SHEET], first[FIRST], second[SECOND];
};

static inline void make_joinable(struct joinable *made, uint32_t seed)
{
    static char marks[MARKS];
    const struct rows rows = draw_rows(marks, seed);
    pack(made->sheet, &rows, 0, CHORES);
    pack(made->first, &rows, 0, SEAM);
    pack(made->second, &rows, SEAM, CHORES);
}

#endif
