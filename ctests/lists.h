/* Owner lists of a sheet, and what they cost. */
#ifndef LISTS_H
#define LISTS_H

#include <stdbool.h>

#include "sheets.h"
#include "tests.h"

/* The size and the weights of a sheet. */
static inline const char *name(const struct rows *rows)
{
    static char text[100];
    const struct terms *terms = &rows->terms;
    snprintf(text, sizeof text, "%" PRIu32 " x %zu, weights %" PRIu32 " and %" PRIu32, terms->agents, rows->width,
             terms->easy, terms->difficult);
    return text;
}

/* An owner for each of the chores that the rows have marks for. */
struct list {
    struct rows rows;
    size_t chores;
    const uint8_t *owners;
};

static inline uint32_t cost(const struct list *list, size_t i, size_t chore)
{
    const struct rows *rows = &list->rows;
    return rows->marks[rows->width * (i - 1) + chore] == 'e' ? rows->terms.easy : rows->terms.difficult;
}

/* What the chores that `owners` gives to agent j cost agent i. */
static inline uint32_t cost_of(const struct list *list, const uint8_t *owners, size_t i, size_t j)
{
    uint32_t sum = 0;
    for (size_t c = 0; c < list->chores; c++)
        if (owners[c] == j)
            sum += cost(list, i, c);
    return sum;
}

/* The next of all lists. False after the last, and then it is the first again. */
static inline bool next_list(uint8_t *owners, size_t chores, uint32_t agents)
{
    size_t c = 0;
    while (c < chores && owners[c] == agents)
        owners[c++] = 1;
    if (c < chores)
        owners[c]++;
    return c < chores;
}

static inline bool dominates(const uint8_t *other, const struct list *list)
{
    uint32_t more = 0, less = 0;
    for (size_t i = 1; i <= list->rows.terms.agents; i++) {
        uint32_t then = cost_of(list, other, i, i), now = cost_of(list, list->owners, i, i);
        more += then > now;
        less += then < now;
    }
    return more == 0 && less > 0;
}

/* Whether some list dominates, out of all lists. */
static inline bool is_wasteful(const struct list *list)
{
    uint8_t other[CHORES];
    bool found = false;
    memset(other, 1, list->chores);
    do
        found = dominates(other, list);
    while (!found && next_list(other, list->chores, list->rows.terms.agents));
    return found;
}

#endif
