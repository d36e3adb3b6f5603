/* The share-out, the two checks, the join of two sheets and everyone's own
 * measure as one would write them in C: arrays, loops, no tricks. Nothing is
 * proved of it; tests hold it to the answers of the proved library.
 *
 * Agents and chores are counted from 0 here, and from 1 in lists and verdicts.
 */
#include "plain.h"

#include <stdbool.h>
#include <string.h>

/* A sheet with a list and prices. */
typedef struct {
    size_t agents;
    size_t chores;
    uint32_t easy;        /* the weight of an easy chore */
    uint32_t difficult;   /* the weight of a difficult chore */
    const uint8_t *marks; /* agent by agent, a bit each */
    size_t row_bytes;     /* of each agent's marks */
    uint8_t owner[SHARES_MAX_CHORES];
    uint32_t price[SHARES_MAX_CHORES]; /* not set for the list check */
} Market;

/* Reading what is handed in. */

static uint32_t two_bytes(const uint8_t *at)
{
    return (uint32_t)at[0] << 8 | at[1];
}

static size_t row_bytes(size_t chores)
{
    return (chores + 7) / 8;
}

/* A mark, or a bit after the last one. */
static bool is_set(const Market *market, size_t agent, size_t place)
{
    return market->marks[agent * market->row_bytes + place / 8] >> (7 - place % 8) & 1;
}

/* Whether a bit after the agent's last mark is set. */
static bool has_bits_left(const Market *market, size_t agent)
{
    for (size_t k = market->chores; k < 8 * market->row_bytes; k++)
        if (is_set(market, agent, k))
            return true;
    return false;
}

static uint8_t read_sheet(Market *market, const uint8_t *sheet, size_t length)
{
    if (length < SHARES_HEADER_BYTES)
        return SHARES_BAD_LENGTH;
    market->agents = sheet[0];
    market->chores = two_bytes(sheet + 1);
    market->easy = two_bytes(sheet + 3);
    market->difficult = two_bytes(sheet + 5);
    market->marks = sheet + SHARES_HEADER_BYTES;
    market->row_bytes = row_bytes(market->chores);
    if (market->agents == 0 || market->agents > SHARES_MAX_AGENTS)
        return SHARES_BAD_AGENTS;
    if (market->chores > SHARES_MAX_CHORES)
        return SHARES_BAD_CHORES;
    if (market->easy == 0 || market->difficult <= market->easy || market->difficult > SHARES_MAX_WEIGHT)
        return SHARES_BAD_WEIGHTS;
    if (length != SHARES_SHEET_BYTES(market->agents, market->chores))
        return SHARES_BAD_LENGTH;
    for (size_t i = 0; i < market->agents; i++)
        if (has_bits_left(market, i))
            return SHARES_BAD_PADDING;
    return SHARES_OK;
}

static uint8_t read_owners(Market *market, const uint8_t *owners, size_t length)
{
    if (length != market->chores)
        return SHARES_BAD_OWNER_COUNT;
    for (size_t c = 0; c < length; c++) {
        if (owners[c] == 0 || owners[c] > market->agents)
            return SHARES_BAD_OWNER;
        market->owner[c] = (uint8_t)(owners[c] - 1);
    }
    return SHARES_OK;
}

static uint8_t read_prices(Market *market, const uint8_t *prices, size_t length)
{
    if (length != SHARES_PRICE_BYTES * market->chores)
        return SHARES_BAD_PRICE;
    for (size_t c = 0; c < market->chores; c++) {
        market->price[c] = shares_price(prices, c);
        if (market->price[c] == 0 || market->price[c] > SHARES_MAX_PRICE)
            return SHARES_BAD_PRICE;
    }
    return SHARES_OK;
}

/* Costs and prices. */

static bool finds_easy(const Market *market, size_t agent, size_t chore)
{
    return !is_set(market, agent, chore);
}

static bool finds_none_easy(const Market *market, size_t agent)
{
    for (size_t c = 0; c < market->chores; c++)
        if (finds_easy(market, agent, c))
            return false;
    return true;
}

static uint32_t cost(const Market *market, size_t agent, size_t chore)
{
    return finds_easy(market, agent, chore) ? market->easy : market->difficult;
}

/* What each agent's chores are priced at. */
typedef struct {
    uint32_t sum[SHARES_MAX_AGENTS];
    uint32_t up_to_one[SHARES_MAX_AGENTS]; /* the sum without the dearest */
} Held;

/* All agents in one pass over the chores. */
static void add_up(const Market *market, Held *held)
{
    uint32_t dearest[SHARES_MAX_AGENTS] = {0};
    memset(held->sum, 0, sizeof held->sum);
    for (size_t c = 0; c < market->chores; c++) {
        size_t i = market->owner[c];
        uint32_t price = market->price[c];
        held->sum[i] += price;
        if (price > dearest[i])
            dearest[i] = price;
    }
    for (size_t i = 0; i < market->agents; i++)
        held->up_to_one[i] = held->sum[i] - dearest[i];
}

/* Cost over price. Two of them are compared by cross products. */
typedef struct {
    uint32_t cost;
    uint32_t price;
} Ratio;

/* The agent's ratio for its best chores. */
static Ratio least_ratio(const Market *market, size_t agent)
{
    Ratio least = {1, 0}; /* above all others */
    for (size_t c = 0; c < market->chores; c++) {
        Ratio here = {cost(market, agent, c), market->price[c]};
        if (here.cost * least.price < least.cost * here.price)
            least = here;
    }
    return least;
}

static bool is_best(const Market *market, size_t agent, Ratio least, size_t chore)
{
    return cost(market, agent, chore) * least.price == least.cost * market->price[chore];
}

/* Rings: who can be reached from some agents, and at which distance. */

/* For each agent, the chores that lead from it to their owners. */
typedef struct {
    bool by[SHARES_MAX_AGENTS][SHARES_MAX_CHORES];
} Wanted;

typedef struct {
    size_t unreached; /* how many */
    int distance[SHARES_MAX_AGENTS];
    /* The first link to each agent from the ring before: who wants which of
     * its chores. */
    size_t receiver[SHARES_MAX_AGENTS];
    size_t chore[SHARES_MAX_AGENTS];
} Rings;

#define NOT_REACHED (-1)

static void start_rings(Rings *rings, size_t agents)
{
    rings->unreached = agents;
    for (size_t i = 0; i < agents; i++)
        rings->distance[i] = NOT_REACHED;
}

static void reach(Rings *rings, size_t agent, int ring)
{
    rings->distance[agent] = ring;
    rings->unreached--;
}

/* Finds the agents at distance `ring`. False if there are none. */
static bool next_ring(const Market *market, const Wanted *wanted, Rings *rings, int ring)
{
    size_t before = rings->unreached;
    for (size_t i = 0; i < market->agents; i++) {
        if (rings->distance[i] != ring - 1)
            continue;
        for (size_t c = 0; c < market->chores && rings->unreached > 0; c++) {
            size_t giver = market->owner[c];
            if (rings->distance[giver] == NOT_REACHED && wanted->by[i][c]) {
                reach(rings, giver, ring);
                rings->receiver[giver] = i;
                rings->chore[giver] = c;
            }
        }
    }
    return rings->unreached < before;
}

/* The share-out. */

typedef struct {
    Market market;
    bool entitled[SHARES_MAX_CHORES];
    int group[SHARES_MAX_AGENTS]; /* the cut group, from 1; 0 for none */
    int groups;
    Held held;
    Wanted best;
    Rings rings;
    uint64_t moves;
} Run;

/* The place of the least number, the first of several. */
static size_t first_least(const uint32_t *numbers, size_t count)
{
    size_t least = 0;
    for (size_t k = 1; k < count; k++)
        if (numbers[k] < numbers[least])
            least = k;
    return least;
}

/* Each chore goes to the first agent who finds it easy, else to whoever holds
 * the fewest of the chores before it. A row of difficult marks only is read as
 * all easy. That changes no best chore, so it is of no account later. */
static void open_market(Market *market)
{
    bool likes_none[SHARES_MAX_AGENTS];
    uint32_t held[SHARES_MAX_AGENTS] = {0};
    for (size_t i = 0; i < market->agents; i++)
        likes_none[i] = finds_none_easy(market, i);
    for (size_t c = 0; c < market->chores; c++) {
        size_t i = 0;
        while (i < market->agents && !likes_none[i] && !finds_easy(market, i, c))
            i++;
        bool liked = i < market->agents;
        if (!liked)
            i = first_least(held, market->agents);
        held[i]++;
        market->owner[c] = (uint8_t)i;
        market->price[c] = (liked ? market->easy : market->difficult) * market->difficult;
    }
}

static void start_run(Run *run)
{
    open_market(&run->market);
    add_up(&run->market, &run->held);
    memset(run->entitled, 0, sizeof run->entitled);
    memset(run->group, 0, sizeof run->group);
    run->groups = 0;
    run->moves = 0;
}

static void hand_over(Run *run, size_t chore, size_t receiver)
{
    run->market.owner[chore] = (uint8_t)receiver;
    run->moves++;
    add_up(&run->market, &run->held);
}

/* From the member of the group with the greatest price up to one to the
 * member of the later groups with the least sum. False if no move is due. */
static bool move_2a(Run *run, int group)
{
    size_t giver = 0, receiver = 0;
    uint32_t greatest = 0, least = UINT32_MAX;
    for (size_t i = 0; i < run->market.agents; i++) {
        if (run->group[i] == group && run->held.up_to_one[i] > greatest) {
            giver = i;
            greatest = run->held.up_to_one[i];
        }
        if (run->group[i] > group && run->held.sum[i] < least) {
            receiver = i;
            least = run->held.sum[i];
        }
    }
    if (greatest <= least)
        return false;
    for (size_t c = 0; c < run->market.chores; c++) {
        if (run->market.owner[c] == giver && !run->entitled[c]) {
            hand_over(run, c, receiver);
            return true;
        }
    }
    return false; /* not reached: the giver has such a chore */
}

static void step_2a(Run *run)
{
    for (int group = run->groups - 1; group >= 1; group--)
        while (move_2a(run, group))
            ;
}

static uint32_t least_sum(const Run *run)
{
    uint32_t least = run->held.sum[0];
    for (size_t i = 1; i < run->market.agents; i++)
        if (run->held.sum[i] < least)
            least = run->held.sum[i];
    return least;
}

/* From the first agent with too much, in the nearest ring that has one, to
 * the ring before. False if nobody with too much can be reached. */
static bool move_2b(Run *run)
{
    uint32_t least = least_sum(run);
    start_rings(&run->rings, run->market.agents);
    for (size_t i = 0; i < run->market.agents; i++)
        if (run->held.sum[i] == least)
            reach(&run->rings, i, 0);
    for (int ring = 1; next_ring(&run->market, &run->best, &run->rings, ring); ring++) {
        for (size_t i = 0; i < run->market.agents; i++) {
            if (run->rings.distance[i] == ring && run->held.up_to_one[i] > least) {
                hand_over(run, run->rings.chore[i], run->rings.receiver[i]);
                return true;
            }
        }
    }
    return false;
}

static void step_2b(Run *run)
{
    /* No price changes here, so best chores stay the same. */
    for (size_t i = 0; i < run->market.agents; i++) {
        Ratio least = least_ratio(&run->market, i);
        for (size_t c = 0; c < run->market.chores; c++)
            run->best.by[i][c] = is_best(&run->market, i, least, c);
    }
    while (move_2b(run))
        ;
}

static bool is_done(const Run *run)
{
    uint32_t least = least_sum(run);
    for (size_t i = 0; i < run->market.agents; i++)
        if (run->held.up_to_one[i] > least)
            return false;
    return true;
}

/* Cuts the prices of all that is held by those whom the last search reached. */
static void step_3(Run *run)
{
    Market *market = &run->market;
    run->groups++;
    for (size_t i = 0; i < market->agents; i++)
        if (run->rings.distance[i] != NOT_REACHED)
            run->group[i] = run->groups;
    for (size_t c = 0; c < market->chores; c++) {
        if (run->rings.distance[market->owner[c]] != NOT_REACHED) {
            run->entitled[c] = true;
            market->price[c] = market->price[c] * market->easy / market->difficult;
        }
    }
    add_up(market, &run->held);
}

uint8_t plain_allocate(const uint8_t *sheet, size_t sheet_len,
                       uint8_t *owners, size_t owners_len,
                       uint8_t *prices, size_t prices_len,
                       uint8_t *scratch, size_t scratch_len,
                       uint64_t *moves, uint8_t *cuts)
{
    Run run;
    uint8_t refusal = read_sheet(&run.market, sheet, sheet_len);
    if (refusal != SHARES_OK)
        return refusal;
    size_t chores = run.market.chores;
    if (owners_len < chores || prices_len / SHARES_PRICE_BYTES < chores || scratch_len < SHARES_SCRATCH)
        return SHARES_SHORT_LIST;

    start_run(&run);
    for (;;) {
        step_2a(&run);
        step_2b(&run);
        if (is_done(&run))
            break;
        step_3(&run);
    }

    for (size_t c = 0; c < chores; c++) {
        owners[c] = (uint8_t)(run.market.owner[c] + 1);
        shares_set_price(prices, c, run.market.price[c]);
    }
    memset(scratch, 0, scratch_len); /* it ends as zeros, used or not */
    *moves = run.moves;
    *cuts = (uint8_t)run.groups;
    return SHARES_OK;
}

/* The two checks. */

static uint32_t verdict(uint32_t kind, size_t high)
{
    return kind << 8 | (uint32_t)high << 16;
}

static uint32_t verdict_pair(uint32_t kind, size_t i, size_t j)
{
    return verdict(kind, (i + 1) | (j + 1) << 8);
}

static void count_chores(const Market *market, uint32_t *held)
{
    memset(held, 0, SHARES_MAX_AGENTS * sizeof *held);
    for (size_t c = 0; c < market->chores; c++)
        held[market->owner[c]]++;
}

static uint32_t at_most(uint32_t number, uint32_t limit)
{
    return number < limit ? number : limit;
}

/* What so many chores cost, so many of them difficult. */
static uint32_t cost_of(const Market *market, uint32_t chores, uint32_t difficult)
{
    return (chores - difficult) * market->easy + difficult * market->difficult;
}

/* The first agent that i envies by more than `slack` chores; the number of
 * agents if there is none. Of i's own chores the difficult ones go first. */
static size_t first_envied(const Market *market, const uint32_t *held, size_t i, uint32_t slack)
{
    uint32_t difficult[SHARES_MAX_AGENTS] = {0}; /* of each agent's chores, to i */
    for (size_t c = 0; c < market->chores; c++)
        difficult[market->owner[c]] += !finds_easy(market, i, c);
    uint32_t rest = cost_of(market, held[i] - at_most(slack, held[i]), difficult[i] - at_most(slack, difficult[i]));
    size_t j = 0;
    while (j < market->agents && rest <= cost_of(market, held[j], difficult[j]))
        j++;
    return j;
}

/* Who can pass an easy chore on, to somebody who finds it easy too, and so
 * from agent to agent to one with a difficult chore: all that the rings reach.
 * Whoever is not at distance 0 has easy chores only. */
static void find_relief(const Market *market, Rings *rings)
{
    Wanted wanted;
    start_rings(rings, market->agents);
    for (size_t c = 0; c < market->chores; c++) {
        size_t i = market->owner[c];
        if (rings->distance[i] == NOT_REACHED && !finds_easy(market, i, c))
            reach(rings, i, 0);
    }
    for (size_t i = 0; i < market->agents; i++)
        for (size_t c = 0; c < market->chores; c++)
            wanted.by[i][c] = finds_easy(market, i, c);
    for (int ring = 1; next_ring(market, &wanted, rings, ring); ring++)
        ;
}

/* The first chore that is difficult for this owner, who has one. */
static size_t first_difficult(const Market *market, size_t owner)
{
    size_t c = 0;
    while (market->owner[c] != owner || finds_easy(market, owner, c))
        c++;
    return c;
}

/* The chore, difficult for its owner, goes to the taker, and along the rings
 * each passes an easy chore on. The last one is relieved of a difficult chore
 * by that owner, unless it is that owner. */
static void write_dominating(const Market *market, const Rings *rings, size_t chore, size_t taker, uint8_t *list)
{
    size_t owner = market->owner[chore];
    for (size_t c = 0; c < market->chores; c++)
        list[c] = (uint8_t)(market->owner[c] + 1);
    list[chore] = (uint8_t)(taker + 1);
    size_t i = taker;
    while (rings->distance[i] > 0) {
        list[rings->chore[i]] = (uint8_t)(rings->receiver[i] + 1);
        i = rings->receiver[i];
    }
    if (i != owner)
        list[first_difficult(market, i)] = (uint8_t)(owner + 1);
}

/* A list is dominated exactly when a chore that is difficult for its owner is
 * easy for somebody whom the rings reach. */
static bool find_dominating(const Market *market, uint8_t *list)
{
    Rings rings;
    find_relief(market, &rings);
    for (size_t c = 0; c < market->chores; c++) {
        if (finds_easy(market, market->owner[c], c))
            continue;
        for (size_t i = 0; i < market->agents; i++) {
            if (rings.distance[i] != NOT_REACHED && finds_easy(market, i, c)) {
                write_dominating(market, &rings, c, i, list);
                return true;
            }
        }
    }
    return false;
}

uint32_t plain_check_list(const uint8_t *sheet, size_t sheet_len,
                          const uint8_t *owners, size_t owners_len, uint8_t slack,
                          uint8_t *dominating, size_t dominating_len)
{
    Market market;
    uint8_t refusal = read_sheet(&market, sheet, sheet_len);
    if (refusal == SHARES_OK)
        refusal = read_owners(&market, owners, owners_len);
    if (refusal == SHARES_OK && dominating_len < market.chores)
        refusal = SHARES_SHORT_LIST;
    if (refusal == SHARES_OK && slack > SHARES_MAX_SLACK)
        refusal = SHARES_BAD_SLACK;
    if (refusal != SHARES_OK)
        return refusal;

    uint32_t held[SHARES_MAX_AGENTS];
    count_chores(&market, held);
    for (size_t i = 0; i < market.agents; i++) {
        size_t j = first_envied(&market, held, i, slack);
        if (j < market.agents)
            return verdict_pair(SHARES_UNFAIR, i, j);
    }
    return verdict(find_dominating(&market, dominating) ? SHARES_WASTEFUL : SHARES_HOLDS, 0);
}

/* The first chore that is not a best one of its owner; the number of chores if
 * there is none. */
static size_t first_off_price(const Market *market)
{
    Ratio least[SHARES_MAX_AGENTS];
    for (size_t i = 0; i < market->agents; i++)
        least[i] = least_ratio(market, i);
    size_t c = 0;
    while (c < market->chores && is_best(market, market->owner[c], least[market->owner[c]], c))
        c++;
    return c;
}

uint32_t plain_check_prices(const uint8_t *sheet, size_t sheet_len,
                            const uint8_t *owners, size_t owners_len,
                            const uint8_t *prices, size_t prices_len)
{
    Market market;
    uint8_t refusal = read_sheet(&market, sheet, sheet_len);
    if (refusal == SHARES_OK)
        refusal = read_owners(&market, owners, owners_len);
    if (refusal == SHARES_OK)
        refusal = read_prices(&market, prices, prices_len);
    if (refusal != SHARES_OK)
        return refusal;

    size_t off = first_off_price(&market);
    if (off < market.chores)
        return verdict(SHARES_OFF_PRICE, off + 1);
    Held held;
    add_up(&market, &held);
    for (size_t i = 0; i < market.agents; i++)
        for (size_t j = 0; j < market.agents; j++)
            if (held.up_to_one[i] > held.sum[j])
                return verdict_pair(SHARES_PRICE_ENVY, i, j);
    return verdict(SHARES_ACCEPTED, 0);
}

/* Two strands. */

static uint8_t read_strands(Market *first, const uint8_t *first_sheet, size_t first_len,
                            Market *second, const uint8_t *second_sheet, size_t second_len)
{
    uint8_t refusal = read_sheet(first, first_sheet, first_len);
    if (refusal == SHARES_OK)
        refusal = read_sheet(second, second_sheet, second_len);
    if (refusal != SHARES_OK)
        return refusal;
    if (first->agents != second->agents || first->easy != second->easy || first->difficult != second->difficult)
        return SHARES_UNLIKE_SHEETS;
    if (first->chores + second->chores > SHARES_MAX_CHORES)
        return SHARES_BAD_CHORES;
    return SHARES_OK;
}

/* Adds marks after the first `count` of a row, where no bit is set so far. Bits
 * of their last byte that are no marks are 0, and are not written. */
static void add_marks(uint8_t *row, size_t count, const uint8_t *marks, size_t bytes)
{
    size_t shift = count % 8;
    row += count / 8;
    for (size_t k = 0; k < bytes; k++) {
        uint8_t rest = (uint8_t)(marks[k] << (8 - shift));
        row[k] |= (uint8_t)(marks[k] >> shift);
        if (rest != 0)
            row[k + 1] |= rest;
    }
}

uint8_t plain_join(const uint8_t *first, size_t first_len,
                   const uint8_t *second, size_t second_len,
                   uint8_t *joined, size_t joined_len, size_t *written)
{
    Market one, other;
    uint8_t refusal = read_strands(&one, first, first_len, &other, second, second_len);
    if (refusal != SHARES_OK)
        return refusal;
    size_t chores = one.chores + other.chores;
    if (joined_len < SHARES_SHEET_BYTES(one.agents, chores))
        return SHARES_SHORT_LIST;

    memcpy(joined, first, SHARES_HEADER_BYTES);
    joined[1] = (uint8_t)(chores >> 8);
    joined[2] = (uint8_t)(chores & 0xff);
    uint8_t *row = joined + SHARES_HEADER_BYTES;
    memset(row, 0, one.agents * row_bytes(chores));
    for (size_t i = 0; i < one.agents; i++) {
        memcpy(row, one.marks + i * one.row_bytes, one.row_bytes);
        add_marks(row, one.chores, other.marks + i * other.row_bytes, other.row_bytes);
        row += row_bytes(chores);
    }
    *written = SHARES_SHEET_BYTES(one.agents, chores);
    return SHARES_OK;
}

/* Everyone's own measure. */

static size_t count_difficult(const Market *market, size_t agent)
{
    size_t count = 0;
    for (size_t c = 0; c < market->chores; c++)
        count += !finds_easy(market, agent, c);
    return count;
}

/* Deals so many chores of one cost, each to the bundle that costs least so far. */
static void deal(uint32_t *bundle, size_t bundles, size_t chores, uint32_t cost)
{
    for (size_t c = 0; c < chores; c++)
        bundle[first_least(bundle, bundles)] += cost;
}

/* What the costliest bundle costs the agent, difficult chores dealt first. */
static uint32_t measure(const Market *market, size_t agent)
{
    uint32_t bundle[SHARES_MAX_AGENTS] = {0};
    size_t difficult = count_difficult(market, agent);
    deal(bundle, market->agents, difficult, market->difficult);
    deal(bundle, market->agents, market->chores - difficult, market->easy);
    uint32_t costliest = bundle[0];
    for (size_t k = 1; k < market->agents; k++)
        if (bundle[k] > costliest)
            costliest = bundle[k];
    return costliest;
}

uint8_t plain_measures(const uint8_t *sheet, size_t sheet_len, uint32_t measures[SHARES_MAX_AGENTS])
{
    Market market;
    uint8_t refusal = read_sheet(&market, sheet, sheet_len);
    if (refusal == SHARES_OK && market.difficult % market.easy != 0)
        refusal = SHARES_BAD_MULTIPLE;
    if (refusal != SHARES_OK)
        return refusal;
    for (size_t i = 0; i < market.agents; i++)
        measures[i] = measure(&market, i);
    return SHARES_OK;
}
