/* The list check at every slack: lists worked by hand, agents with few chores,
 * long lists, and all lists of small sheets beside what is found by trying.
 * refusals.c has the slacks that are refused. */
#include "lists.h"
#include "tests.h"

/* Bytes lent after the list. */
#define REST 20
#define FILLED 0xa5

#define HOLDS (SHARES_HOLDS << 8)
#define WASTEFUL (SHARES_WASTEFUL << 8)
#define UNFAIR(i, j) (SHARES_UNFAIR << 8 | (uint32_t)(i) << 16 | (uint32_t)(j) << 24)

static uint8_t sheet[SHEET], shown[CHORES + REST];

static uint32_t judge(const struct list *list, uint8_t slack)
{
    size_t length = pack(sheet, &list->rows, 0, list->chores);
    memset(shown, FILLED, list->chores + REST);
    return shares_check_list(sheet, length, list->owners, list->chores, slack, shown, list->chores + REST);
}

/* With a wasteful list one that dominates it is shown; with every other verdict nothing is written. */
static bool is_shown(const struct list *list, uint32_t verdict)
{
    size_t written = verdict == WASTEFUL ? list->chores : 0, k = written;
    while (k < list->chores + REST && shown[k] == FILLED)
        k++;
    return k == list->chores + REST && (verdict != WASTEFUL || dominates(shown, list));
}

static void expect_judged(const char *what, const struct list *list, uint8_t slack, uint32_t wanted)
{
    char call[100];
    snprintf(call, sizeof call, "slack %d", slack);
    uint32_t verdict = judge(list, slack);
    expect(call, what, verdict, wanted);
    expect(call, what, is_shown(list, verdict), 1);
}

#define WORKED 6

/* Verdicts at slack 0, at 1, and at 2 and above. */
static const struct {
    const char *what;
    struct rows rows;
    uint8_t owners[WORKED];
    uint32_t verdicts[3];
} worked[] = {
    /* To agent 1 its own chores cost 5, then 2, then 1; agent 2's cost 3 and agent 3's 1. */
    {"another pair", {{3, 1, 3}, "edede" "ddded" "dddde", 5}, {1, 1, 1, 2, 3}, {UNFAIR(1, 2), UNFAIR(1, 3), HOLDS}},
    /* Off go a difficult chore and an easy one; two easy ones would leave 3, which is more than 1. */
    {"one of each off", {{2, 1, 3}, "edee" "ddde", 4}, {1, 1, 1, 2}, {UNFAIR(1, 2), UNFAIR(1, 2), HOLDS}},
    {"nothing left", {{3, 1, 3}, "ede" "ede" "ede", 3}, {1, 1, 2}, {UNFAIR(1, 2), UNFAIR(1, 3), HOLDS}},
    /* Agent 1 has one chore, agent 2 two and agent 3 none. */
    {"another agent", {{3, 1, 3}, "eee" "eee" "eee", 3}, {1, 2, 2}, {UNFAIR(1, 3), UNFAIR(2, 3), HOLDS}},
    /* A share-out's own list, of sheet C. */
    {"a share-out", {{2, 1, 3}, "eeeee" "dddde", 5}, {2, 2, 1, 1, 2}, {UNFAIR(2, 1), HOLDS, HOLDS}},
    {"no envy", {{2, 1, 2}, "ed" "de", 2}, {1, 2}, {HOLDS, HOLDS, HOLDS}},
    {"waste, and envy up to one", {{2, 1, 2}, "ed" "de", 2}, {2, 1}, {UNFAIR(1, 2), WASTEFUL, WASTEFUL}},
    /* Agent 2 envies by two chores; in this list and the next both would gain if the first two were swapped. */
    {"waste, and envy up to two", {{2, 1, 2}, "edee" "deee", 4}, {2, 1, 2, 2}, {UNFAIR(2, 1), UNFAIR(2, 1), WASTEFUL}},
    /* To each its own chores cost 5 and the other's 7. */
    {"waste, and no envy", {{2, 1, 3}, "deeedd" "edddee", 6}, {1, 2, 1, 1, 2, 2}, {WASTEFUL, WASTEFUL, WASTEFUL}},
};

static void test_worked(void)
{
    for (size_t k = 0; k < sizeof worked / sizeof *worked; k++)
        for (uint8_t slack = 0; slack <= SHARES_MAX_SLACK; slack++) {
            const struct list list = {worked[k].rows, worked[k].rows.width, worked[k].owners};
            expect_judged(worked[k].what, &list, slack, worked[k].verdicts[slack < 2 ? slack : 2]);
        }
}

/* What is left, at each slack, of the cost of three difficult chores and five easy ones. */
static const uint32_t rest[SHARES_MAX_SLACK + 1] = {14, 11, 8, 5, 4, 3, 2, 1, 0};
#define HELD 8
#define OTHERS 15

/* Agent 1 has these, and agent 2 some that are easy for both. */
static void test_costliest_first(void)
{
    char marks[2 * (HELD + OTHERS)], what[100];
    uint8_t owners[HELD + OTHERS];
    memset(marks, 'e', sizeof marks);
    memcpy(marks, "ededeede", HELD);
    memset(marks + HELD + OTHERS, 'd', HELD);
    memset(owners, 1, HELD);
    memset(owners + HELD, 2, OTHERS);
    for (uint32_t others = 0; others <= OTHERS; others++) {
        const struct list list = {{{2, 1, 3}, marks, HELD + OTHERS}, HELD + others, owners};
        snprintf(what, sizeof what, "eight chores beside %" PRIu32, others);
        for (uint8_t slack = 0; slack <= SHARES_MAX_SLACK; slack++)
            expect_judged(what, &list, slack, rest[slack] > others ? UNFAIR(1, 2) : HOLDS);
    }
}

#define TOO_MANY (SHARES_MAX_SLACK + 1)

/* Somebody with no more chores than the slack envies nobody, not even one who has none; with one more it does. */
static void test_few(size_t chores, uint8_t owner)
{
    uint8_t owners[TOO_MANY];
    const struct list list = {{{2, 1, 3}, "eeeeeeeee" "ddddddddd", TOO_MANY}, chores, owners};
    char what[100];
    memset(owners, owner, sizeof owners);
    snprintf(what, sizeof what, "%zu chores, all with agent %d", chores, owner);
    for (uint8_t slack = 0; slack <= SHARES_MAX_SLACK; slack++)
        expect_judged(what, &list, slack, slack < chores ? UNFAIR(owner, 3 - owner) : HOLDS);
}

/* The same of agent 1, who would gain by a swap of its first chore for agent 2's only one. Agent 3 has none. */
static void test_few_and_waste(size_t few)
{
    uint8_t owners[TOO_MANY + 1];
    const struct rows rows = {{3, 1, 3}, "deeeeeeeee" "eddddddddd" "eeeeeeeeee", TOO_MANY + 1};
    const struct list list = {rows, few + 1, owners};
    char what[100];
    memset(owners, 1, sizeof owners);
    owners[few] = 2;
    snprintf(what, sizeof what, "%zu chores, the first for a swap", few);
    for (uint8_t slack = 0; slack <= SHARES_MAX_SLACK; slack++) {
        size_t left = slack == 0 ? few + 2 : slack < few ? few - slack : 0;
        expect_judged(what, &list, slack, left > 1 ? UNFAIR(1, 2) : left > 0 ? UNFAIR(1, 3) : WASTEFUL);
    }
}

/* All marks are alike and all agents have as many chores, but the last has some of the one before it. So the others
 * envy that one by so many, and the last envies it by twice as many. */
static void test_long(uint32_t agents, size_t each, char mark)
{
    static char row[CHORES];
    static uint8_t owners[CHORES];
    const size_t chores = agents * each;
    const struct list list = {{{agents, SHARES_MAX_WEIGHT - 1, SHARES_MAX_WEIGHT}, row, 0}, chores, owners};
    char what[100];
    memset(row, mark, chores);
    for (size_t c = 0; c < chores; c++)
        owners[c] = (uint8_t)(c / each + 1);
    for (uint32_t some = 1; some <= TOO_MANY; some++) {
        owners[chores - each - some] = (uint8_t)agents;
        snprintf(what, sizeof what, "%" PRIu32 " x %zu, %" PRIu32 " too many", agents, chores, some);
        for (uint8_t slack = 0; slack <= SHARES_MAX_SLACK; slack++) {
            uint32_t i = slack < some ? 1 : agents;
            expect_judged(what, &list, slack, slack < 2 * some ? UNFAIR(i, agents - 1) : HOLDS);
        }
    }
}

/* The largest sheet, and counts just below and above 256. */
static void test_long_lists(void)
{
    for (const char *mark = "ed"; *mark != '\0'; mark++) {
        test_long(AGENTS, CHORES / AGENTS, *mark);
        test_long(4, 256, *mark);
        test_long(3, 250, *mark);
    }
}

/* Small sheets. */
#define FEW 5

/* The fewest of i's chores without which the rest costs i no more than j's, out of all choices of any chores. */
static uint32_t fewest_off(const struct list *list, size_t i, size_t j)
{
    uint32_t fewest = FEW, envied = cost_of(list, list->owners, i, j);
    for (uint32_t choice = 0; choice < 1u << list->chores; choice++) {
        uint32_t off = 0, left = 0;
        for (size_t c = 0; c < list->chores; c++) {
            if (choice >> c & 1)
                off++;
            else if (list->owners[c] == i)
                left += cost(list, i, c);
        }
        if (left <= envied && off < fewest)
            fewest = off;
    }
    return fewest;
}

/* The pair becomes the verdict at each slack where i envies j and no pair is noted yet. */
static void note_pair(const struct list *list, size_t i, size_t j, uint32_t wanted[SHARES_MAX_SLACK + 1])
{
    uint32_t off = fewest_off(list, i, j);
    for (uint32_t slack = 0; slack < off; slack++)
        if (wanted[slack] == HOLDS || wanted[slack] == WASTEFUL)
            wanted[slack] = UNFAIR(i, j);
}

/* How many of the verdicts on a list, one for each slack, are those found by trying. */
static uint32_t right_verdicts(const struct list *list)
{
    uint32_t wanted[SHARES_MAX_SLACK + 1], right = 0, agents = list->rows.terms.agents;
    const uint32_t without_envy = is_wasteful(list) ? WASTEFUL : HOLDS;
    for (size_t slack = 0; slack <= SHARES_MAX_SLACK; slack++)
        wanted[slack] = without_envy;
    for (size_t i = 1; i <= agents; i++)
        for (size_t j = 1; j <= agents; j++)
            note_pair(list, i, j, wanted);
    for (uint8_t slack = 0; slack <= SHARES_MAX_SLACK; slack++) {
        uint32_t verdict = judge(list, slack);
        right += verdict == wanted[slack] && is_shown(list, verdict);
    }
    return right;
}

/* All marks and all lists. */
static void test_tried(struct terms terms, size_t chores)
{
    char marks[3 * FEW];
    uint8_t owners[FEW];
    const struct list list = {{terms, marks, chores}, chores, owners};
    uint32_t right = 0, all = 0;
    memset(owners, 1, sizeof owners);
    for (uint32_t drawn = 0; drawn < 1u << terms.agents * chores; drawn++) {
        spell_marks(marks, terms.agents * chores, drawn);
        do {
            right += right_verdicts(&list);
            all += SHARES_MAX_SLACK + 1;
        } while (next_list(owners, chores, terms.agents));
    }
    expect("every list at every slack", name(&list.rows), right, all);
}

int main(void)
{
    const struct terms two[] = {{2, 1, 2}, {2, 1, 3}, {2, 2, 3}}, three[] = {{3, 1, 2}, {3, 1, 3}, {3, 2, 3}};
    test_worked();
    test_costliest_first();
    for (size_t chores = 1; chores <= TOO_MANY; chores++) {
        test_few(chores, 1);
        test_few(chores, 2);
        test_few_and_waste(chores);
    }
    test_long_lists();
    for (size_t k = 0; k < 3; k++) {
        test_tried(two[k], 4);
        test_tried(two[k], FEW);
        test_tried(three[k], 3);
    }
    return finished("slack in C");
}
