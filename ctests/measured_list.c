/* Lists that respect the measure: every refusal number, and that nothing is
 * written with one; lent lists of many lengths; sheets worked by hand, all numbers
 * of agents, large sheets, and all small ones beside every list. Which list is
 * found is left free. So it is judged, and compared with another only where no
 * other would do. */
#include "lists.h"
#include "refused.h"

/* Bytes before and after the longest list. */
#define REST 20

/* All that the call is handed, and what it held before. */
struct lent {
    uint8_t sheet[SHEET + 1], list[REST + CHORES + REST];
};
static struct lent lent, before;

/* What is lent of the list starts here. */
static uint8_t *const owners = lent.list + REST;

/* No bytes are lent at NULL. */
static uint8_t find_list(size_t length, size_t count)
{
    memcpy(&before, &lent, sizeof lent);
    return shares_measured_list(length == 0 ? NULL : lent.sheet, length, count == 0 ? NULL : owners, count);
}

/* Whether nothing but the first `written` owners has changed. */
static bool is_rest_kept(size_t written)
{
    memcpy(before.list + REST, owners, written);
    return memcmp(&lent, &before, sizeof lent) == 0;
}

static void expect_refused(const char *what, size_t length, size_t count, uint8_t number)
{
    char call[100];
    snprintf(call, sizeof call, "measured_list into %zu bytes", count);
    fill_lent(lent.list, sizeof lent.list);
    tests++;
    passed += is_as_wanted(call, what, find_list(length, count), number) &
              is_kept(call, what, &lent, &before, sizeof lent);
}

/* Into no bytes, into lists that are too short for 5 chores and for 9, and into one that is long enough for all. */
static void expect_refused_anyway(const char *what, size_t length, uint8_t number)
{
    static const size_t counts[] = {0, 4, 5, 8, 9, CHORES};
    for (size_t k = 0; k < sizeof counts / sizeof *counts; k++)
        expect_refused(what, length, counts[k], number);
}

/* A sheet's own number comes before 8, and before 14, which it would have with weights 2 and 3 and no fault. */
static void test_sheets(void)
{
    char what[100];
    for (size_t i = 0; i < FAULTS; i++) {
        const struct fault *fault = &faults[i];
        memcpy(lent.sheet, fault->bytes, fault->length);
        expect_refused_anyway(fault->what, fault->length, fault->number);
        if (fault->number != SHARES_BAD_WEIGHTS) {
            put_two(put_two(lent.sheet + 3, 2), 3);
            snprintf(what, sizeof what, "%s, weights 2 and 3", fault->what);
            expect_refused_anyway(what, fault->length, fault->number);
        }
    }
}

/* 14 comes before 8, which a list of 4 entries gets with weights of which one is a multiple of the other. */
static void test_multiples(void)
{
    struct rows rows = {{2, 2, 3}, "eeeee" "dddde", 5};
    expect_refused_anyway("weights 2 and 3", pack(lent.sheet, &rows, 0, 5), SHARES_BAD_MULTIPLE);
    rows.terms.difficult = 6;
    size_t length = pack(lent.sheet, &rows, 0, 5);
    for (size_t count = 0; count < 5; count++)
        expect_refused("weights 2 and 6", length, count, SHARES_SHORT_LIST);
    rows.terms.difficult = 1001;
    expect_refused_anyway("weights 2 and 1001", pack(lent.sheet, &rows, 0, 5), SHARES_BAD_WEIGHTS);
}

/* Whether a chore that is easy for one of two agents goes to either, or has the number for the weights; and whether
 * that comes before 8. */
static bool is_numbered(uint32_t a, uint32_t b)
{
    const struct rows rows = {{2, a, b}, "ed", 1};
    uint8_t sheet[SHARES_SHEET_BYTES(2, 1)], list[] = {200, 201};
    const uint8_t number = number_for(a, b);
    pack(sheet, &rows, 0, 1);
    if (shares_measured_list(sheet, sizeof sheet, list, 0) != (number == SHARES_OK ? SHARES_SHORT_LIST : number) ||
        list[0] != 200 || shares_measured_list(sheet, sizeof sheet, list, 1) != number || list[1] != 201)
        return false;
    return number == SHARES_OK ? list[0] == 1 || list[0] == 2 : list[0] == 200;
}

/* All weights up to just above the limit. */
static void test_weights(void)
{
    const uint32_t above = SHARES_MAX_WEIGHT + 1;
    uint32_t right = 0;
    for (uint32_t a = 0; a <= above; a++)
        for (uint32_t b = 0; b <= above; b++)
            right += is_numbered(a, b);
    expect("measured_list", "all weights", right, (above + 1) * (above + 1));
}

static bool is_easy(const struct list *list, size_t i, size_t chore)
{
    return cost(list, i, chore) == list->rows.terms.easy;
}

/* Whether one of those who take a chore finds this one easy. */
static bool has_taker(const struct list *list, const bool *takes, size_t chore)
{
    size_t i = 1;
    while (i <= list->rows.terms.agents && !(takes[i] && is_easy(list, i, chore)))
        i++;
    return i <= list->rows.terms.agents;
}

/* Whether some list dominates, without trying them. Whoever has a difficult chore would take an easy one for it, and
 * whoever has an easy one that somebody would take, takes another for that. If one of them takes a chore that is
 * difficult for its owner, that owner gets in return what the last in line gives away. */
static bool has_line(const struct list *list)
{
    bool takes[AGENTS + 1] = {false}, more = true;
    size_t c = 0;
    for (; c < list->chores; c++)
        takes[list->owners[c]] |= !is_easy(list, list->owners[c], c);
    while (more) {
        more = false;
        for (c = 0; c < list->chores; c++)
            if (!takes[list->owners[c]] && is_easy(list, list->owners[c], c) && has_taker(list, takes, c))
                takes[list->owners[c]] = more = true;
    }
    for (c = 0; c < list->chores; c++)
        if (!is_easy(list, list->owners[c], c) && has_taker(list, takes, c))
            return true;
    return false;
}

static bool is_owned(const struct list *list)
{
    size_t c = 0;
    while (c < list->chores && list->owners[c] >= 1 && list->owners[c] <= list->rows.terms.agents)
        c++;
    return c == list->chores;
}

static bool is_within(const struct list *list, const uint32_t *measures)
{
    size_t i = 1;
    while (i <= list->rows.terms.agents && cost_of(list, list->owners, i, i) <= measures[i - 1])
        i++;
    return i > list->rows.terms.agents;
}

/* Either way to look for waste. */
typedef bool waste_test(const struct list *list);

#define RIGHT "right"
#define NO_OWNER "an owner that is not there"
#define ABOVE "above a measure"
#define WASTE "wasteful"

static const char *judge(const struct list *list, const uint32_t *measures, waste_test *wastes)
{
    if (!is_owned(list))
        return NO_OWNER;
    if (!is_within(list, measures))
        return ABOVE;
    return wastes(list) ? WASTE : RIGHT;
}

/* Whether the list check calls it even or unfair at every slack, and so never wasteful. */
static bool is_never_called_wasteful(size_t length, size_t chores)
{
    static uint8_t shown[CHORES];
    for (uint8_t slack = 0; slack <= SHARES_MAX_SLACK; slack++) {
        uint32_t verdict = shares_check_list(lent.sheet, length, owners, chores, slack, shown, chores);
        enum shares_kind kind = shares_verdict_kind(verdict);
        if (kind != SHARES_HOLDS && kind != SHARES_UNFAIR)
            return false;
    }
    return true;
}

/* Whether the same list is found again, with every byte that is lent a 0, a 1 or a 255 before. */
static bool is_found_again(size_t length, size_t chores)
{
    static const uint8_t fillings[] = {0, 1, 255};
    static uint8_t found[CHORES];
    memcpy(found, owners, chores);
    for (size_t k = 0; k < sizeof fillings; k++) {
        memset(lent.list, fillings[k], sizeof lent.list);
        if (find_list(length, chores) != SHARES_OK || memcmp(owners, found, chores) != 0 || !is_rest_kept(chores))
            return false;
    }
    return true;
}

/* What is wrong with the list that is found where `count` entries are lent, if anything is. */
static const char *found(const struct rows *rows, size_t count, waste_test *wastes)
{
    const struct list list = {*rows, rows->width, owners};
    const size_t length = pack(lent.sheet, rows, 0, rows->width);
    uint32_t measures[AGENTS];
    fill_lent(lent.list, sizeof lent.list);
    if (find_list(length, count) != SHARES_OK)
        return "refused";
    if (!is_rest_kept(rows->width))
        return "more than the list is written";
    if (shares_measures(lent.sheet, length, measures) != SHARES_OK)
        return "no measures";
    const char *verdict = judge(&list, measures, wastes);
    if (strcmp(verdict, RIGHT) == 0 && !is_never_called_wasteful(length, rows->width))
        return "called wasteful";
    if (!is_found_again(length, rows->width))
        return "another list where something else was lent";
    return verdict;
}

static void expect_text(const char *call, const char *what, const char *got, const char *wanted)
{
    tests++;
    if (strcmp(got, wanted) == 0)
        passed++;
    else
        printf("%s, %s: %s, not %s\n", call, what, got, wanted);
}

static void expect_found(const char *what, const struct rows *rows)
{
    expect_text("measured_list", what, found(rows, rows->width, has_line), RIGHT);
}

#define WORKED 5

/* Lists that would not do, and some that would, so that the judge is judged too. */
static const struct {
    const char *what;
    struct rows rows;
    uint8_t owners[WORKED];
    const char *verdict;
} lists[] = {
    {"owner 0", {{2, 1, 2}, "eed" "eed", 3}, {1, 1, 0}, NO_OWNER},
    {"owner 3", {{2, 1, 2}, "eed" "eed", 3}, {1, 1, 3}, NO_OWNER},
    {"the difficult chore alone", {{2, 1, 2}, "eed" "eed", 3}, {1, 1, 2}, RIGHT},
    {"the difficult chore and another", {{2, 1, 2}, "eed" "eed", 3}, {1, 2, 1}, ABOVE},
    /* Even up to one chore: the share-out's own. */
    {"rows edd and ede", {{2, 1, 2}, "edd" "ede", 3}, {1, 2, 2}, ABOVE},
    /* The report's reduction by the greatest idle time. */
    {"three of four", {{2, 1, 3}, "eeee" "deee", 4}, {1, 1, 1, 2}, ABOVE},
    {"chores to swap", {{2, 1, 2}, "ed" "de", 2}, {2, 1}, WASTE},
    {"chores swapped", {{2, 1, 2}, "ed" "de", 2}, {1, 2}, RIGHT},
    /* No two would gain: chore 1 is for agent 2, chore 2 for agent 3, and chore 3 for agent 1. */
    {"three in a ring", {{3, 1, 2}, "ddd" "eed" "ded", 3}, {1, 2, 3}, WASTE},
    {"after the ring", {{3, 1, 2}, "ddd" "eed" "ded", 3}, {2, 3, 1}, RIGHT},
    {"one chore each", {{3, 1, 2}, "eee" "eee" "eed", 3}, {3, 2, 1}, RIGHT},
    /* Agent 2 has none, and agent 3, which has two, envies it by more than one chore. */
    {"an uneven list", {{3, 1, 2}, "eee" "eee" "eed", 3}, {3, 3, 1}, RIGHT},
};

static void test_judge(void)
{
    for (size_t k = 0; k < sizeof lists / sizeof *lists; k++) {
        const struct rows *rows = &lists[k].rows;
        const struct list list = {*rows, rows->width, lists[k].owners};
        uint32_t measures[AGENTS];
        expect("measures", lists[k].what,
               shares_measures(lent.sheet, pack(lent.sheet, rows, 0, rows->width), measures), SHARES_OK);
        expect_text("judged by a search", lists[k].what, judge(&list, measures, has_line), lists[k].verdict);
        expect_text("judged by trying", lists[k].what, judge(&list, measures, is_wasteful), lists[k].verdict);
    }
}

/* The first owner of `only` is 0 where several lists would do. */
static const struct {
    const char *what;
    struct rows rows;
    uint8_t only[WORKED];
} worked[] = {
    {"no chores", {{3, 1, 2}, "", 0}, {0}},
    {"one agent", {{1, 2, 6}, "edde", 4}, {1, 1, 1, 1}},
    {"one agent, no chores", {{1, 1, 2}, "", 0}, {0}},
    {"each its own", {{3, 1, 2}, "edd" "ded" "dde", 3}, {1, 2, 3}},
    {"two each", {{2, 1, 3}, "eedd" "ddee", 4}, {1, 1, 2, 2}},
    {"fewer chores than agents", {{4, 1, 3}, "eee" "eed" "dde" "ddd", 3}, {0}},
    /* Rows of difficult marks only are taken as marked. */
    {"all difficult", {{2, 2, 6}, "ddd" "ddd", 3}, {0}},
    {"all difficult for one", {{2, 1, 3}, "eeeee" "ddddd", 5}, {0}},
    {"a row of difficult marks beside two", {{3, 1, 2}, "ddd" "eed" "ded", 3}, {0}},
    /* Too much goes to somebody by the report's reduction, the share-out from its first opening, and from today's. */
    {"rows eeee and deee", {{2, 1, 3}, "eeee" "deee", 4}, {0}},
    {"rows eed and eed", {{2, 1, 2}, "eed" "eed", 3}, {0}},
    {"rows edd and ede", {{2, 1, 2}, "edd" "ede", 3}, {0}},
    /* Where quotas given out in another order, or in other numbers, run out. */
    {"rows ee and ed", {{2, 1, 2}, "ee" "ed", 2}, {2, 1}},
    {"rows eeee and eeed", {{2, 1, 3}, "eeee" "eeed", 4}, {0}},
    {"row d", {{1, 1, 2}, "d", 1}, {1}},
    {"rows d and d", {{2, 1, 2}, "d" "d", 1}, {0}},
    /* What quotas alone may waste. */
    {"rows deed and eeee", {{2, 1, 2}, "deed" "eeee", 4}, {2, 1, 1, 2}},
    {"sheet B", {{2, 1, 3}, "eeee" "dddd", 4}, {0}},
    {"sheet C", {{2, 1, 3}, "eeeee" "dddde", 5}, {0}},
    {"sheet D", {{2, 1, 2}, "eee" "eee", 3}, {0}},
    {"sheet E", {{2, 1, 2}, "ed" "de", 2}, {1, 2}},
    {"sheet F", {{2, 1, 2}, "de" "de", 2}, {0}},
    {"sheet G", {{3, 1, 3}, "eeedd" "ddded" "eeede", 5}, {0}},
};

/* How many lists would do, out of all lists. */
static uint32_t right_lists(const struct rows *rows)
{
    uint8_t tried[WORKED];
    const struct list list = {*rows, rows->width, tried};
    uint32_t measures[AGENTS], right = 0;
    shares_measures(lent.sheet, pack(lent.sheet, rows, 0, rows->width), measures);
    memset(tried, 1, sizeof tried);
    do
        right += strcmp(judge(&list, measures, is_wasteful), RIGHT) == 0;
    while (next_list(tried, rows->width, rows->terms.agents));
    return right;
}

static void test_worked(void)
{
    for (size_t k = 0; k < sizeof worked / sizeof *worked; k++) {
        const struct rows *rows = &worked[k].rows;
        expect_found(worked[k].what, rows);
        if (worked[k].only[0] != 0) {
            expect("measured_list, the only one", worked[k].what, memcmp(owners, worked[k].only, rows->width) == 0, 1);
            expect("lists that would do", worked[k].what, right_lists(rows), 1);
        }
    }
}

static char marks[MARKS];

/* Marks of which so many in a thousand are difficult. */
static void draw_marks(size_t count, uint32_t difficult, uint32_t seed)
{
    for (size_t k = 0; k < count; k++)
        marks[k] = draw(&seed, 1000) < difficult ? 'd' : 'e';
}

/* Too short a list is refused, however short it is, and of a longer one the rest is kept. */
static void test_lengths(size_t m)
{
    const struct rows rows = {{3, 1, 3}, marks, m};
    const size_t longer[] = {m, m + 1, m + REST}, shorter[] = {0, 1, m / 2, m - 2, m - 1};
    draw_marks(3 * m, 700, 1);
    for (size_t k = 0; k < sizeof longer / sizeof *longer; k++)
        expect_text("measured_list into a list as long or longer", name(&rows), found(&rows, longer[k], has_line),
                    RIGHT);
    for (size_t k = 0; k < sizeof shorter / sizeof *shorter; k++)
        if (shorter[k] < m)
            expect_refused(name(&rows), pack(lent.sheet, &rows, 0, m), shorter[k], SHARES_SHORT_LIST);
}

static const uint32_t weights[][2] = {{1, 2}, {1, 3}, {2, 6}, {7, 70}, {1, 1000}, {333, 999}, {500, 1000}};
#define WEIGHTS (sizeof weights / sizeof *weights)

/* Rows with more and more difficult marks, the last of these only, and drawn ones, with few difficult ones and many. */
static void test_size(uint32_t n, size_t m)
{
    static const uint32_t difficult[] = {50, 500, 900, 970};
    for (size_t k = 0; k < WEIGHTS; k++) {
        const struct rows rows = {{n, weights[k][0], weights[k][1]}, marks, m};
        for (size_t i = 0; i < n; i++)
            for (size_t c = 0; c < m; c++)
                marks[m * i + c] = c < m * (i + 1) / n ? 'd' : 'e';
        expect_found(name(&rows), &rows);
        for (size_t j = 0; j < sizeof difficult / sizeof *difficult; j++) {
            draw_marks(n * m, difficult[j], n);
            expect_found(name(&rows), &rows);
        }
    }
}

static void test_sizes(void)
{
    static const size_t widths[] = {0, 1, 7, 8, 9, 31, 32, 33, 64, 65, 255, 256, 257};
    for (size_t k = 0; k < sizeof widths / sizeof *widths; k++) {
        test_lengths(widths[k]);
        for (uint32_t n = 1; n <= AGENTS; n++)
            test_size(n, widths[k]);
    }
    test_lengths(CHORES);
    test_size(1, CHORES);
    test_size(2, CHORES);
}

/* Sheets at the limits. The greatest measure is 4,000,000, and where all is difficult it is what everybody bears: the
 * measures together are what the chores cost. */
static void test_largest(void)
{
    static const uint32_t difficult[] = {0, 500, 900, 970, 999, 1000};
    static const uint32_t apart[][2] = {{1, 2}, {1, 1000}, {500, 1000}};
    const struct rows one = {{1, 500, 1000}, marks, CHORES};
    const struct list list = {one, CHORES, owners};
    memset(marks, 'd', MARKS);
    expect_found("4,000 difficult chores", &one);
    expect("measured_list", "what 4,000 difficult chores cost", cost_of(&list, owners, 1, 1), 4000000);
    for (size_t k = 0; k < sizeof apart / sizeof *apart; k++) {
        const struct rows rows = {{AGENTS, apart[k][0], apart[k][1]}, marks, CHORES};
        const struct list shared = {rows, CHORES, owners};
        for (size_t j = 0; j < sizeof difficult / sizeof *difficult; j++) {
            draw_marks(MARKS, difficult[j], 1);
            expect_found(name(&rows), &rows);
        }
        for (size_t i = 1; i <= AGENTS; i++)
            expect("measured_list, all difficult", name(&rows), cost_of(&shared, owners, i, i),
                   CHORES / AGENTS * apart[k][1]);
    }
    for (uint32_t seed = 0; seed < 2; seed++) {
        const struct rows rows = draw_rows(marks, seed);
        expect_found("32 x 4,000, each chore easy for one or two", &rows);
    }
}

/* Small sheets. */
#define FEW 6

/* All marks: whether the search for waste is right of every list. */
static void test_search(struct terms terms, size_t chores)
{
    uint8_t tried[FEW];
    const struct list list = {{terms, marks, chores}, chores, tried};
    uint32_t right = 0, all = 0;
    memset(tried, 1, sizeof tried);
    for (uint32_t drawn = 0; drawn < 1u << terms.agents * chores; drawn++) {
        spell_marks(marks, terms.agents * chores, drawn);
        do {
            right += has_line(&list) == is_wasteful(&list);
            all++;
        } while (next_list(tried, chores, terms.agents));
    }
    expect("waste of every list", name(&list.rows), right, all);
}

/* All marks: what is found, beside every list. */
static void test_tried(struct terms terms, size_t chores)
{
    const struct rows rows = {terms, marks, chores};
    uint32_t right = 0, all = 1u << terms.agents * chores;
    for (uint32_t drawn = 0; drawn < all; drawn++) {
        spell_marks(marks, terms.agents * chores, drawn);
        right += strcmp(found(&rows, chores, is_wasteful), RIGHT) == 0;
    }
    expect("every sheet", name(&rows), right, all);
}

static void test_small(uint32_t agents, size_t most_chores)
{
    const struct terms terms[] = {{agents, 1, 2}, {agents, 1, 3}, {agents, 2, 6}};
    for (size_t chores = 0; chores <= most_chores; chores++)
        for (size_t k = 0; k < sizeof terms / sizeof *terms; k++) {
            test_tried(terms[k], chores);
            if (agents * chores <= 9)
                test_search(terms[k], chores);
        }
}

int main(void)
{
    test_sheets();
    test_multiples();
    test_weights();
    test_judge();
    test_worked();
    test_sizes();
    test_largest();
    test_small(1, FEW);
    test_small(2, FEW);
    test_small(3, 4);
    test_small(4, 3);
    return finished("measured lists in C");
}
