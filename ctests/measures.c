/* Everyone's own measure: every refusal number, and that nothing is written with
 * one; sheets worked by hand, all numbers of agents, large sheets, and all small
 * ones beside what is found by trying every split. */
#include "lists.h"
#include "refused.h"

/* The list that is lent, with an entry after it, and what it held before the call. */
static uint32_t lent[AGENTS + 1], before[AGENTS + 1];

static uint8_t measure(const uint8_t *sheet, size_t length)
{
    fill_lent(lent, sizeof lent);
    memcpy(before, lent, sizeof lent);
    return shares_measures(sheet, length, lent);
}

static void expect_refused(const char *what, const uint8_t *sheet, size_t length, uint8_t number)
{
    tests++;
    passed += is_as_wanted("measures", what, measure(sheet, length), number) &
              is_kept("measures", what, lent, before, sizeof lent);
}

/* A sheet's own number comes before 14, which it would have with weights 2 and 3 and no fault. */
static void test_sheets(void)
{
    static uint8_t sheet[SHEET];
    char what[100];
    expect_refused("no sheet", NULL, 0, SHARES_BAD_LENGTH);
    for (size_t i = 0; i < FAULTS; i++) {
        const struct fault *fault = &faults[i];
        memcpy(sheet, fault->bytes, fault->length);
        expect_refused(fault->what, sheet, fault->length, fault->number);
        if (fault->number != SHARES_BAD_WEIGHTS) {
            put_two(put_two(sheet + 3, 2), 3);
            snprintf(what, sizeof what, "%s, weights 2 and 3", fault->what);
            expect_refused(what, sheet, fault->length, fault->number);
        }
    }
}

/* Whether the number for the weights is returned and, with 0, the measures and nothing else are written. */
static bool is_answered(const struct rows *rows, const uint32_t *measures)
{
    static uint8_t sheet[SHEET];
    uint8_t got = measure(sheet, pack(sheet, rows, 0, rows->width));
    uint8_t number = number_for(rows->terms.easy, rows->terms.difficult);
    if (number == SHARES_OK)
        memcpy(before, measures, rows->terms.agents * sizeof *measures);
    return got == number && memcmp(lent, before, sizeof lent) == 0;
}

/* All weights up to just above the limit, and a chore that is easy for one of two agents. */
static void test_weights(void)
{
    const uint8_t uneven[] = {2, 0, 5, 0, 2, 0, 3, 0x00, 0xf0};
    const uint32_t above = SHARES_MAX_WEIGHT + 1;
    uint32_t right = 0;
    expect_refused("weights 2 and 3", uneven, sizeof uneven, SHARES_BAD_MULTIPLE);
    for (uint32_t a = 0; a <= above; a++)
        for (uint32_t b = 0; b <= above; b++) {
            const struct rows rows = {{2, a, b}, "ed", 1};
            const uint32_t measures[] = {a, b};
            right += is_answered(&rows, measures);
        }
    expect("measures", "all weights", right, (above + 1) * (above + 1));
}

static void expect_measured(const char *what, const struct rows *rows, const uint32_t *measures)
{
    char agent[100];
    expect("measures", what, is_answered(rows, measures), 1);
    for (size_t i = 0; i < rows->terms.agents; i++) {
        snprintf(agent, sizeof agent, "measure of agent %zu", i + 1);
        expect(agent, what, lent[i], measures[i]);
    }
}

#define WORKED 4

static const struct {
    const char *what;
    struct rows rows;
    uint32_t measures[WORKED];
} worked[] = {
    {"one agent", {{1, 2, 6}, "edde", 4}, {16}},
    {"no chores", {{3, 1, 2}, "", 0}, {0, 0, 0}},
    {"all easy", {{3, 2, 4}, "eeeee" "eeeee" "eeeee", 5}, {4, 4, 4}},
    {"all difficult for one", {{2, 1, 3}, "eeeee" "ddddd", 5}, {3, 9}},
    {"all difficult", {{2, 2, 6}, "ddd" "ddd", 3}, {12, 12}},
    {"fewer chores than agents", {{4, 1, 3}, "eee" "eed" "dde" "ddd", 3}, {1, 3, 3, 3}},
    /* One pile has the easy ones, the other the difficult one. */
    {"two easy ones for a difficult one", {{2, 1, 2}, "eed" "dee", 3}, {2, 2}},
    {"three for one", {{2, 2, 6}, "eeed" "eede", 4}, {6, 6}},
    /* Where there are more of them than piles, some pile has two. */
    {"more difficult chores than agents", {{4, 1, 3}, "eeeeee" "ddeeee" "ddddde" "dddddd", 6}, {2, 3, 6, 6}},
    {"a number for each agent", {{3, 1, 3}, "eeeeee" "deeeee" "ddeeee", 6}, {2, 3, 4}},
    {"sheet C", {{2, 1, 3}, "eeeee" "dddde", 5}, {3, 7}},
    {"sheet G", {{3, 1, 3}, "eeedd" "ddded" "eeede", 5}, {3, 6, 3}},
};

static void test_worked(void)
{
    for (size_t k = 0; k < sizeof worked / sizeof *worked; k++)
        expect_measured(worked[k].what, &worked[k].rows, worked[k].measures);
}

/* The share-out's own list may cost an agent more: here it gives agent 2 the last two chores. */
static void test_share_out(void)
{
    const struct rows rows = {{2, 1, 2}, "edd" "ede", 3};
    const uint32_t measures[] = {3, 2};
    uint8_t sheet[SHARES_SHEET_BYTES(2, 3)], owners[3], prices[3 * SHARES_PRICE_BYTES], scratch[SHARES_SCRATCH], cuts;
    const struct list list = {rows, 3, owners};
    uint64_t moves;
    pack(sheet, &rows, 0, 3);
    expect("allocate", "rows edd and ede",
           shares_allocate(sheet, sizeof sheet, owners, sizeof owners, prices, sizeof prices, scratch, sizeof scratch,
                           &moves, &cuts),
           SHARES_OK);
    expect("allocate", "what agent 2 has to bear", cost_of(&list, owners, 2, 2), 3);
    expect_measured("rows edd and ede", &rows, measures);
}

static uint32_t greater(uint32_t one, uint32_t other)
{
    return one > other ? one : other;
}

/* The measure of agent i. In every split some pile has an n-th of the difficult chores, rounded up, and some pile costs
 * an n-th of all, rounded up to a multiple of a. Where b is such a multiple, dealing comes to no more. */
static uint32_t known(const struct rows *rows, size_t i)
{
    const uint32_t n = rows->terms.agents, a = rows->terms.easy, b = rows->terms.difficult;
    uint32_t difficult = 0, all = 0;
    for (size_t c = 0; c < rows->width; c++) {
        bool is_difficult = rows->marks[rows->width * (i - 1) + c] == 'd';
        difficult += is_difficult;
        all += is_difficult ? b / a : 1;
    }
    return greater((difficult + n - 1) / n * b, (all + n - 1) / n * a);
}

static void expect_known(const struct rows *rows)
{
    uint32_t measures[AGENTS];
    for (size_t i = 0; i < rows->terms.agents; i++)
        measures[i] = known(rows, i + 1);
    expect("measures", name(rows), is_answered(rows, measures), 1);
}

static char marks[MARKS];

/* Rows with more and more difficult marks, the last of these only, and tossed ones. */
static void test_size(uint32_t n, size_t m)
{
    static const uint32_t weights[][2] = {{1, 2}, {1, 3}, {2, 6}, {1, 1000}, {333, 999}, {2, 3}, {999, 1000}};
    for (size_t k = 0; k < sizeof weights / sizeof *weights; k++) {
        const struct rows rows = {{n, weights[k][0], weights[k][1]}, marks, m};
        for (size_t i = 0; i < n; i++)
            for (size_t c = 0; c < m; c++)
                marks[m * i + c] = c < m * (i + 1) / n ? 'd' : 'e';
        expect_known(&rows);
        toss_marks(marks, n * m, n);
        expect_known(&rows);
    }
}

static void test_sizes(void)
{
    static const size_t widths[] = {0, 1, 7, 8, 9, 31, 32, 33, 63, 64, 65, 255, 256, 257};
    for (uint32_t n = 1; n <= AGENTS; n++)
        for (size_t k = 0; k < sizeof widths / sizeof *widths; k++)
            test_size(n, widths[k]);
    test_size(1, CHORES);
    test_size(AGENTS - 1, CHORES - 1);
    test_size(AGENTS, CHORES);
}

/* The greatest measure that there can be, and the largest sheet, of 125 chores a pile. */
static void test_largest(void)
{
    const struct rows one = {{1, 500, 1000}, marks, CHORES}, rows = {{AGENTS, 500, 1000}, marks, CHORES};
    const uint32_t greatest = 4000000;
    uint32_t measures[AGENTS];
    memset(marks, 'd', MARKS);
    expect_measured("4,000 difficult chores", &one, &greatest);
    memset(marks, 'e', MARKS / 2);
    for (size_t i = 0; i < AGENTS; i++)
        measures[i] = i < AGENTS / 2 ? 62500 : 125000;
    expect_measured("32 x 4,000", &rows, measures);
}

/* Small sheets. */
#define FEW 6

/* A split has the form of a list: for each chore the number of its pile. What the costliest one costs agent i. */
static uint32_t costliest(const struct list *list, size_t i)
{
    uint32_t most = 0;
    for (size_t pile = 1; pile <= list->rows.terms.agents; pile++)
        most = greater(most, cost_of(list, list->owners, i, pile));
    return most;
}

/* The measure of agent i, out of all splits. */
static uint32_t tried(const struct rows *rows, size_t i)
{
    uint8_t piles[FEW];
    const struct list list = {*rows, rows->width, piles};
    uint32_t least = UINT32_MAX;
    memset(piles, 1, sizeof piles);
    do {
        uint32_t most = costliest(&list, i);
        least = most < least ? most : least;
    } while (next_list(piles, rows->width, rows->terms.agents));
    return least;
}

/* All marks. */
static void test_tried(struct terms terms, size_t chores)
{
    const struct rows rows = {terms, marks, chores};
    uint32_t measures[FEW], right = 0, as_known = 0, all = 1u << terms.agents * chores;
    for (uint32_t drawn = 0; drawn < all; drawn++) {
        spell_marks(marks, terms.agents * chores, drawn);
        for (size_t i = 0; i < terms.agents; i++) {
            measures[i] = tried(&rows, i + 1);
            as_known += measures[i] == known(&rows, i + 1);
        }
        right += is_answered(&rows, measures);
    }
    expect("every sheet", name(&rows), right, all);
    expect("every sheet, known without trying", name(&rows), as_known, terms.agents * all);
}

static void test_small(uint32_t agents, size_t most_chores)
{
    const struct terms terms[] = {{agents, 1, 2}, {agents, 1, 3}, {agents, 2, 6}};
    for (size_t chores = 0; chores <= most_chores; chores++)
        for (size_t k = 0; k < sizeof terms / sizeof *terms; k++)
            test_tried(terms[k], chores);
}

int main(void)
{
    test_sheets();
    test_weights();
    test_worked();
    test_share_out();
    test_sizes();
    test_largest();
    test_small(1, FEW);
    test_small(2, FEW);
    test_small(3, 4);
    test_small(4, 3);
    return finished("measures in C");
}
