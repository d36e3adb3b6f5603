/* What the header adds to the calls: sizes, limits, marks in bits, prices in
 * bytes, refusals as text, verdicts taken apart. This file is compiled as each C and C++ that the
 * header is for, and STANDARD names it. */
#include <string.h>

#include "shares.h"
#include "shares.h"
#include "sheets.h"
#include "tests.h"

static void test_version(void)
{
    char text[32];
    snprintf(text, sizeof text, "%d.%d.%d", SHARES_VERSION_MAJOR, SHARES_VERSION_MINOR, SHARES_VERSION_PATCH);
    expect("version", "its three numbers", strcmp(SHARES_VERSION, text) == 0, 1);
}

static void test_sizes(void)
{
    const uint8_t agents = 32, few = 255;
    const uint16_t chores = 4000, many = 65535;
    uint8_t sheet[SHARES_SHEET_BYTES(2, 3)];
    expect("row bytes", "no chores", SHARES_ROW_BYTES(0) == 0, 1);
    expect("row bytes", "1 chore", SHARES_ROW_BYTES(1) == 1, 1);
    expect("row bytes", "8 chores", SHARES_ROW_BYTES(8) == 1, 1);
    expect("row bytes", "9 chores", SHARES_ROW_BYTES(9) == 2, 1);
    expect("row bytes", "of a byte, without a wrap", SHARES_ROW_BYTES(few) == 32, 1);
    expect("row bytes", "of two bytes, without a wrap", SHARES_ROW_BYTES(many) == 8192, 1);
    expect("row bytes", "of a sum", SHARES_ROW_BYTES(8 + 1) == 2, 1);
    expect("sheet bytes", "an array's size", sizeof sheet == 9, 1);
    expect("sheet bytes", "no chores", SHARES_SHEET_BYTES(1, 0) == SHARES_HEADER_BYTES, 1);
    expect("sheet bytes", "of bytes, without a wrap", SHARES_SHEET_BYTES(agents, chores) == 16007, 1);
    expect("sheet bytes", "of sums", SHARES_SHEET_BYTES(1 + 1, 2 + 1) == sizeof sheet, 1);
    expect("sheet bytes", "of the longest", SHARES_MAX_SHEET == 16007, 1);
}

static void test_most_moves(void)
{
    const uint8_t agents = 32;
    const uint16_t chores = 4000;
    expect("most moves", "of one agent", SHARES_MOST_MOVES(1, 4000) == 0, 1);
    expect("most moves", "6 x 60", SHARES_MOST_MOVES(6, 60) == 1800, 1);
    expect("most moves", "of bytes, without a wrap", SHARES_MOST_MOVES(agents, chores) == 3968000, 1);
    expect("most moves", "of sums", SHARES_MOST_MOVES(5 + 1, 59 + 1) == 1800, 1);
}

/* The refusal of a sheet of easy marks. */
static uint8_t refusal_of(uint32_t agents, uint32_t chores, uint32_t difficult, size_t scratch_len)
{
    static char easy[CHORES + 1];
    static uint8_t sheet[SHARES_SHEET_BYTES(AGENTS + 1, CHORES + 1)], owners[CHORES + 1];
    static uint8_t prices[SHARES_PRICE_BYTES * (CHORES + 1)], scratch[SHARES_SCRATCH];
    const struct rows rows = {{agents, 1, difficult}, easy, 0};
    uint64_t moves = 0;
    uint8_t cuts = 0;
    memset(easy, 'e', sizeof easy);
    size_t length = pack(sheet, &rows, 0, chores);
    return shares_allocate(sheet, length, owners, sizeof owners, prices, sizeof prices, scratch, scratch_len, &moves,
                           &cuts);
}

/* Each limit is accepted, and one beyond it is not. */
static void test_limits(void)
{
    const uint32_t n = AGENTS, m = CHORES, s = SHARES_SCRATCH;
    expect("limits", "the least scratch", s, 64);
    expect("limits", "all of them", refusal_of(n, m, SHARES_MAX_WEIGHT, s), SHARES_OK);
    expect("limits", "an agent too many", refusal_of(n + 1, m, SHARES_MAX_WEIGHT, s), SHARES_BAD_AGENTS);
    expect("limits", "a chore too many", refusal_of(n, m + 1, SHARES_MAX_WEIGHT, s), SHARES_BAD_CHORES);
    expect("limits", "a weight above", refusal_of(n, m, SHARES_MAX_WEIGHT + 1, s), SHARES_BAD_WEIGHTS);
    expect("limits", "scratch a byte short", refusal_of(n, m, SHARES_MAX_WEIGHT, s - 1), SHARES_SHORT_LIST);
}

/* Every mark is read as it is. */
static void test_marks_read(uint32_t agents, size_t chores)
{
    static char marks[MARKS];
    static uint8_t sheet[SHEET];
    const struct rows rows = {{agents, 1, 3}, marks, chores};
    uint32_t right = 0;
    toss_marks(marks, agents * chores, 5);
    pack(sheet, &rows, 0, chores);
    for (size_t k = 0; k < agents * chores; k++)
        right += shares_is_difficult(sheet, k / chores, k % chores) == (marks[k] == 'd');
    expect("marks", "read", right, SHARES_AS(uint32_t, agents * chores));
}

#define SOME_AGENTS 3
#define SOME_CHORES 17

/* One mark is set, and the rest of the sheet stays. */
static void test_mark_set(const struct rows *rows, char *mark, int difficult)
{
    uint8_t sheet[SHARES_SHEET_BYTES(SOME_AGENTS, SOME_CHORES)], wanted[sizeof sheet];
    const size_t k = SHARES_AS(size_t, mark - rows->marks), length = pack(sheet, rows, 0, rows->width);
    const char before = *mark;
    *mark = difficult == 0 ? 'e' : 'd';
    pack(wanted, rows, 0, rows->width);
    *mark = before;
    shares_set_difficult(sheet, k / rows->width, k % rows->width, difficult);
    expect("marks", "one set", memcmp(sheet, wanted, length) == 0, 1);
}

static void test_marks_set(size_t chores)
{
    char marks[SOME_AGENTS * SOME_CHORES];
    const struct rows rows = {{SOME_AGENTS, 1, 3}, marks, chores};
    toss_marks(marks, sizeof marks, 6);
    for (size_t k = 0; k < SOME_AGENTS * chores; k++) {
        test_mark_set(&rows, &marks[k], 0);
        test_mark_set(&rows, &marks[k], 1);
        test_mark_set(&rows, &marks[k], 256);
    }
}

static void test_marks(void)
{
    for (size_t chores = 1; chores <= SOME_CHORES; chores++) {
        test_marks_read(SOME_AGENTS, chores);
        test_marks_set(chores);
    }
    test_marks_read(2, 255);
    test_marks_read(2, 256);
    test_marks_read(2, 257);
    test_marks_read(AGENTS, CHORES);
}

/* The first and the last byte belong to other entries. */
static void test_price(uint32_t price)
{
    uint8_t list[3 * SHARES_PRICE_BYTES];
    memset(list, 0xa5, sizeof list);
    shares_set_price(list, 1, price);
    expect("price", "read back", shares_price(list, 1), price);
    expect("price", "the entry before", shares_price(list, 0), 0xa5a5a5a5);
    expect("price", "the entry after", shares_price(list, 2), 0xa5a5a5a5);
    expect("price", "high byte first", list[SHARES_PRICE_BYTES], price >> 24);
    expect("price", "low byte last", list[2 * SHARES_PRICE_BYTES - 1], price & 0xff);
}

static void test_texts(void)
{
    const char *const none = shares_refusal_text(255);
    for (uint8_t i = SHARES_OK; i <= SHARES_BAD_MULTIPLE; i++) {
        expect("refusal text", "of its own", strcmp(shares_refusal_text(i), none) != 0, 1);
        for (uint8_t j = 0; j < i; j++)
            expect("refusal text", "each another", strcmp(shares_refusal_text(i), shares_refusal_text(j)) != 0, 1);
    }
    for (uint8_t i = SHARES_BAD_MULTIPLE + 1; i != 0; i++)
        expect("refusal text", "no such number", strcmp(shares_refusal_text(i), none) == 0, 1);
}

/* Two kinds of one value would not compile. */
static const char *name(enum shares_kind kind)
{
    switch (kind) {
    case SHARES_REFUSED:
        return "refused";
    case SHARES_HOLDS:
        return "holds";
    case SHARES_UNFAIR:
        return "unfair";
    case SHARES_WASTEFUL:
        return "wasteful";
    case SHARES_ACCEPTED:
        return "accepted";
    case SHARES_OFF_PRICE:
        return "off price";
    case SHARES_PRICE_ENVY:
        return "price envy";
    default:
        return "no kind";
    }
}

#define FEW 2
#define FEW_PRICES (SHARES_PRICE_BYTES * FEW)

/* Two agents, each of whom finds another chore easy. */
static const uint8_t crossed[SHARES_SHEET_BYTES(2, FEW)] = {2, 0, FEW, 0, 1, 0, 2, 0x40, 0x80};

/* A list for either check, and its verdict: whole and in parts. */
struct judged {
    uint8_t owners[FEW];
    uint32_t prices[FEW];
    uint32_t verdict;
    enum shares_kind kind;
    uint8_t refusal, i, j;
};

static const struct judged lists[] = {
    {{1, 2}, {0, 0}, 0x0000100, SHARES_HOLDS, 0, 0, 0},
    {{1, 1}, {0, 0}, 0x2010200, SHARES_UNFAIR, 0, 1, 2},
    {{2, 1}, {0, 0}, 0x0000300, SHARES_WASTEFUL, 0, 0, 0},
    {{2, 3}, {0, 0}, SHARES_BAD_OWNER, SHARES_REFUSED, SHARES_BAD_OWNER, 0, 0},
};

/* The low byte of the chore stands where i does. */
static const struct judged priced_lists[] = {
    {{1, 2}, {2, 2}, 0x0000400, SHARES_ACCEPTED, 0, 0, 0},
    {{1, 1}, {2, 2}, 0x0020500, SHARES_OFF_PRICE, 0, 2, 0},
    {{1, 1}, {1, 2}, 0x2010600, SHARES_PRICE_ENVY, 0, 1, 2},
    {{1, 2}, {SHARES_MAX_PRICE, SHARES_MAX_PRICE}, 0x0000400, SHARES_ACCEPTED, 0, 0, 0},
    {{1, 2}, {2, SHARES_MAX_PRICE + 1}, SHARES_BAD_PRICE, SHARES_REFUSED, SHARES_BAD_PRICE, 0, 0},
};

static void expect_verdict(uint32_t got, const struct judged *wanted)
{
    const char *kind = name(wanted->kind);
    expect(kind, "the number", got, wanted->verdict);
    expect(kind, "the kind", strcmp(name(shares_verdict_kind(got)), kind) == 0, 1);
    expect(kind, "the refusal", shares_verdict_refusal(got), wanted->refusal);
    expect(kind, "i", shares_verdict_i(got), wanted->i);
    expect(kind, "j", shares_verdict_j(got), wanted->j);
    if (wanted->kind == SHARES_OFF_PRICE)
        expect(kind, "the chore", shares_verdict_chore(got), wanted->i);
}

static void test_lists(void)
{
    uint8_t dominating[FEW];
    for (size_t k = 0; k < sizeof lists / sizeof *lists; k++)
        expect_verdict(shares_check_list(crossed, sizeof crossed, lists[k].owners, FEW, 1, dominating, FEW), &lists[k]);
}

/* The list that wastes at slack 1 is unfair at 0, wastes at the greatest slack, and above that is not judged. */
static void test_slacks(void)
{
    const struct judged unfair = {{2, 1}, {0, 0}, 0x2010200, SHARES_UNFAIR, 0, 1, 2};
    const struct judged wasteful = {{2, 1}, {0, 0}, 0x0000300, SHARES_WASTEFUL, 0, 0, 0};
    const struct judged refused = {{2, 1}, {0, 0}, 13, SHARES_REFUSED, SHARES_BAD_SLACK, 0, 0};
    const uint8_t greatest = SHARES_MAX_SLACK, above = SHARES_MAX_SLACK + 1;
    uint8_t dominating[FEW];
    expect("limits", "the greatest slack", greatest, 8);
    expect_verdict(shares_check_list(crossed, sizeof crossed, unfair.owners, FEW, 0, dominating, FEW), &unfair);
    expect_verdict(shares_check_list(crossed, sizeof crossed, wasteful.owners, FEW, greatest, dominating, FEW),
                   &wasteful);
    expect_verdict(shares_check_list(crossed, sizeof crossed, refused.owners, FEW, above, dominating, FEW), &refused);
}

static void test_priced_lists(void)
{
    for (size_t k = 0; k < sizeof priced_lists / sizeof *priced_lists; k++) {
        const struct judged *list = &priced_lists[k];
        uint8_t prices[FEW_PRICES];
        shares_set_price(prices, 0, list->prices[0]);
        shares_set_price(prices, 1, list->prices[1]);
        expect_verdict(shares_check_prices(crossed, sizeof crossed, list->owners, FEW, prices, FEW_PRICES), list);
    }
}

/* Each chore is a pile, and the costlier one costs 2. With weights 2 and 3 nothing is told. */
static void test_measures(void)
{
    uint8_t sheet[sizeof crossed];
    uint32_t measures[SHARES_MAX_AGENTS];
    memcpy(sheet, crossed, sizeof crossed);
    expect("measures", "told", shares_measures(sheet, sizeof sheet, measures), SHARES_OK);
    expect("measures", "agent 1", measures[0], 2);
    expect("measures", "agent 2", measures[1], 2);
    put_two(put_two(sheet + 3, 2), 3);
    expect("measures", "no multiple", shares_measures(sheet, sizeof sheet, measures), SHARES_BAD_MULTIPLE);
    expect("measures", "the number", SHARES_BAD_MULTIPLE, 14);
}

/* Each has the chore that it finds easy: no other list is right. One entry is too few for two chores. */
static void test_measured_list(void)
{
    uint8_t sheet[sizeof crossed], owners[FEW];
    memcpy(sheet, crossed, sizeof crossed);
    expect("measured list", "found", shares_measured_list(sheet, sizeof sheet, owners, FEW), SHARES_OK);
    expect("measured list", "chore 1", owners[0], 1);
    expect("measured list", "chore 2", owners[1], 2);
    expect("measured list", "one entry", shares_measured_list(sheet, sizeof sheet, owners, 1), SHARES_SHORT_LIST);
    put_two(put_two(sheet + 3, 2), 3);
    expect("measured list", "no multiple", shares_measured_list(sheet, sizeof sheet, owners, 1), SHARES_BAD_MULTIPLE);
}

#define SIX 6

/* Agent 1 envies agent 3, and agent 2 envies both others: the first pair is the first by i, and then by j. */
static void test_first_pair(void)
{
    const uint8_t sheet[SHARES_SHEET_BYTES(3, SIX)] = {3, 0, SIX, 0, 1, 0, 3};
    const uint8_t owners[SIX] = {1, 1, 2, 2, 2, 2};
    uint8_t dominating[SIX], prices[SHARES_PRICE_BYTES * SIX];
    for (size_t c = 0; c < SIX; c++)
        shares_set_price(prices, c, 3);
    expect("first pair", "unfair", shares_check_list(sheet, sizeof sheet, owners, SIX, 1, dominating, SIX), 0x3010200);
    expect("first pair", "price envy", shares_check_prices(sheet, sizeof sheet, owners, SIX, prices, sizeof prices),
           0x3010600);
}

/* One agent and as many easy chores as there can be, all but one of price 2: that one is not a best one. */
static void test_off_price(uint16_t chore)
{
    static char easy[CHORES];
    static uint8_t sheet[SHEET], owners[CHORES], prices[PRICES];
    const struct rows rows = {{1, 1, 3}, easy, CHORES};
    memset(easy, 'e', sizeof easy);
    memset(owners, 1, sizeof owners);
    for (size_t c = 0; c < CHORES; c++)
        shares_set_price(prices, c, 2);
    shares_set_price(prices, chore - 1u, 1);
    uint32_t verdict = shares_check_prices(sheet, pack(sheet, &rows, 0, CHORES), owners, CHORES, prices, PRICES);
    expect("off price", "the kind", shares_verdict_kind(verdict) == SHARES_OFF_PRICE, 1);
    expect("off price", "the chore", shares_verdict_chore(verdict), chore);
    expect("off price", "its low byte", verdict >> 16 & 0xff, chore & 0xff);
    expect("off price", "its high byte", verdict >> 24, SHARES_AS(uint32_t, chore >> 8));
}

int main(void)
{
    test_version();
    test_sizes();
    test_most_moves();
    test_limits();
    test_marks();
    test_price(0);
    test_price(0x1020304);
    test_price(SHARES_MAX_PRICE);
    test_price(UINT32_MAX);
    test_texts();
    test_lists();
    test_slacks();
    test_priced_lists();
    test_measures();
    test_measured_list();
    test_first_pair();
    test_off_price(1);
    test_off_price(255);
    test_off_price(256);
    test_off_price(258);
    test_off_price(CHORES);
    return finished("the header as " STANDARD);
}
