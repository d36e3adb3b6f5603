/* Joining two sheets, and showing marks out of them: what comes back, every
 * refusal number and the order of these, and that a refused call changes nothing
 * that it was handed. */
#include "refused.h"
#include "sheets.h"

/* Bytes lent after the longest sheet. */
#define REST 20

/* A sheet that a call is to be handed. */
struct given {
    const uint8_t *bytes;
    size_t length;
};

/* All that a call is handed, and what it held before the call. */
struct lent {
    uint8_t first[SHEET], second[SHEET];
    uint8_t joined[SHEET + REST];
    size_t written, start, size;
    uint8_t strand;
};
static struct lent lent, before;

/* The sheets are copied, so that a write to them is seen too. */
static void hand_over(struct given first, struct given second)
{
    fill_lent(&lent, sizeof lent);
    memcpy(lent.first, first.bytes, first.length);
    memcpy(lent.second, second.bytes, second.length);
    memcpy(&before, &lent, sizeof lent);
}

static uint8_t join(struct given first, struct given second, size_t joined_len)
{
    hand_over(first, second);
    return shares_join(lent.first, first.length, lent.second, second.length, lent.joined, joined_len, &lent.written);
}

static uint8_t show_marks(struct given first, struct given second, size_t person, size_t chore)
{
    hand_over(first, second);
    return shares_show_marks(lent.first, first.length, lent.second, second.length, person, chore, &lent.strand,
                             &lent.start, &lent.size);
}

/* The answer is as wanted, and nothing that was handed over has changed. */
static void expect_kept(const char *call, const char *what, uint32_t got, uint32_t wanted)
{
    tests++;
    passed += is_as_wanted(call, what, got, wanted) & is_kept(call, what, &lent, &before, sizeof lent);
}

/* Both calls give this number, and give it before 8 and 9. */
static void expect_refused(const char *what, struct given first, struct given second, uint8_t number)
{
    expect_kept("join", what, join(first, second, sizeof lent.joined), number);
    expect_kept("join into no bytes", what, join(first, second, 0), number);
    expect_kept("show_marks", what, show_marks(first, second, 1, 1), number);
    expect_kept("show_marks of agent 0", what, show_marks(first, second, 0, 1), number);
    expect_kept("show_marks of chore 0", what, show_marks(first, second, 1, 0), number);
}

/* The same with the sheets in either order. */
static void expect_refused_both_ways(const char *what, struct given one, struct given other, uint8_t number)
{
    char turned[200];
    snprintf(turned, sizeof turned, "%s, the other way round", what);
    expect_refused(what, one, other, number);
    expect_refused(turned, other, one, number);
}

/* A sheet of difficult marks: each row is the same text. */
static struct given make(uint8_t *bytes, struct terms terms, size_t chores)
{
    static char row[CHORES];
    const struct rows rows = {terms, row, 0};
    memset(row, 'd', sizeof row);
    struct given made = {bytes, pack(bytes, &rows, 0, chores)};
    return made;
}

static uint8_t one_sheet[SHEET], other_sheet[SHEET];

/* Sheets without a fault. Beside a faulty one the first is in order, the next three are unlike it, and the last has
 * more chores than can be joined. */
static const struct {
    const char *what;
    struct terms terms;
    size_t chores;
} good[] = {
    {"a sheet like it", {2, 1, 3}, 5},
    {"3 agents", {3, 1, 3}, 5},
    {"easy weight 2", {2, 2, 3}, 5},
    {"difficult weight 4", {2, 1, 4}, 5},
    {"4,000 chores", {2, 1, 3}, 4000},
};

static struct given faulty(const struct fault *fault)
{
    struct given sheet = {(const uint8_t *)fault->bytes, fault->length};
    return sheet;
}

/* A sheet's own number comes before all others, and of two faulty sheets the first's. */
static void test_sheets(void)
{
    char what[100];
    for (size_t i = 0; i < FAULTS; i++) {
        for (size_t k = 0; k < sizeof good / sizeof *good; k++) {
            snprintf(what, sizeof what, "%s beside %s", faults[i].what, good[k].what);
            expect_refused_both_ways(what, faulty(&faults[i]), make(one_sheet, good[k].terms, good[k].chores),
                                     faults[i].number);
        }
        for (size_t j = 0; j < FAULTS; j++) {
            snprintf(what, sizeof what, "%s before %s", faults[i].what, faults[j].what);
            expect_refused(what, faulty(&faults[i]), faulty(&faults[j]), faults[i].number);
        }
    }
}

static const struct {
    const char *what;
    struct terms one, other;
} unlike[] = {
    {"number of agents", {2, 1, 3}, {3, 1, 3}},
    {"easy weight", {2, 1, 3}, {2, 2, 3}},
    {"easy weight, its high byte alone", {2, 1, 1000}, {2, 257, 1000}},
    {"difficult weight", {2, 1, 3}, {2, 1, 4}},
    {"difficult weight, its high byte alone", {2, 1, 3}, {2, 1, 259}},
    {"both weights", {2, 1, 4}, {2, 2, 3}},
};

/* 12 is given before 2: the last counts come to more than 4,000. */
static void test_unlike(void)
{
    static const size_t counts[][2] = {{5, 3}, {5, 0}, {0, 0}, {4000, 1}, {4000, 4000}};
    char what[100];
    for (size_t i = 0; i < sizeof unlike / sizeof *unlike; i++)
        for (size_t k = 0; k < sizeof counts / sizeof *counts; k++) {
            snprintf(what, sizeof what, "another %s, %zu + %zu chores", unlike[i].what, counts[k][0], counts[k][1]);
            expect_refused_both_ways(what, make(one_sheet, unlike[i].one, counts[k][0]),
                                     make(other_sheet, unlike[i].other, counts[k][1]), SHARES_UNLIKE_SHEETS);
        }
}

/* The last but one come to 4,096, whose low byte is 0. */
static void test_too_many(void)
{
    static const size_t counts[][2] = {{4000, 1}, {2001, 2000}, {3999, 2}, {2048, 2048}, {4000, 4000}};
    const struct terms terms = {2, 1, 3};
    char what[100];
    for (size_t k = 0; k < sizeof counts / sizeof *counts; k++) {
        snprintf(what, sizeof what, "%zu + %zu chores", counts[k][0], counts[k][1]);
        expect_refused_both_ways(what, make(one_sheet, terms, counts[k][0]), make(other_sheet, terms, counts[k][1]),
                                 SHARES_BAD_CHORES);
    }
}

#define BYTES(text) {(const uint8_t *)text, sizeof text - 1}

/* Strands of 2 agents and weights 1 and 3, and some of them joined. */
static const struct given none = BYTES("\2\0\0\0\1\0\3");
static const struct given three = BYTES("\2\0\3\0\1\0\3" "\x20\xa0");               /* eed, ded */
static const struct given two = BYTES("\2\0\2\0\1\0\3" "\x80\x00");                 /* de, ee */
static const struct given three_two = BYTES("\2\0\5\0\1\0\3" "\x30\xa0");           /* eedde, dedee */
static const struct given two_three = BYTES("\2\0\5\0\1\0\3" "\x88\x28");           /* deeed, eeded */
static const struct given two_two = BYTES("\2\0\4\0\1\0\3" "\xa0\x00");             /* dede, eeee */
static const struct given three_two_two = BYTES("\2\0\7\0\1\0\3" "\x34\xa0");       /* eeddede, dedeeee */
static const struct given nine = BYTES("\2\0\11\0\1\0\3" "\x01\x80\xfe\x00");       /* eeeeeeedd, dddddddee */
static const struct given nine_three = BYTES("\2\0\14\0\1\0\3" "\x01\x90\xfe\x50"); /* and eed, ded after them */

static size_t chores_of(const uint8_t *sheet)
{
    return (size_t)(sheet[1] << 8 | sheet[2]);
}

/* Every call that is handed a sheet takes the joined one. */
static void expect_taken(const char *what)
{
    static uint8_t owners[CHORES], dominating[CHORES], prices[PRICES], scratch[SHARES_SCRATCH], record[RECORD];
    static uint32_t measures[AGENTS];
    const uint8_t *sheet = lent.joined;
    size_t whole = lent.written, m = chores_of(sheet);
    uint64_t moves;
    uint8_t cuts;
    expect("allocate_recorded, joined", what,
           shares_allocate_recorded(sheet, whole, owners, m, prices, 4 * m, scratch, sizeof scratch, record, RECORD,
                                    &moves, &cuts),
           SHARES_OK);
    expect("allocate, joined", what,
           shares_allocate(sheet, whole, owners, m, prices, 4 * m, scratch, sizeof scratch, &moves, &cuts), SHARES_OK);
    for (uint8_t slack = 1; slack <= SHARES_MAX_SLACK; slack++)
        expect("check_list, joined", what,
               shares_verdict_kind(shares_check_list(sheet, whole, owners, m, slack, dominating, m)), SHARES_HOLDS);
    expect("check_prices, joined", what,
           shares_verdict_kind(shares_check_prices(sheet, whole, owners, m, prices, 4 * m)), SHARES_ACCEPTED);
    expect("measures, joined", what, shares_measures(sheet, whole, measures), SHARES_OK);
    expect("measured_list, joined", what, shares_measured_list(sheet, whole, owners, m), SHARES_OK);
}

static void expect_joined(const char *what, struct given first, struct given second, struct given joined, size_t length)
{
    expect("join", what, join(first, second, length), SHARES_OK);
    expect("join, bytes written", what, (uint32_t)lent.written, (uint32_t)joined.length);
    expect("join, the joined sheet", what, memcmp(lent.joined, joined.bytes, joined.length) == 0, 1);
    expect("join, the rest of the list", what,
           memcmp(lent.joined + joined.length, before.joined + joined.length, sizeof lent.joined - joined.length) == 0,
           1);
    expect("join, the sheets", what,
           memcmp(lent.first, before.first, SHEET) == 0 && memcmp(lent.second, before.second, SHEET) == 0, 1);
}

/* Into a list of just the length, into a longer one, and into shorter ones. */
static void test_pair(const char *what, struct given first, struct given second, struct given joined)
{
    expect_joined(what, first, second, joined, joined.length);
    expect_taken(what);
    expect_joined(what, first, second, joined, sizeof lent.joined);
    for (size_t length = 0; length < joined.length; length++)
        expect_kept("join into a list too short", what, join(first, second, length), SHARES_SHORT_LIST);
}

static void test_join(void)
{
    test_pair("3 + 2 chores", three, two, three_two);
    test_pair("2 + 3 chores", two, three, two_three);
    test_pair("9 + 3 chores", nine, three, nine_three);
    test_pair("two sheets of the same bytes", two, two, two_two);
    test_pair("a joined sheet, joined again", three_two, two, three_two_two);
    test_pair("no chores in the first", none, two, two);
    test_pair("no chores in the second", three, none, three);
    test_pair("no chores in either", none, none, none);
}

/* The sheets are only read, so they may be one. */
static void test_same_sheet(void)
{
    const char *what = "a sheet with itself";
    hand_over(two, none);
    expect("join", what,
           shares_join(lent.first, two.length, lent.first, two.length, lent.joined, SHEET, &lent.written), SHARES_OK);
    expect("join, the joined sheet", what, memcmp(lent.joined, two_two.bytes, two_two.length) == 0, 1);
    expect("show_marks", what,
           shares_show_marks(lent.first, two.length, lent.first, two.length, 2, 3, &lent.strand, &lent.start,
                             &lent.size),
           SHARES_OK);
    expect("show_marks, strand", what, lent.strand, 2);
}

/* The strands that a sheet is cut into after some of its chores. */
static struct given cut_first(const struct rows *rows, size_t seam)
{
    struct given first = {one_sheet, pack(one_sheet, rows, 0, seam)};
    return first;
}

static struct given cut_second(const struct rows *rows, size_t seam)
{
    struct given second = {other_sheet, pack(other_sheet, rows, seam, rows->width)};
    return second;
}

/* Whether the marks shown are the agent's row in the strand that holds the chore. */
static int shows_row(const struct rows *rows, size_t seam, size_t person, size_t chore)
{
    uint8_t row[SHARES_ROW_BYTES(CHORES)];
    int before_seam = chore <= seam;
    size_t from = before_seam ? 0 : seam, to = before_seam ? seam : rows->width;
    size_t size = (size_t)(put_row(row, rows->marks + rows->width * (person - 1) + from, to - from) - row);
    const uint8_t *strand = before_seam ? lent.first : lent.second;
    return lent.strand == (before_seam ? 1 : 2) && lent.size == size && lent.start == 7 + size * (person - 1) &&
           memcmp(strand + lent.start, row, size) == 0;
}

/* Small strands: their agents, and their chores at most. */
#define FEW 3
#define WIDEST 17

/* The row of every agent, by each of its chores. */
static void expect_rows_shown(const char *what, const struct rows *rows, size_t seam)
{
    struct given first = cut_first(rows, seam), second = cut_second(rows, seam);
    uint32_t shown = 0;
    for (size_t person = 1; person <= FEW; person++)
        for (size_t chore = 1; chore <= rows->width; chore++)
            shown += show_marks(first, second, person, chore) == SHARES_OK && shows_row(rows, seam, person, chore);
    expect("show_marks, every agent and chore", what, shown, (uint32_t)(FEW * rows->width));
}

/* Each with each: the seam is anywhere in a byte, and so is the end. */
static void test_small_strands(void)
{
    static uint8_t sheet[SHEET];
    char marks[FEW * 2 * WIDEST], what[100];
    for (size_t one = 0; one <= WIDEST; one++)
        for (size_t other = 0; other <= WIDEST; other++) {
            const struct rows rows = {{FEW, 1, 3}, marks, one + other};
            snprintf(what, sizeof what, "%zu + %zu chores, marks tossed", one, other);
            toss_marks(marks, sizeof marks, (uint32_t)(100 * one + other));
            struct given whole = {sheet, pack(sheet, &rows, 0, rows.width)};
            test_pair(what, cut_first(&rows, one), cut_second(&rows, one), whole);
            expect_rows_shown(what, &rows, one);
        }
}

/* The rows of every agent, at both ends and on both sides of the seam. */
static void expect_edges_shown(const char *what, const struct rows *rows, size_t seam)
{
    struct given first = cut_first(rows, seam), second = cut_second(rows, seam);
    const size_t edges[] = {1, seam == 0 ? 1 : seam, seam == CHORES ? CHORES : seam + 1, CHORES};
    uint32_t shown = 0;
    for (size_t person = 1; person <= AGENTS; person++)
        for (size_t k = 0; k < 4; k++)
            shown += show_marks(first, second, person, edges[k]) == SHARES_OK &&
                     shows_row(rows, seam, person, edges[k]);
    expect("show_marks, the edges of every row", what, shown, 4 * AGENTS);
    expect_kept("show_marks of agent 33", what, show_marks(first, second, AGENTS + 1, 1), SHARES_NOT_THERE);
    expect_kept("show_marks of chore 4,001", what, show_marks(first, second, 1, CHORES + 1), SHARES_NOT_THERE);
}

/* The largest sheet, cut near its ends, near 256 chores and in its middle. */
static void test_large_strands(void)
{
    static const size_t seams[] = {0,    1,    7,    8,    9,    255,  256,  257,  1999, 2000,
                                   2001, 2002, 2003, 2004, 2005, 2006, 3991, 3992, 3999, 4000};
    static char marks[MARKS];
    static uint8_t sheet[SHEET];
    const struct rows rows = draw_rows(marks, 1);
    const struct given whole = {sheet, pack(sheet, &rows, 0, CHORES)};
    char what[100];
    for (size_t k = 0; k < sizeof seams / sizeof *seams; k++) {
        struct given first = cut_first(&rows, seams[k]), second = cut_second(&rows, seams[k]);
        snprintf(what, sizeof what, "%zu + %zu chores", seams[k], CHORES - seams[k]);
        expect_joined(what, first, second, whole, SHEET);
        expect_kept("join into a list too short", what, join(first, second, SHEET - 1), SHARES_SHORT_LIST);
        expect_edges_shown(what, &rows, seams[k]);
    }
    expect("join", "the whole and no chores", join(whole, cut_second(&rows, CHORES), SHEET), SHARES_OK);
    expect_taken("32 x 4,000");
}

static void expect_shown(struct given first, struct given second, size_t person, size_t chore, uint8_t strand,
                         size_t start, size_t size)
{
    char what[100];
    snprintf(what, sizeof what, "agent %zu, chore %zu of %zu + %zu", person, chore, chores_of(first.bytes),
             chores_of(second.bytes));
    expect("show_marks", what, show_marks(first, second, person, chore), SHARES_OK);
    expect("show_marks, strand", what, lent.strand, strand);
    expect("show_marks, start", what, (uint32_t)lent.start, (uint32_t)start);
    expect("show_marks, size", what, (uint32_t)lent.size, (uint32_t)size);
    /* With what it may write put back, all is as it was. */
    lent.strand = before.strand;
    lent.start = before.start;
    lent.size = before.size;
    expect_kept("show_marks, all else", what, 0, 0);
}

/* On both sides of the seam, and where one side has no chores. */
static void test_show_marks(void)
{
    expect_shown(nine, two, 1, 1, 1, 7, 2);
    expect_shown(nine, two, 1, 9, 1, 7, 2);
    expect_shown(nine, two, 1, 10, 2, 7, 1);
    expect_shown(nine, two, 1, 11, 2, 7, 1);
    expect_shown(nine, two, 2, 1, 1, 9, 2);
    expect_shown(nine, two, 2, 9, 1, 9, 2);
    expect_shown(nine, two, 2, 10, 2, 8, 1);
    expect_shown(nine, two, 2, 11, 2, 8, 1);
    expect_shown(none, two, 1, 1, 2, 7, 1);
    expect_shown(none, two, 2, 2, 2, 8, 1);
    expect_shown(nine, none, 1, 1, 1, 7, 2);
    expect_shown(nine, none, 2, 9, 1, 9, 2);
}

static void expect_not_there(struct given first, struct given second, size_t person, size_t chore)
{
    char what[100];
    snprintf(what, sizeof what, "agent %zu, chore %zu of %zu + %zu", person, chore, chores_of(first.bytes),
             chores_of(second.bytes));
    expect_kept("show_marks", what, show_marks(first, second, person, chore), SHARES_NOT_THERE);
}

/* Of three large numbers the low bytes alone would be 1. The bits after the last chore of a row are none. */
static void test_not_there(void)
{
    static const size_t large[] = {257, 65537, SIZE_MAX / 2 + 2, SIZE_MAX};
    expect_not_there(three, two, 0, 1);
    expect_not_there(three, two, 3, 1);
    expect_not_there(three, two, 3, 4);
    expect_not_there(three, two, 1, 0);
    expect_not_there(three, two, 1, 6);
    expect_not_there(three, two, 2, 6);
    expect_not_there(three, two, 1, 8);
    expect_not_there(three, two, 0, 0);
    expect_not_there(three, two, 3, 6);
    expect_not_there(none, two, 1, 3);
    expect_not_there(three, none, 1, 4);
    expect_not_there(none, none, 1, 0);
    expect_not_there(none, none, 1, 1);
    for (size_t i = 0; i < sizeof large / sizeof *large; i++) {
        expect_not_there(three, two, large[i], 1);
        expect_not_there(three, two, 1, large[i]);
    }
}

/* What the list check says, with 2 agents and m chores. */
static enum shares_kind kind_of(const uint8_t *sheet, size_t m, const uint8_t *owners)
{
    static uint8_t dominating[4];
    return shares_verdict_kind(shares_check_list(sheet, SHARES_SHEET_BYTES(2, m), owners, m, 1, dominating, m));
}

/* Lists that hold on a joined sheet, and their parts on the two strands. */
struct parts {
    uint32_t whole, unfair, wasteful;
};

static void count_parts(const uint8_t *owners, struct parts *seen)
{
    const enum shares_kind kinds[] = {kind_of(lent.first, 2, owners), kind_of(lent.second, 2, owners + 2)};
    if (kind_of(lent.joined, 4, owners) != SHARES_HOLDS)
        return;
    seen->whole++;
    for (size_t k = 0; k < 2; k++) {
        seen->unfair += kinds[k] == SHARES_UNFAIR;
        seen->wasteful += kinds[k] == SHARES_WASTEFUL;
    }
}

/* The same for all lists of four chores. */
static void count_lists(struct parts *seen)
{
    for (uint32_t list = 0; list < 16; list++) {
        uint8_t owners[4];
        for (size_t c = 0; c < 4; c++)
            owners[c] = (uint8_t)(1 + (list >> c & 1));
        count_parts(owners, seen);
    }
}

/* All strands of 2 agents and 2 chores, and all lists: no part is wasteful, though some are unfair. */
static void test_parts(void)
{
    struct parts seen = {0, 0, 0};
    char marks[8];
    const struct rows rows = {{2, 1, 3}, marks, 4};
    for (uint32_t drawn = 0; drawn < 256; drawn++) {
        spell_marks(marks, sizeof marks, drawn);
        expect("join", "2 + 2 chores", join(cut_first(&rows, 2), cut_second(&rows, 2), sizeof lent.joined), SHARES_OK);
        count_lists(&seen);
    }
    expect("parts", "of a list for each sheet", seen.whole >= 256, 1);
    expect("parts", "some unfair", seen.unfair > 0, 1);
    expect("parts", "none wasteful", seen.wasteful, 0);
}

int main(void)
{
    test_sheets();
    test_unlike();
    test_too_many();
    test_join();
    test_same_sheet();
    test_small_strands();
    test_large_strands();
    test_show_marks();
    test_not_there();
    test_parts();
    return finished("two strands in C");
}
