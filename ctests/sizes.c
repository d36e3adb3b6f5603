/* Rows of all widths, chore numbers of two bytes, a book that fills its long
 * lists, and scratch of several lengths. Most sheets are such that their lists
 * are known beforehand. */
#include <stdbool.h>

#include "sheets.h"
#include "tests.h"

#define LONG_PRICES (SHARES_PRICE_BYTES * SHARES_BOOK_ENTRIES)
/* Bytes after each list. */
#define REST 20
#define FILLED 0xa5
#define LONG_SCRATCH 4096

/* All that is ever lent but for the scratch. */
static struct {
    uint8_t owners[SHARES_BOOK_ENTRIES + REST], prices[LONG_PRICES + REST], record[RECORD + REST];
    uint8_t refusals[SHARES_BOOK_SHEETS], cuts[SHARES_BOOK_SHEETS];
    uint64_t moves[SHARES_BOOK_SHEETS], tally[2];
    uint32_t firsts[SHARES_BOOK_SHEETS];
} lent, with_zeros;

/* The scratch, with bytes before and after it, its length, and what it holds at first. */
static uint8_t around[REST + LONG_SCRATCH + REST], *const scratch = around + REST;
static size_t scratch_len = SHARES_SCRATCH;
static enum { ZEROS, ONES, ANY } content = ONES;

/* A sheet with a byte after it, and the list that is wanted. */
static uint8_t sheet[SHEET + 1], owners[SHARES_BOOK_ENTRIES];
static char marks[MARKS];

static void fill_scratch(void)
{
    uint32_t state = 7;
    memset(around, FILLED, sizeof around);
    memset(scratch, content == ONES ? 0xff : 0, scratch_len);
    for (size_t k = 0; content == ANY && k < scratch_len; k++)
        scratch[k] = (uint8_t)draw(&state, 256);
}

static void fill(void)
{
    memset(&lent, FILLED, sizeof lent);
    fill_scratch();
}

static bool is_filled(const uint8_t *rest)
{
    size_t k = 0;
    while (k < REST && rest[k] == FILLED)
        k++;
    return k == REST;
}

/* All of it, and no byte beside it. */
static bool is_scratch_cleared(void)
{
    size_t k = 0;
    while (k < scratch_len && scratch[k] == 0)
        k++;
    return k == scratch_len && is_filled(around) && is_filled(scratch + scratch_len);
}

/* The first m owners are those wanted, the first m prices are 3, and what follows is kept. */
static void expect_lists(const char *call, const char *what, size_t m)
{
    size_t priced = 0;
    while (priced < m && shares_price(lent.prices, priced) == 3)
        priced++;
    expect(call, what, memcmp(lent.owners, owners, m) == 0 && priced == m, 1);
    expect(call, "beyond the lists", is_filled(lent.owners + m) && is_filled(lent.prices + SHARES_PRICE_BYTES * m), 1);
    expect(call, "the scratch", is_scratch_cleared(), 1);
}

/* Each chore is easy for its owner alone, and nobody has two more than another. Hands back the sheet's length. */
static size_t deal(uint32_t n, size_t m)
{
    const struct rows rows = {{n, 1, 3}, marks, m};
    uint32_t state = 1, turned = 0;
    memset(marks, 'd', n * m);
    for (size_t c = 0; c < m; c++) {
        turned = c % n == 0 ? draw(&state, n) : turned;
        size_t i = (c + turned) % n;
        marks[m * i + c] = 'e';
        owners[c] = (uint8_t)(i + 1);
    }
    return pack(sheet, &rows, 0, m);
}

static uint8_t allocate(size_t length, size_t m)
{
    fill();
    return shares_allocate(sheet, length, lent.owners, m, lent.prices, SHARES_PRICE_BYTES * m, scratch, scratch_len,
                           lent.moves, lent.cuts);
}

/* Each bit after the last chore, set in the byte at `at`. */
static void expect_padding(const char *call, const char *what, size_t length, size_t m, size_t at)
{
    for (size_t bit = m; bit % 8 != 0; bit++) {
        uint8_t before = sheet[at];
        sheet[at] = (uint8_t)(before + (128 >> bit % 8));
        expect(call, what, allocate(length, m), SHARES_BAD_PADDING);
        sheet[at] = before;
    }
}

/* The list is the opening's, and it is a good one. */
static void test_dealt(const char *what, uint32_t n, size_t m)
{
    size_t length = deal(n, m), row = (length - 7) / n;
    expect("allocate", what, allocate(length, m), SHARES_OK);
    expect("allocate, moves and cuts", what, lent.moves[0] == 0 && lent.cuts[0] == 0, 1);
    expect_lists("allocate", what, m);
    for (uint8_t slack = 0; slack <= SHARES_MAX_SLACK; slack++)
        expect("check_list", what, shares_check_list(sheet, length, owners, m, slack, lent.owners, m),
               SHARES_HOLDS << 8);
    expect("check_prices", what,
           shares_check_prices(sheet, length, owners, m, lent.prices, SHARES_PRICE_BYTES * m), SHARES_ACCEPTED << 8);
    expect("a byte too few", what, allocate(length - 1, m), SHARES_BAD_LENGTH);
    expect("a byte too many", what, allocate(length + 1, m), SHARES_BAD_LENGTH);
    expect("an entry too few", what, allocate(length, m - 1), SHARES_SHORT_LIST);
    expect_padding("the first row", what, length, m, 7 + row - 1);
    expect_padding("the last row", what, length, m, length - 1);
}

/* What agent i, counted from 0, has to bear. */
static uint32_t cost(const uint8_t *list, size_t m, size_t i)
{
    uint32_t sum = 0;
    for (size_t c = 0; c < m; c++)
        if (list[c] == i + 1)
            sum += marks[m * i + c] == 'e' ? 1 : 3;
    return sum;
}

static bool dominates(const uint8_t *list, uint32_t n, size_t m)
{
    uint32_t more = 0, less = 0;
    for (size_t i = 0; i < n; i++) {
        more += cost(list, m, i) > cost(owners, m, i);
        less += cost(list, m, i) < cost(owners, m, i);
    }
    return more == 0 && less > 0;
}

/* The owners of the last chore and of the one before it that is another's, the other way round. */
static void test_swapped(const char *what, uint32_t n, size_t m)
{
    size_t length = deal(n, m), before = m - 1;
    while (owners[before - 1] == owners[m - 1])
        before--;
    uint8_t owner = owners[m - 1];
    owners[m - 1] = owners[before - 1];
    owners[before - 1] = owner;
    allocate(length, m);
    expect("off price", what, shares_check_prices(sheet, length, owners, m, lent.prices, SHARES_PRICE_BYTES * m),
           SHARES_OFF_PRICE << 8 | (uint32_t)before << 16);
    expect("wasteful", what, shares_check_list(sheet, length, owners, m, 1, lent.owners, m), SHARES_WASTEFUL << 8);
    expect("the list shown", what, dominates(lent.owners, n, m), 1);
}

#define MOVED (CHORES / 2)
#define LEANING SHARES_SHEET_BYTES(2, CHORES)

/* Two agents: the first marks all chores alike, which is read as easy; the second finds all but the first few easy.
 * So it is handed half of all, from there on. Hands back the sheet's length. */
static size_t lean(uint8_t *to, uint8_t *wanted, size_t m, char alike, size_t few)
{
    const struct rows rows = {{2, 1, 3}, marks, m};
    memset(marks, alike, m);
    memset(marks + m, 'd', few);
    memset(marks + m + few, 'e', m - few);
    memset(wanted, 1, m);
    memset(wanted + few, 2, m / 2);
    return pack(to, &rows, 0, m);
}

static void test_leaning(const char *what, size_t m, char alike)
{
    size_t length = lean(sheet, owners, m, alike, m / 2);
    expect("allocate, two agents", what, allocate(length, m), SHARES_OK);
    expect("allocate, two agents, moves and cuts", what, lent.moves[0] == m / 2 && lent.cuts[0] == 0, 1);
    expect_lists("allocate, two agents", what, m);
}

/* Of more agents than chores some would like none, which is read as liking all. */
static void test_width(size_t m)
{
    static const uint32_t agents[] = {1, 2, 3, AGENTS};
    char what[100];
    for (size_t k = 0; k < sizeof agents / sizeof *agents && agents[k] <= m; k++) {
        snprintf(what, sizeof what, "%" PRIu32 " x %zu", agents[k], m);
        test_dealt(what, agents[k], m);
        if (agents[k] > 1)
            test_swapped(what, agents[k], m);
    }
    snprintf(what, sizeof what, "%zu chores", m);
    test_leaning(what, m, 'e');
    test_leaning(what, m, 'd');
}

static void test_widths(void)
{
    static const size_t wide[] = {255, 256, 257, 2047, 2048, 2049, CHORES - 1, CHORES};
    for (size_t m = 1; m <= 48; m++)
        test_width(m);
    for (size_t k = 0; k < sizeof wide / sizeof *wide; k++)
        test_width(wide[k]);
}

static uint8_t allocate_recorded(size_t length, size_t m, size_t record_len)
{
    fill();
    return shares_allocate_recorded(sheet, length, lent.owners, m, lent.prices, SHARES_PRICE_BYTES * m, scratch,
                                    scratch_len, lent.record, record_len, lent.moves, lent.cuts);
}

/* The moves that the record has as they should be, one chore after the other. */
static uint32_t right_moves(size_t few)
{
    uint32_t right = 0;
    for (size_t k = 0; k < MOVED; k++) {
        size_t chore = few + k + 1;
        const uint8_t move[SHARES_MOVE_BYTES] = {(uint8_t)(chore >> 8), (uint8_t)chore, 1, 2, 1, 2};
        right += memcmp(lent.record + SHARES_MOVE_BYTES * k, move, sizeof move) == 0;
    }
    return right;
}

static void expect_recorded(const char *what, size_t few, size_t record_len)
{
    const char *call = "allocate_recorded";
    lean(sheet, owners, CHORES, 'e', few);
    expect(call, what, allocate_recorded(LEANING, CHORES, record_len), SHARES_OK);
    expect("allocate_recorded, moves and cuts", what, lent.moves[0] == MOVED && lent.cuts[0] == 0, 1);
    expect_lists(call, what, CHORES);
    expect("allocate_recorded, record", what, right_moves(few), MOVED);
    expect(call, "beyond the record", is_filled(lent.record + SHARES_MOVE_BYTES * MOVED), 1);
}

/* Just as long as the moves, so that they are counted first, and long enough for any. */
static void test_record(void)
{
    const size_t needed = SHARES_MOVE_BYTES * MOVED;
    expect_recorded("chores 1 to 2,000, record of 12,000", 0, needed);
    expect_recorded("chores 201 to 2,200, record of 12,000", 200, needed);
    expect_recorded("chores 2,001 to 4,000, record of 12,000", MOVED, needed);
    expect_recorded("chores 2,001 to 4,000, record of 48,000", MOVED, SHARES_MOVE_BYTES * SHARES_MOST_MOVES(2, CHORES));
    expect("allocate_recorded", "record of 11,999", allocate_recorded(LEANING, CHORES, needed - 1),
           SHARES_SHORT_RECORD);
}

#define BOOK (1 + 4 * SHARES_BOOK_SHEETS + SHARES_BOOK_SHEETS * LEANING)

static uint8_t book[BOOK];

/* Each of its sheets has another list. */
static void make_book(void)
{
    size_t at = 1 + 4 * SHARES_BOOK_SHEETS;
    book[0] = SHARES_BOOK_SHEETS;
    for (size_t k = 0; k < SHARES_BOOK_SHEETS; k++, at += LEANING) {
        put_two(put_two(book + 1 + 4 * k, at), LEANING);
        lean(book + at, owners + CHORES * k, CHORES, 'e', 100 * k);
    }
}

static uint8_t allocate_book(size_t book_len, size_t owners_len, size_t prices_len)
{
    fill();
    return shares_allocate_book(book, book_len, lent.owners, owners_len, lent.prices, prices_len, scratch, scratch_len,
                                lent.refusals, lent.moves, lent.cuts, lent.firsts, lent.tally);
}

/* Sixteen sheets of 4,000 chores fill lists of 64,000 entries. */
static void test_book(void)
{
    const char *call = "allocate_book";
    uint32_t told = 0;
    make_book();
    expect(call, "full lists", allocate_book(BOOK, SHARES_BOOK_ENTRIES, LONG_PRICES), SHARES_OK);
    expect_lists(call, "full lists", SHARES_BOOK_ENTRIES);
    for (size_t k = 0; k < SHARES_BOOK_SHEETS; k++)
        told += lent.refusals[k] == SHARES_OK && lent.moves[k] == MOVED && lent.cuts[k] == 0 &&
                lent.firsts[k] == CHORES * k;
    expect(call, "every sheet", told, SHARES_BOOK_SHEETS);
    expect(call, "tally", lent.tally[0] == MOVED * SHARES_BOOK_SHEETS && lent.tally[1] == 0, 1);
    expect(call, "63,999 owners", allocate_book(BOOK, SHARES_BOOK_ENTRIES - 1, LONG_PRICES), SHARES_SHORT_LIST);
    expect(call, "255,999 bytes of prices", allocate_book(BOOK, SHARES_BOOK_ENTRIES, LONG_PRICES - 1),
           SHARES_SHORT_LIST);
}

/* A book of the sheet, of no bytes, and of the sheet again. Hands back its length. */
static size_t make_small_book(size_t length)
{
    const size_t lengths[] = {length, 0, length};
    size_t at = 1 + 4 * 3;
    book[0] = 3;
    for (size_t k = 0; k < 3; k++) {
        put_two(put_two(book + 1 + 4 * k, at), lengths[k]);
        memcpy(book + at, sheet, lengths[k]);
        at += lengths[k];
    }
    return at;
}

static uint8_t allocate_with_record(size_t length, size_t m)
{
    return allocate_recorded(length, m, RECORD);
}

static uint8_t allocate_in_book(size_t length, size_t m)
{
    (void)m;
    return allocate_book(make_small_book(length), SHARES_BOOK_ENTRIES, LONG_PRICES);
}

/* In any scratch a share-out leaves the same as in 64 zeros, and the scratch as zeros. */
static void expect_same(const char *call, uint8_t (*share_out)(size_t, size_t), size_t length, size_t m)
{
    static const size_t lengths[] = {64, 65, 100, 1024, LONG_SCRATCH};
    char what[100];
    scratch_len = SHARES_SCRATCH;
    content = ZEROS;
    expect(call, "scratch of zeros", share_out(length, m), SHARES_OK);
    memcpy(&with_zeros, &lent, sizeof lent);
    for (size_t k = 0; k < 2 * sizeof lengths / sizeof *lengths; k++) {
        scratch_len = lengths[k / 2];
        content = k % 2 == 0 ? ONES : ANY;
        snprintf(what, sizeof what, "%d x %zu, scratch of %zu", sheet[0], m, scratch_len);
        expect(call, what, share_out(length, m), SHARES_OK);
        expect(call, what, memcmp(&lent, &with_zeros, sizeof lent) == 0, 1);
        expect(call, what, is_scratch_cleared(), 1);
    }
}

static void test_scratch_on(size_t length, size_t m)
{
    expect_same("allocate", allocate, length, m);
    expect_same("allocate_recorded", allocate_with_record, length, m);
    expect_same("allocate_book", allocate_in_book, length, m);
}

/* Each chore but the first is easy for two agents, and opens with the first of them. So the last agent holds none,
 * everybody is in line from there to the first, who holds two, and one chore after the other is passed on. */
static size_t relay(void)
{
    const struct rows rows = {{AGENTS, 1, 3}, marks, AGENTS};
    memset(marks, 'd', AGENTS * AGENTS);
    for (size_t i = 0; i < AGENTS; i++) {
        marks[AGENTS * i + i] = 'e';
        if (i + 1 < AGENTS)
            marks[AGENTS * i + i + 1] = 'e';
        owners[i] = (uint8_t)(i + 1);
    }
    return pack(sheet, &rows, 0, AGENTS);
}

static void test_scratch(void)
{
    const char *what = "everybody in line";
    size_t length = relay();
    expect("allocate", what, allocate(length, AGENTS), SHARES_OK);
    expect("allocate, moves and cuts", what, lent.moves[0] == AGENTS - 1 && lent.cuts[0] == 0, 1);
    expect_lists("allocate", what, AGENTS);
    test_scratch_on(length, AGENTS);
    const struct rows rows = draw_rows(marks, 3);
    test_scratch_on(pack(sheet, &rows, 0, 200), 200);
    expect("allocate_book", "several cuts", lent.cuts[0] > 1, 1);
}

int main(void)
{
    test_widths();
    test_record();
    test_book();
    test_scratch();
    return finished("sizes in C");
}
