/* Every refusal number of every call on a sheet or a book, and that a refused
 * call changes nothing that was lent to it. strands.c has the calls on two sheets,
 * measures.c has shares_measures, and measured_list.c has shares_measured_list. */
#include <stdbool.h>

#include "refused.h"

#define CHORES 5
#define PRICES (SHARES_PRICE_BYTES * CHORES)
#define LONG_PRICES (SHARES_PRICE_BYTES * SHARES_BOOK_ENTRIES)
#define MOVES 3
#define RECORD (SHARES_MOVE_BYTES * MOVES)
/* Bytes after a record. */
#define REST 20

/* 2 agents, 5 chores, weights 1 and 3, rows eeeee and dddde. */
static const uint8_t sheet[SHARES_SHEET_BYTES(2, CHORES)] = {2, 0, CHORES, 0, 1, 0, 3, 0x00, 0xf0};
static const uint8_t owners[CHORES] = {2, 2, 1, 1, 2};
static const uint8_t prices[PRICES] = {0, 0, 0, 3, 0, 0, 0, 3, 0, 0, 0, 3, 0, 0, 0, 3, 0, 0, 0, 1};
static const uint8_t record[RECORD] = {0, 5, 1, 2, 1, 2, 0, 1, 1, 2, 2, 2, 0, 2, 1, 2, 2, 2};

/* All that is ever lent, and what it held before the call. */
struct lent {
    uint8_t owners[SHARES_BOOK_ENTRIES];
    uint8_t prices[LONG_PRICES];
    uint8_t scratch[SHARES_SCRATCH];
    uint8_t record[RECORD + REST];
    uint8_t dominating[CHORES];
    uint8_t refusals[SHARES_BOOK_SHEETS];
    uint64_t moves[SHARES_BOOK_SHEETS];
    uint8_t cuts[SHARES_BOOK_SHEETS];
    uint32_t firsts[SHARES_BOOK_SHEETS];
    uint64_t tally[2];
    size_t start;
    size_t size;
};
static struct lent lent, before;

static void fill(void)
{
    fill_lent(&lent, sizeof lent);
    memcpy(&before, &lent, sizeof lent);
}

/* Entries from `count` on of the lists that tell of a book's sheets. */
static bool keeps_results_from(size_t count)
{
    size_t rest = SHARES_BOOK_SHEETS - count;
    return memcmp(lent.refusals + count, before.refusals + count, rest * sizeof *lent.refusals) == 0 &&
           memcmp(lent.moves + count, before.moves + count, rest * sizeof *lent.moves) == 0 &&
           memcmp(lent.cuts + count, before.cuts + count, rest * sizeof *lent.cuts) == 0 &&
           memcmp(lent.firsts + count, before.firsts + count, rest * sizeof *lent.firsts) == 0;
}

/* The answer is as wanted, and nothing lent has changed. */
static void expect_kept(const char *call, const char *what, uint32_t got, uint32_t wanted)
{
    tests++;
    passed += is_as_wanted(call, what, got, wanted) & is_kept(call, what, &lent, &before, sizeof lent);
}

static uint8_t allocate(const uint8_t *s, size_t s_len, size_t owners_len, size_t prices_len, size_t scratch_len)
{
    fill();
    return shares_allocate(s, s_len, lent.owners, owners_len, lent.prices, prices_len, lent.scratch, scratch_len,
                           lent.moves, lent.cuts);
}

static uint8_t allocate_recorded(const uint8_t *s, size_t s_len, size_t owners_len, size_t prices_len,
                                 size_t scratch_len, size_t record_len)
{
    fill();
    return shares_allocate_recorded(s, s_len, lent.owners, owners_len, lent.prices, prices_len, lent.scratch,
                                    scratch_len, lent.record, record_len, lent.moves, lent.cuts);
}

static uint32_t check_list(const uint8_t *s, size_t s_len, const uint8_t *o, size_t o_len, uint8_t slack,
                           size_t dominating_len)
{
    fill();
    return shares_check_list(s, s_len, o, o_len, slack, lent.dominating, dominating_len);
}

static uint32_t check_prices(const uint8_t *s, size_t s_len, const uint8_t *o, size_t o_len, const uint8_t *p,
                             size_t p_len)
{
    fill();
    return shares_check_prices(s, s_len, o, o_len, p, p_len);
}

static uint8_t find_sheet(const uint8_t *book, size_t book_len, size_t sheet_number)
{
    fill();
    return shares_find_sheet(book, book_len, sheet_number, &lent.start, &lent.size);
}

static uint8_t allocate_book(const uint8_t *book, size_t book_len, size_t owners_len, size_t prices_len,
                             size_t scratch_len)
{
    fill();
    return shares_allocate_book(book, book_len, lent.owners, owners_len, lent.prices, prices_len, lent.scratch,
                                scratch_len, lent.refusals, lent.moves, lent.cuts, lent.firsts, lent.tally);
}

#define WHOLE (sizeof sheet)

/* Too many owners, one of them 0, too few prices, one of them 0, and as many prices as there should be, all 0. */
static const uint8_t bad_owners[CHORES + 1] = {2, 2, 1, 1, 2, 0};
static const uint8_t bad_prices[PRICES - 1] = {0};
static const uint8_t zero_prices[PRICES] = {0};

/* The slack is looked at last: with one that is taken and with one that is not, the number is another fault's. */
static void expect_at_any_slack(const char *what, const uint8_t *s, size_t s_len, const uint8_t *o, size_t o_len,
                                size_t dominating_len, uint8_t number)
{
    static const uint8_t slacks[] = {0, 1, SHARES_MAX_SLACK, SHARES_MAX_SLACK + 1, 255};
    char call[100];
    for (size_t k = 0; k < sizeof slacks; k++) {
        snprintf(call, sizeof call, "check_list, slack %d", slacks[k]);
        expect_kept(call, what, check_list(s, s_len, o, o_len, slacks[k], dominating_len), number);
    }
}

/* A sheet's number comes before all others. */
static void test_sheets(void)
{
    for (size_t i = 0; i < FAULTS; i++) {
        const char *what = faults[i].what;
        const uint8_t *bytes = (const uint8_t *)faults[i].bytes;
        const size_t length = faults[i].length;
        const uint8_t number = faults[i].number;
        expect_kept("allocate", what, allocate(bytes, length, CHORES, PRICES, SHARES_SCRATCH), number);
        expect_kept("allocate, scratch 63", what, allocate(bytes, length, CHORES, PRICES, SHARES_SCRATCH - 1), number);
        expect_kept("allocate into nothing", what, allocate(bytes, length, 0, 0, 0), number);
        expect_kept("allocate_recorded", what,
                    allocate_recorded(bytes, length, CHORES, PRICES, SHARES_SCRATCH, RECORD), number);
        expect_kept("allocate_recorded, scratch 63", what,
                    allocate_recorded(bytes, length, CHORES, PRICES, SHARES_SCRATCH - 1, RECORD), number);
        expect_kept("allocate_recorded without a record", what,
                    allocate_recorded(bytes, length, CHORES, PRICES, SHARES_SCRATCH, 0), number);
        expect_kept("allocate_recorded into nothing", what, allocate_recorded(bytes, length, 0, 0, 0, 0), number);
        expect_at_any_slack(what, bytes, length, owners, CHORES, CHORES, number);
        expect_at_any_slack(what, bytes, length, bad_owners, sizeof bad_owners, 0, number);
        expect_kept("check_prices", what, check_prices(bytes, length, owners, CHORES, prices, PRICES), number);
        expect_kept("check_prices of bad lists", what,
                    check_prices(bytes, length, bad_owners, sizeof bad_owners, bad_prices, sizeof bad_prices), number);
    }
}

/* What either share-out leaves. */
static void expect_shared_out(const char *call)
{
    static const uint8_t zeros[SHARES_SCRATCH];
    expect(call, "moves", lent.moves[0] == MOVES, 1);
    expect(call, "cuts", lent.cuts[0], 1);
    expect(call, "owners", memcmp(lent.owners, owners, CHORES) == 0, 1);
    expect(call, "prices", memcmp(lent.prices, prices, PRICES) == 0, 1);
    expect(call, "scratch", memcmp(lent.scratch, zeros, sizeof zeros) == 0, 1);
    expect(call, "beyond the owners",
           memcmp(lent.owners + CHORES, before.owners + CHORES, sizeof lent.owners - CHORES) == 0, 1);
    expect(call, "beyond the prices",
           memcmp(lent.prices + PRICES, before.prices + PRICES, sizeof lent.prices - PRICES) == 0, 1);
}

static void test_allocate(void)
{
    const char *call = "allocate";
    expect(call, "lists of m entries", allocate(sheet, WHOLE, CHORES, PRICES, SHARES_SCRATCH), SHARES_OK);
    expect_shared_out(call);
    expect(call, "longer lists", allocate(sheet, WHOLE, CHORES + 1, PRICES + 1, SHARES_SCRATCH), SHARES_OK);
    expect_shared_out(call);
    expect_kept(call, "4 owners", allocate(sheet, WHOLE, CHORES - 1, PRICES, SHARES_SCRATCH), SHARES_SHORT_LIST);
    expect_kept(call, "19 bytes of prices", allocate(sheet, WHOLE, CHORES, PRICES - 1, SHARES_SCRATCH),
                SHARES_SHORT_LIST);
    expect_kept(call, "scratch 63", allocate(sheet, WHOLE, CHORES, PRICES, SHARES_SCRATCH - 1), SHARES_SHORT_LIST);
    expect_kept(call, "4 owners, scratch 63", allocate(sheet, WHOLE, CHORES - 1, PRICES, SHARES_SCRATCH - 1),
                SHARES_SHORT_LIST);
}

/* A record of this length is enough for the three moves. */
static void expect_recorded(const char *what, size_t record_len)
{
    const char *call = "allocate_recorded";
    expect(call, what, allocate_recorded(sheet, WHOLE, CHORES, PRICES, SHARES_SCRATCH, record_len), SHARES_OK);
    expect_shared_out(call);
    expect(call, "record", memcmp(lent.record, record, RECORD) == 0, 1);
    expect(call, "beyond the record", memcmp(lent.record + RECORD, before.record + RECORD, REST) == 0, 1);
}

static void test_allocate_recorded(void)
{
    const char *call = "allocate_recorded";
    const size_t s = SHARES_SCRATCH;
    expect_recorded("a record of 18 bytes", RECORD);
    expect_recorded("a record of 19 bytes", RECORD + 1);
    expect_recorded("a record of 38 bytes", RECORD + REST);
    expect_kept(call, "4 owners", allocate_recorded(sheet, WHOLE, CHORES - 1, PRICES, s, RECORD), SHARES_SHORT_LIST);
    expect_kept(call, "19 bytes of prices", allocate_recorded(sheet, WHOLE, CHORES, PRICES - 1, s, RECORD),
                SHARES_SHORT_LIST);
    expect_kept(call, "scratch 63", allocate_recorded(sheet, WHOLE, CHORES, PRICES, s - 1, RECORD), SHARES_SHORT_LIST);
    expect_kept(call, "19 bytes of prices, scratch 63",
                allocate_recorded(sheet, WHOLE, CHORES, PRICES - 1, s - 1, RECORD), SHARES_SHORT_LIST);
    expect_kept(call, "a record of 17 bytes", allocate_recorded(sheet, WHOLE, CHORES, PRICES, s, RECORD - 1),
                SHARES_SHORT_RECORD);
    expect_kept(call, "no record", allocate_recorded(sheet, WHOLE, CHORES, PRICES, s, 0), SHARES_SHORT_RECORD);
    /* Lists and scratch are looked at before the record. */
    expect_kept(call, "4 owners, a record of 17 bytes",
                allocate_recorded(sheet, WHOLE, CHORES - 1, PRICES, s, RECORD - 1), SHARES_SHORT_LIST);
    expect_kept(call, "19 bytes of prices, no record", allocate_recorded(sheet, WHOLE, CHORES, PRICES - 1, s, 0),
                SHARES_SHORT_LIST);
    expect_kept(call, "scratch 63, a record of 17 bytes",
                allocate_recorded(sheet, WHOLE, CHORES, PRICES, s - 1, RECORD - 1), SHARES_SHORT_LIST);
}

/* The number of entries, then each of them, then the list that is lent, then the slack. */
static void test_check_list(void)
{
    uint8_t changed[CHORES + 1] = {2, 2, 1, 1, 2, 1};
    expect_kept("check_list", "holds", shares_verdict_kind(check_list(sheet, WHOLE, owners, CHORES, 1, CHORES)),
                SHARES_HOLDS);
    expect_at_any_slack("4 owners", sheet, WHOLE, changed, CHORES - 1, CHORES, SHARES_BAD_OWNER_COUNT);
    expect_at_any_slack("6 owners", sheet, WHOLE, changed, CHORES + 1, CHORES, SHARES_BAD_OWNER_COUNT);
    changed[4] = 0;
    expect_at_any_slack("owner 0", sheet, WHOLE, changed, CHORES, CHORES, SHARES_BAD_OWNER);
    changed[4] = 3;
    expect_at_any_slack("owner 3", sheet, WHOLE, changed, CHORES, CHORES, SHARES_BAD_OWNER);
    expect_at_any_slack("4 entries lent", sheet, WHOLE, owners, CHORES, CHORES - 1, SHARES_SHORT_LIST);
    expect_at_any_slack("6 owners, one of them 0", sheet, WHOLE, bad_owners, sizeof bad_owners, CHORES,
                        SHARES_BAD_OWNER_COUNT);
    expect_at_any_slack("4 owners, 4 entries lent", sheet, WHOLE, owners, CHORES - 1, CHORES - 1,
                        SHARES_BAD_OWNER_COUNT);
    expect_at_any_slack("owner 3, 4 entries lent", sheet, WHOLE, changed, CHORES, CHORES - 1, SHARES_BAD_OWNER);
    memset(changed, 1, CHORES);
    expect_kept("check_list", "unfair", shares_verdict_kind(check_list(sheet, WHOLE, changed, CHORES, 1, CHORES)),
                SHARES_UNFAIR);

    /* Rows edee and deee: agent 2 envies, and both would gain by a swap. It is called unfair, and nothing is shown. */
    const uint8_t longer[] = {2, 0, 4, 0, 1, 0, 2, 0x40, 0x80}, both[] = {2, 1, 2, 2};
    expect_kept("check_list", "unfair and wasteful", check_list(longer, sizeof longer, both, 4, 1, CHORES), 0x1020200);

    /* Rows ed and de. */
    const uint8_t crossed[] = {2, 0, 2, 0, 1, 0, 2, 0x40, 0x80};
    const uint8_t worst[] = {2, 1}, best[] = {1, 2};
    uint32_t wasteful = check_list(crossed, sizeof crossed, worst, 2, 1, CHORES);
    expect("check_list", "wasteful", shares_verdict_kind(wasteful), SHARES_WASTEFUL);
    expect("check_list", "the list shown", memcmp(lent.dominating, best, 2) == 0, 1);
    expect("check_list", "beyond it", memcmp(lent.dominating + 2, before.dominating + 2, CHORES - 2) == 0, 1);
    expect_kept("check_list", "wasteful, slack 9", check_list(crossed, sizeof crossed, worst, 2, 9, CHORES),
                SHARES_BAD_SLACK);
}

/* Every slack up to 8 is taken, and above it nothing is told of a list. The share-out's own has agent 2 envy agent 1,
 * by one chore. Where agent 1 has all five chores, a slack of five takes all of them off. */
static void test_slacks(void)
{
    const uint8_t all_with_one[CHORES] = {1, 1, 1, 1, 1};
    const uint32_t holds = SHARES_HOLDS << 8;
    char what[100];
    for (uint32_t t = 0; t <= UINT8_MAX; t++) {
        const uint8_t slack = (uint8_t)t;
        uint32_t own = t == 0 ? 0x1020200 : holds, all = t < CHORES ? 0x2010200 : holds;
        if (t > 8)
            own = all = SHARES_BAD_SLACK;
        snprintf(what, sizeof what, "slack %" PRIu32, t);
        expect_kept("check_list", what, check_list(sheet, WHOLE, owners, CHORES, slack, CHORES), own);
        expect_kept("check_list, all with agent 1", what,
                    check_list(sheet, WHOLE, all_with_one, CHORES, slack, CHORES), all);
    }
}

/* The number of owners, then each of them, then the prices. */
static void test_priced_owners(void)
{
    const char *call = "check_prices";
    uint8_t changed[CHORES + 1] = {2, 2, 1, 1, 2, 1};
    expect_kept(call, "accepted", shares_verdict_kind(check_prices(sheet, WHOLE, owners, CHORES, prices, PRICES)),
                SHARES_ACCEPTED);
    expect_kept(call, "4 owners", check_prices(sheet, WHOLE, changed, CHORES - 1, prices, PRICES),
                SHARES_BAD_OWNER_COUNT);
    expect_kept(call, "6 owners", check_prices(sheet, WHOLE, changed, CHORES + 1, prices, PRICES),
                SHARES_BAD_OWNER_COUNT);
    expect_kept(call, "6 owners, one of them 0",
                check_prices(sheet, WHOLE, bad_owners, sizeof bad_owners, prices, PRICES), SHARES_BAD_OWNER_COUNT);
    expect_kept(call, "4 owners, 19 bytes of prices",
                check_prices(sheet, WHOLE, owners, CHORES - 1, bad_prices, sizeof bad_prices), SHARES_BAD_OWNER_COUNT);
    expect_kept(call, "4 owners, price 0", check_prices(sheet, WHOLE, owners, CHORES - 1, zero_prices, PRICES),
                SHARES_BAD_OWNER_COUNT);
    changed[0] = 0;
    expect_kept(call, "owner 0", check_prices(sheet, WHOLE, changed, CHORES, prices, PRICES), SHARES_BAD_OWNER);
    changed[0] = 3;
    expect_kept(call, "owner 3", check_prices(sheet, WHOLE, changed, CHORES, prices, PRICES), SHARES_BAD_OWNER);
    expect_kept(call, "owner 3, 19 bytes of prices",
                check_prices(sheet, WHOLE, changed, CHORES, bad_prices, sizeof bad_prices), SHARES_BAD_OWNER);
    expect_kept(call, "owner 3, price 0", check_prices(sheet, WHOLE, changed, CHORES, zero_prices, PRICES),
                SHARES_BAD_OWNER);
}

static void test_prices(void)
{
    const char *call = "check_prices";
    const uint8_t above[SHARES_PRICE_BYTES] = {0x00, 0x0f, 0x42, 0x41};
    uint8_t changed[PRICES + SHARES_PRICE_BYTES] = {0};
    memcpy(changed, prices, PRICES);
    changed[PRICES + 3] = 3;
    expect_kept(call, "4 prices", check_prices(sheet, WHOLE, owners, CHORES, changed, PRICES - 4), SHARES_BAD_PRICE);
    expect_kept(call, "6 prices", check_prices(sheet, WHOLE, owners, CHORES, changed, PRICES + 4), SHARES_BAD_PRICE);
    expect_kept(call, "19 bytes", check_prices(sheet, WHOLE, owners, CHORES, changed, PRICES - 1), SHARES_BAD_PRICE);
    expect_kept(call, "21 bytes", check_prices(sheet, WHOLE, owners, CHORES, changed, PRICES + 1), SHARES_BAD_PRICE);
    changed[3] = 0;
    expect_kept(call, "price 0", check_prices(sheet, WHOLE, owners, CHORES, changed, PRICES), SHARES_BAD_PRICE);
    memcpy(changed, above, sizeof above);
    expect_kept(call, "price 1000001", check_prices(sheet, WHOLE, owners, CHORES, changed, PRICES), SHARES_BAD_PRICE);
    memcpy(changed, prices, PRICES);
    changed[PRICES - 1] = 3;
    expect_kept(call, "off price", shares_verdict_kind(check_prices(sheet, WHOLE, owners, CHORES, changed, PRICES)),
                SHARES_OFF_PRICE);
}

/* A byte for each place, so that any of them can be spoilt. */
static uint8_t book[SHARES_MAX_BOOK + 1];

static void two_bytes(size_t at, size_t number)
{
    book[at] = (uint8_t)(number >> 8);
    book[at + 1] = (uint8_t)number;
}

/* Two sheets; hands back the length. */
static size_t make_book(void)
{
    book[0] = 2;
    two_bytes(1, 9);
    two_bytes(3, WHOLE);
    two_bytes(5, 9 + WHOLE);
    two_bytes(7, WHOLE);
    memcpy(book + 9, sheet, WHOLE);
    memcpy(book + 9 + WHOLE, sheet, WHOLE);
    return 9 + 2 * WHOLE;
}

/* Sheets of no bytes, as many as wanted; hands back the length. */
static size_t make_empty_sheets(uint8_t count)
{
    const size_t length = 1 + 4 * (size_t)count;
    book[0] = count;
    for (size_t k = 0; k < count; k++) {
        two_bytes(1 + 4 * k, length);
        two_bytes(3 + 4 * k, 0);
    }
    return length;
}

static void no_book(const char *what, size_t length)
{
    expect_kept("find_sheet", what, find_sheet(book, length, 1), SHARES_BAD_BOOK);
    expect_kept("allocate_book", what, allocate_book(book, length, SHARES_BOOK_ENTRIES, LONG_PRICES, SHARES_SCRATCH),
                SHARES_BAD_BOOK);
    /* Lists and scratch are looked at after the book. */
    expect_kept("allocate_book into nothing", what, allocate_book(book, length, 0, 0, 0), SHARES_BAD_BOOK);
    expect_kept("allocate_book, scratch 63", what,
                allocate_book(book, length, SHARES_BOOK_ENTRIES, LONG_PRICES, SHARES_SCRATCH - 1), SHARES_BAD_BOOK);
}

static void test_no_books(void)
{
    size_t length = make_book();
    no_book("no bytes", 0);
    no_book("only a count", 1);
    no_book("contents cut short", 8);
    no_book("a byte too few", length - 1);
    no_book("a byte too many", length + 1);
    book[0] = 0;
    no_book("no sheets", length);
    no_book("no sheets and nothing after", make_empty_sheets(0));
    no_book("17 sheets", make_empty_sheets(SHARES_BOOK_SHEETS + 1));
    make_book();
    two_bytes(1, 10);
    no_book("a gap before the first sheet", length);
    make_book();
    two_bytes(5, 10 + WHOLE);
    two_bytes(7, WHOLE - 1);
    no_book("a gap between two sheets", length);
    make_book();
    two_bytes(5, 8 + WHOLE);
    two_bytes(7, WHOLE + 1);
    no_book("a sheet that starts inside another", length);
    make_book();
    two_bytes(7, WHOLE + 1);
    no_book("a sheet that ends after the book", length);
    memset(book, 0, sizeof book);
    book[0] = 1;
    two_bytes(1, 5);
    two_bytes(3, SHARES_MAX_BOOK - 4);
    no_book("65,536 bytes", SHARES_MAX_BOOK + 1);
}

static void expect_found(const char *what, size_t length, size_t number, size_t start, size_t size)
{
    expect("find_sheet", what, find_sheet(book, length, number), SHARES_OK);
    expect("find_sheet, its start", what, (uint32_t)lent.start, (uint32_t)start);
    expect("find_sheet, its size", what, (uint32_t)lent.size, (uint32_t)size);
}

static void test_find_sheet(void)
{
    size_t length = make_book();
    expect_found("sheet 1", length, 1, 9, WHOLE);
    expect_found("sheet 2", length, 2, 9 + WHOLE, WHOLE);
    expect_kept("find_sheet", "sheet 0", find_sheet(book, length, 0), SHARES_BAD_BOOK);
    expect_kept("find_sheet", "sheet 3", find_sheet(book, length, 3), SHARES_BAD_BOOK);
    expect_kept("find_sheet", "sheet 257", find_sheet(book, length, 257), SHARES_BAD_BOOK);
    expect_kept("find_sheet", "the greatest number", find_sheet(book, length, SIZE_MAX), SHARES_BAD_BOOK);
    /* The first has no bytes, and the second all of them. */
    two_bytes(3, 0);
    two_bytes(5, 9);
    two_bytes(7, 2 * WHOLE);
    expect_found("a sheet of no bytes", length, 1, 9, 0);
    expect_found("the sheet after it", length, 2, 9, 2 * WHOLE);
}

/* As many sheets and as many bytes as a book may have. */
static void test_full_books(void)
{
    size_t length = make_empty_sheets(SHARES_BOOK_SHEETS);
    expect_found("sheet 16", length, SHARES_BOOK_SHEETS, length, 0);
    expect_kept("find_sheet", "sheet 17", find_sheet(book, length, SHARES_BOOK_SHEETS + 1), SHARES_BAD_BOOK);
    make_empty_sheets(1);
    two_bytes(3, SHARES_MAX_BOOK - 5);
    expect_found("65,535 bytes", SHARES_MAX_BOOK, 1, 5, SHARES_MAX_BOOK - 5);
}

static void test_allocate_book(void)
{
    size_t length = make_book();
    expect_kept("allocate_book", "63,999 owners",
                allocate_book(book, length, SHARES_BOOK_ENTRIES - 1, LONG_PRICES, SHARES_SCRATCH), SHARES_SHORT_LIST);
    expect_kept("allocate_book", "255,999 bytes of prices",
                allocate_book(book, length, SHARES_BOOK_ENTRIES, LONG_PRICES - 1, SHARES_SCRATCH), SHARES_SHORT_LIST);
    expect_kept("allocate_book", "scratch 63",
                allocate_book(book, length, SHARES_BOOK_ENTRIES, LONG_PRICES, SHARES_SCRATCH - 1), SHARES_SHORT_LIST);
    expect_kept("allocate_book", "63,999 owners, scratch 63",
                allocate_book(book, length, SHARES_BOOK_ENTRIES - 1, LONG_PRICES, SHARES_SCRATCH - 1),
                SHARES_SHORT_LIST);
    /* Sheets are looked at after the scratch. */
    book[9] = 0;
    expect_kept("allocate_book", "scratch 63, no agents",
                allocate_book(book, length, SHARES_BOOK_ENTRIES, LONG_PRICES, SHARES_SCRATCH - 1), SHARES_SHORT_LIST);
}

/* A book of a faulty sheet and a good one: only the second takes entries. */
static void test_sheets_of_a_book(void)
{
    for (size_t i = 0; i < FAULTS; i++) {
        const struct fault *fault = &faults[i];
        make_book();
        two_bytes(3, fault->length);
        two_bytes(5, 9 + fault->length);
        memcpy(book + 9, fault->bytes, fault->length);
        memcpy(book + 9 + fault->length, sheet, WHOLE);
        expect("allocate_book", fault->what,
               allocate_book(book, 9 + fault->length + WHOLE, SHARES_BOOK_ENTRIES, LONG_PRICES, SHARES_SCRATCH),
               SHARES_OK);
        expect("allocate_book, sheet 1", fault->what, lent.refusals[0], fault->number);
        expect("allocate_book, sheet 2", fault->what, lent.refusals[1], SHARES_OK);
        expect("allocate_book, entries after the last sheet", fault->what, keeps_results_from(2), 1);
        expect("allocate_book, moves", fault->what, lent.moves[0] == before.moves[0] && lent.moves[1] == 3, 1);
        expect("allocate_book, cuts", fault->what, lent.cuts[0] == before.cuts[0] && lent.cuts[1] == 1, 1);
        expect("allocate_book, first", fault->what, lent.firsts[0] == before.firsts[0] && lent.firsts[1] == 0, 1);
        expect("allocate_book, tally", fault->what, lent.tally[0] == 3 && lent.tally[1] == 1, 1);
        expect("allocate_book, owners", fault->what,
               memcmp(lent.owners, owners, CHORES) == 0 &&
                   memcmp(lent.owners + CHORES, before.owners + CHORES, SHARES_BOOK_ENTRIES - CHORES) == 0,
               1);
        expect("allocate_book, prices", fault->what,
               memcmp(lent.prices, prices, PRICES) == 0 &&
                   memcmp(lent.prices + PRICES, before.prices + PRICES, LONG_PRICES - PRICES) == 0,
               1);
    }
}

/* The second sheet's entries follow the first's, and the tally has the moves and the cuts of both. */
static void test_two_sheets(void)
{
    const char *call = "allocate_book, two sheets";
    const size_t length = make_book();
    expect(call, "shared out", allocate_book(book, length, SHARES_BOOK_ENTRIES, LONG_PRICES, SHARES_SCRATCH),
           SHARES_OK);
    for (size_t k = 0; k < 2; k++) {
        expect(call, "refusal", lent.refusals[k], SHARES_OK);
        expect(call, "moves and cuts", lent.moves[k] == 3 && lent.cuts[k] == 1, 1);
        expect(call, "first", lent.firsts[k], (uint32_t)(CHORES * k));
        expect(call, "owners", memcmp(lent.owners + CHORES * k, owners, CHORES) == 0, 1);
        expect(call, "prices", memcmp(lent.prices + PRICES * k, prices, PRICES) == 0, 1);
    }
    expect(call, "tally", lent.tally[0] == 6 && lent.tally[1] == 2, 1);
    expect(call, "entries after the last sheet", keeps_results_from(2), 1);
}

/* Where every sheet is refused, scratch and tally end as zeros all the same. */
static void test_all_refused(void)
{
    static const uint8_t zeros[SHARES_SCRATCH];
    const char *call = "allocate_book, all refused";
    const size_t length = make_empty_sheets(SHARES_BOOK_SHEETS);
    uint32_t refused = 0;
    expect(call, "the book", allocate_book(book, length, SHARES_BOOK_ENTRIES, LONG_PRICES, SHARES_SCRATCH), SHARES_OK);
    for (size_t k = 0; k < SHARES_BOOK_SHEETS; k++)
        refused += lent.refusals[k] == SHARES_BAD_LENGTH;
    expect(call, "refusals", refused, SHARES_BOOK_SHEETS);
    expect(call, "tally", lent.tally[0] == 0 && lent.tally[1] == 0, 1);
    expect(call, "scratch", memcmp(lent.scratch, zeros, sizeof zeros) == 0, 1);
    /* With what it writes put back, all is as it was. */
    memcpy(lent.refusals, before.refusals, sizeof lent.refusals);
    memcpy(lent.tally, before.tally, sizeof lent.tally);
    memcpy(lent.scratch, before.scratch, sizeof lent.scratch);
    expect_kept(call, "all else", 0, 0);
}

int main(void)
{
    test_sheets();
    test_allocate();
    test_allocate_recorded();
    test_check_list();
    test_slacks();
    test_priced_owners();
    test_prices();
    test_no_books();
    test_find_sheet();
    test_full_books();
    test_allocate_book();
    test_sheets_of_a_book();
    test_two_sheets();
    test_all_refused();
    return finished("refusals in C");
}
