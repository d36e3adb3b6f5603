/* A list of length 0 may be NULL: whether it is refused or just what a sheet
 * without chores needs. */
#include "shares.h"
#include "tests.h"

#define CHORES 5
#define PRICES (SHARES_PRICE_BYTES * CHORES)
#define RECORD (SHARES_MOVE_BYTES * 3)

/* Without chores, without moves, and with three of them. */
static const uint8_t bare[SHARES_SHEET_BYTES(1, 0)] = {1, 0, 0, 0, 1, 0, 3};
static const uint8_t calm[SHARES_SHEET_BYTES(2, 2)] = {2, 0, 2, 0, 1, 0, 2, 0x40, 0x80};
static const uint8_t sheet[SHARES_SHEET_BYTES(2, CHORES)] = {2, 0, CHORES, 0, 1, 0, 3, 0x00, 0xf0};
static const uint8_t owners[CHORES] = {2, 2, 1, 1, 2};

static uint8_t lent[CHORES], prices[PRICES], scratch[SHARES_SCRATCH];
static uint8_t long_lent[SHARES_BOOK_ENTRIES], long_prices[SHARES_PRICE_BYTES * SHARES_BOOK_ENTRIES];

static void test_allocate(void)
{
    uint64_t moves = 1;
    uint8_t cuts = 1;
    expect("allocate", "no sheet",
           shares_allocate(NULL, 0, lent, CHORES, prices, PRICES, scratch, sizeof scratch, &moves, &cuts),
           SHARES_BAD_LENGTH);
    expect("allocate", "nothing at all", shares_allocate(NULL, 0, NULL, 0, NULL, 0, NULL, 0, &moves, &cuts),
           SHARES_BAD_LENGTH);
    expect("allocate", "no owners",
           shares_allocate(sheet, sizeof sheet, NULL, 0, prices, PRICES, scratch, sizeof scratch, &moves, &cuts),
           SHARES_SHORT_LIST);
    expect("allocate", "no prices",
           shares_allocate(sheet, sizeof sheet, lent, CHORES, NULL, 0, scratch, sizeof scratch, &moves, &cuts),
           SHARES_SHORT_LIST);
    expect("allocate", "no scratch",
           shares_allocate(sheet, sizeof sheet, lent, CHORES, prices, PRICES, NULL, 0, &moves, &cuts),
           SHARES_SHORT_LIST);
    expect("allocate", "no chores",
           shares_allocate(bare, sizeof bare, NULL, 0, NULL, 0, scratch, sizeof scratch, &moves, &cuts), SHARES_OK);
    expect("allocate", "no chores, moves and cuts", moves == 0 && cuts == 0, 1);
    expect("allocate", "no chores, scratch 63",
           shares_allocate(bare, sizeof bare, NULL, 0, NULL, 0, scratch, SHARES_SCRATCH - 1, &moves, &cuts),
           SHARES_SHORT_LIST);
}

static uint8_t allocate_recorded(const uint8_t *s, size_t s_len, size_t own_len, size_t pri_len, uint8_t *record,
                                 size_t record_len)
{
    static uint64_t moves;
    static uint8_t cuts;
    return shares_allocate_recorded(s, s_len, own_len == 0 ? NULL : lent, own_len, pri_len == 0 ? NULL : prices,
                                    pri_len, scratch, sizeof scratch, record, record_len, &moves, &cuts);
}

static void test_allocate_recorded(void)
{
    static uint8_t record[RECORD];
    uint64_t moves = 1;
    uint8_t cuts = 1;
    expect("allocate_recorded", "nothing at all",
           shares_allocate_recorded(NULL, 0, NULL, 0, NULL, 0, NULL, 0, NULL, 0, &moves, &cuts), SHARES_BAD_LENGTH);
    expect("allocate_recorded", "no sheet", allocate_recorded(NULL, 0, CHORES, PRICES, record, RECORD),
           SHARES_BAD_LENGTH);
    expect("allocate_recorded", "no owners", allocate_recorded(sheet, sizeof sheet, 0, PRICES, record, RECORD),
           SHARES_SHORT_LIST);
    expect("allocate_recorded", "no prices", allocate_recorded(sheet, sizeof sheet, CHORES, 0, record, RECORD),
           SHARES_SHORT_LIST);
    expect("allocate_recorded", "no scratch",
           shares_allocate_recorded(sheet, sizeof sheet, lent, CHORES, prices, PRICES, NULL, 0, record, RECORD, &moves,
                                    &cuts),
           SHARES_SHORT_LIST);
    expect("allocate_recorded", "no record", allocate_recorded(sheet, sizeof sheet, CHORES, PRICES, NULL, 0),
           SHARES_SHORT_RECORD);
    expect("allocate_recorded", "no moves", allocate_recorded(calm, sizeof calm, CHORES, PRICES, NULL, 0), SHARES_OK);
    expect("allocate_recorded", "no chores", allocate_recorded(bare, sizeof bare, 0, 0, NULL, 0), SHARES_OK);
}

static void test_checks(void)
{
    expect("check_list", "no sheet", shares_check_list(NULL, 0, owners, CHORES, 1, lent, CHORES), SHARES_BAD_LENGTH);
    expect("check_list", "no owners", shares_check_list(sheet, sizeof sheet, NULL, 0, 1, lent, CHORES),
           SHARES_BAD_OWNER_COUNT);
    expect("check_list", "nothing lent", shares_check_list(sheet, sizeof sheet, owners, CHORES, 1, NULL, 0),
           SHARES_SHORT_LIST);
    expect("check_list", "no chores", shares_verdict_kind(shares_check_list(bare, sizeof bare, NULL, 0, 1, NULL, 0)),
           SHARES_HOLDS);
    expect("check_prices", "no sheet", shares_check_prices(NULL, 0, owners, CHORES, prices, PRICES), SHARES_BAD_LENGTH);
    expect("check_prices", "no owners", shares_check_prices(sheet, sizeof sheet, NULL, 0, prices, PRICES),
           SHARES_BAD_OWNER_COUNT);
    expect("check_prices", "no prices", shares_check_prices(sheet, sizeof sheet, owners, CHORES, NULL, 0),
           SHARES_BAD_PRICE);
    expect("check_prices", "no chores", shares_verdict_kind(shares_check_prices(bare, sizeof bare, NULL, 0, NULL, 0)),
           SHARES_ACCEPTED);
    /* Where there are no chores, any entry is one too many. */
    expect("check_list", "no chores, an owner", shares_check_list(bare, sizeof bare, owners, 1, 1, NULL, 0),
           SHARES_BAD_OWNER_COUNT);
    expect("check_prices", "no chores, an owner", shares_check_prices(bare, sizeof bare, owners, 1, NULL, 0),
           SHARES_BAD_OWNER_COUNT);
    expect("check_prices", "no chores, a price", shares_check_prices(bare, sizeof bare, NULL, 0, prices, 4),
           SHARES_BAD_PRICE);
    expect("check_prices", "no chores, a byte of a price", shares_check_prices(bare, sizeof bare, NULL, 0, prices, 1),
           SHARES_BAD_PRICE);
}

/* A sheet without chores has one list, which holds at every slack there is. */
static void test_slacks(void)
{
    for (uint8_t slack = 0; slack <= SHARES_MAX_SLACK; slack++)
        expect("check_list", "no chores, any slack", shares_check_list(bare, sizeof bare, NULL, 0, slack, NULL, 0),
               SHARES_HOLDS << 8);
    expect("check_list", "no chores, slack 9", shares_check_list(bare, sizeof bare, NULL, 0, 9, NULL, 0),
           SHARES_BAD_SLACK);
    expect("check_list", "no chores, slack 255", shares_check_list(bare, sizeof bare, NULL, 0, 255, NULL, 0),
           SHARES_BAD_SLACK);
    /* What is missing is told first. */
    expect("check_list", "nothing at all, slack 9", shares_check_list(NULL, 0, NULL, 0, 9, NULL, 0), SHARES_BAD_LENGTH);
    expect("check_list", "no owners, slack 9", shares_check_list(sheet, sizeof sheet, NULL, 0, 9, lent, CHORES),
           SHARES_BAD_OWNER_COUNT);
    expect("check_list", "nothing lent, slack 9", shares_check_list(sheet, sizeof sheet, owners, CHORES, 9, NULL, 0),
           SHARES_SHORT_LIST);
    expect("check_list", "no chores, an owner, slack 9", shares_check_list(bare, sizeof bare, owners, 1, 9, NULL, 0),
           SHARES_BAD_OWNER_COUNT);
}

/* The list of measures has no length: it is always lent. */
static void test_measures(void)
{
    uint32_t measures[SHARES_MAX_AGENTS] = {1};
    expect("measures", "no sheet", shares_measures(NULL, 0, measures), SHARES_BAD_LENGTH);
    expect("measures", "no chores", shares_measures(bare, sizeof bare, measures), SHARES_OK);
    expect("measures", "no chores, the measure", measures[0], 0);
}

static void test_measured_list(void)
{
    expect("measured_list", "nothing at all", shares_measured_list(NULL, 0, NULL, 0), SHARES_BAD_LENGTH);
    expect("measured_list", "no sheet", shares_measured_list(NULL, 0, lent, CHORES), SHARES_BAD_LENGTH);
    expect("measured_list", "nothing lent", shares_measured_list(sheet, sizeof sheet, NULL, 0), SHARES_SHORT_LIST);
    expect("measured_list", "no chores", shares_measured_list(bare, sizeof bare, NULL, 0), SHARES_OK);
    /* 14 comes before 8, and also where no list could be too short. */
    const uint8_t uneven[] = {1, 0, 0, 0, 2, 0, 3}, longer[] = {1, 0, 1, 0, 2, 0, 3, 0x00};
    expect("measured_list", "no chores, no multiple", shares_measured_list(uneven, sizeof uneven, NULL, 0),
           SHARES_BAD_MULTIPLE);
    expect("measured_list", "nothing lent, no multiple", shares_measured_list(longer, sizeof longer, NULL, 0),
           SHARES_BAD_MULTIPLE);
}

/* The lists that tell of a book's sheets have no length: they are always lent. */
static uint8_t allocate_book(const uint8_t *book, size_t book_len, uint8_t *own, size_t own_len, uint8_t *pri,
                             size_t pri_len, uint8_t *scr, size_t scr_len)
{
    static uint8_t refusals[SHARES_BOOK_SHEETS], cuts[SHARES_BOOK_SHEETS];
    static uint64_t moves[SHARES_BOOK_SHEETS], tally[2];
    static uint32_t firsts[SHARES_BOOK_SHEETS];
    return shares_allocate_book(book, book_len, own, own_len, pri, pri_len, scr, scr_len, refusals, moves, cuts, firsts,
                                tally);
}

static void test_books(void)
{
    const uint8_t book[] = {1, 0, 5, 0, 7, 1, 0, 0, 0, 1, 0, 3};
    size_t start = 0, size = 0;
    expect("find_sheet", "no book", shares_find_sheet(NULL, 0, 1, &start, &size), SHARES_BAD_BOOK);
    expect("allocate_book", "nothing at all", allocate_book(NULL, 0, NULL, 0, NULL, 0, NULL, 0), SHARES_BAD_BOOK);
    expect("allocate_book", "no owners",
           allocate_book(book, sizeof book, NULL, 0, long_prices, sizeof long_prices, scratch, sizeof scratch),
           SHARES_SHORT_LIST);
    expect("allocate_book", "no prices",
           allocate_book(book, sizeof book, long_lent, sizeof long_lent, NULL, 0, scratch, sizeof scratch),
           SHARES_SHORT_LIST);
    expect("allocate_book", "no scratch",
           allocate_book(book, sizeof book, long_lent, sizeof long_lent, long_prices, sizeof long_prices, NULL, 0),
           SHARES_SHORT_LIST);
}

/* Even without chores a joined sheet has a header. */
static void test_strands(void)
{
    static uint8_t joined[SHARES_SHEET_BYTES(1, 0)];
    const size_t whole = sizeof bare;
    size_t written = 0, start = 0, size = 0;
    uint8_t strand = 0;
    expect("join", "nothing at all", shares_join(NULL, 0, NULL, 0, NULL, 0, &written), SHARES_BAD_LENGTH);
    expect("join", "no first sheet", shares_join(NULL, 0, bare, whole, joined, whole, &written), SHARES_BAD_LENGTH);
    expect("join", "no second sheet", shares_join(bare, whole, NULL, 0, joined, whole, &written), SHARES_BAD_LENGTH);
    expect("join", "nothing lent", shares_join(bare, whole, bare, whole, NULL, 0, &written), SHARES_SHORT_LIST);
    expect("show_marks", "nothing at all", shares_show_marks(NULL, 0, NULL, 0, 1, 1, &strand, &start, &size),
           SHARES_BAD_LENGTH);
    expect("show_marks", "no first sheet",
           shares_show_marks(NULL, 0, sheet, sizeof sheet, 1, 1, &strand, &start, &size), SHARES_BAD_LENGTH);
    expect("show_marks", "no second sheet",
           shares_show_marks(sheet, sizeof sheet, NULL, 0, 1, 1, &strand, &start, &size), SHARES_BAD_LENGTH);
}

int main(void)
{
    test_allocate();
    test_allocate_recorded();
    test_checks();
    test_slacks();
    test_measures();
    test_measured_list();
    test_books();
    test_strands();
    return finished("lists of no bytes at NULL");
}
