/* The stack that each call takes is no more than the header says, and the
 * header says no more than it must, and less than a small thread has. Each call
 * runs on a stack that was painted before: what has lost its paint was used. */
#define _POSIX_C_SOURCE 200809L
#include <pthread.h>
#include <stdalign.h>

#include "sheets.h"
#include "tests.h"

#define STACK 262144
#define PAINT 0xa5
/* What the painting itself may be using. */
#define MARGIN 256
/* The stack of a small thread. */
#define SMALL_STACK 131072
#define SHEETS 5
#define BOOK_SHEETS 4

static alignas(4096) uint8_t stack[STACK];

static struct joinable lent;
static uint8_t owners[CHORES], prices[PRICES], scratch[SHARES_SCRATCH], dominating[CHORES], record[RECORD];
static uint8_t book[1 + 4 * BOOK_SHEETS + BOOK_SHEETS * SHEET];
static uint8_t long_owners[SHARES_BOOK_ENTRIES], long_prices[SHARES_PRICE_BYTES * SHARES_BOOK_ENTRIES];
static uint8_t refusals[SHARES_BOOK_SHEETS], cuts[SHARES_BOOK_SHEETS];
static uint64_t moves[SHARES_BOOK_SHEETS], tally[2];
static uint32_t firsts[SHARES_BOOK_SHEETS], told[AGENTS];
static uint8_t joined[SHEET], strand, measured[CHORES];
static size_t start, size, written;

/* What the list check is handed. */
static uint8_t slack;

/* What came back: the bits of all refusal numbers, and a bit for each kind of verdict. */
static uint32_t refused, kinds;

static void allocate(void)
{
    refused |= shares_allocate(lent.sheet, SHEET, owners, CHORES, prices, PRICES, scratch, sizeof scratch, moves, cuts);
}

static void allocate_recorded(void)
{
    refused |= shares_allocate_recorded(lent.sheet, SHEET, owners, CHORES, prices, PRICES, scratch, sizeof scratch,
                                        record, RECORD, moves, cuts);
}

static void check_list(void)
{
    kinds |= 1u << shares_verdict_kind(shares_check_list(lent.sheet, SHEET, owners, CHORES, slack, dominating, CHORES));
}

static void check_prices(void)
{
    kinds |= 1u << shares_verdict_kind(shares_check_prices(lent.sheet, SHEET, owners, CHORES, prices, PRICES));
}

static void find_sheet(void)
{
    refused |= shares_find_sheet(book, sizeof book, BOOK_SHEETS, &start, &size);
}

static void allocate_book(void)
{
    refused |= shares_allocate_book(book, sizeof book, long_owners, sizeof long_owners, long_prices, sizeof long_prices,
                                    scratch, sizeof scratch, refusals, moves, cuts, firsts, tally);
}

static void join(void)
{
    refused |= shares_join(lent.first, FIRST, lent.second, SECOND, joined, sizeof joined, &written);
}

static void show_marks(void)
{
    refused |= shares_show_marks(lent.first, FIRST, lent.second, SECOND, AGENTS, CHORES, &strand, &start, &size);
}

static void measures(void)
{
    refused |= shares_measures(lent.sheet, SHEET, told);
}

static void measured_list(void)
{
    refused |= shares_measured_list(lent.sheet, SHEET, measured, CHORES);
}

struct call {
    const char *name;
    void (*run)(void);
    size_t stated;
    size_t used;
};

static struct call calls[] = {
    {"shares_allocate", allocate, SHARES_STACK_ALLOCATE, 0},
    {"shares_allocate_recorded", allocate_recorded, SHARES_STACK_ALLOCATE_RECORDED, 0},
    {"shares_check_list", check_list, SHARES_STACK_CHECK_LIST, 0},
    {"shares_check_prices", check_prices, SHARES_STACK_CHECK_PRICES, 0},
    {"shares_find_sheet", find_sheet, SHARES_STACK_FIND_SHEET, 0},
    {"shares_allocate_book", allocate_book, SHARES_STACK_ALLOCATE_BOOK, 0},
    {"shares_join", join, SHARES_STACK_JOIN, 0},
    {"shares_show_marks", show_marks, SHARES_STACK_SHOW_MARKS, 0},
    {"shares_measures", measures, SHARES_STACK_MEASURES, 0},
    {"shares_measured_list", measured_list, SHARES_STACK_MEASURED_LIST, 0},
};
#define CALLS (sizeof calls / sizeof *calls)
/* The checks among them. */
#define CHECKS 2
#define CHECKS_END 4

static void *run_painted(void *argument)
{
    struct call *call = argument;
    uint8_t here;
    size_t top = (size_t)((volatile uint8_t *)&here - stack), used = top;
    memset(stack, PAINT, top - MARGIN);
    call->run();
    for (size_t i = 0; i < top && stack[i] == PAINT; i++)
        used--;
    if (used > call->used)
        call->used = used;
    return NULL;
}

static void measure(struct call *call)
{
    pthread_attr_t attributes;
    pthread_t thread;
    pthread_attr_init(&attributes);
    pthread_attr_setstack(&attributes, stack, sizeof stack);
    int failed = pthread_create(&thread, &attributes, run_painted, call);
    expect(call->name, "started", (uint32_t)failed, 0);
    if (failed == 0)
        pthread_join(thread, NULL);
    pthread_attr_destroy(&attributes);
}

static void measure_calls(size_t from, size_t to)
{
    for (size_t i = from; i < to; i++)
        measure(&calls[i]);
}

static void make_book(void)
{
    size_t at = 1 + 4 * BOOK_SHEETS;
    book[0] = BOOK_SHEETS;
    for (size_t i = 0; i < BOOK_SHEETS; i++, at += SHEET) {
        put_two(put_two(book + 1 + 4 * i, at), SHEET);
        make_joinable(&lent, (uint32_t)i);
        memcpy(book + at, lent.sheet, SHEET);
    }
}

/* The owners of the first chore and of one that is another's, the other way round. */
static void swap_owners(void)
{
    uint8_t owner = owners[0];
    size_t c = 1;
    while (c + 1 < CHORES && owners[c] == owner)
        c++;
    owners[0] = owners[c];
    owners[c] = owner;
}

/* Both checks, at every slack. */
static void measure_checks(void)
{
    for (uint8_t t = 0; t <= SHARES_MAX_SLACK; t++) {
        slack = t;
        measure_calls(CHECKS, CHECKS_END);
    }
}

/* All calls on a sheet; both checks on its own list, on one that wastes and on one that is unfair. */
static void measure_all(uint32_t seed)
{
    make_joinable(&lent, seed);
    measure_calls(0, CALLS);
    measure_checks();
    swap_owners();
    measure_checks();
    memset(owners, 1, CHORES);
    measure_checks();
}

int main(void)
{
    make_book();
    for (uint32_t seed = 0; seed < SHEETS; seed++)
        measure_all(seed);
    for (size_t i = 0; i < CALLS; i++) {
        const struct call *call = &calls[i];
        printf("%-24s%8zu of %zu\n", call->name, call->used, call->stated);
        expect(call->name, "within what the header says", call->used <= call->stated, 1);
        expect(call->name, "near what the header says", call->used + 1024 > call->stated, 1);
        expect(call->name, "within a small stack", call->stated < SMALL_STACK, 1);
    }
    expect("all calls", "none refused", refused, SHARES_OK);
    expect("both checks", "each way out", kinds,
           1u << SHARES_HOLDS | 1u << SHARES_UNFAIR | 1u << SHARES_WASTEFUL | 1u << SHARES_ACCEPTED |
               1u << SHARES_OFF_PRICE);
    return finished("the stack");
}
