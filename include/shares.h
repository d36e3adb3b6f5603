/* shares: a proved share-out of easy and difficult chores, for C. The manual
 * page is shares(3).
 *
 * C99 or later, or C++. Build with what
 * `pkg-config --cflags --libs shares` prints.
 *
 * Agents, chores and the sheets of a book are numbered from 1.
 *
 * A sheet is bytes: the number of agents n in one byte; the number of chores m,
 * the easy weight a and the difficult weight b in two bytes each; then n rows of
 * m marks, one bit a mark, 0 for easy and 1 for difficult, the high bit of a byte
 * first. Each row starts on a fresh byte, and the bits after its last chore are 0.
 * Numbers of several bytes have their high byte first, here as everywhere below.
 *
 * A book is bytes: the number of sheets, then for each sheet the place in the book
 * where it starts, counted from 0, and how long it is, two bytes each, then the
 * sheets, one right after the other to the end of the book.
 *
 * An owner list has one byte per chore, the number of the agent who does it. A
 * price list has four bytes per chore.
 *
 * Scratch is bytes that a share-out works in. While it runs the first 64 hold a
 * distance and a place in line for each agent, and nothing else is put there; what
 * they held before makes no difference. All of them end as zeros, however many
 * there are. A refused call leaves them as they were.
 *
 * What a caller owes: every list passes as a pointer and its length in bytes,
 * with that many bytes behind the pointer. A list of length 0 may be NULL, and
 * no other pointer may. A list that is declared with its number of entries has
 * all of them. What a call writes to may overlap nothing else that it is handed,
 * and no other thread may change what it is handed during the call. Nothing else
 * is asked: whatever the bytes are, a call stays within them and returns.
 *
 * Nothing is kept after a call, and no memory is taken. The library has no
 * writable data, so any number of threads may call it at once.
 */
#ifndef SHARES_H
#define SHARES_H

#include <stddef.h>
#include <stdint.h>

/* A conversion without a warning in either language. */
#ifdef __cplusplus
#define SHARES_AS(type, value) static_cast<type>(value)
#else
#define SHARES_AS(type, value) ((type)(value))
#endif

#ifdef __cplusplus
extern "C" {
#endif

/* The release that this header is of. */
#define SHARES_VERSION "6.2.15"
#define SHARES_VERSION_MAJOR 6
#define SHARES_VERSION_MINOR 2
#define SHARES_VERSION_PATCH 15

/* Limits: 1 to 32 agents, 0 to 4,000 chores, 1 <= a < b <= 1,000. */
#define SHARES_MAX_AGENTS 32
#define SHARES_MAX_CHORES 4000
#define SHARES_MAX_WEIGHT 1000
/* The bytes of a sheet before its rows, of a row of m marks, and of a whole sheet
 * of n agents and m chores. */
#define SHARES_HEADER_BYTES 7
#define SHARES_ROW_BYTES(m) ((SHARES_AS(size_t, m) + 7) / 8)
#define SHARES_SHEET_BYTES(n, m) (SHARES_HEADER_BYTES + SHARES_AS(size_t, n) * SHARES_ROW_BYTES(m))
/* The bytes of the longest sheet, 16,007. */
#define SHARES_MAX_SHEET SHARES_SHEET_BYTES(SHARES_MAX_AGENTS, SHARES_MAX_CHORES)
/* A price handed to shares_check_prices is 1 to this. */
#define SHARES_MAX_PRICE 1000000
#define SHARES_PRICE_BYTES 4
/* A slack handed to shares_check_list is 0 to this. */
#define SHARES_MAX_SLACK 8
/* The least scratch, in bytes. */
#define SHARES_SCRATCH 64
/* The bytes of a move in a record. */
#define SHARES_MOVE_BYTES 6
/* A book has 1 to 16 sheets and 1 to 65,535 bytes. */
#define SHARES_BOOK_SHEETS 16
#define SHARES_MAX_BOOK 65535
/* The least entries of each long list for a book. */
#define SHARES_BOOK_ENTRIES 64000

/* The most moves of a share-out of n agents and m chores, whatever its weights
 * and marks: n (n - 1) m, which is 1,800 at 6 x 60, 198,400 at 32 x 200 and
 * 3,968,000 at 32 x 4,000. It is proved. How long they take is not: on one machine,
 * as an older kit compiled it, the slowest of some 1,000 sheets of 32 x 200 took
 * 0.55 microseconds a move, and at that rate 198,400 take about a tenth of a
 * second, and the 1,800 of 6 x 60 less than a millisecond. The slowest of 31 sheets
 * of 32 x 4,000 took 2.6 microseconds a move, and at that rate 3,968,000 take about
 * ten seconds. */
#define SHARES_MOST_MOVES(n, m) (SHARES_AS(uint64_t, n) * (SHARES_AS(uint64_t, n) - 1) * SHARES_AS(uint64_t, m))

/* The most stack that each call takes, in bytes, on x86-64: each less than 128 KB. */
#define SHARES_STACK_ALLOCATE 41472
#define SHARES_STACK_ALLOCATE_RECORDED 61440
#define SHARES_STACK_CHECK_LIST 512
#define SHARES_STACK_CHECK_PRICES 17408
#define SHARES_STACK_FIND_SHEET 512
#define SHARES_STACK_ALLOCATE_BOOK 42496
#define SHARES_STACK_JOIN 512
#define SHARES_STACK_SHOW_MARKS 512
#define SHARES_STACK_MEASURES 1024
#define SHARES_STACK_MEASURED_LIST 5632

/* Refusal numbers. A call that could give several gives the first, in the
 * order of its list below. A refused call changes nothing that was lent to it,
 * and that includes every result behind a pointer. */
#define SHARES_OK 0
#define SHARES_BAD_AGENTS 1      /* n is 0 or above 32 */
#define SHARES_BAD_CHORES 2      /* m is above 4,000, of one sheet or two together */
#define SHARES_BAD_WEIGHTS 3     /* a is 0, b <= a, or b is above 1,000 */
#define SHARES_BAD_PADDING 4     /* a set bit after the last chore of a row */
#define SHARES_BAD_LENGTH 5      /* a sheet of other than 7 + n * ((m + 7) / 8) bytes */
#define SHARES_BAD_OWNER_COUNT 6 /* an owner list of other than m entries */
#define SHARES_BAD_OWNER 7       /* an owner of 0 or above n */
#define SHARES_SHORT_LIST 8      /* a lent list or the scratch is too short */
#define SHARES_BAD_BOOK 9        /* no book, or no such sheet in it */
#define SHARES_NOT_THERE 9       /* the same number: no such agent or chore */
#define SHARES_BAD_PRICE 10      /* other than m prices, or one out of range */
#define SHARES_SHORT_RECORD 11   /* the moves do not fit the record */
#define SHARES_UNLIKE_SHEETS 12  /* two sheets differ in n, a or b */
#define SHARES_BAD_SLACK 13      /* a slack above 8 */
#define SHARES_BAD_MULTIPLE 14   /* b is not a multiple of a */

/* Shares out a sheet.
 *
 * Lent: owners, at least m bytes; prices, at least 4 * m bytes; scratch, at
 * least 64 bytes. prices_len / 4 is the number of entries of the price list.
 * Returns 0: the first m owners and the first m prices are written and the rest
 * of both lists is kept; the whole scratch is zeros; *moves is the number of
 * chores handed over, *cuts the number of price cuts. *moves is at most
 * SHARES_MOST_MOVES(n, m), and at most (n - 1) * m for each round; there is one
 * round more than cuts.
 * Returns a refusal number: 5 for a sheet of fewer than 7 bytes, 1, 2, 3, 5, 4,
 * 8.
 */
uint8_t shares_allocate(const uint8_t *sheet, size_t sheet_len,
                        uint8_t *owners, size_t owners_len,
                        uint8_t *prices, size_t prices_len,
                        uint8_t *scratch, size_t scratch_len,
                        uint64_t *moves, uint8_t *cuts);

/* Shares out a sheet as shares_allocate does, and records every move.
 *
 * Lent: as for shares_allocate, and record, at least 6 bytes for each move that
 * the run makes. SHARES_MOVE_BYTES * SHARES_MOST_MOVES(n, m) are always enough;
 * with fewer the run is worked twice, since nothing lent is written before the
 * moves are known to fit.
 * Returns 0: owners, prices, scratch, *moves and *cuts are as shares_allocate
 * leaves them. The first 6 * *moves bytes of the record are written, and the rest
 * of it is kept. They are the moves in the order made, six bytes each:
 *
 *   0 and 1   the chore
 *   2         the giver, who had it until then
 *   3         the receiver
 *   4         the round, from 1; each price cut begins the next one
 *   5         the step: 1 for step 2a, between cut groups, 2 for step 2b
 *
 * The run opens with the chores in order of number: one that somebody finds easy
 * is at the first agent who does, any other at the first of those who then hold
 * the fewest chores. For that a row of difficult marks only is read as all easy.
 * The moves, made one after the other from there, give the owners that are
 * returned.
 * Returns a refusal number: 5 for a sheet of fewer than 7 bytes, 1, 2, 3, 5, 4,
 * 8, 11.
 */
uint8_t shares_allocate_recorded(const uint8_t *sheet, size_t sheet_len,
                                 uint8_t *owners, size_t owners_len,
                                 uint8_t *prices, size_t prices_len,
                                 uint8_t *scratch, size_t scratch_len,
                                 uint8_t *record, size_t record_len,
                                 uint64_t *moves, uint8_t *cuts);

/* Checks any owner list: is it envy-free up to `slack` chores, and does no other
 * list cost nobody more and somebody less?
 *
 * Agent i envies agent j by more than `slack` chores if, with up to `slack` of i's
 * chores taken off, the costliest for i first, the rest still costs i more than
 * j's chores would. So somebody with no more than `slack` chores envies nobody.
 * Slack 0 asks for plain envy-freeness, slack 1 for envy-freeness up to one chore.
 * A list that holds at one slack holds at every larger one. The list of a
 * share-out, and any that shares_check_prices accepts, holds at slack 1 and above;
 * at slack 0 it may be unfair.
 *
 * slack must be 0 to 8.
 * Lent: dominating, at least m bytes; its first m are written with
 * SHARES_WASTEFUL, and then they are such another list. It is kept otherwise.
 * Returns a verdict, see below: SHARES_UNFAIR with the first pair of agents i, j,
 * by i and then by j, where i envies j by more than `slack` chores; or, for a list
 * without such a pair, SHARES_WASTEFUL or SHARES_HOLDS. Costs are as marked, in
 * rows of difficult marks only too.
 * Refusals: 5 for fewer than 7 bytes, 1, 2, 3, 5, 4, 6, 7, 8, 13.
 */
uint32_t shares_check_list(const uint8_t *sheet, size_t sheet_len,
                           const uint8_t *owners, size_t owners_len,
                           uint8_t slack,
                           uint8_t *dominating, size_t dominating_len);

/* Checks an owner list with prices. An accepted list also holds, at slack 1 and
 * above.
 *
 * prices_len must be 4 * m, and each price 1 to 1,000,000.
 * Returns a verdict, see below: SHARES_OFF_PRICE with the first chore that is not
 * a best one of its owner, that is, of the owner's least cost per price among all
 * chores; else SHARES_PRICE_ENVY with the first pair of agents i, j, by i and then
 * by j, where i's prices without the dearest are above j's; else SHARES_ACCEPTED.
 * Costs are as marked.
 * Refusals: 5 for fewer than 7 bytes, 1, 2, 3, 5, 4, 6, 7, 10.
 */
uint32_t shares_check_prices(const uint8_t *sheet, size_t sheet_len,
                             const uint8_t *owners, size_t owners_len,
                             const uint8_t *prices, size_t prices_len);

/* Looks up a sheet of a book by its number. The sheet itself is not judged.
 *
 * Returns 0: *start is the place of its first byte in the book, counted from 0,
 * and *size its number of bytes.
 * Returns 9: the bytes are no book, or sheet_number is 0 or above the count of
 * sheets.
 */
uint8_t shares_find_sheet(const uint8_t *book, size_t book_len,
                          size_t sheet_number, size_t *start, size_t *size);

/* Shares out every sheet of a book, each into the next free stretch of both
 * long lists. A refused sheet takes no entries.
 *
 * Lent: owners, at least 64,000 bytes; prices, at least 256,000 bytes; scratch, at
 * least 64 bytes.
 * Returns 0: entry i of each list of results tells of sheet i + 1. refusals has 0
 * or the sheet's own number, as shares_allocate would give it: 5, 1, 2, 3, 5, 4.
 * Beside 0 are the sheet's moves, its cuts and its first entry in the long lists,
 * counted from 0; beside a number these entries keep what they held. So do all
 * entries after those of the book's sheets, book[0] of them. tally has the moves
 * and the cuts of all accepted sheets, and so no more moves than the sum of
 * SHARES_MOST_MOVES(n, m) over these. The long lists are kept outside the
 * stretches of accepted sheets, and the whole scratch is zeros.
 * Returns a refusal number: 9, 8.
 */
uint8_t shares_allocate_book(const uint8_t *book, size_t book_len,
                             uint8_t *owners, size_t owners_len,
                             uint8_t *prices, size_t prices_len,
                             uint8_t *scratch, size_t scratch_len,
                             uint8_t refusals[SHARES_BOOK_SHEETS],
                             uint64_t moves[SHARES_BOOK_SHEETS],
                             uint8_t cuts[SHARES_BOOK_SHEETS],
                             uint32_t firsts[SHARES_BOOK_SHEETS],
                             uint64_t tally[2]);

/* Joins two sheets, the strands of one festival, which must have the same n, a
 * and b. The second's chores follow the first's.
 *
 * Lent: joined, at least SHARES_SHEET_BYTES(n, m) bytes, m being the chores of
 * both together. SHARES_MAX_SHEET are always enough.
 * Returns 0: the joined sheet stands at the start of joined, and the rest of that
 * is kept. It has the n, a and b of both; a row has the agent's marks of the
 * first sheet, then those of the second. *written is its number of bytes. It
 * breaks no rule, so every call that is handed a sheet takes it, shares_measures
 * and shares_measured_list if b is a multiple of a.
 * Returns a refusal number: the first sheet's own, 5 for fewer than 7 bytes, 1,
 * 2, 3, 5, 4; the second's own, in the same order; 12; 2 for more than 4,000
 * chores together; 8.
 *
 * If an owner list is not wasteful on the joined sheet, that is, if no other list
 * costs nobody more and somebody less, neither strand's part of it is wasteful on
 * its own sheet. It is proved. A part may be unfair where the whole list is not.
 * Which rows are of difficult marks only is judged on the joined sheet.
 */
uint8_t shares_join(const uint8_t *first, size_t first_len,
                    const uint8_t *second, size_t second_len,
                    uint8_t *joined, size_t joined_len, size_t *written);

/* Shows the marks of an agent out of whichever of two sheets holds a chore. The
 * sheets are two that could be joined, and chores are numbered as on the joined
 * sheet: with m chores in the first, chore m is its last, and chore m + 1 the
 * second's first. Nothing is copied.
 *
 * Returns 0: *strand is 1 if the first sheet holds the chore, and 2 if the second
 * does. *start is the place in that sheet, counted from 0, of the first byte of
 * the row of agent number person, and *size the row's number of bytes, (m + 7) / 8
 * with m the chores of that sheet.
 * Returns a refusal number: as shares_join up to 2, then 9 for a person of 0 or
 * above n, or a chore of 0 or above the chores of both together.
 */
uint8_t shares_show_marks(const uint8_t *first, size_t first_len,
                          const uint8_t *second, size_t second_len,
                          size_t person, size_t chore,
                          uint8_t *strand, size_t *start, size_t *size);

/* Tells each agent's own measure, its maximin share: the best that it could secure
 * if it split the sheet into n piles and were left with the pile that costs it
 * most. That is the least, over all splits of the m chores into n piles, of what
 * the costliest pile costs the agent. Costs are as marked, in rows of difficult
 * marks only too.
 *
 * b must be a multiple of a.
 * Lent: measures, 32 entries, whatever n is.
 * Returns 0: the first n entries are the measures, in order of agent, each at most
 * 4,000,000, and the others are kept.
 * Returns a refusal number: 5 for a sheet of fewer than 7 bytes, 1, 2, 3, 5, 4,
 * 14.
 *
 * A measure goes by the agent's own marks alone, and promises nothing of any list:
 * that of a share-out may cost an agent more. That of shares_measured_list does
 * not.
 */
uint8_t shares_measures(const uint8_t *sheet, size_t sheet_len,
                        uint32_t measures[SHARES_MAX_AGENTS]);

/* Finds an owner list that respects everyone's own measure: nobody's chores cost it
 * more than the number that shares_measures tells for it, and the list is not
 * wasteful, that is, no other costs nobody more and somebody less. There always is
 * one. Costs are as marked, in rows of difficult marks only too.
 *
 * b must be a multiple of a.
 * Lent: owners, at least m bytes.
 * Returns 0: the first m owners are such a list, and the rest is kept.
 * Returns a refusal number: 5 for a sheet of fewer than 7 bytes, 1, 2, 3, 5, 4,
 * 14, 8.
 *
 * Several lists may be such. Which of them is written is left free, and nothing
 * should depend on it. Evenness is not promised: shares_check_list may call the
 * list unfair, at any slack, but never wasteful.
 */
uint8_t shares_measured_list(const uint8_t *sheet, size_t sheet_len,
                             uint8_t *owners, size_t owners_len);

/* A verdict is one number. Its low byte is 0 or the refusal number, the next byte
 * is its kind; the kinds of the two checks share no value. What the two high
 * bytes hold depends on the kind:
 *
 *                        bits 16 to 23          bits 24 to 31
 *   SHARES_UNFAIR        agent i                agent j
 *   SHARES_PRICE_ENVY    agent i                agent j
 *   SHARES_OFF_PRICE     the chore's low byte   the chore's high byte
 *   every other kind     0                      0
 */
enum shares_kind {
    SHARES_REFUSED = 0, /* either check: the refusal number is not 0 */
    SHARES_HOLDS = 1,   /* shares_check_list */
    SHARES_UNFAIR = 2,
    SHARES_WASTEFUL = 3,
    SHARES_ACCEPTED = 4, /* shares_check_prices */
    SHARES_OFF_PRICE = 5,
    SHARES_PRICE_ENVY = 6
};

static inline enum shares_kind shares_verdict_kind(uint32_t verdict)
{
    return SHARES_AS(enum shares_kind, verdict >> 8 & 0xff);
}

/* The refusal number of SHARES_REFUSED, 0 with every other kind. */
static inline uint8_t shares_verdict_refusal(uint32_t verdict)
{
    return SHARES_AS(uint8_t, verdict & 0xff);
}

/* i of SHARES_UNFAIR and SHARES_PRICE_ENVY. */
static inline uint8_t shares_verdict_i(uint32_t verdict)
{
    return SHARES_AS(uint8_t, verdict >> 16 & 0xff);
}

/* j of SHARES_UNFAIR and SHARES_PRICE_ENVY. */
static inline uint8_t shares_verdict_j(uint32_t verdict)
{
    return SHARES_AS(uint8_t, verdict >> 24);
}

/* The chore of SHARES_OFF_PRICE. */
static inline uint16_t shares_verdict_chore(uint32_t verdict)
{
    return SHARES_AS(uint16_t, verdict >> 16);
}

/* The place in a sheet of the byte that holds entry `entry` of row `row`, both
 * counted from 0. This and the next two go by the m in the sheet's header. They
 * ask that the sheet has all its bytes, that row is below n and entry below m, and
 * do not test it. */
static inline size_t shares_mark_place(const uint8_t *sheet, size_t row, size_t entry)
{
    uint16_t m = SHARES_AS(uint16_t, sheet[1] << 8 | sheet[2]);
    return SHARES_HEADER_BYTES + row * SHARES_ROW_BYTES(m) + entry / 8;
}

/* The mark there, which is agent row + 1's for chore entry + 1: 1 if it is
 * difficult, 0 if it is easy. */
static inline int shares_is_difficult(const uint8_t *sheet, size_t row, size_t entry)
{
    return sheet[shares_mark_place(sheet, row, entry)] >> (7 - entry % 8) & 1;
}

/* Makes it difficult, or easy if `difficult` is 0. */
static inline void shares_set_difficult(uint8_t *sheet, size_t row, size_t entry, int difficult)
{
    uint8_t *at = sheet + shares_mark_place(sheet, row, entry);
    int bit = 0x80 >> entry % 8;
    *at = SHARES_AS(uint8_t, difficult ? *at | bit : *at & ~bit);
}

/* Entry `entry` of a price list, counted from 0. */
static inline uint32_t shares_price(const uint8_t *prices, size_t entry)
{
    const uint8_t *at = prices + SHARES_PRICE_BYTES * entry;
    return SHARES_AS(uint32_t, at[0]) << 24 | SHARES_AS(uint32_t, at[1]) << 16 |
           SHARES_AS(uint32_t, at[2]) << 8 | SHARES_AS(uint32_t, at[3]);
}

/* Makes it `price`. */
static inline void shares_set_price(uint8_t *prices, size_t entry, uint32_t price)
{
    uint8_t *at = prices + SHARES_PRICE_BYTES * entry;
    at[0] = SHARES_AS(uint8_t, price >> 24);
    at[1] = SHARES_AS(uint8_t, price >> 16 & 0xff);
    at[2] = SHARES_AS(uint8_t, price >> 8 & 0xff);
    at[3] = SHARES_AS(uint8_t, price & 0xff);
}

/* A refusal number as a sentence. */
static inline const char *shares_refusal_text(uint8_t number)
{
    switch (number) {
    case SHARES_OK:
        return "Nothing is refused.";
    case SHARES_BAD_AGENTS:
        return "The number of agents is 0 or above 32.";
    case SHARES_BAD_CHORES:
        return "The number of chores, of one sheet or of two together, is above 4,000.";
    case SHARES_BAD_WEIGHTS:
        return "The easy weight is 0 or not below the difficult one, or the difficult one is above 1,000.";
    case SHARES_BAD_PADDING:
        return "A bit after the last chore of a row is set.";
    case SHARES_BAD_LENGTH:
        return "The sheet has fewer than 7 bytes, or other than its agents and chores make.";
    case SHARES_BAD_OWNER_COUNT:
        return "The owner list does not have one entry for each chore.";
    case SHARES_BAD_OWNER:
        return "An owner is 0 or above the number of agents.";
    case SHARES_SHORT_LIST:
        return "A list that was lent for results, or the scratch, is too short.";
    case SHARES_BAD_BOOK:
        return "The bytes are no book, or there is no sheet, agent or chore of this number.";
    case SHARES_BAD_PRICE:
        return "The price list does not have one entry for each chore, or a price is 0 or above 1,000,000.";
    case SHARES_SHORT_RECORD:
        return "The record that was lent is too short for the moves.";
    case SHARES_UNLIKE_SHEETS:
        return "The two sheets differ in the number of agents or in a weight.";
    case SHARES_BAD_SLACK:
        return "The slack is above 8.";
    case SHARES_BAD_MULTIPLE:
        return "The difficult weight is not a multiple of the easy one.";
    default:
        return "No refusal has this number.";
    }
}

#ifdef __cplusplus
}
#endif

#endif
