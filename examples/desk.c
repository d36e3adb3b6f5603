/* A festival's desk: shares out one sheet and prints who does what. */
#include <inttypes.h>
#include <stdio.h>

#include <shares.h>

#define AGENTS 2
#define CHORES 5
#define EASY 1
#define DIFFICULT 3

static const char *const names[AGENTS] = {"Ada", "Boris"};
static const char *const rows[AGENTS] = {"eeeee", "dddde"};
static const char *const reels[CHORES] = {
    "Harbour, reel 1", "Harbour, reel 2", "Harbour, reel 3", "Salt Road, reel 1", "Salt Road, reel 2",
};

int main(void)
{
    uint8_t sheet[SHARES_SHEET_BYTES(AGENTS, CHORES)] = {AGENTS, 0, CHORES, 0, EASY, 0, DIFFICULT};
    uint8_t owners[CHORES], prices[SHARES_PRICE_BYTES * CHORES], scratch[SHARES_SCRATCH];
    uint64_t moves;
    uint8_t cuts;

    for (size_t i = 0; i < AGENTS; i++)
        for (size_t c = 0; c < CHORES; c++)
            shares_set_difficult(sheet, i, c, rows[i][c] == 'd');

    uint8_t refusal = shares_allocate(sheet, sizeof sheet, owners, sizeof owners, prices, sizeof prices, scratch,
                                      sizeof scratch, &moves, &cuts);
    if (refusal != SHARES_OK) {
        fprintf(stderr, "The sheet is refused with %d. %s\n", refusal, shares_refusal_text(refusal));
        return 1;
    }
    for (size_t i = 0; i < AGENTS; i++) {
        printf("%s\n", names[i]);
        for (size_t c = 0; c < CHORES; c++)
            if (owners[c] == i + 1)
                printf("  %s (%s, price %" PRIu32 ")\n", reels[c],
                       shares_is_difficult(sheet, i, c) ? "difficult" : "easy", shares_price(prices, c));
    }
    printf("moves %" PRIu64 ", price cuts %d\n", moves, cuts);

    /* The prices are a certificate: whoever doubts the list can check it. */
    uint32_t verdict = shares_check_prices(sheet, sizeof sheet, owners, sizeof owners, prices, sizeof prices);
    int accepted = shares_verdict_kind(verdict) == SHARES_ACCEPTED;
    printf("the price check: %s\n", accepted ? "accepted" : "not accepted");
    return accepted ? 0 : 1;
}
