/* Many threads at once: each gets the answers that one thread alone gets. */
#define _POSIX_C_SOURCE 200809L
#include <pthread.h>

#include "sheets.h"
#include "tests.h"

#define THREADS 8
#define SHEETS 4

struct answer {
    uint8_t owners[CHORES], recorded_owners[CHORES];
    uint8_t prices[PRICES], recorded_prices[PRICES];
    uint8_t dominating[CHORES];
    uint8_t record[RECORD];
    uint8_t joined[SHEET], measured[CHORES];
    uint64_t moves, recorded_moves;
    size_t written, start, size;
    uint32_t refusal, cuts, recorded, recorded_cuts, edited, priced, joining, showing, strand, measuring, listing;
    uint32_t lists[SHARES_MAX_SLACK + 1]; /* the list at each slack */
    uint32_t measures[AGENTS];
};

static struct joinable lent[SHEETS];
static struct answer alone[SHEETS];

/* Both calls on two sheets. */
static void ask_of_strands(const struct joinable *from, struct answer *answer)
{
    uint8_t strand = 0;
    answer->joining = shares_join(from->first, FIRST, from->second, SECOND, answer->joined, SHEET, &answer->written);
    answer->showing = shares_show_marks(from->first, FIRST, from->second, SECOND, answer->owners[0], CHORES, &strand,
                                        &answer->start, &answer->size);
    answer->strand = strand;
}

static void ask(const struct joinable *from, struct answer *answer)
{
    const uint8_t *sheet = from->sheet;
    uint8_t scratch[SHARES_SCRATCH], edited[CHORES], cuts = 0;
    memset(answer, 0, sizeof *answer);
    answer->refusal = shares_allocate(sheet, SHEET, answer->owners, CHORES, answer->prices, PRICES, scratch,
                                      sizeof scratch, &answer->moves, &cuts);
    answer->cuts = cuts;
    answer->recorded = shares_allocate_recorded(sheet, SHEET, answer->recorded_owners, CHORES, answer->recorded_prices,
                                                PRICES, scratch, sizeof scratch, answer->record, RECORD,
                                                &answer->recorded_moves, &cuts);
    answer->recorded_cuts = cuts;
    for (uint8_t slack = 0; slack <= SHARES_MAX_SLACK; slack++)
        answer->lists[slack] =
            shares_check_list(sheet, SHEET, answer->owners, CHORES, slack, answer->dominating, CHORES);
    answer->priced = shares_check_prices(sheet, SHEET, answer->owners, CHORES, answer->prices, PRICES);
    memcpy(edited, answer->owners, CHORES);
    edited[0] = (uint8_t)(1 + edited[0] % AGENTS);
    answer->edited = shares_check_list(sheet, SHEET, edited, CHORES, 1, answer->dominating, CHORES);
    ask_of_strands(from, answer);
    answer->measuring = shares_measures(sheet, SHEET, answer->measures);
    answer->listing = shares_measured_list(sheet, SHEET, answer->measured, CHORES);
}

/* Hands back its argument if some answer differs. */
static void *ask_again(void *differs)
{
    struct answer answer;
    void *found = NULL;
    for (size_t i = 0; i < SHEETS; i++) {
        ask(&lent[i], &answer);
        if (memcmp(&answer, &alone[i], sizeof answer) != 0)
            found = differs;
    }
    return found;
}

int main(void)
{
    pthread_t threads[THREADS];
    for (size_t i = 0; i < SHEETS; i++) {
        make_joinable(&lent[i], (uint32_t)i);
        ask(&lent[i], &alone[i]);
        expect("alone", "shared out", alone[i].refusal, SHARES_OK);
        expect("alone", "shared out with a record", alone[i].recorded, SHARES_OK);
        expect("alone", "accepted", shares_verdict_kind(alone[i].priced), SHARES_ACCEPTED);
        for (size_t slack = 1; slack <= SHARES_MAX_SLACK; slack++)
            expect("alone", "holds at each slack from 1 on", alone[i].lists[slack], SHARES_HOLDS << 8);
        expect("alone", "joined", alone[i].joining, SHARES_OK);
        expect("alone", "marks shown", alone[i].showing, SHARES_OK);
        expect("alone", "measures told", alone[i].measuring, SHARES_OK);
        expect("alone", "a measured list", alone[i].listing, SHARES_OK);
    }
    for (size_t i = 0; i < THREADS; i++)
        expect("threads", "started", (uint32_t)pthread_create(&threads[i], NULL, ask_again, alone), 0);
    for (size_t i = 0; i < THREADS; i++) {
        void *differs = alone;
        pthread_join(threads[i], &differs);
        expect("threads", "the same answers", differs == NULL, 1);
    }
    return finished("threads");
}
