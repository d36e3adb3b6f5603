/* The share-out, the two checks, the join of two sheets and everyone's own
 * measure as a plain C program, to time the proved ones beside.
 *
 * Each call takes, refuses, writes and returns what the call of that name in
 * shares.h does. Only the dominating list that is shown may be another. */
#ifndef PLAIN_H
#define PLAIN_H

#include "shares.h"

uint8_t plain_allocate(const uint8_t *sheet, size_t sheet_len,
                       uint8_t *owners, size_t owners_len,
                       uint8_t *prices, size_t prices_len,
                       uint8_t *scratch, size_t scratch_len,
                       uint64_t *moves, uint8_t *cuts);

uint32_t plain_check_list(const uint8_t *sheet, size_t sheet_len,
                          const uint8_t *owners, size_t owners_len, uint8_t slack,
                          uint8_t *dominating, size_t dominating_len);

uint32_t plain_check_prices(const uint8_t *sheet, size_t sheet_len,
                            const uint8_t *owners, size_t owners_len,
                            const uint8_t *prices, size_t prices_len);

uint8_t plain_join(const uint8_t *first, size_t first_len,
                   const uint8_t *second, size_t second_len,
                   uint8_t *joined, size_t joined_len, size_t *written);

uint8_t plain_measures(const uint8_t *sheet, size_t sheet_len, uint32_t measures[SHARES_MAX_AGENTS]);

#endif
