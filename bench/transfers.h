// What all rivals share: the generated transfers and the summary, as docs/MANUAL.md ("The summary") and
// crates/txn_script/specs/Generator.antt say them.
#include <inttypes.h>
#include <stdint.h>
#include <stdio.h>
#include <stdlib.h>

#ifndef ACCOUNTS
#define ACCOUNTS 64
#endif

enum { FIRST_BALANCE = 1000000 };
enum { UNITS_OF_GENESIS = 2, UNITS_OF_TRANSFER = 5 };

// One account pays another.
typedef struct {
    uint32_t payer, payee, amount;
} Leg;

static inline void die(const char *what) {
    perror(what);
    exit(1);
}

static inline uint32_t number_after(uint32_t number) { return (75 * number + 74) % 65537; }

static inline Leg leg_from(uint32_t number) {
    uint32_t payer = number % ACCOUNTS;
    uint32_t payee = (payer + 1 + number / ACCOUNTS % (ACCOUNTS - 1)) % ACCOUNTS;
    return (Leg){payer, payee, 1 + number / 4096 % 9};
}

// So many transfers of this seed.
static inline Leg *generated_legs(uint32_t count, uint32_t seed) {
    Leg *legs = malloc(count * sizeof(Leg) + 1);
    if (legs == NULL) die("malloc");
    for (uint32_t i = 0; i < count; i++) {
        seed = number_after(seed);
        legs[i] = leg_from(seed);
    }
    return legs;
}

static inline void print_summary(uint32_t transfers, uint32_t done, uint32_t refused, uint64_t lsn, const uint64_t *balances) {
    uint64_t total = 0, mix = 0;
    for (uint32_t account = 0; account < ACCOUNTS; account++) {
        total += balances[account];
        mix += (account + 1) * balances[account];
    }
    printf("transfers %" PRIu32 "\ndone %" PRIu32 "\nrefused %" PRIu32 "\n", transfers, done, refused);
    printf("lsn %" PRIu64 "\ntotal %" PRIu64 "\nmix %" PRIu64 "\n", lsn, total, mix);
}
