// The generated transfers over LMDB: a database of accounts and one of entries, and a transaction of its own for each transfer,
// which is on the disk when its commit returns (no flag that says otherwise). One thread: LMDB has one writer at a time.
//
//     rival_lmdb FOLDER TRANSFERS SEED
//     rival_lmdb                           which LMDB it is
//
// It prints the lines of the summary, with an end of the log of 0, since it has none.
#include "transfers.h"
#include <lmdb.h>

// Room for all entries, each 16 bytes beside its key.
static const size_t MAP_BYTES = (size_t)1 << 30;

typedef struct {
    uint32_t transfer, account;
    int32_t delta;
} Entry;

typedef struct {
    MDB_env *environment;
    MDB_dbi accounts, entries;
    uint64_t next_entry;
} Store;

static void check(int answer) {
    if (answer == 0) return;
    fprintf(stderr, "rival_lmdb: %s\n", mdb_strerror(answer));
    exit(1);
}

static MDB_txn *begun(Store *store) {
    MDB_txn *txn;
    check(mdb_txn_begin(store->environment, NULL, 0, &txn));
    return txn;
}

static uint32_t balance_of(Store *store, MDB_txn *txn, uint32_t account) {
    MDB_val key = {sizeof account, &account}, found;
    check(mdb_get(txn, store->accounts, &key, &found));
    return *(const uint32_t *)found.mv_data;
}

static void set_balance(Store *store, MDB_txn *txn, uint32_t account, uint32_t balance) {
    MDB_val key = {sizeof account, &account}, value = {sizeof balance, &balance};
    check(mdb_put(txn, store->accounts, &key, &value, 0));
}

static void open_store(Store *store, const char *folder) {
    check(mdb_env_create(&store->environment));
    check(mdb_env_set_maxdbs(store->environment, 2));
    check(mdb_env_set_mapsize(store->environment, MAP_BYTES));
    check(mdb_env_open(store->environment, folder, 0, 0644));
    MDB_txn *txn = begun(store);
    check(mdb_dbi_open(txn, "accounts", MDB_CREATE | MDB_INTEGERKEY, &store->accounts));
    check(mdb_dbi_open(txn, "entries", MDB_CREATE | MDB_INTEGERKEY, &store->entries));
    for (uint32_t account = 0; account < ACCOUNTS; account++) set_balance(store, txn, account, FIRST_BALANCE);
    check(mdb_txn_commit(txn));
}

static void change(Store *store, MDB_txn *txn, uint32_t transfer, uint32_t account, int32_t delta) {
    set_balance(store, txn, account, balance_of(store, txn, account) + (uint32_t)delta);
    Entry entry = {transfer, account, delta};
    MDB_val key = {sizeof store->next_entry, &store->next_entry}, value = {sizeof entry, &entry};
    check(mdb_put(txn, store->entries, &key, &value, MDB_APPEND));
    store->next_entry++;
}

// Whether the transfer was made: its payer had enough.
static int make_transfer(Store *store, uint32_t transfer, Leg leg) {
    MDB_txn *txn = begun(store);
    int is_done = balance_of(store, txn, leg.payer) >= leg.amount;
    if (is_done) {
        change(store, txn, transfer, leg.payer, -(int32_t)leg.amount);
        change(store, txn, transfer, leg.payee, (int32_t)leg.amount);
    }
    check(mdb_txn_commit(txn));
    return is_done;
}

int main(int count, char **words) {
    if (count != 4) return printf("%s\n", mdb_version(NULL, NULL, NULL)) < 0;
    uint32_t transfers = (uint32_t)atol(words[2]), done = 0;
    uint64_t balances[ACCOUNTS];
    const Leg *legs = generated_legs(transfers, (uint32_t)atol(words[3]));
    Store store = {.next_entry = 1};
    open_store(&store, words[1]);
    for (uint32_t i = 0; i < transfers; i++) done += (uint32_t)make_transfer(&store, i + 1, legs[i]);
    MDB_txn *txn = begun(&store);
    for (uint32_t account = 0; account < ACCOUNTS; account++) balances[account] = balance_of(&store, txn, account);
    mdb_txn_abort(txn);
    print_summary(transfers, done, transfers - done, 0, balances);
    return 0;
}
