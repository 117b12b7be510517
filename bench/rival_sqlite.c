// The generated transfers over SQLite: a table of accounts and one of entries, and a transaction of its own for each transfer,
// which is on the disk when its COMMIT returns (WAL, synchronous=FULL). One thread: SQLite has one writer at a time.
//
//     rival_sqlite DATABASE TRANSFERS SEED
//     rival_sqlite                             which SQLite it is
//
// It prints the lines of the summary, with an end of the log of 0, since it has none.
#include "transfers.h"
#include <sqlite3.h>

static sqlite3 *database;

static void check(int answer, int wanted) {
    if (answer == wanted) return;
    fprintf(stderr, "rival_sqlite: %s\n", sqlite3_errmsg(database));
    exit(1);
}

static void run_sql(const char *text) { check(sqlite3_exec(database, text, NULL, NULL, NULL), SQLITE_OK); }

static sqlite3_stmt *prepared(const char *text) {
    sqlite3_stmt *statement;
    check(sqlite3_prepare_v3(database, text, -1, SQLITE_PREPARE_PERSISTENT, &statement, NULL), SQLITE_OK);
    return statement;
}

// Runs the statement with these numbers, and answers the number in its first row, or 0 where it has none.
static int64_t step(sqlite3_stmt *statement, const int64_t *numbers, int count) {
    for (int i = 0; i < count; i++) check(sqlite3_bind_int64(statement, i + 1, numbers[i]), SQLITE_OK);
    int answer = sqlite3_step(statement);
    int64_t found = answer == SQLITE_ROW ? sqlite3_column_int64(statement, 0) : 0;
    if (answer != SQLITE_ROW) check(answer, SQLITE_DONE);
    check(sqlite3_reset(statement), SQLITE_OK);
    return found;
}

typedef struct {
    sqlite3_stmt *begin, *commit, *balance_of, *move, *enter;
} Statements;

static void make_tables(void) {
    run_sql("PRAGMA journal_mode=WAL");
    run_sql("PRAGMA synchronous=FULL");
    run_sql("BEGIN");
    run_sql("CREATE TABLE account (number INTEGER PRIMARY KEY, balance INTEGER NOT NULL)");
    run_sql("CREATE TABLE entry (number INTEGER PRIMARY KEY, transfer INTEGER, account INTEGER, delta INTEGER)");
    sqlite3_stmt *insert = prepared("INSERT INTO account VALUES (?, ?)");
    for (int64_t account = 0; account < ACCOUNTS; account++) step(insert, (int64_t[]){account, FIRST_BALANCE}, 2);
    sqlite3_finalize(insert);
    run_sql("COMMIT");
}

static void change(const Statements *use, int64_t transfer, int64_t account, int64_t delta) {
    step(use->move, (int64_t[]){delta, account}, 2);
    step(use->enter, (int64_t[]){transfer, account, delta}, 3);
}

// Whether the transfer was made: its payer had enough.
static int make_transfer(const Statements *use, int64_t transfer, Leg leg) {
    step(use->begin, NULL, 0);
    int is_done = step(use->balance_of, (int64_t[]){leg.payer}, 1) >= leg.amount;
    if (is_done) {
        change(use, transfer, leg.payer, -(int64_t)leg.amount);
        change(use, transfer, leg.payee, leg.amount);
    }
    step(use->commit, NULL, 0);
    return is_done;
}

int main(int count, char **words) {
    if (count != 4) return printf("SQLite %s\n", sqlite3_libversion()) < 0;
    uint32_t transfers = (uint32_t)atol(words[2]), done = 0;
    uint64_t balances[ACCOUNTS];
    const Leg *legs = generated_legs(transfers, (uint32_t)atol(words[3]));
    check(sqlite3_open(words[1], &database), SQLITE_OK);
    make_tables();
    Statements use = {
        prepared("BEGIN IMMEDIATE"),
        prepared("COMMIT"),
        prepared("SELECT balance FROM account WHERE number = ?"),
        prepared("UPDATE account SET balance = balance + ? WHERE number = ?"),
        prepared("INSERT INTO entry (transfer, account, delta) VALUES (?, ?, ?)"),
    };
    for (uint32_t i = 0; i < transfers; i++) done += (uint32_t)make_transfer(&use, i + 1, legs[i]);
    for (int64_t account = 0; account < ACCOUNTS; account++) balances[account] = (uint64_t)step(use.balance_of, &account, 1);
    print_summary(transfers, done, transfers - done, 0, balances);
    return 0;
}
