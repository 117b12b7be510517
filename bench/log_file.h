// The log file of docs/FORMAT.md, written and read plainly: its units, its records, its batches behind gate bytes.
#include "transfers.h"
#include <endian.h>
#include <fcntl.h>
#include <libgen.h>
#include <stdbool.h>
#include <string.h>
#include <unistd.h>

enum { GENESIS = 1, UPDATE, COMMIT, SHORT, OVER, NOTE };
enum { UNIT = 8 };
static const uint64_t MOST_BALANCE = UINT64_C(0x3FFFFFFFFFFFFFFF);

static inline uint64_t header(uint64_t kind, uint64_t units, uint64_t field, uint64_t txn) {
    return kind << 56 | units << 48 | field << 32 | txn;
}

static inline uint32_t kind_of(uint64_t head) { return head >> 56; }
static inline uint32_t units_of(uint64_t head) { return head >> 48 & 0xff; }
static inline uint32_t field_of(uint64_t head) { return head >> 32 & 0xffff; }
static inline uint32_t txn_of(uint64_t head) { return (uint32_t)head; }

static inline uint64_t delta_and_prev(int32_t delta, uint32_t prev) { return (uint64_t)(uint32_t)delta << 32 | prev; }

static inline void put_unit(uint8_t *place, uint64_t unit) {
    unit = htobe64(unit);
    memcpy(place, &unit, UNIT);
}

static inline uint64_t unit_at(const uint8_t *place) {
    uint64_t unit;
    memcpy(&unit, place, UNIT);
    return be64toh(unit);
}

// The record that ends a transfer of one leg, on these two balances.
static inline uint64_t end_record(uint32_t txn, Leg leg, uint64_t of_payer, uint64_t of_payee) {
    if (of_payer < leg.amount) return header(SHORT, 1, 1, txn);
    if (of_payee > MOST_BALANCE - leg.amount) return header(OVER, 1, 1, txn);
    return header(COMMIT, 1, 1, txn);
}

enum { OPEN = 0x4f, CLOSED = 0, COUNT_BYTES = 4 };
static const char MAGIC[] = "AETHER1";
enum { MAGIC_BYTES = sizeof MAGIC - 1 };

// A log file, and the place of the gate at its end.
typedef struct {
    int file;
    off_t gate;
} LogFile;

static inline void write_synced(int file, const uint8_t *bytes, size_t length, off_t at) {
    while (length > 0) {
        ssize_t written = pwrite(file, bytes, length, at);
        if (written <= 0) die("write");
        bytes += written;
        length -= (size_t)written;
        at += written;
    }
    if (fdatasync(file) != 0) die("fdatasync");
}

// Writes what stands behind the gate, the next gate among it, and only then opens the gate.
static inline void write_gated(LogFile *log, const uint8_t *body, size_t length) {
    const uint8_t open = OPEN;
    write_synced(log->file, body, length, log->gate + 1);
    write_synced(log->file, &open, 1, log->gate);
    log->gate += (off_t)length;
}

static inline void put_count(uint8_t *place, uint32_t units) {
    units = htobe32(units);
    memcpy(place, &units, COUNT_BYTES);
}

// A batch is its count, its units and the next gate. The units are there; the rest is put here.
static inline void append(LogFile *log, uint8_t *batch, uint32_t units) {
    put_count(batch, units);
    batch[COUNT_BYTES + UNIT * units] = CLOSED;
    write_gated(log, batch, COUNT_BYTES + UNIT * units + 1);
}

static inline uint8_t *room_for_batch(uint32_t units) {
    uint8_t *batch = malloc(COUNT_BYTES + UNIT * (size_t)units + 1);
    if (batch == NULL) die("malloc");
    return batch;
}

static inline void sync_folder(const char *name) {
    char *copy = strdup(name);
    int folder = open(dirname(copy), O_RDONLY | O_DIRECTORY);
    if (folder < 0 || fsync(folder) != 0) die("folder");
    close(folder);
    free(copy);
}

// A new log of the accounts, by the calls that the program makes.
static inline LogFile create_log(const char *name) {
    enum { UNITS = UNITS_OF_GENESIS * ACCOUNTS, LENGTH = MAGIC_BYTES + COUNT_BYTES + UNIT * UNITS + 1 };
    LogFile log = {open(name, O_RDWR | O_CREAT | O_EXCL, 0644), 0};
    if (log.file < 0 || fsync(log.file) != 0) die(name);
    sync_folder(name);
    if (fdatasync(log.file) != 0) die(name);
    uint8_t body[LENGTH] = {CLOSED};
    write_synced(log.file, body, 1, 0);
    memcpy(body, MAGIC, MAGIC_BYTES);
    put_count(body + MAGIC_BYTES, UNITS);
    for (uint32_t account = 0; account < ACCOUNTS; account++) {
        uint8_t *place = body + MAGIC_BYTES + COUNT_BYTES + UNIT * UNITS_OF_GENESIS * account;
        put_unit(place, header(GENESIS, UNITS_OF_GENESIS, account, 0));
        put_unit(place + UNIT, FIRST_BALANCE);
    }
    write_gated(&log, body, LENGTH);
    return log;
}
