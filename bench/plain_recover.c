// What `aether recover` prints of a log, by one pass over its units and without a test of its records: a Commit adds what its
// transaction's Updates say, whatever stands before. For logs whose transactions are numbered from 1 on without gaps.
//
//     plain_recover < LOG
#define _GNU_SOURCE
#include "log_file.h"

enum { MOST_ACCOUNTS = 4096 };

// The bytes of a log, and how far they are read: the place, and the units that are left of the batch there.
typedef struct {
    uint8_t *bytes;
    size_t length, at;
    uint32_t left;
} Reader;

// An Update that counts once its transaction commits, and the place of the one before it.
typedef struct {
    uint32_t account;
    int32_t delta;
    uint32_t before;
} Update;

// Place 0 holds no Update: it ends each transaction's row of them.
typedef struct {
    Update *updates;
    size_t count, room;
    uint32_t *newest;
    size_t transactions;
} Pending;

static void *enlarged(void *place, size_t bytes) {
    place = realloc(place, bytes);
    if (place == NULL) die("realloc");
    return place;
}

static Reader read_input(void) {
    Reader reader = {NULL, 0, 0, 0};
    size_t room = 0;
    ssize_t more;
    do {
        if (reader.length == room) reader.bytes = enlarged(reader.bytes, room = room == 0 ? 1 << 20 : 2 * room);
        more = read(0, reader.bytes + reader.length, room - reader.length);
        if (more < 0) die("read");
        reader.length += (size_t)more;
    } while (more > 0);
    return reader;
}

static void refuse(const char *what) {
    fprintf(stderr, "plain_recover: %s\n", what);
    exit(1);
}

static void read_magic(Reader *reader) {
    bool is_log = reader->length > MAGIC_BYTES && reader->bytes[0] == OPEN && memcmp(reader->bytes + 1, MAGIC, MAGIC_BYTES) == 0;
    if (!is_log) refuse("not a log");
    reader->at = 1 + MAGIC_BYTES;
}

// Enters the batch whose count stands here.
static void enter_batch(Reader *reader) {
    if (reader->length - reader->at < COUNT_BYTES) refuse("bad batch");
    uint32_t count;
    memcpy(&count, reader->bytes + reader->at, COUNT_BYTES);
    reader->at += COUNT_BYTES;
    reader->left = be32toh(count);
    if (reader->left == 0 || (reader->length - reader->at) / UNIT < reader->left) refuse("bad batch");
}

// False: the gate here isn't open, so the log ends.
static bool next_unit(Reader *reader, uint64_t *unit) {
    if (reader->left == 0) {
        if (reader->at + 1 >= reader->length || reader->bytes[reader->at] != OPEN) return false;
        reader->at++;
        enter_batch(reader);
    }
    *unit = unit_at(reader->bytes + reader->at);
    reader->at += UNIT;
    reader->left--;
    return true;
}

static uint64_t needed_unit(Reader *reader) {
    uint64_t unit;
    if (!next_unit(reader, &unit)) refuse("bad record");
    return unit;
}

static void number_transaction(Pending *pending, uint32_t txn) {
    if (txn < pending->transactions) return;
    size_t room = 2 * ((size_t)txn + 512);
    pending->newest = enlarged(pending->newest, room * sizeof(uint32_t));
    memset(pending->newest + pending->transactions, 0, (room - pending->transactions) * sizeof(uint32_t));
    pending->transactions = room;
}

static void keep_update(Pending *pending, uint32_t txn, uint32_t account, int32_t delta) {
    number_transaction(pending, txn);
    if (pending->count >= pending->room) {
        pending->room = 2 * (pending->room + 512);
        pending->updates = enlarged(pending->updates, pending->room * sizeof(Update));
    }
    pending->updates[pending->count] = (Update){account, delta, pending->newest[txn]};
    pending->newest[txn] = (uint32_t)pending->count++;
}

static void commit(const Pending *pending, uint32_t txn, int64_t *balances) {
    if (txn >= pending->transactions) return;
    for (uint32_t place = pending->newest[txn]; place != 0; place = pending->updates[place].before) {
        balances[pending->updates[place].account] += pending->updates[place].delta;
    }
}

// Takes the record that begins with this unit. Its further units are read here.
static void take_record(Reader *reader, uint64_t head, Pending *pending, int64_t *balances, uint32_t *accounts) {
    uint64_t body = 0;
    for (uint32_t more = units_of(head); more > 1; more--) body = needed_unit(reader);
    if (kind_of(head) == GENESIS && *accounts < MOST_ACCOUNTS) {
        balances[(*accounts)++] = (int64_t)body;
    } else if (kind_of(head) == UPDATE && field_of(head) < MOST_ACCOUNTS) {
        keep_update(pending, txn_of(head), field_of(head), (int32_t)(body >> 32));
    } else if (kind_of(head) == COMMIT) {
        commit(pending, txn_of(head), balances);
    } else if (kind_of(head) < COMMIT || kind_of(head) > NOTE) {
        refuse("bad record");
    }
}

int main(void) {
    static int64_t balances[MOST_ACCOUNTS];
    uint32_t accounts = 0;
    uint64_t lsn = 0, head;
    Pending pending = {.count = 1};
    Reader reader = read_input();
    read_magic(&reader);
    enter_batch(&reader);
    while (next_unit(&reader, &head)) {
        take_record(&reader, head, &pending, balances, &accounts);
        lsn += units_of(head);
    }
    printf("lsn %" PRIu64 "\n", lsn);
    for (uint32_t account = 0; account < accounts; account++) printf("%" PRIu32 " %" PRId64 "\n", account, balances[account]);
    return 0;
}
