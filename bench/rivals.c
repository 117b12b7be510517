// Plain programs that do what `aether demo` does, with nothing proved. bench/measure builds and runs them.
//
//     rivals steps LOG TRANSFERS SEED WORKERS [OPTION ..]     the atomic steps of docs/MODEL.md, "The shared table"
//     rivals mutex LOG TRANSFERS SEED WORKERS [OPTION ..]     one mutex round the accounts and the log
//
// Each makes a log of 64 accounts (-DACCOUNTS=N makes it of others), makes generated transfers over it, and prints the summary once all of them are on
// the disk. The options:
//
//     wait         a worker goes on to its next transfer when the last one is on the disk
//     --busy NS    other work of so many nanoseconds before each transfer
//     --held NS    in each 2,000th transfer its worker is held up for so long, at the worst place: behind its reservation, and inside the mutex
#define _GNU_SOURCE
#include "log_file.h"
#include <pthread.h>
#include <sched.h>
#include <stdalign.h>
#include <stdatomic.h>
#include <sys/prctl.h>
#include <time.h>

enum { RING = 65536, FIRST_LSN = UNITS_OF_GENESIS * ACCOUNTS, MOST_WORKERS = 16, TRANSFERS_OF_HELD = 2000 };

typedef struct {
    LogFile log;
    const Leg *legs;
    uint32_t transfers, workers;
    bool waits;
    uint64_t busy, held;
    uint32_t done, refused;
    uint64_t end, balances[ACCOUNTS];
} Run;

typedef struct {
    Run *run;
    uint32_t number;
} Worker;

static uint64_t nanoseconds_now(void) {
    struct timespec now;
    clock_gettime(CLOCK_MONOTONIC, &now);
    return (uint64_t)now.tv_sec * 1000000000 + (uint64_t)now.tv_nsec;
}

static void sleep_for(uint64_t nanoseconds) {
    struct timespec time = {(time_t)(nanoseconds / 1000000000), (long)(nanoseconds % 1000000000)};
    nanosleep(&time, NULL);
}

static void spin_once(void) {
#if defined(__x86_64__)
    __builtin_ia32_pause();
#else
    atomic_signal_fence(memory_order_seq_cst);
#endif
}

// How long this worker is held up next, in nanoseconds.
static _Thread_local uint64_t held_next;

// Before a transfer: other work, and whether its worker is to be held up in it.
static void begin_transfer(const Run *run, uint64_t place) {
    if (run->busy > 0) {
        uint64_t end = nanoseconds_now() + run->busy;
        do {
            for (uint32_t spins = 4; spins > 0; spins--) spin_once();
        } while (nanoseconds_now() < end);
    }
    if (run->held > 0 && (place + 1) % TRANSFERS_OF_HELD == 0) held_next = run->held;
}

// A worker that is to be held up sleeps, as one does that loses its processor.
static void hold_up(void) {
    if (held_next == 0) return;
    sleep_for(held_next);
    held_next = 0;
}

// Counts the records that end a transfer among the units of a batch.
static void count_ends(Run *run, const uint8_t *batch, uint32_t units) {
    for (uint32_t at = 0; at < units;) {
        uint64_t head = unit_at(batch + COUNT_BYTES + UNIT * at);
        run->done += kind_of(head) == COMMIT;
        run->refused += kind_of(head) == SHORT || kind_of(head) == OVER;
        at += units_of(head);
    }
}

// Starts the workers, is the flusher until they are through and all is on the disk, and takes them in again.
static void serve(Run *run, void *(*work)(void *), void (*flush)(Run *)) {
    pthread_t threads[MOST_WORKERS];
    Worker workers[MOST_WORKERS];
    for (uint32_t number = 0; number < run->workers; number++) {
        workers[number] = (Worker){run, number};
        if (pthread_create(&threads[number], NULL, work, &workers[number]) != 0) die("thread");
    }
    flush(run);
    for (uint32_t number = 0; number < run->workers; number++) pthread_join(threads[number], NULL);
}

// ---- The same steps ----------------------------------------------------------------------------------------------------

// A word that many threads write, on cache lines of its own.
typedef struct {
    alignas(128) _Atomic uint64_t word;
} Shared;

static Shared tail, exposed, durable, stop, crew;
alignas(128) static _Atomic uint64_t ring[RING];
alignas(128) static _Atomic uint64_t marks[RING];

// An account's two words, on cache lines of their own: whether it is held and where its last commit ends; and its balance.
typedef struct {
    alignas(128) _Atomic uint64_t word;
    _Atomic uint64_t balance;
} Account;

static Account accounts[ACCOUNTS];
static const uint64_t HELD = UINT64_C(1) << 63;

// An account as it was taken.
typedef struct {
    uint64_t balance;
    uint32_t last_commit;
} Taken;

// Between two attempts: a look at the stop word, and a rest that grows from spins to sleeps.
static void pause_worker(uint32_t *rests) {
    if (atomic_load(&stop.word) != 0) exit(1);
    uint32_t rest = (*rests)++;
    if (rest < 7) {
        for (uint32_t spins = 1u << rest; spins > 0; spins--) spin_once();
    } else if (rest < 72) {
        sched_yield();
    } else {
        sleep_for(20000);
    }
}

// The word is exchanged, and then the balance is loaded.
static Taken take_account(uint32_t account) {
    uint32_t rests = 0;
    for (;;) {
        uint64_t word = atomic_load(&accounts[account].word);
        if (!(word & HELD) && atomic_compare_exchange_strong(&accounts[account].word, &word, word | HELD)) {
            return (Taken){atomic_load(&accounts[account].balance), (uint32_t)word};
        }
        pause_worker(&rests);
    }
}

// Reserves so many units behind the tail, by an exchange, once the ring has room.
static uint64_t reserve(uint32_t units) {
    uint32_t rests = 0;
    for (;;) {
        uint64_t start = atomic_load(&tail.word);
        if (start + units > atomic_load(&durable.word) + RING) {
            pause_worker(&rests);
        } else if (atomic_compare_exchange_strong(&tail.word, &start, start + units)) {
            return start;
        }
    }
}

// Raises exposed past each range that is marked there, this worker's or another's.
static void expose(void) {
    uint64_t at = atomic_load(&exposed.word);
    for (;;) {
        uint64_t end = atomic_load(&marks[at % RING]);
        if (end <= at) return;
        if (atomic_compare_exchange_strong(&exposed.word, &at, end)) at = end;
    }
}

// Inserts a record, and answers where it ends.
static uint64_t insert(const uint64_t *record, uint32_t units) {
    uint64_t start = reserve(units);
    hold_up();
    for (uint32_t i = 0; i < units; i++) atomic_store(&ring[(start + i) % RING], record[i]);
    atomic_store(&marks[start % RING], start + units);
    expose();
    return start + units;
}

static void insert_update(uint32_t txn, uint32_t account, int32_t delta, uint32_t prev) {
    const uint64_t record[2] = {header(UPDATE, 2, account, txn), delta_and_prev(delta, prev)};
    insert(record, 2);
}

static void see_durable(uint64_t end, bool waits) {
    uint32_t rests = 0;
    while (atomic_load(&durable.word) < end && waits) pause_worker(&rests);
}

// The balance is stored, and then the word, both also where nothing has changed.
static void give_account(uint32_t account, uint64_t balance, uint64_t last_commit) {
    atomic_store(&accounts[account].balance, balance);
    atomic_store(&accounts[account].word, last_commit);
}

// Takes the accounts in ascending order, inserts the records, and gives the accounts back.
static void make_transfer(uint32_t txn, Leg leg, bool waits) {
    if (atomic_load(&stop.word) != 0) exit(1);
    bool payer_first = leg.payer < leg.payee;
    Taken first = take_account(payer_first ? leg.payer : leg.payee);
    Taken second = take_account(payer_first ? leg.payee : leg.payer);
    Taken payer = payer_first ? first : second, payee = payer_first ? second : first;
    uint64_t record = end_record(txn, leg, payer.balance, payee.balance);
    bool done = kind_of(record) == COMMIT;
    if (done) {
        insert_update(txn, leg.payer, -(int32_t)leg.amount, payer.last_commit);
        insert_update(txn, leg.payee, (int32_t)leg.amount, payee.last_commit);
    }
    uint64_t end = insert(&record, 1);
    see_durable(end, waits);
    give_account(leg.payer, payer.balance - (done ? leg.amount : 0), done ? end : payer.last_commit);
    give_account(leg.payee, payee.balance + (done ? leg.amount : 0), done ? end : payee.last_commit);
}

// The queue of the transfers' places. A slot's stamp is that of the place once it is put, and of the next lap once it is taken; it is put in once
// alone, so there is no next lap.
typedef struct {
    _Atomic uint64_t stamp;
    uint64_t place;
} Slot;

static Slot *slots;
static Shared head, last;

static void put_place(uint64_t place) {
    uint64_t at = atomic_load(&last.word);
    while (atomic_load(&slots[at].stamp) != at || !atomic_compare_exchange_strong(&last.word, &at, at + 1)) at = atomic_load(&last.word);
    slots[at].place = place;
    atomic_store(&slots[at].stamp, at + 1);
}

// The next place. Behind all places stand as many marks as there are workers, so there always is one.
static uint64_t take_place(void) {
    uint64_t at = atomic_load(&head.word);
    while (atomic_load(&slots[at].stamp) != at + 1 || !atomic_compare_exchange_strong(&head.word, &at, at + 1)) at = atomic_load(&head.word);
    uint64_t place = slots[at].place;
    atomic_store(&slots[at].stamp, 0);
    return place;
}

static void fill_queue(const Run *run) {
    uint64_t count = run->transfers + run->workers;
    slots = malloc(count * sizeof(Slot));
    if (slots == NULL) die("malloc");
    for (uint64_t i = 0; i < count; i++) atomic_store(&slots[i].stamp, i);
    for (uint64_t i = 0; i < count; i++) put_place(i);
}

static void *work_by_steps(void *given) {
    const Run *run = ((const Worker *)given)->run;
    for (uint64_t i = take_place(); i < run->transfers; i = take_place()) {
        begin_transfer(run, i);
        make_transfer((uint32_t)i + 1, run->legs[i], run->waits);
    }
    atomic_fetch_sub(&crew.word, 1);
    return NULL;
}

static void gather(uint8_t *batch, uint64_t from, uint64_t to) {
    for (uint64_t at = from; at < to; at++) put_unit(batch + COUNT_BYTES + UNIT * (at - from), atomic_load(&ring[at % RING]));
}

// Sends what is exposed beyond this LSN to the disk, and answers what is durable then.
static uint64_t flush_exposed(Run *run, uint8_t *batch, uint64_t from) {
    uint64_t to = atomic_load(&exposed.word);
    if (to == from) return from;
    uint32_t units = (uint32_t)(to - from);
    gather(batch, from, to);
    append(&run->log, batch, units);
    atomic_store(&durable.word, to);
    count_ends(run, batch, units);
    return to;
}

static void flush_by_steps(Run *run) {
    uint8_t *batch = room_for_batch(RING);
    uint64_t sent = FIRST_LSN;
    for (;;) {
        uint64_t to = flush_exposed(run, batch, sent);
        bool is_idle = to == sent;
        sent = to;
        if (atomic_load(&crew.word) == 0 && atomic_load(&exposed.word) == sent) break;
        if (is_idle) sleep_for(10000);
    }
    run->end = sent;
}

static void run_steps(Run *run) {
    prctl(PR_SET_TIMERSLACK, 1);
    atomic_store(&tail.word, FIRST_LSN);
    atomic_store(&exposed.word, FIRST_LSN);
    atomic_store(&durable.word, FIRST_LSN);
    atomic_store(&crew.word, run->workers);
    for (uint32_t account = 0; account < ACCOUNTS; account++) give_account(account, FIRST_BALANCE, 0);
    fill_queue(run);
    serve(run, work_by_steps, flush_by_steps);
    for (uint32_t account = 0; account < ACCOUNTS; account++) run->balances[account] = atomic_load(&accounts[account].balance);
}

// ---- One mutex ---------------------------------------------------------------------------------------------------------

static pthread_mutex_t mutex = PTHREAD_MUTEX_INITIALIZER;
static pthread_cond_t has_units = PTHREAD_COND_INITIALIZER;
static pthread_cond_t has_room = PTHREAD_COND_INITIALIZER;
static pthread_cond_t is_durable = PTHREAD_COND_INITIALIZER;

// All of it belongs to who has the mutex: the batch that is being filled, the log's end, what is durable, the accounts, and how
// many workers are active.
static struct {
    uint8_t *batch;
    uint32_t units;
    uint64_t end, durable;
    uint64_t balances[ACCOUNTS];
    uint32_t last_commits[ACCOUNTS];
    uint32_t active;
} locked;

static void put_locked(uint64_t unit) {
    put_unit(locked.batch + COUNT_BYTES + UNIT * locked.units++, unit);
    locked.end++;
}

static void update_locked(uint32_t txn, uint32_t account, int32_t delta) {
    put_locked(header(UPDATE, 2, account, txn));
    put_locked(delta_and_prev(delta, locked.last_commits[account]));
    locked.balances[account] += (uint64_t)(int64_t)delta;
}

static void transfer_locked(uint32_t txn, Leg leg) {
    uint64_t end = end_record(txn, leg, locked.balances[leg.payer], locked.balances[leg.payee]);
    if (kind_of(end) != COMMIT) {
        put_locked(end);
        return;
    }
    update_locked(txn, leg.payer, -(int32_t)leg.amount);
    update_locked(txn, leg.payee, (int32_t)leg.amount);
    put_locked(end);
    locked.last_commits[leg.payer] = locked.last_commits[leg.payee] = (uint32_t)locked.end;
}

static void make_locked_transfer(uint32_t txn, Leg leg, bool waits) {
    pthread_mutex_lock(&mutex);
    while (locked.units + UNITS_OF_TRANSFER > RING) pthread_cond_wait(&has_room, &mutex);
    if (locked.units == 0) pthread_cond_signal(&has_units);
    hold_up();
    transfer_locked(txn, leg);
    uint64_t end = locked.end;
    while (waits && locked.durable < end) pthread_cond_wait(&is_durable, &mutex);
    pthread_mutex_unlock(&mutex);
}

static _Atomic uint64_t next_place;

static void *work_by_mutex(void *given) {
    const Run *run = ((const Worker *)given)->run;
    for (uint64_t i = atomic_fetch_add(&next_place, 1); i < run->transfers; i = atomic_fetch_add(&next_place, 1)) {
        begin_transfer(run, i);
        make_locked_transfer((uint32_t)i + 1, run->legs[i], run->waits);
    }
    pthread_mutex_lock(&mutex);
    locked.active--;
    pthread_cond_signal(&has_units);
    pthread_mutex_unlock(&mutex);
    return NULL;
}

// Two batches take turns: one is filled while the other is written.
static void flush_by_mutex(Run *run) {
    uint8_t *batch = room_for_batch(RING);
    pthread_mutex_lock(&mutex);
    for (;;) {
        while (locked.units == 0 && locked.active > 0) pthread_cond_wait(&has_units, &mutex);
        if (locked.units == 0) break;
        uint32_t units = locked.units;
        uint64_t end = locked.end;
        uint8_t *filled = locked.batch;
        locked.batch = batch;
        locked.units = 0;
        batch = filled;
        pthread_cond_broadcast(&has_room);
        pthread_mutex_unlock(&mutex);
        append(&run->log, batch, units);
        count_ends(run, batch, units);
        pthread_mutex_lock(&mutex);
        locked.durable = end;
        pthread_cond_broadcast(&is_durable);
    }
    run->end = locked.end;
    pthread_mutex_unlock(&mutex);
}

static void run_mutex(Run *run) {
    locked.batch = room_for_batch(RING);
    locked.end = locked.durable = FIRST_LSN;
    locked.active = run->workers;
    for (uint32_t account = 0; account < ACCOUNTS; account++) locked.balances[account] = FIRST_BALANCE;
    serve(run, work_by_mutex, flush_by_mutex);
    memcpy(run->balances, locked.balances, sizeof run->balances);
}

// ---- The command line --------------------------------------------------------------------------------------------------

// Reads the options, up to the end of the words, and says whether they are some.
static bool read_options(Run *run, char **words) {
    for (; *words != NULL; words++) {
        if (strcmp(*words, "wait") == 0) {
            run->waits = true;
        } else if (strcmp(*words, "--busy") == 0 && words[1] != NULL) {
            run->busy = (uint64_t)atol(*++words);
        } else if (strcmp(*words, "--held") == 0 && words[1] != NULL) {
            run->held = (uint64_t)atol(*++words);
        } else {
            return false;
        }
    }
    return true;
}

int main(int count, char **words) {
    Run run = {0};
    if (count < 6 || !read_options(&run, words + 6)) {
        fprintf(stderr, "usage: rivals steps|mutex LOG TRANSFERS SEED WORKERS [wait] [--busy NS] [--held NS]\n");
        return 2;
    }
    run.transfers = (uint32_t)atol(words[3]);
    run.workers = (uint32_t)atol(words[5]);
    if (run.workers > MOST_WORKERS) return 2;
    run.legs = generated_legs(run.transfers, (uint32_t)atol(words[4]));
    run.log = create_log(words[2]);
    if (strcmp(words[1], "steps") == 0) {
        run_steps(&run);
    } else {
        run_mutex(&run);
    }
    print_summary(run.transfers, run.done, run.refused, run.end, run.balances);
    return 0;
}
