/* What no input brings about: a library that stands before the C library's calls (LD_PRELOAD), told by the environment what to do.
 *
 *     INTERRUPTS=n    each call is interrupted n times, and then made
 *     PIECE=n         a read or a write moves at most n bytes
 *     NO_LOCKS=1      the file system has no locks
 *     MEANWHILE=1     where the program makes a file anew, another program has made it just before
 *     NO_DATA_SYNCS=1 a sync of a file's data fails, and does nothing
 *     TOLD=file       each lock, sync and write of a file is told there, in a line with the file's name
 *     SLEEPS=file     each sleep of more than a millisecond is told there, in a line with how many nanoseconds were asked for
 *
 * And one call by its number, counted from 1 over all calls on files and streams:
 *
 *     FAIL=n          the n-th call fails; with FAIL_MORE=m the next m calls on the same thing as well
 *     FAIL_WITH=e     the number of the error; 0: the n-th call is made, and moves one byte at most
 *     LOG=file        which file is the log, an absolute name
 *     CALLS=file      each call is told there as it begins, in a line: the call, the thing, and `made`, `failed` or `short`; a thing is
 *                     `log`, `folder` (in which the log stands), `input`, `output`, `error` or `other`
 *     DEVICE=file     what the log's device has: the log as it was at its last sync that succeeded
 *
 * It has no headers, so that a compiler without a C library's will do. */

extern char *getenv(const char *name);
extern long atol(const char *digits);
extern void *dlsym(void *library, const char *name);
extern int *__errno_location(void);
extern int snprintf(char *text, unsigned long size, const char *format, ...);
extern int dprintf(int fd, const char *format, ...);
extern long readlink(const char *path, char *name, unsigned long size);
extern int strcmp(const char *one, const char *other);
extern unsigned long strlen(const char *text);
extern int strncmp(const char *one, const char *other, unsigned long size);

enum { EINTR = 4, EIO = 5, ENOLCK = 37 };
enum { O_RDONLY = 0, O_WRONLY = 01, O_CREAT = 0100, O_EXCL = 0200, O_TRUNC = 01000, O_APPEND = 02000, AT_FDCWD = -100 };

/* The call that this library stands before. */
#define NEXT(name) dlsym((void *)-1L, name)

static long number(const char *name) {
    const char *digits = getenv(name);
    return digits ? atol(digits) : 0;
}

static int fail(int error) {
    *__errno_location() = error;
    return -1;
}

/* The library's own calls, which it doesn't stand before. */
static int own_open(const char *path, int flags) {
    return ((int (*)(int, const char *, int, ...))NEXT("openat"))(AT_FDCWD, path, flags, 0666);
}

static void own_close(int fd) {
    ((int (*)(int))NEXT("close"))(fd);
}

/* Whether this call is to be interrupted; `times` counts how often it was. */
static int interrupts(long *times) {
    if (*times >= number("INTERRUPTS")) {
        *times = 0;
        return 0;
    }
    ++*times;
    return fail(EINTR);
}

static unsigned long piece(unsigned long size) {
    unsigned long most = number("PIECE");
    return most && size > most ? most : size;
}

/* The name of an open file. */
static const char *name_of(int fd, char name[4096]) {
    char link[64];
    long size;
    snprintf(link, sizeof link, "/proc/self/fd/%d", fd);
    size = readlink(link, name, 4095);
    name[size < 0 ? 0 : size] = 0;
    return name;
}

static void tell(const char *call, int fd) {
    const char *told = getenv("TOLD");
    char name[4096];
    int out;
    if (!told)
        return;
    out = own_open(told, O_WRONLY | O_CREAT | O_APPEND);
    dprintf(out, "%s %s\n", call, name_of(fd, name));
    own_close(out);
}

/* What a file of this name is for the program. */
static const char *thing_named(const char *name) {
    const char *log = getenv("LOG");
    unsigned long size = strlen(name);
    if (!log)
        return "other";
    if (strcmp(name, log) == 0)
        return "log";
    return size && strncmp(name, log, size) == 0 && log[size] == '/' && !__builtin_strchr(log + size + 1, '/') ? "folder" : "other";
}

static const char *thing_of(int fd) {
    static const char *const streams[] = {"input", "output", "error"};
    char name[4096];
    return 0 <= fd && fd <= 2 ? streams[fd] : thing_named(name_of(fd, name));
}

/* What becomes of the call that begins here: 0 where it is made, 1 where it moves one byte, and -1 where it fails. */
static int judge(const char *call, const char *thing, int moves) {
    static long begun, failed;
    static const char *broken;
    const char *calls = getenv("CALLS");
    long here = __atomic_add_fetch(&begun, 1, __ATOMIC_SEQ_CST);
    int outcome = 0, out;
    if (!calls)
        return 0;
    if (here == number("FAIL") || (broken && strcmp(broken, thing) == 0 && failed <= number("FAIL_MORE"))) {
        outcome = number("FAIL_WITH") ? -1 : moves;
        broken = outcome < 0 ? thing : 0;
        failed++;
    }
    out = own_open(calls, O_WRONLY | O_CREAT | O_APPEND);
    dprintf(out, "%s %s %s\n", call, thing, outcome < 0 ? "failed" : outcome ? "short" : "made");
    own_close(out);
    if (outcome < 0)
        fail(number("FAIL_WITH"));
    return outcome;
}

/* After a sync that succeeded the log's device has what the log holds. */
static void keep(int fd) {
    const char *device = getenv("DEVICE");
    char bytes[4096];
    long size, at = 0;
    int in, out;
    if (!device || strcmp(thing_of(fd), "log") != 0)
        return;
    in = own_open(getenv("LOG"), O_RDONLY);
    out = own_open(device, O_WRONLY | O_CREAT | O_TRUNC);
    while ((size = ((long (*)(int, void *, unsigned long, long))NEXT("pread"))(in, bytes, sizeof bytes, at)) > 0) {
        ((long (*)(int, const void *, unsigned long, long))NEXT("pwrite"))(out, bytes, size, at);
        at += size;
    }
    own_close(in);
    own_close(out);
}

int openat(int folder, const char *path, int flags, ...) {
    static long times;
    __builtin_va_list rest;
    int mode;
    __builtin_va_start(rest, flags);
    mode = flags & O_CREAT ? __builtin_va_arg(rest, int) : 0;
    __builtin_va_end(rest);
    if (judge("open", thing_named(path), 0) || interrupts(&times))
        return -1;
    if (flags & O_EXCL && number("MEANWHILE"))
        own_close(own_open(path, O_WRONLY | O_CREAT));
    return ((int (*)(int, const char *, int, ...))NEXT("openat"))(folder, path, flags, mode);
}

int open(const char *path, int flags, ...) {
    __builtin_va_list rest;
    int mode;
    __builtin_va_start(rest, flags);
    mode = flags & O_CREAT ? __builtin_va_arg(rest, int) : 0;
    __builtin_va_end(rest);
    return openat(AT_FDCWD, path, flags, mode);
}

int close(int fd) {
    if (judge("close", thing_of(fd), 0))
        return -1;
    return ((int (*)(int))NEXT("close"))(fd);
}

int statx(int fd, const char *path, int flags, unsigned mask, void *found) {
    static long times;
    if (judge("statx", *path ? thing_named(path) : thing_of(fd), 0) || interrupts(&times))
        return -1;
    return ((int (*)(int, const char *, int, unsigned, void *))NEXT("statx"))(fd, path, flags, mask, found);
}

long lseek(int fd, long offset, int whence) {
    if (judge("lseek", thing_of(fd), 0))
        return -1;
    return ((long (*)(int, long, int))NEXT("lseek"))(fd, offset, whence);
}

long read(int fd, void *bytes, unsigned long size) {
    static long times;
    int outcome = judge("read", thing_of(fd), 1);
    if (outcome < 0 || interrupts(&times))
        return -1;
    return ((long (*)(int, void *, unsigned long))NEXT("read"))(fd, bytes, outcome && size ? 1 : piece(size));
}

long write(int fd, const void *bytes, unsigned long size) {
    static long times;
    int outcome = judge("write", thing_of(fd), 1);
    if (outcome < 0 || interrupts(&times))
        return -1;
    return ((long (*)(int, const void *, unsigned long))NEXT("write"))(fd, bytes, outcome && size ? 1 : piece(size));
}

long pread(int fd, void *bytes, unsigned long size, long at) {
    static long times;
    int outcome = judge("pread", thing_of(fd), 1);
    if (outcome < 0 || interrupts(&times))
        return -1;
    return ((long (*)(int, void *, unsigned long, long))NEXT("pread"))(fd, bytes, outcome && size ? 1 : piece(size), at);
}

long pwrite(int fd, const void *bytes, unsigned long size, long at) {
    static long times;
    int outcome = judge("pwrite", thing_of(fd), 1);
    if (outcome < 0 || interrupts(&times))
        return -1;
    tell("pwrite", fd);
    return ((long (*)(int, const void *, unsigned long, long))NEXT("pwrite"))(fd, bytes, outcome && size ? 1 : piece(size), at);
}

long pread64(int fd, void *bytes, unsigned long size, long at) {
    return pread(fd, bytes, size, at);
}

long pwrite64(int fd, const void *bytes, unsigned long size, long at) {
    return pwrite(fd, bytes, size, at);
}

int fsync(int fd) {
    static long times;
    int answer;
    if (judge("fsync", thing_of(fd), 0) || interrupts(&times))
        return -1;
    tell("fsync", fd);
    answer = ((int (*)(int))NEXT("fsync"))(fd);
    if (answer == 0)
        keep(fd);
    return answer;
}

int fdatasync(int fd) {
    static long times;
    int answer;
    if (judge("fdatasync", thing_of(fd), 0) || interrupts(&times))
        return -1;
    if (number("NO_DATA_SYNCS"))
        return fail(EIO);
    tell("fdatasync", fd);
    answer = ((int (*)(int))NEXT("fdatasync"))(fd);
    if (answer == 0)
        keep(fd);
    return answer;
}

int flock(int fd, int how) {
    static long times;
    if (judge("flock", thing_of(fd), 0) || interrupts(&times))
        return -1;
    if (number("NO_LOCKS"))
        return fail(ENOLCK);
    tell("flock", fd);
    return ((int (*)(int, int))NEXT("flock"))(fd, how);
}

struct span {
    long seconds, nanos;
};

int nanosleep(const struct span *asked, struct span *left) {
    const char *sleeps = getenv("SLEEPS");
    long nanos = asked->seconds > 1000000000 ? 1000000000000000000 : 1000000000 * asked->seconds + asked->nanos;
    int out;
    if (sleeps && nanos > 1000000) {
        out = own_open(sleeps, O_WRONLY | O_CREAT | O_APPEND);
        dprintf(out, "%ld\n", nanos);
        own_close(out);
    }
    return ((int (*)(const struct span *, struct span *))NEXT("nanosleep"))(asked, left);
}
