/* Stands before the C library and lets one chosen call go wrong, so that programs can be tested as
 * they are built.
 *
 *     SWEEP_GROWTH=N      the Nth growth (malloc, calloc, realloc) is refused
 *     SWEEP_READ=N        the Nth read goes wrong, as SWEEP_HOW says
 *     SWEEP_WRITE=N       the Nth write goes wrong, as SWEEP_HOW says
 *     SWEEP_ACCEPT=N      the Nth accept fails, as for want of descriptors, or is interrupted
 *     SWEEP_SPAWN=N       the Nth thread can't be made
 *     SWEEP_SETSOCKOPT=N  the Nth option of a socket can't be set
 *     SWEEP_SOCKET=N, SWEEP_CONNECT=N, SWEEP_POLL=N
 *                         the Nth call of that name goes wrong, as SWEEP_HOW says
 *     SWEEP_LOOKUP=N      the Nth name of a machine isn't found
 *     SWEEP_PWRITE=N, SWEEP_FSYNC=N, SWEEP_FDATASYNC=N, SWEEP_RENAME=N, SWEEP_UNLINK=N, SWEEP_OPEN=N, SWEEP_STATX=N,
 *     SWEEP_FLOCK=N       the Nth call of that name goes wrong, as SWEEP_HOW says
 *     SWEEP_HOW=WORD      fail (the default), interrupt, byte: the call moves one byte, or count: it goes well, and
 *                         is only told. Of reads, writes and the calls of files also exit: the process ends in place
 *                         of the call, done: it ends after the call, or half: it ends after half of a write
 *     SWEEP_ERROR=E       the error of a call that fails, by its number (EIO if it isn't given)
 *     SWEEP_TIMES=K       so many calls go wrong, from the Nth on (1 where it isn't given)
 *     SWEEP_SEED=S        the Nth growth and, by chance, one in SWEEP_CHANCE of those behind it are refused; equal
 *                         seeds refuse the same growths
 *     SWEEP_BYTES=1       every read and every write moves one byte at most
 *     SWEEP_OUTWARD=1     of the reads, writes, polls and options of sockets only those count, and move one byte at
 *                         most, that are about a socket which the program connects
 *     SWEEP_HASTE=K       each pause of the program takes a K-th of its time
 *     SWEEP_TELL=FD       each time that a call went wrong so, one byte is written to this descriptor
 *
 * Sockets are read and written by the same calls as files.
 */
#define _GNU_SOURCE
#include <dlfcn.h>
#include <errno.h>
#include <fcntl.h>
#include <netdb.h>
#include <poll.h>
#include <pthread.h>
#include <stdarg.h>
#include <stdatomic.h>
#include <stdlib.h>
#include <string.h>
#include <sys/socket.h>
#include <sys/stat.h>
#include <sys/syscall.h>
#include <time.h>
#include <unistd.h>

enum how { FAIL, INTERRUPT, BYTE, COUNT, EXIT, DONE, HALF };

static const char *const words[] = {"fail", "interrupt", "byte", "count", "exit", "done", "half"};

/* The status of a process that ends at a call. */
#define ENDED 86

/* The calls that can go wrong, by the names of their settings. */
enum call {
    GROWTH, READ, WRITE, ACCEPT, SPAWN, SETSOCKOPT, PWRITE, FSYNC, FDATASYNC, RENAME, UNLINK, OPEN, STATX, FLOCK,
    SOCKET, CONNECT, POLL, LOOKUP, CALLS
};

static const char *const settings[] = {
    "SWEEP_GROWTH", "SWEEP_READ", "SWEEP_WRITE", "SWEEP_ACCEPT", "SWEEP_SPAWN", "SWEEP_SETSOCKOPT", "SWEEP_PWRITE",
    "SWEEP_FSYNC", "SWEEP_FDATASYNC", "SWEEP_RENAME", "SWEEP_UNLINK", "SWEEP_OPEN", "SWEEP_STATX", "SWEEP_FLOCK",
    "SWEEP_SOCKET", "SWEEP_CONNECT", "SWEEP_POLL", "SWEEP_LOOKUP"};

/* How many calls of each sort were made, and which of them goes wrong (0: none). */
static struct {
    atomic_long made;
    long chosen;
} sorts[CALLS];

static enum how how;
static int by_bytes, is_outward, tell = -1, error = EIO;
static long times = 1, seed, chance = 24, haste = 1;
static int (*thread_maker)(pthread_t *, const pthread_attr_t *, void *(*)(void *), void *);
static int (*finder)(const char *, const char *, const struct addrinfo *, struct addrinfo **);

/* Whether a descriptor is a socket that the program connects. */
#define MOST_FILES 4096
static atomic_char outward[MOST_FILES];

extern void *__libc_malloc(size_t);
extern void *__libc_calloc(size_t, size_t);
extern void *__libc_realloc(void *, size_t);

static long number(const char *name) {
    const char *text = getenv(name);
    return text ? atol(text) : 0;
}

__attribute__((constructor)) static void begin(void) {
    const char *word = getenv("SWEEP_HOW");
    for (enum how each = FAIL; word && each <= HALF; each++)
        if (!strcmp(word, words[each])) how = each;
    if (number("SWEEP_ERROR")) error = (int)number("SWEEP_ERROR");
    by_bytes = number("SWEEP_BYTES") == 1;
    is_outward = number("SWEEP_OUTWARD") == 1;
    if (number("SWEEP_HASTE")) haste = number("SWEEP_HASTE");
    if (number("SWEEP_TIMES")) times = number("SWEEP_TIMES");
    if (number("SWEEP_CHANCE")) chance = number("SWEEP_CHANCE");
    seed = number("SWEEP_SEED");
    *(void **)&thread_maker = dlsym(RTLD_NEXT, "pthread_create");
    *(void **)&finder = dlsym(RTLD_NEXT, "getaddrinfo");
    if (getenv("SWEEP_TELL")) tell = (int)number("SWEEP_TELL");
    for (enum call sort = GROWTH; sort < CALLS; sort++) sorts[sort].chosen = number(settings[sort]);
}

/* Whether chance picks this call. */
static int is_picked(long call) {
    unsigned long mixed = ((unsigned long)seed << 32) + (unsigned long)call * 0x9E3779B97F4A7C15u;
    mixed = (mixed ^ mixed >> 30) * 0xBF58476D1CE4E5B9u;
    mixed = (mixed ^ mixed >> 27) * 0x94D049BB133111EBu;
    return (mixed ^ mixed >> 31) % (unsigned long)chance == 0;
}

/* Counts a call; whether it is one that goes wrong. */
static int goes_wrong(enum call sort) {
    if (!sorts[sort].chosen) return 0;
    long behind = atomic_fetch_add(&sorts[sort].made, 1) + 1 - sorts[sort].chosen;
    if (behind < 0 || (behind >= times && !(seed && is_picked(behind)))) return 0;
    if (tell >= 0) syscall(SYS_write, tell, "!", 1);
    return how != COUNT;
}

/* Whether calls about a descriptor count. */
static int counts(int file) { return !is_outward || (file >= 0 && file < MOST_FILES && outward[file]); }

/* Counts a call about a descriptor, if such calls count; whether it is one that goes wrong. */
static int goes_wrong_at(enum call sort, int file) { return counts(file) && goes_wrong(sort); }

void *malloc(size_t size) {
    if (!goes_wrong(GROWTH)) return __libc_malloc(size);
    errno = ENOMEM;
    return NULL;
}

void *calloc(size_t count, size_t size) {
    if (!goes_wrong(GROWTH)) return __libc_calloc(count, size);
    errno = ENOMEM;
    return NULL;
}

void *realloc(void *old, size_t size) {
    if (!goes_wrong(GROWTH)) return __libc_realloc(old, size);
    errno = ENOMEM;
    return NULL;
}

/* Ends the process at once. */
static void end(void) { syscall(SYS_exit_group, ENDED); }

/* A call that moves bytes, from the Nth of which on it may go wrong. */
static ssize_t move(enum call sort, long call, int file, void *bytes, size_t size, long more) {
    size_t most = by_bytes && counts(file) && size > 1 ? 1 : size;
    int is_wrong = goes_wrong_at(sort, file);
    if (is_wrong && (how == FAIL || how == INTERRUPT)) {
        errno = how == INTERRUPT ? EINTR : error;
        return -1;
    }
    if (is_wrong && how == EXIT) end();
    if (is_wrong && how == BYTE && size > 1) most = 1;
    if (is_wrong && how == HALF) most = size / 2;
    ssize_t moved = syscall(call, file, bytes, most, more, 0, 0);
    if (is_wrong && (how == DONE || how == HALF)) end();
    return moved;
}

ssize_t read(int from, void *to, size_t size) { return move(READ, SYS_read, from, to, size, 0); }

ssize_t write(int to, const void *from, size_t size) {
    if (to == 2) return syscall(SYS_write, to, from, size);
    return move(WRITE, SYS_write, to, (void *)from, size, 0);
}

ssize_t __write(int to, const void *from, size_t size) { return write(to, from, size); }

ssize_t recv(int from, void *to, size_t size, int flags) {
    return move(READ, SYS_recvfrom, from, to, size, flags);
}

ssize_t send(int to, const void *from, size_t size, int flags) {
    return move(WRITE, SYS_sendto, to, (void *)from, size, flags);
}

ssize_t pwrite(int to, const void *from, size_t size, off_t offset) {
    return move(PWRITE, SYS_pwrite64, to, (void *)from, size, offset);
}

ssize_t pwrite64(int to, const void *from, size_t size, off64_t offset) {
    return move(PWRITE, SYS_pwrite64, to, (void *)from, size, offset);
}

/* A call that moves no bytes, from the Nth of which on it may go wrong. */
static int ask_if(int is_wrong, long call, long one, long two, long three, long four, long five) {
    if (is_wrong && (how == FAIL || how == INTERRUPT)) {
        errno = how == INTERRUPT ? EINTR : error;
        return -1;
    }
    if (is_wrong && how == EXIT) end();
    int result = (int)syscall(call, one, two, three, four, five);
    if (is_wrong && (how == DONE || how == HALF)) end();
    return result;
}

static int ask(enum call sort, long call, long one, long two, long three, long four, long five) {
    return ask_if(goes_wrong(sort), call, one, two, three, four, five);
}

/* The same, about a descriptor. */
static int ask_at(enum call sort, long call, int file, long two, long three, long four, long five) {
    return ask_if(goes_wrong_at(sort, file), call, file, two, three, four, five);
}

int fsync(int file) { return ask(FSYNC, SYS_fsync, file, 0, 0, 0, 0); }

int fdatasync(int file) { return ask(FDATASYNC, SYS_fdatasync, file, 0, 0, 0, 0); }

int flock(int file, int how_locked) { return ask(FLOCK, SYS_flock, file, how_locked, 0, 0, 0); }

int setsockopt(int socket, int level, int option, const void *value, socklen_t size) {
    return ask_at(SETSOCKOPT, SYS_setsockopt, socket, level, option, (long)value, size);
}

int socket(int family, int kind, int protocol) { return ask(SOCKET, SYS_socket, family, kind, protocol, 0, 0); }

int connect(int socket, const struct sockaddr *to, socklen_t size) {
    if (socket >= 0 && socket < MOST_FILES) outward[socket] = 1;
    return ask(CONNECT, SYS_connect, socket, (long)to, size, 0, 0);
}

int poll(struct pollfd *them, nfds_t count, int most) {
    return ask_if(goes_wrong_at(POLL, count ? them->fd : -1), SYS_poll, (long)them, (long)count, most, 0, 0);
}

int close(int file) {
    if (file >= 0 && file < MOST_FILES) outward[file] = 0;
    return (int)syscall(SYS_close, file);
}

int getaddrinfo(const char *name, const char *service, const struct addrinfo *hints, struct addrinfo **found) {
    if (goes_wrong(LOOKUP)) return EAI_AGAIN;
    return finder(name, service, hints, found);
}

int nanosleep(const struct timespec *time, struct timespec *left) {
    long long each = ((long long)time->tv_sec * 1000000000 + time->tv_nsec) / haste;
    struct timespec shorter = {(time_t)(each / 1000000000), (long)(each % 1000000000)};
    return (int)syscall(SYS_nanosleep, &shorter, left);
}

int rename(const char *from, const char *to) {
    return ask(RENAME, SYS_renameat, AT_FDCWD, (long)from, AT_FDCWD, (long)to, 0);
}

int unlink(const char *path) { return ask(UNLINK, SYS_unlinkat, AT_FDCWD, (long)path, 0, 0, 0); }

int statx(int folder, const char *path, int flags, unsigned wanted, struct statx *about) {
    return ask(STATX, SYS_statx, folder, (long)path, flags, wanted, (long)about);
}

/* An open; its mode is given only if a file may be made. */
static int open_at(int folder, const char *path, int flags, va_list rest) {
    mode_t mode = flags & (O_CREAT | __O_TMPFILE) ? va_arg(rest, mode_t) : 0;
    return ask(OPEN, SYS_openat, folder, (long)path, flags, mode, 0);
}

#define OPEN_AT(folder)                                   \
    va_list rest;                                         \
    va_start(rest, flags);                                \
    int file = open_at(folder, path, flags, rest);        \
    va_end(rest);                                         \
    return file;

int open(const char *path, int flags, ...) { OPEN_AT(AT_FDCWD) }

int open64(const char *path, int flags, ...) { OPEN_AT(AT_FDCWD) }

int openat(int folder, const char *path, int flags, ...) { OPEN_AT(folder) }

int openat64(int folder, const char *path, int flags, ...) { OPEN_AT(folder) }

static int accepted(int listener, struct sockaddr *from, socklen_t *size, int flags) {
    if (!goes_wrong(ACCEPT)) return (int)syscall(SYS_accept4, listener, from, size, flags);
    errno = how == INTERRUPT ? EINTR : EMFILE;
    return -1;
}

int accept4(int listener, struct sockaddr *from, socklen_t *size, int flags) {
    return accepted(listener, from, size, flags);
}

int accept(int listener, struct sockaddr *from, socklen_t *size) {
    return accepted(listener, from, size, 0);
}

int pthread_create(pthread_t *thread, const pthread_attr_t *how_made, void *(*runs)(void *), void *given) {
    if (goes_wrong(SPAWN)) return EAGAIN;
    return thread_maker(thread, how_made, runs, given);
}
