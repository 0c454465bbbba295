/* Stands before the C library and records the calls by which a program keeps a journal, and those by which it replies
 * to its clients.
 *
 *     RECORD_TO=PATH      the recording, to which each record is appended
 *     RECORD_FILE=PATH    the journal: calls on the files of its folder whose names begin with its name are recorded,
 *                         and calls on the folder itself
 *
 * A record is a line of six words, and then LENGTH bytes without an LF:
 *
 *     KIND THREAD KEY OFFSET RESULT LENGTH
 *
 *     W w    a write to the file with the inode KEY, at OFFSET; its bytes
 *     S s    a sync of the file or the folder with the inode KEY
 *     C c    a cut of the file with the inode KEY to OFFSET bytes
 *     R r    a rename; both names, with a zero between them
 *     U u    an unlink; the name
 *     o      an open of the file with the inode KEY; its name
 *     M m    a write to the socket whose other end has the port KEY; its bytes
 *
 * A capital is written before the call, and a small letter with its RESULT after it. So a call that one thread ended
 * before another began one is recorded in that order. Each record is one append, and survives a kill of the process.
 */
#define _GNU_SOURCE
#include <arpa/inet.h>
#include <errno.h>
#include <fcntl.h>
#include <stdarg.h>
#include <stdatomic.h>
#include <stdio.h>
#include <stdlib.h>
#include <string.h>
#include <sys/socket.h>
#include <sys/stat.h>
#include <sys/syscall.h>
#include <sys/uio.h>
#include <unistd.h>

/* A life opens its journal, its lock and the like: a few files. */
#define MOST 64

static int recording = -1;
static const char *base = "";
static atomic_ulong ours[MOST];
static atomic_int count;

static const char *name_in(const char *path) {
    const char *slash = strrchr(path, '/');
    return slash ? slash + 1 : path;
}

static int is_ours(const char *path) { return *base && !strncmp(name_in(path), base, strlen(base)); }

static int is_known(unsigned long inode) {
    for (int at = 0; at < atomic_load(&count) && at < MOST; at++)
        if (atomic_load(&ours[at]) == inode) return 1;
    return 0;
}

static void know(unsigned long inode) {
    if (is_known(inode)) return;
    int at = atomic_fetch_add(&count, 1);
    if (at >= MOST) abort();
    atomic_store(&ours[at], inode);
}

__attribute__((constructor)) static void begin(void) {
    const char *path = getenv("RECORD_FILE"), *to = getenv("RECORD_TO");
    if (!path || !to) return;
    char folder[4096];
    struct stat about;
    base = name_in(path);
    snprintf(folder, sizeof folder, "%.*s.", (int)(base - path), path);
    if (!stat(folder, &about)) know(about.st_ino);
    recording = (int)syscall(SYS_openat, AT_FDCWD, to, O_WRONLY | O_CREAT | O_APPEND | O_CLOEXEC, 0600);
}

static void record(char kind, unsigned long key, long offset, long result, const void *bytes, size_t length) {
    char line[128];
    int saved = errno, size = snprintf(line, sizeof line, "%c %ld %lu %ld %ld %zu\n", kind, syscall(SYS_gettid), key,
                                       offset, result, length);
    struct iovec parts[2] = {{line, (size_t)size}, {(void *)bytes, length}};
    if (recording >= 0) syscall(SYS_writev, recording, parts, 2);
    errno = saved;
}

/* Which bytes a descriptor moves: 'W' to a file of the journal, 'M' to a client, 0 elsewhere; and their key. */
static char kind_of(int to, unsigned long *key) {
    struct stat about;
    struct sockaddr_in peer;
    socklen_t size = sizeof peer;
    int saved = errno;
    char kind = 0;
    if (fstat(to, &about)) return 0;
    *key = about.st_ino;
    if (is_known(*key)) kind = 'W';
    else if (S_ISSOCK(about.st_mode) && !getpeername(to, (struct sockaddr *)&peer, &size)) kind = 'M';
    if (kind == 'M') *key = ntohs(peer.sin_port);
    errno = saved;
    return kind;
}

/* A call that writes; `more` is the offset of a pwrite, or the flags of a send. */
static ssize_t put(long call, int to, const void *from, size_t size, long more) {
    unsigned long key;
    char kind = kind_of(to, &key);
    long offset = call == SYS_pwrite64 ? more : 0;
    if (kind == 'W' && call == SYS_write) offset = syscall(SYS_lseek, to, 0, SEEK_CUR);
    if (kind) record(kind, key, offset, 0, from, size);
    ssize_t moved = syscall(call, to, from, size, more, NULL, 0);
    if (kind) record((char)(kind + 32), key, offset, moved, NULL, 0);
    return moved;
}

ssize_t write(int to, const void *from, size_t size) { return put(SYS_write, to, from, size, 0); }

ssize_t __write(int to, const void *from, size_t size) { return write(to, from, size); }

ssize_t send(int to, const void *from, size_t size, int flags) { return put(SYS_sendto, to, from, size, flags); }

ssize_t pwrite(int to, const void *from, size_t size, off_t offset) {
    return put(SYS_pwrite64, to, from, size, offset);
}

ssize_t pwrite64(int to, const void *from, size_t size, off64_t offset) {
    return put(SYS_pwrite64, to, from, size, offset);
}

static int on_file(char kind, long call, int file, long length) {
    struct stat about;
    if (fstat(file, &about) || !is_known(about.st_ino)) return (int)syscall(call, file, length);
    record(kind, about.st_ino, length, 0, NULL, 0);
    int result = (int)syscall(call, file, length);
    record((char)(kind + 32), about.st_ino, length, result, NULL, 0);
    return result;
}

int fsync(int file) { return on_file('S', SYS_fsync, file, 0); }

int fdatasync(int file) { return on_file('S', SYS_fdatasync, file, 0); }

int ftruncate(int file, off_t length) { return on_file('C', SYS_ftruncate, file, length); }

int ftruncate64(int file, off64_t length) { return on_file('C', SYS_ftruncate, file, length); }

int rename(const char *from, const char *to) {
    char names[8192];
    if (!is_ours(from) && !is_ours(to)) return (int)syscall(SYS_renameat, AT_FDCWD, from, AT_FDCWD, to);
    int size = snprintf(names, sizeof names, "%s%c%s", name_in(from), 0, name_in(to));
    record('R', 0, 0, 0, names, (size_t)size);
    int result = (int)syscall(SYS_renameat, AT_FDCWD, from, AT_FDCWD, to);
    record('r', 0, 0, result, NULL, 0);
    return result;
}

int unlink(const char *path) {
    if (!is_ours(path)) return (int)syscall(SYS_unlinkat, AT_FDCWD, path, 0);
    record('U', 0, 0, 0, name_in(path), strlen(name_in(path)));
    int result = (int)syscall(SYS_unlinkat, AT_FDCWD, path, 0);
    record('u', 0, 0, result, NULL, 0);
    return result;
}

static int opened(int folder, const char *path, int flags, mode_t mode) {
    struct stat about;
    int file = (int)syscall(SYS_openat, folder, path, flags, mode);
    if (file < 0 || !is_ours(path) || fstat(file, &about)) return file;
    know(about.st_ino);
    record('o', about.st_ino, 0, file, name_in(path), strlen(name_in(path)));
    if (flags & O_TRUNC) record('C', about.st_ino, 0, 0, NULL, 0);
    return file;
}

/* The mode of an open, which is given only if a file may be made. */
#define MODE_OF(flags, mode)                              \
    mode_t mode = 0;                                      \
    if ((flags) & (O_CREAT | __O_TMPFILE)) {              \
        va_list rest;                                     \
        va_start(rest, flags);                            \
        mode = va_arg(rest, mode_t);                      \
        va_end(rest);                                     \
    }

int open(const char *path, int flags, ...) {
    MODE_OF(flags, mode)
    return opened(AT_FDCWD, path, flags, mode);
}

int open64(const char *path, int flags, ...) {
    MODE_OF(flags, mode)
    return opened(AT_FDCWD, path, flags, mode);
}

int openat(int folder, const char *path, int flags, ...) {
    MODE_OF(flags, mode)
    return opened(folder, path, flags, mode);
}

int openat64(int folder, const char *path, int flags, ...) {
    MODE_OF(flags, mode)
    return opened(folder, path, flags, mode);
}
