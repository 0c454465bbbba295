/* Stands before the C library and has each sync of a file take longer, by SLOW_MICROSECONDS. */
#define _GNU_SOURCE
#include <stdlib.h>
#include <sys/syscall.h>
#include <time.h>
#include <unistd.h>

static struct timespec longer;

__attribute__((constructor)) static void begin(void) {
    const char *text = getenv("SLOW_MICROSECONDS");
    long microseconds = text ? atol(text) : 0;
    longer = (struct timespec){microseconds / 1000000, microseconds % 1000000 * 1000};
}

static int synced(long call, int file) {
    int result = (int)syscall(call, file);
    nanosleep(&longer, NULL);
    return result;
}

int fsync(int file) { return synced(SYS_fsync, file); }

int fdatasync(int file) { return synced(SYS_fdatasync, file); }
