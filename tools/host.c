/* The host below the program as a case of tools/cases.py has it: by LD_PRELOAD the calls here stand in place of the
 * C library's. The environment says which moments the clock gives, how many bytes a read of the input or of a
 * connection gives and the output takes, and which calls fail, by their numbers from 1. Calls are counted where the
 * objects in memory of ob_io count theirs. */
#define _GNU_SOURCE
#include <errno.h>
#include <fcntl.h>
#include <stdarg.h>
#include <stdlib.h>
#include <string.h>
#include <sys/socket.h>
#include <sys/syscall.h>
#include <time.h>
#include <unistd.h>

/* How often the program tries to let a connection in before it gives up. */
enum { TRIES = 8 };

/* How many calls of each object there were so far: of the file of rows, reads until the input or a connection is asked
 * for, and behind that writes. */
static long files, source, sink, door, opening, keeping, moments;
/* What was written so far, and how many tries to let a connection in still fail. */
static size_t taken;
static int refused;
/* Whether requests are read; and whether the connection is being shut. */
static int is_asked, is_shut;

static size_t number(const char *name) {
    const char *text = getenv(name);
    return text ? strtoul(text, NULL, 10) : (size_t)-1;
}

/* Counts a call, and says whether it is among those that fail. */
static int fails(const char *name, long *count) {
    const char *text = getenv(name);
    char *end;
    ++*count;
    for (; text; text = end) {
        long which = strtol(text, &end, 10);
        if (end == text) return 0;
        if (which == *count) return 1;
    }
    return 0;
}

static int fail(int why) {
    errno = why;
    return -1;
}

static size_t least(size_t one, size_t other) { return one < other ? one : other; }

/* The module files. */

int open(const char *path, int flags, ...) {
    const char *end = strrchr(path, '.');
    va_list rest;
    va_start(rest, flags);
    mode_t mode = flags & O_CREAT ? va_arg(rest, mode_t) : 0;
    va_end(rest);
    if (end && strcmp(end, ".toml") == 0 && fails("HOST_FAIL_FILES", &files)) return fail(EIO);
    return syscall(SYS_openat, AT_FDCWD, path, flags, mode);
}

/* The input, the output and the clock. */

ssize_t read(int file, void *room, size_t size) {
    if (file == STDIN_FILENO) {
        is_asked = 1;
        if (fails("HOST_FAIL_SOURCE", &source)) return fail(EIO);
        size = least(size, number("HOST_CUT"));
    }
    return syscall(SYS_read, file, room, size);
}

ssize_t write(int file, const void *text, size_t size) {
    ssize_t count;
    if (file != STDOUT_FILENO) return syscall(SYS_write, file, text, size);
    if (fails("HOST_FAIL_SINK", &sink)) return fail(EIO);
    size_t left = number("HOST_ROOM") - taken;
    if (left == 0 && size > 0) return fail(ENOSPC);
    count = syscall(SYS_write, file, text, least(size, left));
    if (count > 0) taken += count;
    return count;
}

int clock_gettime(clockid_t clock, struct timespec *moment) {
    if (clock != CLOCK_REALTIME) return syscall(SYS_clock_gettime, clock, moment);
    moment->tv_sec = (time_t)(number("HOST_START") + number("HOST_STEP") * moments++);
    moment->tv_nsec = 0;
    return 0;
}

/* Connections. */

int accept4(int listener, struct sockaddr *address, socklen_t *length, int flags) {
    is_asked = 1;
    is_shut = 0;
    if (refused == 0 && fails("HOST_FAIL_DOOR", &door)) refused = TRIES;
    if (refused > 0) {
        refused--;
        return fail(ECONNABORTED);
    }
    return syscall(SYS_accept4, listener, address, length, flags);
}

ssize_t recv(int peer, void *room, size_t size, int flags) {
    if (!is_shut) {
        if (fails("HOST_FAIL_DOOR", &door)) return fail(ECONNRESET);
        size = least(size, number("HOST_CUT"));
    }
    return syscall(SYS_recvfrom, peer, room, size, flags, NULL, NULL);
}

ssize_t send(int peer, const void *text, size_t size, int flags) {
    if (fails("HOST_FAIL_DOOR", &door)) return fail(ECONNRESET);
    return syscall(SYS_sendto, peer, text, size, flags, NULL, 0);
}

int shutdown(int peer, int how) {
    is_shut = 1;
    return syscall(SYS_shutdown, peer, how);
}

/* The file of rows and its log: no other file is read or written at a place. A sync isn't carried out, since no case
 * looks at what a crash leaves, and it takes most of the time of a run. */

static int fails_keeping(void) { return is_asked && fails("HOST_FAIL_KEEPING", &keeping); }

ssize_t pread64(int file, void *room, size_t size, off64_t place) {
    if (!is_asked && fails("HOST_FAIL_OPENING", &opening)) return fail(EIO);
    return syscall(SYS_pread64, file, room, size, place);
}

ssize_t pread(int file, void *room, size_t size, off_t place) { return pread64(file, room, size, place); }

ssize_t pwrite64(int file, const void *text, size_t size, off64_t place) {
    if (fails_keeping()) return fail(ENOSPC);
    return syscall(SYS_pwrite64, file, text, size, place);
}

ssize_t pwrite(int file, const void *text, size_t size, off_t place) { return pwrite64(file, text, size, place); }

int fsync(int file) {
    (void)file;
    return fails_keeping() ? fail(EIO) : 0;
}

int fdatasync(int file) { return fsync(file); }
