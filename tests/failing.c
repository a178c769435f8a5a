/*
 * Put before a program by LD_PRELOAD: reads and writes that fail.
 *
 *     FAIL_FILE=NAME   this file, by name or as standard input, gives at most four bytes at a time
 *     FAIL_AFTER=N     and no more than N: then its reads fail
 *     FAIL_SIGNALS=N   its first N reads are interrupted
 *     FAIL_ROOM=N      standard output has room for N bytes
 *     FAIL_PARTS=N     and takes at most N of them at a time
 */
#define _GNU_SOURCE
#include <errno.h>
#include <stdlib.h>
#include <sys/stat.h>
#include <sys/syscall.h>
#include <unistd.h>

static size_t given, interrupted, taken;

static size_t number(const char *name, size_t otherwise) {
    const char *text = getenv(name);
    return text ? strtoul(text, NULL, 10) : otherwise;
}

static int is_meant(int file) {
    const char *name = getenv("FAIL_FILE");
    struct stat meant, read_from;
    return name && stat(name, &meant) == 0 && fstat(file, &read_from) == 0 && meant.st_dev == read_from.st_dev &&
           meant.st_ino == read_from.st_ino;
}

static size_t least(size_t a, size_t b) {
    return a < b ? a : b;
}

static ssize_t fail(int why) {
    errno = why;
    return -1;
}

ssize_t read(int file, void *bytes, size_t count) {
    if (!is_meant(file)) return syscall(SYS_read, file, bytes, count);
    if (interrupted < number("FAIL_SIGNALS", 0)) {
        interrupted++;
        return fail(EINTR);
    }
    size_t left = number("FAIL_AFTER", -1) - given;
    if (left == 0) return fail(EIO);
    ssize_t got = syscall(SYS_read, file, bytes, least(count, least(left, 4)));
    if (got > 0) given += (size_t)got;
    return got;
}

ssize_t write(int file, const void *bytes, size_t count) {
    size_t room = number("FAIL_ROOM", -1) - taken;
    if (file == STDOUT_FILENO && room == 0) return fail(ENOSPC);
    size_t part = least(room, number("FAIL_PARTS", -1));
    ssize_t put = syscall(SYS_write, file, bytes, file == STDOUT_FILENO ? least(count, part) : count);
    if (file == STDOUT_FILENO && put > 0) taken += (size_t)put;
    return put;
}
