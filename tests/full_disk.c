/* Lets the log of a database run out of room, while the file named by ROOM_AT is there. That has two numbers. The first says how many bytes
   more the program that this is loaded into may write to files whose names end in "-wal". A write that crosses this limit is short, as on a
   real disk. Later ones fail, and such a file cannot grow. After as many failures as the second number says there is room again. */
#define _GNU_SOURCE
#include <errno.h>
#include <fcntl.h>
#include <stdio.h>
#include <stdlib.h>
#include <string.h>
#include <sys/stat.h>
#include <sys/syscall.h>
#include <unistd.h>

static long written, failed;

/* The room that is left, or -1 if there is no limit. */
static long room(void) {
    const char *at = getenv("ROOM_AT");
    char text[64] = "";
    long bytes = 0, failures = 0;
    int file = at ? (int)syscall(SYS_openat, AT_FDCWD, at, O_RDONLY | O_CLOEXEC) : -1;
    if (file < 0) {
        written = failed = 0;
        return -1;
    }
    syscall(SYS_read, file, text, sizeof text - 1);
    syscall(SYS_close, file);
    sscanf(text, "%ld %ld", &bytes, &failures);
    if (failed >= failures) {
        return -1;
    }
    return written < bytes ? bytes - written : 0;
}

static int no_room(void) {
    failed++;
    errno = ENOSPC;
    return -1;
}

static int is_log(int file) {
    char link[64], name[4096];
    snprintf(link, sizeof link, "/proc/self/fd/%d", file);
    ssize_t length = readlink(link, name, sizeof name);
    return length >= 4 && memcmp(name + length - 4, "-wal", 4) == 0;
}

ssize_t pwrite(int file, const void *bytes, size_t count, off_t offset) {
    long left = is_log(file) ? room() : -1;
    if (left == 0 && count > 0) {
        return no_room();
    }
    if (left > 0 && (size_t)left < count) {
        count = (size_t)left;
    }
    ssize_t put = syscall(SYS_pwrite64, file, bytes, count, offset);
    if (left > 0 && put > 0) {
        written += put;
    }
    return put;
}

int ftruncate(int file, off_t length) {
    struct stat found;
    if (is_log(file) && room() >= 0 && fstat(file, &found) == 0 && length > found.st_size) {
        return no_room();
    }
    return (int)syscall(SYS_ftruncate, file, length);
}

ssize_t pwrite64(int file, const void *bytes, size_t count, off_t offset) {
    return pwrite(file, bytes, count, offset);
}

int ftruncate64(int file, off_t length) {
    return ftruncate(file, length);
}
