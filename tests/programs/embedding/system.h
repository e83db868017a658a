/* A system whose calls can be made to fail, to do a part, to be interrupted, or to be the last of the program. Include it before kilnmace_file.h, whose calls go to it then. */
#ifndef SYSTEM_H
#define SYSTEM_H

#include "asking.h"

#include <errno.h>
#include <fcntl.h>
#include <sys/file.h>
#include <unistd.h>

/* What a program ends with that is stopped. */
enum { STOPPED = 77 };

/* What the system does until it is said otherwise. */
static struct {
    size_t most;       /* how many bytes a read or a write gets done at most, 0 for all */
    int interrupting;  /* whether each second call is interrupted by a signal */
    int failing_data;  /* whether what waits in a file can't be put onto the disk */
    int failing_whole; /* the same of a file with its size, and of a folder: whether the next such call fails, or the one behind it */
    int failing_sync;  /* the same of each of these calls */
    int lock_error;    /* why no file can be locked, 0 if it can */
    int link_error;    /* why no file can have a second name, 0 if it can */
    const char *comes; /* which file another program makes before the next one gets a second name, null for none */
    int stopping;      /* before which call the program is stopped: the next, or the one behind it; 0 for none */
} made;

/* The disk under a file that is watched. A sync that fails forgets what waits, as Linux does: the file shows it, and no later sync puts it onto the disk. */
static struct {
    int is_watched;
    uint8_t bytes[CELLS * CELL];
    uint8_t waits[CELLS]; /* of each cell whether it was written since the last sync */
} disk;

static int is_next(int *left) {
    return *left && --*left == 0;
}

static int is_interrupted(void) {
    static unsigned calls;
    calls++;
    if (is_next(&made.stopping)) {
        _exit(STOPPED);
    }
    errno = EINTR;
    return made.interrupting && calls % 2 == 1;
}

static ssize_t pread_as_made(int number, void *into, size_t length, off_t at) {
    return is_interrupted() ? -1 : pread(number, into, made.most && made.most < length ? made.most : length, at);
}

static ssize_t pwrite_as_made(int number, const void *from, size_t length, off_t at) {
    if (is_interrupted()) {
        return -1;
    }
    ssize_t count = pwrite(number, from, made.most && made.most < length ? made.most : length, at);
    for (off_t cell = at / CELL; disk.is_watched && cell * CELL < at + count; cell++) {
        disk.waits[cell] = 1;
    }
    return count;
}

/* What became of a sync comes to the disk, or is forgotten. */
static int synced(int number, int answer) {
    for (off_t cell = 0; disk.is_watched && cell < CELLS; cell++) {
        if (answer == 0 && disk.waits[cell]) {
            IS(CELL, pread(number, disk.bytes + cell * CELL, CELL, cell * CELL));
        }
        disk.waits[cell] = 0;
    }
    errno = EIO;
    return answer;
}

static int fdatasync_as_made(int number) {
    if (is_interrupted()) {
        return -1;
    }
    return synced(number, made.failing_data || is_next(&made.failing_sync) ? -1 : fdatasync(number));
}

static int fsync_as_made(int number) {
    if (is_next(&made.stopping)) {
        _exit(STOPPED);
    }
    return synced(number, is_next(&made.failing_whole) || is_next(&made.failing_sync) ? -1 : fsync(number));
}

static int flock_as_made(int number, int what) {
    if (is_next(&made.stopping)) {
        _exit(STOPPED);
    }
    errno = made.lock_error;
    return made.lock_error ? -1 : flock(number, what);
}

/* Makes a file that holds a text and no image. */
static void make_other(const char *path) {
    FILE *other = fopen(path, "w");
    IS(1, other != NULL && fputs("another file", other) >= 0);
    IS(0, fclose(other));
}

static int link_as_made(const char *from, const char *to) {
    if (is_next(&made.stopping)) {
        _exit(STOPPED);
    }
    if (made.comes) {
        make_other(made.comes);
        made.comes = NULL;
    }
    errno = made.link_error;
    return made.link_error ? -1 : link(from, to);
}

static int unlink_as_made(const char *path) {
    if (is_next(&made.stopping)) {
        _exit(STOPPED);
    }
    return unlink(path);
}

#define pread pread_as_made
#define pwrite pwrite_as_made
#define fdatasync fdatasync_as_made
#define fsync fsync_as_made
#define flock flock_as_made
#define link link_as_made
#define unlink unlink_as_made

#endif
