/* A file as the device of an image, for programs on Linux and on systems like it.
 *
 * Define _GNU_SOURCE or _DEFAULT_SOURCE before the first #include of your program: under -std=c11 the system's headers hide some of the calls without it. With the first one a sync
 * is somewhat faster on Linux.
 *
 *     kilnmace_file file = KILNMACE_NO_FILE;
 *     kilnmace_device device = KILNMACE_NO_DEVICE;
 *     status = kilnmace_file_open(&file, "crossing.image", &device);      then kilnmace_open(&plant, &text, &device, &detail)
 *     ...                                                                 and kilnmace_close(&plant)
 *     status = kilnmace_file_close(&file);
 *
 * The variable `file` is yours. The device leads to it: so it stays where it is until the plant is closed, and the file is closed after the plant.
 *
 * Where no file is yet, kilnmace_file_create makes one with the plant in its first state, and opens it.
 *
 * What is supposed of a file is what kilnmace.h supposes of a device. It has to be on a disk whose sync waits until the bytes stay without power, and on a file system that
 * has locks. No program may write to it that does not ask for the lock. The program bip_run does ask for it.
 *
 * - **A sync that failed.** Linux takes the bytes that it could not write for written: the next sync succeeds without them, and a read gives them, until power is lost. So after
 *   a failed sync the file refuses everything. The way on is to close the plant and the file, and to open both anew. To open a file writes all of it anew, and syncs it: what
 *   the plant then stands for is on the disk, whatever an earlier program could not put there.
 * - **A file that is taken away.** Each sync looks whether the path still names the file, with its size. Once it was unlinked, moved, replaced or cut, what is written to it
 *   reaches no later start: the sync fails, and `is_away` says why. A path that does not begin with a slash goes from the folder that the program is in: stay in it.
 * - **A new file** is made under another name beside it, the path and `.kilnmace-unfinished`, and takes its name when it is whole. So no stop leaves a part of an image under the path, and no
 *   file that is there is replaced. What a stop left under the other name the next kilnmace_file_create takes away, unless a program has it locked. Keep nothing under it.
 */
#ifndef KILNMACE_FILE_H
#define KILNMACE_FILE_H

#include "kilnmace.h"

#include <errno.h>
#include <fcntl.h>
#include <stdio.h>
#include <string.h>
#include <sys/file.h>
#include <sys/stat.h>
#include <unistd.h>
#ifdef STATX_INO
#include <sys/sysmacros.h>
#endif

#if !defined(F_DUPFD_CLOEXEC) || !defined(LOCK_NB)
#error "define _DEFAULT_SOURCE or _GNU_SOURCE before the first #include of the program"
#endif

#ifdef __cplusplus
extern "C" {
#endif

/* What the name of a file that is being made has behind the path. */
#define KILNMACE_MADE ".kilnmace-unfinished"

/* As many bytes as that name may have, with the zero at its end, and as an image has at most. */
enum { KILNMACE_MOST_PATH = 4095 + sizeof KILNMACE_MADE, KILNMACE_MOST_IMAGE = 4328448 };

/* A file that is open, or none. */
typedef struct {
    int number;     /* the system's number of it, -1 if none is open */
    int is_failed;  /* whether a sync of it failed */
    int is_away;    /* whether that was because its path does not name it any more, or its size is another */
    uint64_t bytes; /* its size */
    dev_t device;   /* with the next one: which file it is */
    ino_t inode;
    char path[KILNMACE_MOST_PATH];
} kilnmace_file;

/* What it begins as. */
#define KILNMACE_NO_FILE { -1, 0, 0, 0, 0, 0, { 0 } }

/* Whether the path names this very file, and it has as many bytes as it had. */
static inline int kilnmace_file_is_at(const kilnmace_file *file, const char *path) {
#ifdef STATX_INO
    /* Not its times: new kinds of Linux write those of a file anew at each change once they were asked for, which takes some ten microseconds. */
    struct statx about;
    while (statx(AT_FDCWD, path, 0, STATX_INO | STATX_SIZE, &about) != 0) {
        if (errno != EINTR) {
            return 0;
        }
    }
    return makedev(about.stx_dev_major, about.stx_dev_minor) == file->device && about.stx_ino == file->inode && about.stx_size == file->bytes;
#else
    struct stat about;
    while (stat(path, &about) != 0) {
        if (errno != EINTR) {
            return 0;
        }
    }
    return about.st_dev == file->device && about.st_ino == file->inode && (uint64_t)about.st_size == file->bytes;
#endif
}

/* ---- the functions of the device ---- */

static inline int kilnmace_file_read(void *of, uint64_t at, uint8_t *into, size_t length) {
    const kilnmace_file *file = (const kilnmace_file *)of;
    if (file->is_failed) {
        return -1;
    }
    while (length > 0) {
        ssize_t count = pread(file->number, into, length, (off_t)at);
        if (count > 0) {
            into += count;
            at += (uint64_t)count;
            length -= (size_t)count;
        } else if (count == 0 || errno != EINTR) {
            return -1;
        }
    }
    return 0;
}

static inline int kilnmace_file_write(void *of, uint64_t at, const uint8_t *from, size_t length) {
    const kilnmace_file *file = (const kilnmace_file *)of;
    if (file->is_failed) {
        return -1;
    }
    while (length > 0) {
        ssize_t count = pwrite(file->number, from, length, (off_t)at);
        if (count > 0) {
            from += count;
            at += (uint64_t)count;
            length -= (size_t)count;
        } else if (count == 0 || errno != EINTR) {
            return -1;
        }
    }
    return 0;
}

static inline int kilnmace_file_sync(void *of) {
    kilnmace_file *file = (kilnmace_file *)of;
    if (!file->is_failed && !kilnmace_file_is_at(file, file->path)) {
        file->is_failed = file->is_away = 1;
    }
    while (!file->is_failed && fdatasync(file->number) != 0) {
        file->is_failed = errno != EINTR;
    }
    return file->is_failed ? -1 : 0;
}

/* The device leads to the file. */
static inline void kilnmace_file_lead_to(kilnmace_file *file, kilnmace_device *device) {
    device->of = file;
    device->bytes = file->bytes;
    device->read = kilnmace_file_read;
    device->write = kilnmace_file_write;
    device->sync = kilnmace_file_sync;
}

/* ---- how a file is opened ---- */

/* Makes the other name of the path. Answers 0 if that was done, and -1 if the path is longer than any. */
static inline int kilnmace_file_other_name(const char *path, char other[KILNMACE_MOST_PATH]) {
    size_t length = strlen(path);
    if (length + sizeof KILNMACE_MADE > KILNMACE_MOST_PATH) {
        return -1;
    }
    memcpy(other, path, length);
    memcpy(other + length, KILNMACE_MADE, sizeof KILNMACE_MADE);
    return 0;
}

/* Why the system did not open a file. */
static inline kilnmace_status kilnmace_file_refusal(int error) {
    switch (error) {
    case EEXIST:
        return KILNMACE_FILE_ALREADY_THERE;
    case ENOENT:
    case ENOTDIR:
        return KILNMACE_FILE_NOT_THERE;
    case EACCES:
    case EPERM:
    case EROFS:
        return KILNMACE_FILE_NOT_ALLOWED;
    case EISDIR:
        return KILNMACE_FILE_NOT_A_FILE;
    default:
        return KILNMACE_FILE_UNOPENED;
    }
}

/* Opens the file at the path to read and to write, and gives its number; -1 if the system refuses. What is no plain file is not waited for. */
static inline int kilnmace_file_number(const char *path, int more) {
    int number;
    do {
        number = open(path, O_RDWR | O_CLOEXEC | O_NOCTTY | O_NONBLOCK | more, 0666);
    } while (number < 0 && errno == EINTR);
    return number;
}

/* The same file, with a number that no standard stream has; -1 if the system has none left. In a program that was started with a stream closed, what is printed would else go
 * into the image. */
static inline int kilnmace_file_apart(int number) {
    if (number > STDERR_FILENO) {
        return number;
    }
    int apart = fcntl(number, F_DUPFD_CLOEXEC, STDERR_FILENO + 1);
    close(number);
    return apart;
}

/* Locks the file until it is closed, without waiting for another program that has it locked. */
static inline kilnmace_status kilnmace_file_lock(int number) {
    if (flock(number, LOCK_EX | LOCK_NB) == 0) {
        return KILNMACE_OK;
    }
    return errno == EWOULDBLOCK ? KILNMACE_FILE_IN_USE : KILNMACE_FILE_UNLOCKED;
}

/* Begins with the file of this number, if the system gave one. Else it says why not. */
static inline kilnmace_status kilnmace_file_begin(kilnmace_file *file, int number) {
    if (number < 0) {
        return kilnmace_file_refusal(errno);
    }
    file->number = kilnmace_file_apart(number);
    file->is_failed = file->is_away = 0;
    return file->number < 0 ? KILNMACE_FILE_UNOPENED : KILNMACE_OK;
}

/* Locks it, and finds out which file it is. */
static inline kilnmace_status kilnmace_file_take(kilnmace_file *file) {
    struct stat about;
    kilnmace_status status = kilnmace_file_lock(file->number);
    if (status != KILNMACE_OK) {
        return status;
    }
    if (fstat(file->number, &about) != 0) {
        return KILNMACE_FILE_UNOPENED;
    }
    file->device = about.st_dev;
    file->inode = about.st_ino;
    file->bytes = (uint64_t)about.st_size;
    return S_ISREG(about.st_mode) ? KILNMACE_OK : KILNMACE_FILE_NOT_A_FILE;
}

/* Lets the file go, if one is open. */
static inline void kilnmace_file_let_go(kilnmace_file *file) {
    if (file->number >= 0) {
        close(file->number);
    }
    file->number = -1;
}

/* Writes all of it as it is read, and puts it onto the disk: what the system forgot to write is written now. Answers 0 if that was done. A file that is larger than any image
 * is left alone: no plant is opened on it. */
static inline int kilnmace_file_write_anew(kilnmace_file *file) {
    uint8_t part[4096];
    for (uint64_t at = 0; at < file->bytes && file->bytes <= KILNMACE_MOST_IMAGE; at += sizeof part) {
        size_t length = file->bytes - at < sizeof part ? (size_t)(file->bytes - at) : sizeof part;
        if (kilnmace_file_read(file, at, part, length) != 0 || kilnmace_file_write(file, at, part, length) != 0) {
            return -1;
        }
    }
    return fsync(file->number);
}

/* Puts the names in the folder of this path onto the disk. Answers 0 if that was done. */
static inline int kilnmace_file_sync_folder(const char *path) {
    char folder[KILNMACE_MOST_PATH] = ".";
    const char *name = strrchr(path, '/');
    if (name) {
        size_t length = name == path ? 1 : (size_t)(name - path);
        if (length >= sizeof folder) {
            return -1;
        }
        memcpy(folder, path, length);
        folder[length] = 0;
    }
    int number = open(folder, O_RDONLY | O_DIRECTORY | O_CLOEXEC);
    if (number < 0) {
        return -1;
    }
    int answer = fsync(number);
    close(number);
    return answer;
}

/* Opens the file at the path, which ends with a zero, as a device, writes all of it anew, and puts it and its name onto the disk: a stop may have come between the two. It is
 * locked until the close. Refused: FILE_NOT_THERE, FILE_NOT_ALLOWED, FILE_NOT_A_FILE, FILE_UNOPENED, FILE_IN_USE, FILE_UNLOCKED, FILE_UNSYNCED, ALREADY_OPEN. */
static inline kilnmace_status kilnmace_file_open(kilnmace_file *file, const char *path, kilnmace_device *device) {
    if (!file || !path || !device) {
        return KILNMACE_NULL;
    }
    if (file->number >= 0) {
        return KILNMACE_ALREADY_OPEN;
    }
    char other[KILNMACE_MOST_PATH];
    if (kilnmace_file_other_name(path, other) != 0) {
        return KILNMACE_FILE_UNOPENED;
    }
    kilnmace_status status = kilnmace_file_begin(file, kilnmace_file_number(path, 0));
    if (status == KILNMACE_OK) {
        status = kilnmace_file_take(file);
    }
    if (status == KILNMACE_OK && kilnmace_file_write_anew(file) != 0) {
        status = KILNMACE_FILE_UNSYNCED;
    }
    /* A folder that this user may not read can't be synced, and some file systems sync none. */
    if (status == KILNMACE_OK && kilnmace_file_sync_folder(path) != 0 && errno != EACCES && errno != EINVAL) {
        status = KILNMACE_FILE_UNSYNCED;
    }
    if (status != KILNMACE_OK) {
        kilnmace_file_let_go(file);
        return status;
    }
    /* A stop may have left it the name under which it was made. */
    if (kilnmace_file_is_at(file, other)) {
        unlink(other);
    }
    memcpy(file->path, path, strlen(path) + 1);
    kilnmace_file_lead_to(file, device);
    return KILNMACE_OK;
}

/* ---- how a file is made ---- */

/* Takes away what a stop left under the name, unless a program has it locked. */
static inline kilnmace_status kilnmace_file_take_away_left(const char *other) {
    kilnmace_file left = KILNMACE_NO_FILE;
    kilnmace_status status = kilnmace_file_begin(&left, kilnmace_file_number(other, 0));
    if (status == KILNMACE_OK) {
        status = kilnmace_file_take(&left);
    }
    /* Another program may have taken it away meanwhile, and have made its own. */
    if (status == KILNMACE_OK && kilnmace_file_is_at(&left, other)) {
        unlink(other);
    }
    kilnmace_file_let_go(&left);
    if (status == KILNMACE_FILE_NOT_THERE) {
        return KILNMACE_OK;
    }
    return status;
}

/* Makes a new file with this name, and locks it. */
static inline kilnmace_status kilnmace_file_claim(kilnmace_file *file, const char *other) {
    kilnmace_status status = kilnmace_file_begin(file, kilnmace_file_number(other, O_CREAT | O_EXCL));
    if (status == KILNMACE_FILE_ALREADY_THERE) {
        status = kilnmace_file_take_away_left(other);
        if (status == KILNMACE_OK) {
            status = kilnmace_file_begin(file, kilnmace_file_number(other, O_CREAT | O_EXCL));
        }
        if (status == KILNMACE_FILE_ALREADY_THERE) {
            return KILNMACE_FILE_IN_USE;
        }
    }
    if (status == KILNMACE_OK) {
        status = kilnmace_file_take(file);
    }
    if (status == KILNMACE_OK && !kilnmace_file_is_at(file, other)) {
        /* Before it was locked, another program took it for what a stop had left. */
        return KILNMACE_FILE_IN_USE;
    }
    return status;
}

/* Writes so many zeros, and puts them onto the disk. The zeros are written, and not left out as they may be: so the disk has the room, and no later write asks for it. */
static inline kilnmace_status kilnmace_file_fill(kilnmace_file *file, uint64_t bytes) {
    static const uint8_t ZEROS[4096] = {0};
    for (uint64_t at = 0; at < bytes; at += sizeof ZEROS) {
        size_t length = bytes - at < sizeof ZEROS ? (size_t)(bytes - at) : sizeof ZEROS;
        if (kilnmace_file_write(file, at, ZEROS, length) != 0) {
            return KILNMACE_FILE_UNMADE;
        }
    }
    file->bytes = bytes;
    return fsync(file->number) != 0 ? KILNMACE_FILE_UNMADE : KILNMACE_OK;
}

/* Gives the file under the name `other` the path too, where nothing has that. Answers 0 if that was done. */
static inline int kilnmace_file_link(const char *other, const char *path) {
    struct stat about;
    if (link(other, path) == 0) {
        return 0;
    }
    if (errno != EPERM && errno != EOPNOTSUPP) {
        return -1;
    }
    /* On this file system a file has one name alone. */
    if (lstat(path, &about) == 0) {
        errno = EEXIST;
        return -1;
    }
    return rename(other, path);
}

/* The same, and puts the name onto the disk. */
static inline kilnmace_status kilnmace_file_take_name(const kilnmace_file *file, const char *other, const char *path) {
    if (!kilnmace_file_is_at(file, other)) {
        return KILNMACE_FILE_UNMADE;
    }
    if (kilnmace_file_link(other, path) != 0) {
        if (errno == EEXIST) {
            return KILNMACE_FILE_ALREADY_THERE;
        }
        return KILNMACE_FILE_UNMADE;
    }
    if (kilnmace_file_sync_folder(path) != 0) {
        unlink(path);
        return KILNMACE_FILE_UNMADE;
    }
    return KILNMACE_OK;
}

/* Fills the file that was claimed with the plant's first state, and gives it its name. */
static inline kilnmace_status kilnmace_file_make(kilnmace_file *file, const char *other, const char *path, const kilnmace_text *text, uint32_t ring) {
    uint64_t bytes = 0;
    kilnmace_device device = KILNMACE_NO_DEVICE;
    kilnmace_status status = kilnmace_image_bytes(text, ring, &bytes);
    if (status == KILNMACE_OK) {
        status = kilnmace_file_fill(file, bytes);
    }
    if (status == KILNMACE_OK) {
        memcpy(file->path, other, strlen(other) + 1);
        kilnmace_file_lead_to(file, &device);
        status = kilnmace_format(text, &device, ring);
    }
    return status == KILNMACE_OK ? kilnmace_file_take_name(file, other, path) : status;
}

/* Makes the image of a plant in its first state, with room for so many records, 8 to 4,096, at a path where nothing is, and opens it as a device. The file and its name are on
 * the disk then. A stop inside of this call leaves no file at the path, or the whole image. If it is not made, it is removed again, as far as it can be. Refused:
 * FILE_ALREADY_THERE, FILE_NOT_THERE (there is no such folder), FILE_NOT_ALLOWED, FILE_NOT_A_FILE, FILE_UNOPENED, FILE_IN_USE (another program makes it now), FILE_UNLOCKED,
 * FILE_UNMADE, IMAGE_DISK, BAD_RING, MEMORY, ALREADY_OPEN. */
static inline kilnmace_status kilnmace_file_create(kilnmace_file *file, const char *path, const kilnmace_text *text, uint32_t ring, kilnmace_device *device) {
    char other[KILNMACE_MOST_PATH];
    struct stat about;
    uint64_t bytes;
    if (!file || !path || !text || !device) {
        return KILNMACE_NULL;
    }
    if (file->number >= 0) {
        return KILNMACE_ALREADY_OPEN;
    }
    if (kilnmace_file_other_name(path, other) != 0) {
        return KILNMACE_FILE_UNOPENED;
    }
    if (*path == 0) {
        return KILNMACE_FILE_NOT_THERE;
    }
    if (lstat(path, &about) == 0) {
        return KILNMACE_FILE_ALREADY_THERE;
    }
    kilnmace_status status = kilnmace_image_bytes(text, ring, &bytes);
    if (status == KILNMACE_OK) {
        status = kilnmace_file_claim(file, other);
    }
    if (status == KILNMACE_OK) {
        status = kilnmace_file_make(file, other, path, text, ring);
    }
    /* Who was faster in locking it has it now. */
    if (file->number >= 0 && status != KILNMACE_FILE_IN_USE) {
        unlink(other);
    }
    if (status != KILNMACE_OK) {
        kilnmace_file_let_go(file);
        return status;
    }
    memcpy(file->path, path, strlen(path) + 1);
    kilnmace_file_lead_to(file, device);
    return KILNMACE_OK;
}

/* ---- how a file is closed ---- */

/* Closes the file, and gives up its lock. A plant that is still open on it can write nothing more. Refused: CLOSED. */
static inline kilnmace_status kilnmace_file_close(kilnmace_file *file) {
    if (!file) {
        return KILNMACE_NULL;
    }
    if (file->number < 0) {
        return KILNMACE_CLOSED;
    }
    kilnmace_file_let_go(file);
    return KILNMACE_OK;
}

#ifdef __cplusplus
}
#endif

#endif
