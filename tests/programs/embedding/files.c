/* Files as devices of images, as kilnmace_file.h says what each call answers.
 *
 *     files CROSSING SAMPLE FOLDER
 *
 * CROSSING and SAMPLE are the texts of these plants in examples/, and FOLDER is empty.
 */
#ifndef _GNU_SOURCE
#define _DEFAULT_SOURCE /* for kilnmace_file.h, and for the calls below */
#endif
#include "asking.h"
#include "system.h"

#include "kilnmace_file.h"

#include <signal.h>
#include <sys/resource.h>
#include <sys/stat.h>
#include <sys/wait.h>

/* ---- paths and files ---- */

static const char *folder;

/* The path of a file in the folder. */
static const char *in_folder(const char *name) {
    static char paths[64][1024];
    static size_t used;
    IS(1, used < sizeof paths / sizeof paths[0]);
    char *path = paths[used++];
    int length = snprintf(path, sizeof paths[0], "%s/%s", folder, name);
    IS(1, length > 0 && (size_t)length < sizeof paths[0]);
    return path;
}

static int is_there(const char *path) {
    struct stat about;
    return lstat(path, &about) == 0;
}

/* Nothing that was opened is open still: the next file gets the same number each time. */
static int next_number(void) {
    int number = open("/dev/null", O_RDONLY);
    IS(0, close(number));
    return number;
}

/* The file is not opened by this status, and nothing is held. */
static void check_unopened(const char *path, kilnmace_status status) {
    kilnmace_file file = KILNMACE_NO_FILE;
    kilnmace_device device = KILNMACE_NO_DEVICE;
    int number = next_number();
    ANSWERS(status, kilnmace_file_open(&file, path, &device));
    IS(1, file.number == -1 && device.of == NULL && device.read == NULL);
    IS(number, next_number());
}

/* The same of a file that is not made. */
static void check_unmade(const char *path, kilnmace_status status) {
    kilnmace_file file = KILNMACE_NO_FILE;
    kilnmace_device device = KILNMACE_NO_DEVICE;
    int number = next_number();
    ANSWERS(status, kilnmace_file_create(&file, path, &crossing, RING, &device));
    IS(1, file.number == -1 && device.of == NULL && device.read == NULL);
    IS(number, next_number());
}

/* Under which name a file is made for the path. */
static const char *other_name(const char *path) {
    static char name[1100];
    int length = snprintf(name, sizeof name, "%s.kilnmace-unfinished", path);
    IS(1, length > 0 && (size_t)length < sizeof name);
    return name;
}

/* A new image of the crossing. */
static void make_image(const char *path) {
    kilnmace_file file = KILNMACE_NO_FILE;
    kilnmace_device device = KILNMACE_NO_DEVICE;
    ANSWERS(KILNMACE_OK, kilnmace_file_create(&file, path, &crossing, RING, &device));
    IS(CELLS * CELL, device.bytes);
    IS(0, is_there(other_name(path)));
    ANSWERS(KILNMACE_OK, kilnmace_file_close(&file));
}

/* The file still holds what another program put there. */
static void check_other(const char *path) {
    IS(12, read_file(path, buffer));
    IS(0, memcmp("another file", buffer, 12));
}

/* The plant on the image that is there. */
static void open_image(kilnmace_plant *plant, kilnmace_file *file, const char *path) {
    kilnmace_device device = KILNMACE_NO_DEVICE;
    ANSWERS(KILNMACE_OK, kilnmace_file_open(file, path, &device));
    ANSWERS(KILNMACE_OK, kilnmace_open(plant, &crossing, &device, &detail));
}

static void close_image(kilnmace_plant *plant, kilnmace_file *file) {
    ANSWERS(KILNMACE_OK, kilnmace_close(plant));
    ANSWERS(KILNMACE_OK, kilnmace_file_close(file));
}

/* The plant on this image stands behind so many moves. */
static void check_stands(const char *path, uint64_t fired) {
    kilnmace_plant plant = KILNMACE_NOTHING;
    kilnmace_file file = KILNMACE_NO_FILE;
    kilnmace_front front;
    open_image(&plant, &file, path);
    ANSWERS(KILNMACE_OK, kilnmace_front_of(&plant, &front));
    IS(fired, front.fired);
    IS(fired, front.acked);
    close_image(&plant, &file);
}

/* ---- mistaken calls ---- */

static void check_mistaken(void) {
    kilnmace_file file = KILNMACE_NO_FILE;
    kilnmace_device device = KILNMACE_NO_DEVICE;
    const char *path = in_folder("mistaken");
    ANSWERS(KILNMACE_NULL, kilnmace_file_open(NULL, path, &device));
    ANSWERS(KILNMACE_NULL, kilnmace_file_open(&file, NULL, &device));
    ANSWERS(KILNMACE_NULL, kilnmace_file_open(&file, path, NULL));
    kilnmace_text nothing = KILNMACE_NOTHING;
    ANSWERS(KILNMACE_NULL, kilnmace_file_create(NULL, path, &crossing, RING, &device));
    ANSWERS(KILNMACE_NULL, kilnmace_file_create(&file, NULL, &crossing, RING, &device));
    ANSWERS(KILNMACE_NULL, kilnmace_file_create(&file, path, NULL, RING, &device));
    ANSWERS(KILNMACE_NULL, kilnmace_file_create(&file, path, &crossing, RING, NULL));
    ANSWERS(KILNMACE_CLOSED, kilnmace_file_create(&file, path, &nothing, RING, &device));
    ANSWERS(KILNMACE_BAD_RING, kilnmace_file_create(&file, path, &crossing, 7, &device));
    ANSWERS(KILNMACE_BAD_RING, kilnmace_file_create(&file, path, &crossing, 4097, &device));
    ANSWERS(KILNMACE_NULL, kilnmace_file_close(NULL));
    ANSWERS(KILNMACE_CLOSED, kilnmace_file_close(&file));
    IS(0, is_there(path) || is_there(other_name(path)));

    ANSWERS(KILNMACE_OK, kilnmace_file_create(&file, path, &crossing, RING, &device));
    int number = file.number;
    ANSWERS(KILNMACE_ALREADY_OPEN, kilnmace_file_open(&file, path, &device));
    ANSWERS(KILNMACE_ALREADY_OPEN, kilnmace_file_create(&file, in_folder("other"), &crossing, RING, &device));
    IS(number, file.number);
    ANSWERS(KILNMACE_OK, kilnmace_file_close(&file));
    ANSWERS(KILNMACE_CLOSED, kilnmace_file_close(&file));
}

/* ---- files that are not opened, or not made ---- */

static void check_paths(void) {
    const char *path = in_folder("paths"), *pipe_path = in_folder("pipe"), *link_path = in_folder("link");
    check_unopened(path, KILNMACE_FILE_NOT_THERE);
    check_unopened(in_folder("nowhere/image"), KILNMACE_FILE_NOT_THERE);
    check_unmade(in_folder("nowhere/image"), KILNMACE_FILE_NOT_THERE);
    check_unopened("", KILNMACE_FILE_NOT_THERE);
    check_unmade("", KILNMACE_FILE_NOT_THERE);
    check_unopened(folder, KILNMACE_FILE_NOT_A_FILE);
    check_unmade(folder, KILNMACE_FILE_ALREADY_THERE);
    check_unopened("/dev/null", KILNMACE_FILE_NOT_A_FILE);
    IS(0, mkfifo(pipe_path, 0600));
    check_unopened(pipe_path, KILNMACE_FILE_NOT_A_FILE);

    make_image(path);
    check_unmade(path, KILNMACE_FILE_ALREADY_THERE);
    check_unopened(in_folder("paths/image"), KILNMACE_FILE_NOT_THERE);
    check_stands(path, 0);
    /* A link leads to its file. Nothing is made in the place of one that leads nowhere. */
    IS(0, symlink(path, link_path));
    check_stands(link_path, 0);
    IS(0, symlink("nowhere", in_folder("loose link")));
    check_unmade(in_folder("loose link"), KILNMACE_FILE_ALREADY_THERE);
    /* Longer than any path, and so by the name under which it is made alone. */
    static char long_path[5000];
    for (size_t length = 4090; length < sizeof long_path; length++) {
        memset(long_path, 'x', length);
        check_unopened(long_path, KILNMACE_FILE_UNOPENED);
        check_unmade(long_path, KILNMACE_FILE_UNOPENED);
    }
}

/* The rights bind whoever is not the superuser. */
static void check_rights(void) {
    const char *path = in_folder("rights");
    if (geteuid() != 0) {
        make_image(path);
        IS(0, chmod(path, 0400));
        check_unopened(path, KILNMACE_FILE_NOT_ALLOWED);
        IS(0, chmod(path, 0200));
        check_unopened(path, KILNMACE_FILE_NOT_ALLOWED);
    }
}

/* A file that can't be filled is removed again; one that another program locked first stays. */
static void check_faults_of_making(void) {
    const char *path = in_folder("faults of making");
    struct rlimit limit, whole;
    IS(0, getrlimit(RLIMIT_FSIZE, &whole));
    limit = whole;
    limit.rlim_cur = 10 * CELL;
    IS(0, setrlimit(RLIMIT_FSIZE, &limit));
    check_unmade(path, KILNMACE_FILE_UNMADE);
    IS(0, setrlimit(RLIMIT_FSIZE, &whole));
    IS(0, is_there(path) || is_there(other_name(path)));
    /* The file can't be put onto the disk, or not its name. */
    for (int which = 1; which <= 2; which++) {
        made.failing_whole = which;
        check_unmade(path, KILNMACE_FILE_UNMADE);
        IS(0, made.failing_whole);
        IS(0, is_there(path) || is_there(other_name(path)));
    }
    /* The device fails while it is formatted. */
    made.failing_data = 1;
    check_unmade(path, KILNMACE_IMAGE_DISK);
    made.failing_data = 0;
    made.link_error = EIO;
    check_unmade(path, KILNMACE_FILE_UNMADE);
    made.link_error = 0;
    made.lock_error = ENOLCK;
    check_unmade(path, KILNMACE_FILE_UNLOCKED);
    IS(0, is_there(path) || is_there(other_name(path)));
    made.lock_error = EWOULDBLOCK;
    check_unmade(path, KILNMACE_FILE_IN_USE);
    IS(1, is_there(other_name(path)));
    made.lock_error = 0;
}

static void check_faults_of_opening(void) {
    const char *path = in_folder("faults of opening");
    make_image(path);
    made.lock_error = ENOLCK;
    check_unopened(path, KILNMACE_FILE_UNLOCKED);
    made.lock_error = 0;
    /* It can't be put onto the disk, or not its name. */
    for (int which = 1; which <= 2; which++) {
        made.failing_whole = which;
        check_unopened(path, KILNMACE_FILE_UNSYNCED);
        IS(0, made.failing_whole);
    }
    struct rlimit limit, whole;
    IS(0, getrlimit(RLIMIT_FSIZE, &whole));
    limit = whole;
    limit.rlim_cur = 10 * CELL;
    IS(0, setrlimit(RLIMIT_FSIZE, &limit));
    check_unopened(path, KILNMACE_FILE_UNSYNCED);
    IS(0, setrlimit(RLIMIT_FSIZE, &whole));
    check_stands(path, 0);
}

/* ---- files that are made ---- */

/* It is whole, and the disk has the room for it. */
static void check_made(const char *path) {
    struct stat about;
    make_image(path);
    IS(0, stat(path, &about));
    IS(CELLS * CELL, about.st_size);
    IS(1, about.st_blocks * 512 >= CELLS * CELL);
    IS(1, about.st_nlink);
    check_stands(path, 0);
}

static void check_making(void) {
    char before[1024];
    check_made(in_folder("made"));
    /* A name without a folder. */
    IS(1, getcwd(before, sizeof before) != NULL);
    IS(0, chdir(folder));
    check_made("name alone");
    IS(0, chdir(before));
    IS(1, is_there(in_folder("name alone")));
    /* Nothing is made for a test in the folder of all: its names alone are put onto the disk. */
    IS(0, kilnmace_file_sync_folder("/image"));
}

/* A program that makes the image is stopped before this call, or comes to its end. */
static int is_stopped(const char *path, int call) {
    pid_t other = fork();
    int ended;
    if (other == 0) {
        kilnmace_file file = KILNMACE_NO_FILE;
        kilnmace_device device = KILNMACE_NO_DEVICE;
        made.stopping = call;
        _exit((int)kilnmace_file_create(&file, path, &crossing, RING, &device));
    }
    IS(other, waitpid(other, &ended, 0));
    IS(1, WIFEXITED(ended) && (WEXITSTATUS(ended) == STOPPED || WEXITSTATUS(ended) == KILNMACE_OK));
    return WEXITSTATUS(ended) == STOPPED;
}

/* A stop leaves no file, or the whole image, and nothing that hinders the next call. */
static void check_stops_of_making(void) {
    const char *path = in_folder("stops of making");
    int call = 1, whole = 0;
    while (is_stopped(path, call)) {
        if (is_there(path)) {
            check_unmade(path, KILNMACE_FILE_ALREADY_THERE);
            whole++;
        } else {
            make_image(path);
        }
        check_stands(path, 0);
        IS(0, is_there(other_name(path)));
        IS(0, unlink(path));
        call++;
    }
    IS(1, call > 40 && whole == 2);
    check_stands(path, 0);
}

/* Another program makes a file of the same name meanwhile: that one has it. So too where a file has one name alone. */
static void check_comes_meanwhile(void) {
    const char *path = in_folder("meanwhile");
    const int errors[] = {0, EPERM, EOPNOTSUPP};
    for (size_t which = 0; which < sizeof errors / sizeof errors[0]; which++) {
        made.link_error = errors[which];
        made.comes = path;
        check_unmade(path, KILNMACE_FILE_ALREADY_THERE);
        check_other(path);
        IS(0, is_there(other_name(path)));
        IS(0, unlink(path));
        check_made(path);
        IS(0, unlink(path));
    }
    made.link_error = 0;
}

/* What is found under the name for a file that is being made. */
static void check_left(void) {
    const char *path = in_folder("left");
    make_other(other_name(path));
    int number = open(other_name(path), O_RDONLY);
    IS(0, flock(number, LOCK_EX));
    check_unmade(path, KILNMACE_FILE_IN_USE);
    check_other(other_name(path));
    IS(0, close(number));
    check_made(path);
    /* A stop behind the link left the file its other name. */
    IS(0, link(path, other_name(path)));
    check_unmade(path, KILNMACE_FILE_ALREADY_THERE);
    check_stands(path, 0);
    IS(0, is_there(other_name(path)));
    /* It belongs to another file. */
    make_other(other_name(path));
    check_stands(path, 0);
    check_other(other_name(path));
    IS(0, unlink(path) | unlink(other_name(path)));
    IS(0, mkdir(other_name(path), 0700));
    check_unmade(path, KILNMACE_FILE_NOT_A_FILE);
    IS(0, rmdir(other_name(path)));
    IS(0, mkfifo(other_name(path), 0600));
    check_unmade(path, KILNMACE_FILE_NOT_A_FILE);
    IS(1, is_there(other_name(path)));
}

/* ---- locks ---- */

/* What another program is answered that opens the file. It ends without a close. */
static kilnmace_status asked_by_another(const char *path) {
    pid_t other = fork();
    int ended;
    if (other == 0) {
        kilnmace_file file = KILNMACE_NO_FILE;
        kilnmace_device device = KILNMACE_NO_DEVICE;
        _exit((int)kilnmace_file_open(&file, path, &device));
    }
    IS(other, waitpid(other, &ended, 0));
    IS(1, WIFEXITED(ended));
    return (kilnmace_status)WEXITSTATUS(ended);
}

static void check_locks(void) {
    kilnmace_plant plant = KILNMACE_NOTHING;
    kilnmace_file file = KILNMACE_NO_FILE;
    const char *path = in_folder("locks");
    make_image(path);
    open_image(&plant, &file, path);
    check_unopened(path, KILNMACE_FILE_IN_USE);
    ANSWERS(KILNMACE_FILE_IN_USE, asked_by_another(path));
    /* A program that this one starts does not get it. */
    IS(FD_CLOEXEC, fcntl(file.number, F_GETFD));
    close_image(&plant, &file);
    ANSWERS(KILNMACE_OK, asked_by_another(path));
    check_stands(path, 0);
}

/* ---- standard streams ---- */

/* In a program that was started without them, a file has none of their numbers. Nothing that is printed goes into it. */
static int is_apart(const char *path, const char *new_path) {
    kilnmace_file file = KILNMACE_NO_FILE;
    kilnmace_device device = KILNMACE_NO_DEVICE;
    int is_right = 1;
    for (int stream = STDIN_FILENO; stream <= STDERR_FILENO; stream++) {
        close(stream);
    }
    for (int which = 0; which < 2; which++) {
        kilnmace_status status = which == 0 ? kilnmace_file_open(&file, path, &device) : kilnmace_file_create(&file, new_path, &crossing, RING, &device);
        is_right &= status == KILNMACE_OK && file.number > STDERR_FILENO && fcntl(file.number, F_GETFD) == FD_CLOEXEC;
        for (int stream = STDIN_FILENO; stream <= STDERR_FILENO; stream++) {
            is_right &= write(stream, "printed", 7) == -1 && errno == EBADF;
        }
        is_right &= kilnmace_file_close(&file) == KILNMACE_OK;
    }
    return is_right;
}

static void check_standard_streams(void) {
    const char *path = in_folder("streams"), *new_path = in_folder("new, beside streams");
    int ended;
    make_image(path);
    pid_t other = fork();
    if (other == 0) {
        _exit(is_apart(path, new_path) ? 7 : 1);
    }
    IS(other, waitpid(other, &ended, 0));
    IS(1, WIFEXITED(ended) && WEXITSTATUS(ended) == 7);
    check_stands(path, 0);
}

/* ---- devices ---- */

/* Reads and writes that get only a part done, or are interrupted, are gone on with. So are syncs. */
static void check_slow_system(void) {
    kilnmace_plant plant = KILNMACE_NOTHING;
    kilnmace_file file = KILNMACE_NO_FILE;
    const char *path = in_folder("slow");
    uint64_t acked;
    made.most = 100;
    made.interrupting = 1;
    make_image(path);
    open_image(&plant, &file, path);
    fire_first(&plant, 5);
    ANSWERS(KILNMACE_OK, kilnmace_flush(&plant, &acked));
    close_image(&plant, &file);
    check_stands(path, 5);
    made.most = 0;
    made.interrupting = 0;
    check_stands(path, 5);
}

/* Behind a sync that failed the file refuses everything, and so does each plant that is opened on it, until it is closed and opened anew. */
static void check_failed_sync(void) {
    kilnmace_plant plant = KILNMACE_NOTHING;
    kilnmace_file file = KILNMACE_NO_FILE;
    kilnmace_device device = KILNMACE_NO_DEVICE;
    kilnmace_front front;
    uint8_t byte;
    uint64_t acked = UNTOUCHED;
    const char *path = in_folder("failed sync");
    make_image(path);
    ANSWERS(KILNMACE_OK, kilnmace_file_open(&file, path, &device));
    ANSWERS(KILNMACE_OK, kilnmace_open(&plant, &crossing, &device, &detail));
    fire_first(&plant, 2);
    made.failing_data = 1;
    ANSWERS(KILNMACE_DISK, kilnmace_flush(&plant, &acked));
    made.failing_data = 0;
    IS(UNTOUCHED, acked);
    check_plant_refused(&plant, KILNMACE_BROKEN);
    ANSWERS(KILNMACE_OK, kilnmace_close(&plant));
    IS(1, device.read(device.of, 0, &byte, 1) != 0 && device.write(device.of, 0, &byte, 1) != 0 && device.sync(device.of) != 0);
    ANSWERS(KILNMACE_IMAGE_DISK, kilnmace_open(&plant, &crossing, &device, &detail));
    ANSWERS(KILNMACE_IMAGE_DISK, kilnmace_format(&crossing, &device, RING));
    ANSWERS(KILNMACE_OK, kilnmace_file_close(&file));
    open_image(&plant, &file, path);
    ANSWERS(KILNMACE_OK, kilnmace_front_of(&plant, &front));
    IS(front.fired, front.acked);
    fire_first(&plant, 1);
    ANSWERS(KILNMACE_OK, kilnmace_flush(&plant, &acked));
    close_image(&plant, &file);
    check_stands(path, front.acked + 1);
}

/* What a program is told that opens the image behind a sync that failed is on the disk. This one fails, and forgets what waits; and then power is lost. */
static int is_there_without_power(int failing, const char *path, const char *found_path) {
    kilnmace_plant plant = KILNMACE_NOTHING;
    kilnmace_file file = KILNMACE_NO_FILE;
    kilnmace_front front;
    uint64_t acked = 0, told = 0;
    IS(0, unlink(path));
    make_image(path);
    IS(sizeof disk.bytes, read_file(path, disk.bytes));
    open_image(&plant, &file, path);
    disk.is_watched = 1;
    fire_first(&plant, 2);
    made.failing_sync = failing;
    kilnmace_status status = kilnmace_flush(&plant, &acked);
    if (status == KILNMACE_OK) {
        status = kilnmace_save(&plant, &told);
    }
    if (status == KILNMACE_OK) {
        status = kilnmace_trim(&plant, &told);
    }
    made.failing_sync = 0;
    IS(1, status == KILNMACE_OK || status == KILNMACE_DISK);
    close_image(&plant, &file);
    made.failing_whole = 1;
    check_unopened(path, KILNMACE_FILE_UNSYNCED);
    open_image(&plant, &file, path);
    ANSWERS(KILNMACE_OK, kilnmace_front_of(&plant, &front));
    IS(1, acked <= front.acked);
    close_image(&plant, &file);
    disk.is_watched = 0;
    FILE *found = fopen(found_path, "wb");
    IS(1, found != NULL && fwrite(disk.bytes, sizeof disk.bytes, 1, found) == 1);
    IS(0, fclose(found));
    check_stands(found_path, front.acked);
    return status == KILNMACE_DISK;
}

static void check_forgotten(void) {
    const char *path = in_folder("forgotten"), *found_path = in_folder("found without power");
    int failing = 1;
    make_image(path);
    while (is_there_without_power(failing, path, found_path)) {
        failing++;
    }
    /* A flush, a save and a trim make some syncs each. */
    IS(1, failing > 6);
}

/* No byte is written behind the image's first cells: the device fails at the first record. The plant may be opened again on the same file. */
static void check_failed_write(void) {
    kilnmace_plant plant = KILNMACE_NOTHING;
    kilnmace_file file = KILNMACE_NO_FILE;
    kilnmace_device device = KILNMACE_NO_DEVICE;
    uint64_t acked = UNTOUCHED;
    struct rlimit limit, whole;
    const char *path = in_folder("failed write");
    make_image(path);
    ANSWERS(KILNMACE_OK, kilnmace_file_open(&file, path, &device));
    ANSWERS(KILNMACE_OK, kilnmace_open(&plant, &crossing, &device, &detail));
    fire_first(&plant, 1);
    IS(0, getrlimit(RLIMIT_FSIZE, &whole));
    limit = whole;
    limit.rlim_cur = FIRST_RECORD * CELL;
    IS(0, setrlimit(RLIMIT_FSIZE, &limit));
    ANSWERS(KILNMACE_DISK, kilnmace_flush(&plant, &acked));
    IS(0, setrlimit(RLIMIT_FSIZE, &whole));
    IS(UNTOUCHED, acked);
    check_plant_refused(&plant, KILNMACE_BROKEN);
    ANSWERS(KILNMACE_OK, kilnmace_close(&plant));
    ANSWERS(KILNMACE_OK, kilnmace_open(&plant, &crossing, &device, &detail));
    fire_first(&plant, 1);
    ANSWERS(KILNMACE_OK, kilnmace_flush(&plant, &acked));
    IS(1, acked);
    close_image(&plant, &file);
    check_stands(path, 1);
}

/* ---- files that are taken away ---- */

enum taking { UNLINKED, MOVED, REPLACED, COPIED, LED_AWAY, CUT, EMPTIED, EXTENDED, TAKINGS };

static void copy_file(const char *from, const char *to) {
    static uint8_t bytes[MOST_BYTES];
    FILE *copy = fopen(to, "wb");
    size_t length = read_file(from, bytes);
    IS(1, copy != NULL && fwrite(bytes, length, 1, copy) == 1);
    IS(0, fclose(copy));
}

/* Takes away the image at the path. */
static void take_away(enum taking taking, const char *path) {
    const char *beside = other_name(path);
    switch (taking) {
    case UNLINKED:
        IS(0, unlink(path));
        break;
    case MOVED:
        IS(0, rename(path, beside));
        break;
    case REPLACED:
        make_other(beside);
        IS(0, rename(beside, path));
        break;
    case COPIED:
        copy_file(path, beside);
        IS(0, rename(beside, path));
        break;
    case LED_AWAY:
        copy_file(path, beside);
        IS(0, unlink(path));
        IS(0, symlink(beside, path));
        break;
    case CUT:
        IS(0, truncate(path, CELLS * CELL - 1));
        break;
    case EMPTIED:
        IS(0, truncate(path, 0));
        break;
    default:
        IS(0, truncate(path, CELLS * CELL + 1));
    }
}

/* Nothing is acknowledged on it from then on, and another file that has the path stays as it is. */
static void check_taken_away(enum taking taking) {
    static uint8_t left[MOST_BYTES];
    kilnmace_plant plant = KILNMACE_NOTHING;
    kilnmace_file file = KILNMACE_NO_FILE;
    const char *path = in_folder("taken away");
    uint64_t acked = UNTOUCHED;
    size_t length = 0;
    make_image(path);
    open_image(&plant, &file, path);
    fire_first(&plant, 1);
    ANSWERS(KILNMACE_OK, kilnmace_flush(&plant, &acked));
    fire_first(&plant, 1);
    take_away(taking, path);
    if (is_there(path)) {
        length = read_file(path, left);
    }
    ANSWERS(KILNMACE_DISK, kilnmace_flush(&plant, &acked));
    IS(1, acked);
    IS(1, file.is_away && file.is_failed);
    check_plant_refused(&plant, KILNMACE_BROKEN);
    close_image(&plant, &file);
    if (taking < CUT && is_there(path)) {
        IS(length, read_file(path, buffer));
        IS(0, memcmp(left, buffer, length));
    }
    (void)(unlink(path) | unlink(other_name(path)));
}

/* The path names it still: it has another name beside, it was gone for a while, or a link leads to it. */
static void check_kept(void) {
    kilnmace_plant plant = KILNMACE_NOTHING;
    kilnmace_file file = KILNMACE_NO_FILE;
    const char *path = in_folder("kept"), *beside = in_folder("beside");
    uint64_t acked;
    make_image(path);
    open_image(&plant, &file, path);
    for (uint64_t moves = 1; moves <= 3; moves++) {
        if (moves == 1) {
            IS(0, link(path, beside) | unlink(beside));
        } else {
            IS(0, rename(path, beside));
            IS(0, moves == 2 ? rename(beside, path) : symlink(beside, path));
        }
        fire_first(&plant, 1);
        ANSWERS(KILNMACE_OK, kilnmace_flush(&plant, &acked));
        IS(moves, acked);
    }
    close_image(&plant, &file);
    check_stands(path, 3);
}

/* A file that was closed or cut under a plant. */
static void check_gone(void) {
    kilnmace_plant plant = KILNMACE_NOTHING;
    kilnmace_file file = KILNMACE_NO_FILE;
    kilnmace_device device = KILNMACE_NO_DEVICE;
    uint64_t acked;
    const char *path = in_folder("gone");
    make_image(path);
    open_image(&plant, &file, path);
    fire_first(&plant, 1);
    ANSWERS(KILNMACE_OK, kilnmace_file_close(&file));
    ANSWERS(KILNMACE_DISK, kilnmace_flush(&plant, &acked));
    ANSWERS(KILNMACE_OK, kilnmace_close(&plant));
    check_stands(path, 0);

    ANSWERS(KILNMACE_OK, kilnmace_file_open(&file, path, &device));
    IS(0, truncate(path, CELLS * CELL - 1));
    ANSWERS(KILNMACE_IMAGE_DISK, kilnmace_open(&plant, &crossing, &device, &detail));
    check_holds_nothing(&plant.held);
    ANSWERS(KILNMACE_OK, kilnmace_file_close(&file));
    ANSWERS(KILNMACE_OK, kilnmace_file_open(&file, path, &device));
    ANSWERS(KILNMACE_IMAGE_WRONG_SIZE, kilnmace_open(&plant, &crossing, &device, &detail));
    ANSWERS(KILNMACE_OK, kilnmace_file_close(&file));
}

/* A file that is no image is left as it was. */
static void check_refused(void) {
    kilnmace_plant plant = KILNMACE_NOTHING;
    kilnmace_file file = KILNMACE_NO_FILE;
    kilnmace_device device = KILNMACE_NO_DEVICE;
    const char *path = in_folder("refused");
    int number = open(path, O_WRONLY | O_CREAT, 0600);
    IS(0, ftruncate(number, CELL) | close(number));
    ANSWERS(KILNMACE_OK, kilnmace_file_open(&file, path, &device));
    ANSWERS(KILNMACE_IMAGE_NOT_FORMATTED, kilnmace_open(&plant, &crossing, &device, &detail));
    ANSWERS(KILNMACE_IMAGE_WRONG_SIZE, kilnmace_format(&crossing, &device, RING));
    ANSWERS(KILNMACE_OK, kilnmace_file_close(&file));
    IS(CELL, read_file(path, buffer));
    for (size_t place = 0; place < CELL; place++) {
        IS(0, buffer[place]);
    }
}

int main(int count, char **words) {
    if (count != 4) {
        printf("usage: files CROSSING SAMPLE FOLDER\n");
        return 2;
    }
    folder = words[3];
    /* A byte past the limit of a file is to fail, and not to end the program. */
    signal(SIGXFSZ, SIG_IGN);
    read_texts(words[1], words[2]);
    check_mistaken();
    check_paths();
    check_rights();
    check_faults_of_making();
    check_faults_of_opening();
    check_making();
    check_stops_of_making();
    check_comes_meanwhile();
    check_left();
    check_locks();
    check_standard_streams();
    check_slow_system();
    check_failed_sync();
    check_forgotten();
    check_failed_write();
    for (int taking = 0; taking < TAKINGS; taking++) {
        check_taken_away((enum taking)taking);
    }
    check_kept();
    check_gone();
    check_refused();
    return 0;
}
