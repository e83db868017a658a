/* The calls of the system that a durable plant makes, and nothing else: bench/durable.py compares with them.
 *
 *     bare FILE CELL RECORDS FLUSHES RING     microseconds T
 *
 * makes FILE anew, with RING cells of CELL bytes, by writes of 4,096 bytes as an image is made. Then it makes so many flushes of so many records: a write of their cells, a sync, a
 * write of these cells but for the last half one, which are the bodies once more with the gates, and a sync. Where the ring is full it is emptied by one write and one sync. T is how long the
 * flushes took. */
#include <fcntl.h>
#include <stdio.h>
#include <stdlib.h>
#include <time.h>
#include <unistd.h>

enum { PAGE = 4096 };

static double now(void)
{
    struct timespec time;
    clock_gettime(CLOCK_MONOTONIC, &time);
    return 1e6 * time.tv_sec + 1e-3 * time.tv_nsec;
}

static void put(int file, const char *bytes, long count, long place)
{
    if (pwrite(file, bytes, count, place) != count) {
        perror("bare: a write");
        exit(1);
    }
}

static void sync_it(int file)
{
    if (fdatasync(file)) {
        perror("bare: a sync");
        exit(1);
    }
}

int main(int count, char **words)
{
    if (count != 6) {
        fprintf(stderr, "usage: bare FILE CELL RECORDS FLUSHES RING\n");
        return 2;
    }
    long cell = atol(words[2]), records = atol(words[3]), flushes = atol(words[4]), ring = atol(words[5]);
    int file = open(words[1], O_RDWR | O_CREAT | O_TRUNC, 0644);
    char *empty = calloc(ring, cell), *bodies = calloc(records, cell);
    if (file < 0 || !empty || !bodies) {
        perror("bare");
        return 1;
    }
    for (long place = 0; place < ring * cell; place += PAGE)
        put(file, empty, PAGE, place);
    fsync(file);
    double begun = now();
    for (long flush = 0; flush < flushes; flush++) {
        long place = flush * records % ring * cell;
        if (flush && !place) {
            put(file, empty, ring * cell, 0);
            sync_it(file);
        }
        put(file, bodies, records * cell, place);
        sync_it(file);
        put(file, bodies, records * cell - cell / 2, place);
        sync_it(file);
    }
    printf("microseconds %.0f\n", now() - begun);
    return 0;
}
