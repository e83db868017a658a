/* What a program does between its syncs, with cold caches: bench/cold.py loads this library before the program (LD_PRELOAD). A sync takes no disk. Instead it
 * walks over COLD_KIB of memory, which drives all else out of the near caches, as waiting for a disk does. Behind sync number COLD_FROM the time outside of these walks
 * is counted, and at sync number COLD_TO it is printed: `cold us_a_flush T`, two syncs a flush. */
#include <stdint.h>
#include <stdio.h>
#include <stdlib.h>
#include <time.h>

enum { LINE = 64 };

static volatile unsigned char *walked;
static size_t bytes;
static long syncs, from, to;
static double begun, walking;

static double now(void)
{
    struct timespec time;
    clock_gettime(CLOCK_MONOTONIC, &time);
    return time.tv_sec + 1e-9 * time.tv_nsec;
}

static long number(const char *name)
{
    const char *text = getenv(name);
    return text ? atol(text) : 0;
}

__attribute__((constructor)) static void start(void)
{
    bytes = 1024 * (size_t)number("COLD_KIB");
    walked = calloc(bytes + LINE, 1);
    from = number("COLD_FROM");
    to = number("COLD_TO");
}

int fdatasync(int file)
{
    double reached = now();
    (void)file;
    for (size_t place = 0; place < bytes; place += LINE)
        walked[place]++;
    walking += now() - reached;
    syncs++;
    if (syncs == from) {
        begun = now();
        walking = 0;
    }
    if (syncs == to)
        fprintf(stderr, "cold us_a_flush %.3f\n", 1e6 * (now() - begun - walking) / ((to - from) / 2.0));
    return 0;
}
