/* What a firing takes by the engine's C interface. bench/embedding.py builds and runs it.
 *
 *     embedding PLANT IMAGE STEPS     steps N in_c_per_s A
 *
 * It makes IMAGE with a ring of 4,096 records and fires STEPS choices by the random picks of `durable_bench fire`, in rows of 64. Behind each row it flushes, and if the ring is
 * nearly full it saves and trims. Only the firing is timed: for each pick how many choices there are, and the firing of the choice with the pick's number modulo that, which
 * the Rattle call does in one.
 */
#define _GNU_SOURCE /* for kilnmace_file.h, and for the clock */
#include "kilnmace.h"
#include "kilnmace_file.h"

#include <inttypes.h>
#include <stdio.h>
#include <stdlib.h>
#include <time.h>

enum { MOST_BYTES = 1048576, RING = 4096, ROW = 64, SEED = 7 };

static kilnmace_text text = KILNMACE_NOTHING;

static void need(const char *what, kilnmace_status status) {
    if (status != KILNMACE_OK) {
        fprintf(stderr, "%s: status %" PRIu32 "\n", what, status);
        exit(1);
    }
}

static void read_text(const char *path) {
    static uint8_t bytes[MOST_BYTES + 1];
    kilnmace_detail detail;
    FILE *file = fopen(path, "rb");
    if (!file) {
        fprintf(stderr, "%s can't be opened\n", path);
        exit(1);
    }
    size_t length = fread(bytes, 1, sizeof bytes, file);
    fclose(file);
    need("the text", kilnmace_text_read(&text, bytes, length, &detail));
}

/* Makes the image, and opens the plant on it. */
static void begin(kilnmace_plant *plant, kilnmace_file *file, const char *path) {
    kilnmace_device device = KILNMACE_NO_DEVICE;
    kilnmace_detail detail;
    need("the image", kilnmace_file_create(file, path, &text, RING, &device));
    need("the image", kilnmace_open(plant, &text, &device, &detail));
}

/* The next random pick, as docs/COMMANDS.md has them (xorshift64*). */
static uint64_t next_pick(void) {
    static uint64_t state = SEED;
    state ^= state >> 12;
    state ^= state << 25;
    state ^= state >> 27;
    return state * 0x2545F4914F6CDD1D;
}

static uint64_t now(void) {
    struct timespec time;
    clock_gettime(CLOCK_MONOTONIC, &time);
    return (uint64_t)time.tv_sec * 1000000000 + (uint64_t)time.tv_nsec;
}

/* Fires the choices at these picks, and gives how many nanoseconds that took. */
static uint64_t time_row(kilnmace_plant *plant, const uint64_t *picks, size_t count) {
    kilnmace_status status = KILNMACE_OK;
    uint64_t started = now();
    for (size_t place = 0; place < count && status == KILNMACE_OK; place++) {
        uint64_t choices, fired;
        status = kilnmace_count(plant, &choices);
        if (status == KILNMACE_OK) {
            status = kilnmace_fire(plant, choices > 0 ? picks[place] % choices : 0, &fired);
        }
    }
    uint64_t taken = now() - started;
    need("a firing", status);
    return taken;
}

/* Acknowledges what was fired, and makes room where the ring may have none for two more rows. */
static void settle(kilnmace_plant *plant) {
    uint64_t acked, atoms, base;
    kilnmace_front front;
    need("a flush", kilnmace_flush(plant, &acked));
    need("a look", kilnmace_front_of(plant, &front));
    if (front.fired - front.base > RING - 2 * ROW) {
        need("a save", kilnmace_save(plant, &atoms));
        need("a trim", kilnmace_trim(plant, &base));
    }
}

int main(int count, char **words) {
    kilnmace_plant plant = KILNMACE_NOTHING;
    kilnmace_file file = KILNMACE_NO_FILE;
    uint64_t picks[ROW], steps = 0, taken = 0;
    if (count != 4) {
        fprintf(stderr, "usage: embedding PLANT IMAGE STEPS\n");
        return 2;
    }
    uint64_t wanted = strtoull(words[3], NULL, 10);
    read_text(words[1]);
    begin(&plant, &file, words[2]);
    while (steps < wanted) {
        size_t row = wanted - steps < ROW ? (size_t)(wanted - steps) : ROW;
        for (size_t place = 0; place < row; place++) {
            picks[place] = next_pick();
        }
        taken += time_row(&plant, picks, row);
        steps += row;
        settle(&plant);
    }
    need("the end", kilnmace_close(&plant));
    need("the end", kilnmace_file_close(&file));
    printf("steps %" PRIu64 " in_c_per_s %" PRIu64 "\n", steps, taken ? (uint64_t)((double)steps * 1e9 / (double)taken) : 0);
    return 0;
}
