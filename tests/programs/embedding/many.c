/* Many events of one plant, for a run that is watched: no byte is read that was not written, and none is lost.
 *
 *     many PLANT IMAGE EVENTS
 *
 * Fires random choices, flushes behind each row of 8, and saves and trims where the ring has little room, until so many events were asked. Then the plant is closed and opened
 * again: it stands where it stood. What was asked is printed, as `fired N flushed N saved N trimmed N`. The status is 1 if an answer was not the one that is wanted.
 */
#define _DEFAULT_SOURCE /* for kilnmace_file.h */
#include "kilnmace.h"
#include "kilnmace_file.h"

#include <inttypes.h>
#include <stdio.h>
#include <stdlib.h>
#include <string.h>

enum { MOST_BYTES = 1048576, RING = 64, IN_A_ROW = 8, LEAST_FREE = 16, MOST_ATOMS = 64 };

/* Texts stay until the program ends. */
static kilnmace_text text = KILNMACE_NOTHING;

static uint64_t fired, flushed, saved, trimmed;

#define NEED(answer) need(__LINE__, #answer, answer)

static void need(int line, const char *what, int is_right) {
    if (!is_right) {
        printf("many.c:%d: not so: %s\n", line, what);
        exit(1);
    }
}

static void read_text(const char *path) {
    static uint8_t bytes[MOST_BYTES + 1];
    kilnmace_detail detail;
    FILE *file = fopen(path, "rb");
    NEED(file != NULL);
    size_t length = fread(bytes, 1, sizeof bytes, file);
    NEED(!ferror(file) && fclose(file) == 0);
    NEED(kilnmace_text_read(&text, bytes, length, &detail) == KILNMACE_OK);
}

/* The states of all atoms, as bytes that can be compared. */
struct standing {
    uint64_t marked[MOST_ATOMS];
    int64_t values[MOST_ATOMS][KILNMACE_MOST_VARIABLES];
};

static void look(kilnmace_plant *plant, struct standing *standing) {
    memset(standing, 0, sizeof *standing);
    uint16_t atom = 0;
    size_t count;
    kilnmace_status status;
    do {
        status = atom == MOST_ATOMS ? KILNMACE_NO_SUCH : kilnmace_state(plant, atom, &standing->marked[atom], standing->values[atom], KILNMACE_MOST_VARIABLES, &count);
        atom++;
    } while (status == KILNMACE_OK);
    NEED(atom > 1 && status == KILNMACE_NO_SUCH);
}

/* The next of a row of random numbers (xorshift). */
static uint64_t next_random(void) {
    static uint64_t state = 7;
    state ^= state >> 12;
    state ^= state << 25;
    state ^= state >> 27;
    return state * 0x2545F4914F6CDD1D;
}

/* Fires one of the choices, also by its connector where it is the only one of it, after a look at it. */
static void fire_one(kilnmace_plant *plant) {
    uint64_t count, number;
    uint16_t connector, named;
    kilnmace_move moves[KILNMACE_MOST_MOVES];
    size_t length;
    char name[KILNMACE_MOST_NAME];
    NEED(kilnmace_count(plant, &count) == KILNMACE_OK && count > 0);
    uint64_t random = next_random(), chosen = random % count;
    NEED(kilnmace_choice(plant, chosen, &connector, moves, KILNMACE_MOST_MOVES, &length) == KILNMACE_OK && length > 0);
    NEED(kilnmace_connector_name(&text, connector, name, sizeof name, &length) == KILNMACE_OK);
    NEED(kilnmace_connector(&text, name, length, &named) == KILNMACE_OK && named == connector);
    kilnmace_status status = random >> 63 ? kilnmace_fire_connector(plant, connector, &number) : kilnmace_fire(plant, chosen, &number);
    if (status == KILNMACE_SEVERAL) {
        status = kilnmace_fire(plant, chosen, &number);
    }
    NEED(status == KILNMACE_OK);
    fired++;
    NEED(number == fired);
}

/* Saves the atoms that are behind and drops the records that no restart needs, if there is little room. */
static void make_room(kilnmace_plant *plant) {
    kilnmace_front front;
    uint64_t atoms, base;
    NEED(kilnmace_front_of(plant, &front) == KILNMACE_OK && front.fired == fired && front.acked == fired);
    if (front.ring - (front.fired + 1 - front.base) < LEAST_FREE) {
        NEED(kilnmace_save(plant, &atoms) == KILNMACE_OK && atoms != 0);
        NEED(kilnmace_save(plant, &atoms) == KILNMACE_NOTHING_NEW);
        NEED(kilnmace_trim(plant, &base) == KILNMACE_OK && base == fired + 1);
        saved++;
        trimmed++;
    }
}

int main(int count, char **words) {
    kilnmace_plant plant = KILNMACE_NOTHING;
    kilnmace_file file = KILNMACE_NO_FILE;
    kilnmace_device device = KILNMACE_NO_DEVICE;
    kilnmace_detail detail;
    struct standing before, behind;
    if (count != 4) {
        printf("usage: many PLANT IMAGE EVENTS\n");
        return 2;
    }
    uint64_t events = strtoull(words[3], NULL, 10), acked;
    read_text(words[1]);
    NEED(kilnmace_file_create(&file, words[2], &text, RING, &device) == KILNMACE_OK);
    NEED(kilnmace_open(&plant, &text, &device, &detail) == KILNMACE_OK);
    while (fired + flushed + saved + trimmed < events) {
        for (int number = 0; number < IN_A_ROW; number++) {
            fire_one(&plant);
        }
        NEED(kilnmace_flush(&plant, &acked) == KILNMACE_OK && acked == fired);
        flushed++;
        make_room(&plant);
    }
    look(&plant, &before);
    NEED(kilnmace_close(&plant) == KILNMACE_OK && kilnmace_file_close(&file) == KILNMACE_OK);
    NEED(kilnmace_file_open(&file, words[2], &device) == KILNMACE_OK);
    NEED(kilnmace_open(&plant, &text, &device, &detail) == KILNMACE_OK);
    look(&plant, &behind);
    NEED(memcmp(&before, &behind, sizeof before) == 0);
    NEED(kilnmace_close(&plant) == KILNMACE_OK && kilnmace_file_close(&file) == KILNMACE_OK);
    printf("fired %" PRIu64 " flushed %" PRIu64 " saved %" PRIu64 " trimmed %" PRIu64 "\n", fired, flushed, saved, trimmed);
    return 0;
}
