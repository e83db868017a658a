/* What the programs of this folder share: what is wanted of an answer, the texts, and a device of memory that fails when it is told to. C11 and C++17 alike.
 *
 * A program ends with status 0 if every answer was the one that is wanted. Else it tells the first other one with its file and line, and the status is 1. */
#ifndef ASKING_H
#define ASKING_H

#include "kilnmace.h"

#include <stdio.h>
#include <stdlib.h>
#include <string.h>

/* ---- what is wanted ---- */

static inline void expect(const char *file, int line, const char *what, uint64_t wanted, uint64_t found) {
    if (wanted != found) {
        printf("%s:%d: %s: %llu is wanted, and not %llu\n", file, line, what, (unsigned long long)wanted, (unsigned long long)found);
        exit(1);
    }
}

/* The call answers this status; the number is this one; the bytes are these. */
#define ANSWERS(status, call) expect(__FILE__, __LINE__, #call, (uint64_t)(status), (uint64_t)(call))
#define IS(wanted, number) expect(__FILE__, __LINE__, #number, (uint64_t)(wanted), (uint64_t)(number))
#define READS(wanted, bytes, length) (IS(strlen(wanted), length), expect(__FILE__, __LINE__, wanted, 0, memcmp(bytes, wanted, length) != 0))

/* What a variable holds before a call that is refused, and behind it. */
enum { UNTOUCHED = 77 };

/* ---- texts ---- */

enum { MOST_BYTES = 1048576, CELL = 1024, RING = 64 };

/* What the crossing has where, by its text. */
enum { NORTH = 0, SOUTH = 1, BARRIER = 2, SUPERVISOR = 3, CROSSING_ATOMS = 4 };
enum { APPROACH_NORTH = 0, APPROACH_SOUTH = 1, ENTER_NORTH = 2, LEAVE_NORTH = 4, LOWER = 6, CROSSING_CONNECTORS = 8 };
/* By its image: cells of the base, of the first record, and of all with a ring of RING. */
enum { BASE_CELL = 1, FIRST_RECORD = 3 + 2 * CROSSING_ATOMS + 1, CELLS = 3 + 2 * CROSSING_ATOMS + RING };

/* Two choices of one connector; and a plant that makes one move and is stuck then. */
static const char TWINS_TEXT[] = "atom A\nplace s init\nport t\ntrans t from s to s\ntrans t from s to s\nconnector c A.t\n";
static const char ONCE_TEXT[] = "atom A\nplace s init\nplace e\nport t\ntrans t from s to e\nport u\ntrans u from e to e when 0\nconnector c A.t\nconnector d A.u\n";

/* Texts stay until the program ends: so do these. */
static kilnmace_text crossing = KILNMACE_NOTHING, sample = KILNMACE_NOTHING, twins = KILNMACE_NOTHING, once = KILNMACE_NOTHING;
static kilnmace_detail detail;
static uint8_t buffer[MOST_BYTES + 1];

static inline size_t read_file(const char *path, uint8_t *into) {
    FILE *file = fopen(path, "rb");
    if (!file) {
        printf("%s can't be opened\n", path);
        exit(1);
    }
    size_t length = fread(into, 1, MOST_BYTES, file);
    IS(0, ferror(file));
    IS(0, fclose(file));
    return length;
}

/* Reads the text of the crossing, that of the sample, and the two that stand here. */
static inline void read_texts(const char *of_crossing, const char *of_sample) {
    ANSWERS(KILNMACE_OK, kilnmace_text_read(&crossing, buffer, read_file(of_crossing, buffer), &detail));
    ANSWERS(KILNMACE_OK, kilnmace_text_read(&sample, buffer, read_file(of_sample, buffer), &detail));
    ANSWERS(KILNMACE_OK, kilnmace_text_read(&twins, (const uint8_t *)TWINS_TEXT, strlen(TWINS_TEXT), &detail));
    ANSWERS(KILNMACE_OK, kilnmace_text_read(&once, (const uint8_t *)ONCE_TEXT, strlen(ONCE_TEXT), &detail));
}

/* ---- a device of memory ---- */

/* As many bytes as an image of the crossing has with a ring of 128. */
enum { MOST_IMAGE = (3 + 2 * CROSSING_ATOMS + 128) * CELL };

/* How much a write does before it fails. */
enum part { NO_PART, HALF, WHOLE };

/* A device of memory. It looks at each call that is made of it: no range goes past its end, none is longer than kilnmace.h says, and none comes after one that failed. */
struct memory {
    uint64_t size;
    int is_settled;           /* whether nothing was written since the last sync that succeeded */
    int is_failed;            /* whether a call failed */
    uint64_t reads, calls;    /* how many reads were made, and how many writes and syncs */
    uint64_t failing_read;    /* the number of the read that fails, from 1 on; 0 for none */
    uint64_t failing_call;    /* the same of a write or a sync */
    enum part part;
    uint8_t seen[MOST_IMAGE]; /* what a read gives */
    uint8_t kept[MOST_IMAGE]; /* what a read gave behind the last sync that succeeded */
};

static inline void check_range(const struct memory *memory, uint64_t at, size_t length) {
    IS(0, memory->is_failed);
    IS(1, length >= 1 && length <= 1024);
    IS(1, at <= memory->size && length <= memory->size - at);
}

static inline int memory_read(void *of, uint64_t at, uint8_t *into, size_t length) {
    struct memory *memory = (struct memory *)of;
    check_range(memory, at, length);
    memory->reads++;
    memory->is_failed = memory->reads == memory->failing_read;
    memcpy(into, memory->seen + at, memory->is_failed ? length / 2 : length);
    return memory->is_failed;
}

static inline int memory_write(void *of, uint64_t at, const uint8_t *from, size_t length) {
    struct memory *memory = (struct memory *)of;
    check_range(memory, at, length);
    memory->calls++;
    memory->is_failed = memory->calls == memory->failing_call;
    memory->is_settled = 0;
    memcpy(memory->seen + at, from, memory->is_failed ? length * memory->part / 2 : length);
    return memory->is_failed;
}

static inline int memory_sync(void *of) {
    struct memory *memory = (struct memory *)of;
    IS(0, memory->is_failed);
    memory->calls++;
    memory->is_failed = memory->calls == memory->failing_call;
    if (!memory->is_failed) {
        memcpy(memory->kept, memory->seen, memory->size);
        memory->is_settled = 1;
    }
    return memory->is_failed;
}

static inline kilnmace_device device_of(struct memory *memory) {
    kilnmace_device device = {memory, memory->size, memory_read, memory_write, memory_sync};
    return device;
}

/* It is made anew, of so many zeros. */
static inline void clear(struct memory *memory, uint64_t size) {
    IS(1, size <= MOST_IMAGE);
    /* Not the rest of it, which takes longer than most of the calls. */
    memset((void *)memory, 0, offsetof(struct memory, seen));
    memset(memory->seen, 0, size);
    memset(memory->kept, 0, size);
    memory->size = size;
    memory->is_settled = 1;
}

/* It is a copy of another one, in which nothing fails. */
static inline void copy_to(struct memory *memory, const struct memory *other) {
    clear(memory, other->size);
    memcpy(memory->seen, other->seen, other->size);
    memcpy(memory->kept, other->kept, other->size);
}

/* ---- plants on it ---- */

static inline kilnmace_status format_on(const kilnmace_text *text, struct memory *memory, uint32_t ring) {
    kilnmace_device device = device_of(memory);
    return kilnmace_format(text, &device, ring);
}

/* The device is gone behind the call: the plant has its own copy. */
static inline kilnmace_status open_on(kilnmace_plant *plant, const kilnmace_text *text, struct memory *memory) {
    kilnmace_device device = device_of(memory);
    return kilnmace_open(plant, text, &device, &detail);
}

/* A new image for a ring of so many records, and the plant on it. */
static inline void begin(kilnmace_plant *plant, const kilnmace_text *text, struct memory *memory, uint32_t ring) {
    uint64_t size;
    ANSWERS(KILNMACE_OK, kilnmace_image_bytes(text, ring, &size));
    clear(memory, size);
    ANSWERS(KILNMACE_OK, format_on(text, memory, ring));
    ANSWERS(KILNMACE_OK, open_on(plant, text, memory));
    IS(1, memory->is_settled);
}

/* Fires the first choice so many times. */
static inline void fire_first(kilnmace_plant *plant, int count) {
    for (int number = 0; number < count; number++) {
        uint64_t fired;
        ANSWERS(KILNMACE_OK, kilnmace_fire(plant, 0, &fired));
    }
}

static inline void check_holds_nothing(const kilnmace_held *held) {
    IS(1, held->at == NULL && held->mark == 0);
}

/* Each call with this plant but the close is refused by this status, and says nothing. */
static inline void check_plant_refused(kilnmace_plant *plant, kilnmace_status status) {
    kilnmace_front front = {UNTOUCHED, UNTOUCHED, UNTOUCHED, UNTOUCHED};
    kilnmace_move moves[KILNMACE_MOST_MOVES];
    uint16_t number = UNTOUCHED;
    uint64_t wide = UNTOUCHED;
    int64_t values[KILNMACE_MOST_VARIABLES];
    size_t count = UNTOUCHED;
    ANSWERS(status, kilnmace_front_of(plant, &front));
    ANSWERS(status, kilnmace_count(plant, &wide));
    ANSWERS(status, kilnmace_choice(plant, 0, &number, moves, KILNMACE_MOST_MOVES, &count));
    ANSWERS(status, kilnmace_state(plant, NORTH, &wide, values, KILNMACE_MOST_VARIABLES, &count));
    ANSWERS(status, kilnmace_fire(plant, 0, &wide));
    ANSWERS(status, kilnmace_fire_connector(plant, LOWER, &wide));
    ANSWERS(status, kilnmace_flush(plant, &wide));
    ANSWERS(status, kilnmace_save(plant, &wide));
    ANSWERS(status, kilnmace_put(plant, NORTH));
    ANSWERS(status, kilnmace_trim(plant, &wide));
    IS(UNTOUCHED, front.fired);
    IS(UNTOUCHED, number);
    IS(UNTOUCHED, wide);
    IS(UNTOUCHED, count);
}

#endif
