/* Devices that fail, by the engine's C interface. Each write and each sync of each call fails once, and each read of an opening.
 *
 *     failing CROSSING SAMPLE
 *
 * CROSSING and SAMPLE are the texts of these plants in examples/.
 *
 * A write that fails has done nothing, a half of it, or all. Behind a failure the device is looked at as it is, and as a stop may leave it: each byte that was written since
 * the last sync is as it was then, or as it was written. Each time the plant is booted anew. It stands where all that was acknowledged left it, or further by what the call
 * that failed was about to acknowledge; and it goes on.
 */
#include "asking.h"

/* So many moves are made at most, by an image with so small a ring. */
enum { MOST_FIRED = 24, SMALL_RING = 8 };

static struct memory memory, left;

/* ---- where the plant stands behind each move ---- */

/* The crossing's state. */
struct standing {
    uint64_t marked[CROSSING_ATOMS];
    int64_t trips[CROSSING_ATOMS]; /* 0 for an atom that counts none */
};

/* Each state behind so many moves, where the first choice is always the one that is fired. */
static struct standing standings[MOST_FIRED + 1];

static void look(kilnmace_plant *plant, struct standing *standing) {
    size_t count;
    memset(standing, 0, sizeof *standing);
    for (uint16_t atom = 0; atom < CROSSING_ATOMS; atom++) {
        ANSWERS(KILNMACE_OK, kilnmace_state(plant, atom, &standing->marked[atom], &standing->trips[atom], 1, &count));
    }
}

static void find_standings(void) {
    kilnmace_plant plant = KILNMACE_NOTHING;
    begin(&plant, &crossing, &memory, RING);
    for (int number = 0; number <= MOST_FIRED; number++) {
        look(&plant, &standings[number]);
        fire_first(&plant, 1);
    }
    ANSWERS(KILNMACE_OK, kilnmace_close(&plant));
}

/* ---- what a device is left with ---- */

/* Nothing stops; or each byte that was written since the last sync is as it was then; or that of each second cell; or that of each second byte, more or less. */
enum stop { NONE, OLD, OLD_CELLS, OLD_BYTES, MORE_OLD_BYTES, STOPS };

static int is_old(enum stop stop, uint64_t place) {
    uint64_t mixed = (place + 1) * 0x9E3779B97F4A7C15u;
    switch (stop) {
    case OLD:
        return 1;
    case OLD_CELLS:
        return place / CELL % 2 == 0;
    case OLD_BYTES:
        return (int)(mixed >> 40 & 1);
    case MORE_OLD_BYTES:
        return (int)(mixed >> 50 & 1);
    default:
        return 0;
    }
}

/* Makes `left` what the stop leaves of `memory`. */
static void leave(enum stop stop) {
    copy_to(&left, &memory);
    for (uint64_t place = 0; place < memory.size; place++) {
        if (is_old(stop, place)) {
            left.seen[place] = memory.kept[place];
        }
    }
    memcpy(left.kept, left.seen, left.size);
}

/* The plant on what is left stands behind one of these moves, and goes on. Gives its base. */
static uint64_t check_boots(uint64_t least, uint64_t most) {
    kilnmace_plant plant = KILNMACE_NOTHING;
    kilnmace_front front, behind;
    struct standing standing;
    uint64_t number;
    ANSWERS(KILNMACE_OK, open_on(&plant, &crossing, &left));
    IS(1, left.is_settled);
    ANSWERS(KILNMACE_OK, kilnmace_front_of(&plant, &front));
    IS(front.acked, front.fired);
    IS(1, least <= front.fired && front.fired <= most);
    look(&plant, &standing);
    IS(0, memcmp(&standing, &standings[front.fired], sizeof standing));

    kilnmace_save(&plant, &number);
    kilnmace_trim(&plant, &number);
    fire_first(&plant, 1);
    ANSWERS(KILNMACE_OK, kilnmace_flush(&plant, &number));
    IS(front.fired + 1, number);
    ANSWERS(KILNMACE_OK, kilnmace_close(&plant));
    ANSWERS(KILNMACE_OK, open_on(&plant, &crossing, &left));
    ANSWERS(KILNMACE_OK, kilnmace_front_of(&plant, &behind));
    IS(number, behind.acked);
    look(&plant, &standing);
    IS(0, memcmp(&standing, &standings[number], sizeof standing));
    ANSWERS(KILNMACE_OK, kilnmace_close(&plant));
    return front.base;
}

/* ---- events ---- */

/* An event, and what comes before it. */
struct trial {
    void (*before)(kilnmace_plant *plant);
    kilnmace_status (*event)(kilnmace_plant *plant, uint64_t *told);
    uint64_t calls;       /* how many writes and syncs it makes */
    uint64_t least, most; /* behind how many moves the plant may stand when the device failed in it */
    uint64_t base, moved; /* the base before it, and behind it */
};

static void fire_and_flush(kilnmace_plant *plant, int count) {
    uint64_t acked;
    fire_first(plant, count);
    ANSWERS(KILNMACE_OK, kilnmace_flush(plant, &acked));
}

static void save(kilnmace_plant *plant) {
    uint64_t atoms;
    ANSWERS(KILNMACE_OK, kilnmace_save(plant, &atoms));
}

static void trim(kilnmace_plant *plant) {
    uint64_t base;
    ANSWERS(KILNMACE_OK, kilnmace_trim(plant, &base));
}

/* Two moves are acknowledged, and three not. */
static void before_flush(kilnmace_plant *plant) {
    fire_and_flush(plant, 2);
    fire_first(plant, 3);
}

/* The same with records that go around the end of the ring. */
static void before_round_flush(kilnmace_plant *plant) {
    fire_and_flush(plant, 5);
    save(plant);
    trim(plant);
    fire_and_flush(plant, 1);
    fire_first(plant, 4);
}

/* Both slots of an atom that is behind are full, and a move is not acknowledged. */
static void before_save(kilnmace_plant *plant) {
    fire_and_flush(plant, 1);
    save(plant);
    fire_and_flush(plant, 1);
    save(plant);
    fire_and_flush(plant, 2);
    fire_first(plant, 1);
}

/* Both cells of the base are full. */
static void before_trim(kilnmace_plant *plant) {
    fire_and_flush(plant, 2);
    save(plant);
    trim(plant);
    fire_and_flush(plant, 3);
    save(plant);
}

static kilnmace_status flush_it(kilnmace_plant *plant, uint64_t *told) {
    return kilnmace_flush(plant, told);
}

static kilnmace_status save_it(kilnmace_plant *plant, uint64_t *told) {
    return kilnmace_save(plant, told);
}

static kilnmace_status trim_it(kilnmace_plant *plant, uint64_t *told) {
    return kilnmace_trim(plant, told);
}

/* It tells nothing: that it was made is told here. */
static kilnmace_status put_it(kilnmace_plant *plant, uint64_t *told) {
    kilnmace_status status = kilnmace_put(plant, SUPERVISOR);
    if (status == KILNMACE_OK) {
        *told = 0;
    }
    return status;
}

/* The calls are those of docs/IMAGE.md. A flush writes the bodies of its records, and then their gates. A save and a put close the gate of each slot that is full, write the
 * bodies, and then the gates: north and the supervisor have full slots, and the barrier has an empty one. A trim closes the gate of a cell of the base, writes its body, and
 * then its gate; then it closes the gates of three records. A sync stands behind each of these. */
static const struct trial TRIALS[] = {
    {before_flush, flush_it, 3 + 1 + 3 + 1, 2, 5, 1, 1},
    {before_round_flush, flush_it, 4 + 1 + 4 + 1, 6, 10, 6, 6},
    {before_save, save_it, 2 + 1 + 3 + 1 + 3 + 1, 4, 4, 1, 1},
    {before_save, put_it, 1 + 1 + 1 + 1 + 1 + 1, 4, 4, 1, 1},
    {before_trim, trim_it, 1 + 1 + 1 + 1 + 1 + 1 + 3 + 1, 5, 5, 3, 6},
};

/* What a failure in this call of the trial leaves. */
static void check_trial_left(const struct trial *trial) {
    for (int stop = NONE; stop < STOPS; stop++) {
        leave((enum stop)stop);
        uint64_t base = check_boots(trial->least, trial->most);
        IS(1, base == trial->base || base == trial->moved);
    }
}

/* The trial with a device whose write or sync with this number fails in the event. Gives whether there is one. */
static int is_failing(const struct trial *trial, uint64_t number, enum part part) {
    kilnmace_plant plant = KILNMACE_NOTHING;
    kilnmace_front front;
    uint64_t told = UNTOUCHED;
    begin(&plant, &crossing, &memory, SMALL_RING);
    trial->before(&plant);
    uint64_t before = memory.calls;
    memory.failing_call = before + number;
    memory.part = part;
    kilnmace_status status = trial->event(&plant, &told);
    if (status == KILNMACE_OK) {
        IS(1, told != UNTOUCHED && memory.is_settled);
        IS(before + trial->calls, memory.calls);
        ANSWERS(KILNMACE_OK, kilnmace_front_of(&plant, &front));
        IS(trial->moved, front.base);
        ANSWERS(KILNMACE_OK, kilnmace_close(&plant));
        return 0;
    }
    IS(KILNMACE_DISK, status);
    IS(UNTOUCHED, told);
    IS(memory.failing_call, memory.calls);
    check_plant_refused(&plant, KILNMACE_BROKEN);
    ANSWERS(KILNMACE_OK, kilnmace_close(&plant));
    check_holds_nothing(&plant.held);
    check_trial_left(trial);
    return 1;
}

static void check_events(void) {
    for (size_t which = 0; which < sizeof TRIALS / sizeof TRIALS[0]; which++) {
        for (int part = NO_PART; part <= WHOLE; part++) {
            uint64_t number = 1;
            while (is_failing(&TRIALS[which], number, (enum part)part)) {
                number++;
            }
            IS(TRIALS[which].calls, number - 1);
        }
    }
}

/* ---- images ---- */

/* What a format that failed leaves: the old image, one that is not formatted, or the new one. In any case it is formatted again. */
static void check_format_left(int was_formatted) {
    for (int stop = NONE; stop < STOPS; stop++) {
        kilnmace_plant plant = KILNMACE_NOTHING;
        kilnmace_front front;
        leave((enum stop)stop);
        kilnmace_status status = open_on(&plant, &crossing, &left);
        if (status == KILNMACE_OK) {
            ANSWERS(KILNMACE_OK, kilnmace_front_of(&plant, &front));
            IS(1, front.fired == 0 || (was_formatted && front.fired == 2));
            ANSWERS(KILNMACE_OK, kilnmace_close(&plant));
        } else {
            IS(KILNMACE_IMAGE_NOT_FORMATTED, status);
        }
        ANSWERS(KILNMACE_OK, format_on(&crossing, &left, SMALL_RING));
        IS(1, left.is_settled);
        IS(1, check_boots(0, 0));
    }
}

/* A device that holds an image behind two moves, or zeros. */
static void make_old(int is_formatted) {
    kilnmace_plant plant = KILNMACE_NOTHING;
    begin(&plant, &crossing, &memory, SMALL_RING);
    fire_and_flush(&plant, 2);
    ANSWERS(KILNMACE_OK, kilnmace_close(&plant));
    if (!is_formatted) {
        clear(&memory, memory.size);
    }
    memory.calls = memory.reads = 0;
}

static void check_formats(void) {
    for (int is_formatted = 0; is_formatted < 2; is_formatted++) {
        for (int part = NO_PART; part <= WHOLE; part++) {
            kilnmace_status status;
            uint64_t number = 0;
            do {
                make_old(is_formatted);
                memory.failing_call = ++number;
                memory.part = (enum part)part;
                status = format_on(&crossing, &memory, SMALL_RING);
                check_format_left(is_formatted);
                IS(1, status == KILNMACE_IMAGE_DISK || status == KILNMACE_OK);
            } while (status != KILNMACE_OK);
            IS(number - 1, memory.calls);
            IS(1, memory.is_settled);
            /* The base, the states of the atoms, and the identity: a body and a gate each. */
            IS(1, number > 2 * (1 + CROSSING_ATOMS + 1));
        }
    }
}

/* An image of three moves, of which the first alone still counts: the gate of the second record is closed. So a boot empties the cell of the third. */
static void make_cut(void) {
    kilnmace_plant plant = KILNMACE_NOTHING;
    begin(&plant, &crossing, &memory, SMALL_RING);
    fire_and_flush(&plant, 3);
    ANSWERS(KILNMACE_OK, kilnmace_close(&plant));
    memory.seen[(FIRST_RECORD + 1) * CELL] = memory.kept[(FIRST_RECORD + 1) * CELL] = 0;
    memory.calls = memory.reads = 0;
}

static void check_openings(void) {
    for (int part = NO_PART; part <= WHOLE; part++) {
        kilnmace_plant plant = KILNMACE_NOTHING;
        kilnmace_status status;
        uint64_t number = 0;
        do {
            make_cut();
            memory.failing_call = ++number;
            memory.part = (enum part)part;
            status = open_on(&plant, &crossing, &memory);
            if (status != KILNMACE_OK) {
                IS(KILNMACE_IMAGE_DISK, status);
                check_holds_nothing(&plant.held);
                IS(number, memory.calls);
            }
            for (int stop = NONE; stop < STOPS; stop++) {
                leave((enum stop)stop);
                IS(1, check_boots(1, 1));
            }
        } while (status != KILNMACE_OK);
        ANSWERS(KILNMACE_OK, kilnmace_close(&plant));
        IS(1, memory.is_settled);
        /* A gate is closed, and that is put onto the disk. */
        IS(1, number > 2);
    }
}

/* ---- reads ---- */

/* A device that can't be read is not written to, and nothing is held. */
static void check_reads(void) {
    kilnmace_plant plant = KILNMACE_NOTHING;
    make_old(1);
    const uint64_t reads = memory.size / CELL;
    for (uint64_t number = 1; number <= reads; number++) {
        copy_to(&left, &memory);
        left.failing_read = number;
        detail.first = detail.second = UNTOUCHED;
        ANSWERS(KILNMACE_IMAGE_DISK, open_on(&plant, &crossing, &left));
        IS(0, detail.first);
        IS(0, detail.second);
        check_holds_nothing(&plant.held);
        IS(number, left.reads);
        copy_to(&left, &memory);
        left.failing_read = number;
        ANSWERS(KILNMACE_IMAGE_DISK, format_on(&crossing, &left, SMALL_RING));
        IS(0, left.calls);
        IS(0, memcmp(left.seen, memory.seen, memory.size));
    }
    copy_to(&left, &memory);
    IS(1, check_boots(2, 2));
}

int main(int count, char **words) {
    if (count != 3) {
        printf("usage: failing CROSSING SAMPLE\n");
        return 2;
    }
    read_texts(words[1], words[2]);
    find_standings();
    check_events();
    check_formats();
    check_openings();
    check_reads();
    return 0;
}
