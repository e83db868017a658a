/* Images by the engine's C interface: their sizes, those that are refused, and the library's own calls by which a program drives a device. The images are on devices of memory.
 *
 *     images CROSSING SAMPLE
 *
 * CROSSING and SAMPLE are the texts of these plants in examples/.
 */
#include "asking.h"

static struct memory memory, other_memory;

/* ---- sizes ---- */

static void check_sizes(void) {
    const uint32_t no_rings[] = {0, 7, 4097, UINT32_MAX};
    const uint32_t rings[] = {8, RING, 4096};
    uint64_t size = UNTOUCHED;
    clear(&memory, CELLS * CELL);
    for (int which = 0; which < 4; which++) {
        ANSWERS(KILNMACE_BAD_RING, kilnmace_image_bytes(&crossing, no_rings[which], &size));
        ANSWERS(KILNMACE_BAD_RING, format_on(&crossing, &memory, no_rings[which]));
    }
    IS(UNTOUCHED, size);
    for (int which = 0; which < 3; which++) {
        ANSWERS(KILNMACE_OK, kilnmace_image_bytes(&crossing, rings[which], &size));
        IS((3 + 2 * CROSSING_ATOMS + rings[which]) * CELL, size);
    }
    ANSWERS(KILNMACE_IMAGE_WRONG_SIZE, format_on(&crossing, &memory, RING - 1));
    ANSWERS(KILNMACE_IMAGE_WRONG_SIZE, format_on(&crossing, &memory, RING + 1));
    IS(0, memory.calls);
}

/* The device has so many bytes now: the image is refused by this status, and no byte is written. */
static void check_size_refused(uint64_t size, kilnmace_status status) {
    kilnmace_plant plant = KILNMACE_NOTHING;
    kilnmace_device device = device_of(&memory);
    memory.size = device.bytes = size;
    memory.calls = 0;
    detail.first = detail.second = UNTOUCHED;
    ANSWERS(status, kilnmace_open(&plant, &crossing, &device, &detail));
    IS(0, detail.first);
    IS(0, detail.second);
    check_holds_nothing(&plant.held);
    ANSWERS(KILNMACE_IMAGE_WRONG_SIZE, kilnmace_format(&crossing, &device, RING));
    IS(0, memory.calls);
}

/* A device of another size than its image has. */
static void check_wrong_sizes(void) {
    kilnmace_plant plant = KILNMACE_NOTHING;
    begin(&plant, &crossing, &memory, RING);
    ANSWERS(KILNMACE_OK, kilnmace_close(&plant));
    const uint64_t sizes[] = {0, 1, CELL - 1, CELL, CELLS * CELL - 1, CELLS * CELL + 1, (CELLS + 1) * CELL};
    for (size_t which = 0; which < sizeof sizes / sizeof sizes[0]; which++) {
        check_size_refused(sizes[which], KILNMACE_IMAGE_WRONG_SIZE);
    }
    /* No image is as large: the device is not even read. */
    memory.reads = 0;
    check_size_refused((uint64_t)4227 * CELL + 1, KILNMACE_IMAGE_WRONG_SIZE);
    check_size_refused(UINT64_MAX, KILNMACE_IMAGE_WRONG_SIZE);
    IS(0, memory.reads);
    memory.size = CELLS * CELL;
    ANSWERS(KILNMACE_OK, open_on(&plant, &crossing, &memory));
    ANSWERS(KILNMACE_OK, kilnmace_close(&plant));
}

/* ---- images that are refused ---- */

/* The image is refused by this status with this detail, however often, and is left as it was. */
static void check_image_refused(const kilnmace_text *text, kilnmace_status status, uint64_t first, uint64_t second) {
    kilnmace_plant plant = KILNMACE_NOTHING;
    copy_to(&other_memory, &memory);
    for (int time = 0; time < 2; time++) {
        ANSWERS(status, open_on(&plant, text, &other_memory));
        IS(first, detail.first);
        IS(second, detail.second);
        check_holds_nothing(&plant.held);
    }
    IS(0, memcmp(memory.seen, other_memory.seen, memory.size));
}

/* The same with this byte in this place of a cell. */
static void check_patched(size_t cell, size_t place, uint8_t byte, kilnmace_status status, uint64_t first, uint64_t second) {
    uint8_t *patched = &memory.seen[cell * CELL + place], old = *patched;
    *patched = byte;
    check_image_refused(&crossing, status, first, second);
    *patched = old;
}

/* The places of the bytes are those of docs/IMAGE.md. */
static void check_images(void) {
    kilnmace_plant plant = KILNMACE_NOTHING;
    kilnmace_front front;
    uint64_t number;
    clear(&memory, CELLS * CELL);
    check_image_refused(&crossing, KILNMACE_IMAGE_NOT_FORMATTED, 0, 0);
    begin(&plant, &crossing, &memory, RING);
    ANSWERS(KILNMACE_OK, kilnmace_fire_connector(&plant, APPROACH_NORTH, &number));
    ANSWERS(KILNMACE_OK, kilnmace_fire_connector(&plant, LOWER, &number));
    ANSWERS(KILNMACE_OK, kilnmace_flush(&plant, &number));
    ANSWERS(KILNMACE_OK, kilnmace_close(&plant));

    check_image_refused(&sample, KILNMACE_IMAGE_OTHER_PLANT, 0, 0);
    check_patched(0, 0, 0, KILNMACE_IMAGE_NOT_FORMATTED, 0, 0);
    check_patched(0, 1, 'b', KILNMACE_IMAGE_NOT_FORMATTED, 0, 0);
    check_patched(0, 6, 9, KILNMACE_IMAGE_OTHER_VERSION, 0, 0);
    /* The base is number 0. */
    check_patched(BASE_CELL, 8, 0, KILNMACE_IMAGE_DAMAGED, BASE_CELL, 0);
    /* The barrier takes part in the second move for the second time, and never did for the first. */
    check_patched(FIRST_RECORD + 1, 23, 2, KILNMACE_IMAGE_GAP, BARRIER, 0);
    /* The supervisor is warned as if it had been before. */
    check_patched(FIRST_RECORD, 29, 1, KILNMACE_IMAGE_NOT_ENABLED, 1, SUPERVISOR);

    /* All that was changed is as before. */
    ANSWERS(KILNMACE_OK, open_on(&plant, &crossing, &memory));
    ANSWERS(KILNMACE_OK, kilnmace_front_of(&plant, &front));
    IS(2, front.fired);
    ANSWERS(KILNMACE_OK, kilnmace_close(&plant));
    /* Whatever was there is gone behind a format. */
    ANSWERS(KILNMACE_OK, format_on(&crossing, &memory, RING));
    ANSWERS(KILNMACE_OK, open_on(&plant, &crossing, &memory));
    ANSWERS(KILNMACE_OK, kilnmace_front_of(&plant, &front));
    IS(0, front.fired);
    IS(0, front.acked);
    IS(1, front.base);
    ANSWERS(KILNMACE_OK, kilnmace_close(&plant));
}

/* ---- the library's own calls ---- */

/* No step is queued. */
static void check_no_step(kilnmace_held *held) {
    kilnmace_step step = {UNTOUCHED, UNTOUCHED, UNTOUCHED};
    ANSWERS(KILNMACE_OK, kilnmace_raw_step(held, &step, NULL, 0));
    IS(KILNMACE_STEP_NONE, step.kind);
}

/* Each call that wants an image is refused by this status. */
static void check_held_refused(kilnmace_held *held, kilnmace_status status) {
    ANSWERS(status, kilnmace_raw_fill(held, 0, buffer, 1));
    ANSWERS(status, kilnmace_raw_format(held, &crossing.held, RING));
    detail.first = detail.second = UNTOUCHED;
    ANSWERS(status, kilnmace_raw_boot(held, &crossing.held, &detail));
    IS(0, detail.first);
    IS(0, detail.second);
}

static void check_nothing_held(void) {
    kilnmace_held held = {NULL, 0};
    kilnmace_step step;
    check_held_refused(&held, KILNMACE_CLOSED);
    ANSWERS(KILNMACE_CLOSED, kilnmace_raw_step(&held, &step, buffer, CELL));
    ANSWERS(KILNMACE_CLOSED, kilnmace_raw_fail(&held));
    ANSWERS(KILNMACE_CLOSED, kilnmace_raw_close(&held));
    ANSWERS(KILNMACE_IMAGE_WRONG_SIZE, kilnmace_raw_image(&held, (uint64_t)4227 * CELL + 1));
    ANSWERS(KILNMACE_IMAGE_WRONG_SIZE, kilnmace_raw_image(&held, UINT64_MAX));
    check_holds_nothing(&held);
}

/* A text is no image, and stays a text. */
static void check_text_held(void) {
    kilnmace_held held = sample.held;
    kilnmace_parts parts;
    kilnmace_step step;
    check_held_refused(&held, KILNMACE_NO_HANDLE);
    ANSWERS(KILNMACE_NO_HANDLE, kilnmace_raw_image(&held, CELL));
    ANSWERS(KILNMACE_NO_HANDLE, kilnmace_raw_step(&held, &step, buffer, CELL));
    ANSWERS(KILNMACE_NO_HANDLE, kilnmace_raw_fail(&held));
    ANSWERS(KILNMACE_NO_HANDLE, kilnmace_raw_close(&held));
    ANSWERS(KILNMACE_OK, kilnmace_parts_of(&sample, &parts));
    IS(2, parts.atoms);
}

/* An image is no plant, and no text. */
static void check_image_held(void) {
    kilnmace_plant image = KILNMACE_NOTHING;
    kilnmace_parts parts = {UNTOUCHED, UNTOUCHED};
    const uint64_t size = CELLS * CELL;
    ANSWERS(KILNMACE_OK, kilnmace_raw_image(&image.held, size));
    ANSWERS(KILNMACE_ALREADY_OPEN, kilnmace_raw_image(&image.held, size));
    check_plant_refused(&image, KILNMACE_NO_HANDLE);
    const kilnmace_text text = {image.held};
    ANSWERS(KILNMACE_NO_HANDLE, kilnmace_parts_of(&text, &parts));
    IS(UNTOUCHED, parts.atoms);

    ANSWERS(KILNMACE_OK, kilnmace_raw_fill(&image.held, size, NULL, 0));
    ANSWERS(KILNMACE_OK, kilnmace_raw_fill(&image.held, size - 1, buffer, 1));
    ANSWERS(KILNMACE_NO_SUCH, kilnmace_raw_fill(&image.held, size - 1, buffer, 2));
    ANSWERS(KILNMACE_NO_SUCH, kilnmace_raw_fill(&image.held, size + 1, NULL, 0));
    ANSWERS(KILNMACE_NO_SUCH, kilnmace_raw_fill(&image.held, UINT64_MAX, buffer, 1));
    ANSWERS(KILNMACE_NO_SUCH, kilnmace_raw_fill(&image.held, 1, buffer, size));
    ANSWERS(KILNMACE_BAD_RING, kilnmace_raw_format(&image.held, &crossing.held, 7));
    ANSWERS(KILNMACE_IMAGE_WRONG_SIZE, kilnmace_raw_format(&image.held, &crossing.held, RING + 1));
    check_no_step(&image.held);
    ANSWERS(KILNMACE_OK, kilnmace_raw_close(&image.held));
    check_holds_nothing(&image.held);
}

/* An image that is refused is dropped. */
static void check_image_dropped(void) {
    kilnmace_held held = {NULL, 0};
    ANSWERS(KILNMACE_OK, kilnmace_raw_image(&held, CELLS * CELL));
    ANSWERS(KILNMACE_IMAGE_NOT_FORMATTED, kilnmace_raw_boot(&held, &crossing.held, &detail));
    check_holds_nothing(&held);
    ANSWERS(KILNMACE_CLOSED, kilnmace_raw_close(&held));
}

/* Takes all steps that are queued, and counts the syncs. None is lost where there is no room for it. */
static int count_syncs(kilnmace_held *held) {
    kilnmace_step step = {UNTOUCHED, UNTOUCHED, UNTOUCHED}, again;
    int syncs = 0;
    while (kilnmace_raw_step(held, &step, buffer, 0) == KILNMACE_NO_ROOM || step.kind != KILNMACE_STEP_NONE) {
        if (step.kind == KILNMACE_STEP_SYNC) {
            syncs++;
        } else {
            ANSWERS(KILNMACE_NO_ROOM, kilnmace_raw_step(held, &again, NULL, 0));
            ANSWERS(KILNMACE_OK, kilnmace_raw_step(held, &again, buffer, KILNMACE_MOST_STEP));
            IS(KILNMACE_STEP_WRITE, again.kind);
            IS(1, again.length >= 1 && again.length <= KILNMACE_MOST_STEP && again.at + again.length <= CELLS * CELL);
        }
        step.kind = UNTOUCHED;
    }
    return syncs;
}

/* What is held is an image, then a plant, and then broken. */
static void check_life(void) {
    kilnmace_plant plant = KILNMACE_NOTHING;
    kilnmace_step step;
    uint64_t acked;
    ANSWERS(KILNMACE_OK, kilnmace_raw_image(&plant.held, CELLS * CELL));
    ANSWERS(KILNMACE_OK, kilnmace_raw_format(&plant.held, &crossing.held, RING));
    IS(1, count_syncs(&plant.held) > 2);
    ANSWERS(KILNMACE_OK, kilnmace_raw_boot(&plant.held, &crossing.held, &detail));
    check_held_refused(&plant.held, KILNMACE_ALREADY_OPEN);
    /* The boot syncs the device: what earlier programs wrote is on the disk then. */
    IS(1, count_syncs(&plant.held) > 0);
    fire_first(&plant, 3);
    check_no_step(&plant.held);
    ANSWERS(KILNMACE_OK, kilnmace_raw_flush(&plant.held, &acked));
    IS(3, acked);
    IS(2, count_syncs(&plant.held));
    check_no_step(&plant.held);

    ANSWERS(KILNMACE_OK, kilnmace_raw_fail(&plant.held));
    check_plant_refused(&plant, KILNMACE_BROKEN);
    check_held_refused(&plant.held, KILNMACE_BROKEN);
    ANSWERS(KILNMACE_BROKEN, kilnmace_raw_step(&plant.held, &step, buffer, CELL));
    ANSWERS(KILNMACE_OK, kilnmace_close(&plant));
    check_holds_nothing(&plant.held);
}

int main(int count, char **words) {
    if (count != 3) {
        printf("usage: images CROSSING SAMPLE\n");
        return 2;
    }
    read_texts(words[1], words[2]);
    check_sizes();
    check_wrong_sizes();
    check_images();
    check_nothing_held();
    check_text_held();
    check_image_held();
    check_image_dropped();
    check_life();
    return 0;
}
