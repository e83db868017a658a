/* Each call of the engine's C interface, mistaken and not, as kilnmace.h says what it answers. The images are on devices of memory.
 *
 *     calls CROSSING SAMPLE
 *
 * CROSSING and SAMPLE are the texts of these plants in examples/.
 */
#include "asking.h"

#include <pthread.h>

/* A text as long as it may be: it stays until the program ends. */
static kilnmace_text longest = KILNMACE_NOTHING;
static struct memory memory, other_memory;

/* ---- pointers and handles ---- */

static void check_null_pointers(void) {
    kilnmace_plant plant = KILNMACE_NOTHING;
    kilnmace_text text = KILNMACE_NOTHING;
    kilnmace_device device = device_of(&memory);
    kilnmace_parts parts;
    kilnmace_atom_parts atom_parts;
    kilnmace_front front;
    kilnmace_move moves[KILNMACE_MOST_MOVES];
    uint16_t number = UNTOUCHED;
    uint64_t wide = UNTOUCHED;
    int64_t values[KILNMACE_MOST_VARIABLES];
    char name[80];
    size_t count = UNTOUCHED;
    const uint8_t byte = 'a';
    ANSWERS(KILNMACE_NULL, kilnmace_text_read(NULL, &byte, 1, &detail));
    ANSWERS(KILNMACE_NULL, kilnmace_text_read(&text, NULL, 1, &detail));
    ANSWERS(KILNMACE_NULL, kilnmace_text_read(&text, &byte, 1, NULL));
    ANSWERS(KILNMACE_NULL, kilnmace_atom(NULL, "North", 5, &number));
    ANSWERS(KILNMACE_NULL, kilnmace_atom(&crossing, NULL, 5, &number));
    ANSWERS(KILNMACE_NULL, kilnmace_atom(&crossing, "North", 5, NULL));
    ANSWERS(KILNMACE_NULL, kilnmace_connector(NULL, "lower", 5, &number));
    ANSWERS(KILNMACE_NULL, kilnmace_connector(&crossing, NULL, 5, &number));
    ANSWERS(KILNMACE_NULL, kilnmace_connector(&crossing, "lower", 5, NULL));
    ANSWERS(KILNMACE_NULL, kilnmace_place(NULL, NORTH, "near", 4, &number));
    ANSWERS(KILNMACE_NULL, kilnmace_place(&crossing, NORTH, NULL, 4, &number));
    ANSWERS(KILNMACE_NULL, kilnmace_place(&crossing, NORTH, "near", 4, NULL));
    ANSWERS(KILNMACE_NULL, kilnmace_variable(NULL, NORTH, "trips", 5, &number));
    ANSWERS(KILNMACE_NULL, kilnmace_variable(&crossing, NORTH, NULL, 5, &number));
    ANSWERS(KILNMACE_NULL, kilnmace_variable(&crossing, NORTH, "trips", 5, NULL));
    ANSWERS(KILNMACE_NULL, kilnmace_connector_name(NULL, LOWER, name, sizeof name, &count));
    ANSWERS(KILNMACE_NULL, kilnmace_connector_name(&crossing, LOWER, NULL, sizeof name, &count));
    ANSWERS(KILNMACE_NULL, kilnmace_connector_name(&crossing, LOWER, name, sizeof name, NULL));
    ANSWERS(KILNMACE_NULL, kilnmace_atom_name(NULL, NORTH, name, sizeof name, &count));
    ANSWERS(KILNMACE_NULL, kilnmace_atom_name(&crossing, NORTH, NULL, sizeof name, &count));
    ANSWERS(KILNMACE_NULL, kilnmace_atom_name(&crossing, NORTH, name, sizeof name, NULL));
    ANSWERS(KILNMACE_NULL, kilnmace_place_name(NULL, NORTH, 0, name, sizeof name, &count));
    ANSWERS(KILNMACE_NULL, kilnmace_place_name(&crossing, NORTH, 0, NULL, sizeof name, &count));
    ANSWERS(KILNMACE_NULL, kilnmace_place_name(&crossing, NORTH, 0, name, sizeof name, NULL));
    ANSWERS(KILNMACE_NULL, kilnmace_variable_name(NULL, NORTH, 0, name, sizeof name, &count));
    ANSWERS(KILNMACE_NULL, kilnmace_variable_name(&crossing, NORTH, 0, NULL, sizeof name, &count));
    ANSWERS(KILNMACE_NULL, kilnmace_variable_name(&crossing, NORTH, 0, name, sizeof name, NULL));
    ANSWERS(KILNMACE_NULL, kilnmace_parts_of(NULL, &parts));
    ANSWERS(KILNMACE_NULL, kilnmace_parts_of(&crossing, NULL));
    ANSWERS(KILNMACE_NULL, kilnmace_atom_parts_of(NULL, NORTH, &atom_parts));
    ANSWERS(KILNMACE_NULL, kilnmace_atom_parts_of(&crossing, NORTH, NULL));
    ANSWERS(KILNMACE_NULL, kilnmace_image_bytes(NULL, RING, &wide));
    ANSWERS(KILNMACE_NULL, kilnmace_image_bytes(&crossing, RING, NULL));
    ANSWERS(KILNMACE_NULL, kilnmace_format(NULL, &device, RING));
    ANSWERS(KILNMACE_NULL, kilnmace_format(&crossing, NULL, RING));
    ANSWERS(KILNMACE_NULL, kilnmace_open(NULL, &crossing, &device, &detail));
    ANSWERS(KILNMACE_NULL, kilnmace_open(&plant, NULL, &device, &detail));
    ANSWERS(KILNMACE_NULL, kilnmace_open(&plant, &crossing, NULL, &detail));
    ANSWERS(KILNMACE_NULL, kilnmace_open(&plant, &crossing, &device, NULL));
    ANSWERS(KILNMACE_NULL, kilnmace_close(NULL));
    ANSWERS(KILNMACE_NULL, kilnmace_front_of(NULL, &front));
    ANSWERS(KILNMACE_NULL, kilnmace_front_of(&plant, NULL));
    ANSWERS(KILNMACE_NULL, kilnmace_count(NULL, &wide));
    ANSWERS(KILNMACE_NULL, kilnmace_count(&plant, NULL));
    ANSWERS(KILNMACE_NULL, kilnmace_choice(NULL, 0, &number, moves, KILNMACE_MOST_MOVES, &count));
    ANSWERS(KILNMACE_NULL, kilnmace_choice(&plant, 0, NULL, moves, KILNMACE_MOST_MOVES, &count));
    ANSWERS(KILNMACE_NULL, kilnmace_choice(&plant, 0, &number, NULL, KILNMACE_MOST_MOVES, &count));
    ANSWERS(KILNMACE_NULL, kilnmace_choice(&plant, 0, &number, moves, KILNMACE_MOST_MOVES, NULL));
    ANSWERS(KILNMACE_NULL, kilnmace_state(NULL, NORTH, &wide, values, KILNMACE_MOST_VARIABLES, &count));
    ANSWERS(KILNMACE_NULL, kilnmace_state(&plant, NORTH, NULL, values, KILNMACE_MOST_VARIABLES, &count));
    ANSWERS(KILNMACE_NULL, kilnmace_state(&plant, NORTH, &wide, NULL, KILNMACE_MOST_VARIABLES, &count));
    ANSWERS(KILNMACE_NULL, kilnmace_state(&plant, NORTH, &wide, values, KILNMACE_MOST_VARIABLES, NULL));
    ANSWERS(KILNMACE_NULL, kilnmace_fire(NULL, 0, &wide));
    ANSWERS(KILNMACE_NULL, kilnmace_fire(&plant, 0, NULL));
    ANSWERS(KILNMACE_NULL, kilnmace_fire_connector(NULL, LOWER, &wide));
    ANSWERS(KILNMACE_NULL, kilnmace_fire_connector(&plant, LOWER, NULL));
    ANSWERS(KILNMACE_NULL, kilnmace_flush(NULL, &wide));
    ANSWERS(KILNMACE_NULL, kilnmace_flush(&plant, NULL));
    ANSWERS(KILNMACE_NULL, kilnmace_save(NULL, &wide));
    ANSWERS(KILNMACE_NULL, kilnmace_save(&plant, NULL));
    ANSWERS(KILNMACE_NULL, kilnmace_put(NULL, NORTH));
    ANSWERS(KILNMACE_NULL, kilnmace_trim(NULL, &wide));
    ANSWERS(KILNMACE_NULL, kilnmace_trim(&plant, NULL));
    ANSWERS(KILNMACE_NULL, kilnmace_status_text(KILNMACE_OK, NULL, sizeof name, &count));
    ANSWERS(KILNMACE_NULL, kilnmace_status_text(KILNMACE_OK, name, sizeof name, NULL));
    IS(UNTOUCHED, number);
    IS(UNTOUCHED, wide);
    IS(UNTOUCHED, count);
}

/* A device without one of its functions is none. */
static void check_unfinished_devices(void) {
    kilnmace_device unfinished[] = {KILNMACE_NO_DEVICE, device_of(&memory), device_of(&memory), device_of(&memory)};
    unfinished[1].read = NULL;
    unfinished[2].write = NULL;
    unfinished[3].sync = NULL;
    for (size_t which = 0; which < sizeof unfinished / sizeof unfinished[0]; which++) {
        kilnmace_plant plant = KILNMACE_NOTHING;
        ANSWERS(KILNMACE_NULL, kilnmace_format(&crossing, &unfinished[which], RING));
        ANSWERS(KILNMACE_NULL, kilnmace_open(&plant, &crossing, &unfinished[which], &detail));
        check_holds_nothing(&plant.held);
    }
}

/* Each call with this text is refused by this status, and says nothing. No device is written to. */
static void check_text_refused(const kilnmace_text *text, kilnmace_status status) {
    kilnmace_plant plant = KILNMACE_NOTHING;
    kilnmace_parts parts = {UNTOUCHED, UNTOUCHED};
    kilnmace_atom_parts atom_parts = {UNTOUCHED, UNTOUCHED};
    uint16_t number = UNTOUCHED;
    uint64_t wide = UNTOUCHED;
    char name[KILNMACE_MOST_NAME];
    size_t length = UNTOUCHED;
    clear(&other_memory, CELLS * CELL);
    ANSWERS(status, kilnmace_parts_of(text, &parts));
    ANSWERS(status, kilnmace_atom_parts_of(text, NORTH, &atom_parts));
    ANSWERS(status, kilnmace_atom(text, "North", 5, &number));
    ANSWERS(status, kilnmace_connector(text, "lower", 5, &number));
    ANSWERS(status, kilnmace_place(text, NORTH, "near", 4, &number));
    ANSWERS(status, kilnmace_variable(text, NORTH, "trips", 5, &number));
    ANSWERS(status, kilnmace_atom_name(text, NORTH, name, sizeof name, &length));
    ANSWERS(status, kilnmace_connector_name(text, LOWER, name, sizeof name, &length));
    ANSWERS(status, kilnmace_place_name(text, NORTH, 0, name, sizeof name, &length));
    ANSWERS(status, kilnmace_variable_name(text, NORTH, 0, name, sizeof name, &length));
    ANSWERS(status, kilnmace_image_bytes(text, RING, &wide));
    ANSWERS(status, format_on(text, &other_memory, RING));
    detail.first = detail.second = UNTOUCHED;
    ANSWERS(status, open_on(&plant, text, &other_memory));
    IS(0, detail.first);
    IS(0, detail.second);
    IS(UNTOUCHED, parts.atoms);
    IS(UNTOUCHED, atom_parts.places);
    IS(UNTOUCHED, number);
    IS(UNTOUCHED, wide);
    IS(UNTOUCHED, length);
    check_holds_nothing(&plant.held);
    IS(0, other_memory.calls);
}

/* With these bits no variable is a text or a plant. No call changes them, and none opens something in their place. */
static void check_no_handle(kilnmace_held held) {
    kilnmace_text text = {held};
    kilnmace_plant plant = {held, KILNMACE_NO_DEVICE};
    check_text_refused(&text, KILNMACE_NO_HANDLE);
    check_plant_refused(&plant, KILNMACE_NO_HANDLE);
    ANSWERS(KILNMACE_NO_HANDLE, kilnmace_close(&plant));
    ANSWERS(KILNMACE_NO_HANDLE, kilnmace_text_read(&text, (const uint8_t *)TWINS_TEXT, strlen(TWINS_TEXT), &detail));
    ANSWERS(KILNMACE_NO_HANDLE, open_on(&plant, &crossing, &memory));
    IS(1, text.held.at == held.at && text.held.mark == held.mark && plant.held.at == held.at && plant.held.mark == held.mark);
}

static void check_handles(void) {
    static uint64_t other[16];
    kilnmace_text text = KILNMACE_NOTHING;
    kilnmace_plant plant = KILNMACE_NOTHING;
    check_text_refused(&text, KILNMACE_CLOSED);
    check_plant_refused(&plant, KILNMACE_CLOSED);
    ANSWERS(KILNMACE_CLOSED, kilnmace_close(&plant));
    begin(&plant, &crossing, &memory, RING);
    void *const at[] = {NULL, other, crossing.held.at, plant.held.at};
    for (size_t which = 0; which < sizeof at / sizeof at[0]; which++) {
        const kilnmace_held held = {at[which], UNTOUCHED};
        check_no_handle(held);
    }
    ANSWERS(KILNMACE_OK, kilnmace_close(&plant));
    check_holds_nothing(&plant.held);
    check_plant_refused(&plant, KILNMACE_CLOSED);
    ANSWERS(KILNMACE_CLOSED, kilnmace_close(&plant));
}

/* A text is no plant, and a plant no text. Each is as good as before behind the calls that took it for the other. */
static void check_kinds(void) {
    kilnmace_text text = KILNMACE_NOTHING;
    kilnmace_plant plant = KILNMACE_NOTHING, open = KILNMACE_NOTHING;
    uint16_t number;
    plant.held = crossing.held;
    check_plant_refused(&plant, KILNMACE_NO_HANDLE);
    ANSWERS(KILNMACE_NO_HANDLE, kilnmace_close(&plant));
    begin(&open, &crossing, &memory, RING);
    ANSWERS(KILNMACE_NO_HANDLE, open_on(&plant, &crossing, &memory));
    IS(1, plant.held.at == crossing.held.at && plant.held.mark == crossing.held.mark);
    ANSWERS(KILNMACE_OK, kilnmace_connector(&crossing, "lower", 5, &number));
    IS(LOWER, number);

    text.held = open.held;
    check_text_refused(&text, KILNMACE_NO_HANDLE);
    ANSWERS(KILNMACE_NO_HANDLE, kilnmace_text_read(&text, (const uint8_t *)TWINS_TEXT, strlen(TWINS_TEXT), &detail));
    IS(1, text.held.at == open.held.at && text.held.mark == open.held.mark);
    fire_first(&open, 1);
    ANSWERS(KILNMACE_OK, kilnmace_close(&open));
}

static void check_opening_twice(void) {
    kilnmace_plant plant = KILNMACE_NOTHING;
    kilnmace_front front;
    uint64_t acked;
    ANSWERS(KILNMACE_ALREADY_OPEN, kilnmace_text_read(&crossing, (const uint8_t *)TWINS_TEXT, strlen(TWINS_TEXT), &detail));
    begin(&plant, &crossing, &memory, RING);
    fire_first(&plant, 1);
    /* It keeps its own device. */
    copy_to(&other_memory, &memory);
    ANSWERS(KILNMACE_ALREADY_OPEN, open_on(&plant, &crossing, &other_memory));
    ANSWERS(KILNMACE_OK, kilnmace_flush(&plant, &acked));
    IS(0, other_memory.calls);
    ANSWERS(KILNMACE_OK, kilnmace_close(&plant));
    ANSWERS(KILNMACE_OK, open_on(&plant, &crossing, &memory));
    ANSWERS(KILNMACE_OK, kilnmace_front_of(&plant, &front));
    IS(1, front.acked);
    ANSWERS(KILNMACE_OK, kilnmace_close(&plant));
}

/* A variable is moved, and used at its new place alone. */
static void check_moving(void) {
    kilnmace_plant plant = KILNMACE_NOTHING, moved;
    kilnmace_text text;
    uint64_t number;
    begin(&plant, &crossing, &memory, RING);
    fire_first(&plant, 1);
    memcpy(&moved, &plant, sizeof moved);
    memset((void *)&plant, 0, sizeof plant);
    ANSWERS(KILNMACE_OK, kilnmace_flush(&moved, &number));
    IS(1, number);
    ANSWERS(KILNMACE_OK, kilnmace_close(&moved));
    ANSWERS(KILNMACE_CLOSED, kilnmace_close(&plant));
    memcpy(&text, &crossing, sizeof text);
    ANSWERS(KILNMACE_OK, open_on(&plant, &text, &memory));
    ANSWERS(KILNMACE_OK, kilnmace_close(&plant));
}

/* ---- texts ---- */

/* The text is refused at this line by the fault with this number, and the variable still holds nothing. */
static void check_fault(const char *text, size_t length, uint64_t line, uint64_t fault) {
    kilnmace_text none = KILNMACE_NOTHING;
    ANSWERS(KILNMACE_NO_PLANT, kilnmace_text_read(&none, (const uint8_t *)text, length, &detail));
    IS(line, detail.first);
    IS(fault, detail.second);
    check_text_refused(&none, KILNMACE_CLOSED);
}

static void check_texts(void) {
    uint16_t number = UNTOUCHED;
    check_fault("atom A\nplace s init\nplaice t\n", 28, 3, 3);
    check_fault("atom A\n\n# no place\ntrans t from s to s\n", 39, 4, 7);
    check_fault(NULL, 0, 0, 14);
    memset(buffer, '\n', sizeof buffer);
    check_fault((const char *)buffer, MOST_BYTES + 1, 0, 2);
    /* As long as a text may be. Its bytes need not stay. */
    memcpy(buffer, TWINS_TEXT, strlen(TWINS_TEXT));
    ANSWERS(KILNMACE_OK, kilnmace_text_read(&longest, buffer, MOST_BYTES, &detail));
    memset(buffer, 0, sizeof buffer);
    ANSWERS(KILNMACE_OK, kilnmace_connector(&longest, "c", 1, &number));
    IS(0, number);

    ANSWERS(KILNMACE_OK, kilnmace_atom(&crossing, "Supervisor", 10, &number));
    IS(SUPERVISOR, number);
    ANSWERS(KILNMACE_OK, kilnmace_connector(&crossing, "raise", 5, &number));
    IS(CROSSING_CONNECTORS - 1, number);
    ANSWERS(KILNMACE_OK, kilnmace_place(&crossing, NORTH, "inside", 6, &number));
    IS(2, number);
    ANSWERS(KILNMACE_OK, kilnmace_variable(&crossing, SOUTH, "trips", 5, &number));
    IS(0, number);
    /* No more is read of a name than its length says. */
    ANSWERS(KILNMACE_OK, kilnmace_connector(&crossing, "lowered", 5, &number));
    IS(LOWER, number);
    number = UNTOUCHED;
    ANSWERS(KILNMACE_NO_SUCH, kilnmace_atom(&crossing, "Nort", 4, &number));
    ANSWERS(KILNMACE_NO_SUCH, kilnmace_atom(&crossing, "North\0", 6, &number));
    ANSWERS(KILNMACE_NO_SUCH, kilnmace_atom(&crossing, "lower", 5, &number));
    ANSWERS(KILNMACE_NO_SUCH, kilnmace_atom(&crossing, NULL, 0, &number));
    ANSWERS(KILNMACE_NO_SUCH, kilnmace_connector(&crossing, "", 0, &number));
    ANSWERS(KILNMACE_NO_SUCH, kilnmace_place(&crossing, BARRIER, "near", 4, &number));
    ANSWERS(KILNMACE_NO_SUCH, kilnmace_place(&crossing, CROSSING_ATOMS, "near", 4, &number));
    ANSWERS(KILNMACE_NO_SUCH, kilnmace_variable(&crossing, BARRIER, "trips", 5, &number));
    ANSWERS(KILNMACE_NO_SUCH, kilnmace_variable(&crossing, UINT16_MAX, "trips", 5, &number));
    IS(UNTOUCHED, number);
}

/* Each name that a call gives leads back to its number. */
static void check_all_names(const kilnmace_text *text) {
    kilnmace_parts parts;
    kilnmace_atom_parts of_atom;
    char name[KILNMACE_MOST_NAME];
    size_t length;
    uint16_t number;
    ANSWERS(KILNMACE_OK, kilnmace_parts_of(text, &parts));
    for (uint16_t connector = 0; connector < parts.connectors; connector++) {
        ANSWERS(KILNMACE_OK, kilnmace_connector_name(text, connector, name, sizeof name, &length));
        ANSWERS(KILNMACE_OK, kilnmace_connector(text, name, length, &number));
        IS(connector, number);
    }
    for (uint16_t atom = 0; atom < parts.atoms; atom++) {
        ANSWERS(KILNMACE_OK, kilnmace_atom_name(text, atom, name, sizeof name, &length));
        ANSWERS(KILNMACE_OK, kilnmace_atom(text, name, length, &number));
        IS(atom, number);
        ANSWERS(KILNMACE_OK, kilnmace_atom_parts_of(text, atom, &of_atom));
        for (uint16_t place = 0; place < of_atom.places; place++) {
            ANSWERS(KILNMACE_OK, kilnmace_place_name(text, atom, place, name, sizeof name, &length));
            ANSWERS(KILNMACE_OK, kilnmace_place(text, atom, name, length, &number));
            IS(place, number);
        }
        for (uint16_t variable = 0; variable < of_atom.variables; variable++) {
            ANSWERS(KILNMACE_OK, kilnmace_variable_name(text, atom, variable, name, sizeof name, &length));
            ANSWERS(KILNMACE_OK, kilnmace_variable(text, atom, name, length, &number));
            IS(variable, number);
        }
    }
}

static void check_parts(void) {
    kilnmace_parts parts = {UNTOUCHED, UNTOUCHED};
    kilnmace_atom_parts of_atom = {UNTOUCHED, UNTOUCHED};
    ANSWERS(KILNMACE_NO_SUCH, kilnmace_atom_parts_of(&crossing, CROSSING_ATOMS, &of_atom));
    ANSWERS(KILNMACE_NO_SUCH, kilnmace_atom_parts_of(&crossing, UINT16_MAX, &of_atom));
    IS(UNTOUCHED, of_atom.places);
    IS(UNTOUCHED, of_atom.variables);
    ANSWERS(KILNMACE_OK, kilnmace_parts_of(&crossing, &parts));
    IS(CROSSING_ATOMS, parts.atoms);
    IS(CROSSING_CONNECTORS, parts.connectors);
    ANSWERS(KILNMACE_OK, kilnmace_atom_parts_of(&crossing, SOUTH, &of_atom));
    IS(3, of_atom.places);
    IS(1, of_atom.variables);
    ANSWERS(KILNMACE_OK, kilnmace_atom_parts_of(&crossing, BARRIER, &of_atom));
    IS(2, of_atom.places);
    IS(0, of_atom.variables);
    check_all_names(&crossing);
    check_all_names(&sample);
    check_all_names(&once);
}

/* No such part has a name, and nothing is told of it. */
static void check_no_names(void) {
    char name[KILNMACE_MOST_NAME];
    size_t length = UNTOUCHED;
    ANSWERS(KILNMACE_NO_SUCH, kilnmace_connector_name(&crossing, CROSSING_CONNECTORS, name, sizeof name, &length));
    ANSWERS(KILNMACE_NO_SUCH, kilnmace_connector_name(&crossing, UINT16_MAX, name, sizeof name, &length));
    ANSWERS(KILNMACE_NO_SUCH, kilnmace_atom_name(&crossing, CROSSING_ATOMS, name, sizeof name, &length));
    ANSWERS(KILNMACE_NO_SUCH, kilnmace_atom_name(&crossing, UINT16_MAX, name, sizeof name, &length));
    ANSWERS(KILNMACE_NO_SUCH, kilnmace_place_name(&crossing, NORTH, 3, name, sizeof name, &length));
    ANSWERS(KILNMACE_NO_SUCH, kilnmace_place_name(&crossing, NORTH, UINT16_MAX, name, sizeof name, &length));
    ANSWERS(KILNMACE_NO_SUCH, kilnmace_place_name(&crossing, CROSSING_ATOMS, 0, name, sizeof name, &length));
    ANSWERS(KILNMACE_NO_SUCH, kilnmace_variable_name(&crossing, NORTH, 1, name, sizeof name, &length));
    ANSWERS(KILNMACE_NO_SUCH, kilnmace_variable_name(&crossing, BARRIER, 0, name, sizeof name, &length));
    ANSWERS(KILNMACE_NO_SUCH, kilnmace_variable_name(&crossing, UINT16_MAX, 0, name, sizeof name, &length));
    IS(UNTOUCHED, length);
}

static void check_names(void) {
    char name[KILNMACE_MOST_NAME];
    size_t length;
    ANSWERS(KILNMACE_OK, kilnmace_connector_name(&crossing, APPROACH_NORTH, name, sizeof name, &length));
    READS("approach_north", name, length);
    ANSWERS(KILNMACE_OK, kilnmace_atom_name(&crossing, SUPERVISOR, name, sizeof name, &length));
    READS("Supervisor", name, length);
    ANSWERS(KILNMACE_OK, kilnmace_place_name(&crossing, SOUTH, 2, name, sizeof name, &length));
    READS("inside", name, length);
    ANSWERS(KILNMACE_OK, kilnmace_variable_name(&crossing, SOUTH, 0, name, sizeof name, &length));
    READS("trips", name, length);
    name[0] = '-';
    ANSWERS(KILNMACE_NO_ROOM, kilnmace_connector_name(&crossing, APPROACH_NORTH, name, 13, &length));
    IS(14, length);
    ANSWERS(KILNMACE_NO_ROOM, kilnmace_atom_name(&crossing, SUPERVISOR, name, 9, &length));
    IS(10, length);
    ANSWERS(KILNMACE_NO_ROOM, kilnmace_place_name(&crossing, SOUTH, 2, name, 5, &length));
    IS(6, length);
    ANSWERS(KILNMACE_NO_ROOM, kilnmace_variable_name(&crossing, SOUTH, 0, name, 4, &length));
    IS('-', name[0]);
    ANSWERS(KILNMACE_NO_ROOM, kilnmace_connector_name(&crossing, LOWER, NULL, 0, &length));
    IS(5, length);
    name[5] = '-';
    ANSWERS(KILNMACE_OK, kilnmace_connector_name(&crossing, LOWER, name, 5, &length));
    READS("lower", name, length);
    IS('-', name[5]);
}

static void check_status_texts(void) {
    static const kilnmace_status ALL[] = {
        KILNMACE_OK, KILNMACE_STUCK, KILNMACE_TAIL_FULL, KILNMACE_RING_FULL, KILNMACE_SPENT, KILNMACE_AHEAD, KILNMACE_NOTHING_NEW, KILNMACE_DISK, KILNMACE_BROKEN,
        KILNMACE_VALUES,
        KILNMACE_IMAGE_NOT_FORMATTED, KILNMACE_IMAGE_OTHER_VERSION, KILNMACE_IMAGE_OTHER_PLANT, KILNMACE_IMAGE_WRONG_SIZE, KILNMACE_IMAGE_DAMAGED, KILNMACE_IMAGE_GAP,
        KILNMACE_IMAGE_NOT_ENABLED, KILNMACE_IMAGE_DISK, KILNMACE_FILE_ALREADY_THERE, KILNMACE_FILE_NOT_THERE, KILNMACE_FILE_NOT_ALLOWED, KILNMACE_FILE_NOT_A_FILE,
        KILNMACE_FILE_UNOPENED, KILNMACE_FILE_IN_USE, KILNMACE_FILE_UNLOCKED, KILNMACE_FILE_UNMADE, KILNMACE_FILE_UNSYNCED, KILNMACE_NULL, KILNMACE_CLOSED,
        KILNMACE_NO_HANDLE, KILNMACE_ALREADY_OPEN, KILNMACE_NO_PLANT, KILNMACE_NO_SUCH, KILNMACE_SEVERAL, KILNMACE_NONE, KILNMACE_NO_ROOM, KILNMACE_BAD_RING,
        KILNMACE_MEMORY,
    };
    char text[KILNMACE_MOST_STATUS_TEXT];
    size_t length, needed;
    for (size_t place = 0; place < sizeof ALL / sizeof ALL[0]; place++) {
        ANSWERS(KILNMACE_OK, kilnmace_status_text(ALL[place], text, sizeof text, &length));
        IS(1, length > 0 && length <= sizeof text && !memchr(text, 0, length));
        ANSWERS(KILNMACE_NO_ROOM, kilnmace_status_text(ALL[place], text, length - 1, &needed));
        IS(length, needed);
    }
    length = UNTOUCHED;
    ANSWERS(KILNMACE_NO_SUCH, kilnmace_status_text(1000, text, sizeof text, &length));
    ANSWERS(KILNMACE_NO_SUCH, kilnmace_status_text(UINT32_MAX, text, sizeof text, &length));
    IS(UNTOUCHED, length);
}

/* ---- looks and events ---- */

static void check_looks(void) {
    kilnmace_plant plant = KILNMACE_NOTHING;
    kilnmace_move moves[KILNMACE_MOST_MOVES];
    uint16_t connector = UNTOUCHED;
    uint64_t count, marked, number;
    int64_t values[KILNMACE_MOST_VARIABLES];
    size_t told;
    begin(&plant, &crossing, &memory, RING);
    const uint64_t asked = memory.reads + memory.calls;
    ANSWERS(KILNMACE_OK, kilnmace_count(&plant, &count));
    IS(2, count);
    ANSWERS(KILNMACE_OK, kilnmace_choice(&plant, 1, &connector, moves, 2, &told));
    IS(APPROACH_SOUTH, connector);
    IS(2, told);
    IS(SOUTH, moves[0].atom);
    IS(0, moves[0].transition);
    IS(SUPERVISOR, moves[1].atom);
    IS(0, moves[1].transition);

    connector = moves[0].atom = UNTOUCHED;
    told = UNTOUCHED;
    ANSWERS(KILNMACE_NO_SUCH, kilnmace_choice(&plant, 2, &connector, moves, KILNMACE_MOST_MOVES, &told));
    ANSWERS(KILNMACE_NO_SUCH, kilnmace_choice(&plant, UINT64_MAX, &connector, moves, KILNMACE_MOST_MOVES, &told));
    IS(UNTOUCHED, told);
    ANSWERS(KILNMACE_NO_ROOM, kilnmace_choice(&plant, 0, &connector, moves, 1, &told));
    IS(2, told);
    told = UNTOUCHED;
    ANSWERS(KILNMACE_NO_ROOM, kilnmace_choice(&plant, 0, &connector, NULL, 0, &told));
    IS(2, told);
    IS(UNTOUCHED, connector);
    IS(UNTOUCHED, moves[0].atom);

    ANSWERS(KILNMACE_OK, kilnmace_fire(&plant, 0, &number));
    ANSWERS(KILNMACE_OK, kilnmace_state(&plant, NORTH, &marked, values, 1, &told));
    IS(1 << 1, marked);
    IS(1, told);
    IS(0, values[0]);
    ANSWERS(KILNMACE_OK, kilnmace_state(&plant, BARRIER, &marked, NULL, 0, &told));
    IS(1 << 0, marked);
    IS(0, told);
    marked = UNTOUCHED;
    ANSWERS(KILNMACE_NO_ROOM, kilnmace_state(&plant, NORTH, &marked, NULL, 0, &told));
    IS(1, told);
    told = UNTOUCHED;
    ANSWERS(KILNMACE_NO_SUCH, kilnmace_state(&plant, CROSSING_ATOMS, &marked, values, KILNMACE_MOST_VARIABLES, &told));
    ANSWERS(KILNMACE_NO_SUCH, kilnmace_state(&plant, UINT16_MAX, &marked, values, KILNMACE_MOST_VARIABLES, &told));
    IS(UNTOUCHED, marked);
    IS(UNTOUCHED, told);
    /* Neither a look nor a firing asks the device. */
    IS(asked, memory.reads + memory.calls);
    ANSWERS(KILNMACE_OK, kilnmace_close(&plant));
    IS(asked, memory.reads + memory.calls);
}

static void check_events(void) {
    kilnmace_plant plant = KILNMACE_NOTHING;
    kilnmace_front front;
    uint64_t number = UNTOUCHED, atoms = UNTOUCHED, base = UNTOUCHED;
    begin(&plant, &crossing, &memory, RING);
    ANSWERS(KILNMACE_NO_SUCH, kilnmace_fire(&plant, 2, &number));
    ANSWERS(KILNMACE_NO_SUCH, kilnmace_fire(&plant, UINT64_MAX, &number));
    ANSWERS(KILNMACE_NO_SUCH, kilnmace_fire_connector(&plant, CROSSING_CONNECTORS, &number));
    ANSWERS(KILNMACE_NO_SUCH, kilnmace_fire_connector(&plant, UINT16_MAX, &number));
    ANSWERS(KILNMACE_NONE, kilnmace_fire_connector(&plant, LEAVE_NORTH, &number));
    ANSWERS(KILNMACE_NOTHING_NEW, kilnmace_save(&plant, &atoms));
    ANSWERS(KILNMACE_NOTHING_NEW, kilnmace_trim(&plant, &base));
    ANSWERS(KILNMACE_NOTHING_NEW, kilnmace_put(&plant, NORTH));
    ANSWERS(KILNMACE_NO_SUCH, kilnmace_put(&plant, CROSSING_ATOMS));
    ANSWERS(KILNMACE_NO_SUCH, kilnmace_put(&plant, UINT16_MAX));
    IS(UNTOUCHED, number);
    IS(UNTOUCHED, atoms);
    IS(UNTOUCHED, base);

    ANSWERS(KILNMACE_OK, kilnmace_fire_connector(&plant, APPROACH_NORTH, &number));
    IS(1, number);
    /* The barrier goes down before a train enters: by the priorities. */
    ANSWERS(KILNMACE_NONE, kilnmace_fire_connector(&plant, ENTER_NORTH, &number));
    ANSWERS(KILNMACE_AHEAD, kilnmace_put(&plant, NORTH));
    ANSWERS(KILNMACE_NOTHING_NEW, kilnmace_save(&plant, &atoms));
    ANSWERS(KILNMACE_OK, kilnmace_front_of(&plant, &front));
    IS(1, front.fired);
    IS(0, front.acked);
    ANSWERS(KILNMACE_OK, kilnmace_flush(&plant, &number));
    IS(1, number);
    ANSWERS(KILNMACE_OK, kilnmace_flush(&plant, &number));
    IS(1, number);
    ANSWERS(KILNMACE_OK, kilnmace_put(&plant, NORTH));
    ANSWERS(KILNMACE_NOTHING_NEW, kilnmace_put(&plant, NORTH));
    ANSWERS(KILNMACE_OK, kilnmace_save(&plant, &atoms));
    IS(1 << SUPERVISOR, atoms);
    ANSWERS(KILNMACE_NOTHING_NEW, kilnmace_save(&plant, &atoms));
    ANSWERS(KILNMACE_OK, kilnmace_trim(&plant, &base));
    IS(2, base);
    ANSWERS(KILNMACE_NOTHING_NEW, kilnmace_trim(&plant, &base));

    /* What was not acknowledged is lost at a close. */
    ANSWERS(KILNMACE_OK, kilnmace_fire_connector(&plant, LOWER, &number));
    IS(2, number);
    ANSWERS(KILNMACE_OK, kilnmace_close(&plant));
    ANSWERS(KILNMACE_OK, open_on(&plant, &crossing, &memory));
    ANSWERS(KILNMACE_OK, kilnmace_front_of(&plant, &front));
    IS(1, front.fired);
    IS(1, front.acked);
    IS(2, front.base);
    IS(RING, front.ring);
    ANSWERS(KILNMACE_OK, kilnmace_close(&plant));
}

static void check_full(void) {
    kilnmace_plant plant = KILNMACE_NOTHING;
    uint64_t number, atoms, base;
    begin(&plant, &crossing, &memory, 128);
    fire_first(&plant, 64);
    ANSWERS(KILNMACE_TAIL_FULL, kilnmace_fire(&plant, 0, &number));
    ANSWERS(KILNMACE_OK, kilnmace_flush(&plant, &number));
    IS(64, number);
    fire_first(&plant, 1);
    ANSWERS(KILNMACE_OK, kilnmace_close(&plant));
    begin(&plant, &crossing, &memory, 8);
    fire_first(&plant, 8);
    ANSWERS(KILNMACE_RING_FULL, kilnmace_fire(&plant, 0, &number));
    ANSWERS(KILNMACE_OK, kilnmace_flush(&plant, &number));
    ANSWERS(KILNMACE_RING_FULL, kilnmace_fire(&plant, 0, &number));
    ANSWERS(KILNMACE_OK, kilnmace_save(&plant, &atoms));
    ANSWERS(KILNMACE_OK, kilnmace_trim(&plant, &base));
    IS(9, base);
    fire_first(&plant, 1);
    ANSWERS(KILNMACE_OK, kilnmace_close(&plant));
}

static void check_several_and_stuck(void) {
    kilnmace_plant plant = KILNMACE_NOTHING;
    uint16_t connector;
    uint64_t count, number = UNTOUCHED;
    kilnmace_move move;
    size_t told;
    begin(&plant, &twins, &memory, 8);
    ANSWERS(KILNMACE_SEVERAL, kilnmace_fire_connector(&plant, 0, &number));
    IS(UNTOUCHED, number);
    ANSWERS(KILNMACE_OK, kilnmace_choice(&plant, 1, &connector, &move, 1, &told));
    IS(1, move.transition);
    ANSWERS(KILNMACE_OK, kilnmace_fire(&plant, 1, &number));
    ANSWERS(KILNMACE_OK, kilnmace_close(&plant));
    begin(&plant, &once, &memory, 8);
    ANSWERS(KILNMACE_NONE, kilnmace_fire_connector(&plant, 1, &number));
    ANSWERS(KILNMACE_OK, kilnmace_fire_connector(&plant, 0, &number));
    ANSWERS(KILNMACE_OK, kilnmace_count(&plant, &count));
    IS(0, count);
    ANSWERS(KILNMACE_STUCK, kilnmace_fire(&plant, 0, &number));
    ANSWERS(KILNMACE_NONE, kilnmace_fire_connector(&plant, 0, &number));
    ANSWERS(KILNMACE_NO_SUCH, kilnmace_fire_connector(&plant, 2, &number));
    ANSWERS(KILNMACE_OK, kilnmace_close(&plant));
}

/* ---- two plants ---- */

static void check_two_plants(void) {
    kilnmace_plant first = KILNMACE_NOTHING, second = KILNMACE_NOTHING;
    uint64_t number, marked;
    int64_t value;
    size_t told;
    begin(&first, &crossing, &memory, RING);
    begin(&second, &sample, &other_memory, RING);
    ANSWERS(KILNMACE_OK, kilnmace_fire_connector(&first, APPROACH_NORTH, &number));
    for (uint64_t tick = 1; tick <= 3; tick++) {
        ANSWERS(KILNMACE_OK, kilnmace_fire_connector(&second, 0, &number));
        IS(tick, number);
    }
    /* B gets what A had counted before. */
    ANSWERS(KILNMACE_OK, kilnmace_fire_connector(&second, 1, &number));
    ANSWERS(KILNMACE_OK, kilnmace_state(&second, 0, &marked, &value, 1, &told));
    IS(4, value);
    ANSWERS(KILNMACE_OK, kilnmace_state(&second, 1, &marked, &value, 1, &told));
    IS(3, value);
    ANSWERS(KILNMACE_OK, kilnmace_flush(&first, &number));
    IS(1, number);
    ANSWERS(KILNMACE_OK, kilnmace_close(&first));
    ANSWERS(KILNMACE_OK, kilnmace_flush(&second, &number));
    IS(4, number);
    ANSWERS(KILNMACE_OK, kilnmace_close(&second));
}

enum { ROWS = 100, IN_A_ROW = 8 };

/* A thread with a plant of its own. Both plants are of one text. */
static void *run_rows(void *own) {
    kilnmace_plant *plant = (kilnmace_plant *)own;
    uint64_t number, atoms, base;
    for (uint64_t row = 1; row <= ROWS; row++) {
        fire_first(plant, IN_A_ROW);
        ANSWERS(KILNMACE_OK, kilnmace_flush(plant, &number));
        IS(row * IN_A_ROW, number);
        ANSWERS(KILNMACE_OK, kilnmace_save(plant, &atoms));
        ANSWERS(KILNMACE_OK, kilnmace_trim(plant, &base));
        IS(number + 1, base);
    }
    return NULL;
}

static void check_two_threads(void) {
    kilnmace_plant plants[2] = {KILNMACE_NOTHING, KILNMACE_NOTHING};
    pthread_t threads[2];
    begin(&plants[0], &crossing, &memory, 16);
    begin(&plants[1], &crossing, &other_memory, 16);
    for (int which = 0; which < 2; which++) {
        IS(0, pthread_create(&threads[which], NULL, run_rows, &plants[which]));
    }
    for (int which = 0; which < 2; which++) {
        IS(0, pthread_join(threads[which], NULL));
        ANSWERS(KILNMACE_OK, kilnmace_close(&plants[which]));
    }
}

int main(int count, char **words) {
    if (count != 3) {
        printf("usage: calls CROSSING SAMPLE\n");
        return 2;
    }
    read_texts(words[1], words[2]);
    check_null_pointers();
    check_unfinished_devices();
    check_handles();
    check_kinds();
    check_opening_twice();
    check_moving();
    check_texts();
    check_parts();
    check_no_names();
    check_names();
    check_status_texts();
    check_looks();
    check_events();
    check_full();
    check_several_and_stuck();
    check_two_plants();
    check_two_threads();
    return 0;
}
