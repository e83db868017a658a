/* A controller of a level crossing: a program of one's own over the engine, in C, to begin one's own from. docs/EMBEDDING.md walks through it.
 *
 *     crossing PLANT IMAGE
 *
 * The plant is examples/crossing.plant. A line of the standard input is what a sensor reports, as `approach_north`; the controller itself lowers and raises the barrier, and
 * lets trains in, whenever the plant allows it. Each move goes the same way: it is fired, then acknowledged, and only then its device is told to move, here by a line of the
 * standard output. So no device moves for a move that a stop could take back.
 *
 * The exit status is 0 at the end of the input, 1 if the plant or the image is not what the controller is for, 2 if the words of the command line are not two paths, and 3 if
 * a file, the memory, the input or the output failed, or the plant refused a move.
 */
#define _GNU_SOURCE /* for kilnmace_file.h */
#include "kilnmace.h"
#include "kilnmace_file.h"

#include <inttypes.h>
#include <stdbool.h>
#include <stdio.h>
#include <stdlib.h>
#include <string.h>

enum { NOT_FOR_THIS = 1, USAGE = 2, FAILED = 3 };

/* How many bytes a plant's text has at most, and how many of a line are kept: no name of a connector is as long. */
enum { MOST_BYTES = 1048576, KEPT = 64 };

/* For how many records a new image has room. A plant with fewer is saved more often, and one with more takes a larger file: 1,024 bytes for each. */
enum { RING = 64 };

/* Room is made where the ring has less for new records. */
enum { LEAST_FREE = 8 };

/* ---- what the controller knows of the crossing ---- */

enum { ATOMS = 4, MOST_KNOWN_PLACES = 3, ORDERS = 4 };

/* An atom by its names, in the order of the plant's text. A null pointer stands for no place, or no variable. */
static const struct {
    const char *name;
    const char *places[MOST_KNOWN_PLACES];
    const char *variable;
} KNOWN[ATOMS] = {
    {"North", {"away", "near", "inside"}, "trips"},
    {"South", {"away", "near", "inside"}, "trips"},
    {"Barrier", {"up", "down", NULL}, NULL},
    {"Supervisor", {"calm", "warned", NULL}, NULL},
};

/* The connectors that the controller fires of its own, as soon as the plant allows it, the first one first. */
static const char *const ORDER_NAMES[ORDERS] = {"lower", "enter_north", "enter_south", "raise"};

/* The plant with the file of its image, and by which numbers its text has what the controller knows. */
struct crossing {
    kilnmace_text text;
    kilnmace_file file;
    kilnmace_plant plant;
    struct {
        uint16_t number;
        uint16_t places[MOST_KNOWN_PLACES];
        uint16_t variable;
    } atoms[ATOMS];
    uint16_t orders[ORDERS];
};

/* ---- why the program ends early ----
 *
 * It may end at any line of this file. What was acknowledged is there when it is started again, and what was not was told to no device. */

/* Ends the program, and tells why on the standard error. */
static _Noreturn void end(int exit_status, const char *why) {
    fprintf(stderr, "%s\n", why);
    exit(exit_status);
}

/* Ends the program if a call was refused. */
static void need(const char *what, kilnmace_status status) {
    if (status == KILNMACE_OK) {
        return;
    }
    char text[KILNMACE_MOST_STATUS_TEXT];
    size_t length;
    if (kilnmace_status_text(status, text, sizeof text, &length) == KILNMACE_OK) {
        fprintf(stderr, "%s: %.*s\n", what, (int)length, text);
    } else {
        fprintf(stderr, "%s: status %" PRIu32 "\n", what, status);
    }
    /* Of these statuses the image is to blame, and no device. */
    exit(status >= KILNMACE_IMAGE_NOT_FORMATTED && status <= KILNMACE_IMAGE_NOT_ENABLED ? NOT_FOR_THIS : FAILED);
}

/* ---- the plant's text ---- */

static void read_text(kilnmace_text *text, const char *path) {
    /* One byte more than a text may have, so that a longer one is seen to be too long. */
    static uint8_t bytes[MOST_BYTES + 1];
    FILE *file = fopen(path, "rb");
    if (!file) {
        end(FAILED, "the plant's text can't be opened");
    }
    size_t length = fread(bytes, 1, sizeof bytes, file);
    if (ferror(file)) {
        end(FAILED, "the plant's text can't be read");
    }
    fclose(file);
    kilnmace_detail detail;
    kilnmace_status status = kilnmace_text_read(text, bytes, length, &detail);
    if (status == KILNMACE_NO_PLANT) {
        fprintf(stderr, "plant line %" PRIu64 ": fault %" PRIu64 "\n", detail.first, detail.second);
        exit(NOT_FOR_THIS);
    }
    need("the plant's text", status);
}

/* Ends the program if the text does not have a name that the controller knows. */
static void need_name(kilnmace_status status) {
    if (status == KILNMACE_NO_SUCH) {
        end(NOT_FOR_THIS, "it is no plant of a crossing");
    }
    need("the plant's text", status);
}

/* Names are looked up once. From here on the controller goes by numbers. */
static void find_numbers(struct crossing *crossing) {
    const kilnmace_text *text = &crossing->text;
    for (size_t atom = 0; atom < ATOMS; atom++) {
        const char *name = KNOWN[atom].name, *variable = KNOWN[atom].variable;
        uint16_t *number = &crossing->atoms[atom].number;
        need_name(kilnmace_atom(text, name, strlen(name), number));
        for (size_t place = 0; place < MOST_KNOWN_PLACES && KNOWN[atom].places[place]; place++) {
            name = KNOWN[atom].places[place];
            need_name(kilnmace_place(text, *number, name, strlen(name), &crossing->atoms[atom].places[place]));
        }
        if (variable) {
            need_name(kilnmace_variable(text, *number, variable, strlen(variable), &crossing->atoms[atom].variable));
        }
    }
    for (size_t order = 0; order < ORDERS; order++) {
        need_name(kilnmace_connector(text, ORDER_NAMES[order], strlen(ORDER_NAMES[order]), &crossing->orders[order]));
    }
}

/* ---- the image ---- */

/* Opens the plant where its last acknowledged move left it. Where no file is there, one is made, with the plant in its first state. */
static void open_image(struct crossing *crossing, const char *path) {
    kilnmace_device device = KILNMACE_NO_DEVICE;
    kilnmace_detail detail;
    kilnmace_status status = kilnmace_file_open(&crossing->file, path, &device);
    if (status == KILNMACE_FILE_NOT_THERE) {
        status = kilnmace_file_create(&crossing->file, path, &crossing->text, RING, &device);
    }
    need("the image", status);
    need("the image", kilnmace_open(&crossing->plant, &crossing->text, &device, &detail));
}

/* ---- what is told ---- */

/* What was printed goes out. */
static void hand_on(void) {
    if (fflush(stdout) != 0 || ferror(stdout)) {
        end(FAILED, "the standard output can't be written");
    }
}

static void print_atom(struct crossing *crossing, size_t atom) {
    uint64_t marked;
    int64_t values[KILNMACE_MOST_VARIABLES];
    size_t count;
    need("the plant", kilnmace_state(&crossing->plant, crossing->atoms[atom].number, &marked, values, KILNMACE_MOST_VARIABLES, &count));
    printf("state %s [", KNOWN[atom].name);
    const char *between = "";
    for (size_t place = 0; place < MOST_KNOWN_PLACES && KNOWN[atom].places[place]; place++) {
        if (marked >> crossing->atoms[atom].places[place] & 1) {
            printf("%s%s", between, KNOWN[atom].places[place]);
            between = " ";
        }
    }
    printf("]");
    if (KNOWN[atom].variable) {
        printf(" %s=%" PRId64, KNOWN[atom].variable, values[crossing->atoms[atom].variable]);
    }
    printf("\n");
}

/* Prints where the plant stands, so that each device can be set to what the plant says of it: the last move may be acknowledged, and its device not told. */
static void print_standing(struct crossing *crossing) {
    for (size_t atom = 0; atom < ATOMS; atom++) {
        print_atom(crossing, atom);
    }
    kilnmace_front front;
    need("the plant", kilnmace_front_of(&crossing->plant, &front));
    printf("front %" PRIu64 " %" PRIu64 " %" PRIu64 "\n", front.fired, front.acked, front.base);
    hand_on();
}

/* Tells the device of a connector to move. */
static void tell_device(struct crossing *crossing, uint16_t connector, uint64_t number) {
    char name[KILNMACE_MOST_NAME];
    size_t length;
    need("the plant's text", kilnmace_connector_name(&crossing->text, connector, name, sizeof name, &length));
    printf("%" PRIu64 " %.*s\n", number, (int)length, name);
    hand_on();
}

/* ---- one move ---- */

/* That nothing is new to save, and nothing may go, is no reason to end. */
static void pass(kilnmace_status status) {
    if (status != KILNMACE_NOTHING_NEW) {
        need("the plant", status);
    }
}

/* Saves the atoms that are behind and drops the records that no restart needs, if the ring has room for few records more. */
static void make_room(struct crossing *crossing) {
    kilnmace_front front;
    need("the plant", kilnmace_front_of(&crossing->plant, &front));
    uint64_t kept = front.fired + 1 - front.base, atoms, base;
    if (front.ring - kept < LEAST_FREE) {
        pass(kilnmace_save(&crossing->plant, &atoms));
        pass(kilnmace_trim(&crossing->plant, &base));
    }
}

/* Makes the move of a connector, and says whether the plant had one. */
static bool make_move(struct crossing *crossing, uint16_t connector) {
    uint64_t number;
    kilnmace_status status = kilnmace_fire_connector(&crossing->plant, connector, &number);
    if (status == KILNMACE_NONE) {
        return false;
    }
    need("the plant", status);
    need("the plant", kilnmace_flush(&crossing->plant, &number));
    /* Not before the flush: now no stop takes the move back. */
    tell_device(crossing, connector, number);
    return true;
}

/* ---- what the controller does ---- */

/* Makes the first of the moves that the controller makes of its own, and says whether the plant had one. */
static bool give_first_order(struct crossing *crossing) {
    make_room(crossing);
    for (size_t order = 0; order < ORDERS; order++) {
        if (make_move(crossing, crossing->orders[order])) {
            return true;
        }
    }
    return false;
}

/* Makes the moves that the controller makes of its own, until it has none. */
static void give_orders(struct crossing *crossing) {
    while (give_first_order(crossing)) {
    }
}

/* Makes the move that a sensor reports. One that the plant does not have now is told, and nothing moves: the sensor or the plant is wrong. */
static void take_report(struct crossing *crossing, const char *name, size_t length) {
    uint16_t connector;
    kilnmace_status status = kilnmace_connector(&crossing->text, name, length, &connector);
    if (status != KILNMACE_NO_SUCH) {
        need("the plant's text", status);
        make_room(crossing);
        if (make_move(crossing, connector)) {
            return;
        }
    }
    printf("not possible now: ");
    fwrite(name, 1, length, stdout);
    printf("\n");
    hand_on();
}

/* Reads a line, and keeps of it what has room, without a line feed and a carriage return before it. Says whether there was one. */
static bool read_line(char *line, size_t *length) {
    bool is_there = false;
    int byte = 0;
    *length = 0;
    while (byte != '\n' && (byte = getchar()) != EOF) {
        is_there = true;
        if (*length < KEPT) {
            line[(*length)++] = (char)byte;
        }
    }
    if (ferror(stdin)) {
        end(FAILED, "the standard input can't be read");
    }
    if (*length > 0 && line[*length - 1] == '\n') {
        *length -= *length > 1 && line[*length - 2] == '\r' ? 2 : 1;
    }
    return is_there;
}

/* Controls the crossing by the lines of the input, up to its end. */
static void control(struct crossing *crossing) {
    char line[KEPT];
    size_t length;
    print_standing(crossing);
    /* The run before may have ended before its orders were given. */
    give_orders(crossing);
    while (read_line(line, &length)) {
        take_report(crossing, line, length);
        give_orders(crossing);
    }
}

int main(int count, char **words) {
    static struct crossing crossing = {.text = KILNMACE_NOTHING, .file = KILNMACE_NO_FILE, .plant = KILNMACE_NOTHING};
    if (count != 3) {
        end(USAGE, "usage: crossing PLANT IMAGE");
    }
    read_text(&crossing.text, words[1]);
    find_numbers(&crossing);
    open_image(&crossing, words[2]);
    control(&crossing);
    need("the plant", kilnmace_close(&crossing.plant));
    need("the image", kilnmace_file_close(&crossing.file));
    return 0;
}
