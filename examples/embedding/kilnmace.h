/* The engine of a durable plant, for programs in C and C++.
 *
 * docs/EMBEDDING.md walks through a whole controller, examples/embedding/crossing.c. Link with libkilnmace_c.a and the two archives that the page names.
 *
 * A plant's text is read once into a kilnmace_text, and a plant is opened on its image into a kilnmace_plant. The image is on a device: a file, by kilnmace_file.h, or what
 * you have, by the five fields of a kilnmace_device. The calls of this header ask the device, and nothing else of the system.
 *
 * Texts and plants are variables of yours, begun as KILNMACE_NOTHING, and each call gets their address. A variable that holds nothing is refused (KILNMACE_CLOSED), and so is
 * one with anything else in it (KILNMACE_NO_HANDLE), as far as that can be told apart. You may move a variable, by memcpy too, and use it at its new place alone. Never use
 * both of two copies: after the close of the one the other would lead to memory that is given back.
 *
 * One plant belongs to one thread at a time. Two plants know nothing of one another, and may be called from two threads at once. Several threads may use one text at once.
 * No call starts a thread, ends the program, or jumps out. No call but kilnmace_text_read, kilnmace_format and kilnmace_open takes memory.
 *
 * Each call answers a status, KILNMACE_OK or why not. What it says in a variable of yours it says at KILNMACE_OK alone. There are two exceptions: kilnmace_detail tells more of
 * a refusal, and at KILNMACE_NO_ROOM the count tells how much it takes. A refused call changes nothing, unless the device failed in it. A plant whose device failed
 * (KILNMACE_DISK) refuses each call but kilnmace_close from then on (KILNMACE_BROKEN): close it, have its device make sure of what is on the disk (below; a file is closed and
 * opened again), and open it again. What was acknowledged is there.
 */
#ifndef KILNMACE_H
#define KILNMACE_H

#include <stddef.h>
#include <stdint.h>

#ifdef __cplusplus
extern "C" {
#endif

/* What a call answers. */
typedef uint32_t kilnmace_status;

enum {
    KILNMACE_OK = 0,

    /* The plant refuses an event. */
    KILNMACE_STUCK = 1,       /* no interaction is possible */
    KILNMACE_TAIL_FULL = 3,   /* 64 moves wait for a flush */
    KILNMACE_RING_FULL = 4,   /* the ring has no room for another record: save and trim */
    KILNMACE_SPENT = 5,       /* the record with the greatest number is fired */
    KILNMACE_AHEAD = 7,       /* the state includes firings that are not acknowledged: flush first */
    KILNMACE_NOTHING_NEW = 9, /* there is nothing new to save, or nothing that may go: no fault */
    KILNMACE_DISK = 10,       /* the device failed in this call */
    KILNMACE_BROKEN = 11,     /* the device failed in an earlier call */
    KILNMACE_VALUES = 13,     /* the values are not what the inputs of the connector take */

    /* An image stands for no state of the plant. It is left as it was. */
    KILNMACE_IMAGE_NOT_FORMATTED = 21,
    KILNMACE_IMAGE_OTHER_VERSION = 22,
    KILNMACE_IMAGE_OTHER_PLANT = 23,
    KILNMACE_IMAGE_WRONG_SIZE = 24,  /* also: a device to format has not the size that kilnmace_image_bytes tells, and a device has more bytes than any image */
    KILNMACE_IMAGE_DAMAGED = 25,     /* detail.first: the cell */
    KILNMACE_IMAGE_GAP = 26,         /* detail.first: the atom */
    KILNMACE_IMAGE_NOT_ENABLED = 27, /* detail.first: the record; detail.second: the atom */
    KILNMACE_IMAGE_DISK = 28,        /* the device failed while it was formatted, or while a plant was opened on it */

    /* A file is not opened or made: kilnmace_file.h. */
    KILNMACE_FILE_ALREADY_THERE = 42,
    KILNMACE_FILE_NOT_THERE = 43,    /* there is no such file, or no such folder */
    KILNMACE_FILE_NOT_ALLOWED = 44,  /* there is no right to read and to write it */
    KILNMACE_FILE_NOT_A_FILE = 45,   /* it is a folder, a pipe or a device of the system */
    KILNMACE_FILE_UNOPENED = 46,     /* the system did not open it for another reason */
    KILNMACE_FILE_IN_USE = 48,       /* another program has it open, or this one */
    KILNMACE_FILE_UNLOCKED = 49,     /* it could not be locked: its file system may have no locks */
    KILNMACE_FILE_UNMADE = 50,       /* it could not be filled, or be given its name: the disk may be full */
    KILNMACE_FILE_UNSYNCED = 51,     /* what it holds could not be put onto the disk anew */

    /* A call is mistaken. */
    KILNMACE_NULL = 61,         /* a pointer is null */
    KILNMACE_CLOSED = 62,       /* the variable holds no plant, no text or no file */
    KILNMACE_NO_HANDLE = 63,    /* the variable holds something else: a text where a plant is meant, or it was not begun as KILNMACE_NOTHING */
    KILNMACE_ALREADY_OPEN = 64, /* the variable holds a plant, a text or a file already */
    KILNMACE_NO_PLANT = 65,     /* the text is no plant: detail.first is its line, detail.second the number of the fault (docs/PLANT_TEXT.md) */
    KILNMACE_NO_SUCH = 66,      /* there is no such atom, connector, place, variable, choice or status */
    KILNMACE_SEVERAL = 67,      /* the connector has several choices now: fire one by its number */
    KILNMACE_NONE = 68,         /* the connector has no choice now */
    KILNMACE_NO_ROOM = 69,      /* what is to be told does not fit the room: it is told how much it takes */
    KILNMACE_BAD_RING = 70,     /* a ring has 8 to 4,096 records */
    KILNMACE_MEMORY = 71        /* there is not enough memory */
};

/* More of a refusal: what its status says. Both are 0 where it says nothing of them. */
typedef struct {
    uint64_t first;
    uint64_t second;
} kilnmace_detail;

/* A device with an image: a file (kilnmace_file.h), or what you have. A program moves to another device by these five fields alone.
 *
 * Each function gets `of`, and answers 0 if it did all that was asked, else another number. A range begins `at` this byte, has 1 to 1,024 bytes, and ends within `bytes`. A
 * function may not jump out, and may make no call with the plant that called it.
 *
 * The promises of the engine hold for a device of which this is so:
 *
 * - A read gives each byte as it was written last.
 * - A sync that succeeds has put everything that was written before it onto the disk. A system such as Linux can't promise that once a sync failed: it forgets what it could not
 *   write, later syncs succeed without it, and a read still gives it. Over such a system have your device refuse everything after a failed sync, also in the next program. To
 *   make sure of what is on the disk, write all of it anew as it is read, and sync that, before a plant is opened on it: kilnmace_file_open does so.
 * - A write changes no byte outside its range, and inside it no byte that has already the value that is written. Both hold even if the write fails or a stop cuts it. Each
 *   other byte of the range may then be left as anything.
 * - Nothing else writes to it while it is formatted, and while a plant is open on it. */
typedef struct {
    void *of;       /* what its functions get: yours, and null if you like */
    uint64_t bytes; /* how many bytes it has */
    int (*read)(void *of, uint64_t at, uint8_t *into, size_t length);
    int (*write)(void *of, uint64_t at, const uint8_t *from, size_t length);
    int (*sync)(void *of); /* puts all that was written onto the disk */
} kilnmace_device;

/* What a device begins as that is filled in later, as by kilnmace_file_open. It is refused (KILNMACE_NULL) until its functions are there. */
#define KILNMACE_NO_DEVICE { NULL, 0, NULL, NULL, NULL }

/* What a variable holds. The fields are the library's. */
typedef struct {
    void *at;
    uint64_t mark;
} kilnmace_held;

/* A plant's text that was read. It stays until the program ends, and many plants may be opened by it. */
typedef struct {
    kilnmace_held held;
} kilnmace_text;

/* A durable plant, open on its image. It has a copy of the five fields of its device. */
typedef struct {
    kilnmace_held held;
    kilnmace_device device;
} kilnmace_plant;

/* What a text and a plant begin as. */
#ifdef __cplusplus
#define KILNMACE_NOTHING { }
#else
#define KILNMACE_NOTHING { .held = { NULL, 0 } }
#endif

/* How many atoms and connectors a text has. Their numbers count from 0, in the order of the text. */
typedef struct {
    uint16_t atoms;      /* 1 to 64 */
    uint16_t connectors; /* 0 to 64 */
} kilnmace_parts;

/* How many places and variables an atom has. Their numbers count from 0, in the order of the text. */
typedef struct {
    uint16_t places;    /* 0 to 64 */
    uint16_t variables; /* 0 to 16 */
} kilnmace_atom_parts;

/* How far a plant is. */
typedef struct {
    uint64_t fired; /* the number of the last move that was fired, 0 if none was */
    uint64_t acked; /* the number of the last move that is acknowledged */
    uint64_t base;  /* the number of the first record that is kept, or of the next */
    uint32_t ring;  /* for how many records the image has room */
} kilnmace_front;

/* A participant of a choice: an atom, and which of its transitions it makes. Both count from 0, as in the text. */
typedef struct {
    uint16_t atom;
    uint16_t transition;
} kilnmace_move;

/* A choice has 16 participants at most, an atom 64 places and 16 variables. A name has 32 bytes at most, and what a status means 80. */
enum { KILNMACE_MOST_MOVES = 16, KILNMACE_MOST_PLACES = 64, KILNMACE_MOST_VARIABLES = 16, KILNMACE_MOST_NAME = 32, KILNMACE_MOST_STATUS_TEXT = 80 };

/* What is to be done to a device next. */
typedef struct {
    uint64_t at;     /* of a write: the first byte of its range */
    uint32_t length; /* of a write: how many bytes it has */
    uint32_t kind;
} kilnmace_step;

enum { KILNMACE_STEP_NONE = 0, KILNMACE_STEP_WRITE = 1, KILNMACE_STEP_SYNC = 2, KILNMACE_MOST_STEP = 1024 };

/* ---- the library's own calls ----
 *
 * What the calls below call once they have seen that no pointer is null. A pointer to bytes may be null if there are none of them. Each of these has the comment of the one
 * below with its name. Programs in languages whose references are never null may call these, as examples/embedding/crossing.rs does.
 *
 * A call that only looks at a text has it in its hands until it answers, and leaves it as it was: so give each the address of a copy of what the variable holds, as the calls
 * below do. Then several threads may use one text at a time.
 *
 * The library asks no device. It holds the bytes of the image, and a call that is to change the image changes them, and queues what is to be done to the device, step by
 * step. Whoever made the call takes each step and performs it, before anything else is asked of the plant. If that fails, it says so by kilnmace_raw_fail. */

kilnmace_status kilnmace_raw_text_read(kilnmace_held *text, const uint8_t *bytes, size_t length, kilnmace_detail *detail);
kilnmace_status kilnmace_raw_parts(kilnmace_held *text, kilnmace_parts *parts);
kilnmace_status kilnmace_raw_atom_parts(kilnmace_held *text, uint16_t atom, kilnmace_atom_parts *parts);
kilnmace_status kilnmace_raw_atom(kilnmace_held *text, const char *name, size_t length, uint16_t *atom);
kilnmace_status kilnmace_raw_connector(kilnmace_held *text, const char *name, size_t length, uint16_t *connector);
kilnmace_status kilnmace_raw_place(kilnmace_held *text, uint16_t atom, const char *name, size_t length, uint16_t *place);
kilnmace_status kilnmace_raw_variable(kilnmace_held *text, uint16_t atom, const char *name, size_t length, uint16_t *variable);
kilnmace_status kilnmace_raw_atom_name(kilnmace_held *text, uint16_t atom, char *name, size_t room, size_t *length);
kilnmace_status kilnmace_raw_connector_name(kilnmace_held *text, uint16_t connector, char *name, size_t room, size_t *length);
kilnmace_status kilnmace_raw_place_name(kilnmace_held *text, uint16_t atom, uint16_t place, char *name, size_t room, size_t *length);
kilnmace_status kilnmace_raw_variable_name(kilnmace_held *text, uint16_t atom, uint16_t variable, char *name, size_t room, size_t *length);

kilnmace_status kilnmace_raw_image_bytes(kilnmace_held *text, uint32_t ring, uint64_t *bytes);
/* The variable holds an image from now on, of so many zeros. Refused: ALREADY_OPEN, IMAGE_WRONG_SIZE if no image has so many bytes, MEMORY. */
kilnmace_status kilnmace_raw_image(kilnmace_held *plant, uint64_t bytes);
/* Says what the device holds from this place on. Refused: NO_SUCH if that goes past the end of the image, ALREADY_OPEN if a plant is booted on it. */
kilnmace_status kilnmace_raw_fill(kilnmace_held *plant, uint64_t at, const uint8_t *bytes, size_t length);
/* Formats the image that the variable holds, or boots the plant on it. Refused: ALREADY_OPEN if a plant is booted on it. An image that stands for no state of the plant is
 * dropped, and the variable holds nothing then. */
kilnmace_status kilnmace_raw_format(kilnmace_held *plant, kilnmace_held *text, uint32_t ring);
kilnmace_status kilnmace_raw_boot(kilnmace_held *plant, kilnmace_held *text, kilnmace_detail *detail);
/* Takes the next step of the queue, and copies the bytes of a write. Refused: NO_ROOM if there is room for fewer bytes than it has; then the step is not taken. */
kilnmace_status kilnmace_raw_step(kilnmace_held *plant, kilnmace_step *step, uint8_t *bytes, size_t room);
/* Says that the device failed. What is held is given back, and each later call is refused (BROKEN) but kilnmace_raw_close. */
kilnmace_status kilnmace_raw_fail(kilnmace_held *plant);
kilnmace_status kilnmace_raw_close(kilnmace_held *plant);

kilnmace_status kilnmace_raw_front_of(kilnmace_held *plant, kilnmace_front *front);
kilnmace_status kilnmace_raw_count(kilnmace_held *plant, uint64_t *count);
kilnmace_status kilnmace_raw_choice(kilnmace_held *plant, uint64_t number, uint16_t *connector, kilnmace_move *moves, size_t room, size_t *count);
kilnmace_status kilnmace_raw_state(kilnmace_held *plant, uint16_t atom, uint64_t *marked, int64_t *values, size_t room, size_t *count);
kilnmace_status kilnmace_raw_fire(kilnmace_held *plant, uint64_t number, uint64_t *fired);
kilnmace_status kilnmace_raw_fire_connector(kilnmace_held *plant, uint16_t connector, uint64_t *fired);
kilnmace_status kilnmace_raw_flush(kilnmace_held *plant, uint64_t *acked);
kilnmace_status kilnmace_raw_save(kilnmace_held *plant, uint64_t *atoms);
kilnmace_status kilnmace_raw_put(kilnmace_held *plant, uint16_t atom);
kilnmace_status kilnmace_raw_trim(kilnmace_held *plant, uint64_t *base);
kilnmace_status kilnmace_raw_status_text(kilnmace_status status, char *text, size_t room, size_t *length);

/* ---- what the calls below do to a device ---- */

/* Whether it is there, with its functions. */
static inline int kilnmace_is_device(const kilnmace_device *device) {
    return device && device->read && device->write && device->sync;
}

/* Performs a step, whose bytes these are. Answers 0 if that was done. */
static inline int kilnmace_perform_step(const kilnmace_device *device, const kilnmace_step *step, const uint8_t *bytes) {
    if (step->kind == KILNMACE_STEP_WRITE) {
        return device->write(device->of, step->at, bytes, step->length);
    }
    return device->sync(device->of);
}

/* Performs all steps that are queued, in their order, up to the first that fails. Answers 0 if all are done. */
static inline int kilnmace_perform(kilnmace_held *plant, const kilnmace_device *device) {
    uint8_t bytes[KILNMACE_MOST_STEP];
    kilnmace_step step;
    while (kilnmace_raw_step(plant, &step, bytes, sizeof bytes) == KILNMACE_OK) {
        if (step.kind == KILNMACE_STEP_NONE) {
            return 0;
        }
        if (kilnmace_perform_step(device, &step, bytes) != 0) {
            return -1;
        }
    }
    return -1;
}

/* Performs what an event queued that was answered so, and gives the answer of the whole. The plant of a device that fails is broken. */
static inline kilnmace_status kilnmace_perform_event(kilnmace_plant *plant, kilnmace_status status) {
    if (status == KILNMACE_OK && kilnmace_perform(&plant->held, &plant->device) != 0) {
        kilnmace_raw_fail(&plant->held);
        return KILNMACE_DISK;
    }
    return status;
}

/* Reads the whole device into the image that the variable holds. */
static inline kilnmace_status kilnmace_load(kilnmace_held *plant, const kilnmace_device *device) {
    uint8_t bytes[KILNMACE_MOST_STEP];
    kilnmace_status status = KILNMACE_OK;
    for (uint64_t at = 0; at < device->bytes && status == KILNMACE_OK; at += sizeof bytes) {
        uint64_t left = device->bytes - at;
        size_t length = left < sizeof bytes ? (size_t)left : sizeof bytes;
        if (device->read(device->of, at, bytes, length) != 0) {
            return KILNMACE_IMAGE_DISK;
        }
        status = kilnmace_raw_fill(plant, at, bytes, length);
    }
    return status;
}

/* ---- texts ---- */

/* Reads a plant's text of 1,048,576 bytes at most into a variable that holds none. The bytes need not stay. Refused: NO_PLANT, ALREADY_OPEN, MEMORY. */
static inline kilnmace_status kilnmace_text_read(kilnmace_text *text, const uint8_t *bytes, size_t length, kilnmace_detail *detail) {
    if (!text || (!bytes && length) || !detail) {
        return KILNMACE_NULL;
    }
    return kilnmace_raw_text_read(&text->held, bytes, length, detail);
}

/* How many atoms and connectors the text has. */
static inline kilnmace_status kilnmace_parts_of(const kilnmace_text *text, kilnmace_parts *parts) {
    if (!text || !parts) {
        return KILNMACE_NULL;
    }
    kilnmace_held copy = text->held;
    return kilnmace_raw_parts(&copy, parts);
}

/* How many places and variables the atom has. Refused: NO_SUCH. */
static inline kilnmace_status kilnmace_atom_parts_of(const kilnmace_text *text, uint16_t atom, kilnmace_atom_parts *parts) {
    if (!text || !parts) {
        return KILNMACE_NULL;
    }
    kilnmace_held copy = text->held;
    return kilnmace_raw_atom_parts(&copy, atom, parts);
}

/* The number of an atom or connector with this name, from 0, in the order of the text. The name ends with no zero. Refused: NO_SUCH. */
static inline kilnmace_status kilnmace_atom(const kilnmace_text *text, const char *name, size_t length, uint16_t *atom) {
    if (!text || (!name && length) || !atom) {
        return KILNMACE_NULL;
    }
    kilnmace_held copy = text->held;
    return kilnmace_raw_atom(&copy, name, length, atom);
}
static inline kilnmace_status kilnmace_connector(const kilnmace_text *text, const char *name, size_t length, uint16_t *connector) {
    if (!text || (!name && length) || !connector) {
        return KILNMACE_NULL;
    }
    kilnmace_held copy = text->held;
    return kilnmace_raw_connector(&copy, name, length, connector);
}

/* The number of a place or variable of the atom with this name, from 0. Refused: NO_SUCH. */
static inline kilnmace_status kilnmace_place(const kilnmace_text *text, uint16_t atom, const char *name, size_t length, uint16_t *place) {
    if (!text || (!name && length) || !place) {
        return KILNMACE_NULL;
    }
    kilnmace_held copy = text->held;
    return kilnmace_raw_place(&copy, atom, name, length, place);
}
static inline kilnmace_status kilnmace_variable(const kilnmace_text *text, uint16_t atom, const char *name, size_t length, uint16_t *variable) {
    if (!text || (!name && length) || !variable) {
        return KILNMACE_NULL;
    }
    kilnmace_held copy = text->held;
    return kilnmace_raw_variable(&copy, atom, name, length, variable);
}

/* The name of an atom or connector, without a zero behind it: KILNMACE_MOST_NAME bytes at most. Refused: NO_SUCH, NO_ROOM. */
static inline kilnmace_status kilnmace_atom_name(const kilnmace_text *text, uint16_t atom, char *name, size_t room, size_t *length) {
    if (!text || (!name && room) || !length) {
        return KILNMACE_NULL;
    }
    kilnmace_held copy = text->held;
    return kilnmace_raw_atom_name(&copy, atom, name, room, length);
}
static inline kilnmace_status kilnmace_connector_name(const kilnmace_text *text, uint16_t connector, char *name, size_t room, size_t *length) {
    if (!text || (!name && room) || !length) {
        return KILNMACE_NULL;
    }
    kilnmace_held copy = text->held;
    return kilnmace_raw_connector_name(&copy, connector, name, room, length);
}

/* The name of a place or variable of the atom, in the same way. Refused: NO_SUCH, NO_ROOM. */
static inline kilnmace_status kilnmace_place_name(const kilnmace_text *text, uint16_t atom, uint16_t place, char *name, size_t room, size_t *length) {
    if (!text || (!name && room) || !length) {
        return KILNMACE_NULL;
    }
    kilnmace_held copy = text->held;
    return kilnmace_raw_place_name(&copy, atom, place, name, room, length);
}
static inline kilnmace_status kilnmace_variable_name(const kilnmace_text *text, uint16_t atom, uint16_t variable, char *name, size_t room, size_t *length) {
    if (!text || (!name && room) || !length) {
        return KILNMACE_NULL;
    }
    kilnmace_held copy = text->held;
    return kilnmace_raw_variable_name(&copy, atom, variable, name, room, length);
}

/* ---- images ---- */

/* How many bytes an image of the plant has with a ring of so many records, 8 to 4,096: 4,328,448 at most. Refused: BAD_RING. */
static inline kilnmace_status kilnmace_image_bytes(const kilnmace_text *text, uint32_t ring, uint64_t *bytes) {
    if (!text || !bytes) {
        return KILNMACE_NULL;
    }
    kilnmace_held copy = text->held;
    return kilnmace_raw_image_bytes(&copy, ring, bytes);
}

/* Formats a device that has exactly the size for a ring of so many records: the plant is in its first state, and whatever the device held is gone. A stop or a fault of the
 * device inside of the call leaves what it held, or an image that is not formatted, or the new one: so it may be formatted again. The call makes six syncs, and two for each
 * atom. While it runs it takes memory, somewhat more than the image has bytes. Refused: BAD_RING, IMAGE_WRONG_SIZE, IMAGE_DISK, MEMORY. */
static inline kilnmace_status kilnmace_format(const kilnmace_text *text, const kilnmace_device *device, uint32_t ring) {
    if (!text || !kilnmace_is_device(device)) {
        return KILNMACE_NULL;
    }
    kilnmace_held copy = text->held, image = { NULL, 0 };
    kilnmace_status status = kilnmace_raw_image(&image, device->bytes);
    if (status == KILNMACE_OK) {
        status = kilnmace_load(&image, device);
    }
    if (status == KILNMACE_OK) {
        status = kilnmace_raw_format(&image, &copy, ring);
    }
    if (status == KILNMACE_OK && kilnmace_perform(&image, device) != 0) {
        status = KILNMACE_IMAGE_DISK;
    }
    /* It holds nothing if it never held the image. */
    kilnmace_raw_close(&image);
    return status;
}

/* Opens a plant on its image, in a variable that holds none: it stands where the last acknowledged move left it, after whatever stop. The plant keeps a copy of the five
 * fields, so `device` need not stay; what `of` leads to is yours, and stays until the close. Until then the plant holds memory, somewhat more than the image has bytes. The call
 * makes two syncs. If the device fails, the image stands for what it stood for before. Refused: IMAGE_.., ALREADY_OPEN, MEMORY; then the variable holds what it held. */
static inline kilnmace_status kilnmace_open(kilnmace_plant *plant, const kilnmace_text *text, const kilnmace_device *device, kilnmace_detail *detail) {
    if (!plant || !text || !kilnmace_is_device(device) || !detail) {
        return KILNMACE_NULL;
    }
    detail->first = detail->second = 0;
    kilnmace_held copy = text->held;
    kilnmace_status status = kilnmace_raw_image(&plant->held, device->bytes);
    if (status != KILNMACE_OK) {
        return status;
    }
    status = kilnmace_load(&plant->held, device);
    if (status == KILNMACE_OK) {
        status = kilnmace_raw_boot(&plant->held, &copy, detail);
    }
    if (status == KILNMACE_OK && kilnmace_perform(&plant->held, device) != 0) {
        status = KILNMACE_IMAGE_DISK;
    }
    if (status != KILNMACE_OK) {
        /* It holds nothing if the image was refused. */
        kilnmace_raw_close(&plant->held);
        return status;
    }
    plant->device = *device;
    return KILNMACE_OK;
}

/* Closes the plant, and gives back its memory. What was fired and not acknowledged is lost, as by a stop. The device is not asked: it is yours, to be closed or used again.
 * Refused: CLOSED. */
static inline kilnmace_status kilnmace_close(kilnmace_plant *plant) {
    if (!plant) {
        return KILNMACE_NULL;
    }
    return kilnmace_raw_close(&plant->held);
}

/* ---- looks: no call of the device. Refused: BROKEN ---- */

/* How far the plant is. */
static inline kilnmace_status kilnmace_front_of(kilnmace_plant *plant, kilnmace_front *front) {
    if (!plant || !front) {
        return KILNMACE_NULL;
    }
    return kilnmace_raw_front_of(&plant->held, front);
}

/* How many choices the present state has; 2^64 - 1 stands for as many or more. */
static inline kilnmace_status kilnmace_count(kilnmace_plant *plant, uint64_t *count) {
    if (!plant || !count) {
        return KILNMACE_NULL;
    }
    return kilnmace_raw_count(&plant->held, count);
}

/* The choice with the number, from 0: its connector and its participants, of which it tells how many. Refused: NO_SUCH; NO_ROOM if there is room for fewer. */
static inline kilnmace_status kilnmace_choice(kilnmace_plant *plant, uint64_t number, uint16_t *connector, kilnmace_move *moves, size_t room, size_t *count) {
    if (!plant || !connector || (!moves && room) || !count) {
        return KILNMACE_NULL;
    }
    return kilnmace_raw_choice(&plant->held, number, connector, moves, room, count);
}

/* The present state of an atom: bit p of `marked` for place p, and the values of its variables, of which it tells how many. Refused: NO_SUCH; NO_ROOM. */
static inline kilnmace_status kilnmace_state(kilnmace_plant *plant, uint16_t atom, uint64_t *marked, int64_t *values, size_t room, size_t *count) {
    if (!plant || !marked || (!values && room) || !count) {
        return KILNMACE_NULL;
    }
    return kilnmace_raw_state(&plant->held, atom, marked, values, room, count);
}

/* ---- events ---- */

/* Fires the choice with the number, and tells the number of the move, from 1 on. Nothing is written yet, and the device is not asked. Refused: STUCK if the plant has no choice
 * at all, NO_SUCH if it has fewer, TAIL_FULL, RING_FULL, SPENT, BROKEN. */
static inline kilnmace_status kilnmace_fire(kilnmace_plant *plant, uint64_t number, uint64_t *fired) {
    if (!plant || !fired) {
        return KILNMACE_NULL;
    }
    return kilnmace_raw_fire(&plant->held, number, fired);
}

/* Fires the only choice of a connector, in the same way. Refused: NO_SUCH if the plant has no such connector, NONE if the connector has no choice now, also where no other one
 * has one, SEVERAL, TAIL_FULL, RING_FULL, SPENT, BROKEN. */
static inline kilnmace_status kilnmace_fire_connector(kilnmace_plant *plant, uint16_t connector, uint64_t *fired) {
    if (!plant || !fired) {
        return KILNMACE_NULL;
    }
    return kilnmace_raw_fire_connector(&plant->held, connector, fired);
}

/* Acknowledges all that was fired, by two syncs, and tells the number of the last. Now no stop takes it back: act. If nothing was fired since the last flush, the device is not
 * asked. Refused: DISK, BROKEN. */
static inline kilnmace_status kilnmace_flush(kilnmace_plant *plant, uint64_t *acked) {
    if (!plant || !acked) {
        return KILNMACE_NULL;
    }
    uint64_t number = 0;
    kilnmace_status status = kilnmace_perform_event(plant, kilnmace_raw_flush(&plant->held, &number));
    if (status == KILNMACE_OK) {
        *acked = number;
    }
    return status;
}

/* Stores the acknowledged state of each atom that is behind, by three syncs at most, and tells of which: bit n for atom n. Refused: NOTHING_NEW, DISK, BROKEN. */
static inline kilnmace_status kilnmace_save(kilnmace_plant *plant, uint64_t *atoms) {
    if (!plant || !atoms) {
        return KILNMACE_NULL;
    }
    uint64_t stored = 0;
    kilnmace_status status = kilnmace_perform_event(plant, kilnmace_raw_save(&plant->held, &stored));
    if (status == KILNMACE_OK) {
        *atoms = stored;
    }
    return status;
}

/* Copies the present state of one atom and stores it, by three syncs at most. Refused: NO_SUCH, AHEAD if a firing of it is not acknowledged, NOTHING_NEW, DISK, BROKEN. */
static inline kilnmace_status kilnmace_put(kilnmace_plant *plant, uint16_t atom) {
    if (!plant) {
        return KILNMACE_NULL;
    }
    return kilnmace_perform_event(plant, kilnmace_raw_put(&plant->held, atom));
}

/* Drops the records that no restart needs, by four syncs at most, and tells the number of the first that is kept. Refused: NOTHING_NEW, DISK, BROKEN. */
static inline kilnmace_status kilnmace_trim(kilnmace_plant *plant, uint64_t *base) {
    if (!plant || !base) {
        return KILNMACE_NULL;
    }
    uint64_t number = 0;
    kilnmace_status status = kilnmace_perform_event(plant, kilnmace_raw_trim(&plant->held, &number));
    if (status == KILNMACE_OK) {
        *base = number;
    }
    return status;
}

/* ---- statuses ---- */

/* What a status means, in English, without a zero behind it: KILNMACE_MOST_STATUS_TEXT bytes at most. Refused: NO_SUCH, NO_ROOM. */
static inline kilnmace_status kilnmace_status_text(kilnmace_status status, char *text, size_t room, size_t *length) {
    if ((!text && room) || !length) {
        return KILNMACE_NULL;
    }
    return kilnmace_raw_status_text(status, text, room, length);
}

#ifdef __cplusplus
}
#endif

#endif
