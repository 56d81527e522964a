/* h5i.h - HDF5 files of whole-number arrays, by the proved library of this repository.
 *
 * A session is a file in memory, with the views that are open on it. Files of the system stay with you: you hand the bytes of an
 * image in (h5i_open), and take the bytes of one out (h5i_image).
 *
 *     h5i_session s = {0};
 *     uint64_t at;
 *     if (h5i_open(&s, bytes, length, &at) == LIBH5I_DONE) { ... }
 *     h5i_close(&s);
 *
 * Rules of the whole header; no call has another condition:
 *
 * - A session stands in memory of yours, of which all zeros are a closed session. Pass it by its address, and neither copy nor change it
 *   while it is open. Moving it by a copy is fine, if the old place is not used again.
 * - A session stays on the thread that made it, and one call at a time works on it.
 * - A pointer with a length leads to so many items, and is not null, even to no items. What a call writes overlaps nothing else that
 *   it gets.
 * - Paths, names and texts are bytes with a length, without a zero at the end. A path begins with '/'.
 * - malloc, realloc and free are of one allocator, of the usual kind.
 *
 * A call that answers h5i_status answers LIBH5I_DONE, or why it is refused. What is refused has changed nothing, if the call does not say
 * otherwise. Each call may answer LIBH5I_WRONG_STATE where the session is closed (h5i_create, h5i_open: where it is open), and LIBH5I_NO_MEMORY
 * where memory is refused. Where several rules refuse an edit, a path or a selection, the one with the lowest number is answered.
 */
#ifndef LIBH5I_H_
#define LIBH5I_H_

#include <stdbool.h>
#include <stddef.h>
#include <stdint.h>

#ifdef __cplusplus
extern "C" {
#endif

/* A session. All zeros are a closed one. */
typedef struct h5i_session {
    bool is_open;
    void *at;
} h5i_session;

/* What a call answers. */
typedef uint32_t h5i_status;

enum {
    LIBH5I_DONE = 0,
    /* Refusals of edits, paths and selections. None has number 11. */
    LIBH5I_BAD_PATH = 1,             /* A path does not begin with '/', or has an empty name; or a soft link's text is empty or has a zero byte. */
    LIBH5I_PATH_TOO_DEEP = 2,        /* A path has more than 64 names. */
    LIBH5I_IS_ROOT = 3,              /* A link is to be made at, or taken from, '/'. */
    LIBH5I_NO_SUCH_PARENT = 4,       /* A name before the last is missing. */
    LIBH5I_NOT_A_GROUP = 5,          /* A name before the last is no group, or no group is to be listed. */
    LIBH5I_NOT_FOUND = 6,            /* The last name is missing, or is a soft link where an object is needed. */
    LIBH5I_ALREADY_THERE = 7,        /* The new link's name stands already. */
    LIBH5I_NAME_TOO_LONG = 8,        /* A new name or text has more than 1023 bytes. */
    LIBH5I_NOT_A_DATASET = 9,        /* A group or a soft link stands where an array is needed. */
    LIBH5I_GROUP_LINK = 10,          /* A hard link's target is a group. */
    LIBH5I_BAD_SPEC = 12,            /* Sizes, maxima, chunk sizes or an attribute's name are not of their form. */
    LIBH5I_RANK_MISMATCH = 13,       /* A list has not one number for each dimension. */
    LIBH5I_STRIDE_ZERO = 14,         /* A stride is 0. */
    LIBH5I_BLOCKS_OVERLAP = 15,      /* A stride is below its block, and there is more than one block. */
    LIBH5I_OUT_OF_EXTENT = 16,       /* A selected cell is outside the sizes. */
    LIBH5I_NOT_CHUNKED = 17,         /* Only an array in chunks can be resized. */
    LIBH5I_ABOVE_MAXIMUM = 18,       /* A size is above its maximum. */
    LIBH5I_CHUNK_TOO_LARGE = 19,     /* A chunk has more than 1073741824 bytes. */
    LIBH5I_COMPACT_TOO_LARGE = 20,   /* Compact cells have more than 65524 bytes. */
    LIBH5I_TOO_MANY_CELLS = 21,      /* The product of the sizes other than 0 is above 2^40. */
    LIBH5I_VALUE_COUNT = 22,         /* There is not one value for each cell. */
    LIBH5I_VALUE_RANGE = 23,         /* A value, or the fill, is not of the type. */
    LIBH5I_ATTRIBUTE_TOO_LARGE = 24, /* The message of the attribute would have more than 65528 bytes. */
    LIBH5I_NO_SUCH_ATTRIBUTE = 25,   /* No attribute has the name. */
    LIBH5I_TOO_MANY_LINKS = 26,      /* 65535 hard links lead to the array. */
    LIBH5I_TOO_MANY_OBJECTS = 27,    /* No number of an object is left. */
    LIBH5I_HEADER_FULL = 28,         /* The header has as many messages as it can. */
    LIBH5I_TREE_TOO_DEEP = 29,       /* A group's tree would have more than 16 levels. */
    LIBH5I_IMAGE_FULL = 30,          /* The image would have more than 2147483648 bytes. */
    LIBH5I_NO_MEMORY = 31,           /* Memory was refused. */
    /* Refusals of calls. */
    LIBH5I_WRONG_STATE = 100,        /* The session is closed; or it is open where it should be closed. */
    LIBH5I_WRONG_ROOM = 101,         /* The buffer has another length; or bytes are no whole number of values. */
    LIBH5I_NO_SUCH_TYPE = 102,       /* There is no type of this size, or no such storage. */
    LIBH5I_SCRIPT_TOO_LONG = 103,    /* A script has more than 16777216 bytes. */
    LIBH5I_NOT_A_SOFT_LINK = 104,    /* A group or an array stands where a soft link is needed. */
    /* Faults of views. */
    LIBH5I_NO_SUCH_VIEW = 201,       /* No open view has the number. */
    LIBH5I_GONE = 202,               /* The view's array was deleted. */
    LIBH5I_OUTSIDE_NOW = 203,        /* A selected cell is outside the sizes for now. */
    LIBH5I_TOO_MANY_VIEWS = 204,     /* 1024 views are open, or the numbers are used up. */
    /* From here on: LIBH5I_CAUSE and the number of the rule of docs/FORMAT.md that bytes break (h5i_open). */
    LIBH5I_CAUSE = 300
};

/* A type of whole numbers. One byte has no order: is_big does not matter then. */
typedef struct h5i_type {
    uint8_t size; /* bytes of a value: 1, 2, 4 or 8 */
    bool is_signed;
    bool is_big; /* the high byte stands first */
} h5i_type;

enum { LIBH5I_GROUP = 1, LIBH5I_ARRAY = 2, LIBH5I_SOFT_LINK = 3 };

enum { LIBH5I_COMPACT = 1, LIBH5I_CONTIGUOUS = 2, LIBH5I_CHUNKED = 3 };

/* The maximum of a size that has none. */
#define LIBH5I_UNLIMITED UINT64_MAX

/* What stands at a path. Of a group or a soft link only `kind` is told; of an attribute only type, rank and dims. */
typedef struct h5i_about {
    uint32_t kind;        /* LIBH5I_GROUP, LIBH5I_ARRAY, LIBH5I_SOFT_LINK */
    uint32_t storage;     /* LIBH5I_COMPACT, LIBH5I_CONTIGUOUS, LIBH5I_CHUNKED */
    uint32_t rank;        /* how many dimensions */
    h5i_type type;        /* of a cell */
    uint8_t fill[8];      /* the first bytes are the fill, a value of the type */
    uint64_t dims[32];    /* the first `rank`, in cells; the dimension that runs slowest first */
    uint64_t maxima[32];  /* LIBH5I_UNLIMITED where there is none */
    uint64_t chunks[32];  /* of LIBH5I_CHUNKED: the sizes of a chunk, in cells */
} h5i_about;

/* A list with its length. */
#define LIBH5I_BYTES(name) const uint8_t *name, size_t name##_length
#define LIBH5I_LIST(name) const uint64_t *name, size_t name##_length
/* A selection (H5Sselect_hyperslab): in each dimension `count` blocks of `block` cells, `stride` apart, from `start` on. */
#define LIBH5I_SLAB LIBH5I_LIST(start), LIBH5I_LIST(stride), LIBH5I_LIST(count), LIBH5I_LIST(block)

/* ---- a session's life */

/* Makes a session of the empty file, in a closed session. */
h5i_status h5i_create(h5i_session *session);

/* Makes a session of the file that these bytes are, up to their end of file address, in a closed session. The bytes are copied.
 * LIBH5I_CAUSE and a number: the bytes break this rule of docs/FORMAT.md at the address that is written to `place`. */
h5i_status h5i_open(h5i_session *session, LIBH5I_BYTES(bytes), uint64_t *place);

/* Gives the session and its memory up. A closed session stays closed. */
void h5i_close(h5i_session *session);

/* How many bytes the image has; 0 of a closed session. */
size_t h5i_image_length(h5i_session *session);

/* Copies the bytes of the image to `room`, which has just h5i_image_length bytes; else LIBH5I_WRONG_ROOM. */
h5i_status h5i_image(h5i_session *session, uint8_t *room, size_t room_length);

/* ---- scripts, and the session's text */

/* Runs the lines of a script (docs/SCRIPT.md). The session's text is then what they answered. A line that is refused changes nothing, and
 * the next one is run. LIBH5I_SCRIPT_TOO_LONG, LIBH5I_NO_MEMORY: the first lines were run. */
h5i_status h5i_run(h5i_session *session, LIBH5I_BYTES(script));

/* How many bytes the session's text has; 0 of a closed session. */
size_t h5i_text_length(h5i_session *session);

/* Copies the session's text to `room`, which has just h5i_text_length bytes; else LIBH5I_WRONG_ROOM. The text is that of the last script, list
 * or soft link; h5i_list, h5i_attributes and h5i_link_text leave it as it was where they are refused, for want of memory too. */
h5i_status h5i_text(h5i_session *session, uint8_t *room, size_t room_length);

/* ---- asking */

/* Tells what stands at the path. A soft link is not followed. */
h5i_status h5i_stat(h5i_session *session, LIBH5I_BYTES(path), h5i_about *about);

/* The number of the object at the path, which it keeps while the session is open: two paths lead to one array where it is the same. */
h5i_status h5i_number(h5i_session *session, LIBH5I_BYTES(path), uint32_t *number);

/* Lists a group: the session's text is then the names of its links, each followed by a zero byte, in ascending order. */
h5i_status h5i_list(h5i_session *session, LIBH5I_BYTES(path));

/* Tells a soft link: the session's text is then the link's. LIBH5I_NOT_A_SOFT_LINK where something else stands there. */
h5i_status h5i_link_text(h5i_session *session, LIBH5I_BYTES(path));

/* Lists attributes: the session's text is then their names, each followed by a zero byte, in ascending order. */
h5i_status h5i_attributes(h5i_session *session, LIBH5I_BYTES(path));

/* Tells the type and the sizes of an attribute. */
h5i_status h5i_attribute(h5i_session *session, LIBH5I_BYTES(path), LIBH5I_BYTES(name), h5i_about *about);

/* Copies the values of an attribute to `room`, which has just their length; else LIBH5I_WRONG_ROOM. They stand as they are stored: in the
 * type that h5i_attribute tells. */
h5i_status h5i_attribute_values(h5i_session *session, LIBH5I_BYTES(path), LIBH5I_BYTES(name), uint8_t *room, size_t room_length);

/* Copies the selected cells of the array at the path to `room`, in row-major order, as they are stored: in the type that h5i_stat tells.
 * They are copied once, straight from the image, and no memory is taken. LIBH5I_WRONG_ROOM where `room` has not just their length. */
h5i_status h5i_read(h5i_session *session, LIBH5I_BYTES(path), LIBH5I_SLAB, uint8_t *room, size_t room_length);

/* ---- edits */

/* Creates an empty group. */
h5i_status h5i_create_group(h5i_session *session, LIBH5I_BYTES(path));

/* Creates an array, each of whose cells reads the fill until it is written. There are as many `maxima` as `dims`; only an array in chunks
 * may have others than its sizes. `chunks` has the sizes of a chunk, and nothing for another storage. `fill` is one value of the type;
 * else LIBH5I_WRONG_ROOM. */
h5i_status h5i_create_array(h5i_session *session, LIBH5I_BYTES(path), h5i_type type, LIBH5I_LIST(dims), LIBH5I_LIST(maxima), uint32_t storage,
                            const uint32_t *chunks, size_t chunks_length, LIBH5I_BYTES(fill));

/* Gives the array at `target` a second name. */
h5i_status h5i_hard_link(h5i_session *session, LIBH5I_BYTES(target), LIBH5I_BYTES(path));

/* Makes a soft link with this text. It is never followed. */
h5i_status h5i_soft_link(h5i_session *session, LIBH5I_BYTES(text), LIBH5I_BYTES(path));

/* Takes the link at the path away. A group goes with all that it holds, at any depth; an array goes with its last hard link, and its views
 * answer LIBH5I_GONE then. One that has a name elsewhere stays. */
h5i_status h5i_unlink(h5i_session *session, LIBH5I_BYTES(path));

/* Sets an attribute of the object at the path, in place of one with the same name. `values` has one value of the type for each cell. */
h5i_status h5i_set_attribute(h5i_session *session, LIBH5I_BYTES(path), LIBH5I_BYTES(name), h5i_type type, LIBH5I_LIST(dims), LIBH5I_BYTES(values));

/* Removes an attribute. */
h5i_status h5i_remove_attribute(h5i_session *session, LIBH5I_BYTES(path), LIBH5I_BYTES(name));

/* Writes values into the selected cells of the array at the path, in row-major order. They are values of `type`, which need not be the
 * array's; LIBH5I_VALUE_RANGE where one is no value of that. They are read where they stand. */
h5i_status h5i_write(h5i_session *session, LIBH5I_BYTES(path), LIBH5I_SLAB, h5i_type type, LIBH5I_BYTES(values));

/* Gives an array in chunks other sizes, one for each dimension. */
h5i_status h5i_resize(h5i_session *session, LIBH5I_BYTES(path), LIBH5I_LIST(dims));

/* Writes the image anew, without bytes that nothing uses. */
h5i_status h5i_repack(h5i_session *session);

/* ---- views: selections that show their cells as each edit leaves them */

/* Opens a view of the selected cells of the array at the path, and writes its number. It stays with the array, whatever becomes of the
 * path. */
h5i_status h5i_open_view(h5i_session *session, LIBH5I_BYTES(path), LIBH5I_SLAB, uint32_t *number);

/* How many bytes a view shows. */
h5i_status h5i_shown_length(h5i_session *session, uint32_t number, size_t *length);

/* Copies what a view shows now to `room`, in row-major order, as it is stored. LIBH5I_GONE, LIBH5I_OUTSIDE_NOW: it shows nothing;
 * LIBH5I_WRONG_ROOM where `room` has not just as many bytes. */
h5i_status h5i_show(h5i_session *session, uint32_t number, uint8_t *room, size_t room_length);

/* Closes a view. */
h5i_status h5i_close_view(h5i_session *session, uint32_t number);

#ifdef __cplusplus
}
#endif

#endif
