/* Times the same work by libhdf5 and by libh5i, in one process, in turn, and prints the medians with their ratio.
 *
 *     bench/peers/run [RUNS [PHASES [PARTS]]]
 *
 * RUNS is 5 and PHASES are all, as 'bcd', where they are left out. PARTS divides the counts of the phases a, e, f, g and j. Both keep
 * every file in memory: libhdf5 by its core driver, without a file behind it. Its low bound is the earliest, so the files are of the same
 * form. What is read is compared with what is to be read, by both, and so is what f and j have written. The floor of a phase is the time
 * for copying as many bytes as it has to move into fresh memory, in the same run: those of the cells, or of the image that is opened. Of
 * strided cells it is a loop that copies the same cells one by one, out of the same chunks or into them. */
#include "both.h"

#include <sys/mman.h>

enum { SIDE = 4096, CHUNK = 64, STRIDED = 1365 * 818 * 2, CELLS = 1000000, SLAB = 16, APPENDED = 16 };

static int part = 1; /* the counts of slow phases are divided by this */

static const h5i_type int32 = {4, true, false};
static const uint32_t no_chunks[1];

/* ---- numbers that look like chance (xorshift64) */

static uint64_t seed;
static void begin_chance(void) { seed = 88172645463325252ull; }
static uint64_t chance(void) {
    seed ^= seed << 13;
    seed ^= seed >> 7;
    seed ^= seed << 17;
    return seed;
}

/* ---- small words over libh5i */

/* An array of int32 with all cells in one block, of one dimension. */
static void new_array(h5i_session *session, const char *path, uint64_t cells) {
    const uint64_t dims[] = {cells};
    const int32_t fill = 0;
    OURS(h5i_create_array(session, TEXT(path), int32, LIST(dims), LIST(dims), LIBH5I_CONTIGUOUS, no_chunks, 0, (const uint8_t *)&fill,
                          sizeof fill));
}

static void write_from(h5i_session *session, const char *path, uint64_t first, const int32_t *values, uint64_t cells) {
    const uint64_t start[] = {first}, one[] = {1}, count[] = {cells};
    OURS(h5i_write(session, TEXT(path), SLAB_OF(start, one, count, one), int32, (const uint8_t *)values, cells * 4));
}

static void write_front(h5i_session *session, const char *path, const int32_t *values, uint64_t cells) {
    write_from(session, path, 0, values, cells);
}

static const int32_t ten[10] = {0, 1, 2, 3, 4, 5, 6, 7, 8, 9};

/* ---- a: datasets of 10 cells in one group, each written */

static double a_theirs(void) {
    hsize_t dims[1] = {10};
    char name[16];
    double from = now();
    hid_t file = new_file("a"), group = H5Gcreate2(file, "g", H5P_DEFAULT, H5P_DEFAULT, H5P_DEFAULT), space = H5Screate_simple(1, dims, NULL);
    for (int k = 0; k < 10000 / part; k++) {
        snprintf(name, sizeof name, "d%05d", k);
        hid_t array = H5Dcreate2(group, name, H5T_STD_I32LE, space, H5P_DEFAULT, H5P_DEFAULT, H5P_DEFAULT);
        H5(H5Dwrite(array, H5T_NATIVE_INT32, H5S_ALL, H5S_ALL, H5P_DEFAULT, ten));
        H5(H5Dclose(array));
    }
    H5(H5Fflush(file, H5F_SCOPE_GLOBAL));
    double time = now() - from;
    H5(H5Sclose(space)), H5(H5Gclose(group)), H5(H5Fclose(file));
    return time;
}

static double a_ours(void) {
    char path[16];
    double from = now();
    h5i_session session = new_session();
    OURS(h5i_create_group(&session, TEXT("/g")));
    for (int k = 0; k < 10000 / part; k++) {
        snprintf(path, sizeof path, "/g/d%05d", k);
        new_array(&session, path, 10);
        write_front(&session, path, ten, 10);
    }
    double time = now() - from;
    h5i_close(&session);
    return time;
}

/* ---- b, c, d: 64 MB in chunks of 64 by 64 */

static int32_t *cells, *room;

static hid_t big_array(hid_t file) {
    hsize_t dims[2] = {SIDE, SIDE}, chunk[2] = {CHUNK, CHUNK};
    hid_t space = H5Screate_simple(2, dims, NULL), how = H5Pcreate(H5P_DATASET_CREATE);
    H5(H5Pset_chunk(how, 2, chunk));
    hid_t array = H5Dcreate2(file, "d", H5T_STD_I32LE, space, H5P_DEFAULT, how, H5P_DEFAULT);
    H5(array), H5(H5Pclose(how)), H5(H5Sclose(space));
    return array;
}

static void new_big_array(h5i_session *session) {
    const uint64_t dims[] = {SIDE, SIDE};
    const uint32_t chunk[] = {CHUNK, CHUNK};
    const int32_t fill = 0;
    OURS(h5i_create_array(session, TEXT("/d"), int32, LIST(dims), LIST(dims), LIBH5I_CHUNKED, LIST(chunk), (const uint8_t *)&fill, sizeof fill));
}

static const uint64_t none2[] = {0, 0}, one2[] = {1, 1}, all2[] = {SIDE, SIDE};

static double write_theirs(hid_t file, hid_t array) {
    double from = now();
    H5(H5Dwrite(array, H5T_NATIVE_INT32, H5S_ALL, H5S_ALL, H5P_DEFAULT, cells));
    H5(H5Fflush(file, H5F_SCOPE_GLOBAL));
    return now() - from;
}

static double write_ours(h5i_session *session) {
    double from = now();
    OURS(h5i_write(session, TEXT("/d"), SLAB_OF(none2, one2, all2, one2), int32, (const uint8_t *)cells, (size_t)SIDE * SIDE * 4));
    return now() - from;
}

static double b_theirs(void) {
    hid_t file = new_file("b"), array = big_array(file);
    double time = write_theirs(file, array);
    H5(H5Dclose(array)), H5(H5Fclose(file));
    return time;
}

static double b_ours(void) {
    h5i_session session = new_session();
    new_big_array(&session);
    double time = write_ours(&session);
    h5i_close(&session);
    return time;
}

/* A fifteenth of the cells. */
static const hsize_t strided_h[4][2] = {{1, 2}, {3, 5}, {1365, 818}, {1, 2}};
static const uint64_t strided[4][2] = {{1, 2}, {3, 5}, {1365, 818}, {1, 2}};

static void strided_by_theirs(hid_t array, bool is_read) {
    hsize_t selected[1] = {STRIDED};
    hid_t space = H5Dget_space(array), memory = H5Screate_simple(1, selected, NULL);
    H5(H5Sselect_hyperslab(space, H5S_SELECT_SET, strided_h[0], strided_h[1], strided_h[2], strided_h[3]));
    H5(is_read ? H5Dread(array, H5T_NATIVE_INT32, memory, space, H5P_DEFAULT, room)
               : H5Dwrite(array, H5T_NATIVE_INT32, memory, space, H5P_DEFAULT, cells));
    H5(H5Sclose(space)), H5(H5Sclose(memory));
}

static double read_theirs(bool is_strided) {
    hid_t file = new_file("c"), array = big_array(file);
    write_theirs(file, array);
    memset(room, 0, (size_t)SIDE * SIDE * 4);
    double from = now();
    if (is_strided)
        strided_by_theirs(array, true);
    else
        H5(H5Dread(array, H5T_NATIVE_INT32, H5S_ALL, H5S_ALL, H5P_DEFAULT, room));
    double time = now() - from;
    H5(H5Dclose(array)), H5(H5Fclose(file));
    return time;
}

static double read_ours(bool is_strided) {
    h5i_session session = new_session();
    new_big_array(&session);
    write_ours(&session);
    memset(room, 0, (size_t)SIDE * SIDE * 4);
    double from = now();
    if (is_strided)
        OURS(h5i_read(&session, TEXT("/d"), SLAB_OF(strided[0], strided[1], strided[2], strided[3]), (uint8_t *)room, (size_t)STRIDED * 4));
    else
        OURS(h5i_read(&session, TEXT("/d"), SLAB_OF(none2, one2, all2, one2), (uint8_t *)room, (size_t)SIDE * SIDE * 4));
    double time = now() - from;
    h5i_close(&session);
    return time;
}

static void are_strided(void) { TRUE(room[0] == SIDE + 2 && room[2] == SIDE + 7 && room[STRIDED - 1] == (1 + 3 * 1364) * SIDE + 2 + 5 * 817 + 1); }
static void are_whole(void) { TRUE(memcmp(room, cells, (size_t)SIDE * SIDE * 4) == 0); }

static double strided_theirs(void) {
    double time = read_theirs(true);
    are_strided();
    return time;
}
static double strided_ours(void) {
    double time = read_ours(true);
    are_strided();
    return time;
}
static double whole_theirs(void) {
    double time = read_theirs(false);
    are_whole();
    return time;
}
static double whole_ours(void) {
    double time = read_ours(false);
    are_whole();
    return time;
}

/* Strided cells written into an array of which all chunks are stored, and read back. */
static double strided_written_theirs(void) {
    hid_t file = new_file("d"), array = big_array(file);
    write_theirs(file, array);
    memset(room, 0, (size_t)STRIDED * 4);
    double from = now();
    strided_by_theirs(array, false);
    H5(H5Fflush(file, H5F_SCOPE_GLOBAL));
    double time = now() - from;
    strided_by_theirs(array, true);
    TRUE(memcmp(room, cells, (size_t)STRIDED * 4) == 0);
    H5(H5Dclose(array)), H5(H5Fclose(file));
    return time;
}

static double strided_written_ours(void) {
    h5i_session session = new_session();
    new_big_array(&session);
    write_ours(&session);
    memset(room, 0, (size_t)STRIDED * 4);
    double from = now();
    OURS(h5i_write(&session, TEXT("/d"), SLAB_OF(strided[0], strided[1], strided[2], strided[3]), int32, (const uint8_t *)cells,
                   (size_t)STRIDED * 4));
    double time = now() - from;
    OURS(h5i_read(&session, TEXT("/d"), SLAB_OF(strided[0], strided[1], strided[2], strided[3]), (uint8_t *)room, (size_t)STRIDED * 4));
    TRUE(memcmp(room, cells, (size_t)STRIDED * 4) == 0);
    h5i_close(&session);
    return time;
}

/* Four by four cells, every second of each dimension, at a place that looks like chance. */
static const uint64_t two2[] = {2, 2}, four2[] = {4, 4};

static void place_of_four(uint64_t at[2]) {
    uint64_t place = chance();
    at[0] = place % (SIDE - 8), at[1] = (place >> 20) % (SIDE - 8);
}

static double fours_theirs(void) {
    hid_t file = new_file("h"), array = big_array(file);
    write_theirs(file, array);
    hsize_t at[2], stride[2] = {2, 2}, count[2] = {4, 4}, selected[1] = {16};
    uint64_t place[2];
    hid_t space = H5Dget_space(array), memory = H5Screate_simple(1, selected, NULL);
    begin_chance();
    double from = now();
    for (int k = 0; k < 100000; k++) {
        place_of_four(place);
        at[0] = place[0], at[1] = place[1];
        H5(H5Sselect_hyperslab(space, H5S_SELECT_SET, at, stride, count, NULL));
        H5(H5Dread(array, H5T_NATIVE_INT32, memory, space, H5P_DEFAULT, room));
    }
    double time = now() - from;
    TRUE(room[15] == (int32_t)((place[0] + 6) * SIDE + place[1] + 6));
    H5(H5Sclose(space)), H5(H5Sclose(memory)), H5(H5Dclose(array)), H5(H5Fclose(file));
    return time;
}

static double fours_ours(void) {
    h5i_session session = new_session();
    new_big_array(&session);
    write_ours(&session);
    uint64_t at[2];
    begin_chance();
    double from = now();
    for (int k = 0; k < 100000; k++) {
        place_of_four(at);
        OURS(h5i_read(&session, TEXT("/d"), SLAB_OF(at, two2, four2, one2), (uint8_t *)room, 64));
    }
    double time = now() - from;
    TRUE(room[15] == (int32_t)((at[0] + 6) * SIDE + at[1] + 6));
    h5i_close(&session);
    return time;
}

static double d_theirs(void) {
    hid_t file = new_file("d"), array = big_array(file);
    write_theirs(file, array);
    hid_t space = H5Dget_space(array), memory = H5Screate_simple(1, (hsize_t[]){1}, NULL);
    hsize_t at[2], one[2] = {1, 1};
    begin_chance();
    double from = now();
    for (int32_t k = 0; k < 100000; k++) {
        uint64_t place = chance();
        at[0] = place % SIDE, at[1] = (place >> 20) % SIDE;
        H5(H5Sselect_hyperslab(space, H5S_SELECT_SET, at, NULL, one, NULL));
        H5(H5Dwrite(array, H5T_NATIVE_INT32, memory, space, H5P_DEFAULT, &k));
    }
    H5(H5Fflush(file, H5F_SCOPE_GLOBAL));
    double time = now() - from;
    H5(H5Sclose(space)), H5(H5Sclose(memory)), H5(H5Dclose(array)), H5(H5Fclose(file));
    return time;
}

static double d_ours(void) {
    h5i_session session = new_session();
    new_big_array(&session);
    write_ours(&session);
    uint64_t at[2];
    begin_chance();
    double from = now();
    for (int32_t k = 0; k < 100000; k++) {
        uint64_t place = chance();
        at[0] = place % SIDE, at[1] = (place >> 20) % SIDE;
        OURS(h5i_write(&session, TEXT("/d"), SLAB_OF(at, one2, one2, one2), int32, (const uint8_t *)&k, 4));
    }
    double time = now() - from;
    h5i_close(&session);
    return time;
}

/* 64 MB opened and read: the image of a file that libhdf5 has written. */
static uint8_t *big_image;
static size_t big_length;

static uint8_t *image_of(hid_t file, size_t *length) {
    ssize_t found = H5Fget_file_image(file, NULL, 0);
    H5(found);
    uint8_t *image = malloc((size_t)found);
    TRUE(image != NULL);
    H5(H5Fget_file_image(file, image, (size_t)found));
    *length = (size_t)found;
    return image;
}

static void make_big_image(void) {
    hid_t file = new_file("big"), array = big_array(file);
    write_theirs(file, array);
    H5(H5Dclose(array));
    big_image = image_of(file, &big_length);
    H5(H5Fclose(file));
}

static hid_t file_of(uint8_t *image, size_t length, unsigned how_opened) {
    hid_t how = H5Pcreate(H5P_FILE_ACCESS);
    H5(H5Pset_fapl_core(how, 1 << 20, 0));
    H5(H5Pset_file_image(how, image, length));
    hid_t file = H5Fopen("opened", how_opened, how);
    H5(file), H5(H5Pclose(how));
    return file;
}

static double opened_theirs(void) {
    memset(room, 0, (size_t)SIDE * SIDE * 4);
    double from = now();
    hid_t file = file_of(big_image, big_length, H5F_ACC_RDONLY), array = H5Dopen2(file, "d", H5P_DEFAULT);
    H5(H5Dread(array, H5T_NATIVE_INT32, H5S_ALL, H5S_ALL, H5P_DEFAULT, room));
    double time = now() - from;
    H5(H5Dclose(array)), H5(H5Fclose(file));
    are_whole();
    return time;
}

static double opened_ours(void) {
    memset(room, 0, (size_t)SIDE * SIDE * 4);
    h5i_session session = {0};
    uint64_t place;
    double from = now();
    OURS(h5i_open(&session, big_image, big_length, &place));
    OURS(h5i_read(&session, TEXT("/d"), SLAB_OF(none2, one2, all2, one2), (uint8_t *)room, (size_t)SIDE * SIDE * 4));
    double time = now() - from;
    h5i_close(&session);
    are_whole();
    return time;
}

/* ---- e: hard links, and files that are opened and listed */

static int scattered(int k, int count) { return (int)(k * 7919ll % count); }

static double link_theirs(hid_t file, int count) {
    hid_t space = H5Screate(H5S_SCALAR), group = H5Gcreate2(file, "g", H5P_DEFAULT, H5P_DEFAULT, H5P_DEFAULT);
    H5(H5Dclose(H5Dcreate2(file, "d", H5T_STD_I32LE, space, H5P_DEFAULT, H5P_DEFAULT, H5P_DEFAULT)));
    char name[16];
    double from = now();
    for (int k = 0; k < count; k++) {
        snprintf(name, sizeof name, "n%05d", scattered(k, count));
        H5(H5Lcreate_hard(file, "d", group, name, H5P_DEFAULT, H5P_DEFAULT));
    }
    H5(H5Fflush(file, H5F_SCOPE_GLOBAL));
    double time = now() - from;
    H5(H5Sclose(space)), H5(H5Gclose(group));
    return time;
}

static double link_ours(h5i_session *session, int count) {
    const int32_t fill = 0;
    const uint64_t no_size[1] = {0};
    OURS(h5i_create_array(session, TEXT("/d"), int32, no_size, 0, no_size, 0, LIBH5I_CONTIGUOUS, no_chunks, 0, (const uint8_t *)&fill, 4));
    OURS(h5i_create_group(session, TEXT("/g")));
    char path[16];
    double from = now();
    for (int k = 0; k < count; k++) {
        snprintf(path, sizeof path, "/g/n%05d", scattered(k, count));
        OURS(h5i_hard_link(session, TEXT("/d"), TEXT(path)));
    }
    return now() - from;
}

static double e_theirs(void) {
    hid_t file = new_file("e");
    double time = link_theirs(file, 10000 / part);
    H5(H5Fclose(file));
    return time;
}

static double e_ours(void) {
    h5i_session session = new_session();
    double time = link_ours(&session, 10000 / part);
    h5i_close(&session);
    return time;
}

/* The image of a file of 10000 links, and of one of 10000 datasets, both made by libhdf5. */
static uint8_t *images[2];
static size_t lengths[2];

static void make_images(void) {
    for (int which = 0; which < 2; which++) {
        hid_t file = new_file("image");
        if (which == 0) {
            link_theirs(file, 10000);
        } else {
            hsize_t dims[1] = {10};
            hid_t space = H5Screate_simple(1, dims, NULL), group = H5Gcreate2(file, "g", H5P_DEFAULT, H5P_DEFAULT, H5P_DEFAULT);
            char name[16];
            for (int k = 0; k < 10000; k++) {
                snprintf(name, sizeof name, "d%05d", k);
                hid_t array = H5Dcreate2(group, name, H5T_STD_I32LE, space, H5P_DEFAULT, H5P_DEFAULT, H5P_DEFAULT);
                H5(H5Dwrite(array, H5T_NATIVE_INT32, H5S_ALL, H5S_ALL, H5P_DEFAULT, ten));
                H5(H5Dclose(array));
            }
            H5(H5Sclose(space)), H5(H5Gclose(group));
            H5(H5Fflush(file, H5F_SCOPE_GLOBAL));
        }
        images[which] = image_of(file, &lengths[which]);
        H5(H5Fclose(file));
    }
}

static herr_t seen(hid_t group, const char *name, const H5L_info_t *info, void *sum) {
    (void)group, (void)info;
    *(size_t *)sum += strlen(name);
    return 0;
}

static herr_t seen_with_type(hid_t group, const char *name, const H5L_info_t *info, void *sum) {
    (void)info;
    hid_t array = H5Dopen2(group, name, H5P_DEFAULT), space = H5Dget_space(array), type = H5Dget_type(array);
    hsize_t dims[32];
    *(size_t *)sum += strlen(name) + (size_t)H5Sget_simple_extent_dims(space, dims, NULL) + H5Tget_size(type);
    H5(H5Tclose(type)), H5(H5Sclose(space)), H5(H5Dclose(array));
    return 0;
}

static double list_theirs(int which) {
    size_t sum = 0;
    double from = now();
    hid_t file = file_of(images[which], lengths[which], H5F_ACC_RDONLY);
    H5(H5Literate_by_name(file, "g", H5_INDEX_NAME, H5_ITER_INC, NULL, which ? seen_with_type : seen, &sum, H5P_DEFAULT));
    double time = now() - from;
    TRUE(sum == (which ? 110000 : 60000));
    H5(H5Fclose(file));
    return time;
}

static double list_ours(int which) {
    size_t sum = 0;
    uint64_t place;
    char path[64];
    h5i_about about;
    double from = now();
    h5i_session session = {0};
    OURS(h5i_open(&session, images[which], lengths[which], &place));
    OURS(h5i_list(&session, TEXT("/g")));
    size_t length = h5i_text_length(&session);
    char *names = malloc(length);
    TRUE(names != NULL);
    OURS(h5i_text(&session, (uint8_t *)names, length));
    for (char *name = names; name < names + length; name += strlen(name) + 1) {
        sum += strlen(name);
        if (which) {
            snprintf(path, sizeof path, "/g/%s", name);
            OURS(h5i_stat(&session, TEXT(path), &about));
            sum += about.rank + about.type.size;
        }
    }
    double time = now() - from;
    free(names);
    TRUE(sum == (which ? 110000 : 60000));
    h5i_close(&session);
    return time;
}

static double links_listed_theirs(void) { return list_theirs(0); }
static double links_listed_ours(void) { return list_ours(0); }
static double arrays_listed_theirs(void) { return list_theirs(1); }
static double arrays_listed_ours(void) { return list_ours(1); }

/* ---- f, j: an array that grows and shrinks, and one that only grows */

static hid_t growing_theirs(hid_t file, hsize_t dims, hsize_t chunk) {
    hsize_t most = H5S_UNLIMITED;
    hid_t space = H5Screate_simple(1, &dims, &most), how = H5Pcreate(H5P_DATASET_CREATE);
    H5(H5Pset_chunk(how, 1, &chunk));
    hid_t array = H5Dcreate2(file, "n", H5T_STD_I32LE, space, H5P_DEFAULT, how, H5P_DEFAULT);
    H5(array), H5(H5Sclose(space)), H5(H5Pclose(how));
    return array;
}

static void new_growing(h5i_session *session, uint64_t dims, uint32_t chunk) {
    const uint64_t most = LIBH5I_UNLIMITED;
    const int32_t fill = 0;
    OURS(h5i_create_array(session, TEXT("/n"), int32, &dims, 1, &most, 1, LIBH5I_CHUNKED, &chunk, 1, (const uint8_t *)&fill, 4));
}

static void size_theirs(hid_t array, hsize_t cells_now) { H5(H5Dset_extent(array, &cells_now)); }
static void size_ours(h5i_session *session, uint64_t cells_now) { OURS(h5i_resize(session, TEXT("/n"), &cells_now, 1)); }

/* The array has just the first so many of the cells. */
static void are_kept_theirs(hid_t array, hsize_t kept) {
    hid_t space = H5Dget_space(array);
    hsize_t dims;
    H5(H5Sget_simple_extent_dims(space, &dims, NULL));
    TRUE(dims == kept);
    memset(room, 0, kept * 4);
    H5(H5Dread(array, H5T_NATIVE_INT32, H5S_ALL, H5S_ALL, H5P_DEFAULT, room));
    TRUE(memcmp(room, cells, kept * 4) == 0);
    H5(H5Sclose(space));
}

static void are_kept_ours(h5i_session *session, uint64_t kept) {
    const uint64_t start[] = {0}, one[] = {1}, count[] = {kept};
    h5i_about about;
    OURS(h5i_stat(session, TEXT("/n"), &about));
    TRUE(about.dims[0] == kept);
    memset(room, 0, kept * 4);
    OURS(h5i_read(session, TEXT("/n"), SLAB_OF(start, one, count, one), (uint8_t *)room, kept * 4));
    TRUE(memcmp(room, cells, kept * 4) == 0);
}

static double write_grown_theirs(hid_t file) {
    hid_t array = growing_theirs(file, 100, 10);
    double from = now();
    for (int k = 0; k < 2000 / part; k++) {
        size_theirs(array, 1000);
        H5(H5Dwrite(array, H5T_NATIVE_INT32, H5S_ALL, H5S_ALL, H5P_DEFAULT, cells));
        size_theirs(array, 5);
    }
    H5(H5Fflush(file, H5F_SCOPE_GLOBAL));
    double time = now() - from;
    are_kept_theirs(array, 5);
    H5(H5Dclose(array));
    return time;
}

static double write_grown_ours(h5i_session *session) {
    new_growing(session, 100, 10);
    double from = now();
    for (int k = 0; k < 2000 / part; k++) {
        size_ours(session, 1000);
        write_front(session, "/n", cells, 1000);
        size_ours(session, 5);
    }
    double time = now() - from;
    are_kept_ours(session, 5);
    return time;
}

static double resize_theirs(hid_t file) {
    hid_t array = growing_theirs(file, 100, 10);
    double from = now();
    for (int k = 0; k < 20000 / part; k++)
        size_theirs(array, k % 2 ? 5 : 1000);
    H5(H5Fflush(file, H5F_SCOPE_GLOBAL));
    double time = now() - from;
    H5(H5Dclose(array));
    return time;
}

static double resize_ours(h5i_session *session) {
    new_growing(session, 100, 10);
    double from = now();
    for (int k = 0; k < 20000 / part; k++)
        size_ours(session, k % 2 ? 5 : 1000);
    return now() - from;
}

static double append_theirs(hid_t file) {
    hsize_t start[1], size[1] = {APPENDED};
    hid_t array = growing_theirs(file, 0, APPENDED), memory = H5Screate_simple(1, size, NULL);
    double from = now();
    for (int k = 0; k < 100000 / part; k++) {
        start[0] = (hsize_t)k * APPENDED;
        size_theirs(array, start[0] + APPENDED);
        hid_t space = H5Dget_space(array);
        H5(H5Sselect_hyperslab(space, H5S_SELECT_SET, start, NULL, size, NULL));
        H5(H5Dwrite(array, H5T_NATIVE_INT32, memory, space, H5P_DEFAULT, cells + start[0]));
        H5(H5Sclose(space));
    }
    H5(H5Fflush(file, H5F_SCOPE_GLOBAL));
    double time = now() - from;
    are_kept_theirs(array, 100000 / part * APPENDED);
    H5(H5Sclose(memory)), H5(H5Dclose(array));
    return time;
}

static double append_ours(h5i_session *session) {
    new_growing(session, 0, APPENDED);
    double from = now();
    for (int k = 0; k < 100000 / part; k++) {
        uint64_t start = (uint64_t)k * APPENDED;
        size_ours(session, start + APPENDED);
        write_from(session, "/n", start, cells + start, APPENDED);
    }
    double time = now() - from;
    are_kept_ours(session, 100000 / part * APPENDED);
    return time;
}

/* The time of edits of an array alone in its file, or with a rest of 64 MB in it, which is there before. */
static double beside_theirs(double (*edit)(hid_t file), bool has_rest) {
    hid_t file = has_rest ? file_of(big_image, big_length, H5F_ACC_RDWR) : new_file("n");
    double time = edit(file);
    H5(H5Fclose(file));
    return time;
}

static double beside_ours(double (*edit)(h5i_session *session), bool has_rest) {
    h5i_session session = {0};
    uint64_t place;
    if (has_rest)
        OURS(h5i_open(&session, big_image, big_length, &place));
    else
        OURS(h5i_create(&session));
    double time = edit(&session);
    h5i_close(&session);
    return time;
}

static double written_theirs(void) { return beside_theirs(write_grown_theirs, false); }
static double written_ours(void) { return beside_ours(write_grown_ours, false); }
static double written_beside_theirs(void) { return beside_theirs(write_grown_theirs, true); }
static double written_beside_ours(void) { return beside_ours(write_grown_ours, true); }
static double sized_theirs(void) { return beside_theirs(resize_theirs, false); }
static double sized_ours(void) { return beside_ours(resize_ours, false); }
static double sized_beside_theirs(void) { return beside_theirs(resize_theirs, true); }
static double sized_beside_ours(void) { return beside_ours(resize_ours, true); }
static double appended_theirs(void) { return beside_theirs(append_theirs, false); }
static double appended_ours(void) { return beside_ours(append_ours, false); }
static double appended_beside_theirs(void) { return beside_theirs(append_theirs, true); }
static double appended_beside_ours(void) { return beside_ours(append_ours, true); }

/* ---- g: every second one of 10000 links, and of 10000 datasets, is unlinked */

static double unlink_theirs(int which) {
    hid_t file = file_of(images[which], lengths[which], H5F_ACC_RDWR), group = H5Gopen2(file, "g", H5P_DEFAULT);
    char name[16];
    double from = now();
    for (int k = 0; k < 5000 / part; k++) {
        snprintf(name, sizeof name, "%c%05d", which ? 'd' : 'n', scattered(k, 5000) * 2);
        H5(H5Ldelete(group, name, H5P_DEFAULT));
    }
    H5(H5Fflush(file, H5F_SCOPE_GLOBAL));
    double time = now() - from;
    H5(H5Gclose(group)), H5(H5Fclose(file));
    return time;
}

static double unlink_ours(int which) {
    h5i_session session = {0};
    uint64_t place;
    char path[16];
    OURS(h5i_open(&session, images[which], lengths[which], &place));
    double from = now();
    for (int k = 0; k < 5000 / part; k++) {
        snprintf(path, sizeof path, "/g/%c%05d", which ? 'd' : 'n', scattered(k, 5000) * 2);
        OURS(h5i_unlink(&session, TEXT(path)));
    }
    double time = now() - from;
    h5i_close(&session);
    return time;
}

static double links_gone_theirs(void) { return unlink_theirs(0); }
static double links_gone_ours(void) { return unlink_ours(0); }
static double arrays_gone_theirs(void) { return unlink_theirs(1); }
static double arrays_gone_ours(void) { return unlink_ours(1); }

/* ---- h: a million small reads */

static double h_theirs(void) {
    hsize_t dims[1] = {CELLS}, size[1] = {SLAB}, at[1];
    hid_t file = new_file("h"), space = H5Screate_simple(1, dims, NULL), memory = H5Screate_simple(1, size, NULL);
    hid_t array = H5Dcreate2(file, "d", H5T_STD_I32LE, space, H5P_DEFAULT, H5P_DEFAULT, H5P_DEFAULT);
    H5(H5Dwrite(array, H5T_NATIVE_INT32, H5S_ALL, H5S_ALL, H5P_DEFAULT, cells));
    int32_t found[SLAB];
    begin_chance();
    double from = now();
    for (int k = 0; k < 1000000; k++) {
        at[0] = chance() % (CELLS - SLAB);
        H5(H5Sselect_hyperslab(space, H5S_SELECT_SET, at, NULL, size, NULL));
        H5(H5Dread(array, H5T_NATIVE_INT32, memory, space, H5P_DEFAULT, found));
        TRUE(found[SLAB - 1] == (int32_t)at[0] + SLAB - 1);
    }
    double time = now() - from;
    H5(H5Dclose(array)), H5(H5Sclose(space)), H5(H5Sclose(memory)), H5(H5Fclose(file));
    return time;
}

static double h_ours(void) {
    h5i_session session = new_session();
    new_array(&session, "/d", CELLS);
    write_front(&session, "/d", cells, CELLS);
    int32_t found[SLAB];
    uint64_t at[1];
    const uint64_t one[] = {1}, size[] = {SLAB};
    begin_chance();
    double from = now();
    for (int k = 0; k < 1000000; k++) {
        at[0] = chance() % (CELLS - SLAB);
        OURS(h5i_read(&session, TEXT("/d"), SLAB_OF(at, one, size, one), (uint8_t *)found, sizeof found));
        TRUE(found[SLAB - 1] == (int32_t)at[0] + SLAB - 1);
    }
    double time = now() - from;
    h5i_close(&session);
    return time;
}

/* ---- i: attributes */

static double i_theirs(void) {
    hid_t file = new_file("i"), group = H5Gcreate2(file, "g", H5P_DEFAULT, H5P_DEFAULT, H5P_DEFAULT), space = H5Screate(H5S_SCALAR);
    char name[16];
    double from = now();
    for (int32_t k = 0; k < 20000; k++) {
        snprintf(name, sizeof name, "a%d", k % 50);
        if (k >= 50)
            H5(H5Adelete(group, name));
        hid_t attribute = H5Acreate2(group, name, H5T_STD_I32LE, space, H5P_DEFAULT, H5P_DEFAULT);
        H5(H5Awrite(attribute, H5T_NATIVE_INT32, &k));
        H5(H5Aclose(attribute));
    }
    H5(H5Fflush(file, H5F_SCOPE_GLOBAL));
    double time = now() - from;
    H5(H5Sclose(space)), H5(H5Gclose(group)), H5(H5Fclose(file));
    return time;
}

static double i_ours(void) {
    h5i_session session = new_session();
    OURS(h5i_create_group(&session, TEXT("/g")));
    const uint64_t no_size[1] = {0};
    char name[16];
    double from = now();
    for (int32_t k = 0; k < 20000; k++) {
        snprintf(name, sizeof name, "a%d", k % 50);
        OURS(h5i_set_attribute(&session, TEXT("/g"), TEXT(name), int32, no_size, 0, (const uint8_t *)&k, sizeof k));
    }
    double time = now() - from;
    h5i_close(&session);
    return time;
}

/* ---- k: single cells written while views are open. libhdf5 has no views: its writes are those of phase d, as many */

enum { VIEWS = 1024, SHOWN = 16, SINGLE = 10000 };

static double some_theirs(void) {
    hid_t file = new_file("k"), array = big_array(file);
    write_theirs(file, array);
    hid_t space = H5Dget_space(array), memory = H5Screate_simple(1, (hsize_t[]){1}, NULL);
    hsize_t at[2], one[2] = {1, 1};
    begin_chance();
    double from = now();
    for (int32_t k = 0; k < SINGLE; k++) {
        uint64_t place = chance();
        at[0] = place % SIDE, at[1] = (place >> 20) % SIDE;
        H5(H5Sselect_hyperslab(space, H5S_SELECT_SET, at, NULL, one, NULL));
        H5(H5Dwrite(array, H5T_NATIVE_INT32, memory, space, H5P_DEFAULT, &k));
    }
    double time = now() - from;
    H5(H5Sclose(space)), H5(H5Sclose(memory)), H5(H5Dclose(array)), H5(H5Fclose(file));
    return time;
}

/* Views of some cells of a row each, of the array at the path; and the writes to the array `/d`. */
static double some_ours(const char *viewed) {
    h5i_session session = new_session();
    new_big_array(&session);
    write_ours(&session);
    new_array(&session, "/other", CELLS);
    write_front(&session, "/other", cells, CELLS);
    const uint64_t shown1[] = {SHOWN}, shown2[] = {1, SHOWN}, one1[] = {1};
    for (uint64_t row = 0; row < VIEWS; row++) {
        const uint64_t start1[] = {row * SHOWN}, start2[] = {row, 0};
        uint32_t number;
        if (strcmp(viewed, "/d") == 0)
            OURS(h5i_open_view(&session, TEXT(viewed), SLAB_OF(start2, one2, shown2, one2), &number));
        else
            OURS(h5i_open_view(&session, TEXT(viewed), SLAB_OF(start1, one1, shown1, one1), &number));
    }
    uint64_t at[2];
    begin_chance();
    double from = now();
    for (int32_t k = 0; k < SINGLE; k++) {
        uint64_t place = chance();
        at[0] = place % SIDE, at[1] = (place >> 20) % SIDE;
        OURS(h5i_write(&session, TEXT("/d"), SLAB_OF(at, one2, one2, one2), int32, (const uint8_t *)&k, 4));
    }
    double time = now() - from;
    h5i_close(&session);
    return time;
}

static double beside_views_ours(void) { return some_ours("/other"); }
static double in_views_ours(void) { return some_ours("/d"); }

#ifndef COUNT_INSTRUCTIONS
/* ---- the floor */

/* Copies bytes into fresh memory, and from there so many of them once more, into memory that was used before. */
static double copied(const void *bytes, size_t length, size_t again) {
    double from = now();
    void *fresh = mmap(NULL, length, PROT_READ | PROT_WRITE, MAP_PRIVATE | MAP_ANONYMOUS, -1, 0);
    TRUE(fresh != MAP_FAILED);
    memcpy(fresh, bytes, length);
    memcpy(room, fresh, again);
    double time = now() - from;
    TRUE(memcmp(fresh, bytes, length) == 0 && memcmp(room, bytes, again) == 0);
    munmap(fresh, length);
    return time;
}

/* The number of a cell of an array in chunks that stand one behind another. */
static size_t number_in_chunks(size_t row, size_t column) {
    size_t chunk = row / CHUNK * (SIDE / CHUNK) + column / CHUNK;
    return chunk * CHUNK * CHUNK + row % CHUNK * CHUNK + column % CHUNK;
}

/* Copies the strided cells one by one out of chunks, or into them, between memory that was used before. */
static double strided_copied(bool is_read) {
    memset(room, 0, (size_t)SIDE * SIDE * 4);
    size_t at = 0;
    double from = now();
    for (size_t i = 0; i < strided[2][0]; i++)
        for (size_t j = 0; j < strided[2][1]; j++)
            for (size_t k = 0; k < strided[3][1]; k++, at++) {
                size_t number = number_in_chunks(strided[0][0] + i * strided[1][0], strided[0][1] + j * strided[1][1] + k);
                if (is_read)
                    room[at] = cells[number];
                else
                    room[number] = cells[at];
            }
    return now() - from;
}

static double strided_read_floor(void) { return strided_copied(true); }
static double strided_written_floor(void) { return strided_copied(false); }
#else
static double strided_read_floor(void) { return 0; }
static double strided_written_floor(void) { return 0; }
#endif

/* ---- the table */

enum { BIG = SIDE * SIDE * 4 };

static const struct {
    char letter;
    bool is_divided; /* its count is divided by PARTS */
    const char *name;
    double (*theirs)(void), (*ours)(void);
    size_t bytes;         /* how many it has to move; none where that says nothing */
    const size_t *length; /* the same, where it is known later */
    size_t again;         /* how many of them are to be moved once more */
    double (*floor)(void); /* where cells are picked out, in place of these three */
} phases[] = {
    {'a', true, "10000 datasets created and written", a_theirs, a_ours, 0, NULL, 0, NULL},
    {'b', false, "64 MB written, in 4096 chunks not yet stored", b_theirs, b_ours, BIG, NULL, 0, NULL},
    {'c', false, "2233140 strided cells read", strided_theirs, strided_ours, 0, NULL, 0, strided_read_floor},
    {'c', false, "64 MB read, in chunks", whole_theirs, whole_ours, BIG, NULL, 0, NULL},
    {'c', false, "64 MB opened and read", opened_theirs, opened_ours, BIG, NULL, BIG, NULL},
    {'d', false, "100000 single cells written", d_theirs, d_ours, 0, NULL, 0, NULL},
    {'d', false, "2233140 strided cells written", strided_written_theirs, strided_written_ours, 0, NULL, 0, strided_written_floor},
    {'e', true, "10000 hard links made", e_theirs, e_ours, 0, NULL, 0, NULL},
    {'e', false, "10000 links opened and listed", links_listed_theirs, links_listed_ours, 0, &lengths[0], 0, NULL},
    {'e', false, "10000 datasets listed with types", arrays_listed_theirs, arrays_listed_ours, 0, &lengths[1], 0, NULL},
    {'f', true, "2000 times grown, written, shrunk", written_theirs, written_ours, 0, NULL, 0, NULL},
    {'f', true, "the same beside 64 MB", written_beside_theirs, written_beside_ours, 0, NULL, 0, NULL},
    {'f', true, "20000 times resized", sized_theirs, sized_ours, 0, NULL, 0, NULL},
    {'f', true, "the same beside 64 MB", sized_beside_theirs, sized_beside_ours, 0, NULL, 0, NULL},
    {'g', true, "5000 of 10000 links unlinked", links_gone_theirs, links_gone_ours, 0, NULL, 0, NULL},
    {'g', true, "5000 of 10000 datasets unlinked", arrays_gone_theirs, arrays_gone_ours, 0, NULL, 0, NULL},
    {'h', false, "1000000 reads of 16 cells", h_theirs, h_ours, 0, NULL, 0, NULL},
    {'h', false, "100000 reads of 4 by 4 strided cells", fours_theirs, fours_ours, 0, NULL, 0, NULL},
    {'i', false, "20000 times an attribute set, of 50", i_theirs, i_ours, 0, NULL, 0, NULL},
    {'j', true, "100000 times a chunk appended", appended_theirs, appended_ours, 0, NULL, 0, NULL},
    {'j', true, "the same beside 64 MB", appended_beside_theirs, appended_beside_ours, 0, NULL, 0, NULL},
    {'k', false, "10000 single cells written, 1024 views of another array", some_theirs, beside_views_ours, 0, NULL, 0, NULL},
    {'k', false, "10000 single cells written, 1024 views of the array", some_theirs, in_views_ours, 0, NULL, 0, NULL},
};

int main(int count, char **words) {
    int runs = count > 1 ? atoi(words[1]) : 5;
    const char *wanted = count > 2 ? words[2] : "abcdefghijk";
    part = count > 3 ? atoi(words[3]) : 1;
    if (runs < 1 || runs > MOST_RUNS || part < 1) {
        fprintf(stderr, "usage: peers [RUNS [PHASES [PARTS]]]\n");
        return 2;
    }
    begin_libraries();
    cells = malloc((size_t)SIDE * SIDE * 4), room = malloc((size_t)SIDE * SIDE * 4);
    TRUE(cells != NULL && room != NULL);
    for (int32_t k = 0; k < SIDE * SIDE; k++)
        cells[k] = k;
    make_images();
    make_big_image();

#ifndef COUNT_INSTRUCTIONS
    print_head();
    printf(" floor | libh5i / floor |\n|---|---|---|---|---|---|\n");
#endif
    for (size_t k = 0; k < sizeof phases / sizeof *phases; k++) {
        if (strchr(wanted, phases[k].letter) == NULL)
            continue;
        char name[96];
        snprintf(name, sizeof name, phases[k].is_divided && part > 1 ? "%c: %s, one in %d of these" : "%c: %s", phases[k].letter,
                 phases[k].name, part);
#ifdef COUNT_INSTRUCTIONS
        /* The numbers of the two files of what libhdf5 takes and what libh5i does. */
        phases[k].theirs();
        int theirs = counts;
        phases[k].ours();
        printf("%d %d %s\n", theirs, counts, name);
        fflush(stdout);
    }
    return 0;
}
#else
        double theirs[MOST_RUNS], ours[MOST_RUNS], floors[MOST_RUNS] = {0};
        for (int run = 0; run < runs; run++) {
            theirs[run] = phases[k].theirs();
            ours[run] = phases[k].ours();
            size_t bytes = phases[k].length != NULL ? *phases[k].length : phases[k].bytes;
            if (phases[k].floor != NULL)
                floors[run] = phases[k].floor();
            else if (bytes > 0)
                floors[run] = copied(big_image, bytes, phases[k].again);
        }
        print_times(name, theirs, ours, runs);
        double floor = middle_of(floors, runs);
        if (floor > 0)
            printf(" %.4f | %.2f |\n", floor, middle_of(ours, runs) / floor);
        else
            printf(" | |\n");
        fflush(stdout);
    }
    return 0;
}
#endif
