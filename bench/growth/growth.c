/* Times single edits and reads in groups of more and more links, and in arrays of more and more chunks, by libhdf5 and by libh5i, in one
 * process, in turn, and prints microseconds for each.
 *
 *     bench/growth/run [LARGEST]
 *
 * Sizes are 1000 and ten, a hundred and a thousand times as many, up to LARGEST, which is 1000000 where it is left out. Names and places
 * come in an order that looks like chance. */
#include "both.h"

/* Behind MOST_THEIRS links libhdf5 reads the whole heap of names anew for nearly each link, which would take hours. */
enum { ROUNDS = 20000, CHUNK = 16, MOST_THEIRS = 100000 };

/* ---- what is timed, in microseconds for each */

typedef struct {
    double made, put_and_taken, found, listed; /* links */
    double written, resized, read, changed;    /* chunks */
} times_of;

static double each(double from, uint32_t count) { return (now() - from) / count * 1e6; }

/* A number below `count` that looks like chance. */
static uint32_t drawn(uint32_t number, uint32_t count) { return (uint32_t)(((uint64_t)(number * 2654435769u) * count) >> 32); }

/* ---- a group of soft links */

static void put_theirs(hid_t file, uint32_t number) { H5(H5Lcreate_soft("text", file, path_of(number), H5P_DEFAULT, H5P_DEFAULT)); }
static void put_ours(h5i_session *session, uint32_t number) { OURS(h5i_soft_link(session, TEXT("text"), TEXT(path_of(number)))); }

static herr_t count_one(hid_t group, const char *name, const H5L_info_t *about, void *count) {
    (void)group, (void)name, (void)about;
    ++*(uint32_t *)count;
    return 0;
}

static void links_theirs(uint32_t size, times_of *times) {
    hid_t file = new_file("growth");
    double from = now();
    for (uint32_t k = 0; k < size; k++)
        put_theirs(file, k);
    times->made = each(from, size);
    from = now();
    for (uint32_t k = 0; k < ROUNDS; k++) {
        put_theirs(file, size + k);
        H5(H5Ldelete(file, path_of(k), H5P_DEFAULT));
    }
    times->put_and_taken = each(from, ROUNDS);
    from = now();
    for (uint32_t k = 0; k < ROUNDS; k++)
        TRUE(H5Lexists(file, path_of(ROUNDS + drawn(k, size)), H5P_DEFAULT) > 0);
    times->found = each(from, ROUNDS);
    uint32_t count = 0;
    from = now();
    H5(H5Literate(file, H5_INDEX_NAME, H5_ITER_INC, NULL, count_one, &count));
    times->listed = each(from, size);
    TRUE(count == size);
    H5(H5Fclose(file));
}

static void links_ours(uint32_t size, times_of *times) {
    h5i_session session = new_session();
    double from = now();
    for (uint32_t k = 0; k < size; k++)
        put_ours(&session, k);
    times->made = each(from, size);
    from = now();
    for (uint32_t k = 0; k < ROUNDS; k++) {
        put_ours(&session, size + k);
        OURS(h5i_unlink(&session, TEXT(path_of(k))));
    }
    times->put_and_taken = each(from, ROUNDS);
    h5i_about about;
    from = now();
    for (uint32_t k = 0; k < ROUNDS; k++)
        OURS(h5i_stat(&session, TEXT(path_of(ROUNDS + drawn(k, size))), &about));
    times->found = each(from, ROUNDS);
    uint32_t count = 0;
    from = now();
    OURS(h5i_list(&session, TEXT("/")));
    size_t length = h5i_text_length(&session);
    char *names = malloc(length);
    TRUE(names != NULL);
    OURS(h5i_text(&session, (uint8_t *)names, length));
    for (char *name = names; name < names + length; name += strlen(name) + 1)
        count++;
    times->listed = each(from, size);
    TRUE(count == size);
    free(names);
    h5i_close(&session);
}

/* ---- an array in chunks of 16 cells */

static const int32_t values[CHUNK] = {1, 2, 3, 4, 5, 6, 7, 8, 9, 10, 11, 12, 13, 14, 15, 16};

static void cells_theirs(hid_t array, hsize_t first, hsize_t count, int32_t *read) {
    hid_t space = H5Dget_space(array), memory = H5Screate_simple(1, &count, NULL);
    H5(H5Sselect_hyperslab(space, H5S_SELECT_SET, &first, NULL, &count, NULL));
    H5(read != NULL ? H5Dread(array, H5T_NATIVE_INT32, memory, space, H5P_DEFAULT, read)
                    : H5Dwrite(array, H5T_NATIVE_INT32, memory, space, H5P_DEFAULT, values));
    H5(H5Sclose(memory)), H5(H5Sclose(space));
}

static void size_theirs(hid_t array, hsize_t cells) { H5(H5Dset_extent(array, &cells)); }

static void chunks_theirs(uint32_t size, times_of *times) {
    hid_t file = new_file("growth");
    hsize_t dims = (hsize_t)size * CHUNK, most = H5S_UNLIMITED, chunk = CHUNK;
    hid_t space = H5Screate_simple(1, &dims, &most), how = H5Pcreate(H5P_DATASET_CREATE);
    H5(H5Pset_chunk(how, 1, &chunk));
    hid_t array = H5Dcreate2(file, "n", H5T_STD_I32LE, space, H5P_DEFAULT, how, H5P_DEFAULT);
    H5(array), H5(H5Sclose(space)), H5(H5Pclose(how));
    double from = now();
    for (uint32_t k = 0; k < size; k++)
        cells_theirs(array, (hsize_t)k * CHUNK, CHUNK, NULL);
    times->written = each(from, size);
    from = now();
    for (uint32_t k = 0; k < ROUNDS; k++) {
        size_theirs(array, dims - CHUNK);
        size_theirs(array, dims);
        cells_theirs(array, dims - CHUNK, CHUNK, NULL);
    }
    times->resized = each(from, ROUNDS);
    int32_t cell = 0;
    from = now();
    for (uint32_t k = 0; k < ROUNDS; k++)
        cells_theirs(array, (hsize_t)drawn(k, size) * CHUNK, 1, &cell);
    times->read = each(from, ROUNDS);
    TRUE(cell == 1);
    from = now();
    for (uint32_t k = 0; k < ROUNDS; k++)
        cells_theirs(array, (hsize_t)drawn(k, size) * CHUNK, 1, NULL);
    H5(H5Fflush(file, H5F_SCOPE_GLOBAL));
    times->changed = each(from, ROUNDS);
    H5(H5Dclose(array)), H5(H5Fclose(file));
}

static void write_ours(h5i_session *session, uint64_t first, uint64_t count) {
    const uint64_t one = 1;
    OURS(h5i_write(session, TEXT("/n"), &first, 1, &one, 1, &count, 1, &one, 1, (h5i_type){4, true, false}, (const uint8_t *)values, count * 4));
}

static void size_ours(h5i_session *session, uint64_t cells) { OURS(h5i_resize(session, TEXT("/n"), &cells, 1)); }

static void chunks_ours(uint32_t size, times_of *times) {
    h5i_session session = new_session();
    const uint64_t dims = (uint64_t)size * CHUNK, most = LIBH5I_UNLIMITED, one = 1;
    const uint32_t chunk = CHUNK;
    const int32_t fill = 0;
    OURS(h5i_create_array(&session, TEXT("/n"), (h5i_type){4, true, false}, &dims, 1, &most, 1, LIBH5I_CHUNKED, &chunk, 1, (const uint8_t *)&fill, 4));
    double from = now();
    for (uint32_t k = 0; k < size; k++)
        write_ours(&session, (uint64_t)k * CHUNK, CHUNK);
    times->written = each(from, size);
    from = now();
    for (uint32_t k = 0; k < ROUNDS; k++) {
        size_ours(&session, dims - CHUNK);
        size_ours(&session, dims);
        write_ours(&session, dims - CHUNK, CHUNK);
    }
    times->resized = each(from, ROUNDS);
    int32_t cell = 0;
    from = now();
    for (uint32_t k = 0; k < ROUNDS; k++) {
        const uint64_t first = (uint64_t)drawn(k, size) * CHUNK;
        OURS(h5i_read(&session, TEXT("/n"), &first, 1, &one, 1, &one, 1, &one, 1, (uint8_t *)&cell, 4));
    }
    times->read = each(from, ROUNDS);
    TRUE(cell == 1);
    from = now();
    for (uint32_t k = 0; k < ROUNDS; k++)
        write_ours(&session, (uint64_t)drawn(k, size) * CHUNK, 1);
    times->changed = each(from, ROUNDS);
    h5i_close(&session);
}

/* ---- the table */

static void print_row(const char *library, uint32_t size, const times_of *times) {
    printf("| %s | %u |", library, size);
    if (times->made > 0)
        printf(" %.2f | %.2f | %.2f | %.2f |", times->made, times->put_and_taken, times->found, times->listed);
    else
        printf(" | | | |");
    printf(" %.2f | %.2f | %.2f | %.2f |\n", times->written, times->resized, times->read, times->changed);
    fflush(stdout);
}

int main(int count, char **words) {
    long largest = count > 1 ? atol(words[1]) : 1000000;
    if (largest < 1000 || largest > 1000000) {
        fprintf(stderr, "usage: growth [LARGEST], from 1000 to 1000000\n");
        return 2;
    }
    begin_libraries();
    printf("| Library | Links, or chunks | Link made | Put and taken | Found | Listed | Chunk written | Shrunk, grown, written | Cell read | Cell written |\n"
           "|---|---|---|---|---|---|---|---|---|---|\n");
    for (uint32_t size = 1000; size <= (uint32_t)largest; size *= 10) {
        times_of theirs = {0}, ours = {0};
        if (size <= MOST_THEIRS)
            links_theirs(size, &theirs);
        links_ours(size, &ours);
        chunks_theirs(size, &theirs);
        chunks_ours(size, &ours);
        print_row("libhdf5", size, &theirs);
        print_row("libh5i", size, &ours);
    }
    return 0;
}
