/* Times links and arrays that are made and taken away by libhdf5 and by libh5i, in one process, in turn, and prints the medians with their ratio, and
 * how many bytes each file has grown.
 *
 *     bench/groups/run [RUNS [PARTS]]
 *
 * RUNS is 5 where it is left out; PARTS divides the counts. Names come in an order that looks like chance. */
#include "both.h"

enum { ROUNDS = 500000, MEETINGS = 20000 };

static int part = 1;

/* What a run of a phase took, and how much longer the file was behind it. */
typedef struct {
    double seconds;
    long long grown;
} run_of;

/* ---- small words over each library */

static long long bytes_theirs(hid_t file) {
    H5(H5Fflush(file, H5F_SCOPE_GLOBAL));
    return (long long)H5Fget_file_image(file, NULL, 0);
}

static long long bytes_ours(h5i_session *session) { return (long long)h5i_image_length(session); }

/* Two arrays, since one has at most 65535 links. */
static const char *const arrays[] = {"/A", "/B"};

static void put_theirs(hid_t file, uint32_t number) { H5(H5Lcreate_hard(file, arrays[number % 2], file, path_of(number), H5P_DEFAULT, H5P_DEFAULT)); }
static void put_ours(h5i_session *session, uint32_t number) { OURS(h5i_hard_link(session, TEXT(arrays[number % 2]), TEXT(path_of(number)))); }
static void text_theirs(hid_t file, uint32_t number) { H5(H5Lcreate_soft("text", file, path_of(number), H5P_DEFAULT, H5P_DEFAULT)); }
static void text_ours(h5i_session *session, uint32_t number) { OURS(h5i_soft_link(session, TEXT("text"), TEXT(path_of(number)))); }
static void take_theirs(hid_t file, uint32_t number) { H5(H5Ldelete(file, path_of(number), H5P_DEFAULT)); }
static void take_ours(h5i_session *session, uint32_t number) { OURS(h5i_unlink(session, TEXT(path_of(number)))); }

/* An array of ten cells, stored at once. */
static void array_at_theirs(hid_t file, const char *path) {
    static hid_t space, how;
    if (space == 0) {
        hsize_t dims[1] = {10};
        space = H5Screate_simple(1, dims, NULL), how = H5Pcreate(H5P_DATASET_CREATE);
        H5(H5Pset_alloc_time(how, H5D_ALLOC_TIME_EARLY));
    }
    hid_t array = H5Dcreate2(file, path, H5T_STD_I32LE, space, H5P_DEFAULT, how, H5P_DEFAULT);
    H5(array), H5(H5Dclose(array));
}

static void array_at_ours(h5i_session *session, const char *path) {
    const h5i_type i32 = {4, true, false};
    static const uint32_t no_chunks[1];
    const uint64_t dims[] = {10};
    const int32_t fill = 0;
    OURS(h5i_create_array(session, TEXT(path), i32, LIST(dims), LIST(dims), LIBH5I_CONTIGUOUS, no_chunks, 0, (const uint8_t *)&fill, 4));
}

static void array_theirs(hid_t file, uint32_t number) { array_at_theirs(file, path_of(number)); }
static void array_ours(h5i_session *session, uint32_t number) { array_at_ours(session, path_of(number)); }

static void is_there_theirs(hid_t file, uint32_t number) { TRUE(H5Lexists(file, path_of(number), H5P_DEFAULT) > 0); }
static void is_there_ours(h5i_session *session, uint32_t number) {
    h5i_about about;
    OURS(h5i_stat(session, TEXT(path_of(number)), &about));
}

/* A file of these two arrays, of which the first has so many bytes. */
static hid_t file_theirs(hsize_t bytes) {
    hid_t file = new_file("groups");
    for (int k = 0; k < 2; k++) {
        hsize_t dims[1] = {k == 0 ? bytes : 1};
        hid_t space = H5Screate_simple(1, dims, NULL), how = H5Pcreate(H5P_DATASET_CREATE);
        H5(H5Pset_alloc_time(how, H5D_ALLOC_TIME_EARLY));
        hid_t array = H5Dcreate2(file, arrays[k], H5T_STD_U8LE, space, H5P_DEFAULT, how, H5P_DEFAULT);
        H5(array), H5(H5Dclose(array)), H5(H5Pclose(how)), H5(H5Sclose(space));
    }
    return file;
}

static h5i_session session_ours(uint64_t bytes) {
    h5i_session session = new_session();
    const h5i_type u8 = {1, false, false};
    static const uint32_t no_chunks[1];
    const uint8_t fill = 0;
    for (int k = 0; k < 2; k++) {
        const uint64_t dims[] = {k == 0 ? bytes : 1};
        OURS(h5i_create_array(&session, TEXT(arrays[k]), u8, LIST(dims), LIST(dims), LIBH5I_CONTIGUOUS, no_chunks, 0, &fill, 1));
    }
    return session;
}

/* ---- links or arrays that are made, and every second of them taken away */

typedef void (*step_theirs)(hid_t, uint32_t);
typedef void (*step_ours)(h5i_session *, uint32_t);

static run_of making_theirs(step_theirs make, uint32_t count) {
    hid_t file = file_theirs(1);
    long long before = bytes_theirs(file);
    double from = now();
    for (uint32_t k = 0; k < count; k++)
        make(file, k);
    H5(H5Fflush(file, H5F_SCOPE_GLOBAL));
    double time = now() - from;
    run_of run = {time, bytes_theirs(file) - before};
    H5(H5Fclose(file));
    return run;
}

static run_of making_ours(step_ours make, uint32_t count) {
    h5i_session session = session_ours(1);
    long long before = bytes_ours(&session);
    double from = now();
    for (uint32_t k = 0; k < count; k++)
        make(&session, k);
    double time = now() - from;
    run_of run = {time, bytes_ours(&session) - before};
    h5i_close(&session);
    return run;
}

static run_of taking_theirs(step_theirs make, uint32_t count) {
    hid_t file = file_theirs(1);
    for (uint32_t k = 0; k < count; k++)
        make(file, k);
    long long before = bytes_theirs(file);
    double from = now();
    for (uint32_t k = 0; k < count; k += 2)
        take_theirs(file, k);
    H5(H5Fflush(file, H5F_SCOPE_GLOBAL));
    double time = now() - from;
    run_of run = {time, bytes_theirs(file) - before};
    is_there_theirs(file, 1);
    H5(H5Fclose(file));
    return run;
}

static run_of taking_ours(step_ours make, uint32_t count) {
    h5i_session session = session_ours(1);
    for (uint32_t k = 0; k < count; k++)
        make(&session, k);
    long long before = bytes_ours(&session);
    double from = now();
    for (uint32_t k = 0; k < count; k += 2)
        take_ours(&session, k);
    double time = now() - from;
    run_of run = {time, bytes_ours(&session) - before};
    is_there_ours(&session, 1);
    h5i_close(&session);
    return run;
}

static run_of made_theirs(uint32_t count) { return making_theirs(put_theirs, count); }
static run_of made_ours(uint32_t count) { return making_ours(put_ours, count); }
static run_of taken_theirs(uint32_t count) { return taking_theirs(put_theirs, count); }
static run_of taken_ours(uint32_t count) { return taking_ours(put_ours, count); }
static run_of arrays_made_theirs(uint32_t count) { return making_theirs(array_theirs, count); }
static run_of arrays_made_ours(uint32_t count) { return making_ours(array_ours, count); }
static run_of arrays_taken_theirs(uint32_t count) { return taking_theirs(array_theirs, count); }
static run_of arrays_taken_ours(uint32_t count) { return taking_ours(array_ours, count); }

/* ---- a group that goes with all that it holds */

enum { DEEPEST = 64 };

/* The path of a group at a depth, in which each has the name 'g'. */
static const char *group_at(int depth) {
    static char path[2 * DEEPEST + 1];
    for (int k = 0; k < depth; k++)
        path[2 * k] = '/', path[2 * k + 1] = 'g';
    path[2 * depth] = 0;
    return path;
}

/* The path of an array in the group '/g'. */
static const char *in_group(uint32_t number) {
    static char path[12] = "/g";
    memcpy(path + 2, path_of(number), 10);
    return path;
}

/* A group of so many arrays of ten cells. */
static void wide_theirs(hid_t file, uint32_t count) {
    hid_t group = H5Gcreate2(file, "/g", H5P_DEFAULT, H5P_DEFAULT, H5P_DEFAULT);
    H5(group), H5(H5Gclose(group));
    for (uint32_t k = 0; k < count; k++)
        array_at_theirs(file, in_group(k));
}

static void wide_ours(h5i_session *session, uint32_t count) {
    OURS(h5i_create_group(session, TEXT("/g")));
    for (uint32_t k = 0; k < count; k++)
        array_at_ours(session, in_group(k));
}

/* A chain of groups, each in the one before it. */
static void chain_theirs(hid_t file, uint32_t count) {
    (void)count;
    for (int depth = 1; depth <= DEEPEST; depth++) {
        hid_t group = H5Gcreate2(file, group_at(depth), H5P_DEFAULT, H5P_DEFAULT, H5P_DEFAULT);
        H5(group), H5(H5Gclose(group));
    }
}

static void chain_ours(h5i_session *session, uint32_t count) {
    (void)count;
    for (int depth = 1; depth <= DEEPEST; depth++)
        OURS(h5i_create_group(session, TEXT(group_at(depth))));
}

/* Makes a group and takes it away whole, so often: what the takings alone took, and how much longer the file was then than behind the first. */
static run_of whole_theirs(step_theirs make, uint32_t count, int often) {
    hid_t file = file_theirs(1);
    run_of run = {0};
    long long before = 0;
    for (int k = 0; k < often; k++) {
        make(file, count);
        H5(H5Fflush(file, H5F_SCOPE_GLOBAL));
        double from = now();
        H5(H5Ldelete(file, "/g", H5P_DEFAULT));
        H5(H5Fflush(file, H5F_SCOPE_GLOBAL));
        run.seconds += now() - from;
        before = k == 0 ? bytes_theirs(file) : before;
    }
    TRUE(H5Lexists(file, "/g", H5P_DEFAULT) == 0);
    run.grown = bytes_theirs(file) - before;
    H5(H5Fclose(file));
    return run;
}

static run_of whole_ours(step_ours make, uint32_t count, int often) {
    h5i_session session = session_ours(1);
    run_of run = {0};
    long long before = 0;
    for (int k = 0; k < often; k++) {
        make(&session, count);
        double from = now();
        OURS(h5i_unlink(&session, TEXT("/g")));
        run.seconds += now() - from;
        before = k == 0 ? bytes_ours(&session) : before;
    }
    h5i_about about;
    TRUE(h5i_stat(&session, TEXT("/g"), &about) == LIBH5I_NOT_FOUND);
    run.grown = bytes_ours(&session) - before;
    h5i_close(&session);
    return run;
}

static run_of wide_gone_theirs(uint32_t count) { return whole_theirs(wide_theirs, count, 2); }
static run_of wide_gone_ours(uint32_t count) { return whole_ours(wide_ours, count, 2); }
static run_of chain_gone_theirs(uint32_t often) { return whole_theirs(chain_theirs, 0, (int)often); }
static run_of chain_gone_ours(uint32_t often) { return whole_ours(chain_ours, 0, (int)often); }

/* ---- a million insertions and removals of names, while a group keeps its size */

static run_of rounds_theirs(uint32_t size) {
    hid_t file = file_theirs(1);
    for (uint32_t k = 0; k < size; k++)
        text_theirs(file, k);
    long long before = bytes_theirs(file);
    double from = now();
    for (uint32_t k = 0; k < ROUNDS / (uint32_t)part; k++) {
        text_theirs(file, k + size);
        take_theirs(file, k);
    }
    H5(H5Fflush(file, H5F_SCOPE_GLOBAL));
    double time = now() - from;
    run_of run = {time, bytes_theirs(file) - before};
    is_there_theirs(file, ROUNDS / (uint32_t)part);
    H5(H5Fclose(file));
    return run;
}

static run_of rounds_ours(uint32_t size) {
    h5i_session session = session_ours(1);
    for (uint32_t k = 0; k < size; k++)
        text_ours(&session, k);
    long long before = bytes_ours(&session);
    double from = now();
    for (uint32_t k = 0; k < ROUNDS / (uint32_t)part; k++) {
        text_ours(&session, k + size);
        take_ours(&session, k);
    }
    double time = now() - from;
    run_of run = {time, bytes_ours(&session) - before};
    is_there_ours(&session, ROUNDS / (uint32_t)part);
    h5i_close(&session);
    return run;
}

/* ---- a link that comes and goes in a file of so many bytes */

static run_of beside_theirs(uint32_t bytes) {
    hid_t file = file_theirs(bytes);
    long long before = bytes_theirs(file);
    double from = now();
    for (uint32_t k = 0; k < MEETINGS / (uint32_t)part; k++) {
        put_theirs(file, k);
        take_theirs(file, k);
    }
    double time = now() - from;
    run_of run = {time, bytes_theirs(file) - before};
    H5(H5Fclose(file));
    return run;
}

static run_of beside_ours(uint32_t bytes) {
    h5i_session session = session_ours(bytes);
    long long before = bytes_ours(&session);
    double from = now();
    for (uint32_t k = 0; k < MEETINGS / (uint32_t)part; k++) {
        put_ours(&session, k);
        take_ours(&session, k);
    }
    double time = now() - from;
    run_of run = {time, bytes_ours(&session) - before};
    h5i_close(&session);
    return run;
}

/* ---- the table */

static const struct {
    const char *name;
    run_of (*theirs)(uint32_t), (*ours)(uint32_t);
    uint32_t number;
    bool is_divided; /* the number is a count of links that PARTS divides */
} phases[] = {
    {"10000 hard links made", made_theirs, made_ours, 10000, true},
    {"100000 hard links made", made_theirs, made_ours, 100000, true},
    {"every second of 10000 hard links taken away", taken_theirs, taken_ours, 10000, true},
    {"every second of 100000 hard links taken away", taken_theirs, taken_ours, 100000, true},
    {"10000 arrays made", arrays_made_theirs, arrays_made_ours, 10000, true},
    {"every second of 10000 arrays taken away", arrays_taken_theirs, arrays_taken_ours, 10000, true},
    {"twice a group of 10000 arrays taken away", wide_gone_theirs, wide_gone_ours, 10000, true},
    {"twice a group of 100000 arrays taken away", wide_gone_theirs, wide_gone_ours, 100000, true},
    {"1000 times a chain of 64 groups taken away", chain_gone_theirs, chain_gone_ours, 1000, true},
    {"1000000 soft links made and taken away, in a group of 100", rounds_theirs, rounds_ours, 100, false},
    {"the same in a group of 1000", rounds_theirs, rounds_ours, 1000, false},
    {"the same in a group of 10000", rounds_theirs, rounds_ours, 10000, true},
    {"the same in a group of 100000", rounds_theirs, rounds_ours, 100000, true},
    {"20000 times a hard link made and taken away, in a file of 1 MB", beside_theirs, beside_ours, 1 << 20, false},
    {"the same in a file of 64 MB", beside_theirs, beside_ours, 64 << 20, false},
};

int main(int count, char **words) {
    int runs = count > 1 ? atoi(words[1]) : 5;
    part = count > 2 ? atoi(words[2]) : 1;
    if (runs < 1 || runs > MOST_RUNS || part < 1 || part > MEETINGS) {
        fprintf(stderr, "usage: groups [RUNS [PARTS]]\n");
        return 2;
    }
    begin_libraries();
    print_head();
    printf(" libhdf5 grew by | libh5i grew by |\n|---|---|---|---|---|---|\n");
    for (size_t k = 0; k < sizeof phases / sizeof *phases; k++) {
        double theirs[MOST_RUNS], ours[MOST_RUNS];
        run_of one = {0}, other = {0};
        uint32_t number = phases[k].is_divided ? phases[k].number / (uint32_t)part : phases[k].number;
        for (int run = 0; run < runs; run++) {
            one = phases[k].theirs(number), other = phases[k].ours(number);
            theirs[run] = one.seconds, ours[run] = other.seconds;
        }
        char name[128];
        snprintf(name, sizeof name, part > 1 ? "%s, one in %d of these" : "%s", phases[k].name, part);
        print_times(name, theirs, ours, runs);
        printf(" %lld bytes | %lld bytes |\n", one.grown, other.grown);
        fflush(stdout);
    }
    return 0;
}
