/* What the programs that time libhdf5 and libh5i in one process, in turn, have in common. Both keep every file in memory: libhdf5 by its
 * core driver, without a file behind it. Its low bound is the earliest, so the files are of the same form. */
#ifndef BENCH_BOTH_H_
#define BENCH_BOTH_H_

#include <hdf5.h>

#include "h5i.h"

#include <stdint.h>
#include <stdio.h>
#include <stdlib.h>
#include <string.h>
#include <time.h>

enum { MOST_RUNS = 99 };

static hid_t in_memory;

static void fail(const char *what, long status) {
    fprintf(stderr, "failed with %ld: %s\n", status, what);
    exit(1);
}

static void not_negative(long status, const char *what) {
    if (status < 0)
        fail(what, status);
}

static void is_done(h5i_status status, const char *what) {
    if (status != LIBH5I_DONE)
        fail(what, (long)status);
}

static void is_true(bool test, const char *what) {
    if (!test)
        fail(what, 0);
}

/* A call of libhdf5, and one of libh5i, that has to go well. */
#define H5(call) not_negative((long)(call), #call)
#define OURS(call) is_done(call, #call)
#define TRUE(test) is_true(test, #test)

#define TEXT(text) (const uint8_t *)(text), strlen(text)
#define LIST(list) list, sizeof(list) / sizeof *(list)
#define SLAB_OF(start, stride, count, block) LIST(start), LIST(stride), LIST(count), LIST(block)

#ifdef COUNT_INSTRUCTIONS
#include <valgrind/callgrind.h>

static int counts; /* how many files of counts were written */

/* Under callgrind the instructions from one call to the next are counted, and written to a file of their own. */
static double now(void) {
    static bool is_counting;
    if (is_counting) {
        CALLGRIND_DUMP_STATS;
        counts++;
    } else {
        CALLGRIND_ZERO_STATS;
    }
    is_counting = !is_counting;
    return 0;
}
#else
static double now(void) {
    struct timespec at;
    clock_gettime(CLOCK_MONOTONIC, &at);
    return (double)at.tv_sec + (double)at.tv_nsec * 1e-9;
}
#endif

/* The path of a link: 8 letters behind '/', in an order that looks like chance. Each number has its own. */
static inline const char *path_of(uint32_t number) {
    static char path[10] = "/";
    uint32_t bits = number * 2654435769u;
    for (int k = 0; k < 8; k++)
        path[1 + k] = (char)('a' + (bits >> (28 - 4 * k)) % 16);
    return path;
}

static void begin_libraries(void) {
    in_memory = H5Pcreate(H5P_FILE_ACCESS);
    H5(H5Pset_fapl_core(in_memory, 1 << 20, 0));
}

static hid_t new_file(const char *name) {
    hid_t file = H5Fcreate(name, H5F_ACC_TRUNC, H5P_DEFAULT, in_memory);
    H5(file);
    return file;
}

static h5i_session new_session(void) {
    h5i_session session = {0};
    OURS(h5i_create(&session));
    return session;
}

#ifndef COUNT_INSTRUCTIONS
static int by_size(const void *a, const void *b) {
    double x = *(const double *)a, y = *(const double *)b;
    return (x > y) - (x < y);
}

/* The median of times, which are sorted. */
static inline double middle_of(double *times, int runs) {
    qsort(times, (size_t)runs, sizeof *times, by_size);
    return times[runs / 2];
}

/* The beginning of a table's row: what is timed, and of each library the median, with the fastest and the slowest run. */
static inline void print_times(const char *name, double *theirs, double *ours, int runs) {
    double middle = middle_of(theirs, runs), own = middle_of(ours, runs);
    printf("| %s | %.4f (%.4f to %.4f) | %.4f (%.4f to %.4f) | %.2f |", name, middle, theirs[0], theirs[runs - 1], own, ours[0], ours[runs - 1],
           middle / own);
}

/* The beginning of a table's head. */
static inline void print_head(void) {
    unsigned version[3];
    H5(H5get_libversion(&version[0], &version[1], &version[2]));
    printf("| Phase | libhdf5 %u.%u.%u | libh5i | libhdf5 / libh5i |", version[0], version[1], version[2]);
}
#endif

#endif
