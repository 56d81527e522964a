/* Each allocation of a session's calls is refused in turn: every call then is done or answers LIBH5I_NO_MEMORY, what is refused has changed
 * nothing, and nothing leaks.
 *
 *     cc -g -fsanitize=address -Wl,--wrap=malloc,--wrap=realloc -I. sweep.c ../../build/libh5i.a -o sweep && ./sweep
 */
#include "h5i.h"

#include <stdio.h>
#include <stdlib.h>
#include <string.h>

#define TEXT(text) (const uint8_t *)(text), strlen(text)
#define LIST(list) list, sizeof(list) / sizeof *(list)

static long left = -1, made; /* -1: no allocation is refused */

void *__real_malloc(size_t size);
void *__real_realloc(void *at, size_t size);

void *__wrap_malloc(size_t size) {
    made++;
    return left >= 0 && left-- == 0 ? NULL : __real_malloc(size);
}

void *__wrap_realloc(void *at, size_t size) {
    made++;
    return left >= 0 && left-- == 0 ? NULL : __real_realloc(at, size);
}

static uint8_t before[1 << 16], after[1 << 16];

/* The bytes of the session, and how many they are. */
static size_t image(h5i_session *session, uint8_t *room) {
    size_t length = h5i_image_length(session);
    if (length > sizeof before || h5i_image(session, room, length) != LIBH5I_DONE)
        abort();
    return length;
}

static const uint64_t start[] = {1, 0}, stride[] = {1, 2}, count[] = {2, 3}, block[] = {1, 1};
static const int16_t values[] = {1, 2, 3, 4, 5, 6};
static const h5i_type int16 = {2, true, false};

/* The call of this number in the list of all. */
static h5i_status call(h5i_session *s, int number) {
    static const uint64_t dims[] = {4, 6}, maxima[] = {LIBH5I_UNLIMITED, 6}, larger[] = {5, 6}, two[] = {2};
    static const uint32_t chunks[] = {2, 3};
    static h5i_about about;
    static uint8_t room[24];
    static uint32_t view;
    switch (number) {
    case 0: return h5i_create_group(s, TEXT("/g"));
    case 1: return h5i_create_array(s, TEXT("/g/d"), int16, LIST(dims), LIST(maxima), LIBH5I_CHUNKED, LIST(chunks), (const uint8_t *)values, 2);
    case 2: return h5i_open_view(s, TEXT("/g/d"), LIST(start), LIST(stride), LIST(count), LIST(block), &view);
    case 3: return h5i_write(s, TEXT("/g/d"), LIST(start), LIST(stride), LIST(count), LIST(block), int16, (const uint8_t *)values, sizeof values);
    case 4: return h5i_read(s, TEXT("/g/d"), LIST(start), LIST(stride), LIST(count), LIST(block), room, 12);
    case 5: return h5i_resize(s, TEXT("/g/d"), LIST(larger));
    case 6: return h5i_set_attribute(s, TEXT("/g"), TEXT("unit"), int16, LIST(two), (const uint8_t *)values, 4);
    case 7: return h5i_hard_link(s, TEXT("/g/d"), TEXT("/h"));
    case 8: return h5i_soft_link(s, TEXT("/nowhere"), TEXT("/s"));
    case 9: return h5i_list(s, TEXT("/"));
    case 10: return h5i_attributes(s, TEXT("/g"));
    case 11: return h5i_link_text(s, TEXT("/s"));
    case 12: return h5i_stat(s, TEXT("/g/d"), &about);
    case 13: return h5i_show(s, view, room, 12);
    case 14: return h5i_remove_attribute(s, TEXT("/g"), TEXT("unit"));
    case 15: return h5i_create_group(s, TEXT("/g/deeper"));
    case 16: return h5i_create_array(s, TEXT("/g/deeper/c"), int16, LIST(two), LIST(two), LIBH5I_CONTIGUOUS, chunks, 0, (const uint8_t *)values, 2);
    case 17: return h5i_soft_link(s, TEXT("/s"), TEXT("/g/deeper/s"));
    /* A group goes with all that it holds, and one name of an array whose view stays. */
    case 18: return h5i_unlink(s, TEXT("/g"));
    case 19: return h5i_show(s, view, room, 12);
    case 20: return h5i_unlink(s, TEXT("/h"));
    case 21: return h5i_repack(s);
    default: return h5i_close_view(s, view);
    }
}

enum { CALLS = 23 };

/* Runs all calls, the wanted one with an allocation refused; says whether it was refused for that. */
static bool refused(int wanted, long at) {
    h5i_session session = {0};
    if (h5i_create(&session) != LIBH5I_DONE)
        abort();
    bool was_refused = false;
    for (int number = 0; number < CALLS; number++) {
        size_t length = image(&session, before);
        left = number == wanted ? at : -1;
        h5i_status status = call(&session, number);
        left = -1;
        if (status == LIBH5I_NO_MEMORY && number == wanted) {
            was_refused = true;
            if (image(&session, after) != length || memcmp(before, after, length) != 0) {
                printf("call %d, allocation %ld: it is refused, and has changed the file\n", number, at);
                exit(1);
            }
            status = call(&session, number);
        }
        if (status != LIBH5I_DONE) {
            printf("call %d, allocation %ld: status %u\n", number, at, (unsigned)status);
            exit(1);
        }
    }
    size_t length = image(&session, before);
    h5i_close(&session);
    uint64_t place;
    h5i_session opened = {0};
    if (h5i_open(&opened, before, length, &place) != LIBH5I_DONE)
        abort();
    h5i_close(&opened);
    return was_refused;
}

int main(void) {
    long tried = 0;
    for (int number = 0; number < CALLS; number++)
        for (long at = 0; refused(number, at); at++)
            tried++;
    /* Opening, in a session that stays closed. */
    h5i_session session = {0};
    uint64_t place;
    if (h5i_create(&session) != LIBH5I_DONE)
        abort();
    size_t length = image(&session, before);
    h5i_close(&session);
    for (long at = 0;; at++, tried++) {
        left = at;
        h5i_status status = h5i_open(&session, before, length, &place);
        left = -1;
        if (status == LIBH5I_DONE)
            break;
        if (status != LIBH5I_NO_MEMORY || session.is_open)
            abort();
    }
    h5i_close(&session);
    printf("%ld allocations were refused in turn; nothing has changed by it\n", tried);
    return 0;
}
