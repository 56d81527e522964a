/* An allocator of which one allocation is refused, over that of the C library. With libh5i.a in one shared library it is that of libh5i
 * alone, and its hidden names are nobody else's. Preloaded by itself it is a program's: the variable REFUSED says which allocation is refused,
 * and to the file that ASKED names goes how many were asked for.
 */
#include <fcntl.h>
#include <stddef.h>
#include <stdio.h>
#include <stdlib.h>

void *__libc_malloc(size_t size);
void *__libc_realloc(void *at, size_t size);
void __libc_free(void *at);

#define SHOWN __attribute__((visibility("default")))

/* So many allocations are made before one is refused, or none is where it is below 0; all that were asked for; and the blocks that are held. */
static long before = -1, asked, held;

static int is_refused(void) {
    asked++;
    return before >= 0 && before-- == 0;
}

void *malloc(size_t size) {
    void *at = is_refused() ? NULL : __libc_malloc(size);
    held += at != NULL;
    return at;
}

void *realloc(void *old, size_t size) {
    void *at = is_refused() ? NULL : __libc_realloc(old, size);
    held += at != NULL && old == NULL;
    return at;
}

void free(void *at) {
    held -= at != NULL;
    __libc_free(at);
}

/* Says after how many allocations one is refused: what was left of that before. */
SHOWN long refuse(long after) {
    long was = before;
    before = after;
    return was;
}

SHOWN long asked_for(void) { return asked; }

SHOWN long blocks_held(void) { return held; }

__attribute__((constructor)) static void begin(void) {
    const char *number = getenv("REFUSED");
    if (number)
        before = atol(number);
}

__attribute__((destructor)) static void end(void) {
    const char *path = getenv("ASKED");
    int file = path ? open(path, O_WRONLY | O_CREAT | O_TRUNC, 0666) : -1;
    if (file >= 0)
        dprintf(file, "%ld", asked);
}
