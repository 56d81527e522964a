/* Makes a file, reads and writes a hyperslab of an array, follows it by a view, and writes the image to the file that is named.
 *
 *     cc -O2 demo.c -lh5i -o demo && ./demo e.h5
 */
#include "h5i.h"

#include <inttypes.h>
#include <stdio.h>
#include <stdlib.h>
#include <string.h>

#define TEXT(text) (const uint8_t *)(text), strlen(text)
#define LIST(list) list, sizeof(list) / sizeof *(list)
#define RAW(values) (uint8_t *)(values), sizeof(values)

static void done(h5i_status status, const char *what) {
    if (status != LIBH5I_DONE) {
        fprintf(stderr, "%s: status %" PRIu32 "\n", what, status);
        exit(1);
    }
}

int main(int count, char **words) {
    if (count != 2) {
        fprintf(stderr, "usage: demo FILE\n");
        return 2;
    }
    h5i_session session = {0};
    done(h5i_create(&session), "create");
    done(h5i_create_group(&session, TEXT("/run")), "create_group");

    const h5i_type int32 = {.size = 4, .is_signed = true};
    const uint64_t dims[] = {4, 6}, maxima[] = {LIBH5I_UNLIMITED, 6};
    const uint32_t chunks[] = {2, 3};
    const int32_t fill = -1;
    done(h5i_create_array(&session, TEXT("/run/times"), int32, LIST(dims), LIST(maxima), LIBH5I_CHUNKED, LIST(chunks), (const uint8_t *)&fill,
                          sizeof fill),
         "create_array");

    /* Every second cell of the rows 1 and 2, and a view of the same cells. */
    const uint64_t start[] = {1, 0}, stride[] = {1, 2}, size[] = {2, 3}, block[] = {1, 1};
    uint32_t view;
    done(h5i_open_view(&session, TEXT("/run/times"), LIST(start), LIST(stride), LIST(size), LIST(block), &view), "open_view");
    int16_t values[] = {10, 20, 30, 40, 50, 60};
    const h5i_type int16 = {.size = 2, .is_signed = true};
    done(h5i_write(&session, TEXT("/run/times"), LIST(start), LIST(stride), LIST(size), LIST(block), int16, RAW(values)), "write");

    int32_t shown[6];
    done(h5i_show(&session, view, RAW(shown)), "show");
    for (int k = 0; k < 6; k++)
        printf(k ? " %" PRId32 : "%" PRId32, shown[k]);
    puts("");

    const uint64_t none[] = {0, 0}, one[] = {1, 1}, all[] = {4, 6};
    int32_t cells[24];
    done(h5i_read(&session, TEXT("/run/times"), LIST(none), LIST(one), LIST(all), LIST(one), RAW(cells)), "read");
    for (int k = 0; k < 24; k++)
        printf("%" PRId32 "%c", cells[k], k % 6 == 5 ? '\n' : ' ');

    /* What is refused changes nothing. */
    const uint64_t wide[] = {4, 7};
    printf("resize above the maximum: %" PRIu32 "\n", h5i_resize(&session, TEXT("/run/times"), LIST(wide)));

    size_t length = h5i_image_length(&session);
    uint8_t *image = malloc(length);
    if (image == NULL)
        return 1;
    done(h5i_image(&session, image, length), "image");
    h5i_close(&session);
    FILE *out = fopen(words[1], "wb");
    bool is_written = out != NULL && fwrite(image, 1, length, out) == length && fclose(out) == 0;
    free(image);
    if (!is_written) {
        perror(words[1]);
        return 1;
    }
    return 0;
}
