#include "gelmuszta.h"
#include <stdio.h>

static gelmuszta_image image;
static gelmuszta_memory memory;

int main(void) {
    const gelmuszta_password read = {{1}}, write = {{2}};
    const size_t node = 0, local = 2, segment = 5, size = 7;
    gelmuszta_handle reader, writer, weaker;
    gelmuszta_number number;
    uint8_t buffer[8], count;
    size_t length;

    gelmuszta_start(&image);
    if ((number = gelmuszta_new_cluster(&image, node, local, GELMUSZTA_WIDTH_8, &read, &write, &reader, &writer))
        || (number = gelmuszta_new_segment(&image, &memory, node, segment, size, &writer))
        || (number = gelmuszta_write(&image, &memory, segment, &writer, (const uint8_t *)"strip 9", size))
        || (number = gelmuszta_weaken(&reader, 1u << segment, &weaker, &count))
        || (number = gelmuszta_read(&image, &memory, segment, &weaker, buffer, sizeof buffer, &length))) {
        printf("%d: %s\n", number, gelmuszta_word(number));
        return 1;
    }
    printf("%zu bytes by a handle of %d: ", length, weaker.length);
    fwrite(buffer, 1, length, stdout);
    number = gelmuszta_write(&image, &memory, segment, &weaker, buffer, length);
    printf("\n%d: %s\n", number, gelmuszta_word(number));
    return 0;
}
