/* Calls of every.c: two handles of one cluster are joined, and every number that refuses it. */
#include "every.h"

/* Joins two handles, in both orders: number and handle are the same. */
static void join(const char *what, gelmuszta_mode mode, const gelmuszta_handle *handle, const gelmuszta_handle *other,
                 gelmuszta_number number, const gelmuszta_handle *joined) {
    gelmuszta_handle first, second;

    memset(&first, 99, sizeof first);
    memset(&second, 99, sizeof second);
    expect(what, gelmuszta_join(&image, mode, handle, other, &first) == number
                     && gelmuszta_join(&image, mode, other, handle, &second) == number && same(&first, joined)
                     && same(&second, joined));
}

/* A join for reading that is refused, whichever of the two handles stands first. */
static void not_joined(const char *what, const gelmuszta_handle *handle, const gelmuszta_handle *other,
                       gelmuszta_number number) {
    join(what, GELMUSZTA_MODE_READ, handle, other, number, &none);
}

/* Segments 0 to 2 from one maker and 3 to 4 from another: one handle reads them all, no other, and writes none. */
static void joined_handles(const gelmuszta_handle *low, const gelmuszta_handle *high, const gelmuszta_password *password) {
    const gelmuszta_mode read = GELMUSZTA_MODE_READ;
    gelmuszta_handle both, narrow, reduced;
    gelmuszta_password converted;
    uint8_t buffer[4], count;
    size_t length;

    gelmuszta_convert(password, 0x1f, &converted);
    both = with_password(low, &converted);
    both.bytes[19] = 0x1f;
    join("join", read, low, high, GELMUSZTA_DONE, &both);
    join("join one within the other", read, &both, high, GELMUSZTA_DONE, &both);
    expect("reduce", !gelmuszta_weaken(high, 0x08, &narrow, &count) && !gelmuszta_reduce(&image, read, &narrow, &reduced));
    join("join with itself", read, &narrow, &narrow, GELMUSZTA_DONE, &reduced);
    expect("reduced", narrow.bytes[20] == 0xef && reduced.bytes[19] == 0x08 && reduced.bytes[20] == 255);
    expect("read joined", gelmuszta_read(&image, &memory, 0, &both, buffer, sizeof buffer, &length) == GELMUSZTA_DONE
                              && memcmp(buffer, "zero", 4) == 0);
    expect("read joined", gelmuszta_read(&image, &memory, 4, &both, buffer, sizeof buffer, &length) == GELMUSZTA_DONE
                              && memcmp(buffer, "four", 4) == 0);
    expect("read beside", gelmuszta_read(&image, &memory, 5, &both, buffer, sizeof buffer, &length)
                              == GELMUSZTA_NOT_REFERENCED);
    expect("write joined", gelmuszta_write(&image, &memory, 4, &both, buffer, sizeof buffer) == GELMUSZTA_VIOLATED);
}

/* Every number that a join is refused with, and some that come before others which apply too. */
static void handles_not_joined(const gelmuszta_handle *low, const gelmuszta_handle *reader, const gelmuszta_handle *writer) {
    gelmuszta_handle wrong_one = *reader, rest;
    uint8_t count;

    image.bytes[0] = 2;
    not_joined("join on a damaged image", low, reader, GELMUSZTA_UNSOUND);
    image.bytes[0] = 0;
    wrong_one.bytes[0] = 1;
    not_joined("join, no such node", low, &wrong_one, GELMUSZTA_NO_SUCH_PLACE);
    wrong_one.bytes[0] = 0;
    wrong_one.bytes[2] = 8;
    join("join, no such cluster", 3, low, &wrong_one, GELMUSZTA_NO_SUCH_PLACE, &none);
    wrong_one.bytes[2] = (uint8_t)(low->bytes[2] + 1);
    wrong_one.bytes[22] = 0;
    join("join, no such mode", 0, low, reader, GELMUSZTA_FIELD, &none);
    join("join, no such mode", 3, low, &wrong_one, GELMUSZTA_FIELD, &none);
    not_joined("join gapped", low, &wrong_one, GELMUSZTA_GAPPED);
    wrong_one.bytes[22] = 255;
    not_joined("join apart, in one node", low, &wrong_one, GELMUSZTA_APART);
    not_joined("join inactive", &wrong_one, &wrong_one, GELMUSZTA_INACTIVE);
    wrong_one = *reader;
    wrong_one.bytes[1] = 0;
    not_joined("join apart, in two nodes", low, &wrong_one, GELMUSZTA_APART);
    not_joined("join for another mode", low, writer, GELMUSZTA_VIOLATED);
    join("join for another mode", GELMUSZTA_MODE_WRITE, low, writer, GELMUSZTA_VIOLATED, &none);
    expect("the rest", !gelmuszta_weaken(reader, 0xf8, &rest, &count));
    not_joined("join to all eight", low, &rest, GELMUSZTA_WHOLE);
    not_joined("join with a primary handle", low, reader, GELMUSZTA_WHOLE);
    not_joined("join a primary handle with itself", reader, reader, GELMUSZTA_WHOLE);
}

void joining(size_t node, size_t local) {
    const gelmuszta_password first = {{9}}, second = {{10}};
    gelmuszta_handle reader, writer, low, high;
    gelmuszta_image before;
    gelmuszta_memory bytes;
    uint8_t count;

    expect("made", !gelmuszta_new_cluster(&image, node, local, GELMUSZTA_WIDTH_8, &first, &second, &reader, &writer)
                       && !gelmuszta_new_segment(&image, &memory, node, 0, 4, &writer)
                       && !gelmuszta_new_segment(&image, &memory, node, 4, 4, &writer)
                       && !gelmuszta_write(&image, &memory, 0, &writer, data("zero"), 4)
                       && !gelmuszta_write(&image, &memory, 4, &writer, data("four"), 4)
                       && !gelmuszta_weaken(&reader, 0x07, &low, &count) && !gelmuszta_weaken(&reader, 0x18, &high, &count));
    before = image;
    bytes = memory;
    joined_handles(&low, &high, &first);
    handles_not_joined(&low, &reader, &writer);
    expect("a join changes nothing", same_image(&image, &before) && memcmp(&memory, &bytes, sizeof memory) == 0);
}
