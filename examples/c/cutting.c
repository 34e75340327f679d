/* Calls of every.c: a handle is cut by two masks, one after the other, in either order, or once by the bits that both share.
 * The three handles differ, and have one reduction. */
#include "every.h"

/* What a width comes to, written out. */
struct cutting {
    gelmuszta_width segments;
    uint16_t before, first, second; /* the mask that the handle was cut by before, and the two masks */
    size_t kept;                    /* one of the segments that all three keep */
    uint8_t ways[3][8];             /* the selectors of first and second, second and first, once */
    uint8_t reduced[8];
    uint8_t one_flat[8]; /* a selector that takes segment 0 away three times over, which no weakening does */
};

static const struct cutting each_width[3] = {
    {GELMUSZTA_WIDTH_4, 0x0007, 0x000e, 0x0003, 1,
     {{0xe7, 0xfb}, {0xb7, 0xfe}, {0xa7, 0xff}},
     {0xf2, 0xff},
     {0xee, 0xfe}},
    {GELMUSZTA_WIDTH_8, 0x007f, 0x00f0, 0x003c, 4,
     {{0x7f, 0xf0, 0xbf, 0xff}, {0x7f, 0xbc, 0xf3, 0xff}, {0x7f, 0xb0, 0xff, 0xff}},
     {0x30, 0xff, 0xff, 0xff},
     {0xfe, 0xfe, 0xfe, 0xff}},
    {GELMUSZTA_WIDTH_16, 0x7fff, 0xfff0, 0x0fff, 9,
     {{0x7f, 0xff, 0xff, 0xf0, 0x8f, 0xff, 0xff, 0xff},
      {0x7f, 0xff, 0x8f, 0xff, 0xff, 0xf0, 0xff, 0xff},
      {0x7f, 0xff, 0x8f, 0xf0, 0xff, 0xff, 0xff, 0xff}},
     {0x0f, 0xf0, 0xff, 0xff, 0xff, 0xff, 0xff, 0xff},
     {0xff, 0xfe, 0xff, 0xfe, 0xff, 0xfe, 0xff, 0xff}},
};
static const gelmuszta_password read_password = {{21}}, write_password = {{22}};

/* A handle cut once. */
static gelmuszta_handle cut(const gelmuszta_handle *handle, uint16_t mask) {
    gelmuszta_handle given;
    uint8_t count = 0;

    expect("cut", gelmuszta_weaken(handle, mask, &given, &count) == GELMUSZTA_DONE && count > 0);
    return given;
}

/* What reading or writing a segment comes to, by the mode. */
static gelmuszta_number opened(gelmuszta_mode mode, size_t segment, const gelmuszta_handle *handle) {
    uint8_t buffer[3] = {'c', 'u', 't'};
    size_t length;

    return mode == GELMUSZTA_MODE_READ ? gelmuszta_read(&image, &memory, segment, handle, buffer, sizeof buffer, &length)
                                       : gelmuszta_write(&image, &memory, segment, handle, buffer, sizeof buffer);
}

/* A handle cut in the three ways: no two of what they give have the same bytes, and the reductions all have. */
static gelmuszta_handle three_ways(gelmuszta_mode mode, const gelmuszta_handle *old, uint16_t first, uint16_t second,
                                   gelmuszta_handle ways[3]) {
    const gelmuszta_handle after_first = cut(old, first), after_second = cut(old, second);
    gelmuszta_handle reduced[3];

    ways[0] = cut(&after_first, second);
    ways[1] = cut(&after_second, first);
    ways[2] = cut(old, (uint16_t)(first & second));
    for (size_t i = 0; i < 3; i++) {
        const gelmuszta_handle *other = &ways[(i + 1) % 3];

        expect("valid", gelmuszta_validate(&image, mode, &ways[i]) == GELMUSZTA_DONE);
        expect("three passwords", memcmp(ways[i].bytes + 3, other->bytes + 3, 16) != 0);
        expect("three selectors", memcmp(ways[i].bytes + 19, other->bytes + 19, 8) != 0);
        expect("reduced", gelmuszta_reduce(&image, mode, &ways[i], &reduced[i]) == GELMUSZTA_DONE);
        expect("one reduction", memcmp(&reduced[i], &reduced[0], sizeof reduced[i]) == 0);
    }
    return reduced[0];
}

/* All are done: the selectors, and what the three handles and their reduction open. */
static void all_done(const struct cutting *width, gelmuszta_mode mode, const gelmuszta_handle *primary) {
    const gelmuszta_handle old = cut(primary, width->before);
    gelmuszta_handle ways[3];
    const gelmuszta_handle reduced = three_ways(mode, &old, width->first, width->second, ways);

    expect("reduced selector", memcmp(reduced.bytes + 19, width->reduced, 8) == 0);
    expect("reduction opens", opened(mode, width->kept, &reduced) == GELMUSZTA_DONE
                                  && opened(mode, 0, &reduced) == GELMUSZTA_NOT_REFERENCED);
    for (size_t i = 0; i < 3; i++) {
        expect("selector", memcmp(ways[i].bytes + 19, width->ways[i], 8) == 0);
        expect("opens", opened(mode, width->kept, &ways[i]) == GELMUSZTA_DONE
                            && opened(mode, 0, &ways[i]) == GELMUSZTA_NOT_REFERENCED);
    }
}

/* One subselector is flat: one cut is done, and two are not, in either order. Once the handle is reduced, all are. */
static void one_flat(const struct cutting *width, gelmuszta_mode mode, const gelmuszta_handle *primary) {
    const uint16_t first = 0xfffd, second = 0xfffb, all_but_one = (uint16_t)((1u << width->segments) - 2);
    gelmuszta_handle old = *primary, after_first, after_second, once, given, reduced, ways[3];
    gelmuszta_password password;
    uint8_t count = 99;

    for (size_t i = 0; i < 3; i++) {
        const gelmuszta_password own = password_of(&old);

        gelmuszta_convert(&own, all_but_one, &password);
        old = with_password(&old, &password);
    }
    memcpy(old.bytes + 19, width->one_flat, 8);
    expect("made elsewhere", gelmuszta_validate(&image, mode, &old) == GELMUSZTA_DONE);
    after_first = cut(&old, first);
    after_second = cut(&old, second);
    once = cut(&old, first & second);
    expect("first and second", gelmuszta_weaken(&after_first, second, &given, &count) == GELMUSZTA_SPENT && count == 0
                                   && same(&given, &none));
    expect("second and first", gelmuszta_weaken(&after_second, first, &given, &count) == GELMUSZTA_SPENT && count == 0
                                   && same(&given, &none));
    expect("reduce", gelmuszta_reduce(&image, mode, &old, &given) == GELMUSZTA_DONE
                         && gelmuszta_reduce(&image, mode, &once, &reduced) == GELMUSZTA_DONE);
    given = three_ways(mode, &given, first, second, ways);
    expect("the same reduction", same(&given, &reduced));
}

void cutting(size_t node) {
    gelmuszta_handle reader, writer;
    gelmuszta_image before;

    for (size_t i = 0; i < 3; i++) {
        const struct cutting *width = each_width + i;

        expect("made", !gelmuszta_new_cluster(&image, node, i, width->segments, &read_password, &write_password, &reader,
                                              &writer)
                           && !gelmuszta_new_segment(&image, &memory, node, width->kept, 3, &writer));
        before = image;
        all_done(width, GELMUSZTA_MODE_READ, &reader);
        all_done(width, GELMUSZTA_MODE_WRITE, &writer);
        one_flat(width, GELMUSZTA_MODE_READ, &reader);
        one_flat(width, GELMUSZTA_MODE_WRITE, &writer);
        expect("no cut changes the image", same_image(&image, &before));
    }
}
