/* Calls of every.c: clusters of four, eight and sixteen segments, with handles of 21, 23 and 27 bytes. */
#include "every.h"

/* What a width comes to, written out. */
struct width {
    gelmuszta_width segments;
    size_t length;
    uint16_t full;
    uint8_t password[4]; /* of a handle for the last segment alone: how its password begins, and its selector */
    uint8_t last[8];
    uint8_t cut[8]; /* the selector from which segments 0, 1 and 2 were taken, one by one */
};

static const struct width each_width[3] = {
    {GELMUSZTA_WIDTH_4, 21, 0x000f, {0xa9, 0xd6, 0x53, 0xfc}, {0xf8, 0xff}, {0xde, 0xfb}},
    {GELMUSZTA_WIDTH_8, 23, 0x00ff, {0x4e, 0x25, 0x59, 0xdf}, {0x80, 0xff, 0xff, 0xff}, {0xfe, 0xfd, 0xfb, 0xff}},
    {GELMUSZTA_WIDTH_16, 27, 0xffff, {0x31, 0x97, 0x44, 0xac}, {0x80, 0x00, 0xff, 0xff, 0xff, 0xff, 0xff, 0xff},
     {0xff, 0xfe, 0xff, 0xfd, 0xff, 0xfb, 0xff, 0xff}},
};
static const gelmuszta_password first_password = {{11}}, second_password = {{12}}, third_password = {{13}};

/* A new cluster by the first two passwords, or by one of them twice. */
static gelmuszta_number make(size_t node, size_t local, gelmuszta_width width, int twice, gelmuszta_handle *reader,
                             gelmuszta_handle *writer) {
    const gelmuszta_password *second = twice ? &first_password : &second_password;

    return gelmuszta_new_cluster(&image, node, local, width, &first_password, second, reader, writer);
}

/* Any other width is refused, after a wrong place and before a cluster that is there and two equal passwords. */
static void other_widths(size_t node, size_t local) {
    const gelmuszta_width others[] = {0, 1, 3, 5, 7, 9, 15, 17, 32, 256 + 8, (size_t)-1};
    const gelmuszta_image before = image;
    gelmuszta_handle first, second;

    for (size_t i = 0; i < sizeof others / sizeof *others; i++) {
        memset(&first, 99, sizeof first);
        memset(&second, 99, sizeof second);
        expect("another width", make(node, local, others[i], 0, &first, &second) == GELMUSZTA_FIELD && same(&first, &none)
                                    && same(&second, &none));
        expect("equal passwords", make(node, local, others[i], 1, &first, &second) == GELMUSZTA_FIELD);
        expect("no such node", make(4, local, others[i], 0, &first, &second) == GELMUSZTA_NO_SUCH_PLACE);
    }
    expect("not made", same_image(&image, &before));
}

/* The segment with the number of the width is none of the cluster's. */
static void beyond(size_t node, size_t segment, const gelmuszta_handle *reader, const gelmuszta_handle *writer) {
    uint8_t buffer[4];
    size_t from, length;

    expect("new beyond", gelmuszta_new_segment(&image, &memory, node, segment, 4, writer) == GELMUSZTA_FIELD);
    expect("delete beyond", gelmuszta_delete_segment(&image, node, segment, writer) == GELMUSZTA_FIELD);
    expect("read beyond", gelmuszta_read(&image, &memory, segment, reader, buffer, 4, &length) == GELMUSZTA_FIELD);
    expect("write beyond", gelmuszta_write(&image, &memory, segment, writer, data("four"), 4) == GELMUSZTA_FIELD);
    expect("freeze beyond", gelmuszta_freeze(&image, node, segment, writer) == GELMUSZTA_FIELD);
    expect("look beyond", gelmuszta_look(&image, node, segment, reader, &from, &length) == GELMUSZTA_FIELD);
}

/* A handle for the last segment alone: its bytes, the mask's upper bits, and what it opens. */
static gelmuszta_handle last_alone(size_t node, const struct width *width, const gelmuszta_handle *reader) {
    const uint16_t mask = (uint16_t)(1u << (width->segments - 1)), above = (uint16_t)~width->full;
    gelmuszta_handle weaker, expected, given;
    gelmuszta_password converted;
    uint8_t buffer[5] = {0}, count = 99;
    size_t from, length;

    gelmuszta_convert(&first_password, mask, &converted);
    expected = with_password(reader, &converted);
    memcpy(expected.bytes + 19, width->last, sizeof width->last);
    expect("weaken", gelmuszta_weaken(reader, mask, &weaker, &count) == GELMUSZTA_DONE && count == 1
                         && same(&weaker, &expected));
    expect("its password", memcmp(weaker.bytes + 3, width->password, sizeof width->password) == 0);
    expect("bits above the width", gelmuszta_weaken(reader, mask | above, &given, &count) == GELMUSZTA_DONE && count == 1
                                       && same(&given, &expected));
    expect("those alone", gelmuszta_weaken(reader, above, &given, &count) == GELMUSZTA_EMPTY && count == 0
                              && same(&given, &none));
    expect("all bits", gelmuszta_weaken(reader, 0xffff, &given, &count) == GELMUSZTA_DONE && count == width->segments
                           && same(&given, reader));
    expect("read", gelmuszta_read(&image, &memory, width->segments - 1, &weaker, buffer, sizeof buffer, &length)
                       == GELMUSZTA_DONE && length == 4 && memcmp(buffer, "last\0", 5) == 0);
    expect("look", gelmuszta_look(&image, node, width->segments - 1, &weaker, &from, &length) == GELMUSZTA_DONE
                       && length == 4 && memcmp(memory.bytes + from, "last", 4) == 0);
    expect("read another", gelmuszta_read(&image, &memory, 0, &weaker, buffer, sizeof buffer, &length)
                               == GELMUSZTA_NOT_REFERENCED);
    expect("reduce", gelmuszta_reduce(&image, GELMUSZTA_MODE_READ, &weaker, &given) == GELMUSZTA_DONE
                         && same(&given, &weaker));
    return weaker;
}

/* Segments are taken one by one, until no subselector is flat or none is left. */
static void cut(const struct width *width, const gelmuszta_handle *reader) {
    const int four = width->segments == GELMUSZTA_WIDTH_4;
    const gelmuszta_number end = four ? GELMUSZTA_EMPTY : GELMUSZTA_SPENT;
    gelmuszta_handle handle = *reader, given = *reader;
    gelmuszta_number number = GELMUSZTA_DONE;
    uint8_t count;
    size_t cuts = 0;

    for (; number == GELMUSZTA_DONE; cuts++) {
        handle = given;
        number = gelmuszta_weaken(&handle, (uint16_t)~(1u << cuts), &given, &count);
        if (cuts == 2) expect("three cuts", memcmp(given.bytes + 19, width->cut, sizeof width->cut) == 0);
    }
    expect("cuts", number == end && cuts == (four ? 4 : 5) && same(&given, &none));
    expect("cut", gelmuszta_validate(&image, GELMUSZTA_MODE_READ, &handle) == GELMUSZTA_DONE);
}

/* Joined: the last segment and the first; all of the width is too much. */
static void joined(const struct width *width, const gelmuszta_handle *reader, const gelmuszta_handle *last) {
    const uint16_t ends = (uint16_t)(1u | 1u << (width->segments - 1)), rest = (uint16_t)(width->full >> 1);
    gelmuszta_handle first, both, expected, others;
    uint8_t count;

    expect("weaken", !gelmuszta_weaken(reader, 1, &first, &count) && !gelmuszta_weaken(reader, ends, &expected, &count)
                         && !gelmuszta_weaken(reader, rest, &others, &count));
    expect("join", gelmuszta_join(&image, GELMUSZTA_MODE_READ, &first, last, &both) == GELMUSZTA_DONE
                       && same(&both, &expected));
    expect("join to the whole", gelmuszta_join(&image, GELMUSZTA_MODE_READ, &others, last, &both) == GELMUSZTA_WHOLE
                                    && same(&both, &none));
}

/* Three handles of one width and part of a fourth. A width that is none of the three has no handles. */
static void many(const struct width *width, const gelmuszta_handle *reader, const gelmuszta_handle *writer,
                 const gelmuszta_handle *last) {
    const size_t bytes = GELMUSZTA_HANDLE_BYTES(width->segments);
    uint8_t handles[4 * GELMUSZTA_HANDLE_MAX] = {0}, numbers[4] = {99, 99, 99, 99};

    expect("length", bytes == width->length && reader->length == bytes);
    memcpy(handles, reader->bytes, bytes);
    memcpy(handles + bytes, writer->bytes, bytes);
    memcpy(handles + 2 * bytes, last->bytes, bytes);
    expect("no width", gelmuszta_validate_all(&image, GELMUSZTA_MODE_READ, 7, handles, 4 * bytes - 1, numbers,
                                              sizeof numbers) == 0 && numbers[0] == 99);
    expect("validate all", gelmuszta_validate_all(&image, GELMUSZTA_MODE_READ, width->segments, handles, 4 * bytes - 1,
                                                  numbers, sizeof numbers) == 3
                               && numbers[0] == 0 && numbers[1] == GELMUSZTA_VIOLATED && numbers[2] == 0
                               && numbers[3] == 99);
}

/* An active cluster has one of the three widths, an inactive one 0, and no segment from the width on is present. */
static void not_sound(const char *what, size_t at, uint8_t value, const gelmuszta_handle *handle) {
    const uint8_t right = image.bytes[at];

    image.bytes[at] = value;
    expect(what, !gelmuszta_sound(&image) && gelmuszta_validate(&image, GELMUSZTA_MODE_READ, handle) == GELMUSZTA_UNSOUND);
    image.bytes[at] = right;
    expect("sound again", gelmuszta_sound(&image));
}

static void one_width(size_t node, size_t local, const struct width *width) {
    const size_t last = width->segments - 1, record = record_at(node, local);
    const uint8_t half = (uint8_t)(width->segments / 2);
    gelmuszta_handle reader, writer, weaker, given, expected = primary(node, local, width->segments, &first_password);

    other_widths(node, local);
    expect("new cluster", make(node, local, width->segments, 0, &reader, &writer) == GELMUSZTA_DONE
                              && same(&reader, &expected));
    expect("its record", image.bytes[record] == 1 && image.bytes[record + 1] == width->segments);
    expect("in use", make(node, local, GELMUSZTA_WIDTH_4, 0, &given, &weaker) == GELMUSZTA_IN_USE);
    other_widths(node, local);
    expect("new segment", gelmuszta_new_segment(&image, &memory, node, last, 4, &writer) == GELMUSZTA_DONE);
    expect("write", gelmuszta_write(&image, &memory, last, &writer, data("last"), 4) == GELMUSZTA_DONE);
    beyond(node, width->segments, &reader, &writer);
    weaker = last_alone(node, width, &reader);
    cut(width, &reader);
    joined(width, &reader, &weaker);
    many(width, &reader, &writer, &weaker);
    not_sound("a width of five", record + 1, 5, &reader);
    not_sound("active without a width", record + 1, 0, &reader);
    not_sound("a width below a segment", record + 1, half, &reader);
    not_sound("inactive with a width", record_at(node, local + 1) + 1, half, &reader);
    if (last < 15) not_sound("a segment beyond", segment_at(node, local, last + 1) + 3, 1, &reader);
    expected = primary(node, local, width->segments, &third_password);
    expect("new password", gelmuszta_new_password(&image, GELMUSZTA_MODE_READ, &reader, &third_password, &given)
                               == GELMUSZTA_DONE && same(&given, &expected));
    expect("revoked", gelmuszta_validate(&image, GELMUSZTA_MODE_READ, &weaker) == GELMUSZTA_VIOLATED);
    expect("freeze", gelmuszta_freeze(&image, node, last, &writer) == GELMUSZTA_DONE
                         && image.bytes[mark_at(node, local, last)]);
    expect("frozen", gelmuszta_delete_segment(&image, node, last, &writer) == GELMUSZTA_FROZEN
                         && gelmuszta_delete_cluster(&image, node, &writer) == GELMUSZTA_FROZEN);
}

void widths(size_t node) {
    for (size_t i = 0; i < 3; i++) one_width(node, 2 * i, each_width + i);
}
