/* Calls of every.c: a segment is frozen, and nothing alters it any more. */
#include "every.h"

/* A segment is frozen: only its mark changes, the second time nothing does, and calls 4, 6 and 2 leave it. */
static void frozen_segment(size_t node, size_t segment, const gelmuszta_handle *reader, const gelmuszta_handle *writer) {
    const size_t mark = mark_at(node, writer->bytes[2], segment);
    gelmuszta_image before = image;
    uint8_t buffer[9] = {0};
    size_t from = 99, length = 99;

    expect("freeze absent", gelmuszta_freeze(&image, node, segment + 1, writer) == GELMUSZTA_ABSENT);
    expect("freeze by reader", gelmuszta_freeze(&image, node, segment, reader) == GELMUSZTA_VIOLATED);
    expect("not frozen yet", same_image(&image, &before) && image.bytes[mark] == 0);
    expect("freeze", gelmuszta_freeze(&image, node, segment, writer) == GELMUSZTA_DONE);
    before.bytes[mark] = 1;
    expect("mark", same_image(&image, &before));
    expect("freeze twice", gelmuszta_freeze(&image, node, segment, writer) == GELMUSZTA_DONE && same_image(&image, &before));
    expect("delete frozen", gelmuszta_delete_segment(&image, node, segment, writer) == GELMUSZTA_FROZEN);
    expect("write frozen", gelmuszta_write(&image, &memory, segment, writer, data("thaw!!!"), 7) == GELMUSZTA_FROZEN);
    expect("delete its cluster", gelmuszta_delete_cluster(&image, node, writer) == GELMUSZTA_FROZEN);
    expect("make it anew", gelmuszta_new_segment(&image, &memory, node, segment, 7, writer) == GELMUSZTA_PRESENT);
    expect("as it was frozen", same_image(&image, &before));
    expect("read frozen", gelmuszta_read(&image, &memory, segment, reader, buffer, sizeof buffer, &length) == GELMUSZTA_DONE
                              && length == 5 && memcmp(buffer, "cited\0", 6) == 0);
    expect("look at frozen", gelmuszta_look(&image, node, segment, reader, &from, &length) == GELMUSZTA_DONE && length == 5
                                 && memcmp(memory.bytes + from, "cited", 5) == 0);
}

/* A mark is 0 or 1, and 1 only where the segment is present. */
static void wrong_mark(size_t at, uint8_t mark, size_t segment, const gelmuszta_handle *writer) {
    const uint8_t right = image.bytes[at];

    image.bytes[at] = mark;
    expect("wrong mark", !gelmuszta_sound(&image));
    expect("freeze", gelmuszta_freeze(&image, writer->bytes[1], segment, writer) == GELMUSZTA_UNSOUND);
    expect("mark left alone", image.bytes[at] == mark);
    image.bytes[at] = right;
}

void freezing(size_t node, size_t local, size_t segment) {
    const gelmuszta_password first = {{5}}, second = {{6}};
    gelmuszta_handle reader, writer;

    expect("made", !gelmuszta_new_cluster(&image, node, local, GELMUSZTA_WIDTH_8, &first, &second, &reader, &writer)
                       && !gelmuszta_new_segment(&image, &memory, node, segment, 5, &writer)
                       && !gelmuszta_write(&image, &memory, segment, &writer, data("cited"), 5));
    frozen_segment(node, segment, &reader, &writer);
    wrong_mark(mark_at(node, local, segment), 2, segment, &writer);
    wrong_mark(mark_at(node, local, segment + 1), 1, segment, &writer);
    wrong_mark(mark_at(node, local + 1, segment), 1, segment, &writer);
    expect("still frozen", gelmuszta_sound(&image)
                               && gelmuszta_delete_segment(&image, node, segment, &writer) == GELMUSZTA_FROZEN);
}
