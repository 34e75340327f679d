/* Calls of every.c: handles of a wrong length, first of all, and of another width than their cluster's; handles from bytes
 * that came from elsewhere. */
#include "every.h"

static const gelmuszta_password first_password = {{14}}, second_password = {{15}};

/* What every call, 7 apart, comes to with one handle, `own` being the other one of a join: handles given are none, lengths
 * are 0, and nothing is altered. */
static void refused(const char *what, const gelmuszta_handle *handle, size_t node, size_t segment,
                    const gelmuszta_handle *own, gelmuszta_number number) {
    const gelmuszta_password password = {{16}};
    const gelmuszta_mode read = GELMUSZTA_MODE_READ;
    const gelmuszta_image before = image;
    const gelmuszta_memory bytes = memory;
    gelmuszta_handle reduced = *own, renewed = *own, one = *own, other = *own;
    uint8_t buffer[5] = "kept";
    size_t told = 99, from = 99, shown = 99;

    expect(what, gelmuszta_delete_cluster(&image, node, handle) == number
                     && gelmuszta_new_segment(&image, &memory, node, segment, 4, handle) == number
                     && gelmuszta_delete_segment(&image, node, segment, handle) == number
                     && gelmuszta_read(&image, &memory, segment, handle, buffer, 4, &told) == number
                     && gelmuszta_write(&image, &memory, segment, handle, data("four"), 4) == number
                     && gelmuszta_reduce(&image, read, handle, &reduced) == number
                     && gelmuszta_new_password(&image, read, handle, &password, &renewed) == number
                     && gelmuszta_freeze(&image, node, segment, handle) == number
                     && gelmuszta_join(&image, read, handle, own, &one) == number
                     && gelmuszta_join(&image, read, own, handle, &other) == number
                     && gelmuszta_look(&image, node, segment, handle, &from, &shown) == number
                     && gelmuszta_validate(&image, read, handle) == number);
    expect(what, same(&reduced, &none) && same(&renewed, &none) && same(&one, &none) && same(&other, &none));
    expect(what, told == 0 && from == 0 && shown == 0 && memcmp(buffer, "kept", 5) == 0);
    expect(what, same_image(&image, &before) && memcmp(&memory, &bytes, sizeof memory) == 0);
}

/* Call 7, which sees no store. */
static void weaken(const char *what, const gelmuszta_handle *handle, gelmuszta_number number) {
    gelmuszta_handle given;
    uint8_t count = 99;

    memset(&given, 99, sizeof given);
    expect(what, gelmuszta_weaken(handle, 0xffff, &given, &count) == number);
    expect(what, number ? same(&given, &none) && count == 0 : given.length == handle->length && count > 0);
}

/* Every length but three comes first, whatever else is wrong with handle, call or image. */
static void wrong_lengths(size_t node, const gelmuszta_handle *own) {
    const uint8_t active = image.bytes[0];
    gelmuszta_handle wrong = *own;

    for (unsigned length = 0; length <= 255; length++) {
        if (length == 21 || length == 23 || length == 27) continue;
        wrong.length = (uint8_t)length;
        refused("a wrong length", &wrong, node, 3, own, GELMUSZTA_LENGTH);
        refused("from nowhere", &wrong, 9, 99, own, GELMUSZTA_LENGTH);
        weaken("weaken a wrong length", &wrong, GELMUSZTA_LENGTH);
        image.bytes[0] = 2;
        refused("on a damaged image", &wrong, node, 3, own, GELMUSZTA_LENGTH);
        weaken("weaken beside a damaged image", &wrong, GELMUSZTA_LENGTH);
        image.bytes[0] = active;
    }
    image.bytes[0] = 2;
    refused("damaged", own, node, 3, own, GELMUSZTA_UNSOUND);
    image.bytes[0] = active;
    refused("what a refusal gave", &none, node, 3, own, GELMUSZTA_LENGTH);
}

/* A handle of another width than its cluster's, in every other way its primary handle, and what comes before. */
static void another_width(size_t node, size_t local, gelmuszta_width width, const gelmuszta_handle *own) {
    gelmuszta_handle handle = primary(node, local, width, &first_password);
    gelmuszta_number number = 99;

    refused("another width", &handle, node, 3, own, GELMUSZTA_LENGTH);
    expect("many of them", gelmuszta_validate_all(&image, GELMUSZTA_MODE_READ, width, handle.bytes, handle.length, &number, 1)
                               == 1 && number == GELMUSZTA_LENGTH);
    weaken("weaken it", &handle, GELMUSZTA_DONE);
    expect("a segment by the handle's width", gelmuszta_freeze(&image, node, width, &handle) == GELMUSZTA_FIELD);
    handle.bytes[3]++;
    refused("forged too", &handle, node, 3, own, GELMUSZTA_LENGTH);
    handle.bytes[handle.length - 1] = 0;
    refused("gapped too", &handle, node, 3, own, GELMUSZTA_GAPPED);
    handle = primary(node, local + 1, width, &first_password);
    refused("inactive", &handle, node, 3, &handle, GELMUSZTA_INACTIVE);
}

/* Bytes become the handle that they are, zeros behind its length, or none. What lies behind the length does not matter. */
static void from_elsewhere(const gelmuszta_handle *own) {
    uint8_t bytes[300];
    gelmuszta_handle handle, given;
    uint8_t count;

    memset(bytes, 77, sizeof bytes);
    memcpy(bytes, own->bytes, own->length);
    for (size_t length = 0; length <= sizeof bytes; length++) {
        memset(&handle, 99, sizeof handle);
        if (length == 21 || length == 23 || length == 27) {
            expect("held", gelmuszta_handle_of(bytes, length, &handle) == GELMUSZTA_DONE && handle.length == length
                               && memcmp(handle.bytes, bytes, length) == 0
                               && memcmp(handle.bytes + length, none.bytes, sizeof none.bytes - length) == 0);
        } else {
            expect("not held", gelmuszta_handle_of(bytes, length, &handle) == GELMUSZTA_LENGTH && same(&handle, &none));
        }
    }
    expect("its own bytes", gelmuszta_handle_of(bytes, own->length, &handle) == GELMUSZTA_DONE && same(&handle, own));
    memset(handle.bytes + own->length, 77, sizeof handle.bytes - own->length);
    expect("more behind it", gelmuszta_validate(&image, GELMUSZTA_MODE_READ, &handle) == GELMUSZTA_DONE
                                 && gelmuszta_weaken(&handle, 0xffff, &given, &count) == GELMUSZTA_DONE
                                 && same(&given, own));
}

void lengths(size_t node) {
    const gelmuszta_width all_widths[3] = {GELMUSZTA_WIDTH_4, GELMUSZTA_WIDTH_8, GELMUSZTA_WIDTH_16};
    gelmuszta_handle reader, writer, old;

    for (size_t i = 0; i < 3; i++) {
        expect("made", !gelmuszta_new_cluster(&image, node, 2 * i, all_widths[i], &first_password, &second_password, &reader,
                                              &writer)
                           && !gelmuszta_new_segment(&image, &memory, node, 3, 4, &writer));
        wrong_lengths(node, &reader);
        for (size_t j = 0; j < 3; j++)
            if (i != j) another_width(node, 2 * i, all_widths[j], &reader);
        from_elsewhere(&reader);
    }
    old = reader;
    expect("delete", gelmuszta_delete_cluster(&image, node, &writer) == GELMUSZTA_DONE);
    expect("made anew", !gelmuszta_new_cluster(&image, node, 4, GELMUSZTA_WIDTH_4, &first_password, &second_password, &reader,
                                               &writer));
    refused("made anew with another width", &old, node, 3, &reader, GELMUSZTA_LENGTH);
    expect("its own", gelmuszta_validate(&image, GELMUSZTA_MODE_READ, &reader) == GELMUSZTA_DONE);
}
