/* Calls every function of the library, with arguments that all differ, and checks what it gives. */
#include "every.h"

gelmuszta_image image;
gelmuszta_memory memory;
const gelmuszta_handle none = {{0}, 0};
static int wrong = 0;

void expect(const char *what, int holds) {
    if (!holds) {
        printf("%s: not as expected\n", what);
        wrong++;
    }
}

int same(const gelmuszta_handle *one, const gelmuszta_handle *other) { return memcmp(one, other, sizeof *one) == 0; }
int same_image(const gelmuszta_image *one, const gelmuszta_image *other) { return memcmp(one, other, sizeof *one) == 0; }

gelmuszta_handle primary(size_t node, size_t local, gelmuszta_width width, const gelmuszta_password *password) {
    gelmuszta_handle handle = none;

    handle.length = (uint8_t)GELMUSZTA_HANDLE_BYTES(width);
    handle.bytes[1] = (uint8_t)node;
    handle.bytes[2] = (uint8_t)local;
    memset(handle.bytes + 19, 255, width / 2);
    return with_password(&handle, password);
}

gelmuszta_password password_of(const gelmuszta_handle *handle) {
    gelmuszta_password password;

    memcpy(password.bytes, handle->bytes + 3, sizeof password.bytes);
    return password;
}

gelmuszta_handle with_password(const gelmuszta_handle *handle, const gelmuszta_password *password) {
    gelmuszta_handle changed = *handle;

    memcpy(changed.bytes + 3, password->bytes, sizeof password->bytes);
    return changed;
}

/* Modes are judged whole: 257 and 258 are those of the two handles in their lowest byte alone. */
static void wide_mode(gelmuszta_mode mode, const gelmuszta_handle *handle) {
    const gelmuszta_password password = {{8}};
    gelmuszta_handle given;
    gelmuszta_number number = 99;

    expect("mode of validate", gelmuszta_validate(&image, mode, handle) == GELMUSZTA_FIELD);
    expect("mode of validate all", gelmuszta_validate_all(&image, mode, GELMUSZTA_WIDTH_8, handle->bytes, handle->length,
                                                          &number, 1) == 1 && number == GELMUSZTA_FIELD);
    expect("mode of reduce", gelmuszta_reduce(&image, mode, handle, &given) == GELMUSZTA_FIELD && same(&given, &none));
    expect("mode of new password", gelmuszta_new_password(&image, mode, handle, &password, &given) == GELMUSZTA_FIELD
                                       && same(&given, &none));
    expect("mode of join", gelmuszta_join(&image, mode, handle, handle, &given) == GELMUSZTA_FIELD && same(&given, &none));
}

/* How many bytes of a segment are odd, counted where they lie, as a spin counter passes over its strip. A refused look shows
 * an empty part, and none is counted. */
static size_t odd_bytes(size_t current, size_t segment, const gelmuszta_handle *handle, gelmuszta_number number) {
    size_t from = 99, length = 99, odd = 0;

    expect("look", gelmuszta_look(&image, current, segment, handle, &from, &length) == number);
    for (size_t i = 0; i < length; i++) odd += memory.bytes[from + i] & 1u;
    return odd;
}

/* A mode gets the password of `next`, which is then its primary handle; done, the image changes in that password alone. */
static void renew(const char *what, gelmuszta_mode mode, const gelmuszta_handle *handle, const gelmuszta_handle *next,
                  gelmuszta_number number) {
    const size_t at = record_at(handle->bytes[1], handle->bytes[2]) + (mode == GELMUSZTA_MODE_READ ? 2 : 18);
    const gelmuszta_password password = password_of(next);
    gelmuszta_image after = image;
    gelmuszta_handle given;

    if (number == GELMUSZTA_DONE) memcpy(after.bytes + at, password.bytes, sizeof password.bytes);
    expect(what, gelmuszta_new_password(&image, mode, handle, &password, &given) == number
                     && same(&given, number ? &none : next) && same_image(&image, &after));
}

/* What a handle comes to for reading and for writing, alone and with segment 5, to which a write puts `what`. */
static void opens(const char *what, const gelmuszta_handle *handle, gelmuszta_number reads, gelmuszta_number writes) {
    uint8_t buffer[6] = {0};
    size_t length;

    expect(what, gelmuszta_validate(&image, GELMUSZTA_MODE_READ, handle) == reads
                     && gelmuszta_validate(&image, GELMUSZTA_MODE_WRITE, handle) == writes
                     && gelmuszta_write(&image, &memory, 5, handle, data(what), 6) == writes
                     && gelmuszta_read(&image, &memory, 5, handle, buffer, 6, &length) == reads
                     && (reads || writes || memcmp(buffer, what, 6) == 0));
}

/* A mode's own password is no new one, the other mode's is: one handle then opens both, until the mode gets its own back. */
static void one_handle(gelmuszta_mode mode, const gelmuszta_handle *reader, const gelmuszta_handle *writer) {
    const int reading = mode == GELMUSZTA_MODE_READ;
    const gelmuszta_handle *own = reading ? reader : writer, *other = reading ? writer : reader;

    renew("own password", mode, own, own, GELMUSZTA_OLD_PASSWORD);
    renew("the other mode's password", mode, own, other, GELMUSZTA_DONE);
    opens("handle of both", other, GELMUSZTA_DONE, GELMUSZTA_DONE);
    opens("handle of none", own, GELMUSZTA_VIOLATED, GELMUSZTA_VIOLATED);
    renew("own to read, while equal", GELMUSZTA_MODE_READ, other, other, GELMUSZTA_OLD_PASSWORD);
    renew("own to write, while equal", GELMUSZTA_MODE_WRITE, other, other, GELMUSZTA_OLD_PASSWORD);
    renew("two passwords again", mode, other, own, GELMUSZTA_DONE);
    opens("reader again", reader, GELMUSZTA_DONE, GELMUSZTA_VIOLATED);
    opens("writer again", writer, GELMUSZTA_VIOLATED, GELMUSZTA_DONE);
}

/* Three handles of 23 bytes one after the other, and a byte of a fourth. */
static void many(const gelmuszta_handle *reader, const gelmuszta_handle *writer, const gelmuszta_handle *weaker) {
    uint8_t handles[3 * GELMUSZTA_HANDLE_BYTES(GELMUSZTA_WIDTH_8) + 1] = {0}, numbers[4] = {99, 99, 99, 99};

    memcpy(handles, reader->bytes, 23);
    memcpy(handles + 23, writer->bytes, 23);
    memcpy(handles + 46, weaker->bytes, 23);
    expect("validate all", gelmuszta_validate_all(&image, GELMUSZTA_MODE_READ, GELMUSZTA_WIDTH_8, handles, sizeof handles,
                                                  numbers, sizeof numbers) == 3);
    expect("numbers", numbers[0] == 0 && numbers[1] == GELMUSZTA_VIOLATED && numbers[2] == 0 && numbers[3] == 99);
}

static void each(size_t node, size_t local, size_t segment, size_t size) {
    const gelmuszta_password first = {{3}}, second = {{4}}, third = {{7}};
    const uint16_t mask = 1u << 5;
    gelmuszta_password converted;
    uint8_t buffer[8] = {1, 1, 1, 1, 1, 1, 1, 1}, count = 99;
    gelmuszta_handle reader, writer, weaker, given;
    size_t from = 99, length = 99;

    expect("twins", gelmuszta_new_cluster(&image, node, local, GELMUSZTA_WIDTH_8, &third, &third, &reader, &writer)
                        == GELMUSZTA_TWINS && same(&reader, &none) && same(&writer, &none));
    expect("new cluster", gelmuszta_new_cluster(&image, node, local, GELMUSZTA_WIDTH_8, &first, &second, &reader, &writer)
                              == GELMUSZTA_DONE);
    expect("handles", reader.bytes[1] == node && reader.bytes[2] == local && reader.bytes[3] == 3 && writer.bytes[3] == 4
                          && writer.bytes[22] == 255 && writer.bytes[23] == 0 && writer.length == 23);
    expect("new segment", gelmuszta_new_segment(&image, &memory, node, segment, size, &writer) == GELMUSZTA_DONE);
    one_handle(GELMUSZTA_MODE_WRITE, &reader, &writer);
    one_handle(GELMUSZTA_MODE_READ, &reader, &writer);
    expect("write", gelmuszta_write(&image, &memory, segment, &writer, data("guards"), 6) == GELMUSZTA_DONE);
    expect("memory", memcmp(memory.bytes + 4096, "guards", 6) == 0);
    expect("weaken", gelmuszta_weaken(&reader, mask, &weaker, &count) == GELMUSZTA_DONE && count == 1);
    expect("weaken to nothing", gelmuszta_weaken(&weaker, (uint16_t)~mask, &given, &count) == GELMUSZTA_EMPTY && count == 0
                                    && same(&given, &none));
    gelmuszta_convert(&first, mask, &converted);
    expect("convert", memcmp(converted.bytes, weaker.bytes + 3, sizeof converted) == 0 && weaker.bytes[19] == mask);
    expect("read", gelmuszta_read(&image, &memory, segment, &weaker, buffer, sizeof buffer, &length) == GELMUSZTA_DONE);
    expect("bytes", length == size && memcmp(buffer, "guards\1\1", 8) == 0);
    expect("look", gelmuszta_look(&image, node, segment, &weaker, &from, &length) == GELMUSZTA_DONE);
    expect("part", from == 4096 && length == size && memcmp(memory.bytes + from, "guards", length) == 0);
    expect("look from elsewhere", gelmuszta_look(&image, node + 1, segment, &weaker, &from, &length)
                                      == GELMUSZTA_ELSEWHERE && from == 0 && length == 0);
    expect("count", odd_bytes(node, segment, &weaker, GELMUSZTA_DONE) == 4
                        && odd_bytes(node, segment + 1, &weaker, GELMUSZTA_NOT_REFERENCED) == 0);
    expect("reduce", gelmuszta_reduce(&image, GELMUSZTA_MODE_READ, &weaker, &given) == GELMUSZTA_DONE);
    expect("reduced", same(&given, &weaker));
    expect("validate", gelmuszta_validate(&image, GELMUSZTA_MODE_WRITE, &weaker) == GELMUSZTA_VIOLATED);
    many(&reader, &writer, &weaker);
    wide_mode(257, &reader);
    wide_mode(258, &writer);
    expect("new password", gelmuszta_new_password(&image, GELMUSZTA_MODE_READ, &reader, &third, &given) == GELMUSZTA_DONE
                               && given.bytes[3] == 7);
    expect("revoked", gelmuszta_read(&image, &memory, segment, &weaker, buffer, sizeof buffer, &length)
                          == GELMUSZTA_VIOLATED && length == 0);
    expect("revoked look", gelmuszta_look(&image, node, segment, &weaker, &from, &length) == GELMUSZTA_VIOLATED);
    expect("delete segment", gelmuszta_delete_segment(&image, node, segment, &writer) == GELMUSZTA_DONE);
    expect("delete cluster", gelmuszta_delete_cluster(&image, node, &writer) == GELMUSZTA_DONE);
}

/* Types without holes, the version of header and library, and words. */
static void about(void) {
    expect("types", sizeof(gelmuszta_image) == 3648 && sizeof(gelmuszta_memory) == 16384
                        && sizeof(gelmuszta_password) == 16 && sizeof(gelmuszta_handle) == 28);
    expect("version", gelmuszta_version() == GELMUSZTA_VERSION_NUMBER && GELMUSZTA_VERSION_NUMBER == 900
                          && strcmp(GELMUSZTA_VERSION, "0.9.0") == 0);
    expect("words", strcmp(gelmuszta_word(GELMUSZTA_DONE), "done") == 0
                        && strcmp(gelmuszta_word(GELMUSZTA_VIOLATED), "violated protection") == 0
                        && strcmp(gelmuszta_word(GELMUSZTA_LENGTH), "length") == 0
                        && strcmp(gelmuszta_word(26), "no such number") == 0
                        && strcmp(gelmuszta_word(255), "no such number") == 0);
}

int main(void) {
    const gelmuszta_image zeros = {{0}};
    const gelmuszta_password password = {{0}};
    const gelmuszta_handle handle = primary(0, 0, GELMUSZTA_WIDTH_8, &password);
    size_t from = 99, length = 99;

    about();
    memset(&image, 2, sizeof image);
    expect("damaged", gelmuszta_validate(&image, GELMUSZTA_MODE_READ, &handle) == GELMUSZTA_UNSOUND);
    expect("damaged look", gelmuszta_look(&image, 1, 5, &handle, &from, &length) == GELMUSZTA_UNSOUND && from == 0
                               && length == 0);
    expect("not sound", !gelmuszta_sound(&image));
    gelmuszta_start(&image);
    expect("start", same_image(&image, &zeros));
    expect("sound", gelmuszta_sound(&image));
    each(1, 2, 5, 6);
    expect("as at the start", same_image(&image, &zeros) && memcmp(memory.bytes + 4096, "guards", 6) == 0);
    freezing(3, 1, 4);
    joining(2, 6);
    widths(0);
    lengths(1);
    registers(3, 5);
    cutting(2);
    printf("%d wrong\n", wrong);
    return wrong != 0;
}
