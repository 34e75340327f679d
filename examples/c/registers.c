/* Calls of every.c: a register of handles given out. Its handles, who can open which segment, and every number that refuses
 * it. */
#include "every.h"

#define HANDLE GELMUSZTA_HANDLE_BYTES(8)
#define MOST GELMUSZTA_ENTRIES_MAX
#define ENTRIES 9

/* Nine entries. 2 stands above 4, which it was weakened from; 3, 6 and 8 exclude nothing. */
static const uint8_t nine[] = {0, 0x3f, 4, 0x0f, 0, 0xff, 1, 0x2e, 3, 0xf0, 5, 0xf5, 2, 0x08, 7, 0x0c, 6, 0x80};

/* What each comes to: the entries on its way from the handle supplied down, then 0; the selector of its handle. */
static const struct {
    uint8_t way[6], selector[4];
} each_entry[ENTRIES] = {
    {{1}, {0x3f, 0xff, 0xff, 0xff}},          {{1, 4, 2}, {0x3f, 0xee, 0xdf, 0xff}},
    {{3}, {0xff, 0xff, 0xff, 0xff}},          {{1, 4}, {0x3f, 0xee, 0xff, 0xff}},
    {{3, 5}, {0xf0, 0xff, 0xff, 0xff}},       {{3, 5, 6}, {0xf0, 0xff, 0xff, 0xff}},
    {{1, 4, 2, 7}, {0x3f, 0xee, 0xdf, 0xf9}}, {{1, 4, 2, 7, 8}, {0x3f, 0xee, 0xdf, 0xf9}},
    {{3, 5, 6, 9}, {0xf0, 0x8f, 0xff, 0xff}},
};

/* Who can open each segment. */
static const struct {
    size_t count;
    uint8_t entries[6];
} each_segment[8] = {
    {2, {1, 3}},       {4, {1, 2, 3, 4}},    {4, {1, 2, 3, 4}}, {6, {1, 2, 3, 4, 7, 8}},
    {4, {1, 3, 5, 6}}, {5, {1, 3, 4, 5, 6}}, {3, {3, 5, 6}},    {4, {3, 5, 6, 9}},
};

/* The two buffers lent, both of 77s before a call. */
static uint8_t handles[MOST * HANDLE], openers[MOST];

static void lend(void) {
    memset(handles, 77, sizeof handles);
    memset(openers, 77, sizeof openers);
}

/* Whether a buffer of so many bytes is as it was lent, from one on. */
static int as_lent(const uint8_t *buffer, size_t from, size_t length) {
    while (from < length && buffer[from] == 77) from++;
    return from == length;
}

static gelmuszta_handle handle_of(size_t entry) {
    gelmuszta_handle handle;

    expect("held", gelmuszta_handle_of(handles + (entry - 1) * HANDLE, HANDLE, &handle) == GELMUSZTA_DONE);
    return handle;
}

/* The handle supplied, weakened by one mask of the nine after the other. */
static gelmuszta_handle weakened_along(const uint8_t *way, const gelmuszta_handle *handle) {
    gelmuszta_handle stronger, weaker = *handle;
    uint8_t count;

    for (; *way != 0; way++) {
        stronger = weaker;
        expect("single weakening", gelmuszta_weaken(&stronger, nine[2 * *way - 1], &weaker, &count) == GELMUSZTA_DONE);
    }
    return weaker;
}

/* The handle of an entry reads the segments that it can open, and no other. */
static void reads(const gelmuszta_handle *handle, size_t entry) {
    for (size_t segment = 0; segment < 8; segment++) {
        const int opener = memchr(each_segment[segment].entries, (int)entry, each_segment[segment].count) != NULL;
        uint8_t buffer[2] = {77, 77};
        size_t length = 99;
        const gelmuszta_number number = gelmuszta_read(&image, &memory, segment, handle, buffer, 2, &length);

        if (opener) {
            expect("opened", number == GELMUSZTA_DONE && length == 2 && buffer[0] == 's' && buffer[1] == '0' + segment);
        } else {
            expect("not opened", number == GELMUSZTA_NOT_REFERENCED && length == 0 && as_lent(buffer, 0, 2));
        }
    }
}

/* Every handle is that of single weakenings, and valid for reading alone. The bytes behind the last stay. */
static void handles_of_nine(const gelmuszta_handle *reader) {
    size_t told = 99;

    lend();
    expect("register", gelmuszta_register(reader, nine, sizeof nine, handles, sizeof handles, &told) == GELMUSZTA_DONE
                           && told == 0 && as_lent(handles, ENTRIES * HANDLE, sizeof handles));
    for (size_t entry = 1; entry <= ENTRIES; entry++) {
        const gelmuszta_handle handle = handle_of(entry), along = weakened_along(each_entry[entry - 1].way, reader);

        expect("as single weakenings", same(&handle, &along));
        expect("selector", memcmp(handle.bytes + 19, each_entry[entry - 1].selector, 4) == 0);
        expect("valid", gelmuszta_validate(&image, GELMUSZTA_MODE_READ, &handle) == GELMUSZTA_DONE
                            && gelmuszta_validate(&image, GELMUSZTA_MODE_WRITE, &handle) == GELMUSZTA_VIOLATED);
        reads(&handle, entry);
    }
}

/* The password of the handle supplied does not matter: its owner can ask with none. */
static void openers_of_nine(const gelmuszta_handle *reader) {
    const gelmuszta_password zeros = {{0}};
    const gelmuszta_handle without = with_password(reader, &zeros);
    const gelmuszta_handle *const asking[2] = {reader, &without};

    for (size_t i = 0; i < 16; i++) {
        const size_t segment = i / 2, expected = each_segment[segment].count;
        size_t count = 99, told = 99;

        lend();
        expect("openers", gelmuszta_openers(asking[i % 2], segment, nine, sizeof nine, openers, MOST, &count, &told)
                              == GELMUSZTA_DONE && told == 0);
        expect("who can open", count == expected && memcmp(openers, each_segment[segment].entries, expected) == 0
                                   && as_lent(openers, expected, MOST));
    }
}

/* Buffers that are no longer than they have to be, on a register without an entry too. */
static void just_enough(const gelmuszta_handle *reader) {
    size_t count = 99, told = 99;

    lend();
    expect("register", gelmuszta_register(reader, nine, sizeof nine, handles, ENTRIES * HANDLE, &told) == GELMUSZTA_DONE
                           && told == 0 && as_lent(handles, ENTRIES * HANDLE, sizeof handles));
    expect("openers", gelmuszta_openers(reader, 3, nine, sizeof nine, openers, ENTRIES, &count, &told) == GELMUSZTA_DONE
                          && count == 6 && told == 0 && as_lent(openers, 6, sizeof openers));
    lend();
    count = told = 99;
    expect("empty register", gelmuszta_register(reader, nine, 0, handles, 0, &told) == GELMUSZTA_DONE && told == 0);
    told = 99;
    expect("opened by none", gelmuszta_openers(reader, 3, nine, 0, openers, 0, &count, &told) == GELMUSZTA_DONE
                                 && count == 0 && told == 0);
    expect("nothing written", as_lent(handles, 0, sizeof handles) && as_lent(openers, 0, sizeof openers));
}

/* As many entries as can be: all but the last come from that one, and keep segment 0. */
static void longest(const gelmuszta_handle *reader) {
    uint8_t entries[2 * MOST], weakened;
    gelmuszta_handle parent, expected, handle;
    size_t count = 99, told = 99;

    for (unsigned entry = 1; entry <= MOST; entry++) {
        entries[2 * entry - 2] = entry < MOST ? MOST : 0;
        entries[2 * entry - 1] = (uint8_t)(entry < MOST ? entry | 1u : 0x7f);
    }
    lend();
    expect("longest", gelmuszta_register(reader, entries, sizeof entries, handles, sizeof handles, &told) == GELMUSZTA_DONE
                          && told == 0 && gelmuszta_weaken(reader, 0x7f, &parent, &weakened) == GELMUSZTA_DONE);
    handle = handle_of(MOST);
    expect("the last", same(&handle, &parent));
    for (unsigned entry = 1; entry < MOST; entry++) {
        handle = handle_of(entry);
        expect("leaf", gelmuszta_weaken(&parent, entries[2 * entry - 1], &expected, &weakened) == GELMUSZTA_DONE
                           && same(&handle, &expected));
    }
    expect("none opens", gelmuszta_openers(reader, 7, entries, sizeof entries, openers, MOST, &count, &told)
                             == GELMUSZTA_DONE && count == 0 && told == 0 && as_lent(openers, 0, MOST));
    expect("all open", gelmuszta_openers(reader, 0, entries, sizeof entries, openers, MOST, &count, &told)
                           == GELMUSZTA_DONE && count == MOST && told == 0);
    for (size_t i = 0; i < MOST; i++) expect("rising", openers[i] == i + 1);
    expect("one less", gelmuszta_register(reader, entries, sizeof entries - 2, handles, sizeof handles, &told)
                           == GELMUSZTA_LINK && told == 1);
}

/* The first question is refused, with a buffer of so many bytes, and the second: nothing is written, and none are told. */
static void not_given(const char *what, const gelmuszta_handle *handle, const uint8_t *entries, size_t length, size_t room,
                      gelmuszta_number number, size_t entry) {
    size_t told = 99;

    lend();
    expect(what, gelmuszta_register(handle, entries, length, handles, room, &told) == number && told == entry
                     && as_lent(handles, 0, sizeof handles));
}

static void not_opened(const char *what, const gelmuszta_handle *handle, size_t segment, const uint8_t *entries,
                       size_t length, size_t room, gelmuszta_number number, size_t entry) {
    size_t count = 99, told = 99;

    lend();
    expect(what, gelmuszta_openers(handle, segment, entries, length, openers, room, &count, &told) == number
                     && told == entry && count == 0 && as_lent(openers, 0, sizeof openers));
}

/* Both are, with room for so many entries. */
static void refused(const char *what, const gelmuszta_handle *handle, const uint8_t *entries, size_t length, size_t room,
                    gelmuszta_number number, size_t entry) {
    not_given(what, handle, entries, length, room * HANDLE, number, entry);
    not_opened(what, handle, 0, entries, length, room, number, entry);
}

/* The lowest entry that fails, with its own number. */
static const struct {
    const char *what;
    size_t entries;
    uint8_t bytes[12];
    gelmuszta_number number;
    size_t entry;
} failing[] = {
    {"missing", 2, {0, 0x0f, 3, 0x01}, GELMUSZTA_LINK, 2},
    {"missing, far off", 2, {0, 0x0f, 255, 0x01}, GELMUSZTA_LINK, 2},
    {"missing further up", 2, {2, 0x01, 3, 0x03}, GELMUSZTA_LINK, 1},
    {"missing before empty", 2, {2, 0, 3, 0}, GELMUSZTA_LINK, 1},
    {"from itself", 1, {1, 0xff}, GELMUSZTA_LOOP, 1},
    {"a ring of two", 3, {0, 0xff, 3, 0xff, 2, 0xff}, GELMUSZTA_LOOP, 2},
    {"from a ring", 3, {2, 0xff, 3, 0xff, 2, 0xff}, GELMUSZTA_LOOP, 1},
    {"a ring before empty", 3, {2, 0, 3, 0, 2, 0}, GELMUSZTA_LOOP, 1},
    {"keeps nothing", 2, {0, 0xf0, 1, 0x0f}, GELMUSZTA_EMPTY, 2},
    {"keeps nothing further up", 2, {2, 0xff, 0, 0}, GELMUSZTA_EMPTY, 1},
    {"after two handles", 3, {0, 0x01, 0, 0x02, 0, 0}, GELMUSZTA_EMPTY, 3},
    {"a fifth cut", 5, {0, 0xfe, 1, 0xfd, 2, 0xfb, 3, 0xf7, 4, 0xef}, GELMUSZTA_SPENT, 5},
    {"a fifth cut that keeps nothing", 5, {0, 0xfe, 1, 0xfd, 2, 0xfb, 3, 0xf7, 4, 0x0f}, GELMUSZTA_EMPTY, 5},
    {"the steps downwards", 6, {6, 0, 0, 0xfe, 2, 0xfd, 3, 0xfb, 4, 0xf7, 5, 0xef}, GELMUSZTA_SPENT, 1},
    {"the lower entry, not the smaller number", 2, {0, 0, 3, 0xff}, GELMUSZTA_EMPTY, 1},
    {"a ring in the lower entry", 2, {1, 0xff, 3, 0xff}, GELMUSZTA_LOOP, 1},
};

/* What is about the call as a whole, the last of it first: what was wrong stays wrong, and what comes before it is told. */
static void as_a_whole(const gelmuszta_handle *reader) {
    static const uint8_t entries[2 * MOST + 2] = {9, 0};
    gelmuszta_handle wrong = *reader;

    refused("an entry", &wrong, entries, 2, 1, GELMUSZTA_LINK, 1);
    refused("no buffer", &wrong, entries, 2, 0, GELMUSZTA_SHORT, 0);
    not_given("a byte short", &wrong, nine, sizeof nine, ENTRIES * HANDLE - 1, GELMUSZTA_SHORT, 0);
    not_opened("a byte short", &wrong, 0, nine, sizeof nine, ENTRIES - 1, GELMUSZTA_SHORT, 0);
    refused("half an entry", &wrong, entries, 3, 0, GELMUSZTA_LIST_LENGTH, 0);
    refused("too many entries", &wrong, entries, sizeof entries, 0, GELMUSZTA_LIST_LENGTH, 0);
    wrong.bytes[22] = 0;
    refused("gapped", &wrong, entries, 3, 0, GELMUSZTA_GAPPED, 0);
    not_opened("no such segment", &wrong, 8, entries, 3, 0, GELMUSZTA_FIELD, 0);
    not_opened("a segment in its lowest byte", &wrong, 256, entries, 3, 0, GELMUSZTA_FIELD, 0);
    not_opened("the last size_t", &wrong, (size_t)-1, entries, 3, 0, GELMUSZTA_FIELD, 0);
    wrong.bytes[2] = 8;
    refused("no such cluster", &wrong, entries, 3, 0, GELMUSZTA_NO_SUCH_PLACE, 0);
    not_opened("no such cluster", &wrong, 8, entries, 3, 0, GELMUSZTA_NO_SUCH_PLACE, 0);
    wrong.bytes[2] = reader->bytes[2];
    wrong.bytes[0] = 1;
    refused("no such node", &wrong, entries, 3, 0, GELMUSZTA_NO_SUCH_PLACE, 0);
    for (unsigned length = 0; length <= 255; length++) {
        wrong.length = (uint8_t)length;
        if (length != HANDLE) refused("another length", &wrong, entries, 3, 0, GELMUSZTA_LENGTH, 0);
    }
    wrong = *reader;
    wrong.bytes[22] = 0;
    refused("gapped, without an entry", &wrong, entries, 0, 1, GELMUSZTA_GAPPED, 0);
    memset(wrong.bytes + 19, 0, 4);
    refused("a handle that references nothing", &wrong, nine, sizeof nine, ENTRIES, GELMUSZTA_EMPTY, 1);
}

void registers(size_t node, size_t local) {
    const gelmuszta_password first = {{17}}, second = {{18}};
    gelmuszta_handle reader, writer;
    gelmuszta_image before;
    gelmuszta_memory bytes;

    expect("made", !gelmuszta_new_cluster(&image, node, local, GELMUSZTA_WIDTH_8, &first, &second, &reader, &writer));
    for (size_t segment = 0; segment < 8; segment++) {
        const uint8_t written[2] = {'s', (uint8_t)('0' + segment)};

        expect("its segments", !gelmuszta_new_segment(&image, &memory, node, segment, 2, &writer)
                                   && !gelmuszta_write(&image, &memory, segment, &writer, written, 2));
    }
    before = image;
    bytes = memory;
    handles_of_nine(&reader);
    openers_of_nine(&reader);
    just_enough(&reader);
    longest(&reader);
    for (size_t i = 0; i < sizeof failing / sizeof *failing; i++)
        refused(failing[i].what, &reader, failing[i].bytes, 2 * failing[i].entries, MOST, failing[i].number,
                failing[i].entry);
    as_a_whole(&reader);
    expect("a register changes nothing", same_image(&image, &before) && memcmp(&memory, &bytes, sizeof memory) == 0);
}
