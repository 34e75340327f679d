/*
 * gelmuszta.h: the guard of shared bench memory.
 *
 * A store is an image, which has the records of all clusters, and a memory, which has the bytes of all segments. The caller
 * keeps both and lends them to each call. Nothing is kept between calls and nothing is allocated.
 *
 *   image     3,648 bytes, the records of 32 clusters in the order node * 8 + local number, 114 bytes each:
 *
 *                0          active: 1, or 0 for inactive
 *                1          the width: how many segments the cluster can have, 4, 8 or 16; 0 for an inactive one
 *                2 to 17    the read password
 *               18 to 33    the write password
 *               34 to 113   sixteen segments of five bytes: base and length, two bytes each, high byte first, and the
 *                           mark, 1 for frozen, or 0. An absent segment has five zeros; those from the width on are absent
 *
 *             It is unsound where it is not laid out so, where a segment leaves its node or shares a byte with another, and
 *             where an inactive cluster has a password or a segment. The starting image is all zeros.
 *   memory    16,384 bytes, 4,096 of each node, node 0 first; all zeros at the start, which is the caller's to do. Calls
 *             that do not take it do what they do whatever it holds.
 *   password  16 bytes.
 *   handle    27 bytes, and how many of them are the handle's: 21, 23 or 27 for a cluster of 4, 8 or 16 segments:
 *
 *                0, 1       the node, high byte first
 *                2          the local number
 *                3 to 18    the password
 *               19 on       the selector, four subselectors s0 to s3: for 4 segments s0 + 16 * s1 and s2 + 16 * s3, for 8
 *                           a byte each, for 16 two bytes each, high byte first
 *
 *             Bit i of a subselector, 0 the least, stands for segment i. The handle references segment i if bit i is set in
 *             all four. A subselector with all bits of the width set is flat; a primary handle has four flat ones; a
 *             selector in which a flat one stands below one that is not is gapped. Bytes from the length on are not looked
 *             at in a handle that a call takes, and are zero in one that it gives.
 *
 * A handle is valid in a mode, reading or writing, if its width is its cluster's and converting that mode's primary
 * password by its subselectors gives its password. Each mode is judged by itself; while the two primary passwords of a
 * cluster are equal, a handle that is valid in one mode is valid in both. Calls by a handle that is valid for writing alone
 * tell nothing of the bytes stored, and of the read password that it is another: no more than which segments the cluster
 * has, how long they are, which are frozen, and whether a node has room. Whether a cluster is active, and its width, the
 * numbers tell anybody.
 *
 * A call returns a number: 0 for done, or why it is refused. Where several refusals apply, it is the one that stands first
 * in the row of its function, below. After a refusal image, memory and buffer are as they were, byte for byte, handles
 * given are 28 zeros, and counts, lengths and places are 0. Nothing is asked of the arguments: any image, any handle and
 * any number is answered, and a size_t is judged whole, however large. Of a mask, bits from the handle's width on are
 * ignored. `current` is the node that a call is made in; made "at its node", it has to be the handle's.
 *
 * What the caller must see to, since no proof can:
 *
 *   - every pointer is valid for its type or for the length beside it, aligned where it points to a size_t, and not NULL,
 *     even where the length is 0;
 *   - what a call may write overlaps with nothing else that it is given: a handle is not weakened in place. What it only
 *     reads may: the two handles of a join may be one;
 *   - nobody else writes to what is lent to a call, or reads what it writes, while it runs. Calls that write nothing in
 *     common, as reads, looks and validations on one store, may run at the same time;
 *   - whoever can read the image or the memory needs no handle, and whoever writes to them by other means, or puts an
 *     earlier image in place, can change what is frozen too.
 *
 * What stays on the stack: a call touches less than 2 kilobytes of it (1,618 bytes at most, measured on x86-64 in an archive of
 * rattle-kit-13f), one about a register up to 10 (10,178 bytes), and does not clear them. Passwords stay there until they
 * are written over, both primary ones of the cluster among them, or those of all entries of the register.
 *
 * What time tells: how long a call takes goes by its number, by what the store holds and by how many subselectors are not
 * flat. Two passwords are compared to the last byte wherever they differ. The cipher looks bytes up in a table at places
 * that go by the passwords, which can be seen in a cache that others share. No theorem speaks of time or of the stack.
 */
#ifndef GELMUSZTA_H
#define GELMUSZTA_H

#include <stdbool.h>
#include <stddef.h>
#include <stdint.h>

#ifdef __cplusplus
extern "C" {
#endif

/* The version of this header; gelmuszta_version tells the library's. Below 1.0.0 the two go together if all three numbers
 * are equal, from then on if the major numbers are and the library's minor number is not below the header's. The major
 * number rises where callers have to compile anew, the minor one where something is added, the patch where neither is. */
#define GELMUSZTA_VERSION_MAJOR 0
#define GELMUSZTA_VERSION_MINOR 9
#define GELMUSZTA_VERSION_PATCH 0
#define GELMUSZTA_VERSION "0.9.0"
#define GELMUSZTA_VERSION_NUMBER (GELMUSZTA_VERSION_MAJOR * 10000 + GELMUSZTA_VERSION_MINOR * 100 + GELMUSZTA_VERSION_PATCH)

/* A warning where a number is not looked at, where the compiler has one. */
#if defined(__cplusplus) && __cplusplus >= 201703L
#define GELMUSZTA_USED [[nodiscard]]
#elif defined(__GNUC__)
#define GELMUSZTA_USED __attribute__((warn_unused_result))
#else
#define GELMUSZTA_USED
#endif

/* The bytes of a handle by its cluster's width, 21, 23 or 27, and the most that one has. */
#define GELMUSZTA_HANDLE_BYTES(width) (19 + (width) / 2)
#define GELMUSZTA_HANDLE_MAX 27

typedef struct gelmuszta_image { uint8_t bytes[3648]; } gelmuszta_image;
typedef struct gelmuszta_memory { uint8_t bytes[16384]; } gelmuszta_memory;
typedef struct gelmuszta_password { uint8_t bytes[16]; } gelmuszta_password;
typedef struct gelmuszta_handle { uint8_t bytes[GELMUSZTA_HANDLE_MAX]; uint8_t length; } gelmuszta_handle;

/* An entry of a register has two bytes, and a register no more than 255 entries. */
#define GELMUSZTA_ENTRY_BYTES 2
#define GELMUSZTA_ENTRIES_MAX 255

/* A mode and a width are whole words to the library, which no enumeration is bound to be. */
typedef size_t gelmuszta_mode;
typedef size_t gelmuszta_width;
#define GELMUSZTA_MODE_READ ((gelmuszta_mode)1)
#define GELMUSZTA_MODE_WRITE ((gelmuszta_mode)2)
#define GELMUSZTA_WIDTH_4 ((gelmuszta_width)4)
#define GELMUSZTA_WIDTH_8 ((gelmuszta_width)8)
#define GELMUSZTA_WIDTH_16 ((gelmuszta_width)16)

/* The numbers in the order in which they are looked at, with their words. 25 and 22 are looked at in two places, and stand
 * at the first. 18 to 20 are given of registers alone. */
typedef uint8_t gelmuszta_number;
enum {
    GELMUSZTA_DONE = 0,
    GELMUSZTA_LENGTH = 25,         /* length: a handle's is none of 21, 23 and 27; later, its width is not its cluster's; of a
                                      register, the handle's is not 23 */
    GELMUSZTA_UNSOUND = 1,         /* unsound: the image is unsound */
    GELMUSZTA_NO_SUCH_PLACE = 2,   /* no such place: node above 3 or local number above 7, in a handle or in the call */
    GELMUSZTA_FIELD = 3,           /* field: no mode; no width; size 0 or above 4,096; segment not below the width */
    GELMUSZTA_GAPPED = 4,          /* gapped: a handle's selector is gapped */
    GELMUSZTA_APART = 24,          /* apart: two handles name two clusters */
    GELMUSZTA_ELSEWHERE = 5,       /* elsewhere: the current node is not the handle's */
    GELMUSZTA_IN_USE = 6,          /* in use: the cluster is active */
    GELMUSZTA_TWINS = 7,           /* twins: the two passwords are equal */
    GELMUSZTA_INACTIVE = 8,        /* inactive: the handle's cluster is inactive */
    GELMUSZTA_VIOLATED = 9,        /* violated protection: a handle is not valid in the mode needed */
    GELMUSZTA_WHOLE = 23,          /* whole: two handles together reference all segments of the width */
    GELMUSZTA_NOT_PRIMARY = 10,    /* not primary: the handle is not primary */
    GELMUSZTA_FROZEN = 22,         /* frozen: a segment of the cluster is frozen; later, the segment is */
    GELMUSZTA_NOT_REFERENCED = 11, /* not referenced: the handle does not reference the segment */
    GELMUSZTA_OLD_PASSWORD = 12,   /* old password: the new one is the current primary password of the mode */
    GELMUSZTA_PRESENT = 13,        /* present: the segment is present */
    GELMUSZTA_ABSENT = 14,         /* absent: the segment is absent */
    GELMUSZTA_LIST_LENGTH = 18,    /* list length: a register has a byte too many, or more than 255 entries */
    GELMUSZTA_SHORT = 15,          /* short: buffer or data are shorter than the segment, or a buffer than all entries need */
    GELMUSZTA_NO_ROOM = 16,        /* no room: the segment fits nowhere in the node */
    GELMUSZTA_LINK = 19,           /* link: the way from an entry meets a number above the last entry's */
    GELMUSZTA_LOOP = 20,           /* loop: the way from an entry comes to an entry again */
    GELMUSZTA_EMPTY = 21,          /* empty: no segment is both referenced by the handle and kept by the mask */
    GELMUSZTA_SPENT = 17           /* spent: something would be excluded and no subselector is flat */
};

/* The word of a number; "no such number" where it has none. */
static inline const char *gelmuszta_word(gelmuszta_number number) {
    static const char words[][20] = {
        "done", "unsound", "no such place", "field", "gapped", "elsewhere", "in use", "twins", "inactive",
        "violated protection", "not primary", "not referenced", "old password", "present", "absent", "short", "no room",
        "spent", "list length", "link", "loop", "empty", "frozen", "whole", "apart", "length"};
    return number < sizeof words / sizeof *words ? words[number] : "no such number";
}

/* GELMUSZTA_VERSION_NUMBER of the header that the library was made with. */
uint32_t gelmuszta_version(void);

/* ---- the store as a whole */

/* Makes the image that of the starting store, in which all clusters are inactive. The memory is not cleared. */
void gelmuszta_start(gelmuszta_image *image);

/* Whether the image is sound. */
bool gelmuszta_sound(const gelmuszta_image *image);

/* ---- clusters */

/* Makes a cluster of the current node active, with a width, which it keeps until it is deleted, and two passwords. Gives
 * its primary handles, for reading and for writing. Numbers: 1 2 3 6 7. */
GELMUSZTA_USED gelmuszta_number gelmuszta_new_cluster(
    gelmuszta_image *image, size_t current, size_t local, gelmuszta_width width, const gelmuszta_password *read,
    const gelmuszta_password *write, gelmuszta_handle *reader, gelmuszta_handle *writer);

/* Makes a cluster inactive, by its primary handle for writing, at its node. None of its segments may be frozen; those that
 * it has are gone, and their bytes stay in the memory. Numbers: 25 1 2 4 5 8 25 9 10 22. */
GELMUSZTA_USED gelmuszta_number gelmuszta_delete_cluster(gelmuszta_image *image, size_t current,
                                                         const gelmuszta_handle *handle);

/* Makes a password the primary one of a mode, by that mode's primary handle. Gives the new primary handle; the one presented
 * is no longer valid in the mode, and weaker ones have to be made anew. The password has to differ from the mode's own and
 * is compared with no other: the answer tells nothing of the other mode's, and the two may become equal.
 * Numbers: 25 1 2 3 4 8 25 9 10 12. */
GELMUSZTA_USED gelmuszta_number gelmuszta_new_password(gelmuszta_image *image, gelmuszta_mode mode,
                                                       const gelmuszta_handle *handle, const gelmuszta_password *password,
                                                       gelmuszta_handle *given);

/* ---- segments */

/* Makes a segment of `size` bytes present, by the primary handle for writing, at its node: at the smallest base at which it
 * fits, not frozen, and its bytes zeros. Numbers: 25 1 2 3 4 5 8 25 9 10 13 16. */
GELMUSZTA_USED gelmuszta_number gelmuszta_new_segment(gelmuszta_image *image, gelmuszta_memory *memory, size_t current,
                                                      size_t segment, size_t size, const gelmuszta_handle *handle);

/* Makes a segment absent, by the primary handle for writing, at its node; its bytes stay in the memory until a new segment
 * takes them. It may not be frozen. Numbers: 25 1 2 3 4 5 8 25 9 10 14 22. */
GELMUSZTA_USED gelmuszta_number gelmuszta_delete_segment(gelmuszta_image *image, size_t current, size_t segment,
                                                         const gelmuszta_handle *handle);

/* Freezes a segment, by the primary handle for writing, at its node; no call thaws it. Its base, its length and its bytes
 * then stay, and its cluster stays active, whatever calls are made: writing to it and deleting it or its cluster are
 * refused. Freezing it again is done, and changes nothing. Numbers: 25 1 2 3 4 5 8 25 9 10 14. */
GELMUSZTA_USED gelmuszta_number gelmuszta_freeze(gelmuszta_image *image, size_t current, size_t segment,
                                                 const gelmuszta_handle *handle);

/* Reads a segment, by a handle that is valid for reading and references it: the first bytes of the buffer become the
 * segment's, the others stay, and *length becomes the segment's length. Numbers: 25 1 2 3 4 8 25 9 11 14 15. */
GELMUSZTA_USED gelmuszta_number gelmuszta_read(const gelmuszta_image *image, const gelmuszta_memory *memory, size_t segment,
                                               const gelmuszta_handle *handle, uint8_t *buffer, size_t buffer_length,
                                               size_t *length);

/* Writes a segment, by a handle that is valid for writing and references it: its bytes become the first of the data. It may
 * not be frozen. Numbers: 25 1 2 3 4 8 25 9 11 14 22 15. */
GELMUSZTA_USED gelmuszta_number gelmuszta_write(const gelmuszta_image *image, gelmuszta_memory *memory, size_t segment,
                                                const gelmuszta_handle *handle, const uint8_t *data, size_t data_length);

/* Shows a segment where it lies, at its node, by a handle that would read it: it is memory->bytes[*from] and on, *length
 * bytes. Nothing is copied. The place holds until the image is written to, and the bytes until the memory is: after any
 * call that does so look again, and let nobody write while the bytes are read. Where the segment is frozen, both stay
 * whatever calls are made. Numbers: 25 1 2 3 4 5 8 25 9 11 14. */
GELMUSZTA_USED gelmuszta_number gelmuszta_look(const gelmuszta_image *image, size_t current, size_t segment,
                                               const gelmuszta_handle *handle, size_t *from, size_t *length);

/* ---- handles */

/* A handle from bytes that came from elsewhere: holds them where they are 21, 23 or 27. Whether the handle is valid is not
 * looked at. Numbers: 25. */
GELMUSZTA_USED gelmuszta_number gelmuszta_handle_of(const uint8_t *bytes, size_t length, gelmuszta_handle *handle);

/* Gives a handle that references those of the handle's segments which the mask keeps, bit i for segment i, and how many
 * they are, at least one; where none is excluded, the handle itself. It looks at no store. Numbers: 25 2 4 21 17. */
GELMUSZTA_USED gelmuszta_number gelmuszta_weaken(const gelmuszta_handle *handle, uint16_t mask, gelmuszta_handle *given,
                                                 uint8_t *count);

/* Gives a handle that references the same segments by subselector 0 alone, the others being flat; of a primary handle, the
 * handle itself. It has to be valid in the mode. Handles that were weakened from one to the same segments, by whatever cuts,
 * are given as the same bytes. Numbers: 25 1 2 3 4 8 25 9. */
GELMUSZTA_USED gelmuszta_number gelmuszta_reduce(const gelmuszta_image *image, gelmuszta_mode mode,
                                                 const gelmuszta_handle *handle, gelmuszta_handle *given);

/* Gives a handle that references the segments which either of two handles of one cluster references, by subselector 0
 * alone. Each has to be valid in the mode; which comes first does not matter, and the two may be the same. Two that
 * reference all segments of the width are refused: none given is primary. Numbers: 25 1 2 3 4 24 8 25 9 23. */
GELMUSZTA_USED gelmuszta_number gelmuszta_join(const gelmuszta_image *image, gelmuszta_mode mode,
                                               const gelmuszta_handle *handle, const gelmuszta_handle *other,
                                               gelmuszta_handle *given);

/* Whether a handle is valid in a mode: the number that gelmuszta_reduce would give. Numbers: 25 1 2 3 4 8 25 9. */
GELMUSZTA_USED gelmuszta_number gelmuszta_validate(const gelmuszta_image *image, gelmuszta_mode mode,
                                                   const gelmuszta_handle *handle);

/* Validates many handles of one width, GELMUSZTA_HANDLE_BYTES(width) bytes each, one after the other: numbers[i] becomes
 * what gelmuszta_validate gives for handle i. Returns how many are judged: as many as `handles` has whole and `numbers` has
 * places for, none where the width is none of the three. The other places stay as they were. The image is judged once. */
size_t gelmuszta_validate_all(const gelmuszta_image *image, gelmuszta_mode mode, gelmuszta_width width,
                              const uint8_t *handles, size_t handles_length, uint8_t *numbers, size_t numbers_length);

/* The conversion of a password by a parameter: AES-128, under the password as key, of the parameter as a number of sixteen
 * bytes, high byte first. A weaker handle's password is that of the stronger one converted by the subselector set. */
void gelmuszta_convert(const gelmuszta_password *password, uint16_t parameter, gelmuszta_password *converted);

/* ---- registers
 *
 * A register tells how handles were given out that come from one handle of 23 bytes, which the caller supplies: two bytes an
 * entry, numbered from 1. The first is the number of the entry that it was weakened from, which may stand above or below, or
 * 0 for the handle supplied; the second is the mask. The way from an entry leads to the one that it was weakened from, and
 * on until 0. The handle of an entry is the handle supplied, weakened by the masks on that way, the last one met first.
 *
 * Neither function looks at a store. *entry becomes 0 where a number is about the call as a whole, 25 to 15 in the rows
 * below, and where the call is done. Else it becomes the lowest entry that has no handle, and the number is that entry's: 19
 * or 20 by its way, or 21 or 17 by the first weakening on the way down from the handle supplied that is refused. */

/* Gives the handles of all entries, in order, one after the other: GELMUSZTA_HANDLE_BYTES(8) bytes of the buffer each,
 * which gelmuszta_handle_of makes a handle of. The bytes behind them stay. Numbers: 25 2 4 18 15 19 20 21 17. */
GELMUSZTA_USED gelmuszta_number gelmuszta_register(const gelmuszta_handle *handle, const uint8_t *entries,
                                                   size_t entries_length, uint8_t *handles, size_t handles_length,
                                                   size_t *entry);

/* Gives the numbers of the entries whose handle references a segment, in rising order, a byte each, and how many they are.
 * The bytes behind these stay; yet the buffer has to have a byte for each entry of the register. No password is converted,
 * so that of the handle does not matter. Numbers: 25 2 3 4 18 15 19 20 21 17. */
GELMUSZTA_USED gelmuszta_number gelmuszta_openers(const gelmuszta_handle *handle, size_t segment, const uint8_t *entries,
                                                  size_t entries_length, uint8_t *openers, size_t openers_length,
                                                  size_t *count, size_t *entry);

#ifdef __cplusplus
}
#endif

#endif
