/* What a call of the library takes beside time: the stack that it touches, copies of 2,000 bytes or more, and whether it
 * reaches bytes of the memory.
 *
 * Each call runs on a stack of its own, which is painted before; afterwards the lowest byte that is not as it was painted
 * tells how far down the call went. memcpy and memmove are this file's, so that those which the library calls are counted. A
 * copy made by a loop of the library's own is not among them, so calls that are done run once more with the memory's pages
 * closed, where a byte read or written is a fault. A function is tried at each width, with calls that are done and with one
 * on a damaged image; the most that it took is printed. Registers have 255 entries and the one width that they take. Where
 * a call is not done that should be, a function reaches the memory otherwise than the header says, or a look copies, its
 * line ends with `wrong` and the program with status 1. */
#define _XOPEN_SOURCE 700
#include "gelmuszta.h"
#include <setjmp.h>
#include <signal.h>
#include <stdbool.h>
#include <stdio.h>
#include <string.h>
#include <sys/mman.h>
#include <ucontext.h>

#define NODES 4
#define CLUSTERS 5
#define SEGMENTS 2
#define LENGTH 400
#define NODE_MEMORY 4096
#define STACK 65536
#define PAINT 0xa5
#define LARGE 2000

static gelmuszta_memory memory __attribute__((aligned(NODE_MEMORY)));
static gelmuszta_image image, typical, large, damaged;
static uint8_t count, numbers[3], buffer[LENGTH], large_buffer[NODE_MEMORY], three[3 * GELMUSZTA_HANDLE_MAX];
static uint8_t entries[GELMUSZTA_ENTRIES_MAX * GELMUSZTA_ENTRY_BYTES], openers[GELMUSZTA_ENTRIES_MAX];
static uint8_t handles[GELMUSZTA_ENTRIES_MAX * GELMUSZTA_HANDLE_BYTES(8)];
static const gelmuszta_handle supplied = {{[1] = 2, [2] = 3, [19] = 255, 255, 255, 255}, GELMUSZTA_HANDLE_BYTES(8)};
static const gelmuszta_password first_password = {{1}}, second_password = {{2}};
static gelmuszta_password converted;
static gelmuszta_width width;
static gelmuszta_number number;
static size_t from, length, entry, opened;
static const size_t node = 2, local = 3, free_local = 6, segment = 1, free_segment = 3;
static gelmuszta_handle reader, writer, weak_reader, weak_writer, other_reader, given, other;

/* ---- copies */

static size_t copies;

void *memmove(void *to, const void *from, size_t bytes) {
    volatile uint8_t *target = to;
    const volatile uint8_t *source = from;
    copies += bytes >= LARGE;
    if ((uintptr_t)to < (uintptr_t)from)
        for (size_t i = 0; i < bytes; i++) target[i] = source[i];
    else
        for (size_t i = bytes; i > 0; i--) target[i - 1] = source[i - 1];
    return to;
}

void *memcpy(void *restrict to, const void *restrict from, size_t bytes) { return memmove(to, from, bytes); }

/* ---- the calls, on whatever image there is */

static void start(void) {
    gelmuszta_start(&image);
    number = GELMUSZTA_DONE;
}
static void version(void) { number = gelmuszta_version() != GELMUSZTA_VERSION_NUMBER; }
static void sound(void) { number = !gelmuszta_sound(&image); }
static void new_cluster(void) {
    number = gelmuszta_new_cluster(&image, node, free_local, width, &first_password, &second_password, &given, &other);
}
static void delete_cluster(void) { number = gelmuszta_delete_cluster(&image, node, &writer); }
static void new_segment(void) { number = gelmuszta_new_segment(&image, &memory, node, free_segment, 64, &writer); }
static void delete_segment(void) { number = gelmuszta_delete_segment(&image, node, segment, &writer); }
static void read_primary(void) {
    number = gelmuszta_read(&image, &memory, segment, &reader, buffer, sizeof buffer, &length);
}
static void read_weak(void) {
    number = gelmuszta_read(&image, &memory, segment, &weak_reader, buffer, sizeof buffer, &length);
}
static void read_large(void) {
    number = gelmuszta_read(&image, &memory, segment, &reader, large_buffer, sizeof large_buffer, &length);
}
static void write_primary(void) { number = gelmuszta_write(&image, &memory, segment, &writer, buffer, sizeof buffer); }
static void write_weak(void) { number = gelmuszta_write(&image, &memory, segment, &weak_writer, buffer, sizeof buffer); }
static void look_primary(void) { number = gelmuszta_look(&image, node, segment, &reader, &from, &length); }
static void look_weak(void) { number = gelmuszta_look(&image, node, segment, &weak_reader, &from, &length); }
static void handle_of(void) { number = gelmuszta_handle_of(reader.bytes, reader.length, &given); }
static void weaken(void) { number = gelmuszta_weaken(&reader, 0xfffe, &given, &count); }
static void reduce(void) { number = gelmuszta_reduce(&image, GELMUSZTA_MODE_READ, &weak_reader, &given); }
static void new_password(void) {
    number = gelmuszta_new_password(&image, GELMUSZTA_MODE_READ, &reader, &first_password, &given);
}
static void freeze(void) { number = gelmuszta_freeze(&image, node, segment, &writer); }
static void join(void) {
    number = gelmuszta_join(&image, GELMUSZTA_MODE_READ, &weak_reader, &other_reader, &given);
}
static void validate(void) { number = gelmuszta_validate(&image, GELMUSZTA_MODE_READ, &weak_reader); }
static void validate_all(void) {
    const size_t bytes = 3 * GELMUSZTA_HANDLE_BYTES(width);
    gelmuszta_validate_all(&image, GELMUSZTA_MODE_READ, width, three, bytes, numbers, sizeof numbers);
    number = numbers[2];
}
static void convert(void) {
    gelmuszta_convert(&first_password, 3, &converted);
    number = GELMUSZTA_DONE;
}
static void work_out(void) {
    number = gelmuszta_register(&supplied, entries, sizeof entries, handles, sizeof handles, &entry);
}
static void find_openers(void) {
    number = gelmuszta_openers(&supplied, segment, entries, sizeof entries, openers, sizeof openers, &opened, &entry);
}

/* Each with the image on which its calls are done, and whether the header lets it reach bytes of the memory. */
static const struct {
    const char *name;
    const gelmuszta_image *on;
    bool reaches;
    void (*calls[2])(void);
} functions[] = {
    {"version", &typical, false, {version, 0}},
    {"start", &typical, false, {start, 0}},
    {"sound", &typical, false, {sound, 0}},
    {"new cluster", &typical, false, {new_cluster, 0}},
    {"delete cluster", &typical, false, {delete_cluster, 0}},
    {"new segment", &typical, true, {new_segment, 0}},
    {"delete segment", &typical, false, {delete_segment, 0}},
    {"read", &typical, true, {read_primary, read_weak}},
    {"read, 4,096 bytes", &large, true, {read_large, 0}},
    {"write", &typical, true, {write_primary, write_weak}},
    {"look", &typical, false, {look_primary, look_weak}},
    {"look, 4,096 bytes", &large, false, {look_primary, look_weak}},
    {"handle of", &typical, false, {handle_of, 0}},
    {"weaken", &typical, false, {weaken, 0}},
    {"reduce", &typical, false, {reduce, 0}},
    {"new password", &typical, false, {new_password, 0}},
    {"freeze", &typical, false, {freeze, 0}},
    {"join", &typical, false, {join, 0}},
    {"validate", &typical, false, {validate, 0}},
    {"validate all", &typical, false, {validate_all, 0}},
    {"convert", &typical, false, {convert, 0}},
    {"register", &typical, false, {work_out, 0}},
    {"openers", &typical, false, {find_openers, 0}},
};

/* ---- one call on a painted stack */

static uint8_t stack[STACK];
static ucontext_t here, there;
static void (*now)(void);
static uint8_t *entered;

static void enter(void) {
    entered = __builtin_frame_address(0);
    now();
}

/* Bytes of stack below the frame of the caller. */
static size_t touched(void (*call)(void), const gelmuszta_image *on) {
    uint8_t *lowest = stack;
    image = *on;
    memset(stack, PAINT, sizeof stack);
    now = call;
    getcontext(&there);
    there.uc_stack.ss_sp = stack;
    there.uc_stack.ss_size = sizeof stack;
    there.uc_link = &here;
    makecontext(&there, enter, 0);
    copies = 0;
    swapcontext(&here, &there);
    while (*lowest == PAINT) lowest++;
    return (size_t)(entered - lowest);
}

/* ---- one call with the memory closed */

static sigjmp_buf faulted;

static void fault(int signal) {
    (void)signal;
    siglongjmp(faulted, 1);
}

/* Whether the call reads or writes a byte of the memory. */
static bool reaches_memory(void (*call)(void), const gelmuszta_image *on) {
    volatile bool reaches = true;
    image = *on;
    mprotect(&memory, sizeof memory, PROT_NONE);
    if (sigsetjmp(faulted, 1) == 0) {
        call();
        reaches = false;
    }
    mprotect(&memory, sizeof memory, PROT_READ | PROT_WRITE);
    return reaches;
}

/* ---- the stores: on each node five clusters with two segments of 400 bytes; the same, and one node filled by one segment */

/* Some segments, from `first` on, are taken away one by one. */
static void weakest(const gelmuszta_handle *handle, unsigned first, unsigned cuts, gelmuszta_handle *weak) {
    *weak = *handle;
    for (unsigned bit = first; bit < first + cuts; bit++) {
        number |= gelmuszta_weaken(weak, (uint16_t)~(1u << bit), &given, &count);
        *weak = given;
    }
}

/* With `whole` the node that calls are about has one segment alone. */
static void make_store(gelmuszta_image *made, bool whole) {
    gelmuszta_start(&image);
    for (size_t n = 0; n < NODES; n++)
        for (size_t l = 0; l < CLUSTERS; l++) {
            const gelmuszta_password read = {{(uint8_t)(3 + 2 * l)}}, write = {{(uint8_t)(4 + 2 * l)}};
            bool here = n == node && l == local;
            number |= gelmuszta_new_cluster(&image, n, l, width, &read, &write, &given, &other);
            if (!whole || n != node)
                for (size_t s = 0; s < SEGMENTS; s++)
                    number |= gelmuszta_new_segment(&image, &memory, n, s, LENGTH, &other);
            else if (here)
                number |= gelmuszta_new_segment(&image, &memory, n, segment, NODE_MEMORY, &other);
            if (here) {
                reader = given;
                writer = other;
            }
        }
    *made = image;
}

/* Those of four segments keep two, or three; the others are cut as often as can be. */
static void make_handles(void) {
    const bool four = width == GELMUSZTA_WIDTH_4;
    const size_t bytes = GELMUSZTA_HANDLE_BYTES(width);
    weakest(&reader, four ? 2 : 4, four ? 2 : 4, &weak_reader);
    weakest(&reader, four ? 2 : 3, four ? 1 : 4, &other_reader);
    weakest(&writer, four ? 2 : 4, four ? 2 : 4, &weak_writer);
    for (size_t i = 0; i < 3; i++) memcpy(three + i * bytes, weak_reader.bytes, bytes);
}

/* A register of 255 entries: chains of three, each entry from the one after it. */
static void make_entries(void) {
    for (size_t i = 0; i < GELMUSZTA_ENTRIES_MAX; i++) {
        entries[2 * i] = (uint8_t)(i % 3 == 2 ? 0 : i + 2);
        entries[2 * i + 1] = (uint8_t)~(1u << i % 3);
    }
}

/* ---- the table */

static struct taken {
    size_t stack, copies;
    bool reaches, refused;
} taken[sizeof functions / sizeof *functions];

/* The most that a function took so far, with its calls at this width. */
static void measure(size_t f, struct taken *most) {
    const gelmuszta_image *const images[] = {functions[f].on, &damaged};
    for (size_t c = 0; c < 2 && functions[f].calls[c]; c++) {
        for (size_t i = 0; i < 2; i++) {
            size_t bytes = touched(functions[f].calls[c], images[i]);
            if (bytes > most->stack) most->stack = bytes;
            if (copies > most->copies) most->copies = copies;
            if (i == 0) most->refused |= number != GELMUSZTA_DONE;
        }
        most->reaches |= reaches_memory(functions[f].calls[c], functions[f].on);
    }
}

/* Prints the line of a function; whether something in it is wrong. */
static bool row(size_t f, const struct taken *most) {
    bool copying_look = functions[f].calls[0] == look_primary && most->copies > 0;
    bool wrong = most->refused || most->reaches != functions[f].reaches || copying_look;
    printf("%-20s%14zu%10zu%16s%s\n", functions[f].name, most->stack, most->copies, most->reaches ? "yes" : "no",
           wrong ? "  wrong" : "");
    return wrong;
}

int main(void) {
    static const gelmuszta_width widths[] = {GELMUSZTA_WIDTH_4, GELMUSZTA_WIDTH_8, GELMUSZTA_WIDTH_16};
    const size_t all_functions = sizeof functions / sizeof *functions;
    struct sigaction action = {0};
    bool wrong = false;
    action.sa_handler = fault;
    if (sigaction(SIGSEGV, &action, 0)) return 1;
    make_entries();
    for (size_t w = 0; w < 3; w++) {
        width = widths[w];
        number = GELMUSZTA_DONE;
        make_store(&typical, false);
        make_store(&large, true);
        make_handles();
        damaged = typical;
        damaged.bytes[0] = 2;
        if (number != GELMUSZTA_DONE) return 1;
        for (size_t f = 0; f < all_functions; f++) measure(f, taken + f);
    }
    printf("%-20s%14s%10s%16s\n", "", "bytes of stack", "copies", "reaches memory");
    for (size_t f = 0; f < all_functions; f++) wrong |= row(f, taken + f);
    return wrong;
}
