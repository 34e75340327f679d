/* What the files of this caller share: one store, and what is expected of a call. */
#ifndef EVERY_H
#define EVERY_H

#include "gelmuszta.h"
#include <stdio.h>
#include <string.h>

extern gelmuszta_image image;
extern gelmuszta_memory memory;
extern const gelmuszta_handle none;

void expect(const char *what, int holds);

/* Whether two are the same, to the last byte. */
int same(const gelmuszta_handle *one, const gelmuszta_handle *other);
int same_image(const gelmuszta_image *one, const gelmuszta_image *other);

/* A primary handle as the header has it: the name, the password, all bits of the selector set, zeros after the length. */
gelmuszta_handle primary(size_t node, size_t local, gelmuszta_width width, const gelmuszta_password *password);

/* What a handle has for its password, and the same handle with another one. */
gelmuszta_password password_of(const gelmuszta_handle *handle);
gelmuszta_handle with_password(const gelmuszta_handle *handle, const gelmuszta_password *password);

/* The bytes of a string. */
static inline const uint8_t *data(const char *string) { return (const uint8_t *)string; }

/* A record of the image has 114 bytes: active, width, two passwords from 2 and 18 on, sixteen segments from 34 on. */
static inline size_t record_at(size_t node, size_t local) { return (node * 8 + local) * 114; }
static inline size_t segment_at(size_t node, size_t local, size_t segment) {
    return record_at(node, local) + 34 + segment * 5;
}
static inline size_t mark_at(size_t node, size_t local, size_t segment) { return segment_at(node, local, segment) + 4; }

void freezing(size_t node, size_t local, size_t segment);
void joining(size_t node, size_t local);
void widths(size_t node);
void lengths(size_t node);
void registers(size_t node, size_t local);
void cutting(size_t node);

#endif
