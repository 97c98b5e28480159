/* sides.h: the two sides that are compared, each as a table of its routines. */
#ifndef SIDES_H
#define SIDES_H

#include "thymeflask.h"

struct side {
    const char *name;
    uint32_t (*write)(uint8_t *, size_t, const uint8_t *, size_t);
    uint32_t (*check)(const uint8_t *, size_t, uint8_t *, size_t);
    uint32_t (*write_picture)(uint8_t *, size_t, const uint8_t *, size_t);
    uint32_t (*read_picture)(const uint8_t *, size_t, uint8_t *, size_t);
    uint64_t (*plan)(const uint8_t *, size_t, const uint8_t *, size_t, uint8_t *, size_t);
    size_t (*session)(const uint8_t *, size_t, uint8_t *, size_t);
};

enum { SIDES = 2 };

extern const struct side sides[SIDES];

#endif
