/* A plain form of the K-Cipher in C, to hold the library's speed against. */
#ifndef PLAIN_H
#define PLAIN_H

#include <stdbool.h>
#include <stddef.h>
#include <stdint.h>

enum { PLAIN_BOXES = 8, PLAIN_ROUNDS = 3 };

struct plain_box {
    int width, start;
    uint64_t low;                                     /* the field's polynomial without x^width */
    uint64_t r0[PLAIN_ROUNDS], r1[PLAIN_ROUNDS]; /* the random parts of CPA */
};

struct plain {
    int width, boxes;
    bool cpa;
    uint64_t top, c0, c1, k0, k1, k2, veil;
    uint8_t order[6][64];
    struct plain_box box[PLAIN_BOXES];
};

/* Opens the cipher of a sound draft and its key, for the widths 24, 25, 33, 42, 59 and 64; false for others. */
bool plain_open(struct plain *p, const uint8_t *draft, size_t draft_length, const uint8_t *key);

void plain_code(const struct plain *p, uint64_t *numbers, size_t count);
void plain_back(const struct plain *p, uint64_t *numbers, size_t count);

#endif
