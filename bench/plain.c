/*
 * The K-Cipher as one writes it down from its description: orders bit by bit,
 * inverses as powers, products by shifting and adding. Nothing is looked up;
 * the round keys and the places of the boxes are worked out once, at opening.
 */
#include "plain.h"
#include <string.h>

/* ---- Fields ------------------------------------------------------------- */

static uint64_t low_part(int m)
{
    switch (m) {
    case 8: return 0x1b;
    case 9: return 0x03;
    case 14: return 0x21;
    default: return 0x09; /* 25 */
    }
}

/* With masks in place of branches, which cost a plain form more than half its time. */
static uint64_t product(const struct plain_box *b, uint64_t x, uint64_t y)
{
    uint64_t mask = ((uint64_t)1 << b->width) - 1, sum = 0;
    for (int i = 0; i < b->width; i++) {
        sum ^= x & -(y >> i & 1);
        x = (x << 1 & mask) ^ (b->low & -(x >> (b->width - 1)));
    }
    return sum;
}

/* x^(2^m - 2), which is x^2 x^4 .. x^(2^(m - 1)), and 0 for 0. */
static uint64_t inverse(const struct plain_box *b, uint64_t x)
{
    uint64_t power = 1;
    for (int i = 1; i < b->width; i++) {
        x = product(b, x, x);
        power = product(b, power, x);
    }
    return power;
}

/* ---- Steps -------------------------------------------------------------- */

static uint64_t ordered(const uint8_t *list, int width, uint64_t x)
{
    uint64_t y = 0;
    for (int i = 0; i < width; i++)
        y |= (x >> i & 1) << list[i];
    return y;
}

static uint64_t unordered(const uint8_t *list, int width, uint64_t y)
{
    uint64_t x = 0;
    for (int i = 0; i < width; i++)
        x |= (y >> list[i] & 1) << i;
    return x;
}

static uint64_t box_mask(const struct plain_box *b)
{
    return ((uint64_t)1 << b->width) - 1;
}

static uint64_t rotated(const struct plain_box *b, uint64_t x, int by)
{
    return (x << by | x >> (b->width - by)) & box_mask(b);
}

static uint64_t flex_boxes(const struct plain *p, uint64_t x)
{
    uint64_t y = 0;
    for (const struct plain_box *b = p->box; b < p->box + p->boxes; b++)
        y |= inverse(b, x >> b->start & box_mask(b)) << b->start;
    return y;
}

static uint64_t cpa_boxes(const struct plain *p, int round, uint64_t x)
{
    uint64_t y = 0;
    for (const struct plain_box *b = p->box; b < p->box + p->boxes; b++) {
        uint64_t v = inverse(b, (x >> b->start & box_mask(b)) ^ b->r0[round]);
        y |= rotated(b, (v + b->r1[round]) & box_mask(b), 2) << b->start;
    }
    return y;
}

static uint64_t cpa_boxes_back(const struct plain *p, int round, uint64_t y)
{
    uint64_t x = 0;
    for (const struct plain_box *b = p->box; b < p->box + p->boxes; b++) {
        uint64_t v = rotated(b, y >> b->start & box_mask(b), b->width - 2);
        x |= (inverse(b, (v - b->r1[round]) & box_mask(b)) ^ b->r0[round]) << b->start;
    }
    return x;
}

/* ---- The two flows ------------------------------------------------------ */

static uint64_t flex_code(const struct plain *p, uint64_t x)
{
    x = (x + p->c0 + p->k0) & p->top;
    x = flex_boxes(p, ordered(p->order[0], p->width, x));
    x = (ordered(p->order[1], p->width, x) + p->k1) & p->top;
    x = flex_boxes(p, ordered(p->order[2], p->width, x));
    return ordered(p->order[3], p->width, x) ^ p->k2;
}

static uint64_t flex_back(const struct plain *p, uint64_t y)
{
    y = flex_boxes(p, unordered(p->order[3], p->width, y ^ p->k2));
    y = (unordered(p->order[2], p->width, y) - p->k1) & p->top;
    y = flex_boxes(p, unordered(p->order[1], p->width, y));
    return (unordered(p->order[0], p->width, y) - p->k0 - p->c0) & p->top;
}

static uint64_t cpa_code(const struct plain *p, uint64_t x)
{
    x = (x + p->c0 + p->k0) & p->top;
    x = cpa_boxes(p, 0, ordered(p->order[0], p->width, x));
    x = (x + p->k1) & p->top;
    x = cpa_boxes(p, 1, ordered(p->order[1], p->width, x));
    x = (x + p->k2) & p->top;
    return cpa_boxes(p, 2, ordered(p->order[2], p->width, x)) ^ p->veil;
}

static uint64_t cpa_back(const struct plain *p, uint64_t y)
{
    y = unordered(p->order[2], p->width, cpa_boxes_back(p, 2, y ^ p->veil));
    y = (y - p->k2) & p->top;
    y = unordered(p->order[1], p->width, cpa_boxes_back(p, 1, y));
    y = (y - p->k1) & p->top;
    y = unordered(p->order[0], p->width, cpa_boxes_back(p, 0, y));
    return (y - p->k0 - p->c0) & p->top;
}

void plain_code(const struct plain *p, uint64_t *numbers, size_t count)
{
    for (size_t i = 0; i < count; i++)
        numbers[i] = p->cpa ? cpa_code(p, numbers[i]) : flex_code(p, numbers[i]);
}

void plain_back(const struct plain *p, uint64_t *numbers, size_t count)
{
    for (size_t i = 0; i < count; i++)
        numbers[i] = p->cpa ? cpa_back(p, numbers[i]) : flex_back(p, numbers[i]);
}

/* ---- Opening ------------------------------------------------------------ */

static uint64_t bits_at(const uint8_t *bytes, int from, int count)
{
    uint64_t x = 0;
    for (int i = 0; i < count; i++)
        x |= (uint64_t)(bytes[(from + i) / 8] >> (from + i) % 8 & 1) << i;
    return x;
}

static bool place_boxes(struct plain *p, int width)
{
    static const struct { int width, wide, last, count; } shapes[] = {
        { 24, 8, 8, 3 }, { 25, 25, 25, 1 }, { 33, 8, 9, 4 }, { 42, 14, 14, 3 }, { 59, 9, 14, 6 }, { 64, 8, 8, 8 }
    };
    for (size_t s = 0; s < sizeof shapes / sizeof shapes[0]; s++) {
        if (shapes[s].width != width)
            continue;
        p->boxes = shapes[s].count;
        for (int i = 0, start = 0; i < p->boxes; start += p->box[i++].width) {
            int m = i == 0 ? shapes[s].last : shapes[s].wide;
            p->box[i] = (struct plain_box){ .width = m, .start = start, .low = low_part(m) };
        }
        return true;
    }
    return false;
}

static void read_commands(struct plain *p, const uint8_t *draft, size_t length)
{
    p->width = draft[1];
    p->top = UINT64_MAX >> (64 - p->width);
    for (size_t at = 2; at < length && draft[at] != 'Z';) {
        uint8_t command = draft[at++];
        if (command == 'F' || command == 'P') {
            p->cpa = command == 'P';
        } else if (command == 'A' || command == 'B') {
            *(command == 'A' ? &p->c0 : &p->c1) = bits_at(draft + at, 0, 64);
            at += 8;
        } else {
            memcpy(p->order[command - '0'], draft + at, 64);
            at += 64;
        }
    }
}

static void expand_key(struct plain *p, const uint8_t *key)
{
    uint8_t schedule[24] = { 0 };
    int bytes = p->width > 32 ? 16 : 12;
    memcpy(schedule, key, (size_t)bytes);
    if (p->width > 32) {
        struct plain whole = { .width = 64 };
        place_boxes(&whole, 64);
        uint64_t x = ordered(p->order[4], 64, bits_at(key, 0, 64) + p->c1);
        x = ordered(p->order[5], 64, flex_boxes(&whole, x));
        for (int i = 0; i < 8; i++)
            schedule[16 + i] = (uint8_t)(x >> 8 * i);
    }
    p->k0 = bits_at(schedule, 0, p->width);
    p->k1 = bits_at(schedule, p->width, p->width);
    p->k2 = bits_at(schedule, 2 * p->width, p->width);
    p->veil = ordered(p->order[3], p->width, p->k2);
    for (int round = 0; p->cpa && round < PLAIN_ROUNDS; round++) {
        for (struct plain_box *b = p->box; b < p->box + p->boxes; b++) {
            int from = 8 * bytes + 2 * round * p->width + b->start;
            b->r0[round] = bits_at(key, from, b->width);
            b->r1[round] = bits_at(key, from + p->width, b->width);
        }
    }
}

bool plain_open(struct plain *p, const uint8_t *draft, size_t draft_length, const uint8_t *key)
{
    memset(p, 0, sizeof *p);
    read_commands(p, draft, draft_length);
    if (!place_boxes(p, p->width))
        return false;
    expand_key(p, key);
    return true;
}
