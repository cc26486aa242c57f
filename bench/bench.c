/* Codes and turns back the same numbers with the library and with plain.c, and prints what each takes for one. */
#define _POSIX_C_SOURCE 199309L
#include <inttypes.h>
#include <stdio.h>
#include <stdlib.h>
#include <string.h>
#include <time.h>
#include "plain.h"
#include "waderdesk.h"

enum { NUMBERS = 20000, TURNS = 12 };

struct sample {
    uint8_t draft[512], key[64];
    size_t draft_length, key_length;
    struct plain plain;
};

static uint64_t random_state = UINT64_C(0x243f6a8885a308d3);

static uint64_t random_bits(void)
{
    random_state ^= random_state << 13;
    random_state ^= random_state >> 7;
    random_state ^= random_state << 17;
    return random_state;
}

static void put(struct sample *s, uint64_t value, int bytes)
{
    for (int i = 0; i < bytes; i++)
        s->draft[s->draft_length++] = (uint8_t)(value >> 8 * i);
}

static void put_order(struct sample *s, char name, int size)
{
    uint8_t *list = s->draft + s->draft_length + 1;
    put(s, (uint8_t)name, 1);
    memset(list, 0, 64);
    for (int i = 0; i < size; i++) {
        int j = (int)(random_bits() % (uint64_t)(i + 1));
        list[i] = list[j];
        list[j] = (uint8_t)i;
    }
    s->draft_length += 64;
}

static void make_sample(struct sample *s, int width, bool cpa)
{
    int bits = (width > 32 ? 128 : 96) + (cpa ? 6 * width : 0);
    s->draft_length = 0;
    put(s, 'W', 1);
    put(s, (uint64_t)width, 1);
    put(s, cpa ? 'P' : 'F', 1);
    put(s, 'A', 1);
    put(s, random_bits() >> (64 - width), 8);
    if (width > 32) {
        put(s, 'B', 1);
        put(s, random_bits(), 8);
    }
    for (char name = '0'; name < (width > 32 ? '6' : '4'); name++)
        put_order(s, name, name < '4' ? width : 64);
    put(s, 'Z', 1);
    s->key_length = (size_t)(bits + 7) / 8;
    for (size_t i = 0; i < s->key_length; i++)
        s->key[i] = (uint8_t)random_bits();
    if (bits % 8 != 0)
        s->key[s->key_length - 1] &= (uint8_t)((1 << bits % 8) - 1);
    if (!plain_open(&s->plain, s->draft, s->draft_length, s->key))
        exit(1);
}

enum way { LIBRARY_CODE, LIBRARY_BACK, PLAIN_CODE, PLAIN_BACK };

static void go(const struct sample *s, enum way way, uint64_t *x, size_t count)
{
    struct waderdesk_answer a = { 0, 0, 0 };
    switch (way) {
    case LIBRARY_CODE: a = waderdesk_code(s->draft, s->draft_length, s->key, s->key_length, x, count); break;
    case LIBRARY_BACK: a = waderdesk_back(s->draft, s->draft_length, s->key, s->key_length, x, count); break;
    case PLAIN_CODE: plain_code(&s->plain, x, count); break;
    case PLAIN_BACK: plain_back(&s->plain, x, count); break;
    }
    if (a.status != WADERDESK_DONE) {
        printf("bench: refused %" PRIu64 " at %" PRIu64 "\n", a.status, a.at);
        exit(1);
    }
}

static double seconds(void)
{
    struct timespec t;
    clock_gettime(CLOCK_MONOTONIC, &t);
    return (double)t.tv_sec + 1e-9 * (double)t.tv_nsec;
}

/* What one turn takes, in nanoseconds a number; x has what comes out. */
static double turn_of(const struct sample *s, enum way way, const uint64_t *from, uint64_t *x)
{
    memcpy(x, from, NUMBERS * sizeof *x);
    double start = seconds();
    go(s, way, x, NUMBERS);
    return (seconds() - start) / NUMBERS * 1e9;
}

static double smaller(double a, double b)
{
    return a < b ? a : b;
}

/* The shortest of some turns each, which take turns, so that what else runs on the machine falls on both. */
static void row(const struct sample *s, const char *task, enum way library, enum way plain, const uint64_t *from)
{
    static uint64_t ours[NUMBERS], theirs[NUMBERS];
    double a = 1e9, b = 1e9;
    for (int turn = 0; turn < TURNS; turn++) {
        a = smaller(a, turn_of(s, library, from, ours));
        b = smaller(b, turn_of(s, plain, from, theirs));
    }
    if (memcmp(ours, theirs, sizeof ours) != 0) {
        printf("bench: the answers differ\n");
        exit(1);
    }
    printf("%5d  %-4s  %-4s  %10.0f  %8.0f  %5.2f\n", s->plain.width, s->plain.cpa ? "CPA" : "Flex", task, a, b, a / b);
}

int main(void)
{
    static const int widths[] = { 24, 25, 33, 42, 59, 64 };
    static uint64_t numbers[NUMBERS];
    static struct sample s;

    printf("width  flow  task  library ns  plain ns  ratio\n");
    for (size_t w = 0; w < sizeof widths / sizeof widths[0]; w++) {
        for (int cpa = 0; cpa < 2; cpa++) {
            make_sample(&s, widths[w], cpa);
            for (size_t i = 0; i < NUMBERS; i++)
                numbers[i] = random_bits() & s.plain.top;
            row(&s, "code", LIBRARY_CODE, PLAIN_CODE, numbers);
            row(&s, "back", LIBRARY_BACK, PLAIN_BACK, numbers);
        }
    }
    return 0;
}
