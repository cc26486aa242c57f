/*
 * K-Cipher for the widths 24 to 64, written for reading and not for speed.
 *
 * It follows the published listings step by step, and works one bit at a time
 * wherever it can, so that it shares neither tables nor tricks with a fast
 * implementation: when the two agree, they agree for different reasons.
 *
 *   kcipher vectors                             ciphers and questions, to standard output
 *   kcipher answer                              answers those on standard input
 *   kcipher selftest [EXAMPLES]                 known cases, and turning back
 *   kcipher file DRAFTFILE KEYFILE code|back    numbers from standard input
 *
 * Bit 0 is always the lowest bit. A draft holds what is public in a cipher:
 * its width, flow, constants and orders.
 */

#include <inttypes.h>
#include <stdbool.h>
#include <stdint.h>
#include <stdio.h>
#include <stdlib.h>
#include <string.h>

enum {
    MIN_WIDTH = 24,
    MAX_WIDTH = 64,
    ORDERS = 6,
    MAX_DRAFT = 2 + 1 + 2 * 9 + ORDERS * 65 + 1,
    MAX_KEY = (128 + 6 * MAX_WIDTH) / 8
};

static void fail(const char *why)
{
    fprintf(stderr, "kcipher: %s\n", why);
    exit(1);
}

/* ---- Numbers as strings of bits ---------------------------------------- */

static unsigned bit(uint64_t x, int i)
{
    return (unsigned)(x >> i & 1);
}

/* Never shifts by 64, which C leaves undefined. */
static uint64_t top_number(int n)
{
    return UINT64_MAX >> (64 - n);
}

/* Sum modulo 2^n: the last carry is dropped. */
static uint64_t add(uint64_t x, uint64_t y, int n)
{
    uint64_t sum = 0;
    unsigned carry = 0;
    for (int i = 0; i < n; i++) {
        unsigned total = bit(x, i) + bit(y, i) + carry;
        sum |= (uint64_t)(total & 1) << i;
        carry = total >> 1;
    }
    return sum;
}

/* Difference modulo 2^n: the last borrow is dropped. */
static uint64_t subtract(uint64_t x, uint64_t y, int n)
{
    uint64_t difference = 0;
    unsigned borrow = 0;
    for (int i = 0; i < n; i++) {
        unsigned rest = 2 + bit(x, i) - bit(y, i) - borrow; /* 2 keeps it from going negative */
        difference |= (uint64_t)(rest & 1) << i;
        borrow = rest < 2;
    }
    return difference;
}

/* The `width` bits of x from bit `start` up. */
static uint64_t slice(uint64_t x, int start, int width)
{
    uint64_t part = 0;
    for (int i = 0; i < width; i++)
        part |= (uint64_t)bit(x, start + i) << i;
    return part;
}

/* The same, from a string with one bit in each array element. */
static uint64_t slice_string(const uint8_t *string, int start, int width)
{
    uint64_t part = 0;
    for (int i = 0; i < width; i++)
        part |= (uint64_t)string[start + i] << i;
    return part;
}

/* Each bit moves two places up (or down); those pushed out enter at the other end. */
static uint64_t rotate_up(uint64_t x, int width)
{
    uint64_t y = 0;
    for (int i = 0; i < width; i++)
        y |= (uint64_t)bit(x, i) << (i + 2) % width;
    return y;
}

static uint64_t rotate_down(uint64_t x, int width)
{
    uint64_t y = 0;
    for (int i = 0; i < width; i++)
        y |= (uint64_t)bit(x, (i + 2) % width) << i;
    return y;
}

/* ---- The fields of 2^m elements ---------------------------------------- */

/* Polynomials of the fields for m = 5 to 32, without their highest term x^m. */
static const uint64_t low_part[] = {
    0x05, 0x03, 0x03, 0x1b, 0x03, 0x09, 0x05, 0x09, 0x1b, 0x21, 0x03, 0x2b, 0x09, 0x09,
    0x27, 0x09, 0x05, 0x03, 0x21, 0x1b, 0x09, 0x1b, 0x27, 0x03, 0x05, 0x03, 0x09, 0x8d
};

static uint64_t field_polynomial(int m)
{
    if (m < 5 || m > 32)
        fail("no polynomial for a box this wide");
    return (uint64_t)1 << m | low_part[m - 5];
}

static int degree(uint64_t p)
{
    int d = -1; /* of the zero polynomial */
    for (int i = 0; i < 64; i++)
        if (bit(p, i))
            d = i;
    return d;
}

static uint64_t remainder_of(uint64_t p, uint64_t divisor)
{
    while (degree(p) >= degree(divisor))
        p ^= divisor << (degree(p) - degree(divisor));
    return p;
}

/* With m at most 32 the whole product fits 63 bits, so it is reduced at the end. */
static uint64_t multiply(uint64_t a, uint64_t b, int m)
{
    uint64_t product = 0;
    for (int i = 0; i < m; i++)
        if (bit(b, i))
            product ^= a << i;
    return remainder_of(product, field_polynomial(m));
}

static void swap(uint64_t *a, uint64_t *b)
{
    uint64_t kept = *a;
    *a = *b;
    *b = kept;
}

/*
 * Extended Euclid over polynomials modulo 2. Throughout, s0 * a = r0 and
 * s1 * a = r1 modulo the polynomial of the field; as that is irreducible, r0
 * ends as the greatest common divisor 1, and s0 as the inverse. Zero has no
 * inverse and stands for itself, which keeps the box a permutation.
 */
static uint64_t inverse(uint64_t a, int m)
{
    if (a == 0)
        return 0;
    uint64_t r0 = field_polynomial(m), r1 = a, s0 = 0, s1 = 1;
    while (r1 != 0) {
        while (degree(r0) >= degree(r1)) {
            int shift = degree(r0) - degree(r1);
            r0 ^= r1 << shift;
            s0 ^= s1 << shift;
        }
        swap(&r0, &r1);
        swap(&s0, &s1);
    }
    if (multiply(a, s0, m) != 1)
        fail("an inverse is wrong");
    return s0;
}

/* ---- Widths of the boxes ----------------------------------------------- */

static bool d_function(int m)
{
    static const int permitted[] = {
        12, 14, 15, 16, 18, 20, 21, 24, 25, 27, 28, 30, 32, 33, 34, 36, 38, 39,
        5, 6, 7, 8, 9, 10,
        40, 42, 44, 45, 48, 49, 50, 52, 54, 55, 56, 60, 64
    };
    for (size_t i = 0; i < sizeof permitted / sizeof permitted[0]; i++)
        if (permitted[i] == m)
            return true;
    return false;
}

/* A box must have a bit to spare for every box of the next layer. */
static bool e_function(int m, int b)
{
    return m >= b;
}

enum { LOWEST = 8, UPPERMOST = 28 }; /* the bounds for every width up to 256 */

struct boxes {
    int count; /* b */
    int width; /* m, of all but the last */
    int last;  /* width of the last, which takes the lowest bits */
    bool tied; /* another width had the same best score */
};

/*
 * The search tries all widths and only then chooses: a division into equal
 * boxes wins over any other, whatever the scores.
 */
static struct boxes get_sbox_lengths(int n)
{
    struct boxes best_equal = { 0, 0, 0, false }, best_different = { 0, 0, 0, false };
    int score_equal = 0, score_different = 0;

    for (int l = LOWEST; l <= UPPERMOST; l++) {
        if (!d_function(l))
            continue;
        int b = (n + l - 1) / l;
        if (!e_function(l, b))
            continue;
        int score = abs(l - b);
        int last = l;
        struct boxes *best = &best_equal;
        int *best_score = &score_equal;
        if (n - l * b != 0) {
            last = n - l * (b - 1);
            best = &best_different;
            best_score = &score_different;
            if (d_function(last) && e_function(last, b)) {
                /* accepted as it is */
            } else if (d_function(last + l) && e_function(last + l, b - 1)) {
                score = abs(l - b + 1);
                last += l;
                b--;
            } else {
                continue;
            }
        }
        if (best->count == 0 || score < *best_score) {
            *best = (struct boxes){ b, l, last, false };
            *best_score = score;
        } else if (score == *best_score) {
            best->tied = true;
        }
    }
    if (best_equal.count != 0)
        return best_equal;
    if (best_different.count != 0)
        return best_different;
    fail("no division into boxes");
    return best_equal;
}

static int box_start(struct boxes boxes, int i)
{
    return i == 0 ? 0 : boxes.last + (i - 1) * boxes.width;
}

static int box_width(struct boxes boxes, int i)
{
    return i == 0 ? boxes.last : boxes.width;
}

/* ---- A cipher, opened from a draft and a key ---------------------------- */

struct cipher {
    int n;
    bool cpa; /* otherwise Flex */
    uint64_t c0, c1;
    uint8_t order[ORDERS][MAX_WIDTH];
    uint64_t k0, k1, k2;
    uint8_t randomizer[6 * MAX_WIDTH]; /* one bit in each element; CPA only */
};

static int get_flex_key_length(int n)
{
    return n <= 32 ? 96 : 128;
}

static int get_key_length(int n, bool cpa)
{
    return get_flex_key_length(n) + (cpa ? 6 * n : 0);
}

/* Orders 10 to 13 are the inverses of 0 to 3. */
static uint64_t bit_reordering(const struct cipher *c, uint64_t x, int n, int order)
{
    uint64_t y = 0;
    for (int i = 0; i < n; i++) {
        if (order < 10)
            y |= (uint64_t)bit(x, i) << c->order[order][i];
        else
            y |= (uint64_t)bit(x, c->order[order - 10][i]) << i;
    }
    return y;
}

static uint64_t sbox_flex(uint64_t x, int n)
{
    struct boxes boxes = get_sbox_lengths(n);
    uint64_t y = 0;
    for (int i = 0; i < boxes.count; i++) {
        int start = box_start(boxes, i), width = box_width(boxes, i);
        y |= inverse(slice(x, start, width), width) << start;
    }
    return y;
}

static uint64_t cpa_box(uint64_t x, uint64_t r0, uint64_t r1, int width)
{
    return rotate_up(add(inverse(x ^ r0, width), r1, width), width);
}

static uint64_t inv_cpa_box(uint64_t x, uint64_t r0, uint64_t r1, int width)
{
    return inverse(subtract(rotate_down(x, width), r1, width), width) ^ r0;
}

/* One way through a box, or the other. */
typedef uint64_t cpa_way(uint64_t x, uint64_t r0, uint64_t r1, int width);

static uint64_t through_cpa_boxes(const struct cipher *c, uint64_t x, int round, cpa_way *way)
{
    struct boxes boxes = get_sbox_lengths(c->n);
    int u = 2 * round * c->n, v = (2 * round + 1) * c->n;
    uint64_t y = 0;
    for (int i = 0; i < boxes.count; i++) {
        int start = box_start(boxes, i), width = box_width(boxes, i);
        uint64_t r0 = slice_string(c->randomizer, u + start, width);
        uint64_t r1 = slice_string(c->randomizer, v + start, width);
        y |= way(slice(x, start, width), r0, r1, width) << start;
    }
    return y;
}

static uint64_t sbox_cpa(const struct cipher *c, uint64_t x, int round)
{
    return through_cpa_boxes(c, x, round, cpa_box);
}

static uint64_t inv_sbox_cpa(const struct cipher *c, uint64_t x, int round)
{
    return through_cpa_boxes(c, x, round, inv_cpa_box);
}

static unsigned key_bit(const uint8_t *key, int i)
{
    return bit(key[i / 8], i % 8);
}

/*
 * The expansion lengthens a copy of the schedule key. The randomizer, which in
 * the key follows the schedule key, is read from the key itself and is not
 * overwritten by the 64 bits appended to the copy.
 */
static void key_expansion(struct cipher *c, const uint8_t *key)
{
    enum { HALF = 64 };
    int n = c->n, length = get_flex_key_length(n);
    uint8_t schedule[3 * MAX_WIDTH] = { 0 };

    for (int i = 0; i < length; i++)
        schedule[i] = (uint8_t)key_bit(key, i);
    if (n > 32) {
        uint64_t u = add(slice_string(schedule, 0, HALF), c->c1, HALF);
        uint64_t v = bit_reordering(c, u, HALF, 4);
        u = sbox_flex(v, HALF);
        v = bit_reordering(c, u, HALF, 5);
        for (int i = 0; i < HALF; i++)
            schedule[length + i] = (uint8_t)bit(v, i);
    }
    c->k0 = slice_string(schedule, 0, n);
    c->k1 = slice_string(schedule, n, n);
    c->k2 = slice_string(schedule, 2 * n, n);
}

static void get_randomizer(struct cipher *c, const uint8_t *key)
{
    int length = get_flex_key_length(c->n);
    for (int i = 0; i < 6 * c->n; i++)
        c->randomizer[i] = (uint8_t)key_bit(key, length + i);
}

static uint64_t read_constant(const uint8_t *bytes)
{
    uint64_t value = 0;
    for (int i = 0; i < 8; i++)
        value |= (uint64_t)bytes[i] << 8 * i;
    return value;
}

/* An order that is no permutation would lose bits, and could not be turned back. */
static void check_order(const uint8_t *list, int size)
{
    bool taken[MAX_WIDTH] = { false };
    for (int i = 0; i < size; i++) {
        if (list[i] >= size || taken[list[i]])
            fail("an order in the draft is no permutation");
        taken[list[i]] = true;
    }
    for (int i = size; i < MAX_WIDTH; i++)
        if (list[i] != 0)
            fail("an order in the draft is longer than the width");
}

/*
 * The commands of a draft: W, a byte with the width; F or P, the flow (Flex,
 * CPA); A, eight bytes with C0, lowest first; B, eight bytes with C1; '0' to
 * '5', an order as 64 bytes, with zeros past its size; Z, the end. B, '4' and
 * '5' belong to the key expansion, and so to widths above 32 only. W comes
 * first because the others are checked by it.
 */
static void read_draft(struct cipher *c, const uint8_t *draft, size_t length)
{
    bool seen[256] = { false };
    size_t at = 0;

    memset(c, 0, sizeof *c);
    while (!seen['Z']) {
        if (at >= length)
            fail("the draft has no end");
        int command = draft[at++];
        bool is_order = command >= '0' && command < '0' + ORDERS;
        size_t size = is_order ? MAX_WIDTH
                      : command == 'A' || command == 'B' ? 8
                      : command == 'W' ? 1
                      : 0;
        if (length - at < size)
            fail("the draft is cut short");
        if (seen[command])
            fail("the draft repeats a command");
        seen[command] = true;
        if (!seen['W'])
            fail("the draft does not begin with its width");
        const uint8_t *bytes = draft + at;
        if (command == 'W') {
            c->n = bytes[0];
            if (c->n < MIN_WIDTH || c->n > MAX_WIDTH)
                fail("the width is not from 24 to 64");
        } else if (command == 'F' || command == 'P') {
            c->cpa = command == 'P';
        } else if (command == 'A') {
            c->c0 = read_constant(bytes);
            if (c->c0 > top_number(c->n))
                fail("C0 is wider than the cipher");
        } else if (command == 'B') {
            c->c1 = read_constant(bytes);
        } else if (is_order) {
            int which = command - '0';
            check_order(bytes, which < 4 ? c->n : MAX_WIDTH);
            memcpy(c->order[which], bytes, MAX_WIDTH);
        } else if (command != 'Z') {
            fail("the draft has an unknown command");
        }
        at += size;
    }
    if (at != length)
        fail("the draft goes on after its end");
    if (seen['F'] == seen['P'])
        fail("the draft must name one flow");
    for (const char *name = "A0123"; *name; name++)
        if (!seen[(int)*name])
            fail("the draft lacks a command");
    for (const char *name = "B45"; *name; name++)
        if (seen[(int)*name] != (c->n > 32))
            fail("B, 4 and 5 go with widths above 32, and with those only");
}

static void open_cipher(struct cipher *c, const uint8_t *draft, size_t draft_length,
                        const uint8_t *key, size_t key_length)
{
    read_draft(c, draft, draft_length);
    int bits = get_key_length(c->n, c->cpa);
    int bytes = (bits + 7) / 8;
    if (key_length != (size_t)bytes)
        fail("the key has the wrong length for this draft");
    for (int i = bits; i < 8 * bytes; i++)
        if (key_bit(key, i))
            fail("a spare bit of the key is not 0");
    key_expansion(c, key);
    if (c->cpa)
        get_randomizer(c, key);
}

/* ---- Coding and turning back -------------------------------------------- */

static uint64_t enc_flex(const struct cipher *c, uint64_t x)
{
    int n = c->n;
    uint64_t u = add(x, c->c0, n);
    uint64_t v = add(u, c->k0, n);
    u = bit_reordering(c, v, n, 0);
    v = sbox_flex(u, n);
    u = bit_reordering(c, v, n, 1);
    v = add(u, c->k1, n);
    u = bit_reordering(c, v, n, 2);
    v = sbox_flex(u, n);
    u = bit_reordering(c, v, n, 3);
    return u ^ c->k2;
}

static uint64_t dec_flex(const struct cipher *c, uint64_t y)
{
    int n = c->n;
    uint64_t u = y ^ c->k2;
    uint64_t v = bit_reordering(c, u, n, 13);
    u = sbox_flex(v, n);
    v = bit_reordering(c, u, n, 12);
    u = subtract(v, c->k1, n);
    v = bit_reordering(c, u, n, 11);
    u = sbox_flex(v, n);
    v = bit_reordering(c, u, n, 10);
    u = subtract(v, c->k0, n);
    return subtract(u, c->c0, n);
}

static uint64_t enc_cpa(const struct cipher *c, uint64_t x)
{
    int n = c->n;
    uint64_t u = add(x, c->c0, n);
    uint64_t v = add(u, c->k0, n);
    u = bit_reordering(c, v, n, 0);
    v = sbox_cpa(c, u, 0);
    u = add(v, c->k1, n);
    v = bit_reordering(c, u, n, 1);
    u = sbox_cpa(c, v, 1);
    v = add(u, c->k2, n);
    u = bit_reordering(c, v, n, 2);
    v = sbox_cpa(c, u, 2);
    uint64_t veil = bit_reordering(c, c->k2, n, 3);
    return v ^ veil;
}

static uint64_t dec_cpa(const struct cipher *c, uint64_t y)
{
    int n = c->n;
    uint64_t veil = bit_reordering(c, c->k2, n, 3);
    uint64_t u = y ^ veil;
    uint64_t v = inv_sbox_cpa(c, u, 2);
    u = bit_reordering(c, v, n, 12);
    v = subtract(u, c->k2, n);
    u = inv_sbox_cpa(c, v, 1);
    v = bit_reordering(c, u, n, 11);
    u = subtract(v, c->k1, n);
    v = inv_sbox_cpa(c, u, 0);
    u = bit_reordering(c, v, n, 10);
    v = subtract(u, c->k0, n);
    return subtract(v, c->c0, n);
}

static uint64_t code(const struct cipher *c, uint64_t x)
{
    return c->cpa ? enc_cpa(c, x) : enc_flex(c, x);
}

static uint64_t back(const struct cipher *c, uint64_t y)
{
    return c->cpa ? dec_cpa(c, y) : dec_flex(c, y);
}

/* ---- The generated tests ------------------------------------------------ */

enum { PER_WIDTH_AND_FLOW = 3, PER_DIRECTION = 25, QUESTIONS = 2 * PER_DIRECTION };

struct question {
    bool turning_back;
    uint64_t number;
};

struct sample {
    uint8_t draft[MAX_DRAFT];
    size_t draft_length;
    uint8_t key[MAX_KEY];
    size_t key_length;
    struct question questions[QUESTIONS];
};

/* splitmix64: short, and the same everywhere. */
static uint64_t random_state;

static uint64_t random_number(void)
{
    uint64_t z = random_state += UINT64_C(0x9e3779b97f4a7c15);
    z = (z ^ z >> 30) * UINT64_C(0xbf58476d1ce4e5b9);
    z = (z ^ z >> 27) * UINT64_C(0x94d049bb133111eb);
    return z ^ z >> 31;
}

static int random_below(int limit)
{
    return (int)(random_number() % (uint64_t)limit);
}

static uint64_t random_of_width(int n)
{
    return random_number() >> (64 - n);
}

/* Fisher-Yates. */
static void random_order(uint8_t *list, int size)
{
    for (int i = 0; i < size; i++)
        list[i] = (uint8_t)i;
    for (int i = size - 1; i > 0; i--) {
        int j = random_below(i + 1);
        uint8_t kept = list[i];
        list[i] = list[j];
        list[j] = kept;
    }
}

static void put(struct sample *s, uint8_t byte)
{
    s->draft[s->draft_length++] = byte;
}

static void put_constant(struct sample *s, uint64_t value)
{
    for (int i = 0; i < 8; i++)
        put(s, (uint8_t)(value >> 8 * i));
}

static void put_order(struct sample *s, const uint8_t *list, int size)
{
    for (int i = 0; i < MAX_WIDTH; i++)
        put(s, i < size ? list[i] : 0);
}

/* The commands between the width and the end come in any order, so that a reader shows it takes them so. */
static void random_draft(struct sample *s, int n, bool cpa)
{
    const char *names = n > 32 ? "FAB012345" : "FA0123";
    int count = (int)strlen(names);
    uint8_t turn[9];

    random_order(turn, count);
    s->draft_length = 0;
    put(s, 'W');
    put(s, (uint8_t)n);
    for (int i = 0; i < count; i++) {
        char name = names[turn[i]];
        if (name == 'F') {
            put(s, cpa ? 'P' : 'F');
        } else if (name == 'A' || name == 'B') {
            put(s, (uint8_t)name);
            put_constant(s, random_of_width(name == 'A' ? n : 64));
        } else {
            int size = name < '4' ? n : MAX_WIDTH;
            uint8_t list[MAX_WIDTH];
            random_order(list, size);
            put(s, (uint8_t)name);
            put_order(s, list, size);
        }
    }
    put(s, 'Z');
}

static void random_key(struct sample *s, int n, bool cpa)
{
    int bits = get_key_length(n, cpa);
    s->key_length = (size_t)(bits + 7) / 8;
    memset(s->key, 0, sizeof s->key);
    for (int i = 0; i < bits; i++)
        s->key[i / 8] = (uint8_t)(s->key[i / 8] | random_of_width(1) << i % 8);
}

/* Both directions mixed, and each with its two outermost numbers. */
static void random_questions(struct sample *s, int n)
{
    uint8_t place[QUESTIONS];
    random_order(place, QUESTIONS);
    for (int i = 0; i < QUESTIONS; i++) {
        struct question *q = &s->questions[place[i]];
        int k = i % PER_DIRECTION;
        q->turning_back = i >= PER_DIRECTION;
        q->number = k == 0 ? 0 : k == 1 ? top_number(n) : random_of_width(n);
    }
}

static void print_hex(const uint8_t *bytes, size_t length)
{
    for (size_t i = 0; i < length; i++)
        printf("%02x", bytes[i]);
}

static int checks, failures;

static void check(const char *what, bool good)
{
    checks++;
    if (!good) {
        failures++;
        printf("FAILED: %s\n", what);
    }
}

/* One walk through all samples serves both uses, so that these cannot drift apart. */
enum use { VECTORS, TURNING_BACK };

static void for_all_samples(enum use use)
{
    static struct sample s;
    struct cipher c;

    random_state = UINT64_C(0x4b2d436970686572);
    for (int n = MIN_WIDTH; n <= MAX_WIDTH; n++) {
        for (int i = 0; i < 2 * PER_WIDTH_AND_FLOW; i++) {
            bool cpa = i >= PER_WIDTH_AND_FLOW;
            random_draft(&s, n, cpa);
            random_key(&s, n, cpa);
            random_questions(&s, n);
            open_cipher(&c, s.draft, s.draft_length, s.key, s.key_length);
            if (use == VECTORS) {
                printf("cipher ");
                print_hex(s.draft, s.draft_length);
                printf(" ");
                print_hex(s.key, s.key_length);
                printf("\n");
            }
            for (int j = 0; j < QUESTIONS; j++) {
                struct question q = s.questions[j];
                if (use == VECTORS) {
                    printf("%s %" PRIu64 "\n", q.turning_back ? "back" : "code", q.number);
                    continue;
                }
                uint64_t answer = q.turning_back ? back(&c, q.number) : code(&c, q.number);
                uint64_t again = q.turning_back ? code(&c, answer) : back(&c, answer);
                check("turning back undoes coding, and the other way round",
                      again == q.number && answer <= top_number(n));
            }
        }
    }
}

/* ---- Known cases -------------------------------------------------------- */

/*
 * Where a plain draft above 32 has C1 and its first order: after W, the width,
 * F and A with eight bytes come B and its bytes, then '0' and its list. Each
 * later list begins 65 bytes further.
 */
enum { PLAIN_C1 = 3 + 9 + 1, PLAIN_ORDER_0 = 3 + 2 * 9 + 1 };

/* Zero constants, a zero key and orders that move nothing. */
static void plain_sample(struct sample *s, int n, bool cpa)
{
    const char *names = n > 32 ? "AB012345" : "A0123";
    uint8_t list[MAX_WIDTH];

    memset(s, 0, sizeof *s);
    put(s, 'W');
    put(s, (uint8_t)n);
    put(s, cpa ? 'P' : 'F');
    for (int i = 0; i < MAX_WIDTH; i++)
        list[i] = (uint8_t)i;
    for (const char *name = names; *name; name++) {
        put(s, (uint8_t)*name);
        if (*name >= 'A')
            put_constant(s, 0);
        else
            put_order(s, list, *name < '4' ? n : MAX_WIDTH);
    }
    put(s, 'Z');
    s->key_length = (size_t)(get_key_length(n, cpa) + 7) / 8;
}

static struct cipher open_sample(const struct sample *s)
{
    struct cipher c;
    open_cipher(&c, s->draft, s->draft_length, s->key, s->key_length);
    return c;
}

static void check_pair(const char *what, const struct cipher *c, uint64_t number, uint64_t coded)
{
    check(what, code(c, number) == coded);
    check(what, back(c, coded) == number);
}

static void check_fields(void)
{
    check("inverse of 2 at 5", inverse(2, 5) == 18);
    check("inverse of 2 at 14", inverse(2, 14) == 8208);
    check("inverse of 2 at 25", inverse(2, 25) == 16777220);
    check("inverse of 53h at 8", inverse(0x53, 8) == 0xca);
    for (int m = 5; m <= 32; m++) {
        bool divides = false;
        for (uint64_t d = 2; degree(d) <= m / 2 && !divides; d++)
            divides = remainder_of(field_polynomial(m), d) == 0;
        check("the polynomial of a field is irreducible", !divides);
    }
    for (int m = 5; m <= 14; m++)
        for (uint64_t a = 0; a <= top_number(m); a++)
            check("the inverse of the inverse", inverse(inverse(a, m), m) == a);
}

static void check_boxes(void)
{
    static const struct {
        int n, count, width, last;
    } known[] = {
        { 24, 3, 8, 8 }, { 25, 1, 25, 25 }, { 64, 8, 8, 8 }, { 26, 3, 8, 10 }, { 59, 6, 9, 14 }
    };
    for (size_t i = 0; i < sizeof known / sizeof known[0]; i++) {
        struct boxes b = get_sbox_lengths(known[i].n);
        check("the boxes of a width", b.count == known[i].count && b.width == known[i].width
                                          && b.last == known[i].last);
    }
    for (int n = MIN_WIDTH; n <= MAX_WIDTH; n++) {
        struct boxes b = get_sbox_lengths(n);
        check("the boxes fill the width", b.last + (b.count - 1) * b.width == n);
        check("only one width has the best score", !b.tied);
    }
    check("CPA box of 2", cpa_box(2, 0, 15, 5) == 4);
    check("CPA box of 0", cpa_box(0, 0, 24, 5) == 3);
    for (uint64_t x = 0; x < 32; x++)
        for (uint64_t r0 = 0; r0 < 32; r0++)
            for (uint64_t r1 = 0; r1 < 32; r1++)
                check("the CPA box turns back",
                      inv_cpa_box(cpa_box(x, r0, r1, 5), r0, r1, 5) == x);
}

static void check_plain_ciphers(void)
{
    static struct sample s;
    struct cipher c;

    plain_sample(&s, 25, false);
    s.key[0] = 1;
    c = open_sample(&s);
    check_pair("plain Flex at 25 of 0", &c, 0, 1);
    check_pair("plain Flex at 25 of the top", &c, 33554431, 0);

    plain_sample(&s, 25, true);
    c = open_sample(&s);
    check_pair("plain CPA at 25 of 1", &c, 1, 9586998);

    plain_sample(&s, 64, false);
    s.draft[PLAIN_C1] = 2;
    for (int i = 0; i < 64; i++)
        s.draft[PLAIN_ORDER_0 + 65 + i] = (uint8_t)(8 * (i % 8) + i / 8);
    c = open_sample(&s);
    check_pair("plain Flex at 64 of 0", &c, 0, 141);
    check_pair("plain Flex at 64 of 1", &c, 1, 140);
    check_pair("plain Flex at 64 of 2", &c, 2, UINT64_C(72057594054770828));

    /*
     * Orders 4 and 5 one and eight places up: C1 = 1 becomes 2, its inverse
     * 141, and K2 141 * 256. With the two orders exchanged it would be 512.
     */
    plain_sample(&s, 64, false);
    s.draft[PLAIN_C1] = 1;
    for (int i = 0; i < 64; i++) {
        s.draft[PLAIN_ORDER_0 + 4 * 65 + i] = (uint8_t)((i + 1) % 64);
        s.draft[PLAIN_ORDER_0 + 5 * 65 + i] = (uint8_t)((i + 8) % 64);
    }
    c = open_sample(&s);
    check_pair("the orders of the key expansion", &c, 0, 36096);
}

static int hex_digit(char c)
{
    static const char digits[] = "0123456789abcdef";
    const char *at = strchr(digits, c);
    if (c == '\0' || at == NULL)
        fail("a hex digit is wrong");
    return (int)(at - digits);
}

static size_t read_hex(const char *text, uint8_t *bytes, size_t most)
{
    size_t length = strlen(text) / 2;
    if (strlen(text) % 2 != 0 || length > most)
        fail("a hex string has the wrong length");
    for (size_t i = 0; i < length; i++)
        bytes[i] = (uint8_t)(hex_digit(text[2 * i]) << 4 | hex_digit(text[2 * i + 1]));
    return length;
}

static uint64_t read_number(const char *text)
{
    uint64_t value = 0;
    if (*text == '\0')
        fail("a number is missing");
    for (; *text; text++) {
        if (*text < '0' || *text > '9')
            fail("a number has something else than digits");
        uint64_t digit = (uint64_t)(*text - '0');
        if (value > (UINT64_MAX - digit) / 10)
            fail("a number is beyond 64 bits");
        value = 10 * value + digit;
    }
    return value;
}

static bool next_line(FILE *file, char *line, int size)
{
    if (fgets(line, size, file) == NULL)
        return false;
    size_t length = strlen(line);
    if (length == (size_t)size - 1 && line[length - 1] != '\n')
        fail("a line is too long");
    line[strcspn(line, "\r\n")] = '\0';
    return true;
}

/* Lines "flow F", "draft HEX", "key HEX", "number N", "code N"; the last completes an example. */
static int check_examples(const char *path)
{
    static struct sample s;
    char line[2048], flow[8] = "";
    uint64_t number = 0;
    int examples = 0;
    FILE *file = fopen(path, "r");

    if (file == NULL)
        fail("the file with examples cannot be opened");
    while (next_line(file, line, sizeof line)) {
        char *value = strchr(line, ' ');
        if (line[0] == '#' || value == NULL)
            continue;
        *value++ = '\0';
        if (strcmp(line, "flow") == 0) {
            snprintf(flow, sizeof flow, "%s", value);
        } else if (strcmp(line, "draft") == 0) {
            s.draft_length = read_hex(value, s.draft, sizeof s.draft);
        } else if (strcmp(line, "key") == 0) {
            s.key_length = read_hex(value, s.key, sizeof s.key);
        } else if (strcmp(line, "number") == 0) {
            number = read_number(value);
        } else if (strcmp(line, "code") == 0) {
            struct cipher c = open_sample(&s);
            check("the flow of a published example", strcmp(flow, c.cpa ? "CPA" : "Flex") == 0);
            check_pair("a published example", &c, number, read_number(value));
            examples++;
        }
    }
    fclose(file);
    check("the file with examples has some", examples > 0);
    return examples;
}

static int selftest(const char *examples_path)
{
    int examples = 0;
    check_fields();
    check_boxes();
    check_plain_ciphers();
    if (examples_path != NULL)
        examples = check_examples(examples_path);
    for_all_samples(TURNING_BACK);
    printf("%d checks, %d failures; published examples: %d\n", checks, failures, examples);
    return failures == 0 ? 0 : 1;
}

/* ---- By hand ------------------------------------------------------------ */

static size_t read_file(const char *path, uint8_t *bytes, size_t most)
{
    FILE *file = fopen(path, "rb");
    if (file == NULL)
        fail("a file cannot be opened");
    size_t length = fread(bytes, 1, most, file);
    if (fgetc(file) != EOF)
        fail("a file is too long");
    fclose(file);
    return length;
}

static int by_hand(const char *draft_path, const char *key_path, bool turning_back)
{
    static struct sample s;
    char line[64];

    s.draft_length = read_file(draft_path, s.draft, sizeof s.draft);
    s.key_length = read_file(key_path, s.key, sizeof s.key);
    struct cipher c = open_sample(&s);
    while (next_line(stdin, line, sizeof line)) {
        uint64_t number = read_number(line);
        if (number > top_number(c.n))
            fail("a number is beyond the width");
        printf("%" PRIu64 "\n", turning_back ? back(&c, number) : code(&c, number));
    }
    return 0;
}

/* ---- Answering ---------------------------------------------------------- */

/* Splits a line at its next space; the rest is empty where there is none. */
static char *rest_of(char *line)
{
    char *space = strchr(line, ' ');
    if (space == NULL)
        return line + strlen(line);
    *space = '\0';
    return space + 1;
}

/* Lines "cipher DRAFT KEY" in hex open a cipher, and "code N" and "back N" ask it. */
static int answer_lines(void)
{
    static struct sample s;
    struct cipher c;
    char line[2048];
    bool open = false;

    while (next_line(stdin, line, sizeof line)) {
        char *value = rest_of(line);
        if (strcmp(line, "cipher") == 0) {
            char *key = rest_of(value);
            s.draft_length = read_hex(value, s.draft, sizeof s.draft);
            s.key_length = read_hex(key, s.key, sizeof s.key);
            c = open_sample(&s);
            open = true;
            continue;
        }
        bool turning_back = strcmp(line, "back") == 0;
        if (!open || (!turning_back && strcmp(line, "code") != 0))
            fail("a line is no question to a cipher");
        uint64_t number = read_number(value);
        if (number > top_number(c.n))
            fail("a number is beyond the width");
        printf("%" PRIu64 "\n", turning_back ? back(&c, number) : code(&c, number));
    }
    return 0;
}

int main(int argc, char **argv)
{
    const char *use = argc > 1 ? argv[1] : "";
    int status = 0;

    if (argc == 2 && strcmp(use, "vectors") == 0) {
        for_all_samples(VECTORS);
    } else if (argc == 2 && strcmp(use, "answer") == 0) {
        status = answer_lines();
    } else if ((argc == 2 || argc == 3) && strcmp(use, "selftest") == 0) {
        status = selftest(argc == 3 ? argv[2] : NULL);
    } else if (argc == 5 && strcmp(use, "file") == 0
               && (strcmp(argv[4], "code") == 0 || strcmp(argv[4], "back") == 0)) {
        status = by_hand(argv[2], argv[3], strcmp(argv[4], "back") == 0);
    } else {
        fail("use: kcipher vectors | answer | selftest [EXAMPLES]"
             " | file DRAFTFILE KEYFILE code|back");
    }
    if (fflush(stdout) != 0)
        fail("the output could not be written");
    return status;
}
