/*
 * client QUESTIONS ANSWERS: asks the library what crates/crosscheck is asked, turns each answer back, and tries what each refusal of
 * the header is for.
 */
#include <inttypes.h>
#include <stdio.h>
#include <stdlib.h>
#include <string.h>
#include "waderdesk.h"

static uint8_t draft[512], key[64];
static size_t draft_length, key_length, asked, spare_bits, failures;

static void check(const char *what, int good)
{
    if (!good && ++failures)
        printf("client.c: failed: %s\n", what);
}

static size_t bytes_of(const char *hex, uint8_t *bytes, size_t room)
{
    size_t n = 0;
    while (n < room && sscanf(hex + 2 * n, "%2hhx", bytes + n) == 1)
        n++;
    return n;
}

/* The two calls on numbers, as the header has to declare them. */
typedef struct waderdesk_answer coder(const uint8_t *, size_t, const uint8_t *, size_t, uint64_t *, size_t);
static coder *const code = waderdesk_code, *const back = waderdesk_back;

static int answers(struct waderdesk_answer a, uint64_t status, uint64_t at, uint64_t place)
{
    const uint64_t *const told[] = { &a.status, &a.at, &a.place }; /* pointers, so that each has to be of this type */
    return *told[0] == status && *told[1] == at && *told[2] == place;
}

static int done(coder *call, uint64_t *numbers, size_t count)
{
    return answers(call(draft, draft_length, key, key_length, numbers, count), WADERDESK_DONE, 0, 0);
}

static void ask(coder *there, coder *again, const char *number, uint64_t expected)
{
    uint64_t asked_of = strtoull(number, NULL, 10), x = asked_of;
    check("an answer", done(there, &x, 1) && x == expected);
    check("an answer turned back", done(again, &x, 1) && x == asked_of);
    asked++;
}

/* Both calls refuse, and write nothing. */
static void refused(const char *what, uint64_t status, uint64_t at, uint64_t place)
{
    uint64_t numbers[2] = { 1, UINT64_MAX };
    check(what, answers(code(draft, draft_length, key, key_length, numbers, 2), status, at, place));
    check(what, answers(back(draft, draft_length, key, key_length, numbers, 2), status, at, place));
    check("nothing is written", numbers[0] == 1 && numbers[1] == UINT64_MAX);
}

/*
 * The last draft of the questions, of width 24, with another byte and length: W stands at 0, P at 2, A at 3, the orders at 12, 77, 142
 * and 207, and Z at 272.
 */
static const struct damage { const char *what; size_t offset, byte, length; uint64_t status, at, place; } damages[] = {
    { "a draft that is cut off",       1,  24,   1, WADERDESK_DRAFT_ENDS,        0, 0 },
    { "an order that is cut off",      1,  24, 100, WADERDESK_DRAFT_ENDS,       77, 0 },
    { "no command letter",             2, 'X', 273, WADERDESK_NO_COMMAND,        2, 0 },
    { "W for the second time",         2, 'W', 273, WADERDESK_OUT_OF_SEQUENCE,   2, 0 },
    { "a command of greater widths",   2, 'B', 273, WADERDESK_NO_USE,            2, 0 },
    { "a width below the least",       1,  23, 273, WADERDESK_BAD_WIDTH,         0, 0 },
    { "a constant of 25 bits",         7,   1, 273, WADERDESK_C0_TOO_LARGE,      3, 0 },
    { "a list place above the width", 148, 24, 273, WADERDESK_NO_ORDER,        142, 5 },
    { "an order left out",           207, 'Z', 208, WADERDESK_MISSING,         207, 0 },
    { "a byte after Z",              273,   0, 274, WADERDESK_DRAFT_GOES_ON,   273, 0 },
};

static void damage(const struct damage *d)
{
    size_t length_before = draft_length;
    uint8_t before = draft[d->offset];
    draft[d->offset] = (uint8_t)d->byte;
    draft_length = d->length;
    check(d->what, answers(waderdesk_read_draft(draft, draft_length), d->status, d->at, d->place));
    refused(d->what, d->status, d->at, d->place);
    draft[d->offset] = before;
    draft_length = length_before;
}

/* The key of CPA at width 33 has 326 bits, so two bits of its last byte are spare. */
static void spare_bit(void)
{
    key[40] |= 0x80;
    refused("a spare bit of the key", WADERDESK_KEY_SPARE_BITS, 0, 0);
    key[40] &= 0x7f;
    spare_bits++;
}

int main(int argc, char **argv)
{
    FILE *questions = argc == 3 ? fopen(argv[1], "r") : NULL, *expected_ones = argc == 3 ? fopen(argv[2], "r") : NULL;
    char line[2048], task[8], first[1024], second[256];
    uint64_t expected, numbers[3] = { 0, 1, 2 };

    if (questions == NULL || expected_ones == NULL)
        return puts("client.c: the files cannot be opened"), 1;
    while (fgets(line, sizeof line, questions) != NULL) {
        if (sscanf(line, "cipher %1023s %255s", first, second) == 2) {
            draft_length = bytes_of(first, draft, sizeof draft);
            key_length = bytes_of(second, key, sizeof key);
            check("a draft", answers(waderdesk_read_draft(draft, draft_length), WADERDESK_DONE, 0, 0));
            if (draft[1] == 33 && key_length == 41)
                spare_bit();
        } else if (sscanf(line, "%7s %255s", task, second) == 2 && fscanf(expected_ones, "%" SCNu64, &expected) == 1) {
            int coded = strcmp(task, "code") == 0;
            ask(coded ? code : back, coded ? back : code, second, expected);
        } else {
            check("a line of the files", 0);
        }
    }
    check("a key with spare bits among the questions", spare_bits > 0);
    check("two numbers of three", done(code, numbers, 2) && numbers[2] == 2 && done(back, numbers, 2) && numbers[0] == 0 && numbers[1] == 1);
    check("no number", done(code, numbers, 0) && done(back, numbers, 0) && numbers[0] == 0);
    refused("a number above the top", WADERDESK_ABOVE_TOP, 1, 0);
    key_length--;
    refused("a short key", WADERDESK_KEY_LENGTH, 0, 0);
    key_length++;
    for (size_t i = 0; i < sizeof damages / sizeof *damages; i++)
        damage(damages + i);
    printf("client.c: %s, %zu answers\n", failures == 0 && asked > 0 ? "ok" : "failed", asked);
    return failures != 0 || asked == 0;
}
