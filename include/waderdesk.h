/*
 * Waderdesk for C: numbers coded and turned back under a draft and a key, and a
 * draft read to its fault. Link with libclib.a, which `rt lib` in crates/clib builds; it
 * needs memcpy and memset, takes no heap, keeps no state and may be called from
 * any number of threads.
 *
 * Of every call: a pointer is not NULL, even where its length is 0, and has at
 * least so many elements behind it; `numbers` is aligned for uint64_t and lies
 * apart from draft and key. A draft and a key are raw bytes, as docs/SPEC.md
 * spells them, and are only read.
 */
#ifndef WADERDESK_H
#define WADERDESK_H

#include <stddef.h>
#include <stdint.h>

#ifdef __cplusplus
extern "C" {
#endif

/* What a call answers in `status`: 0 for done, or the number of the refusal. */
enum waderdesk_status {
    WADERDESK_DONE = 0,

    /* The draft's first fault. `at` is the offset of its command, counted from 0. */
    WADERDESK_DRAFT_ENDS = 1,         /* there is no byte, or not all of an operand */
    WADERDESK_NO_COMMAND = 2,         /* the byte is no command letter */
    WADERDESK_OUT_OF_SEQUENCE = 3,    /* W is not first or comes again, or a command twice */
    WADERDESK_NO_USE = 4,             /* this width has no use for the command */
    WADERDESK_BAD_WIDTH = 5,          /* the width is not 24 to 64 */
    WADERDESK_C0_TOO_LARGE = 6,       /* C0 does not fit into the width */
    WADERDESK_NO_ORDER = 7,           /* the list is no order; `place` is its first place at fault */
    WADERDESK_MISSING = 8,            /* something needed has not been given */
    WADERDESK_DRAFT_GOES_ON = 9,      /* there are bytes after Z; `at` is the first */

    /* The key's refusal; `at` is 0. There is no 10: a call has its own work space. */
    WADERDESK_KEY_LENGTH = 11,        /* the key has not the bytes that its bits fill */
    WADERDESK_KEY_SPARE_BITS = 12,    /* a bit of its last byte that it has no use for is not 0 */

    /* A number is above the top, which is 2^width - 1. `at` is the first such, counted from 0. */
    WADERDESK_ABOVE_TOP = 13
};

struct waderdesk_answer {
    uint64_t status; /* 0, or the number of the refusal */
    uint64_t at;     /* what was refused, as said at the status; else 0 */
    uint64_t place;  /* with status 7 the list place, counted from 0; else 0 */
};

/*
 * Codes numbers in place. With status 0 each of the `count` numbers was replaced
 * by its code under the K-Cipher of the draft and the key. With any other status
 * nothing was written. The draft is asked first, then the key, then the numbers;
 * the first no is answered.
 */
struct waderdesk_answer waderdesk_code(const uint8_t *draft, size_t draft_length,
                                       const uint8_t *key, size_t key_length,
                                       uint64_t *numbers, size_t count);

/* Turns codes back in place, into the numbers that they are codes of; otherwise the same. */
struct waderdesk_answer waderdesk_back(const uint8_t *draft, size_t draft_length,
                                       const uint8_t *key, size_t key_length,
                                       uint64_t *numbers, size_t count);

/* Reads a draft: status 0 where the bytes spell one, else its first fault, 1 to 9. Nothing is written. */
struct waderdesk_answer waderdesk_read_draft(const uint8_t *draft, size_t draft_length);

#ifdef __cplusplus
}
#endif

#endif
