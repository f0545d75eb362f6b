/* Cuts a text into tokens by the o200k pattern and its variants. C99 or C++11; link libnjuxaleet.a.
   A token is told by its end: the offset, in bytes from the text's first, of the byte after it. */
#ifndef NJUXALEET_H
#define NJUXALEET_H

#include <stdbool.h>
#include <stddef.h>
#include <stdint.h>

#ifdef __cplusplus
extern "C" {
#endif

/* The longest text that is taken, in bytes. */
#define NJUXALEET_LONGEST ((size_t)1048576)

/* Why a call is refused; beside each number, the place that is given. Checked in the order 1 to 5. */
enum {
    NJUXALEET_NO_REFUSAL = 0,
    NJUXALEET_MODE = 1,             /* digit mode above 2: 0 */
    NJUXALEET_TOO_LONG = 2,         /* text over NJUXALEET_LONGEST bytes: NJUXALEET_LONGEST */
    NJUXALEET_NOT_UTF8 = 3,         /* text not UTF-8: first byte of the first ill-formed sequence */
    NJUXALEET_PAST_END = 4,         /* start past the end: the text's length */
    NJUXALEET_INSIDE_CHARACTER = 5, /* start inside a character: first byte of that character */
    NJUXALEET_NO_SCALAR = 6         /* class asked of D800 to DFFF or above 10FFFF */
};

/* The classes of scalar values. */
enum {
    NJUXALEET_UPPER = 0,
    NJUXALEET_LOWER = 1,
    NJUXALEET_CASELESS = 2,
    NJUXALEET_MARK = 3,
    NJUXALEET_NUMBER = 4,
    NJUXALEET_WHITESPACE = 5,
    NJUXALEET_OTHER = 6
};

/* The library's own functions. The caller's duty: no pointer is NULL, `text` not even where `len` is 0, nor `ends` where `room`
   is 0; `ends` is aligned; what is written to overlaps neither the text nor one another. `digits` is the digit mode, 0, 1 or 2. */

/* Gives the refusal's number, or 0 and in `*at` the end of the token at `start`: `start` itself exactly at the end of the text.
   On a refusal `*at` is its place. Every call checks the whole text, so use one njuxaleet_fill for a walk. */
uint32_t njuxaleet_next_end(const uint8_t *text, size_t len, bool contractions, uint8_t digits, bool slash, size_t start,
                            size_t *at);

/* Writes the ends of the tokens from `start` on, as many as there is room and text for; `*count` of them, and `*at` the next start.
   On a refusal gives its number, writes nothing to `ends`, and has `*count` 0 and `*at` its place.
   Every call checks the whole text: a walk by fills with little room takes the square of the text's length, one fill with room for
   every end (`len` is enough) is linear. */
uint32_t njuxaleet_fill(const uint8_t *text, size_t len, bool contractions, uint8_t digits, bool slash, size_t start,
                        uint32_t *ends, size_t room, size_t *count, size_t *at);

/* Gives 0 and in `*cls` the class of the scalar value `c`.
   Of any other number gives NJUXALEET_NO_SCALAR, with `*cls` 0. */
uint32_t njuxaleet_class_of(uint32_t c, uint32_t *cls);

/* The same over a struct of options. The duty is smaller: `text` may be NULL where `len` is 0, and `ends` where `room` is 0. */

typedef struct {
    bool contractions; /* does a suffix such as 't stay with its word? */
    uint8_t digits;    /* how Number characters go: 0 one by one, 1 by three from the left, 2 by three from the right */
    bool slash;        /* does the tail of punctuation take slashes? */
} njx_options;

/* The named setting o200k: contractions yes, digit mode 1, slash yes.
   Change a field of it for another setting. */
static inline njx_options njx_o200k(void) {
    njx_options options;
    options.contractions = true;
    options.digits = 1;
    options.slash = true;
    return options;
}

/* As njuxaleet_next_end: 0 and the token's end in `*at`, `start` itself exactly at the end of the text.
   Or the refusal's number, and its place in `*at`. */
static inline uint32_t njx_next_end(const void *text, size_t len, njx_options options, size_t start, size_t *at) {
    const uint8_t nothing = 0;
    const uint8_t *bytes = len == 0 ? &nothing : (const uint8_t *)text;
    return njuxaleet_next_end(bytes, len, options.contractions, options.digits, options.slash, start, at);
}

/* As njuxaleet_fill: 0, `*count` ends in `ends`, and the next start in `*at`; entries past the count are kept.
   Or the refusal's number, `*count` 0 and its place in `*at`. A room of `len` is enough for every end,
   and then one call is linear; a walk by calls with little room takes the square of the text's length. */
static inline uint32_t njx_fill(const void *text, size_t len, njx_options options, size_t start, uint32_t *ends, size_t room,
                                size_t *count, size_t *at) {
    const uint8_t nothing = 0;
    uint32_t none = 0;
    const uint8_t *bytes = len == 0 ? &nothing : (const uint8_t *)text;
    uint32_t *list = room == 0 ? &none : ends;
    return njuxaleet_fill(bytes, len, options.contractions, options.digits, options.slash, start, list, room, count, at);
}

/* As njuxaleet_class_of: 0 and the class in `*cls`.
   Or NJUXALEET_NO_SCALAR, with `*cls` 0. */
static inline uint32_t njx_class_of(uint32_t c, uint32_t *cls) {
    return njuxaleet_class_of(c, cls);
}

#ifdef __cplusplus
}
#endif

#endif
