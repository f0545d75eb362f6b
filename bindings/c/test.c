/* Checks the header's functions against document 01: its examples, each refusal with its place, and the edges of a call.
   Prints how many checks hold; stops with status 1 at the first that does not. */
#include "njuxaleet.h"

#include <stdio.h>
#include <stdlib.h>
#include <string.h>

#define ROOM 16
#define KEPT 0xABABABABu

typedef struct {
    const char *text;
    njx_options options;
    size_t count;
    uint32_t ends[8];
} example;

static const example examples[] = {
    {"", {true, 1, true}, 0, {0}},
    {"THD 1250", {true, 1, true}, 4, {3, 4, 7, 8}},
    {"THD 1250", {true, 2, true}, 4, {3, 4, 5, 8}},
    {"THD 1250", {true, 0, true}, 6, {3, 4, 5, 6, 7, 8}},
    {"0,5", {true, 1, true}, 3, {1, 2, 3}},
    {"don't", {true, 1, true}, 1, {5}},
    {"don't", {false, 1, true}, 2, {3, 5}},
    {"'sound", {true, 1, true}, 1, {6}},
    {"x'll'd", {true, 1, true}, 2, {4, 6}},
    {"a'\xC5\xBF" "b", {true, 1, true}, 2, {4, 5}},
    {"\xD7\x90" "A", {true, 1, true}, 2, {2, 3}},
    {"\xD7\x90" "Ab", {true, 1, true}, 1, {4}},
    {"\xCC\x81" "A", {true, 1, true}, 2, {2, 3}},
    {"  a", {true, 1, true}, 2, {1, 3}},
    {" \n x", {true, 1, true}, 2, {2, 4}},
    {"!\n/!", {true, 1, true}, 2, {3, 4}},
    {"!\n/!", {true, 1, false}, 2, {2, 4}},
    {"aB", {true, 1, true}, 2, {1, 2}},
    {"ABc", {true, 1, true}, 1, {3}},
    {"\tV", {true, 1, true}, 1, {2}},
    {"\t5", {true, 1, true}, 2, {1, 2}},
    {"\xC2\xA0" "a", {true, 1, true}, 1, {3}},
    {"1\xC2\xB2" "34", {true, 1, true}, 2, {4, 5}},
    {"1\xC2\xB2" "34", {true, 2, true}, 2, {1, 5}},
};

static unsigned checks = 0;
static uint32_t ends[ROOM];
static size_t count, at;

static void check(bool holds, const char *what, const char *of) {
    if (!holds) {
        printf("does not hold: %s, of \"%s\"\n", what, of);
        exit(1);
    }
    checks++;
}

static void keep_ends(void) {
    for (size_t i = 0; i < ROOM; i++) {
        ends[i] = KEPT;
    }
}

static bool kept_from(size_t first) {
    for (size_t i = first; i < ROOM; i++) {
        if (ends[i] != KEPT) {
            return false;
        }
    }
    return true;
}

static void fill_gives(const example *e) {
    size_t len = strlen(e->text);
    keep_ends();
    check(njx_fill(e->text, len, e->options, 0, ends, ROOM, &count, &at) == 0, "fill refuses nothing", e->text);
    check(count == e->count && at == len, "fill's count and next start", e->text);
    check(memcmp(ends, e->ends, count * sizeof ends[0]) == 0, "fill's ends", e->text);
    check(kept_from(count), "entries past the count are kept", e->text);
}

static void walk_gives(const example *e) {
    size_t len = strlen(e->text), start = 0;
    for (size_t i = 0; i < e->count; i++) {
        check(njx_next_end(e->text, len, e->options, start, &at) == 0 && at == e->ends[i], "next end", e->text);
        start = at;
    }
    at = 99;
    check(njx_next_end(e->text, len, e->options, len, &at) == 0 && at == len, "next end at the end of the text", e->text);
}

static void same_by_own_names(void) {
    const uint8_t *text = (const uint8_t *)"THD 1250";
    check(njuxaleet_next_end(text, 8, true, 2, true, 4, &at) == 0 && at == 5, "njuxaleet_next_end", "THD 1250");
    check(njuxaleet_fill(text, 8, true, 2, true, 0, ends, ROOM, &count, &at) == 0, "njuxaleet_fill", "THD 1250");
    check(count == 4 && ends[2] == 5 && at == 8, "njuxaleet_fill's answer", "THD 1250");
}

/* Both calls refuse with this number and place, and the fill writes nothing, whether or not there is room. */
static void refused(const char *text, size_t len, njx_options options, size_t start, uint32_t number, size_t place) {
    at = 99;
    check(njx_next_end(text, len, options, start, &at) == number && at == place, "next end's refusal", text);
    for (size_t room = 0; room <= ROOM; room += ROOM) {
        keep_ends();
        count = at = 99;
        check(njx_fill(text, len, options, start, ends, room, &count, &at) == number, "fill's refusal", text);
        check(count == 0 && at == place, "a refused fill's count and place", text);
        check(kept_from(0), "a refused fill writes nothing", text);
    }
}

static void refusals(void) {
    njx_options o200k = njx_o200k(), mode3 = njx_o200k(), mode255 = njx_o200k();
    mode3.digits = 3;
    mode255.digits = 255;
    refused("THD 1250", 8, mode3, 0, NJUXALEET_MODE, 0);
    refused("THD 1250", 8, mode255, 4, NJUXALEET_MODE, 0);
    refused("\xF4\x90\x80\x80", 4, o200k, 0, NJUXALEET_NOT_UTF8, 0);
    refused("\xC0\x80", 2, o200k, 0, NJUXALEET_NOT_UTF8, 0);
    refused("\xED\xA0\x80", 3, o200k, 0, NJUXALEET_NOT_UTF8, 0);
    refused("\xE2\x82", 2, o200k, 0, NJUXALEET_NOT_UTF8, 0);
    refused("THD \xFF", 5, o200k, 0, NJUXALEET_NOT_UTF8, 4);
    refused("THD 1250", 8, o200k, 9, NJUXALEET_PAST_END, 8);
    refused("THD 1250", 8, o200k, SIZE_MAX, NJUXALEET_PAST_END, 8);
    refused("\xC2\xA0" "a", 3, o200k, 1, NJUXALEET_INSIDE_CHARACTER, 0);
    refused("a\xF0\x9F\x94\xA5", 5, o200k, 4, NJUXALEET_INSIDE_CHARACTER, 1);
    /* several at once: the mode is told before the text, the text before the start */
    refused("\xC0\x80", 2, mode3, 9, NJUXALEET_MODE, 0);
    refused("a\x80", 2, o200k, 9, NJUXALEET_NOT_UTF8, 1);
    refused("a\x80", 2, o200k, 2, NJUXALEET_NOT_UTF8, 1);
}

static void passes(const char *text, size_t len) {
    check(njx_next_end(text, len, njx_o200k(), 0, &at) == 0 && at == len, "one token", text);
}

static void utf8_edges(void) {
    passes("\xF4\x8F\xBF\xBF", 4);
    passes("\xC2\x80", 2);
    passes("\xED\x9F\xBF", 3);
    passes("\0", 1);
}

static void length_edges(void) {
    size_t len = NJUXALEET_LONGEST;
    char *text = (char *)malloc(len + 1);
    if (text == NULL) {
        printf("no memory for a long text\n");
        exit(1);
    }
    memset(text, 'a', len);
    text[len] = 0;
    check(njx_fill(text, len, njx_o200k(), 0, ends, ROOM, &count, &at) == 0, "the longest text passes", "a...");
    check(count == 1 && ends[0] == len && at == len, "the longest text is one token", "a...");
    memset(text, 0xFF, len + 1);
    refused(text, len + 1, njx_o200k(), len + 2, NJUXALEET_TOO_LONG, len);
    free(text);
}

static void no_text_and_no_room(void) {
    njx_options o = njx_o200k();
    at = 99;
    check(njx_next_end(NULL, 0, o, 0, &at) == 0 && at == 0, "next end of a NULL text", "");
    check(njx_next_end(NULL, 0, o, 1, &at) == NJUXALEET_PAST_END && at == 0, "past the end of a NULL text", "");
    count = at = 99;
    check(njx_fill(NULL, 0, o, 0, NULL, 0, &count, &at) == 0 && count == 0 && at == 0, "fill, both NULL", "");
    count = at = 99;
    check(njx_fill("aB", 2, o, 1, NULL, 0, &count, &at) == 0 && count == 0 && at == 1, "fill of NULL ends", "aB");
    keep_ends();
    check(njx_fill("aB", 2, o, 0, ends, 0, &count, &at) == 0 && count == 0 && at == 0, "room 0", "aB");
    check(kept_from(0), "room 0 writes nothing", "aB");
    check(njx_fill("aB", 2, o, 2, ends, ROOM, &count, &at) == 0 && count == 0 && at == 2, "fill from the end", "aB");
    check(kept_from(0), "a fill from the end writes nothing", "aB");
}

static void piece_by_piece(void) {
    keep_ends();
    check(njx_fill("THD 1250", 8, njx_o200k(), 0, ends, 3, &count, &at) == 0, "a short room", "THD 1250");
    check(count == 3 && at == 7 && ends[2] == 7 && kept_from(3), "a short room's ends", "THD 1250");
    check(njx_fill("THD 1250", 8, njx_o200k(), at, ends, 3, &count, &at) == 0, "the next fill", "THD 1250");
    check(count == 1 && at == 8 && ends[0] == 8 && ends[1] == 4, "the next fill's ends", "THD 1250");
}

static void class_is(uint32_t c, uint32_t number, uint32_t expected) {
    uint32_t cls = 99;
    char of[16];
    snprintf(of, sizeof of, "%lX", (unsigned long)c);
    check(njx_class_of(c, &cls) == number && cls == expected, "class", of);
}

static void classes(void) {
    class_is('A', 0, NJUXALEET_UPPER);
    class_is(0x1C5, 0, NJUXALEET_UPPER);
    class_is('a', 0, NJUXALEET_LOWER);
    class_is(0x5D0, 0, NJUXALEET_CASELESS);
    class_is(0x301, 0, NJUXALEET_MARK);
    class_is(0xB2, 0, NJUXALEET_NUMBER);
    class_is(0x3000, 0, NJUXALEET_WHITESPACE);
    class_is(0x10FFFF, 0, NJUXALEET_OTHER);
    class_is(0xD7FF, 0, NJUXALEET_OTHER);
    class_is(0xD800, NJUXALEET_NO_SCALAR, 0);
    class_is(0xDFFF, NJUXALEET_NO_SCALAR, 0);
    class_is(0x110000, NJUXALEET_NO_SCALAR, 0);
    class_is(UINT32_MAX, NJUXALEET_NO_SCALAR, 0);
}

int main(void) {
    for (size_t i = 0; i < sizeof examples / sizeof examples[0]; i++) {
        fill_gives(&examples[i]);
        walk_gives(&examples[i]);
    }
    same_by_own_names();
    refusals();
    utf8_edges();
    length_edges();
    no_text_and_no_room();
    piece_by_piece();
    classes();
    printf("%u checks hold\n", checks);
    return 0;
}
