/* Cuts the text on the command line, or `THD 1250`, and prints its tokens in brackets, one a line. */
#include "njuxaleet.h"

#include <stdio.h>
#include <stdlib.h>
#include <string.h>

static void print_tokens(const char *text, const uint32_t *ends, size_t count) {
    size_t start = 0;
    for (size_t i = 0; i < count; i++) {
        printf("[%.*s]\n", (int)(ends[i] - start), text + start);
        start = ends[i];
    }
}

int main(int argc, char **argv) {
    const char *text = argc > 1 ? argv[1] : "THD 1250";
    size_t len = strlen(text), count, at;
    uint32_t *ends = (uint32_t *)calloc(len + 1, sizeof *ends);
    if (ends == NULL) {
        return 2;
    }
    uint32_t refused = njx_fill(text, len, njx_o200k(), 0, ends, len, &count, &at);
    if (refused) {
        printf("refused %u at %zu\n", (unsigned)refused, at);
    } else {
        print_tokens(text, ends, count);
    }
    free(ends);
    return refused ? 1 : 0;
}
