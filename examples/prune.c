/* Prunes document 01's sample S1: Projection[a] over a scan of (a, b, c) becomes a scan of column 0 alone. */
#include "simmerroof.h"

#include <inttypes.h>
#include <stdio.h>

/* mark, version, one table of the columns 1, 2, 3; Projection of one item, the column (1, 1); Scan of table 0 as 1 */
static const uint8_t s1[] = {'C', 'P', 'L', 1, 0, 1, 3, 1, 0, 2, 0, 3, 0, 1, 1, 0, 1, 0, 1, 0, 11, 0, 1, 0, 0};

static void show(const char *what, const uint8_t *bytes, size_t n) {
    printf("%-7s", what);
    for (size_t i = 0; i < n; i++)
        printf(" %02X", bytes[i]);
    printf("\n");
}

int main(void) {
    uint8_t out[256];
    uint64_t answer[3];

    simmerroof_prune_all(SIMMERROOF_HOUSE, 0, s1, sizeof s1, out, sizeof out, answer);
    if (answer[0] != SIMMERROOF_OK) {
        printf("refused: code %" PRIu64 ", place %" PRIu64 "\n", answer[0], answer[2]);
        return 1;
    }
    show("before", s1, sizeof s1);
    show("after", out, answer[1]);
    return 0;
}
