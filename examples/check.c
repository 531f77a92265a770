/* Checks plan files as an editor would while one is typed: OK with the number of nodes and of the root's fields, or the
 * refusal's code and place. Each argument is a file. */
#include "simmerroof.h"

#include <inttypes.h>
#include <stdio.h>

static uint8_t file[65536];

int main(int count, char **names) {
    for (int i = 1; i < count; i++) {
        uint64_t answer[4];
        FILE *in = fopen(names[i], "rb");
        if (!in) {
            printf("%s: cannot be read\n", names[i]);
            return 2;
        }
        size_t length = fread(file, 1, sizeof file, in);
        fclose(in);
        simmerroof_check(file, length, answer);
        if (answer[0] == SIMMERROOF_OK)
            printf("%s: OK %" PRIu64 " %" PRIu64 "\n", names[i], answer[2], answer[3]);
        else
            printf("%s: REFUSED %" PRIu64 " %" PRIu64 "\n", names[i], answer[0], answer[1]);
    }
    return 0;
}
