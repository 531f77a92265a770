/* Prints the plan of each file that it is given, or the refusal's code and place: asks for the text's length first, with no
 * room, and then for the text. */
#include "simmerroof.h"

#include <inttypes.h>
#include <stdio.h>
#include <stdlib.h>

static uint8_t file[65536];

int main(int count, char **names) {
    for (int i = 1; i < count; i++) {
        uint64_t answer[3];
        uint8_t none[1];
        FILE *in = fopen(names[i], "rb");
        if (!in) {
            printf("%s: cannot be read\n", names[i]);
            return 2;
        }
        size_t length = fread(file, 1, sizeof file, in);
        fclose(in);
        simmerroof_list_plan(file, length, none, 0, answer);
        if (answer[0] != SIMMERROOF_ROOM) {
            printf("%s: REFUSED %" PRIu64 " %" PRIu64 "\n", names[i], answer[0], answer[2]);
            continue;
        }
        size_t room = answer[2];
        uint8_t *text = malloc(room);
        if (!text)
            return 2;
        simmerroof_list_plan(file, length, text, room, answer);
        printf("%s:\n%.*s", names[i], (int)answer[1], (const char *)text);
        free(text);
    }
    return 0;
}
