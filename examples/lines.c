/* Answers cases, one a line: `mode mask out_len request file`, as the vectors have them (request: `*` for all fields, `-`
 * for none, else a comma list; file in hex, `-` where empty). What a line has from ` => ` on is not read, so that the
 * answers can be compared with a list of expected ones. Printed: the line, ` => `, code, length, place and the result in
 * hex. Lends the library its working arrays, as a program that prunes many plans does.
 *
 * With the word `plain` the plain functions are called instead of the lent ones. Every buffer has a byte on each side that
 * must stay, as must what lies past the result. */
#include "simmerroof.h"

#include <inttypes.h>
#include <stdio.h>
#include <stdlib.h>
#include <string.h>

enum { LINE = 1 << 22, UNTOUCHED = 0xA5 };

static uint8_t *hex(const char *text, size_t *n) {
    size_t len = strcmp(text, "-") == 0 ? 0 : strlen(text) / 2;
    uint8_t *bytes = malloc(len + 1);
    for (size_t i = 0; i < len; i++) {
        unsigned b;
        sscanf(text + 2 * i, "%2x", &b);
        bytes[i] = (uint8_t)b;
    }
    *n = len;
    return bytes;
}

static uint16_t *list(char *text, size_t *n) {
    uint16_t *request = malloc(2 * strlen(text) + 2);
    *n = 0;
    if (strcmp(text, "-") != 0)
        for (char *part = strtok(text, ","); part; part = strtok(NULL, ","))
            request[(*n)++] = (uint16_t)atoi(part);
    return request;
}

int main(int argc, char **argv) {
    int plain = argc > 1 && strcmp(argv[1], "plain") == 0;
    char *line = malloc(LINE), *file_text = malloc(LINE), *request_text = malloc(LINE);
    struct simmerroof_work *work = malloc(sizeof *work);
    memset(work, 0x5A, sizeof *work);

    while (fgets(line, LINE, stdin)) {
        unsigned mode, mask;
        size_t room, file_len, request_len = 0;
        if (sscanf(line, "%u %u %zu %s %s", &mode, &mask, &room, request_text, file_text) != 5)
            continue;
        printf("%u %u %zu %s %s => ", mode, mask, room, request_text, file_text);

        uint8_t *file = hex(file_text, &file_len), *buffer = malloc(room + 2), *out = buffer + 1;
        uint64_t answer[3];
        memset(buffer, UNTOUCHED, room + 2);
        if (strcmp(request_text, "*") == 0) {
            if (plain)
                simmerroof_prune_all(mode, mask, file, file_len, out, room, answer);
            else
                simmerroof_prune_all_with(mode, mask, file, file_len, out, room, work, answer);
        } else {
            uint16_t *request = list(request_text, &request_len);
            if (plain)
                simmerroof_prune(mode, mask, file, file_len, request, request_len, out, room, answer);
            else
                simmerroof_prune_with(mode, mask, file, file_len, request, request_len, out, room, work, answer);
            free(request);
        }

        printf("%" PRIu64 " %" PRIu64 " %" PRIu64 " ", answer[0], answer[1], answer[2]);
        for (size_t i = 0; i < answer[1]; i++)
            printf("%02x", out[i]);
        printf(answer[1] == 0 ? "-" : "");
        if (buffer[0] != UNTOUCHED)
            printf(" TOUCHED before");
        for (size_t i = answer[1]; i < room + 1; i++)
            if (out[i] != UNTOUCHED) {
                printf(" TOUCHED at %zu", i);
                break;
            }
        printf("\n");
        free(file);
        free(buffer);
    }
    free(line), free(file_text), free(request_text), free(work);
    return 0;
}
