/*
 * A small host: loads a set from a file, checks it, and steps it by event words.
 *
 *     host FILE STATE [EVENT ...]
 *
 * FILE holds the words of a set, four bytes each, lowest byte first. STATE is the number of the state to start from, decimal. An EVENT is an
 * event word, hexadecimal. The exit status is 0, or 1 where something is refused, or 2 where the arguments or the file can't be used.
 *
 *     gcc -std=c11 -Iinclude examples/host.c target/staticlib/libscrhost.a -o host
 */
#include <errno.h>
#include <inttypes.h>
#include <stdio.h>
#include <stdlib.h>
#include <string.h>

#include "scr.h"

/* One byte more than the largest set has, so that a larger file is refused and not cut to a set that it doesn't hold. */
enum { ROOM = 4 * 4096 + 1 };

static int load(const char *path, uint8_t *bytes, size_t *length)
{
    FILE *file = fopen(path, "rb");
    if (file == NULL) {
        return 0;
    }
    *length = fread(bytes, 1, ROOM, file);
    int failed = ferror(file);
    fclose(file);
    return !failed;
}

/* A whole argument as a number of 32 bits. */
static int number(const char *text, int base, uint32_t *value)
{
    char *end;
    errno = 0;
    unsigned long long read = strtoull(text, &end, base);
    if (end == text || *end != '\0' || strchr(text, '-') != NULL || errno != 0 || read > UINT32_MAX) {
        return 0;
    }
    *value = (uint32_t)read;
    return 1;
}

int main(int count, char **arguments)
{
    if (count < 3) {
        fprintf(stderr, "usage: host FILE STATE [EVENT ...]\n");
        return 2;
    }

    static uint8_t bytes[ROOM];
    size_t length;
    if (!load(arguments[1], bytes, &length)) {
        fprintf(stderr, "host: cannot read %s\n", arguments[1]);
        return 2;
    }
    uint32_t state;
    if (!number(arguments[2], 10, &state)) {
        fprintf(stderr, "host: %s is no state\n", arguments[2]);
        return 2;
    }

    /* A set that does not pass must not be loaded. */
    uint32_t refusal = scr_check(bytes, length);
    if (refusal != 0) {
        printf("set refused: %" PRIu32 "\n", refusal);
        return 1;
    }
    printf("set loaded: %zu words\n", length / 4);

    for (int i = 3; i < count; i++) {
        uint32_t event;
        if (!number(arguments[i], 16, &event)) {
            fprintf(stderr, "host: %s is no event word\n", arguments[i]);
            return 2;
        }
        uint32_t next = scr_step(bytes, length, state, event);
        if (next >= SCR_REFUSED) {
            printf("%" PRIu32 " by %08" PRIX32 " refused: %" PRIu32 "\n", state, event, next - SCR_REFUSED);
            return 1;
        }
        printf("%" PRIu32 " by %08" PRIX32 " to %" PRIu32 "\n", state, event, next);
        state = next;
    }
    return 0;
}
