/*
 * The time of one step of a host in C.
 *
 *     step SET EVENTS ROUNDS
 *
 * SET and EVENTS hold words, four bytes each, lowest byte first. The events are done one by one by scr_step from state 0, so many rounds. Prints the state
 * after the last event and the processor's nanoseconds of one call. bench/calls.py builds and runs it.
 */
#include <inttypes.h>
#include <stdio.h>
#include <stdlib.h>
#include <time.h>

#include "scr.h"

enum { ROOM = 4 * 4096 };

static size_t load(const char *path, uint8_t *bytes)
{
    FILE *file = fopen(path, "rb");
    if (file == NULL) {
        fprintf(stderr, "step: cannot read %s\n", path);
        exit(2);
    }
    size_t length = fread(bytes, 1, ROOM, file);
    fclose(file);
    return length;
}

static uint32_t word(const uint8_t *bytes)
{
    return bytes[0] | bytes[1] << 8 | bytes[2] << 16 | (uint32_t)bytes[3] << 24;
}

static double now(void)
{
    struct timespec time;
    clock_gettime(CLOCK_PROCESS_CPUTIME_ID, &time);
    return time.tv_sec * 1e9 + time.tv_nsec;
}

int main(int count, char **arguments)
{
    static uint8_t set[ROOM], events[ROOM];
    if (count != 4) {
        fprintf(stderr, "usage: step SET EVENTS ROUNDS\n");
        return 2;
    }
    size_t length = load(arguments[1], set), events_length = load(arguments[2], events);
    long rounds = atol(arguments[3]);
    uint32_t state = 0;
    double began = now();
    for (long round = 0; round < rounds; round++) {
        state = 0;
        for (size_t at = 0; at + 4 <= events_length; at += 4) {
            state = scr_step(set, length, state, word(events + at));
            if (state >= SCR_REFUSED) {
                fprintf(stderr, "step: event %zu refused: %" PRIu32 "\n", at / 4, state - SCR_REFUSED);
                return 1;
            }
        }
    }
    printf("%" PRIu32 " %.0f\n", state, (now() - began) / ((double)rounds * (double)(events_length / 4)));
    return 0;
}
