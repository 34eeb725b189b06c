/* clock-account IMAGE BEFORE STEPS: makes some steps of frames FF1 from the fresh record and then one run of STEPS more, and prints the clock account of
 * that run: its cycles, and the time base and TA at its start and at its end beside what the account says of them. The premises are looked at step by step,
 * by em73862_step from the same start; where one of them fails it says so, and the account says nothing.
 *
 *   tools/archive em73862
 *   cc -std=c11 -Wall -Wextra -Werror -Iinclude examples/clock-account.c -Ltarget/lib -lem73862 -o clock-account
 */
#include "em73862.h"
#include <stdio.h>
#include <stdlib.h>

/* Places of the record's bytes (em73862.h). */
enum { P28 = 13, PC = 16, TA = 20, TIME_BASE = 29, MODE = 36 };
enum { ALL_WAKE_PINS = 0xFF, NO_SOUND = 0, MODE_2 = 2 };

static const unsigned PERIODS[] = {1u << 10, 1u << 14, 1u << 18, 1u << 22};
static uint8_t image[EM73862_IMAGE_BYTES + 1];
static size_t image_length;
static uint8_t frames[EM73862_MOST_FRAMES * EM73862_FRAME_CHARACTERS];

static unsigned number_at(const uint8_t *record, unsigned at, unsigned bytes) {
    unsigned value = 0;
    while (bytes > 0)
        value = 256 * value + record[at + --bytes];
    return value;
}

/* One run of so many steps, whose cycles come back; it ends the program where the run is refused or stops. */
static unsigned run(uint8_t *record, unsigned count) {
    uint32_t steps, cycles;
    uint8_t number = em73862_run(image, image_length, ALL_WAKE_PINS, NO_SOUND, record, EM73862_RECORD_BYTES, frames,
                                 count * EM73862_FRAME_CHARACTERS, &steps, &cycles);
    if (number != 0) {
        printf("refused or stopped with %02d after %u steps\n", number, (unsigned)steps);
        exit(1);
    }
    return cycles;
}

/* The row at PC stores to TA: STATAL, STATAM or STATAH. */
static int writes_ta(const uint8_t *record) {
    uint8_t text[EM73862_NOTATION_BYTES];
    uint32_t length;
    uint8_t number = em73862_notation(image, image_length, number_at(record, PC, 2), text, sizeof text, &length);
    return number == 0 && length >= 5 && text[0] == 'S' && text[1] == 'T' && text[2] == 'A' && text[3] == 'T' && text[4] == 'A';
}

/* Looks at the premises of both accounts, from the record at the start; what fails comes back, nothing where none does. */
static const char *premise_failing(const uint8_t *start, unsigned count) {
    uint8_t record[EM73862_RECORD_BYTES];
    uint32_t cycles;
    for (unsigned at = 0; at < EM73862_RECORD_BYTES; at++)
        record[at] = start[at];
    if (record[P28] / 4 != MODE_2)
        return "TA is not in mode 2";
    for (unsigned step = 0; step < count; step++) {
        if (writes_ta(record))
            return "an instruction writes TA";
        em73862_step(image, image_length, ALL_WAKE_PINS, NO_SOUND, record, EM73862_RECORD_BYTES, frames, EM73862_FRAME_CHARACTERS, &cycles);
        if (record[MODE] != start[MODE])
            return "sleep or hold is entered or left";
        if (record[P28] != start[P28])
            return "P28 changes";
    }
    return NULL;
}

static void show(const uint8_t *start, unsigned cycles, const uint8_t *end) {
    unsigned base = number_at(start, TIME_BASE, 4), ta = number_at(start, TA, 2);
    unsigned period = PERIODS[start[P28] % 4];
    unsigned met = (base + 8 * cycles) / period - base / period;
    printf("cycles of the run: %u\n", cycles);
    printf("time base: %u at the start, (%u + 8 * %u) modulo 2^22 = %u by the account, %u in the record\n", base, base, cycles,
           (base + 8 * cycles) % (1u << 22), number_at(end, TIME_BASE, 4));
    printf("multiples of %u met: (%u + 8 * %u) / %u - %u / %u = %u\n", period, base, cycles, period, base, period, met);
    printf("TA: %u at the start, (%u + %u) modulo 4096 = %u by the account, %u in the record\n", ta, ta, met, (ta + met) % 4096,
           number_at(end, TA, 2));
}

int main(int count, char **words) {
    char *after_before = NULL, *after_steps = NULL;
    unsigned long before = count == 4 ? strtoul(words[2], &after_before, 10) : 0;
    unsigned long steps = count == 4 ? strtoul(words[3], &after_steps, 10) : 0;
    if (count != 4 || *after_before != 0 || *after_steps != 0 || before > EM73862_MOST_FRAMES || steps > EM73862_MOST_FRAMES) {
        fprintf(stderr, "usage: clock-account IMAGE BEFORE STEPS\n");
        return 2;
    }
    FILE *file = fopen(words[1], "rb");
    if (file == NULL) {
        fprintf(stderr, "clock-account: cannot open %s\n", words[1]);
        return 2;
    }
    image_length = fread(image, 1, sizeof image, file);
    fclose(file);
    for (unsigned at = 0; at < sizeof frames; at++)
        frames[at] = (uint8_t)"FF1"[at % EM73862_FRAME_CHARACTERS];
    uint8_t start[EM73862_RECORD_BYTES], end[EM73862_RECORD_BYTES];
    em73862_fresh(start, sizeof start);
    run(start, (unsigned)before);
    for (unsigned at = 0; at < sizeof end; at++)
        end[at] = start[at];
    unsigned cycles = run(end, (unsigned)steps);
    const char *failing = premise_failing(start, (unsigned)steps);
    if (failing != NULL) {
        printf("the account says nothing of this run: %s\n", failing);
        return 1;
    }
    show(start, cycles, end);
    return 0;
}
