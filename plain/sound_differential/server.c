/* Answers the calls of em73862_sound.h over its standard input and output, for a program that cannot link them.
 *
 * A request is a struct request, an answer a struct answer. It ends at the end of its input, and with status 1 where a
 * request is none.
 */
#include "em73862_sound.h"

/* libc's; the kit has no header of them. */
long read(int file, void *bytes, size_t length);
long write(int file, const void *bytes, size_t length);
void *memcpy(void *to, const void *from, size_t length);

enum { MOST_BYTES = 12, MARGIN = 4, MARGIN_BYTE = 0xA5, REQUESTS = 1024 };

struct request {
    uint32_t call, value, length;
    uint8_t state[MOST_BYTES];
};

struct answer {
    uint32_t number, level, others_kept;
    uint8_t state[MOST_BYTES];
};

static struct request requests[REQUESTS];
static struct answer answers[REQUESTS];

/* The level holds AAh before a call: one that a call leaves alone shows. */
static int ask(const struct request *r, uint8_t *state, struct answer *answer) {
    uint8_t level = 0xAA;
    size_t n = r->length;
    switch (r->call) {
    case 1: answer->number = em73862_sound_start(state, n); break;
    case 2: answer->number = em73862_sound_write_p30(state, n, r->value); break;
    case 3: answer->number = em73862_sound_write_p24(state, n, r->value); break;
    case 4: answer->number = em73862_sound_write_p23(state, n, r->value); break;
    case 5: answer->number = em73862_sound_sleep(state, n); break;
    case 6: answer->number = em73862_sound_wake(state, n); break;
    case 7: answer->number = em73862_sound_advance(state, n, r->value); break;
    case 8: answer->number = em73862_sound_output(state, n, &level); break;
    default: return 0;
    }
    answer->level = level;
    return 1;
}

static int answered(const struct request *r, struct answer *answer) {
    uint8_t held[MARGIN + MOST_BYTES + MARGIN];
    if (r->length > MOST_BYTES)
        return 0;
    for (size_t at = 0; at < sizeof held; at++)
        held[at] = MARGIN_BYTE;
    memcpy(held + MARGIN, r->state, r->length);
    if (!ask(r, held + MARGIN, answer))
        return 0;
    answer->others_kept = 1;
    for (size_t at = 0; at < sizeof held; at++)
        if ((at < MARGIN || at >= MARGIN + r->length) && held[at] != MARGIN_BYTE)
            answer->others_kept = 0;
    memcpy(answer->state, held + MARGIN, MOST_BYTES);
    return 1;
}

static int all(long (*move)(int, void *, size_t), int file, void *bytes, size_t length) {
    for (size_t done = 0; done < length;) {
        long count = move(file, (uint8_t *)bytes + done, length - done);
        if (count <= 0)
            return 0;
        done += count;
    }
    return 1;
}

static long put(int file, void *bytes, size_t length) {
    return write(file, bytes, length);
}

int main(void) {
    for (;;) {
        long count = read(0, requests, sizeof requests);
        if (count <= 0)
            return count < 0;
        size_t rest = count % sizeof *requests;
        if (rest && !all(read, 0, (uint8_t *)requests + count, sizeof *requests - rest))
            return 1;
        size_t n = (count + sizeof *requests - 1) / sizeof *requests;
        for (size_t at = 0; at < n; at++)
            if (!answered(&requests[at], &answers[at]))
                return 1;
        if (!all(put, 1, answers, n * sizeof *answers))
            return 1;
    }
}
