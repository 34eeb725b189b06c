/* Answers the calls of em73862_hex.h and em73p982_hex.h over its standard input and output, for a program that cannot link them.
 *
 * A request is a struct request, then its steady bytes, its changing bytes and the lengths of its chunks; an answer is a
 * struct answer, then the changing bytes as the call left them, where it changed them. It ends at the end of its input,
 * and with status 1 where a request is none.
 */
#include "em73862_hex.h"
#include "em73p982_hex.h"

/* libc's; the kit has no header of them. */
long read(int file, void *bytes, size_t length);
long write(int file, const void *bytes, size_t length);
void *memcpy(void *to, const void *from, size_t length);
int memcmp(const void *one, const void *other, size_t length);
void _exit(int status) __attribute__((noreturn));

/* device: 0 is the EM73862, 1 the EM73P982. */
struct request {
    uint32_t device, call, steady_length, changing_length, chunks;
};

/* told: the chunk after which the answer was told, from 1; 0 where that was at the end. */
struct answer {
    uint32_t number, changed, told, repeated;
    size_t line;
};

enum { READ = 1, WRITE = 2, CHUNKS = 3, STATE = 4, MOST_BYTES = 1 << 21, MOST_CHUNKS = 1 << 16 };

static uint8_t steady[MOST_BYTES], changing[MOST_BYTES], before[MOST_BYTES];
static uint32_t chunk_lengths[MOST_CHUNKS];
static uint8_t state[EM73862_HEX_STATE_BYTES], work[EM73P982_HEX_WORK_BYTES];
static uint8_t state_then[EM73862_HEX_STATE_BYTES], work_then[EM73P982_HEX_WORK_BYTES];

/* A device's calls and sizes. */
static const struct device {
    uint8_t (*read)(const uint8_t *, size_t, uint8_t *, size_t, size_t *);
    uint8_t (*write)(const uint8_t *, size_t, uint8_t *, size_t);
    uint8_t (*start)(uint8_t *, size_t);
    uint8_t (*feed)(uint8_t *, size_t, const uint8_t *, size_t, uint8_t *, size_t, const uint8_t *, size_t, size_t *);
    uint8_t (*end)(uint8_t *, size_t, uint8_t *, size_t, uint8_t *, size_t, size_t *);
    size_t image_bytes, work_bytes;
} devices[] = {
    {em73862_hex_read, em73862_hex_write, em73862_hex_start, em73862_hex_feed, em73862_hex_end, EM73862_HEX_IMAGE_BYTES, EM73862_HEX_WORK_BYTES},
    {em73p982_hex_read, em73p982_hex_write, em73p982_hex_start, em73p982_hex_feed, em73p982_hex_end, EM73P982_HEX_IMAGE_BYTES, EM73P982_HEX_WORK_BYTES},
};
static const struct device *device;

/* Fills `bytes`, or tells that the input is over before the first of them. */
static int take(void *bytes, size_t length) {
    for (size_t at = 0; at < length;) {
        long count = read(0, (uint8_t *)bytes + at, length - at);
        if (count == 0 && at == 0)
            return 0;
        if (count <= 0)
            _exit(1);
        at += count;
    }
    return 1;
}

static void give(const void *bytes, size_t length) {
    for (size_t at = 0; at < length;) {
        long count = write(1, (const uint8_t *)bytes + at, length - at);
        if (count <= 0)
            _exit(1);
        at += count;
    }
}

/* Whether one more chunk and one more end give the same answer and change nothing. */
static int repeats(const struct request *r, const struct answer *answer) {
    size_t line = 0xAAAAAAAA, end_line = 0xAAAAAAAA;
    memcpy(state_then, state, sizeof state);
    memcpy(work_then, work, sizeof work);
    uint8_t number = device->feed(state, sizeof state, steady, r->steady_length, work, device->work_bytes, changing, r->changing_length, &line);
    uint8_t end_number = device->end(state, sizeof state, work, device->work_bytes, before, r->changing_length, &end_line);
    return number == answer->number && end_number == number && line == answer->line && end_line == line
           && !memcmp(state, state_then, sizeof state) && !memcmp(work, work_then, sizeof work);
}

/* The steady bytes in chunks, up to the call that tells an answer. */
static void feed(const struct request *r, struct answer *answer) {
    size_t at = 0;
    device->start(state, sizeof state);
    for (uint32_t chunk = 0; chunk < r->chunks && answer->told == 0; chunk++) {
        answer->number = device->feed(state, sizeof state, steady + at, chunk_lengths[chunk], work, device->work_bytes,
                                     changing, r->changing_length, &answer->line);
        at += chunk_lengths[chunk];
        if (answer->number != EM73862_HEX_MORE)
            answer->told = chunk + 1;
    }
    if (answer->told == 0)
        answer->number = device->end(state, sizeof state, work, device->work_bytes, changing, r->changing_length, &answer->line);
}

/* The steady bytes as a state, with an empty chunk: whether they are refused, and that the refusal changes nothing. */
static void judge(const struct request *r, struct answer *answer) {
    size_t line = 0xAAAAAAAA, end_line = 0xAAAAAAAA;
    uint8_t *bytes = steady + r->steady_length; /* a copy that the calls may change */
    memcpy(bytes, steady, r->steady_length);
    memcpy(work_then, work, sizeof work);
    answer->line = 0;
    answer->repeated = 1;
    uint8_t number = device->feed(bytes, r->steady_length, steady, 0, work, device->work_bytes, changing, r->changing_length, &line);
    if (number != EM73862_HEX_STATE)
        return;
    uint8_t end_number = device->end(bytes, r->steady_length, work, device->work_bytes, changing, r->changing_length, &end_line);
    answer->number = number;
    answer->repeated = end_number == number && line == 0 && end_line == 0 && !memcmp(bytes, steady, r->steady_length)
                       && !memcmp(work, work_then, sizeof work);
}

int main(void) {
    struct request r;
    while (take(&r, sizeof r)) {
        if (r.device > 1 || r.steady_length > MOST_BYTES || r.changing_length > MOST_BYTES)
            return 1;
        if (r.steady_length > 0 && !take(steady, r.steady_length))
            return 1;
        if (r.changing_length > 0 && !take(changing, r.changing_length))
            return 1;
        if (r.chunks > MOST_CHUNKS || (r.chunks > 0 && !take(chunk_lengths, r.chunks * sizeof chunk_lengths[0])))
            return 1;
        device = &devices[r.device];
        memcpy(before, changing, r.changing_length);
        struct answer answer = {0};
        answer.line = 0xAAAAAAAA;
        switch (r.call) {
        case READ: answer.number = device->read(steady, r.steady_length, changing, r.changing_length, &answer.line); break;
        case WRITE: answer.number = device->write(steady, r.steady_length, changing, r.changing_length); break;
        case CHUNKS: feed(&r, &answer); break;
        case STATE:
            if (r.steady_length > MOST_BYTES / 2)
                return 1;
            judge(&r, &answer);
            break;
        default: return 1;
        }
        answer.changed = memcmp(before, changing, r.changing_length) != 0;
        if (r.call == CHUNKS) {
            memcpy(before, changing, r.changing_length);
            answer.repeated = r.changing_length != device->image_bytes
                              || (repeats(&r, &answer) && !memcmp(before, changing, r.changing_length));
        }
        give(&answer, sizeof answer);
        if (answer.changed)
            give(changing, r.changing_length);
    }
    return 0;
}
