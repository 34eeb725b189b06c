/* Answers the calls of em73862.h and em73p982.h over its standard input and output, for a program that cannot link them.
 *
 * A request is a struct request, then its changing and its steady buffer; an answer is a struct answer, then the changing
 * buffer as the call left it. Request 0 only gives the image (its steady buffer) of the calls that follow, and has no
 * answer. It ends at the end of its input, and with status 1 where a request is none.
 */
#include "em73p982.h"

/* libc's; the kit has no header of them. */
long read(int file, void *bytes, size_t length);
long write(int file, const void *bytes, size_t length);
void *memcpy(void *to, const void *from, size_t length);
void *memset(void *to, int byte, size_t length);
int memcmp(const void *one, const void *other, size_t length);
void _exit(int status) __attribute__((noreturn));

struct request {
    uint32_t call, device, first, second, third, changing_length, steady_length;
};

struct answer {
    uint32_t number, others_kept, values[6];
};

enum { MOST_BYTES = 1 << 20, MARGIN = 16, MARGIN_BYTE = 0xA5 };

static uint8_t input[MOST_BYTES], output[MOST_BYTES];
static size_t input_start, input_end, output_end;
static uint8_t image[MOST_BYTES], steady[MOST_BYTES], held[MARGIN + MOST_BYTES + MARGIN];
static uint8_t *const changing = held + MARGIN;
static uint8_t image_copy[MOST_BYTES], steady_copy[MOST_BYTES];
static size_t image_length;

static void flush(void) {
    for (size_t start = 0; start < output_end;) {
        long written = write(1, output + start, output_end - start);
        if (written <= 0)
            _exit(1);
        start += written;
    }
    output_end = 0;
}

/* Fills `bytes`. The asker may wait for the answers that are ready, so they go out before this waits for more. */
static void take(void *bytes, size_t length, int may_end) {
    uint8_t *to = bytes;
    while (length > 0) {
        if (input_start == input_end) {
            flush();
            long count = read(0, input, sizeof input);
            if (count <= 0)
                _exit(count == 0 && may_end && to == bytes ? 0 : 1);
            input_start = 0;
            input_end = count;
        }
        size_t part = input_end - input_start;
        if (part > length)
            part = length;
        memcpy(to, input + input_start, part);
        input_start += part;
        to += part;
        length -= part;
    }
}

static void give(const void *bytes, size_t length) {
    if (output_end + length > sizeof output)
        flush();
    memcpy(output + output_end, bytes, length);
    output_end += length;
}

/* Whether the call left alone all that is not its changing buffer. */
static int others_kept(const struct request *r) {
    for (size_t at = 0; at < MARGIN; at++)
        if (held[at] != MARGIN_BYTE || changing[r->changing_length + at] != MARGIN_BYTE)
            return 0;
    return !memcmp(image, image_copy, image_length) && !memcmp(steady, steady_copy, r->steady_length);
}

/* The calls that have the same arguments on both devices. */
struct device {
    uint8_t (*fresh)(uint8_t *, size_t);
    uint8_t (*reset)(uint8_t *, size_t);
    uint8_t (*is_valid)(const uint8_t *, size_t);
    uint8_t (*step)(const uint8_t *, size_t, uint8_t, uint8_t, uint8_t *, size_t, const uint8_t *, size_t, uint32_t *);
    uint8_t (*look)(uint8_t, uint8_t, uint8_t *, size_t, const uint8_t *, size_t, uint32_t *);
    uint8_t (*act)(const uint8_t *, size_t, uint8_t, uint8_t, uint8_t *, size_t, uint32_t *);
    uint8_t (*run)(const uint8_t *, size_t, uint8_t, uint8_t, uint8_t *, size_t, const uint8_t *, size_t, uint32_t *, uint32_t *);
    uint8_t (*display)(const uint8_t *, size_t, uint8_t *, size_t);
    uint8_t (*why)(const uint8_t *, size_t, uint8_t, uint8_t, const uint8_t *, size_t, const uint8_t *, size_t, uint8_t *, uint8_t *, uint8_t *);
};

enum { EM73862, EM73P982, DEVICES };

static const struct device devices[DEVICES] = {
    {em73862_fresh, em73862_reset, em73862_is_valid, em73862_step, em73862_look, em73862_act, em73862_run, em73862_display, em73862_why},
    {em73p982_fresh, em73p982_reset, em73p982_is_valid, em73p982_step, em73p982_look, em73p982_act, em73p982_run, em73p982_display, em73p982_why},
};

/* The calls on a record. The numbers that come back hold AAh before a call: one that a call leaves alone shows. */
static int ask_record(const struct request *r, struct answer *answer) {
    const struct device *d = &devices[r->device];
    size_t n = r->changing_length, m = r->steady_length;
    uint32_t first = 0xAAAAAAAA, second = 0xAAAAAAAA;
    uint8_t b[3] = {0xAA, 0xAA, 0xAA};
    switch (r->call) {
    case 1: answer->number = d->fresh(changing, n); return 1;
    case 2: answer->number = d->reset(changing, n); return 1;
    case 3: answer->number = d->is_valid(changing, n); return 1;
    case 4: answer->number = d->step(image, image_length, r->first, r->second, changing, n, steady, m, &first); break;
    case 5:
        answer->number = d->run(image, image_length, r->first, r->second, changing, n, steady, m, &first, &second);
        answer->values[1] = second;
        break;
    case 6: answer->number = d->display(steady, m, changing, n); return 1;
    case 10: answer->number = d->look(r->first, r->second, changing, n, steady, m, &first); break;
    case 11: answer->number = d->act(image, image_length, r->first, r->second, changing, n, &first); break;
    case 15:
        answer->number = d->why(image, image_length, r->first, r->second, changing, n, steady, m, &b[0], &b[1], &b[2]);
        answer->values[0] = b[0], answer->values[1] = b[1], answer->values[2] = b[2];
        return 1;
    default: return 0;
    }
    answer->values[0] = first;
    return 1;
}

/* The calls on an image and an address: of the EM73P982 with P3, the request's second number. */
static int ask_image(const struct request *r, struct answer *answer) {
    int p982 = r->device == EM73P982;
    uint32_t *values = answer->values, p3 = r->second, at = r->first, size = 0xAAAAAAAA;
    size_t n = r->changing_length, length = image_length;
    uint16_t w[3] = {0xAAAA, 0xAAAA, 0xAAAA};
    uint8_t b[3] = {0xAA, 0xAA, 0xAA};
    switch (r->call) {
    case 7:
        answer->number = p982 ? em73p982_read(image, length, p3, at, &b[0], &w[0], &b[1])
                              : em73862_read(image, length, at, &b[0], &w[0], &b[1]);
        values[0] = b[0], values[1] = w[0], values[2] = b[1];
        return 1;
    case 12:
        answer->number = p982 ? em73p982_length(image, length, p3, at, &b[0], &b[1])
                              : em73862_length(image, length, at, &b[0], &b[1]);
        values[0] = b[0], values[1] = b[1];
        return 1;
    case 13:
        answer->number = p982 ? em73p982_row(image, length, p3, at, &b[0], &w[0], &w[1], &w[2], &b[1], &b[2])
                              : em73862_row(image, length, at, &b[0], &w[0], &w[1], &w[2], &b[1], &b[2]);
        values[0] = b[0], values[1] = w[0], values[2] = w[1], values[3] = w[2], values[4] = b[1], values[5] = b[2];
        return 1;
    case 14:
        answer->number = p982 ? em73p982_notation(image, length, p3, at, changing, n, &size)
                              : em73862_notation(image, length, at, changing, n, &size);
        break;
    default: return 0;
    }
    values[0] = size;
    return 1;
}

/* The bound, whose changing buffer is two: N's path, as long as the request's third number, a margin, and the depth's path. */
static int ask_bound(const struct request *r, struct answer *answer) {
    size_t n = r->third, length = image_length;
    uint32_t value = 0xAAAAAAAA, depth = 0xAAAAAAAA;
    if (r->call != 9 || n + MARGIN > r->changing_length)
        return 0;
    size_t m = r->changing_length - n - MARGIN;
    uint8_t *deep = changing + n + MARGIN;
    answer->number = r->device == EM73P982 ? em73p982_bound(image, length, r->second, r->first, changing, n, deep, m, &value, &depth)
                                           : em73862_bound(image, length, r->first, changing, n, deep, m, &value, &depth);
    answer->values[0] = value, answer->values[1] = depth;
    return 1;
}

/* The writer, which serves both devices. */
static int ask_writer(const struct request *r, struct answer *answer) {
    uint8_t b[4] = {0xAA, 0xAA, 0xAA, 0xAA};
    if (r->call != 8)
        return 0;
    answer->number = em73862_write(r->first, r->second, r->third, &b[0], &b[1], &b[2], &b[3]);
    for (int at = 0; at < 4; at++)
        answer->values[at] = b[at];
    return 1;
}

static struct answer ask(const struct request *r) {
    struct answer answer = {0};
    if (r->device >= DEVICES || !(ask_record(r, &answer) || ask_image(r, &answer) || ask_bound(r, &answer) || ask_writer(r, &answer)))
        _exit(1);
    return answer;
}

int main(void) {
    struct request request;
    for (;;) {
        take(&request, sizeof request, 1);
        if (request.changing_length > MOST_BYTES || request.steady_length > MOST_BYTES)
            return 1;
        memset(held, MARGIN_BYTE, MARGIN);
        take(changing, request.changing_length, 0);
        memset(changing + request.changing_length, MARGIN_BYTE, MARGIN);
        if (request.call == 0) {
            take(image, request.steady_length, 0);
            image_length = request.steady_length;
            memcpy(image_copy, image, image_length);
            continue;
        }
        take(steady, request.steady_length, 0);
        memcpy(steady_copy, steady, request.steady_length);
        struct answer answer = ask(&request);
        answer.others_kept = others_kept(&request);
        give(&answer, sizeof answer);
        give(changing, request.changing_length);
    }
}
