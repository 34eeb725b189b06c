/* Answers em73862_compare and em73p982_compare over its standard input and output, for a program that cannot link them.
 *
 * A request is a struct request, then its image, unless that is the one before, its script and its listing; an answer is a struct answer.
 * It ends at the end of its input, and with status 1 where a request is none.
 */
#include "em73862.h"
#include "em73p982.h"

/* libc's; the kit has no header of them. */
long read(int file, void *bytes, size_t length);
long write(int file, const void *bytes, size_t length);
void _exit(int status) __attribute__((noreturn));

struct request {
    uint32_t device, image_length, script_length, listing_length;
};

struct answer {
    uint32_t number, field;
    uint64_t line;
};

enum { MOST_BYTES = 1 << 20 };
#define IMAGE_BEFORE 0xFFFFFFFF

static uint8_t image[MOST_BYTES], script[MOST_BYTES], listing[MOST_BYTES];

/* Fills `bytes`, or tells that the input is over before the first of them. */
static int take(void *bytes, size_t length) {
    for (size_t at = 0; at < length;) {
        long count = read(0, (uint8_t *)bytes + at, length - at);
        if (count == 0 && at == 0)
            return 0;
        if (count <= 0)
            _exit(1);
        at += count;
    }
    return 1;
}

static void give(const void *bytes, size_t length) {
    for (size_t at = 0; at < length;) {
        long count = write(1, (const uint8_t *)bytes + at, length - at);
        if (count <= 0)
            _exit(1);
        at += count;
    }
}

int main(void) {
    struct request r;
    uint32_t image_length = 0;
    while (take(&r, sizeof r)) {
        if (r.image_length != IMAGE_BEFORE)
            image_length = r.image_length;
        if (image_length > MOST_BYTES || r.script_length > MOST_BYTES || r.listing_length > MOST_BYTES || r.device > 1)
            return 1;
        if (r.image_length != IMAGE_BEFORE)
            take(image, image_length);
        take(script, r.script_length);
        take(listing, r.listing_length);
        uint64_t line = 0xAAAAAAAA;
        uint8_t field = 0xAA;
        uint8_t number = (r.device ? em73p982_compare : em73862_compare)(image, image_length, script, r.script_length,
                                                                        listing, r.listing_length, &line, &field);
        struct answer answer = {number, field, line};
        give(&answer, sizeof answer);
    }
    return 0;
}
