/* handlers IMAGE: the SHA-256 of an image of the EM73862, the bound of each interrupt handler, and what ten steps from the fresh record take. A program of its own that is built against
 * the installed calls: its Makefile asks pkg-config where they are. */
#include <stdio.h>
#include "em73862.h"
#include "em73862_sha256.h"

static uint8_t image[EM73862_IMAGE_BYTES + 1], path[EM73862_LONGEST_PATH_BYTES], deep[EM73862_LONGEST_PATH_BYTES];

static int read_image(const char *name, size_t *length) {
    FILE *file = fopen(name, "rb");
    if (!file) {
        return 0;
    }
    *length = fread(image, 1, sizeof image, file);
    return fclose(file) == 0;
}

static void tell_digest(size_t length) {
    uint8_t digest[EM73862_SHA256_BYTES];
    em73862_sha256(image, length, digest, sizeof digest);
    for (size_t i = 0; i < sizeof digest; i++) {
        printf("%02x", digest[i]);
    }
    printf("\n");
}

static void tell_bound(size_t length, uint32_t entry) {
    uint32_t value, depth;
    uint8_t number = em73862_bound(image, length, entry, path, sizeof path, deep, sizeof deep, &value, &depth);
    if (number) {
        printf("handler at %04X: refused %02d, %04X\n", (unsigned)entry, number, (unsigned)value);
    } else {
        printf("handler at %04X: at most %u cycles, calls %u deep\n", (unsigned)entry, (unsigned)value, (unsigned)depth);
    }
}

static void tell_run(size_t length) {
    uint8_t record[EM73862_RECORD_BYTES];
    uint32_t steps, cycles;
    const char frames[] = "000000000000000000000000000000";
    em73862_fresh(record, sizeof record);
    uint8_t number = em73862_run(image, length, 0xFF, 0, record, sizeof record, (const uint8_t *)frames, sizeof frames - 1, &steps, &cycles);
    printf("run: %u steps, %u cycles, %02d\n", (unsigned)steps, (unsigned)cycles, number);
}

int main(int words, char **word) {
    static const uint32_t entries[] = {0x2, 0x6, 0x8, 0xA, 0xC};
    size_t length;
    if (words != 2 || !read_image(word[1], &length)) {
        fprintf(stderr, "usage: handlers IMAGE\n");
        return 2;
    }
    tell_digest(length);
    for (size_t i = 0; i < sizeof entries / sizeof *entries; i++) {
        tell_bound(length, entries[i]);
    }
    tell_run(length);
    return 0;
}
