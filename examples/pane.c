/* pane IMAGE ADDRESS: ten rows of an image from an address on, as the lister prints them, each branch or call with its target, and then the
 * bound of the handler there with its paths, as the bounder prints them. A start for a debugger's pane.
 *
 *   tools/archive em73862
 *   cc -std=c11 -Wall -Wextra -Werror -Iinclude examples/pane.c -Ltarget/lib -lem73862 -o pane
 */
#include "em73862_pane.h"
#include <stdio.h>
#include <stdlib.h>

enum { ROWS = 10 };

/* The rows of the sheet that a path counts calls by. */
enum { LCALL = 71, SCALL = 72, RET = 73, RTI = 86 };

static uint8_t image[EM73862_IMAGE_BYTES + 1];
static size_t image_length;
static uint8_t path[EM73862_LONGEST_PATH_BYTES], deep[EM73862_LONGEST_PATH_BYTES];

/* The columns of the lister without their line's end; what comes back is how many bytes the row has, 1 where there is none. */
static uint8_t columns(uint32_t address, uint8_t *cycles) {
    uint8_t text[EM73862_NOTATION_BYTES], bytes;
    uint32_t length;
    uint8_t number = em73862_length(image, image_length, address, &bytes, cycles);
    if (number != 0) {
        printf("%04X  %02X        refused %02d", (unsigned)address, image[address], number);
        return 1;
    }
    em73862_notation(image, image_length, address, text, sizeof text, &length);
    printf("%04X  ", (unsigned)address);
    for (unsigned at = 0; at < 3; at++) {
        if (at < bytes)
            printf("%02X ", image[address + at]);
        else
            printf("   ");
    }
    printf(" %-16.*s %d %d", (int)length, (const char *)text, bytes, *cycles);
    return bytes;
}

/* Ten rows, or those up to the end of the image. */
static void show_rows(uint32_t address) {
    for (int row = 0; row < ROWS && address < EM73862_IMAGE_BYTES; row++) {
        uint8_t number, bytes, cycles;
        uint16_t first, second, goes = EM73862_NOWHERE;
        uint32_t next = address + columns(address, &cycles);
        if (em73862_row(image, image_length, address, &number, &first, &second, &goes, &bytes, &cycles) == 0 &&
            goes != EM73862_NOWHERE)
            printf(" > %04X", goes);
        printf("\n");
        address = next;
    }
}

/* The depth and its path to RTI, each line with the calls that are open after it. */
static void show_depth(uint32_t depth) {
    unsigned calls = 0;
    uint8_t row = 0;
    printf("depth %u\n", (unsigned)depth);
    for (const uint8_t *at = deep; row != RTI; at += 2) {
        uint32_t address = at[0] + 256u * at[1];
        uint8_t bytes, cycles;
        uint16_t first, second, goes;
        em73862_row(image, image_length, address, &row, &first, &second, &goes, &bytes, &cycles);
        calls += row == LCALL || row == SCALL;
        calls -= row == RET;
        columns(address, &cycles);
        printf(" %5u\n", calls);
    }
}

/* N and its path to RTI with the running totals, then the depth, or why there is none. */
static void show_bound(uint32_t address) {
    uint32_t value, depth, total = 0;
    uint8_t number = em73862_bound(image, image_length, address, path, sizeof path, deep, sizeof deep, &value, &depth);
    switch (number) {
    case 0: break;
    case EM73862_RECURSION_REACHABLE:
    case EM73862_EXCLUDED_REACHABLE:
    case EM73862_REPETITION_REACHABLE: printf("refused %02d %04X\n", number, (unsigned)value); return;
    default: printf("refused %02d\n", number); return;
    }
    printf("N %u\n", (unsigned)value);
    for (const uint8_t *at = path; total < value; at += 2) {
        uint8_t cycles;
        columns(at[0] + 256u * at[1], &cycles);
        total += cycles;
        printf(" %5u\n", (unsigned)total);
    }
    show_depth(depth);
}

int main(int count, char **words) {
    if (count != 3) {
        fprintf(stderr, "usage: pane IMAGE ADDRESS\n");
        return 2;
    }
    FILE *file = fopen(words[1], "rb");
    if (file == NULL) {
        fprintf(stderr, "pane: cannot open %s\n", words[1]);
        return 2;
    }
    image_length = fread(image, 1, sizeof image, file);
    fclose(file);
    char *end;
    unsigned long word = strtoul(words[2], &end, 16);
    uint32_t address = *end != 0 || word > EM73862_IMAGE_BYTES ? EM73862_IMAGE_BYTES : (uint32_t)word;
    uint8_t bytes, cycles;
    uint8_t number = em73862_length(image, image_length, address, &bytes, &cycles);
    if (number == EM73862_OTHER_IMAGE_SIZE || number == EM73862_ADDRESS_RANGE) {
        printf("refused %02d\n", number);
        return 1;
    }
    show_rows(address);
    show_bound(address);
    return 0;
}
