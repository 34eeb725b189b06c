/* The calls of Bakethrush for a debugger's pane: an image and an address go in, and numbers and byte buffers come back. No call knows a record.
 *
 * Every call answers document 01's number: 0 or a refusal; beside each stand those that it can give, in their order. A refusal changes no buffer, and sets
 * the numbers that come back to 0, but for the value that comes with 21, 22, 23 and 24.
 * A slice is a pointer and a length; a slice of no bytes may have any pointer. No two arguments of a call overlap.
 * crates/image_calls/specs/Pane.antt says what each call answers. They are in libem73862.a.
 */
#ifndef EM73862_PANE_H
#define EM73862_PANE_H
#include <stddef.h>
#include <stdint.h>

#define EM73862_IMAGE_BYTES 8192
/* A buffer of this length is never too short for a row's notation, nor one of the other for a path. */
#define EM73862_NOTATION_BYTES 16
#define EM73862_LONGEST_PATH_BYTES 131070
/* Where a row goes that is neither a branch nor a call. */
#define EM73862_NOWHERE 8192

/* What comes back: refusals. */
#define EM73862_OTHER_IMAGE_SIZE 1
#define EM73862_ADDRESS_RANGE 20
#define EM73862_EXCLUDED_REACHABLE 21
#define EM73862_REPETITION_REACHABLE 22
#define EM73862_SHORT_PATH 23
#define EM73862_RECURSION_REACHABLE 24
#define EM73862_BOUND_RANGE 25
#define EM73862_UNASSIGNED 30
/* The bytes left before the end of the image begin a row and are too few. */
#define EM73862_PAST_END 35

#ifdef __cplusplus
extern "C" {
#endif

/* How many bytes and cycles the instruction at an address has. 1, 20, 30 or 35. */
uint8_t em73862_length(const uint8_t *image, size_t image_length, uint32_t address, uint8_t *bytes, uint8_t *cycles);
/* row 1 to 107; first and second are its operands in the mnemonic's order, 0 where it has none; goes is where a branch or a call goes, and
 * EM73862_NOWHERE of any other row. 1, 20, 30 or 35. */
uint8_t em73862_row(const uint8_t *image, size_t image_length, uint32_t address, uint8_t *row,
                    uint16_t *first, uint16_t *second, uint16_t *goes, uint8_t *bytes, uint8_t *cycles);
/* The row in the sheet's notation, length characters from the buffer's start; later bytes stay. A buffer that is too short stays as it was, and
 * 0 and the length come back all the same. 1, 20, 30 or 35. */
uint8_t em73862_notation(const uint8_t *image, size_t image_length, uint32_t address,
                         uint8_t *text, size_t text_length, uint32_t *length);
/* row 1 to 107; a and b are the operands by their slots, 0 where the row has none: a is x, k, the address, the bit, r or n; b is y or p.
 * 1, 20, 30 or 35. */
uint8_t em73862_read(const uint8_t *image, size_t image_length, uint32_t address,
                     uint8_t *row, uint16_t *a, uint8_t *b);
/* The most cycles N from an address to RTI, its calls followed, and the greatest depth of calls.
 * path: the addresses of N's path, two bytes each, low first, those of a called routine in their turn; deep: those of depth's path. Later bytes stay.
 * EM73862_LONGEST_PATH_BYTES are always enough for each.
 * value: N where the answer is 0; the lowest address for 21 and 22; the bytes needed for 23, of path's buffer before deep's; the lowest entry of a routine
 * that can reach a call of itself for 24; else 0. depth: the depth where the answer is 0, else 0. 1, 20, 24, 21, 22, 25 (N is over 65535), 23.
 * N holds for runs that start running, with SF set and EI clear, and in which no instruction but a call stores into a stack level from SP at that time
 * (included) up to the SP at the start (not included). The call itself needs up to 650 KB of stack. */
uint8_t em73862_bound(const uint8_t *image, size_t image_length, uint32_t address,
                      uint8_t *path, size_t path_length, uint8_t *deep, size_t deep_length, uint32_t *value, uint32_t *depth);

#ifdef __cplusplus
}
#endif
#endif
