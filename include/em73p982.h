/* The calls of Bakethrush for the EM73P982 on numbers and byte buffers: those of em73862.h and em73862_pane.h, with this device's image, frames,
 * ports and interrupts. em73862_write serves both devices.
 *
 * Every call answers document 01's number: 0, a refusal or a stop; beside each stand those that it can give, in their order. They have the names of em73862.h and
 * em73862_pane.h. A refusal changes no buffer, and sets the numbers that come back to 0, but for the value that comes with 21, 22, 23 and 24.
 * A slice is a pointer and a length; a slice of no bytes may have any pointer. No two arguments of a call overlap.
 * The calls are in libem73p982.a.
 *
 * An image is four banks of 4,096 bytes. Addresses 0000h to 0FFFh are bank 0; 1000h to 1FFFh are bank 1, 2 or 3 where bits 1..0 of P3 are 0, 1, 2.
 *
 * A record is EM73862_RECORD_BYTES, laid out as in em73862.h, with
 *   35 P4 of the last frame, its four pins,
 *   38 the source that would be accepted were EI set: 0 none, 1 to 5 INT0, TRGA, TRGB, TBI, SPI,
 *   39 P3, 40 P5, 41 P6, 42 P17,
 *   43 the fourth digit of the last frame: 1 where the speech ends, else 0.
 * A buffer of another length, a flag or the mark over 1 and a mode over 2 are refused with 2, as every value outside its range is, a P3 whose
 * bits 1..0 are 3 among them, and a due source that disagrees with latches and mask.
 *
 * A frame is four hexadecimal digits: P0, P8, P4, and 0 or 1.
 * wake has the enable bits of P0.0 to P0.3 and P8.0 to P8.3 from bit 0 up; sound is enabled where it is not 0.
 */
#ifndef EM73P982_H
#define EM73P982_H
#include "em73862.h"

#define EM73P982_IMAGE_BYTES 16384
#define EM73P982_FRAME_CHARACTERS 4

#ifdef __cplusplus
extern "C" {
#endif

/* The fresh record. 2 where the buffer is not a record's length. */
uint8_t em73p982_fresh(uint8_t *record, size_t record_length);
/* 2. */
uint8_t em73p982_reset(uint8_t *record, size_t record_length);
/* 0 where the buffer holds a record within its ranges, else 2. */
uint8_t em73p982_is_valid(const uint8_t *record, size_t record_length);
/* One step, a look and then an act. 1, 2, 3; stops 30 to 35, with the record as the look left it. 34 also where bits 1..0 of P3 would become 3. */
uint8_t em73p982_step(const uint8_t *image, size_t image_length, uint8_t wake, uint8_t sound,
                      uint8_t *record, size_t record_length,
                      const uint8_t *frame, size_t frame_length, uint32_t *cycles);
/* The first half of a step: edges, speech, event counts and waking. In sleep or hold it is the whole step: cycles are those of waking, and
 * the mark makes the act that follows do nothing. 2, 3. */
uint8_t em73p982_look(uint8_t wake, uint8_t sound, uint8_t *record, size_t record_length,
                      const uint8_t *frame, size_t frame_length, uint32_t *cycles);
/* The second half: an interrupt is accepted or one instruction executed, and time passes, with the record's last frame. 1, 2; stops 30 to 35,
 * which leave the record. */
uint8_t em73p982_act(const uint8_t *image, size_t image_length, uint8_t wake, uint8_t sound,
                     uint8_t *record, size_t record_length, uint32_t *cycles);
/* Why a step with this frame takes an interrupt or does not, as em73862_why: the source of IL0 is SPI. 1, 2, 3. */
uint8_t em73p982_why(const uint8_t *image, size_t image_length, uint8_t wake, uint8_t sound,
                     const uint8_t *record, size_t record_length,
                     const uint8_t *frame, size_t frame_length,
                     uint8_t *holds, uint8_t *source, uint8_t *sources);
/* One step a frame, up to a stop; EM73862_MOST_FRAMES frames at most. 1, 2, 4, 3; stops 30 to 35. */
uint8_t em73p982_run(const uint8_t *image, size_t image_length, uint8_t wake, uint8_t sound,
                     uint8_t *record, size_t record_length,
                     const uint8_t *frames, size_t frames_length, uint32_t *steps, uint32_t *cycles);
/* The first 40 bytes of dots; later bytes stay. 2, 5. */
uint8_t em73p982_display(const uint8_t *record, size_t record_length, uint8_t *dots, size_t dots_length);
/* Whether a listing is what the runner prints for an image and a script, from the fresh record, with all wake pins enabled and SOUND off.
 * line: 0 where it is; else the first line that differs, from 1, the header being line 1. field: the first of it that differs, PC A H L S CZS C X
 * being 1 to 8; 0 for a missing or an extra line, the header, or the spacing. Script and listing may have any length. 1, 3. */
uint8_t em73p982_compare(const uint8_t *image, size_t image_length, const uint8_t *script, size_t script_length,
                        const uint8_t *listing, size_t listing_length, uint64_t *line, uint8_t *field);

/* The calls below see the image through the window of p3. 2 where p3 is over 15 or its bits 1..0 are 3. */

/* How many bytes and cycles the instruction at an address has. 1, 2, 20, 30 or 35. */
uint8_t em73p982_length(const uint8_t *image, size_t image_length, uint32_t p3, uint32_t address,
                        uint8_t *bytes, uint8_t *cycles);
/* row 1 to 107; first and second are its operands in the mnemonic's order, 0 where it has none; goes is where a branch or a call goes, and
 * EM73862_NOWHERE of any other row. 1, 2, 20, 30 or 35. */
uint8_t em73p982_row(const uint8_t *image, size_t image_length, uint32_t p3, uint32_t address, uint8_t *row,
                     uint16_t *first, uint16_t *second, uint16_t *goes, uint8_t *bytes, uint8_t *cycles);
/* The row in the sheet's notation, length characters from the buffer's start; later bytes stay. A buffer that is too short stays as it was, and
 * 0 and the length come back all the same. 1, 2, 20, 30 or 35. */
uint8_t em73p982_notation(const uint8_t *image, size_t image_length, uint32_t p3, uint32_t address,
                          uint8_t *text, size_t text_length, uint32_t *length);
/* row 1 to 107; a and b are the operands by their slots, 0 where the row has none: a is x, k, the address, the bit, r or n; b is y or p.
 * 1, 2, 20, 30 or 35. */
uint8_t em73p982_read(const uint8_t *image, size_t image_length, uint32_t p3, uint32_t address,
                      uint8_t *row, uint16_t *a, uint8_t *b);
/* As em73862_bound of em73862_pane.h, for records that start with this p3; a row that writes P3 is excluded. 131,070 bytes are always enough for each path.
 * 1, 2, 20, 24, 21, 22, 25, 23. */
uint8_t em73p982_bound(const uint8_t *image, size_t image_length, uint32_t p3, uint32_t address,
                       uint8_t *path, size_t path_length, uint8_t *deep, size_t deep_length, uint32_t *value, uint32_t *depth);

#ifdef __cplusplus
}
#endif
#endif
