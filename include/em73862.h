/* The base calls of Bakethrush on numbers and byte buffers.
 *
 * Every call answers document 01's number: 0, a refusal or a stop; beside each stand those that it can give, in their order. A refusal changes no buffer, and sets the numbers
 * that come back to 0.
 * A slice is a pointer and a length; a slice of no bytes may have any pointer. No two arguments of a call overlap.
 * crates/record_calls/specs/Calls.antt says what each call answers, Why.antt and Compare.antt beside it em73862_why's and em73862_compare's,
 * crates/image_calls/specs/Write.antt em73862_write's, and crates/record_bytes/specs/Layout.antt the bytes of a record.
 *
 * A record is 416 bytes, each number in one byte unless said otherwise:
 *   0 ACC, 1 HR, 2 LR, 3 SP, 4 mask,
 *   5 to 15 the latches of P4, P8, P9, P16, P23, P24, P25, P27, P28, P29, P30,
 *   16 PC, 18 DP, 20 TA, 22 TB (two bytes each, low first),
 *   24 CF, 25 ZF, 26 SF, 27 EI (0 or 1),
 *   28 the latches IL5 to IL0 as bits 5 to 0,
 *   29 the time base (four bytes, low first),
 *   33 P0, 34 P8, 35 P4.0 of the last frame,
 *   36 the mode: 0 running, 1 sleep, 2 hold,
 *   37 the mark that a look leaves in sleep or hold (0 or 1),
 *   38 the source that would be accepted were EI set: 0 none, 1 to 5 INT0, TRGA, TRGB, TBI, INT1,
 *   39 P3, 40 P5, 41 P6, 42 P17, 43 the fourth digit of the last frame: 0, since only the EM73P982 has them,
 *   44 to 415 RAM, a nibble a byte: 000h to 0F3h, then 100h to 17Fh.
 * A buffer of another length, a flag or the mark over 1 and a mode over 2 are refused with 2, as every value outside its range is, and a due
 * source that disagrees with latches and mask.
 *
 * wake has the enable bits of P0.0 to P0.3 and P8.0 to P8.3 from bit 0 up; sound is enabled where it is not 0.
 */
#ifndef EM73862_H
#define EM73862_H
#include "em73862_pane.h"

#define EM73862_RECORD_BYTES 416
#define EM73862_FRAME_CHARACTERS 3
#define EM73862_MOST_FRAMES 65536
#define EM73862_DISPLAY_BYTES 40

/* What comes back: refusals, besides those of the pane's header. */
#define EM73862_OUTSIDE_RANGES 2
#define EM73862_NO_FRAME 3
#define EM73862_TOO_MANY_FRAMES 4
#define EM73862_SHORT_DISPLAY 5
#define EM73862_NOT_WRITABLE 11
/* Stops, besides EM73862_UNASSIGNED and EM73862_PAST_END of the pane's header. */
#define EM73862_ABSENT_RAM 31
#define EM73862_STACK_LEVEL 32
#define EM73862_ABSENT_PORT 33
#define EM73862_RESERVED_10XX 34 /* 10xx in P25 or P27; on the EM73P982 also a P3 whose bits 1..0 are 3 */

/* What em73862_why answers: sleeping or holding, EI clear, nothing latched, latched but all masked, due but the stack level refuses it, accepted. */
#define EM73862_WAITING 1
#define EM73862_EI_CLEAR 2
#define EM73862_NOTHING_LATCHED 3
#define EM73862_ALL_MASKED 4
#define EM73862_LEVEL_REFUSES 5
#define EM73862_ACCEPTED 6

#ifdef __cplusplus
extern "C" {
#endif

/* The fresh record. 2 where the buffer is not a record's length. */
uint8_t em73862_fresh(uint8_t *record, size_t record_length);
/* 2. */
uint8_t em73862_reset(uint8_t *record, size_t record_length);
/* 0 where the buffer holds a record within its ranges, else 2. */
uint8_t em73862_is_valid(const uint8_t *record, size_t record_length);
/* One step, a look and then an act. 1, 2, 3; stops 30 to 35, with the record as the look left it. */
uint8_t em73862_step(const uint8_t *image, size_t image_length, uint8_t wake, uint8_t sound,
                     uint8_t *record, size_t record_length,
                     const uint8_t *frame, size_t frame_length, uint32_t *cycles);
/* The first half of a step: edges, event counts and waking. In sleep or hold it is the whole step: cycles are those of waking, and
 * the mark makes the act that follows do nothing. 2, 3. */
uint8_t em73862_look(uint8_t wake, uint8_t sound, uint8_t *record, size_t record_length,
                     const uint8_t *frame, size_t frame_length, uint32_t *cycles);
/* The second half: an interrupt is accepted or one instruction executed, and time passes, with the record's last frame. 1, 2; stops 30 to 35,
 * which leave the record. */
uint8_t em73862_act(const uint8_t *image, size_t image_length, uint8_t wake, uint8_t sound,
                    uint8_t *record, size_t record_length, uint32_t *cycles);
/* Why a step with this frame takes an interrupt or does not; the record stays. holds is the first of EM73862_WAITING .. EM73862_ACCEPTED that holds.
 * sources has bit n where the source of ILn is in it: those latched with EM73862_ALL_MASKED, those due with EM73862_LEVEL_REFUSES, the due ones that must wait with
 * EM73862_ACCEPTED; source is the latch's number n of the one accepted. Both are 0 elsewhere. 1, 2, 3. */
uint8_t em73862_why(const uint8_t *image, size_t image_length, uint8_t wake, uint8_t sound,
                    const uint8_t *record, size_t record_length,
                    const uint8_t *frame, size_t frame_length,
                    uint8_t *holds, uint8_t *source, uint8_t *sources);
/* One step a frame, up to a stop. 1, 2, 4, 3; stops 30 to 35. */
uint8_t em73862_run(const uint8_t *image, size_t image_length, uint8_t wake, uint8_t sound,
                    uint8_t *record, size_t record_length,
                    const uint8_t *frames, size_t frames_length, uint32_t *steps, uint32_t *cycles);
/* The first 40 bytes of dots; later bytes stay. 2, 5. */
uint8_t em73862_display(const uint8_t *record, size_t record_length, uint8_t *dots, size_t dots_length);
/* Whether a listing is what the runner prints for an image and a script, from the fresh record, with all wake pins enabled and SOUND off.
 * line: 0 where it is; else the first line that differs, from 1, the header being line 1. field: the first of it that differs, PC A H L S CZS C X
 * being 1 to 8; 0 for a missing or an extra line, the header, or the spacing. Script and listing may have any length. 1, 3. */
uint8_t em73862_compare(const uint8_t *image, size_t image_length, const uint8_t *script, size_t script_length,
                       const uint8_t *listing, size_t listing_length, uint64_t *line, uint8_t *field);
/* The code of a row with its operands by their slots, as em73862_read gives them: length bytes of b0, b1, b2; the others are 0. 11. */
uint8_t em73862_write(uint8_t row, uint16_t a, uint8_t b,
                      uint8_t *length, uint8_t *b0, uint8_t *b1, uint8_t *b2);

#ifdef __cplusplus
}
#endif
#endif
