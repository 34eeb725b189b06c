/* Images of the EM73862 as Intel HEX, on numbers and byte buffers.
 *
 * Every call answers 0, a refusal's number, or 255 where nothing is told yet, which is neither. The refusals 1, 2, 46 and 47 change no buffer;
 * 40 to 45 leave the image, but those of a text in chunks write the state and may write the work buffer.
 * A slice is a pointer and a length; a slice of no bytes may have any pointer. No two arguments of a call overlap.
 * crates/hex_calls/specs/Calls.antt and Chunks.antt say what each call answers.
 */
#ifndef EM73862_HEX_H
#define EM73862_HEX_H
#include <stddef.h>
#include <stdint.h>

#define EM73862_HEX_IMAGE_BYTES 8192
/* 512 records of sixteen bytes, and the end record. */
#define EM73862_HEX_TEXT_BYTES 22540
/* Of a reader that is fed chunks: its state, and the buffer that carries its work. */
#define EM73862_HEX_STATE_BYTES 550
#define EM73862_HEX_WORK_BYTES 9216

enum em73862_hex_number {
    EM73862_HEX_DONE = 0,
    EM73862_HEX_IMAGE_SIZE = 1,      /* image is not 8,192 bytes */
    EM73862_HEX_STATE = 2,           /* state is not 550 bytes, or outside its ranges */
    EM73862_HEX_MALFORMED_LINE = 40, /* or an end record with bytes */
    EM73862_HEX_RECORD_SUM = 41,
    EM73862_HEX_RECORD_TYPE = 42,
    EM73862_HEX_PAST_1FFF = 43,      /* a data byte past 1FFFh */
    EM73862_HEX_GIVEN_TWICE = 44,
    EM73862_HEX_END_RECORD = 45,     /* end record missing, or text after it */
    EM73862_HEX_OUTPUT_BUFFER = 46,  /* output buffer under 22,540 bytes */
    EM73862_HEX_WORK_SIZE = 47,      /* work buffer is not 9,216 bytes */
    EM73862_HEX_MORE = 255           /* chunks: nothing is told yet */
};

#ifdef __cplusplus
extern "C" {
#endif

/* Reads a whole text into an image. line: that of the first fault, from 1, where the answer is 40 to 45; else 0.
 * Answers 0, 1, 40, 41, 42, 43, 44, 45. */
uint8_t em73862_hex_read(const uint8_t *text, size_t text_length, uint8_t *image, size_t image_length, size_t *line);

/* Writes an image into the first 22,540 bytes of text; later bytes stay. Answers 0, 1, 46. */
uint8_t em73862_hex_write(const uint8_t *image, size_t image_length, uint8_t *text, size_t text_length);

/* A text that comes in chunks. Start a state, feed it each chunk, empty ones too, and declare the end. Between the calls the state and
 * the work buffer stay as the last call left them; the work buffer may start with any contents. The image is written by the end alone,
 * where the whole text is good. A fault is told by the call that completes its line; once it is told, or the end is declared, later
 * calls repeat the answer and change nothing. Refusals 47, 1 and 2, in this order, change nothing and are not repeated.
 * Nothing in a state tells its device: it goes on with the calls of the device that it was fed to first.
 * The state is the line that is begun (522 bytes), how many characters it has and its number (8 bytes each, low first), the stage (0
 * before the end record, 1 after it, 2 told), the refusal, its line (8 bytes), whether the work buffer is in use, whether the text was
 * good; only the calls read it. Its ranges: at most 522 characters, 523 standing for a longer line; lines from 1; a stage of 0, 1 or 2, and of 2 a refusal of 40
 * to 45; the last two 0 or 1. Bytes outside them are refused with 2. */

/* Answers 0, 2. */
uint8_t em73862_hex_start(uint8_t *state, size_t state_length);

/* line: that of the fault where the answer is 40 to 45, else 0. Answers 255, 0 (again), 47, 1, 2, 40, 41, 42, 43, 44, 45. */
uint8_t em73862_hex_feed(uint8_t *state, size_t state_length, const uint8_t *chunk, size_t chunk_length,
                         uint8_t *work, size_t work_length, const uint8_t *image, size_t image_length, size_t *line);

/* Answers 0, 47, 1, 2, 40, 41, 42, 43, 44, 45; line as above. */
uint8_t em73862_hex_end(uint8_t *state, size_t state_length, uint8_t *work, size_t work_length,
                        uint8_t *image, size_t image_length, size_t *line);

#ifdef __cplusplus
}
#endif
#endif
