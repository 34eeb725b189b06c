/* The sound pin's calls of Bakethrush, on a state in eight bytes: the generator of P30, P23 and P24.
 *
 * Every call answers a number: 0, or a refusal, which changes no byte of the state. A slice is a pointer and a length; no
 * two arguments of a call overlap. crates/sound_calls/specs/Calls.antt says what each call answers, and Layout.antt beside
 * it the bytes of a state:
 *   0 the mode (P30 bits 1..0), 1 whether asleep (0 or 1), 2 TF, 3 the count, 4 the tone (1 is high),
 *   5 the last nine random bits (two bytes, low first; bit 0 is the latest), 7 P24 as last written.
 * A buffer of another length, asleep or tone over 1, a mode over 3, P24 over 15, a count over TF, nine zeros and more than
 * nine bits are refused with EM73862_SOUND_OUTSIDE by every call but em73862_sound_start.
 */
#ifndef EM73862_SOUND_H
#define EM73862_SOUND_H
#include <stddef.h>
#include <stdint.h>

#ifdef __cplusplus
extern "C" {
#endif

#define EM73862_SOUND_BYTES 8
#define EM73862_SOUND_MOST_PULSES 65535

/* The modes: P30 bits 1..0. */
#define EM73862_SOUND_DISABLED 0
#define EM73862_SOUND_TONE 1
#define EM73862_SOUND_RANDOM 2
#define EM73862_SOUND_BOTH 3

/* The refusals: a state or a value outside its range; pulses over the limit; TF of zero while tone or random is on. */
#define EM73862_SOUND_OUTSIDE 2
#define EM73862_SOUND_OVER 48
#define EM73862_SOUND_TF_ZERO 49

/* The state at the start and after a reset, whatever the bytes hold. EM73862_SOUND_OUTSIDE: the length is another. */
uint8_t em73862_sound_start(uint8_t *state, size_t state_length);
/* Writes of a port, value 0 to 15. TF is taken at the write of P23, with P24 as it stands, and the count restarts.
 * EM73862_SOUND_OUTSIDE: the state, or a value over 15. */
uint8_t em73862_sound_write_p30(uint8_t *state, size_t state_length, uint8_t value);
uint8_t em73862_sound_write_p24(uint8_t *state, size_t state_length, uint8_t value);
uint8_t em73862_sound_write_p23(uint8_t *state, size_t state_length, uint8_t value);
/* EM73862_SOUND_OUTSIDE: the state. */
uint8_t em73862_sound_sleep(uint8_t *state, size_t state_length);
uint8_t em73862_sound_wake(uint8_t *state, size_t state_length);
/* The state so many pulses of the basic frequency later. In this order: EM73862_SOUND_OUTSIDE: the state;
 * EM73862_SOUND_OVER: more than EM73862_SOUND_MOST_PULSES; EM73862_SOUND_TF_ZERO: also asleep, and for 0 pulses. */
uint8_t em73862_sound_advance(uint8_t *state, size_t state_length, uint32_t pulses);
/* level: 1 where the pin is high, else 0; 0 beside a refusal. EM73862_SOUND_OUTSIDE: the state. */
uint8_t em73862_sound_output(const uint8_t *state, size_t state_length, uint8_t *level);

#ifdef __cplusplus
}
#endif
#endif
