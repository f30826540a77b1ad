/* nick.h: the NICK video chip of the Enterprise computer, painted dot by dot.
 *
 * The functions are in libnick_c.a (`rt lib` in crates/nick_c). Each is proved to do what is said of it here; the rules themselves
 * are the definitions in crates/nick/specs (of comparisons and runs in crates/comparison/specs and crates/script/specs), and the
 * exact promises stand in crates/nick_c/src/lib.rt.
 *
 * What a caller owes: every buffer is a pointer and the number of bytes behind it, and those bytes are the caller's and stay
 * where they are during the call. A pointer is not NULL, even where its length is 0. A buffer that is written overlaps no other
 * buffer of the same call, and nothing else writes to any of them meanwhile. A run's `place` points to one uint64_t, of which
 * the same holds. Nothing else is owed: every value of every argument has its answer.
 *
 * The library keeps nothing between calls, so calls from several threads with buffers of their own do not disturb each other.
 */
#ifndef NICK_H
#define NICK_H

#include <stddef.h>
#include <stdint.h>

#ifdef __cplusplus
extern "C" {
#endif

/* The state of the chip is 32 bytes. Pairs have the low byte first.
 *
 *    0  FIXBIAS        1  BORDER         2  LPL            3  LPH
 *    4  flags: bit 0 a reload is pending, bit 1 VIRQ is low, bit 2 sync is on
 *    5  zero           6  block number   8  LD1           10  LD2
 *   12  scanlines left                  14  two zeros
 *   16  the stored block: SC, MB, LM, RM, LD1, LD2, COL0 to COL7
 *
 * The zeros and the other bits of the flags are ignored when read, and zero when written. */
#define NICK_STATE_BYTES 32

#define NICK_RAM_BYTES 65536 /* video RAM */
#define NICK_LINE_DOTS 736   /* dots of a scanline */
#define NICK_RECORD_BYTES 7  /* the record of a scanline */
#define NICK_MOST_LINES 1024 /* scanlines of one painting */

#define NICK_COMPARISON_BYTES 14 /* the answer of a comparison */

#define NICK_STEP_BYTES 3 /* a step of a script */

/* Refusals. 0 is none. 20 is given before all else; of the others, where several apply, the smallest. A run has a height too:
 * the number of scanlines that its script asks for. What is tested before its first step comes before what is tested at a step,
 * and it stops at the first step that is refused.
 *
 *    1  register write, step of a run: port outside 128 to 143
 *    2  register write, step of a run: port 132 to 143 (reserved)
 *    3  painting, run, direct answer: scanlines left over 256, or block number over 4,095
 *    4  RAM not 65,536 bytes
 *    5  height 0, but for a run, or over 1,024
 *    6  dot buffer not 736 times the height
 *    7  record buffer not 7 times the height
 *    8  external input neither empty nor 736 times the height
 *    9  direct answer: line over 1,023 or dot over 735
 *   10  listing: output shorter than the whole listing
 *   11  given by no call
 *   12  comparison: a record begins with 255, as those of a refused painting and of lines that a run did not paint do
 *   19  run: script length not a multiple of 3, or a step of a kind over 3
 *   20  state not 32 bytes; answer of a comparison not 14
 *
 * A refused call leaves every byte of the state, the dots, the listing's output and the comparison's answer as it was; a
 * refused painting, and a run that is refused before its first step, write 255 over the whole record buffer, whatever its
 * length. A run that stops at a step is another matter: what its earlier steps did stands, the lines that it did not paint keep
 * their dots, and their records are 255 in every byte. */

/* Writes the fresh state: all zero but LPH 192 and a pending reload. Answers 0, or refusal 20. */
uint32_t nick_fresh(uint8_t *state, size_t state_bytes);

/* Writes one register: port 128 FIXBIAS, 129 BORDER, 130 LPL, 131 LPH. Answers 0, or refusal 1, 2 or 20. */
uint32_t nick_write(uint8_t *state, size_t state_bytes, uint32_t port, uint8_t value);

/* Paints the next scanline: its 736 dots, its record and the state after it. `external` is one byte for each dot (bit 7 set:
 * /EXTC is low; bits 0 to 3: EC0 to EC3), or empty if nothing is connected.
 *
 * The record: byte 0 has bit 0 VIRQ low, bit 1 VIRQ low and high in the scanline before, bit 2 burst given, bit 3 a block was
 * loaded, bit 4 no scanlines are left, bit 5 video mode 6. Byte 1: slots of 57 at sync level. Byte 2: bytes fetched from video
 * RAM. Byte 3: active slots in modes that fetch. Byte 4: VC1 (FIXBIAS bit 7), 0 or 1. Bytes 5 and 6: the number of the block
 * that the scanline is painted with, low byte first.
 *
 * Answers 0, or refusal 3, 4, 6, 7, 8 or 20. */
uint32_t nick_paint_line(uint8_t *state, size_t state_bytes, const uint8_t *ram, size_t ram_bytes, uint8_t *dots,
                         size_t dot_bytes, uint8_t *records, size_t record_bytes, const uint8_t *external,
                         size_t external_bytes);

/* Paints the next `height` scanlines, as that many single ones in order. Line y has the 736 dots from dot 736 times y on, and
 * the 7 record bytes from byte 7 times y on. Answers 0, or refusal 3 to 8, or 20. */
uint32_t nick_paint(uint8_t *state, size_t state_bytes, const uint8_t *ram, size_t ram_bytes, size_t height, uint8_t *dots,
                    size_t dot_bytes, uint8_t *records, size_t record_bytes, const uint8_t *external,
                    size_t external_bytes);

/* The direct answer: what dot `dot` of the scanline that is `line` scanlines from here would be, with `external` as its
 * external byte (0 if nothing is connected), and the addresses in video RAM that it came from.
 *
 *   bits  0 to  7  the refusal: 0, 3, 4, 9 or 20; if it is not 0, all other bits are 0
 *   bits  8 to 15  the colour
 *   bits 16 to 23  how many addresses there are: 0, 1 or 2
 *   bits 24 to 39  the first address, or 0
 *   bits 40 to 55  the second address, or 0 */
uint64_t nick_dot(const uint8_t *state, size_t state_bytes, const uint8_t *ram, size_t ram_bytes, size_t line, size_t dot,
                  uint8_t external);

/* Writes the text of the line parameter table that starts at the base block. Bytes after it stay as they are; no zero is
 * added. 330,000 bytes are always enough. Of the state the registers alone count.
 *
 *   bits  0 to 31  the refusal: 0, 4, 10 or 20; if it is not 0, all other bits are 0
 *   bits 32 to 63  the length of the text */
uint64_t nick_list(const uint8_t *state, size_t state_bytes, const uint8_t *ram, size_t ram_bytes, uint8_t *out,
                   size_t out_bytes);

/* The levels of a colour byte: red + 256 * green + 65,536 * blue; red and green are 0 to 7, blue is 0 to 3. */
uint32_t nick_levels(uint8_t colour);

/* Compares a capture with a frame, dot by dot: two dot buffers and their two record buffers, for the same height. Nothing but
 * `answer` is written.
 *
 *   bits 0 to  7  the refusal: 0, 5, 6, 7, 12 or 20
 *   bits 8 to 15  the side that 6, 7 and 12 name: 1 the capture, also where both sides are at fault, 2 the frame; else 0
 *
 * If the refusal is 0, `answer` has, pairs and fours with the low byte first:
 *
 *   0  how many dots differ, in four bytes
 *   4  the line of the first of them    6  its dot in that line    (65,535 both if none differs)
 *   8  of red the smallest difference of levels, capture minus frame, over all dots    9  the largest
 *  10, 11  of green    12, 13  of blue
 *
 * The differences are signed bytes: -7 to 7 of red and green, -3 to 3 of blue. */
uint32_t nick_compare(size_t height, const uint8_t *capture, size_t capture_bytes, const uint8_t *capture_records,
                      size_t capture_record_bytes, const uint8_t *frame, size_t frame_bytes,
                      const uint8_t *frame_records, size_t frame_record_bytes, uint8_t *answer, size_t answer_bytes);

/* Runs a script: steps of three bytes, kind, port and data, done one after another.
 *
 *   kind 0  writes the data to the port, as nick_write does
 *   kind 1  paints the next scanline, as nick_paint_line does, into the next line of the buffers, line 0 first, and with that
 *           line's bytes of `external`
 *   kind 2  sets the interrupt enable to bit 0 of the data
 *   kind 3  resets the interrupt latch
 *
 * Bytes that a kind has no use for are ignored. Latch and enable begin off. A painted line sets the latch if bit 1 of its record
 * is set (VIRQ low, and high in the scanline before), whether or not interrupts are enabled; only a reset clears it. The request
 * is given while latch and enable are both on.
 *
 * Before the first step 20 is tested; then 3 to 8, as for a painting of as many lines as the script has whole steps of kind 1
 * (with none, 5 is not given); then 19 for the script's length. At a step 1 and 2 apply to kind 0, and 19 to a kind over 3. The
 * run stops at the first refused step, which changes nothing.
 *
 *   bits 0 to 7  the refusal: 0, 1 to 8, 19 or 20
 *   bit  8       the latch, as it then stands
 *   bit  9       the enable, as it then stands
 *   bit 10       the request, as it then stands
 *   bit 11       the run stopped at a step
 *
 * All other bits are 0. `*place` is written only where bit 11 is set: it is then the place of the refused step in the script,
 * the first step being 0. The bytes of `state` become those of the state as it then stands, stopped or not; where the run is
 * refused before its first step, they stay as they were. */
uint32_t nick_run(uint8_t *state, size_t state_bytes, const uint8_t *ram, size_t ram_bytes, const uint8_t *script,
                  size_t script_bytes, uint8_t *dots, size_t dot_bytes, uint8_t *records, size_t record_bytes,
                  const uint8_t *external, size_t external_bytes, uint64_t *place);

#ifdef __cplusplus
}
#endif

#endif
