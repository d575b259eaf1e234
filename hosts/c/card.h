/* The virtual encoder card: runs a script of register accesses and ticks on a new card.
 *
 * One call, card_run, of libcard. It keeps nothing from one call to the next and needs no heap, so that threads may call
 * it at the same time, each with an output of its own.
 */
#ifndef CARD_H
#define CARD_H

#include <stddef.h>
#include <stdint.h>

#ifdef __cplusplus
extern "C" {
#endif

/* The longest script that is run, in bytes. */
#define CARD_MAX_SCRIPT 65536

/* The length of what a read writes: R,offset,value and byte 10. */
#define CARD_READ_LINE 15

/* No script writes more: a read has 6 bytes in the script, the last perhaps one less. */
#define CARD_MAX_OUTPUT ((CARD_MAX_SCRIPT + 1) / 6 * CARD_READ_LINE)

/* Why a run stopped. Lines before the refused one have been run, and what they wrote stands; the refused line has done nothing. */
enum card_code {
    CARD_DONE = 0,    /* nothing stopped it: every line was run */
    CARD_OFFSET = 1,  /* offset of a read or write not a multiple of 4, or above 0x1FC */
    CARD_SETTING = 2, /* written word with a setting that the card does not have */
    CARD_LENGTH = 5,  /* script above CARD_MAX_SCRIPT bytes; no line is run */
    CARD_FORM = 6,    /* unknown kind of line, or wrong number of fields */
    CARD_FIELD = 7,   /* field badly written */
    CARD_FULL = 8     /* output cannot hold the line of this read whole */
};

/* How a run ended. */
struct card_answer {
    uint32_t lines; /* lines run; the refused one, where there is one, is the next */
    size_t bytes;   /* bytes written at the front of the output */
    uint8_t code;   /* one of enum card_code */
};

/* Runs script_len bytes of script on a card just powered on, up to the first line that is refused.
 *
 * Reads write their lines to the front of out, at most out_len bytes; those after the bytes written stay as they were.
 * Nothing else is written, and neither pointer is kept. The two must not overlap, and neither may be NULL, not even where
 * its length is 0.
 */
struct card_answer card_run(const uint8_t *script, size_t script_len, uint8_t *out, size_t out_len);

#ifdef __cplusplus
}
#endif

#endif
