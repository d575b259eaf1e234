/* Runs a script of register accesses and ticks on a new card. */
#ifndef SCRIPT_H
#define SCRIPT_H

#include <stddef.h>
#include <stdint.h>

enum {
    SCRIPT_LIMIT = 65536,
    REFUSAL_LINE_LIMIT = 16, /* longest refusal line with room to spare: E,65536,8 and byte 10 */
};

enum script_code {
    SCRIPT_TOO_LONG = 5,
    SCRIPT_BAD_LINE = 6,  /* unknown kind or wrong number of fields */
    SCRIPT_BAD_FIELD = 7, /* field badly written */
    SCRIPT_NO_ROOM = 8,   /* output cannot hold the next line whole */
};

struct run {
    size_t lines;   /* lines run */
    size_t written; /* bytes written */
    unsigned code;  /* 0, or why the run stopped */
};

struct run run_script(const uint8_t *script, size_t length, uint8_t *output, size_t room);

/* The line that reports a refusal; answers its length, 0 if there was none. */
size_t refusal_line(struct run run, char line[REFUSAL_LINE_LIMIT]);

#endif
