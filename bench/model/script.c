/* The script runner: splits lines into fields, checks them and makes the calls of the card. */
#include "script.h"

#include "card.h"

#include <stdbool.h>
#include <stdio.h>
#include <string.h>

enum { FIELDS_MOST = 4, ANSWER_LENGTH = 15 };

struct text {
    const uint8_t *bytes;
    size_t length;
};

struct line {
    struct text field[FIELDS_MOST];
    size_t fields; /* counted beyond FIELDS_MOST too, though no more are kept */
};

struct output {
    uint8_t *bytes;
    size_t room;
    size_t written;
};

static struct line split(struct text text)
{
    struct line line = {.fields = 0};
    size_t start = 0;

    for (size_t i = 0; i <= text.length; i++) {
        if (i < text.length && text.bytes[i] != ',')
            continue;
        if (line.fields < FIELDS_MOST)
            line.field[line.fields] = (struct text){text.bytes + start, i - start};
        line.fields++;
        start = i + 1;
    }
    return line;
}

static bool parse_hex(struct text text, size_t digits, uint32_t *value)
{
    if (text.length != digits)
        return false;
    *value = 0;
    for (size_t i = 0; i < digits; i++) {
        uint8_t byte = text.bytes[i];

        if (byte >= '0' && byte <= '9')
            *value = *value << 4 | (uint32_t)(byte - '0');
        else if (byte >= 'A' && byte <= 'F')
            *value = *value << 4 | (uint32_t)(byte - 'A' + 10);
        else
            return false;
    }
    return true;
}

/* 1 to 100,000 without a leading zero. */
static bool parse_count(struct text text, uint32_t *count)
{
    if (text.length < 1 || text.length > 6 || text.bytes[0] == '0')
        return false;
    *count = 0;
    for (size_t i = 0; i < text.length; i++) {
        if (text.bytes[i] < '0' || text.bytes[i] > '9')
            return false;
        *count = *count * 10 + (uint32_t)(text.bytes[i] - '0');
    }
    return *count <= 100000;
}

static void put_hex(uint8_t *place, size_t digits, uint32_t value)
{
    while (digits > 0) {
        place[--digits] = (uint8_t)"0123456789ABCDEF"[value & 15];
        value >>= 4;
    }
}

static unsigned run_read(struct card *card, const struct line *line, struct output *output)
{
    uint32_t offset;
    uint32_t value;

    if (!parse_hex(line->field[1], 3, &offset))
        return SCRIPT_BAD_FIELD;
    if (!card_has_offset(offset))
        return CARD_BAD_OFFSET;
    /* A read may have a side effect, so room is looked for before it. */
    if (output->room - output->written < ANSWER_LENGTH)
        return SCRIPT_NO_ROOM;
    card_read(card, offset, &value);

    uint8_t *answer = output->bytes + output->written;

    memcpy(answer, "R,000,00000000\n", ANSWER_LENGTH);
    put_hex(answer + 2, 3, offset);
    put_hex(answer + 6, 8, value);
    output->written += ANSWER_LENGTH;
    return 0;
}

static unsigned run_write(struct card *card, const struct line *line)
{
    uint32_t offset;
    uint32_t value;

    if (!parse_hex(line->field[1], 3, &offset) || !parse_hex(line->field[2], 8, &value))
        return SCRIPT_BAD_FIELD;
    return card_write(card, offset, value);
}

static unsigned run_ticks(struct card *card, const struct line *line)
{
    uint32_t count;
    uint32_t lines;
    uint32_t inputs;

    if (!parse_count(line->field[1], &count) || !parse_hex(line->field[2], 6, &lines) ||
        !parse_hex(line->field[3], 2, &inputs))
        return SCRIPT_BAD_FIELD;
    while (count-- > 0)
        card_tick(card, lines, inputs);
    return 0;
}

static unsigned run_line(struct card *card, struct text text, struct output *output)
{
    struct line line = split(text);

    if (line.field[0].length != 1)
        return SCRIPT_BAD_LINE;
    switch (line.field[0].bytes[0]) {
    case 'R':
        return line.fields == 2 ? run_read(card, &line, output) : SCRIPT_BAD_LINE;
    case 'W':
        return line.fields == 3 ? run_write(card, &line) : SCRIPT_BAD_LINE;
    case 'T':
        return line.fields == 4 ? run_ticks(card, &line) : SCRIPT_BAD_LINE;
    default:
        return SCRIPT_BAD_LINE;
    }
}

struct run run_script(const uint8_t *script, size_t length, uint8_t *output, size_t room)
{
    struct run run = {0, 0, 0};
    struct output out = {output, room, 0};
    struct card card;
    size_t start = 0;

    if (length > SCRIPT_LIMIT) {
        run.code = SCRIPT_TOO_LONG;
        return run;
    }
    card_power_on(&card);
    while (start < length && run.code == 0) {
        const uint8_t *end = memchr(script + start, '\n', length - start);
        size_t size = end != NULL ? (size_t)(end - (script + start)) : length - start;

        run.code = run_line(&card, (struct text){script + start, size}, &out);
        if (run.code == 0)
            run.lines++;
        start += size + 1;
    }
    run.written = out.written;
    return run;
}

size_t refusal_line(struct run run, char line[REFUSAL_LINE_LIMIT])
{
    if (run.code == 0)
        return 0;
    size_t number = run.code == SCRIPT_TOO_LONG ? 0 : run.lines + 1;
    int length = snprintf(line, REFUSAL_LINE_LIMIT, "E,%zu,%u\n", number, run.code);

    return (size_t)length;
}
