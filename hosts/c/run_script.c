/* A host program: runs the script of a file, or of standard input, on a new card.
 *
 * Standard output has what the script wrote and nothing else; why it stopped is told on standard error.
 * Exit status: 0 every line was run, 1 a line was refused, 2 the script could not be read or its output not written.
 */
#include "card.h"
#include <stdio.h>

enum { RAN = 0, REFUSED = 1, FAILED = 2 };

struct script {
    const char *name;
    uint8_t bytes[CARD_MAX_SCRIPT + 1]; /* one byte more than fits tells that it is too long */
    size_t length;
};

static const char *cause(uint8_t code) {
    switch (code) {
    case CARD_OFFSET:
        return "the offset is not a multiple of 4, or is above 0x1FC";
    case CARD_SETTING:
        return "the card does not have the setting that is written";
    case CARD_LENGTH:
        return "the script has more than 65,536 bytes";
    case CARD_FORM:
        return "the kind is not R, W or T, or has another number of fields";
    case CARD_FIELD:
        return "a field is badly written";
    case CARD_FULL:
        return "the output is full";
    default:
        return "unknown code";
    }
}

static int read_script(struct script *script, const char *path) {
    FILE *file = path != NULL ? fopen(path, "rb") : stdin;
    script->name = path != NULL ? path : "<stdin>";
    if (file == NULL)
        return 0;
    script->length = fread(script->bytes, 1, sizeof script->bytes, file);
    int good = !ferror(file);
    if (file != stdin)
        fclose(file);
    return good;
}

static void tell_refusal(const char *name, struct card_answer answer) {
    fprintf(stderr, "%s:", name);
    if (answer.code != CARD_LENGTH) /* refused as a whole, not at a line */
        fprintf(stderr, "%lu:", (unsigned long)answer.lines + 1);
    fprintf(stderr, " refused with code %u: %s\n", (unsigned)answer.code, cause(answer.code));
}

int main(int argc, char **argv) {
    static struct script script;
    static uint8_t output[65536]; /* as much as cardrun has; CARD_MAX_OUTPUT never fills up */

    if (argc > 2) {
        fprintf(stderr, "usage: %s [SCRIPT]\n", argv[0]);
        return FAILED;
    }
    if (!read_script(&script, argc > 1 ? argv[1] : NULL)) {
        perror(script.name);
        return FAILED;
    }
    struct card_answer answer = card_run(script.bytes, script.length, output, sizeof output);
    if (fwrite(output, 1, answer.bytes, stdout) != answer.bytes || fflush(stdout) != 0) {
        perror("standard output");
        return FAILED;
    }
    if (answer.code == CARD_DONE)
        return RAN;
    tell_refusal(script.name, answer);
    return REFUSED;
}
