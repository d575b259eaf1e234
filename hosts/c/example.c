/* A host program: runs the script in a file on a new card, and prints what it writes. */
#include "card.h"
#include <stdio.h>

static uint8_t script[CARD_MAX_SCRIPT + 1];
static uint8_t output[CARD_MAX_SCRIPT];

int main(int argc, char **argv) {
    FILE *file = argc > 1 ? fopen(argv[1], "rb") : stdin;
    if (file == NULL) {
        perror(argv[1]);
        return 1;
    }
    size_t length = fread(script, 1, sizeof script, file);
    struct card_answer answer = card_run(script, length, output, sizeof output);
    fwrite(output, 1, answer.bytes, stdout);
    if (answer.code != CARD_DONE)
        printf("stopped after %u lines with code %u\n", (unsigned)answer.lines, answer.code);
    return 0;
}
