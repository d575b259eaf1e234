/* Reads a script from standard input, runs it on the model and prints what it wrote. */
#include "script.h"

#include <stdio.h>

int main(void)
{
    static uint8_t script[SCRIPT_LIMIT + 1]; /* one byte more than fits tells that it is too long */
    static uint8_t output[SCRIPT_LIMIT];
    char refusal[REFUSAL_LINE_LIMIT];

    size_t length = fread(script, 1, sizeof script, stdin);
    struct run run = run_script(script, length, output, sizeof output);
    size_t refused = refusal_line(run, refusal);

    fwrite(output, 1, run.written, stdout);
    fwrite(refusal, 1, refused, stdout);
    return 0;
}
