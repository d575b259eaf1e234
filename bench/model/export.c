/* The C model behind the call of the host package, so that whatever calls the one can call the other. */
#include "../../hosts/c/card.h"
#include "script.h"

struct card_answer card_run(const uint8_t *script, size_t script_len, uint8_t *out, size_t out_len)
{
    struct run run = run_script(script, script_len, out, out_len);

    return (struct card_answer){(uint32_t)run.lines, run.written, (uint8_t)run.code};
}
