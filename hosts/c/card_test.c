/* Checks the export from the host's side: results, written bytes, and bytes that must stay as they were. */
#include "card.h"
#include <stdio.h>
#include <stdlib.h>
#include <string.h>

/* The layout that the library and other languages rely on. */
_Static_assert(offsetof(struct card_answer, bytes) == sizeof(size_t), "bytes comes one word in");
_Static_assert(offsetof(struct card_answer, code) == 2 * sizeof(size_t), "code comes two words in");
_Static_assert(sizeof(struct card_answer) == 3 * sizeof(size_t), "three words in all");

#define UNTOUCHED 0xAA

static int failed;

static void report(const char *name, int ok, struct card_answer a) {
    if (ok)
        return;
    printf("FAIL %s: lines=%u bytes=%zu code=%u\n", name, (unsigned)a.lines, a.bytes, a.code);
    failed++;
}

/* The bytes after the output are watched too, as far as a whole line. */
static void expect_bytes(const char *name, const void *script, size_t length, size_t room, const char *want, uint32_t lines, uint8_t code) {
    size_t watched = room + CARD_READ_LINE;
    uint8_t *out = malloc(watched);
    if (out == NULL)
        abort();
    memset(out, UNTOUCHED, watched);
    struct card_answer a = card_run(script, length, out, room);
    size_t n = strlen(want);
    int ok = a.lines == lines && a.code == code && a.bytes == n && n <= room && memcmp(out, want, n) == 0;
    for (size_t i = n; i < watched; i++)
        ok = ok && out[i] == UNTOUCHED;
    report(name, ok, a);
    free(out);
}

static void expect(const char *name, const char *script, size_t room, const char *want, uint32_t lines, uint8_t code) {
    expect_bytes(name, script, strlen(script), room, want, lines, code);
}

/* So many times one line, without byte 0. */
static char *repeated(const char *line, size_t times) {
    size_t n = strlen(line);
    char *text = malloc(n * times + 1);
    if (text == NULL)
        abort();
    for (size_t i = 0; i < times; i++)
        memcpy(text + i * n, line, n);
    text[n * times] = 0;
    return text;
}

static void test_ends(void) {
    expect("sample", "W,1F8,0000BEEF\nR,1F8\nR,1FC\nR,200\n", 256, "R,1F8,0000BEEF\nR,1FC,01000000\n", 3, CARD_OFFSET);
    expect("empty script", "", 256, "", 0, CARD_DONE);
    expect("last line without byte 10", "R,1FC", 256, "R,1FC,01000000\n", 1, CARD_DONE);
    expect("a new card each time", "R,1F8\n", 256, "R,1F8,00000000\n", 1, CARD_DONE);
    expect("ticks", "T,100000,FFFFFF,FF\nR,1FC\n", 256, "R,1FC,01000000\n", 2, CARD_DONE);
    expect("empty line", "\n", 256, "", 0, CARD_FORM);
    expect("lower case", "R,1fc\n", 256, "", 0, CARD_FIELD);
    expect("setting", "W,018,00000500\n", 256, "", 0, CARD_SETTING);
    expect("listen-only mode", "W,010,01000000\n", 256, "", 0, CARD_SETTING);
    expect_bytes("byte 0 in a line", "R,1FC\0\n", 7, 256, "", 0, CARD_FIELD);
}

static void test_room(void) {
    expect("empty script, no output", "", 0, "", 0, CARD_DONE);
    expect("no output", "R,1FC\n", 0, "", 0, CARD_FULL);
    expect("output of 14", "R,1FC\n", 14, "", 0, CARD_FULL);
    expect("output of 15", "R,1FC\n", 15, "R,1FC,01000000\n", 1, CARD_DONE);
    expect("output of 29", "R,1FC\nR,1FC\n", 29, "R,1FC,01000000\n", 1, CARD_FULL);
    expect("output of 30", "R,1FC\nR,1FC\n", 30, "R,1FC,01000000\nR,1FC,01000000\n", 2, CARD_DONE);
    expect("refusal before a full output", "R,200\n", 0, "", 0, CARD_OFFSET);
    expect("ticks and writes need no room", "T,1,000000,00\nW,1F8,00000001\n", 0, "", 2, CARD_DONE);
}

static void test_limits(void) {
    char *reads = repeated("R,1FC\n", 10922);
    char *answers = repeated("R,1FC,01000000\n", 10922);
    expect_bytes("the most that a script writes", reads, strlen(reads), CARD_MAX_OUTPUT, answers, 10922, CARD_DONE);
    answers[4369 * CARD_READ_LINE] = 0;
    expect("4,369 reads fit", reads, 65536, answers, 4369, CARD_FULL);
    char *full = repeated("R,1FC\n", 4370);
    expect("4,370 reads, of which 4,369 fit", full, 65536, answers, 4369, CARD_FULL);
    char *longest = repeated("T,1,000000,00\n\n\n", CARD_MAX_SCRIPT / 16);
    expect("65,536 bytes", longest, 16, "", 1, CARD_FORM);
    char *too_long = repeated("\n", CARD_MAX_SCRIPT + 1);
    expect("65,537 bytes", too_long, 16, "", 0, CARD_LENGTH);
    free(reads);
    free(answers);
    free(full);
    free(longest);
    free(too_long);
}

int main(void) {
    test_ends();
    test_room();
    test_limits();
    if (failed == 0)
        printf("C host: all checks hold\n");
    return failed != 0;
}
