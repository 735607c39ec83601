/* Runs the sheet on standard input, its first 64 KiB, and prints its history, or a refusal's number
 * and line: the program again, by a host in C. The area that is lent for the history has guard bytes
 * on both sides, and what a run may not touch is looked at after it. */
#include <stdio.h>
#include <string.h>
#include "darthog_sheet.h"

enum { LENT = 65536, GUARD = 64, BYTE = 0xa5 };

static uint8_t sheet[LENT];
static uint8_t area[GUARD + LENT + GUARD];

/* Whether the bytes from one place to another are as they were. */
static int untouched(size_t from, size_t to) {
    for (size_t i = from; i < to; i++) {
        if (area[i] != BYTE) return 0;
    }
    return 1;
}

int main(void) {
    size_t length = fread(sheet, 1, LENT, stdin);
    memset(area, BYTE, sizeof area);
    struct darthog_sheet_reply r = darthog_run_sheet(sheet, length, area + GUARD, LENT);
    size_t written = r.number == DARTHOG_SHEET_RAN ? r.value : 0;
    if (written > LENT || !untouched(0, GUARD) || !untouched(GUARD + written, sizeof area)) {
        fputs("a byte was touched that the run does not own\n", stderr);
        return 2;
    }
    if (r.number == DARTHOG_SHEET_RAN) {
        fwrite(area + GUARD, 1, written, stdout);
    } else {
        printf("%u %zu\n", (unsigned)r.number, r.value);
    }
    return 0;
}
