/* Darthog: the run of a whole sheet of calls, on a queue of its own. Link libhost_sheet.a.
 *
 * A line of a sheet has 30 bytes: its letter, four fields of seven columns each, and a line feed.
 * Its history has lines of 37 bytes with five such fields. Nothing is kept between calls, and no
 * call allocates: the stack that a call takes is below 256 KiB.
 *
 * What the host owes: sheet points to sheet_length readable bytes and history to history_length
 * writable ones, neither is null even where its length is 0, the two do not overlap, and no other
 * thread reads or writes these bytes during the call.
 */
#ifndef DARTHOG_SHEET_H
#define DARTHOG_SHEET_H

#include <stddef.h>
#include <stdint.h>

#ifdef __cplusplus
extern "C" {
#endif

/* What a run gives back: 0 and the length of the history in bytes, or the number of the refusal and
 * its line. */
struct darthog_sheet_reply {
    uint32_t number;
    size_t value;
};

/* Numbers of a sheet, in the order in which they are looked for. */
enum {
    DARTHOG_SHEET_RAN = 0,             /* value is the length of the history in bytes */
    DARTHOG_SHEET_OUT_OF_FORM = 41,    /* value is the first line that is out of form, from 1 */
    DARTHOG_SHEET_MISPLACED = 42,      /* value is the line where a Q is missing or one too many */
    DARTHOG_SHEET_BAD_PROCESSORS = 11, /* the Q line's processors not 1 to 16; value is 1 */
    DARTHOG_SHEET_BAD_ENTRIES = 12,    /* the Q line's entries not 1 to 200; value is 1 */
    DARTHOG_SHEET_BAD_LEVELS = 13,     /* the Q line's levels not 1 to 8; value is 1 */
    DARTHOG_SHEET_NO_ROOM = 43         /* the history is longer than its area; value is 0 */
};

/* Runs a sheet and writes its history to the front of the area. The rest of the area stays as it
 * was, and a refused sheet leaves all of it so. */
struct darthog_sheet_reply darthog_run_sheet(const uint8_t *sheet, size_t sheet_length,
                                             uint8_t *history, size_t history_length);

#ifdef __cplusplus
}
#endif

#endif
