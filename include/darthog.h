/* Darthog: a priority queue of timed withdrawals, advanced one step per call. The host keeps a
 * queue as bytes, its image, and lends them to each call; darthog_image_length tells how many there
 * are, by the queue's sizes, and docs/IMAGE.md has their layout. Link libhost_calls.a.
 *
 * An accepted call leaves the image of the record after the call in place of the bytes; a refused
 * one leaves every byte as it was. Bytes that are no image, of whatever length and whatever they
 * hold, are refused with 21. Nothing is kept between calls but the bytes, and no call allocates:
 * the stack that a call takes is below 64 KiB.
 *
 * Workers take turns. A step that waits (DARTHOG_WAITS) waits for a lock that another processor
 * holds, and tells in first which one that is. Only steps of the holder free the lock, and it may
 * wait for another itself: let the others step before this one steps again. A wait is an accepted
 * call and uses up the clock. A queue takes 999,999 begins and steps, waits included; then each is
 * refused with 31, for good, and nothing can be taken out any more: before that, take out what is
 * left and file it in a new queue. 37 refuses an Insert for now: let the workers step on or take
 * entries out, and try again.
 *
 * What the host owes: image points to length readable bytes (writable ones where the pointer is not
 * const), is not null even where length is 0, and no other thread reads or writes these bytes
 * during the call. darthog_calls says what it asks for its lists, darthog_markers for its area.
 */
#ifndef DARTHOG_H
#define DARTHOG_H

#include <stddef.h>
#include <stdint.h>

#ifdef __cplusplus
extern "C" {
#endif

/* How many bytes the largest image has, that of 16 processors and 200 entries: room for any queue,
 * for hosts without a heap. The calls take the bytes of an image alone, and so its own length. */
#define DARTHOG_MAX_IMAGE_LENGTH 8705

/* What a call gives back: a code, and the values that belong to it. A value that a code has not is
 * 0; a refusal has three zeros. */
struct darthog_reply {
    uint32_t code;
    uint32_t first;
    uint32_t second;
    uint32_t third;
};

/* Codes of accepted calls. */
enum {
    DARTHOG_ACCEPTED = 0,   /* first is a begin's time, the count of Backlog or of markers, or a due
                               minute */
    DARTHOG_MOVED = 1,      /* of a step, as those below */
    DARTHOG_WAITS = 2,      /* first is the processor that holds the lock: let the others step
                               first */
    DARTHOG_EMPTY = 3,
    DARTHOG_MARKED = 4,     /* first is due, second item, third ticket */
    DARTHOG_INSERTED = 5,   /* the same */
    DARTHOG_HANDED_OUT = 6, /* the same */
    DARTHOG_TAKEN_BACK = 7, /* the same */
    DARTHOG_NOT_THERE = 8   /* first is due, second ticket: those that the Remove looked for */
};

/* Codes of refusals, in the order in which they are looked for. */
enum {
    DARTHOG_BAD_PROCESSORS = 11, /* making: processors not 1 to 16 */
    DARTHOG_BAD_ENTRIES = 12,    /* making: entries not 1 to 200 */
    DARTHOG_BAD_LEVELS = 13,     /* making: levels not 1 to 8 */
    DARTHOG_BAD_RECORD = 21,     /* every call: no image, or a record whose numbers are out of
                                    range; making: length is not the image's for these sizes */
    DARTHOG_CLOCK_ENDED = 31,    /* begin and step: the clock is 999,999, its end */
    DARTHOG_NO_PROCESSOR = 32,   /* begin and step: the queue has no such processor */
    DARTHOG_BUSY = 33,           /* begin: the processor is busy */
    DARTHOG_IDLE = 34,           /* step: the processor is idle */
    DARTHOG_TOO_LARGE = 35,      /* Insert: due or item above 999,999; due: above 59,999,969 s */
    DARTHOG_BAD_KEY = 38,        /* Remove: due above 999,999 or ticket not 1 to 999,999 */
    DARTHOG_NO_ITEM = 39,        /* Insert: item 0, which is no item */
    DARTHOG_BAD_HEIGHT = 36,     /* Insert: height not 1 to the queue's levels */
    DARTHOG_NO_NODE = 37,        /* Insert: no node that may be used now; later there may be one */
    DARTHOG_AREA_TOO_SHORT = 43  /* markers: fewer than two bytes for each node in use */
};

/* What markers have in the place of a processor for a node that nobody has marked. */
enum {
    DARTHOG_NO_MARKER = 255
};

/* Kinds of calls in a list; every kind but the begins, 1, 2, 4 and 5, is a step. */
enum {
    DARTHOG_CALL_INSERT = 1,
    DARTHOG_CALL_DELETE_MIN = 2,
    DARTHOG_CALL_STEP = 3,
    DARTHOG_CALL_RELAXED = 4,
    DARTHOG_CALL_REMOVE = 5
};

/* The length of an image for processors (1 to 16) and entries (1 to 200); 0 for other sizes, which
 * no queue has. */
size_t darthog_image_length(uint32_t processors, uint32_t entries);

/* Makes a queue in these bytes, whatever they held: for processors (1 to 16), entries (1 to 200)
 * and levels (1 to 8). 0, or 11, 12, 13, or 21 where length is not the one for these sizes. */
uint32_t darthog_make(uint8_t *image, size_t length, uint32_t processors, uint32_t entries,
                      uint32_t levels);

/* Begins an Insert by a processor: due at most 999,999, item 1 to 999,999, height 1 to the queue's
 * levels. */
struct darthog_reply darthog_begin_insert(uint8_t *image, size_t length, uint32_t processor,
                                          uint32_t due, uint32_t item, uint32_t height);

/* Begins a Delete_Min by a processor. */
struct darthog_reply darthog_begin_delete_min(uint8_t *image, size_t length, uint32_t processor);

/* Begins a Relaxed Delete_Min by a processor, for a worker that may take an entry early, as one
 * that warms a cache. Unlike an ordinary one it also takes entries whose Insert has not answered or
 * answered after this begin. Nothing that was answered before this begin and is not taken comes
 * before the entry that it takes (DARTHOG_MARKED), and where it takes none (DARTHOG_EMPTY) nothing
 * such was left. Its further steps may wait for the Insert of that entry, and the Insert may answer
 * (DARTHOG_INSERTED) after the hand-out (DARTHOG_HANDED_OUT). Both kinds may be used side by side:
 * neither takes what the other has marked. */
struct darthog_reply darthog_begin_relaxed(uint8_t *image, size_t length, uint32_t processor);

/* Begins a Remove by a processor: the entry with this due minute (at most 999,999) and this ticket
 * (1 to 999,999), which is the time that the begin of its Insert gave back, is to be taken back, as
 * the withdrawal of a studio that renews. A ticket that no entry has is not refused, nor is one
 * above the clock. If the entry's Insert had answered before this begin and nobody has taken it,
 * the Remove takes it (DARTHOG_MARKED), no Delete_Min does any more, and after further steps, which
 * may wait, it is out of the queue (DARTHOG_TAKEN_BACK). Else the Remove ends with
 * DARTHOG_NOT_THERE: there is no such entry, another has taken it, or its Insert had not answered
 * when the Remove began. */
struct darthog_reply darthog_begin_remove(uint8_t *image, size_t length, uint32_t processor,
                                          uint32_t due, uint32_t ticket);

/* The next step of a processor's operation. One that waits tells the holder of the lock in first;
 * in bytes that only these calls have written it is another processor, and a busy one. */
struct darthog_reply darthog_step(uint8_t *image, size_t length, uint32_t processor);

/* Makes the calls of a list, one after the other: the bytes are tested once for all of them, where
 * single calls test them each time. calls has five numbers for each call: kind, processor, due,
 * item, height; a Remove has its ticket in the place of the item, and those that a call has not may
 * hold anything. answers gets five numbers for each:
 * code, first, second and third as in struct darthog_reply, and the clock after the call. A refused
 * call is answered with its number, and the list goes on behind it.
 *
 * The lengths count numbers, not bytes. As many calls are made as both lists have five numbers for;
 * calls behind that are not looked at, and answers behind it stay as they are. 0, or 21 where the
 * bytes are not the image of a record whose numbers are in range: then nothing changes, and nothing
 * is answered.
 *
 * The host owes for calls and answers what it owes for image: pointers that are not null, to so
 * many numbers that no other thread writes, nor reads where they are answers. Neither image nor
 * answers share memory with another of the three. */
uint32_t darthog_calls(uint8_t *image, size_t length, const uint32_t *calls, size_t calls_length,
                       uint32_t *answers, size_t answers_length);

/* Backlog: how many entries are filed and not yet taken. An entry counts from the answer to its
 * Insert (DARTHOG_INSERTED) until a Delete_Min, ordinary or Relaxed, or a Remove marks it
 * (DARTHOG_MARKED); one that is marked before that answer never counts. It keeps its node longer,
 * from the begin of its Insert until it is handed out or taken back, so that a small count does not
 * say that an Insert finds a node: 37 says whether it does. */
struct darthog_reply darthog_backlog(const uint8_t *image, size_t length);

/* Markers: which worker holds which entry that is not handed out or taken back yet. Each node in
 * use has two bytes at the front of area, in the order of the nodes' numbers: its number, 1 to the
 * queue's entries, and the processor whose Delete_Min, ordinary or Relaxed, or Remove has marked
 * its entry (DARTHOG_MARKED), or DARTHOG_NO_MARKER. first is how many nodes these are; behind their
 * bytes the area stays as it was. A node is in use from the begin of its Insert until its entry is
 * handed out or taken back; till then its marker stays, whoever else comes by.
 *
 * Refused with 43 where area_length is less than twice the nodes in use; then nothing is written.
 * Twice the queue's entries are always enough, and 400 for any queue.
 *
 * The host owes for area what it owes for image: a pointer that is not null, to area_length bytes
 * that may be written and that no other thread reads or writes. The two share no memory. */
struct darthog_reply darthog_markers(const uint8_t *image, size_t length, uint8_t *area,
                                     size_t area_length);

/* The due minute of a count of seconds: the minute nearest to it, and for half a minute the even
 * one of its two: 89 seconds are 1, 90 and 150 are 2. Refused with 35 above 59,999,969 seconds. */
struct darthog_reply darthog_due(uint64_t seconds);

#ifdef __cplusplus
}
#endif

#endif
