/* Workers of one process share a queue: they file withdrawals, then take them until the queue is
 * empty. Each gets one step at a time, in turn: while they file, the calls of a round are one list,
 * and while they take, each is a call of its own.
 *
 * One more worker warms a cache: while the others file, it takes one withdrawal by a Relaxed
 * Delete_Min, which need not wait until the filing of it is answered. Before the others take, a
 * studio renews, and the same worker takes its withdrawal back by a Remove.
 *
 * Which entry a Delete_Min takes is decided when it marks it; unlinking it takes one worker more
 * steps than another. So each withdrawal gets its turn when it is marked, and is printed once it
 * and all before it were handed out. When every worker has marked one, the queue is asked which
 * worker holds which: these are not delivered yet. A worker that comes to a held lock says for whom
 * it waits. */
#include <inttypes.h>
#include <stdio.h>
#include <stdlib.h>
#include <string.h>

#include "darthog.h"

enum { WORKERS = 4, WARMER = WORKERS, PROCESSORS, ENTRIES = 12, LEVELS = 4 };

/* What is filed: in how many seconds it is due, and its item. */
static const struct { uint64_t seconds; uint32_t item; } withdrawals[ENTRIES] = {
    {5400, 101}, {60, 102}, {3599, 103}, {86400, 104}, {59, 105},   {7200, 106},
    {125, 107},  {3600, 108}, {60, 109}, {600, 110},  {43200, 111}, {59999969, 112},
};

/* A worker: whether it is in an operation, whether it found the queue empty, and the turn of the
 * entry that it marked. */
struct worker {
    int busy;
    int ended;
    int turn;
};

/* An entry that was marked: by whom, and whether it was handed out yet. */
struct taken {
    struct darthog_reply entry;
    uint32_t worker;
    int out;
};

static uint8_t *queue;
static size_t length;
static struct taken taken[ENTRIES];

/* How many the cache's worker takes, how many are taken back, and how many are left to the rest. */
enum { WARMED = 1, RENEWED = 1, LEFT = ENTRIES - WARMED - RENEWED };

/* The item of the studio that renews, and what its filing answered: due, item and ticket. */
enum { RENEWED_ITEM = 111 };
static uint32_t renewed[3];

/* Of each worker, one more than the worker that it waits for; 0 while it waits for none. */
static uint32_t waits_for[PROCESSORS];

static void stop(const char *call, uint32_t code) {
    fprintf(stderr, "%s gave back %" PRIu32 "\n", call, code);
    exit(1);
}

/* The value of a call that must be accepted. */
static uint32_t value(const char *call, struct darthog_reply reply) {
    if (reply.code != DARTHOG_ACCEPTED) stop(call, reply.code);
    return reply.first;
}

/* Notes the code and the first value of a worker's call, and prints for whom it waits when it
 * begins to: as long as the same worker holds the lock, further waits print nothing. */
static void note_wait(uint32_t w, uint32_t code, uint32_t first) {
    uint32_t holder = code == DARTHOG_WAITS ? first + 1 : 0;
    if (holder != 0 && holder != waits_for[w]) {
        if (first >= PROCESSORS || first == w) stop("no other worker's lock: a wait", first);
        printf("worker %" PRIu32 " waits for worker %" PRIu32 "\n", w, first);
    }
    waits_for[w] = holder;
}

static uint32_t backlog(void) {
    return value("backlog", darthog_backlog(queue, length));
}

/* Every second entry is linked on a second level, every fourth on a third, and so on. */
static uint32_t height_of(int number) {
    uint32_t height = 1;
    for (int n = number + 1; n % 2 == 0 && height < LEVELS; n /= 2) height++;
    return height;
}

/* Numbers of a call in a list, and of an answer. */
enum { NUMBERS = 5 };

/* The begin of the Insert of a withdrawal, in the numbers of a list. */
static void put_insert(uint32_t *call, uint32_t w, int number) {
    call[0] = DARTHOG_CALL_INSERT;
    call[1] = w;
    call[2] = value("due", darthog_due(withdrawals[number].seconds));
    call[3] = withdrawals[number].item;
    call[4] = height_of(number);
}

/* A step, whose further numbers are not looked at. */
static void put_step(uint32_t *call, uint32_t w) {
    call[0] = DARTHOG_CALL_STEP;
    call[1] = w;
}

/* The calls of a round: a step of each worker that is busy, and the next begin of each that is not,
 * as long as there is one. Gives how many numbers they are. */
static size_t ask(uint32_t *calls, const int *busy, int *begun) {
    size_t numbers = 0;
    for (uint32_t w = 0; w < WORKERS; w++) {
        if (busy[w]) {
            put_step(calls + numbers, w);
        } else if (*begun < ENTRIES) {
            put_insert(calls + numbers, w, (*begun)++);
        } else {
            continue;
        }
        numbers += NUMBERS;
    }
    return numbers;
}

/* One call of the cache's worker: a step, or the begin of a Relaxed Delete_Min. Gives 1 once it has
 * its withdrawal; where it finds none it begins again. */
static int warm(int *busy) {
    if (!*busy) {
        value("begin_relaxed", darthog_begin_relaxed(queue, length, WARMER));
        *busy = 1;
        return 0;
    }
    struct darthog_reply r = darthog_step(queue, length, WARMER);
    note_wait(WARMER, r.code, r.first);
    if (r.code == DARTHOG_MARKED) printf("the cache takes item %" PRIu32 "\n", r.second);
    if (r.code == DARTHOG_EMPTY) *busy = 0;
    if (r.code > DARTHOG_HANDED_OUT) stop("step", r.code);
    return r.code == DARTHOG_HANDED_OUT;
}

/* Each worker files the next withdrawal, until all are filed and the cache has its own. */
static void file_all(void) {
    int busy[WORKERS] = {0};
    int begun = 0, filed = 0, warming = 0, warmed = 0;
    while (filed < ENTRIES || !warmed) {
        uint32_t calls[WORKERS * NUMBERS] = {0}, answers[WORKERS * NUMBERS];
        size_t numbers = ask(calls, busy, &begun);
        uint32_t code = darthog_calls(queue, length, calls, numbers, answers, numbers);
        if (code != DARTHOG_ACCEPTED) stop("calls", code);
        for (size_t at = 0; at < numbers; at += NUMBERS) {
            int inserted = answers[at] == DARTHOG_INSERTED;
            if (!inserted && answers[at] > DARTHOG_WAITS) stop("a call of a list", answers[at]);
            note_wait(calls[at + 1], answers[at], answers[at + 1]);
            busy[calls[at + 1]] = !inserted;
            filed += inserted;
            if (inserted && answers[at + 2] == RENEWED_ITEM)
                memcpy(renewed, answers + at + 1, sizeof renewed);
        }
        if (!warmed) warmed = warm(&warming);
    }
}

/* A studio renews: the worker of the cache, which is idle now, takes its withdrawal back. An entry
 * is named by its due minute and its ticket. */
static void renew(void) {
    struct darthog_reply r = darthog_begin_remove(queue, length, WARMER, renewed[0], renewed[2]);
    value("begin_remove", r);
    do {
        r = darthog_step(queue, length, WARMER);
    } while (r.code == DARTHOG_MOVED || r.code == DARTHOG_WAITS || r.code == DARTHOG_MARKED);
    if (r.code != DARTHOG_TAKEN_BACK) stop("step of a Remove", r.code);
    printf("item %" PRIu32 ", due in minute %" PRIu32 ", is taken back\n", r.second, r.first);
}

/* One call of a worker that takes entries. */
static void work(struct worker *worker, uint32_t w, int *marked) {
    if (!worker->busy) {
        value("begin_delete_min", darthog_begin_delete_min(queue, length, w));
        worker->busy = 1;
        return;
    }
    struct darthog_reply r = darthog_step(queue, length, w);
    note_wait(w, r.code, r.first);
    switch (r.code) {
    case DARTHOG_MOVED:
    case DARTHOG_WAITS:
        break;
    case DARTHOG_EMPTY:
        worker->busy = 0;
        worker->ended = 1;
        break;
    case DARTHOG_MARKED:
        if (*marked == LEFT) stop("one mark too many: step", r.code);
        worker->turn = (*marked)++;
        taken[worker->turn].entry = r;
        taken[worker->turn].worker = w;
        break;
    case DARTHOG_HANDED_OUT:
        worker->busy = 0;
        taken[worker->turn].out = 1;
        break;
    default:
        stop("step", r.code);
    }
}

/* Prints the withdrawals whose turn has come; gives the next turn. */
static int print_from(int turn) {
    while (turn < LEFT && taken[turn].out) {
        const struct darthog_reply *e = &taken[turn].entry;
        printf("%7" PRIu32 "%7" PRIu32 "%7" PRIu32 "%7" PRIu32 "\n", e->first, e->second, e->third,
               taken[turn].worker);
        if (turn > 0 && taken[turn - 1].entry.first > e->first) {
            fprintf(stderr, "not in order of due minutes\n");
            exit(1);
        }
        turn++;
    }
    return turn;
}

/* Prints which worker holds an entry that it has not delivered yet, by the markers of the nodes,
 * and how many nodes nobody holds. */
static void print_holders(const struct worker *workers) {
    uint8_t area[2 * ENTRIES];
    uint32_t nodes = value("markers", darthog_markers(queue, length, area, sizeof area));
    uint32_t unheld = 0;
    for (const uint8_t *node = area; node < area + 2 * nodes; node += 2) {
        if (node[1] == DARTHOG_NO_MARKER) {
            unheld++;
        } else if (node[1] < WORKERS) {
            uint32_t item = taken[workers[node[1]].turn].entry.second;
            printf("worker %d holds item %" PRIu32 ", in node %d\n", node[1], item, node[0]);
        } else {
            stop("no worker's marker: markers", node[1]);
        }
    }
    printf("%" PRIu32 " more are not taken\n", unheld);
}

static void take_all(void) {
    struct worker workers[WORKERS] = {0};
    int marked = 0, turn = 0, ended = 0, asked = 0;
    while (ended < WORKERS) {
        ended = 0;
        for (uint32_t w = 0; w < WORKERS; w++) {
            if (!workers[w].ended) work(&workers[w], w, &marked);
            ended += workers[w].ended;
        }
        if (!asked && marked == WORKERS) {
            print_holders(workers);
            printf("%7s%7s%7s%7s\n", "due", "item", "ticket", "worker");
            asked = 1;
        }
        turn = print_from(turn);
    }
    if (turn != LEFT) {
        fprintf(stderr, "%d of %d handed out\n", turn, LEFT);
        exit(1);
    }
}

int main(void) {
    length = darthog_image_length(PROCESSORS, ENTRIES);
    queue = malloc(length);
    if (queue == NULL) stop("malloc", 0);
    uint32_t code = darthog_make(queue, length, PROCESSORS, ENTRIES, LEVELS);
    if (code != DARTHOG_ACCEPTED) stop("make", code);
    file_all();
    printf("backlog %" PRIu32 "\n", backlog());
    renew();
    printf("backlog %" PRIu32 "\n", backlog());
    take_all();
    printf("backlog %" PRIu32 "\n", backlog());
    free(queue);
    return 0;
}
