/*
 * Two signs on one supply, updated to their end: with one flash operation at a time, and with both together.
 *
 * It prints lines for each of the two rows. Anything unexpected ends it with status 1.
 */
#include <inttypes.h>
#include <stdio.h>
#include <stdlib.h>
#include <string.h>

#include "yohrundel.h"

enum {
    WORDS = YOHRUNDEL_BANK_WORDS(1, 1, 1),
    SEQUENCE = YOHRUNDEL_SEQUENCE_INDEX(1, 1),
    SIGNS = 2,
    STORE = 2 * SIGNS * WORDS
};

static const yohrundel_geometry GEOMETRY = {1, 1, 1};

/* The list, what stands beside it, and the store with the banks of all signs. */
typedef struct row {
    yohrundel_sign signs[SIGNS];
    yohrundel_queue queue;
    uint32_t last;
    uint32_t store[STORE];
} row;

static void expect(bool held, const char *what)
{
    if (!held) {
        fprintf(stderr, "unexpected: %s\n", what);
        exit(EXIT_FAILURE);
    }
}

/* A reset and a start-up of one sign; gives the bank that runs. */
static uint32_t restart(row *r, yohrundel_sign *s)
{
    const yohrundel_mask none = {{0, 0, 0, 0}};
    const yohrundel_reset_answer reset = yohrundel_reset(
        GEOMETRY, s->device, r->store + s->one, WORDS, r->store + s->two, WORDS, NULL, 0, YOHRUNDEL_POWER_ON, none);
    expect(reset.decline == YOHRUNDEL_ACCEPTED, "the answer to a reset");
    const yohrundel_device_answer started = yohrundel_start_up(GEOMETRY, reset.device);
    expect(started.decline == YOHRUNDEL_ACCEPTED, "the answer to a start-up");
    s->device = started.device;
    return yohrundel_running_bank(s->device);
}

/* Signs that run bank 1, each with its two banks one after the other in the store; gives the actions of all updates. */
static uint32_t begin(row *r, const uint32_t *image)
{
    uint32_t actions = 0;
    memset(r->store, 0xFF, sizeof r->store);
    for (uint32_t i = 0; i < SIGNS; i++) {
        yohrundel_sign *s = &r->signs[i];
        s->device = yohrundel_power_on();
        s->one = 2 * i * WORDS;
        s->two = s->one + WORDS;
        r->store[s->one + SEQUENCE] = 0xFFFE0001;
        expect(restart(r, s) == 1, "the bank that runs before the update");
        const yohrundel_update_start_answer a = yohrundel_update_start(
            GEOMETRY, s->device, r->store + s->one, WORDS, r->store + s->two, WORDS, image, WORDS);
        expect(a.decline == YOHRUNDEL_ACCEPTED, "the answer to an update start");
        s->place = a.place;
        actions += a.total;
    }
    r->queue = yohrundel_fresh_queue();
    r->last = YOHRUNDEL_FRESH_LAST(SIGNS);
    return actions;
}

/* One call; the row gets the queue and the last served of its answer. */
static yohrundel_schedule_answer call(row *r, const uint32_t *image, uint32_t k)
{
    const yohrundel_schedule_answer a =
        yohrundel_schedule(GEOMETRY, k, r->signs, SIGNS, r->queue, r->last, r->store, STORE, image, WORDS, NULL, 0);
    r->queue = a.queue;
    r->last = a.last;
    return a;
}

static uint32_t running(const row *r)
{
    uint32_t count = 0;
    for (int i = 0; i < SIGNS; i++)
        count += (r->signs[i].device.nvmcon & YOHRUNDEL_WR) != 0;
    return count;
}

/* Calls until one is idle. */
static void run(row *r, const uint32_t *image, uint32_t k)
{
    uint32_t calls = 0, waited = 0, events = 0, together = 0;
    for (;;) {
        const yohrundel_schedule_answer a = call(r, image, k);
        expect(a.decline == YOHRUNDEL_ACCEPTED, "the answer to a call");
        if (a.idle)
            break;
        calls++;
        events += a.event;
        waited += r->queue.count > 0;
        if (together < running(r))
            together = running(r);
        expect(running(r) <= k, "more operations than K");
    }
    printf("K %" PRIu32 ": %" PRIu32 " calls, %" PRIu32 " events, at most %" PRIu32 " together, after %" PRIu32 " calls a sign waits\n",
           k, calls, events, together, waited);
}

/* K of 0 is declined, and everything is as it was. */
static void decline(row *r, const uint32_t *image)
{
    static row before;
    before = *r;
    const yohrundel_schedule_answer a = call(r, image, 0);
    expect(!a.idle && a.served == 0 && !a.event && memcmp(&before, r, sizeof before) == 0, "what a declined call leaves");
    printf("K 0: declined by %" PRIu32 "\n", a.decline);
}

int main(void)
{
    static row r;
    uint32_t image[WORDS], updated[WORDS];
    for (uint32_t i = 0; i < WORDS; i++)
        image[i] = 0x02000000 + i;
    memcpy(updated, image, sizeof image);
    memset(updated + SEQUENCE, 0xFF, 4 * sizeof updated[0]);
    updated[SEQUENCE] = 0xFFFD0002;

    for (uint32_t k = 1; k <= 2; k++) {
        printf("%d signs: %" PRIu32 " actions\n", SIGNS, begin(&r, image));
        decline(&r, image);
        run(&r, image, k);
        for (int i = 0; i < SIGNS; i++) {
            expect(memcmp(r.store + r.signs[i].two, updated, sizeof updated) == 0, "the new bank");
            printf("sign %d: bank %" PRIu32 " runs\n", i, restart(&r, &r.signs[i]));
        }
    }
    return EXIT_SUCCESS;
}
