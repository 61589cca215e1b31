/*
 * An update of a small sign whose supply fails inside a flash step, and the same update again to its end.
 *
 * It prints a line for each stage. Anything unexpected ends it with status 1.
 */
#include <inttypes.h>
#include <stdio.h>
#include <stdlib.h>
#include <string.h>

#include "yohrundel.h"

enum {
    WORDS = YOHRUNDEL_BANK_WORDS(1, 1, 1),
    SEQUENCE = YOHRUNDEL_SEQUENCE_INDEX(1, 1),
    /* The place of the step that programs the sequence quad, the last of the update. */
    CUT = 250
};

static const yohrundel_geometry GEOMETRY = {1, 1, 1};

/* The sign: its device and its two banks. */
typedef struct sign {
    yohrundel_device device;
    uint32_t one[WORDS];
    uint32_t two[WORDS];
} sign;

static void expect(bool held, const char *what)
{
    if (!held) {
        fprintf(stderr, "unexpected: %s\n", what);
        exit(EXIT_FAILURE);
    }
}

static void accepted(uint32_t decline, const char *call)
{
    if (decline != YOHRUNDEL_ACCEPTED) {
        fprintf(stderr, "unexpected: %s is declined by %" PRIu32 ": %s\n", call, decline, yohrundel_decline_text(decline));
        exit(EXIT_FAILURE);
    }
}

static void fill(uint32_t *words, uint32_t first)
{
    for (uint32_t i = 0; i < WORDS; i++)
        words[i] = first + i;
}

static void print_sign(const char *stage, const sign *s)
{
    printf("%s: NVMCON %08" PRIX32 ", sequence words %08" PRIX32 " %08" PRIX32 "\n",
           stage, s->device.nvmcon, s->one[SEQUENCE], s->two[SEQUENCE]);
}

static void reset(sign *s, uint32_t kind, yohrundel_mask mask)
{
    const yohrundel_reset_answer a =
        yohrundel_reset(GEOMETRY, s->device, s->one, WORDS, s->two, WORDS, NULL, 0, kind, mask);
    accepted(a.decline, "reset");
    s->device = a.device;
    print_sign("reset", s);
}

static void start_up(sign *s)
{
    const yohrundel_device_answer a = yohrundel_start_up(GEOMETRY, s->device);
    accepted(a.decline, "start-up");
    s->device = a.device;
    printf("start-up: bank %" PRIu32 " runs\n", yohrundel_running_bank(s->device));
}

/* Starts the update; gives its total. */
static uint32_t start_update(const sign *s, const uint32_t *image)
{
    const yohrundel_update_start_answer a =
        yohrundel_update_start(GEOMETRY, s->device, s->one, WORDS, s->two, WORDS, image, WORDS);
    accepted(a.decline, "update start");
    expect(a.place == 0, "the first place");
    printf("update start: %" PRIu32 " actions\n", a.total);
    return a.total;
}

/* Turns from place 0 up to a place, the device by value. */
static void turn_until(sign *s, const uint32_t *image, uint32_t last)
{
    uint32_t place = 0;
    while (place < last) {
        const yohrundel_turn_answer a =
            yohrundel_turn(GEOMETRY, s->device, s->one, WORDS, s->two, WORDS, image, WORDS, NULL, 0, place);
        accepted(a.outcome.decline, "turn");
        expect(!a.outcome.done && a.outcome.place == place + 1, "the next place");
        s->device = a.device;
        place = a.outcome.place;
    }
    print_sign("turns", s);
}

/* Turns from place 0 until done, the device lent; gives the number of events. */
static int turn_until_done(sign *s, const uint32_t *image, uint32_t total)
{
    int events = 0;
    uint32_t place = 0;
    for (;;) {
        const yohrundel_turn_outcome a =
            yohrundel_turn_lent(GEOMETRY, &s->device, s->one, WORDS, s->two, WORDS, image, WORDS, NULL, 0, place);
        accepted(a.decline, "turn with the device lent");
        events += a.event;
        expect(a.done == (place == total), "done at the total and only there");
        expect(a.place == place + !a.done, "the next place");
        if (a.done)
            break;
        place = a.place;
    }
    print_sign("turns", s);
    return events;
}

/* What is declined has a number and changes nothing. */
static void decline_a_short_image(const sign *s, const uint32_t *image)
{
    const yohrundel_update_start_answer a =
        yohrundel_update_start(GEOMETRY, s->device, s->one, WORDS, s->two, WORDS, image, WORDS - 1);
    expect(a.decline == YOHRUNDEL_DECLINE_LENGTH && a.total == 0, "the answer to an image that is too short");
    printf("update start with a short image: declined by %" PRIu32 "\n", a.decline);
}

int main(void)
{
    static sign s;
    static uint32_t old[WORDS];
    static uint32_t image[WORDS];
    const yohrundel_mask none = {{0, 0, 0, 0}};
    /* Of the sequence quad only the low half of the first word gets through. */
    const yohrundel_mask torn = {{0x0000FFFF, 0, 0, 0}};

    fill(s.one, 0x01000000);
    fill(s.two, 0x00000000);
    fill(image, 0x02000000);
    s.one[SEQUENCE] = 0xFFFE0001;
    s.two[SEQUENCE] = 0xFFFF0000;
    memcpy(old, s.one, sizeof old);

    s.device = yohrundel_power_on();
    reset(&s, YOHRUNDEL_POWER_ON, none);
    start_up(&s);
    expect(yohrundel_running_bank(s.device) == 1, "the bank that runs before the update");
    decline_a_short_image(&s, image);

    start_update(&s, image);
    turn_until(&s, image, CUT);
    expect((s.device.nvmcon & YOHRUNDEL_WR) != 0, "no operation runs at the cut");
    reset(&s, YOHRUNDEL_BROWN_OUT, torn);
    start_up(&s);
    expect(yohrundel_running_bank(s.device) == 1, "the bank that runs after the cut");
    expect(memcmp(s.one, old, sizeof old) == 0, "the old bank after the cut");

    const uint32_t total = start_update(&s, image);
    const int events = turn_until_done(&s, image, total);
    reset(&s, YOHRUNDEL_POWER_ON, none);
    start_up(&s);
    expect(yohrundel_running_bank(s.device) == 2, "the bank that runs after the update");

    /* Exactly the image, with the new sequence quad in the place of its last boot quad. */
    memset(image + SEQUENCE, 0xFF, 4 * sizeof image[0]);
    image[SEQUENCE] = 0xFFFD0002;
    expect(memcmp(s.two, image, sizeof image) == 0, "the new bank");
    printf("bank 2 is the image, after %d events\n", events);
    return EXIT_SUCCESS;
}
