/*
 * The calls that update.c does not make, each once, on the sign of the play program: two banks of 64 words, all ones but bank 1's
 * sequence word.
 *
 * It prints for each its name and what it gives, as the outside model's cases write it, and then a page sheet, the last records of an
 * update's script and what a script prints.
 * Anything unexpected ends it with status 1.
 */
#include <inttypes.h>
#include <stdio.h>
#include <stdlib.h>
#include <string.h>

#include "yohrundel.h"

enum { WORDS = YOHRUNDEL_BANK_WORDS(1, 1, 1), SEQUENCE = YOHRUNDEL_SEQUENCE_INDEX(1, 1) };

static const yohrundel_geometry GEOMETRY = {1, 1, 1};
static uint32_t one[WORDS];
static uint32_t two[WORDS];

/* NVMADDR 0x1D000080, NVMCON plain 2, set 0x4000, three keys, set 0x8000, then two steps. */
static const uint8_t SCRIPT[] = {
    0, 2, 0, 0, 0x80, 0x00, 0x00, 0x1D,
    0, 0, 0, 0, 0x02, 0x00, 0x00, 0x00,
    0, 0, 2, 0, 0x00, 0x40, 0x00, 0x00,
    0, 1, 0, 0, 0x00, 0x00, 0x00, 0x00,
    0, 1, 0, 0, 0x55, 0x66, 0x99, 0xAA,
    0, 1, 0, 0, 0xAA, 0x99, 0x66, 0x55,
    0, 0, 2, 0, 0x00, 0x80, 0x00, 0x00,
    1, 0, 0, 0, 0x00, 0x00, 0x00, 0x00,
    1, 0, 0, 0, 0x00, 0x00, 0x00, 0x00,
};

static void expect(bool held, const char *what)
{
    if (!held) {
        fprintf(stderr, "unexpected: %s\n", what);
        exit(EXIT_FAILURE);
    }
}

static void print_device(const yohrundel_device *d)
{
    const uint32_t numbers[] = {
        d->nvmcon, d->nvmkey, d->nvmaddr, d->nvmdata[0], d->nvmdata[1], d->nvmdata[2], d->nvmdata[3],
        d->nvmsrcaddr, d->nvmpwp, d->nvmbwp, d->nvmcon2, d->keystep, d->step,
        d->launched.nvmaddr, d->launched.nvmdata[0], d->launched.nvmdata[1], d->launched.nvmdata[2], d->launched.nvmdata[3],
        d->launched.nvmsrcaddr,
    };
    for (size_t i = 0; i < sizeof numbers / sizeof numbers[0]; i++)
        printf(" %" PRIu32, numbers[i]);
}

static void device_calls(yohrundel_device d)
{
    const yohrundel_event_answer stored =
        yohrundel_store(GEOMETRY, d, YOHRUNDEL_NVMADDR, YOHRUNDEL_PLAIN, 0x1D000080);
    printf("store %" PRIu32, stored.decline);
    print_device(&stored.device);
    printf(" %d\n", stored.event);

    const yohrundel_register_read_answer read = yohrundel_register_read(GEOMETRY, stored.device, YOHRUNDEL_NVMADDR);
    printf("register_read %" PRIu32 " %" PRIu32, read.decline, read.value);
    print_device(&read.device);
    printf("\n");
}

/* What a flash read gives, but for the words that it changed. */
static void print_read(const yohrundel_flash_read_answer *read)
{
    printf("flash_read %" PRIu32 " %" PRIu32 " %d", read->decline, read->word, read->event);
    print_device(&read->device);
}

static void reading_calls(yohrundel_device d)
{
    const yohrundel_flash_read_answer read =
        yohrundel_flash_read(GEOMETRY, d, one, WORDS, two, WORDS, NULL, 0, 0x1FC00070);
    print_read(&read);
    printf(" 0\n");

    const yohrundel_lower_bank_answer lower = yohrundel_lower_bank(GEOMETRY, d, one, WORDS, two, WORDS);
    printf("lower_bank %" PRIu32 " %" PRIu32 "\n", lower.decline, lower.bank);
    expect(lower.length == WORDS, "the length of the lower bank");

    const yohrundel_page_answer page = yohrundel_page(GEOMETRY, two, WORDS, 1);
    printf("page %" PRIu32 " %zu %zu\n", page.decline, page.offset, page.length);
}

/* A device as a launched quad program leaves it: the first quad of bank 2's program page is to get 1 to 4. */
static yohrundel_device launched(yohrundel_device d)
{
    d.nvmcon = YOHRUNDEL_WR | YOHRUNDEL_WREN | YOHRUNDEL_WRERR | 2;
    d.nvmaddr = d.launched.nvmaddr = 0x1D000080;
    for (uint32_t i = 0; i < 4; i++)
        d.nvmdata[i] = d.launched.nvmdata[i] = i + 1;
    return d;
}

/* The quad's four words as changes of bank 2; then it is blank again. */
static void print_and_erase_quad(void)
{
    printf(" 4");
    for (int i = 32; i < 36; i++) {
        printf(" 2 %d %" PRIu32, i, two[i]);
        two[i] = UINT32_MAX;
    }
    printf("\n");
}

/* The next target is loaded while the program runs, and the step still writes the quad that was launched. */
static void step_call(yohrundel_device d)
{
    const yohrundel_event_answer loaded =
        yohrundel_store(GEOMETRY, launched(d), YOHRUNDEL_NVMADDR, YOHRUNDEL_PLAIN, 0x1D000090);
    printf("store %" PRIu32, loaded.decline);
    print_device(&loaded.device);
    printf(" %d\n", loaded.event);

    const yohrundel_event_answer stepped = yohrundel_step(GEOMETRY, loaded.device, one, WORDS, two, WORDS, NULL, 0);
    printf("step %" PRIu32, stepped.decline);
    print_device(&stepped.device);
    printf(" %d", stepped.event);
    print_and_erase_quad();
}

/* A read of the bank that the program works on waits for its step, and gives the word just programmed. */
static void waiting_call(yohrundel_device d)
{
    const yohrundel_flash_read_answer read =
        yohrundel_flash_read(GEOMETRY, launched(d), one, WORDS, two, WORDS, NULL, 0, 0x1D000088);
    print_read(&read);
    print_and_erase_quad();
}

/* The bank that goes lower, and why. */
static void compare_call(void)
{
    const yohrundel_compare_answer compared = yohrundel_compare(0xFFFE0001, 0xFFFFFFFF);
    printf("compare_reason %" PRIu32 " %" PRIu32 "\n", compared.bank, compared.reason);
}

/* A window on Tuesday, and one from Sunday on past the end of the week, which is over at minute 240. */
static void plan_call(void)
{
    static const yohrundel_window windows[] = {{1500, 240}, {9960, 360}};
    const yohrundel_plan_answer planned = yohrundel_plan(200, 60, windows, sizeof windows / sizeof windows[0]);
    printf("plan %" PRIu32 " %" PRIu32 "\n", planned.decline, planned.wait);

    /* No windows, more than 14, and so many that twice their count wraps to the two numbers of one window. */
    const size_t counts[] = {0, 15, SIZE_MAX / 2 + 2, SIZE_MAX};
    for (size_t i = 0; i < sizeof counts / sizeof counts[0]; i++)
        expect(yohrundel_plan(200, 60, counts[i] ? windows : NULL, counts[i]).decline == YOHRUNDEL_DECLINE_HOURS, "a count of windows");
}

static void sheet_call(yohrundel_device d)
{
    uint8_t sheet[YOHRUNDEL_SHEET_BYTES(1, 1)];
    const yohrundel_page_sheet_answer written =
        yohrundel_page_sheet(GEOMETRY, d, one, WORDS, two, WORDS, sheet, sizeof sheet);
    expect(written.decline == YOHRUNDEL_ACCEPTED && written.bytes == sizeof sheet, "the answer to a sheet");
    fwrite(sheet, 1, sizeof sheet, stdout);
}

/* Two words in byte lanes and back. */
static void lanes_calls(void)
{
    const uint8_t image[8] = {1, 2, 3, 4, 5, 6, 7, 8};
    uint8_t stored[8] = {0}, restored[8] = {0};
    printf("lanes_out %" PRIu32 " 8", yohrundel_lanes_out(image, 8, stored, 8));
    for (int i = 0; i < 8; i++)
        printf(" %d %d", i, stored[i]);
    printf("\n");
    expect(yohrundel_lanes_back(stored, 8, restored, 8) == YOHRUNDEL_ACCEPTED, "the answer to the way back");
    expect(memcmp(restored, image, sizeof image) == 0, "the image after the way back");
}

/* A number that the kind of the answer does not use is 0. */
static void check_unused(const yohrundel_reach_answer *r)
{
    expect(r->kind == YOHRUNDEL_REACH_ACTION || r->place == 0, "a place that is not used");
    expect(r->kind == YOHRUNDEL_REACH_WORDS || (r->count == 0 && r->lowest == 0 && r->highest == 0), "words that are not used");
}

static void print_reach(const yohrundel_reach_answer *r)
{
    check_unused(r);
    printf("reach %" PRIu32 " %" PRIu32, r->decline, r->kind);
    if (r->kind == YOHRUNDEL_REACH_ACTION)
        printf(" %" PRIu32, r->place);
    if (r->kind == YOHRUNDEL_REACH_WORDS)
        printf(" %" PRIu32 " %" PRIu32 " %" PRIu32, r->count, r->lowest, r->highest);
    printf("\n");
}

/* An image beside one with another first word of the program page, then of the sequence quad too, then of that alone. */
static void reach_calls(void)
{
    const uint32_t image[WORDS] = {0};
    uint32_t other[WORDS] = {0};
    other[32] = 1;
    yohrundel_reach_answer reach = yohrundel_reach(GEOMETRY, image, WORDS, other, WORDS);
    print_reach(&reach);
    other[SEQUENCE] = 1;
    reach = yohrundel_reach(GEOMETRY, image, WORDS, other, WORDS);
    print_reach(&reach);
    other[32] = 0;
    reach = yohrundel_reach(GEOMETRY, image, WORDS, other, WORDS);
    print_reach(&reach);

    reach = yohrundel_reach(GEOMETRY, image, WORDS, other, WORDS - 1);
    expect(reach.decline == YOHRUNDEL_DECLINE_LENGTH && reach.kind == YOHRUNDEL_REACH_NOT_COMPARED, "a declined comparison");
    check_unused(&reach);
}

/* An update written as a script, of which the records of the sequence quad are printed; then its play, on copies of the banks. */
static void write_script_call(yohrundel_device d)
{
    static uint8_t script[YOHRUNDEL_SCRIPT_BYTES(1, 1, 1)];
    uint32_t image[WORDS], first[WORDS], second[WORDS];
    for (uint32_t i = 0; i < WORDS; i++)
        image[i] = 0x02000000 + i;
    const yohrundel_write_script_answer written =
        yohrundel_write_script(GEOMETRY, d, one, WORDS, two, WORDS, image, WORDS, script, sizeof script);
    printf("write_script %" PRIu32 " %" PRIu32 "\n", written.decline, written.records);
    for (size_t i = sizeof script - 8 * 13; i < sizeof script; i++)
        printf("%02X%c", script[i], i % 8 == 7 ? '\n' : ' ');
    expect(yohrundel_write_script(GEOMETRY, d, one, WORDS, two, WORDS, image, WORDS, script, sizeof script - 1).decline
        == YOHRUNDEL_DECLINE_SCRIPT_BUFFER, "a buffer that is too short");

    memcpy(first, one, sizeof one);
    memcpy(second, two, sizeof two);
    const yohrundel_play_answer played =
        yohrundel_play(GEOMETRY, d, first, WORDS, second, WORDS, NULL, 0, script, sizeof script, NULL, 0);
    expect(played.decline == YOHRUNDEL_ACCEPTED && memcmp(first, one, sizeof one) == 0, "the play of an update");
    image[SEQUENCE] = 0xFFFD0002;
    for (int i = 1; i < 4; i++)
        image[SEQUENCE + i] = UINT32_MAX;
    expect(memcmp(second, image, sizeof image) == 0, "the new bank after the play");
}

/* Of the script, whose last step is declined by 6, that step is enough; no record is declined by 7. Scratch banks hold the banks' words. */
static void smallest_calls(yohrundel_device d)
{
    uint32_t first[WORDS], second[WORDS];
    uint8_t result[sizeof SCRIPT] = {0};
    static const uint8_t zeros[sizeof SCRIPT - 8];
    memcpy(first, one, sizeof one);
    memcpy(second, two, sizeof two);
    yohrundel_smallest_answer smallest = yohrundel_smallest(
        GEOMETRY, d, one, WORDS, two, WORDS, NULL, 0, first, WORDS, second, WORDS, SCRIPT, sizeof SCRIPT, 6, result, sizeof result);
    expect(memcmp(result, SCRIPT + 64, 8) == 0 && memcmp(result + 8, zeros, sizeof zeros) == 0, "the record that is left");
    printf("smallest %" PRIu32 " %" PRIu32 " 1 0 %d 0\n", smallest.decline, smallest.records, result[0]);

    memset(first, 0, sizeof first);
    memset(second, 0, sizeof second);
    smallest = yohrundel_smallest(
        GEOMETRY, d, one, WORDS, two, WORDS, NULL, 0, first, WORDS, second, WORDS, SCRIPT, sizeof SCRIPT, 7, result, sizeof result);
    expect(smallest.decline == YOHRUNDEL_DECLINE_NOT_SHOWN && smallest.records == 0 && result[0] == 1, "a number that is not shown");
    expect(memcmp(first, one, sizeof one) == 0 && memcmp(second, two, sizeof two) == 0, "the scratch banks afterwards");
}

/* A reset of a kind that there is not is declined, and has compared nothing. */
static void declined_call(yohrundel_device d)
{
    const yohrundel_mask none = {{0, 0, 0, 0}};
    const yohrundel_reset_answer refused = yohrundel_reset(GEOMETRY, d, one, WORDS, two, WORDS, NULL, 0, 3, none);
    expect(refused.reason == YOHRUNDEL_REASON_NOT_COMPARED, "the reason of a declined reset");
    printf("reset %" PRIu32 "\n", refused.decline);
    printf("decline_text %s\n", yohrundel_decline_text(refused.decline));
}

/* The bank that runs: after power-on, with BFSWAP alone, and after the start-up, which then sets PFSWAP. */
static void running_bank_calls(yohrundel_device d)
{
    printf("running_bank %" PRIu32 "\n", yohrundel_running_bank(d));
    d.nvmcon |= YOHRUNDEL_BFSWAP;
    printf("running_bank %" PRIu32 "\n", yohrundel_running_bank(d));
    printf("running_bank %" PRIu32 "\n", yohrundel_running_bank(yohrundel_start_up(GEOMETRY, d).device));
}

static void script_calls(yohrundel_device d)
{
    const yohrundel_play_length_answer length =
        yohrundel_play_length(GEOMETRY, d, one, WORDS, two, WORDS, NULL, 0, SCRIPT, sizeof SCRIPT);
    expect(length.decline == YOHRUNDEL_ACCEPTED, "the answer to a length");
    uint8_t *out = malloc(length.bytes);
    expect(out != NULL, "no memory");
    const yohrundel_play_answer played =
        yohrundel_play(GEOMETRY, d, one, WORDS, two, WORDS, NULL, 0, SCRIPT, sizeof SCRIPT, out, length.bytes);
    expect(played.decline == YOHRUNDEL_ACCEPTED && played.bytes == length.bytes, "the answer to a play");
    fwrite(out, 1, length.bytes, stdout);
    free(out);
    expect(played.device.nvmaddr == 0x1D000080 && two[32] == 0, "what the script did");
}

int main(void)
{
    const yohrundel_device d = yohrundel_power_on();
    memset(one, 0xFF, sizeof one);
    memset(two, 0xFF, sizeof two);
    one[SEQUENCE] = 0xFFFE0001;
    device_calls(d);
    reading_calls(d);
    step_call(d);
    waiting_call(d);
    plan_call();
    compare_call();
    lanes_calls();
    reach_calls();
    smallest_calls(d);
    declined_call(d);
    running_bank_calls(d);
    sheet_call(d);
    write_script_call(d);
    script_calls(d);
    return EXIT_SUCCESS;
}
