/*
 * Yohrundel: the Live Update flash controller and its bank updater, for programs in C and C++.
 *
 * Link libyohrundel.a, which `make archive` writes to target/ for x86-64.
 * "The paper" is document 01, Live Update flash: controller and bank updater.
 *
 * A call keeps nothing from one call to the next and allocates nothing: all that it works on is handed over by value or lent. Calls on
 * different memory may run at the same time.
 *
 * Mistakes that a call answers
 *
 *   Every number, every length and every content of the lent memory is taken. A call does its work, or declines it by a number of
 *   enum yohrundel_decline, the lowest that applies. A declined call changes nothing: the device in its answer is the one handed over,
 *   the banks, the store and the list of signs, the buffer and the target keep their contents. There is one exception: where
 *   yohrundel_smallest is declined by 21, its scratch banks hold what the banks hold.
 *
 * Mistakes that no call can see
 *
 *   - a pointer that does not point to as many words, bytes, windows or signs as the count beside it says, or is not aligned for them;
 *     a null pointer goes with the count 0 only, and the device of yohrundel_turn_lent is never null;
 *   - lent memory that overlaps other lent memory where one of the two is written: the two banks, the device of yohrundel_turn_lent,
 *     the buffers of yohrundel_play, yohrundel_page_sheet and yohrundel_write_script, the scratch banks and the result of
 *     yohrundel_smallest, the list of signs and the store of yohrundel_schedule and the target of byte lanes are; where both are only
 *     read, as the two banks of yohrundel_smallest, they may overlap; that banks overlap inside the store yohrundel_schedule sees;
 *   - lent memory that another thread changes during the call.
 *
 * Sizes
 *
 *   A sign has two banks of N = B + P pages each, B boot pages and then P program pages. A page has 32×Q words of 32 bits, so a bank,
 *   and an image, has N×32×Q words. The SRAM has at most 16,384 words and may have none.
 *
 * Device records that were stored before
 *
 *   The device record has a last member, launched, that it did not have: what the running operation was launched with. A record stored
 *   without it gets it from its registers: where WR is 1 launched is nvmaddr, nvmdata and nvmsrcaddr as they stand, else six zeros.
 */
#ifndef YOHRUNDEL_H
#define YOHRUNDEL_H

#include <stdbool.h>
#include <stddef.h>
#include <stdint.h>

#ifdef __cplusplus
extern "C" {
#endif

/* CHANGELOG.md says what changed since the version before. */
#define YOHRUNDEL_VERSION "0.2.0"

/* Words of a page, of a bank or image, and of the longest SRAM. */
#define YOHRUNDEL_PAGE_WORDS(q) (32 * (q))
#define YOHRUNDEL_BANK_WORDS(q, b, p) (((b) + (p)) * YOHRUNDEL_PAGE_WORDS(q))
#define YOHRUNDEL_MOST_SRAM_WORDS 16384

/* Bytes of a page sheet. */
#define YOHRUNDEL_SHEET_BYTES(b, p) (34 * ((b) + (p)))

/* Bytes of the script that an update is written as: 8 for each of its actions. */
#define YOHRUNDEL_SCRIPT_BYTES(q, b, p) (8 * (12 + 8 * ((b) + (p)) + 112 * ((b) + (p)) * (q)))

/* The most records of a script of which yohrundel_smallest finds the smallest that shows a number. */
#define YOHRUNDEL_MOST_RECORDS 64

/* The most signs of a row, and the most flash operations that its supply may bear together. */
#define YOHRUNDEL_MOST_SIGNS 32

/* The most windows of a plan. */
#define YOHRUNDEL_MOST_WINDOWS 14

/*
 * The index in a bank of its sequence word: word 0 of the last quad of the last boot page. Its low 16 bits are T, its high 16 bits C;
 * it is valid when C is the bitwise complement of T. A reset puts the bank with the higher valid T on the lower boot alias; bank 1 where
 * both are equal or none is valid.
 */
#define YOHRUNDEL_SEQUENCE_INDEX(q, b) ((b) * YOHRUNDEL_PAGE_WORDS(q) - 4)

/* What a call answers: 0, or why it is declined. */
enum yohrundel_decline {
    /* Not declined: the work is done. */
    YOHRUNDEL_ACCEPTED = 0,
    /* Q, B or P is outside its list or range. */
    YOHRUNDEL_DECLINE_GEOMETRY = 1,
    /* A bank or image has another length than N×32×Q words, a result another length than its script, or the SRAM exceeds 16,384. */
    YOHRUNDEL_DECLINE_LENGTH = 2,
    /*
     * The device record is impossible: an unimplemented bit set, NVMBWP bit 6 clear, NVMKEY not 0, key step above 3, WR = 0 with step
     * number or any of launched not 0, or WR = 1 with key step not 0, WRERR = 0, LVDERR = 1, an NVMOP or launched target for which no
     * steps begin, or step number not below its length.
     */
    YOHRUNDEL_DECLINE_DEVICE = 3,
    /* A register number above 10, a form above 3, or a form other than 0 for NVMKEY. */
    YOHRUNDEL_DECLINE_REGISTER = 4,
    /* With WR = 1: a store to another register than NVMADDR, NVMDATA0 to 3 and NVMSRCADDR, a start-up or an update start. */
    YOHRUNDEL_DECLINE_RUNNING = 5,
    /* A step with WR = 0. */
    YOHRUNDEL_DECLINE_IDLE = 6,
    /* A reset kind above 2. */
    YOHRUNDEL_DECLINE_RESET_KIND = 7,
    /* A flash read outside the four windows or not on a multiple of 4; a page request with a page number of N or more. */
    YOHRUNDEL_DECLINE_ADDRESS = 8,
    /* It was a flash read from a bank that the running operation targets. Such a read now waits, and no call gives the number. */
    YOHRUNDEL_DECLINE_BUSY = 9,
    /*
     * Update start: the lower-alias bank's sequence is invalid, a reset would choose the other bank, PFSWAP differs from BFSWAP, or the
     * other bank's sequence word is invalid with no bit position at 1 in both halves.
     */
    YOHRUNDEL_DECLINE_SEQUENCE = 10,
    /* Update start with T = 65,535. */
    YOHRUNDEL_DECLINE_LAST_SEQUENCE = 11,
    /* Update start with UBWPULOCK = 0 or PWP at least P×128×Q. */
    YOHRUNDEL_DECLINE_PROTECTION = 12,
    /* A turn whose place exceeds the total. */
    YOHRUNDEL_DECLINE_PLACE = 13,
    /*
     * A script whose length isn't a multiple of 8, or a record with an unknown kind, register, form or reset kind or an unused byte
     * not 0.
     */
    YOHRUNDEL_DECLINE_SCRIPT = 14,
    /* A plan's present minute, duration, count of windows, or a window's start or length is out of range. */
    YOHRUNDEL_DECLINE_HOURS = 15,
    /* A plan that no wait fits. */
    YOHRUNDEL_DECLINE_NO_WAIT = 16,
    /* A buffer that is shorter than the script of an update, 8 bytes for each of its actions. */
    YOHRUNDEL_DECLINE_SCRIPT_BUFFER = 17,
    /* A buffer that is shorter than the page sheet. */
    YOHRUNDEL_DECLINE_SHEET_BUFFER = 18,
    /*
     * A row's list length, K or last served out of range, a queue that repeats a record or oversteps the list, or overlapping or
     * overhanging banks.
     */
    YOHRUNDEL_DECLINE_ROW = 19,
    /* A script of more than 64 records, of which the smallest that shows a number is asked. */
    YOHRUNDEL_DECLINE_RECORDS = 20,
    /* A script of which the smallest that shows a number is asked, and whose play never gives the number. */
    YOHRUNDEL_DECLINE_NOT_SHOWN = 21,
    /* Byte lanes whose source and target differ in length, or have no multiple of 4 bytes. */
    YOHRUNDEL_DECLINE_LANES = 22
};

/* The sentence of a number that a call answers. */
static inline const char *yohrundel_decline_text(uint32_t decline)
{
    switch (decline) {
    case YOHRUNDEL_ACCEPTED: return "not declined";
    case YOHRUNDEL_DECLINE_GEOMETRY: return "the quads per row, boot pages or program pages are out of range";
    case YOHRUNDEL_DECLINE_LENGTH: return "a bank, the image, the SRAM or the result has a wrong length";
    case YOHRUNDEL_DECLINE_DEVICE: return "the device record is impossible";
    case YOHRUNDEL_DECLINE_REGISTER: return "there is no such register or form";
    case YOHRUNDEL_DECLINE_RUNNING: return "an operation is running";
    case YOHRUNDEL_DECLINE_IDLE: return "no operation is running";
    case YOHRUNDEL_DECLINE_RESET_KIND: return "there is no such kind of reset";
    case YOHRUNDEL_DECLINE_ADDRESS: return "there is no such address or page";
    case YOHRUNDEL_DECLINE_BUSY: return "no longer given";
    case YOHRUNDEL_DECLINE_SEQUENCE: return "the sequence words or the mapping do not allow an update";
    case YOHRUNDEL_DECLINE_LAST_SEQUENCE: return "the last sequence number is in use";
    case YOHRUNDEL_DECLINE_PROTECTION: return "the protection does not allow an update";
    case YOHRUNDEL_DECLINE_PLACE: return "the place exceeds the total";
    case YOHRUNDEL_DECLINE_SCRIPT: return "the script is malformed";
    case YOHRUNDEL_DECLINE_HOURS: return "a number of the plan is out of range";
    case YOHRUNDEL_DECLINE_NO_WAIT: return "no wait fits";
    case YOHRUNDEL_DECLINE_SCRIPT_BUFFER: return "the buffer is shorter than the script";
    case YOHRUNDEL_DECLINE_SHEET_BUFFER: return "the buffer is shorter than the sheet";
    case YOHRUNDEL_DECLINE_ROW: return "the row, its queue or the places of its banks are out of range";
    case YOHRUNDEL_DECLINE_RECORDS: return "the script has more than 64 records";
    case YOHRUNDEL_DECLINE_NOT_SHOWN: return "the play never gives the number";
    case YOHRUNDEL_DECLINE_LANES: return "the two lengths differ or are no multiple of 4";
    default: return "no such decline";
    }
}

/* The registers by their numbers. */
enum yohrundel_register {
    YOHRUNDEL_NVMCON = 0,
    YOHRUNDEL_NVMKEY = 1,
    YOHRUNDEL_NVMADDR = 2,
    YOHRUNDEL_NVMDATA0 = 3,
    YOHRUNDEL_NVMDATA1 = 4,
    YOHRUNDEL_NVMDATA2 = 5,
    YOHRUNDEL_NVMDATA3 = 6,
    YOHRUNDEL_NVMSRCADDR = 7,
    YOHRUNDEL_NVMPWP = 8,
    YOHRUNDEL_NVMBWP = 9,
    YOHRUNDEL_NVMCON2 = 10
};

/* The forms of a store: what is wanted of the register's bits. */
enum yohrundel_form {
    /* The value itself. */
    YOHRUNDEL_PLAIN = 0,
    /* The bits at 1 in the value become 0. */
    YOHRUNDEL_CLEAR = 1,
    /* The bits at 1 in the value become 1. */
    YOHRUNDEL_SET = 2,
    /* The bits at 1 in the value change. */
    YOHRUNDEL_INVERT = 3
};

/* The kinds of a reset. */
enum yohrundel_reset_kind {
    YOHRUNDEL_POWER_ON = 0,
    YOHRUNDEL_BROWN_OUT = 1,
    YOHRUNDEL_OTHER_RESET = 2
};

/* Why a reset put a bank on the lower alias. A sequence word is valid where its halves add up to 65,535; its low half is its number. */
enum yohrundel_reason {
    /* Both banks have a valid sequence word, and the bank with the higher number goes lower. */
    YOHRUNDEL_REASON_HIGHER = 0,
    /* Both have one with the same number, and bank 1 goes lower. */
    YOHRUNDEL_REASON_EQUAL = 1,
    /* Only the bank that goes lower has a valid one. */
    YOHRUNDEL_REASON_ONLY_ONE_VALID = 2,
    /* No bank has a valid one, and bank 1 goes lower all the same. */
    YOHRUNDEL_REASON_NONE_VALID = 3,
    /* Nothing was compared: the reset was declined. */
    YOHRUNDEL_REASON_NOT_COMPARED = 4
};

/* What a comparison of two images finds. */
enum yohrundel_reach_kind {
    /* One word differs, and of the actions of the two updates exactly one: place says which. */
    YOHRUNDEL_REACH_ACTION = 0,
    /* One word differs, in the sequence quad, and no action does. */
    YOHRUNDEL_REACH_NO_ACTION = 1,
    /* No word differs or several do: count, lowest and highest say how many and which. */
    YOHRUNDEL_REACH_WORDS = 2,
    /* Nothing was compared: the call was declined. */
    YOHRUNDEL_REACH_NOT_COMPARED = 3
};

/* Bits of NVMCON. An operation runs while WR is 1. */
#define YOHRUNDEL_WR 0x8000u
#define YOHRUNDEL_WREN 0x4000u
#define YOHRUNDEL_WRERR 0x2000u
#define YOHRUNDEL_LVDERR 0x1000u

/*
 * BFSWAP = 0 puts bank 1's boot pages on the lower alias, 1 bank 2's; PFSWAP does the same for program pages. The sign runs the bank that
 * both put lower: bank 1 where both are 0, bank 2 where both are 1.
 */
#define YOHRUNDEL_PFSWAP 0x80u
#define YOHRUNDEL_BFSWAP 0x40u

/* The sizes of a sign. */
typedef struct yohrundel_geometry {
    /* Q, quads per row: 1, 2, 4, 8, 16, 32, 64 or 128. */
    uint32_t q;
    /* B, boot pages per bank: 1 to 5. */
    uint32_t b;
    /* P, program pages per bank: 1 to 128. */
    uint32_t p;
} yohrundel_geometry;

/* What an operation works by: its address, its data and its source, as NVMADDR, NVMDATA0 to 3 and NVMSRCADDR give them. */
typedef struct yohrundel_operands {
    uint32_t nvmaddr;
    /* NVMDATA0 to 3. */
    uint32_t nvmdata[4];
    uint32_t nvmsrcaddr;
} yohrundel_operands;

/*
 * The device record: eleven registers, the key step, the step number, and what the running operation was launched with. The first one is
 * given by yohrundel_power_on.
 */
typedef struct yohrundel_device {
    uint32_t nvmcon;
    /* Reads 0. */
    uint32_t nvmkey;
    uint32_t nvmaddr;
    /* NVMDATA0 to 3. */
    uint32_t nvmdata[4];
    uint32_t nvmsrcaddr;
    uint32_t nvmpwp;
    uint32_t nvmbwp;
    uint32_t nvmcon2;
    /* How many of the three key stores are done, 0 to 3; at 3 the key is open. */
    uint32_t keystep;
    /* The number of the next step of the running operation; 0 where none runs. */
    uint32_t step;
    /*
     * The six registers as they stood before the store that launched the running operation, unrounded; all 0 where none runs. The
     * operation works by these, and the registers may be loaded for the next launch.
     */
    yohrundel_operands launched;
} yohrundel_device;

/* The number of the bank that the sign runs, which BFSWAP and PFSWAP both put lower: 1 or 2; 0 where they differ. */
static inline uint32_t yohrundel_running_bank(yohrundel_device d)
{
    const bool boot = (d.nvmcon & YOHRUNDEL_BFSWAP) != 0;
    const bool program = (d.nvmcon & YOHRUNDEL_PFSWAP) != 0;
    if (boot != program)
        return 0;
    return boot ? 2 : 1;
}

/* The four words of a torn mask. */
typedef struct yohrundel_mask {
    uint32_t words[4];
} yohrundel_mask;

/* The answer to a store and to a step. */
typedef struct yohrundel_event_answer {
    /* A number of enum yohrundel_decline, here and in every answer. */
    uint32_t decline;
    /* Whether there was an event; false where declined. */
    bool event;
    /* The device afterwards, here and in every answer; where declined, the one handed over. */
    yohrundel_device device;
} yohrundel_event_answer;

/* The answer to a start-up. */
typedef struct yohrundel_device_answer {
    uint32_t decline;
    yohrundel_device device;
} yohrundel_device_answer;

/* The answer to a reset. */
typedef struct yohrundel_reset_answer {
    uint32_t decline;
    /* A number of enum yohrundel_reason: why BFSWAP is as it is now. */
    uint32_t reason;
    yohrundel_device device;
} yohrundel_reset_answer;

/* The answer to a comparison, which is never declined. */
typedef struct yohrundel_compare_answer {
    /* The bank that goes lower, 1 or 2. */
    uint32_t bank;
    /* A number of enum yohrundel_reason. */
    uint32_t reason;
} yohrundel_compare_answer;

/* The answer to a register read. */
typedef struct yohrundel_register_read_answer {
    uint32_t decline;
    /* The register's value; 0 where declined. */
    uint32_t value;
    yohrundel_device device;
} yohrundel_register_read_answer;

/* The answer to a flash read. */
typedef struct yohrundel_flash_read_answer {
    uint32_t decline;
    /* The word at the address; 0 where declined. */
    uint32_t word;
    /* Whether the read waited, and so gave the event of the operation's end; false where declined. */
    bool event;
    yohrundel_device device;
} yohrundel_flash_read_answer;

/* The answer to a request for the bank on the lower alias. */
typedef struct yohrundel_lower_bank_answer {
    uint32_t decline;
    /* The number of that bank, 1 or 2; 0 where declined. */
    uint32_t bank;
    /* How many words it has; 0 where declined. */
    size_t length;
} yohrundel_lower_bank_answer;

/* The answer to a request for a page. */
typedef struct yohrundel_page_answer {
    uint32_t decline;
    /* The index in the lent bank of the page's first word; 0 where declined. */
    size_t offset;
    /* How many words it has; 0 where declined. */
    size_t length;
} yohrundel_page_answer;

/* The answer to an update start. */
typedef struct yohrundel_update_start_answer {
    uint32_t decline;
    /* The place of the first turn, which is 0. */
    uint32_t place;
    /* The total, 12 + 8×N + 112×N×Q, which is the number of actions; 0 where declined. */
    uint32_t total;
} yohrundel_update_start_answer;

/* What a turn tells beside the device. */
typedef struct yohrundel_turn_outcome {
    uint32_t decline;
    /* The place of the next turn; where declined, and where done, the place handed over. */
    uint32_t place;
    /* Whether the place is the total: nothing is left to do, and nothing was done. */
    bool done;
    /* Whether the action gave an event. */
    bool event;
} yohrundel_turn_outcome;

/* The answer to a turn. */
typedef struct yohrundel_turn_answer {
    yohrundel_device device;
    yohrundel_turn_outcome outcome;
} yohrundel_turn_answer;

/* A sign of a row: its device, its place in the update, and where its two banks start in the store. */
typedef struct yohrundel_sign {
    yohrundel_device device;
    /* 0 at an update start; each call that serves the sign sets the next one. */
    uint32_t place;
    /* The index in the store of the first word of bank 1, and of bank 2. */
    uint32_t one;
    uint32_t two;
} yohrundel_sign;

/* The signs that wait, by their record numbers, which are their indexes in the list. */
typedef struct yohrundel_queue {
    /* How many wait. */
    uint32_t count;
    /* The longest waiting first. What stands past the count is not read; a call that is not declined leaves 0 there. */
    uint32_t numbers[YOHRUNDEL_MOST_SIGNS];
} yohrundel_queue;

/* The answer to a call for a row. */
typedef struct yohrundel_schedule_answer {
    uint32_t decline;
    /* Whether there was nobody to serve; false where declined. */
    bool idle;
    /* The record number of the sign that did its turn; 0 where idle and where declined. */
    uint32_t served;
    /* Whether that turn gave an event. */
    bool event;
    /* Who waits now, for the next call; where declined, the queue handed over. */
    yohrundel_queue queue;
    /* The record last served, for the next call; where idle and where declined, the one handed over. */
    uint32_t last;
} yohrundel_schedule_answer;

/* The answer to a play. */
typedef struct yohrundel_play_answer {
    uint32_t decline;
    /* The bytes of the whole output, however short the buffer; 0 where declined. */
    size_t bytes;
    yohrundel_device device;
} yohrundel_play_answer;

/* The answer to the question how long a play's output is. */
typedef struct yohrundel_play_length_answer {
    uint32_t decline;
    /* The bytes of the whole output; 0 where declined. */
    size_t bytes;
} yohrundel_play_length_answer;

/* The answer to a script that is written. */
typedef struct yohrundel_write_script_answer {
    uint32_t decline;
    /* The records of the script, which are the update's total; 0 where declined. */
    uint32_t records;
} yohrundel_write_script_answer;

/* The answer to the question which smallest script shows a number. */
typedef struct yohrundel_smallest_answer {
    uint32_t decline;
    /* The records of the result; 0 where declined. */
    uint32_t records;
} yohrundel_smallest_answer;

/* The answer to the question how far one word reaches. A number that its kind does not use is 0. */
typedef struct yohrundel_reach_answer {
    uint32_t decline;
    /* A number of enum yohrundel_reach_kind. */
    uint32_t kind;
    /* The place of the action that differs. */
    uint32_t place;
    /* How many words differ; 0 for equal images. */
    uint32_t count;
    /* The lowest and the highest index in the images of a word that differs; both 0 for equal images. */
    uint32_t lowest;
    uint32_t highest;
} yohrundel_reach_answer;

/* A window of a garage's hours. */
typedef struct yohrundel_window {
    /* Its first minute, 0 to 10,079. */
    uint32_t start;
    /* How many minutes it has, 1 to 10,080. */
    uint32_t length;
} yohrundel_window;

/* The answer to a plan. */
typedef struct yohrundel_plan_answer {
    uint32_t decline;
    /* The smallest wait in minutes, 0 to 10,079; 0 where declined. */
    uint32_t wait;
} yohrundel_plan_answer;

/* The answer to a page sheet. */
typedef struct yohrundel_page_sheet_answer {
    uint32_t decline;
    /* The bytes of the sheet, 34×N; 0 where declined. */
    size_t bytes;
} yohrundel_page_sheet_answer;

/*
 * ---- symbols of the calls that take or give a device
 *
 * Since the device record has launched, these calls have new symbols: an object file that was compiled with the record as it was before
 * does not link with this archive, where its device would be too short. The flash read has another one since it is lent the SRAM, may
 * change the banks and gives a device. Programs call them by their names, and are compiled again. A call that came later, as
 * yohrundel_write_script, yohrundel_smallest and yohrundel_schedule, has its name as its symbol. yohrundel_turn has none: it stands in this
 * header.
 */
#define yohrundel_power_on yohrundel_power_on_2
#define yohrundel_store yohrundel_store_2
#define yohrundel_register_read yohrundel_register_read_2
#define yohrundel_start_up yohrundel_start_up_2
#define yohrundel_flash_read yohrundel_flash_read_3
#define yohrundel_lower_bank yohrundel_lower_bank_2
#define yohrundel_step yohrundel_step_2
#define yohrundel_reset yohrundel_reset_2
#define yohrundel_update_start yohrundel_update_start_2
#define yohrundel_turn_lent yohrundel_turn_lent_2
#define yohrundel_play yohrundel_play_2
#define yohrundel_play_length yohrundel_play_length_2
#define yohrundel_page_sheet yohrundel_page_sheet_2

/*
 * ---- calls on a device alone
 *
 * In every call g is the sign's geometry and d its device.
 */

/* The device after power-on, before any comparison of the banks: all reset values. yohrundel_reset compares them. */
yohrundel_device yohrundel_power_on(void);

/*
 * Stores a value to a register in one of the forms. While an operation runs, a store to NVMADDR, NVMDATA0 to 3 or NVMSRCADDR changes that
 * register alone: the operation goes on by what it was launched with, and the new value serves the next launch. Declines 1, 3, 4 and 5.
 */
yohrundel_event_answer yohrundel_store(yohrundel_geometry g, yohrundel_device d, uint32_t reg, uint32_t form, uint32_t value);

/*
 * Reads a register. At key step 0 or 1 nothing of the device changes, so that a probe may read beside an update; at 2 or 3 the key step
 * becomes 0, and the store that the key was to open for is lost (docs/POWER-FAIL.md, "A probe beside an update"). Declines 1, 3 and 4.
 */
yohrundel_register_read_answer yohrundel_register_read(yohrundel_geometry g, yohrundel_device d, uint32_t reg);

/*
 * The start-up after a reset: if BFSWAP = 1, the three key stores and NVMCON set 0x80, which is PFSWAP; always then NVMCON2 set 0xC0,
 * which locks both. Declines 1, 3 and 5.
 */
yohrundel_device_answer yohrundel_start_up(yohrundel_geometry g, yohrundel_device d);

/*
 * The bank that a reset would put lower by the sequence words of bank 1 and bank 2, and why. What runs is what the last reset chose: after a
 * finished update and before its reset this names the other bank.
 */
yohrundel_compare_answer yohrundel_compare(uint32_t first, uint32_t other);

/*
 * ---- calls on a device and its banks
 *
 * Bank 1 is one with one_words words, bank 2 is two with two_words words.
 */

/*
 * Reads the word at a byte address in one of the four windows. Where the running operation targets the word's bank, by the address that it
 * was launched with and not by NVMADDR, the read waits: it first carries out the operation's remaining steps, each as yohrundel_step does,
 * up to an abort if one comes, and then gives the word from the banks as they are, with the event. Any other read changes nothing. Inside
 * an update a turn whose step a read has done is declined by 6. Declines 1, 2, 3 and 8.
 */
yohrundel_flash_read_answer yohrundel_flash_read(
    yohrundel_geometry g, yohrundel_device d,
    uint32_t *one, size_t one_words,
    uint32_t *two, size_t two_words,
    const uint32_t *sram, size_t sram_words,
    uint32_t address);

/* Names the bank on the lower boot alias. Declines 1, 2 and 3. */
yohrundel_lower_bank_answer yohrundel_lower_bank(
    yohrundel_geometry g, yohrundel_device d,
    const uint32_t *one, size_t one_words,
    const uint32_t *two, size_t two_words);

/* Says where in a bank a page is, boot pages first, by its number from 0 to N-1. Declines 1, 2 and 8. */
yohrundel_page_answer yohrundel_page(yohrundel_geometry g, const uint32_t *bank, size_t bank_words, uint32_t page);

/*
 * One step of the running operation, which does one quad, by the address, data and source that it was launched with. Declines 1, 2, 3
 * and 6.
 */
yohrundel_event_answer yohrundel_step(
    yohrundel_geometry g, yohrundel_device d,
    uint32_t *one, size_t one_words,
    uint32_t *two, size_t two_words,
    const uint32_t *sram, size_t sram_words);

/*
 * A reset. While an operation runs it first tears the quad of the next step: where a bit of the mask is 1 the quad gets the intended bit,
 * as it was launched, where it is 0 it keeps the old one. What was loaded since stays in the registers, but for a power-on. Then BFSWAP is
 * set by comparing the sequence words, and the answer has the reason. Declines 1, 2, 3 and 7.
 */
yohrundel_reset_answer yohrundel_reset(
    yohrundel_geometry g, yohrundel_device d,
    uint32_t *one, size_t one_words,
    uint32_t *two, size_t two_words,
    const uint32_t *sram, size_t sram_words,
    uint32_t kind, yohrundel_mask mask);

/*
 * ---- calls of an update
 *
 * The image is one bank long; its last boot quad, where the new sequence word will stand, is ignored.
 */

/* Whether an update may start, and how many actions it has. It changes nothing. Declines 1, 2, 3, 5, 10, 11 and 12. */
yohrundel_update_start_answer yohrundel_update_start(
    yohrundel_geometry g, yohrundel_device d,
    const uint32_t *one, size_t one_words,
    const uint32_t *two, size_t two_words,
    const uint32_t *image, size_t image_words);

/*
 * One turn, with the device lent and changed in place: the action of its place, one store or one step. The first place is 0, each later
 * one is that of the answer before; done is said at the total. After a reset the update begins again with an update start. Declines 1, 2,
 * 3, 13, and 5 or 6 where the place's action is declined.
 */
yohrundel_turn_outcome yohrundel_turn_lent(
    yohrundel_geometry g, yohrundel_device *d,
    uint32_t *one, size_t one_words,
    uint32_t *two, size_t two_words,
    const uint32_t *image, size_t image_words,
    const uint32_t *sram, size_t sram_words,
    uint32_t place);

/* The same turn with the device by value: yohrundel_turn_lent on a copy of it. Declines as that does. */
static inline yohrundel_turn_answer yohrundel_turn(
    yohrundel_geometry g, yohrundel_device d,
    uint32_t *one, size_t one_words,
    uint32_t *two, size_t two_words,
    const uint32_t *image, size_t image_words,
    const uint32_t *sram, size_t sram_words,
    uint32_t place)
{
    yohrundel_turn_answer answer;
    answer.device = d;
    answer.outcome = yohrundel_turn_lent(
        g, &answer.device, one, one_words, two, two_words, image, image_words, sram, sram_words, place);
    return answer;
}

/*
 * ---- the call for a row of signs on one supply
 *
 * A row has 1 to 32 signs of one geometry, whose banks lie in one lent store, and whose supply bears only K flash operations together. One
 * image and one SRAM serve all. Beside the list stand the queue of those that wait and the record last served. A row begins with a queue
 * of nobody and the list's last as last served, and each later call gets the queue and the last served of the answer before. Ask
 * yohrundel_update_start for each sign first: nothing is promised of an update that it declines.
 */

/* What a row begins with: nobody waits, and the last served is the last of the list. */
static inline yohrundel_queue yohrundel_fresh_queue(void)
{
    const yohrundel_queue queue = {0, {0}};
    return queue;
}
#define YOHRUNDEL_FRESH_LAST(signs_count) ((uint32_t)(signs_count) - 1)

/*
 * One turn for one sign of a row. With fewer than K operations running it serves the first in the queue whose turn is not declined and not
 * done, which then leaves the queue. Else it serves the first after the last served, round the list, that can do a turn and does not wait.
 * Of the signs that it meets there, those whose turn would launch an operation while K or more run begin to wait, in record order. A sign
 * that is done, or whose turn yohrundel_turn would decline, is passed over: it is not served, and keeps its place in a queue. With nobody
 * to serve the call says idle, and serves nobody: signs may have begun to wait even then. A row of accepted updates, begun together and
 * touched by nothing else, is idle when all are done, and not before.
 *
 * No call raises the number of running operations above K, which is 1 to 32 and may be another at each call: where more than a smaller K
 * run, they go on, and nobody launches. No sign launches twice while one and the same other sign waits that is not passed over. A call
 * changes the device and the place of the sign that it serves and words of that sign's banks, and nothing else of the list and the store.
 * So what is proved of an update that is cut, flash reads between its turns included (docs/POWER-FAIL.md), holds for each sign when all are
 * reset together.
 *
 * Declines 1, then 2 for the image and the SRAM, then 19: a list of no sign or of more than 32, K of 0 or above 32, a last served or a
 * number in the queue that is no index of the list, a queue of more than 32 or with a number twice, a bank that overlaps another of any
 * sign, its own other bank too, or that does not lie in the store. A sign whose device is impossible is passed over and not declined.
 */
yohrundel_schedule_answer yohrundel_schedule(
    yohrundel_geometry g, uint32_t k,
    yohrundel_sign *signs, size_t signs_count,
    yohrundel_queue queue, uint32_t last,
    uint32_t *store, size_t store_words,
    const uint32_t *image, size_t image_words,
    const uint32_t *sram, size_t sram_words);

/*
 * ---- calls that play, write and reduce a service script
 *
 * A record of the script has 8 bytes: kind (0 store, 1 step, 2 reset), register or reset kind, form, 0, value little-endian; unused bytes
 * are 0. Resets use mask 0. A record's line is its number from 0, its answer, NVMCON in eight hexadecimal capitals and the event, 0 or 1,
 * with one blank between and a line feed at the end. A refused record has its line too, and play goes on.
 */

/*
 * Plays a script. The buffer out gets as much of the front of the output as fits, without a null byte at its end; bytes past the output
 * keep their contents. Declines 1, 2, 3 and 14.
 */
yohrundel_play_answer yohrundel_play(
    yohrundel_geometry g, yohrundel_device d,
    uint32_t *one, size_t one_words,
    uint32_t *two, size_t two_words,
    const uint32_t *sram, size_t sram_words,
    const uint8_t *script, size_t script_bytes,
    uint8_t *out, size_t out_bytes);

/* The bytes of the whole output of such a play. It plays nothing. Declines as yohrundel_play. */
yohrundel_play_length_answer yohrundel_play_length(
    yohrundel_geometry g, yohrundel_device d,
    const uint32_t *one, size_t one_words,
    const uint32_t *two, size_t two_words,
    const uint32_t *sram, size_t sram_words,
    const uint8_t *script, size_t script_bytes);

/*
 * Writes a whole update as a script: each of its actions, in order, as a record, from the first byte of out on. Bytes past the last record
 * keep their contents. It changes nothing else, and carries nothing out. Declines as yohrundel_update_start, 1, 2, 3, 5, 10, 11 and 12, and
 * after these 17.
 *
 * On the same device and banks the play of the script is the update: each record answers 0, and after i records stands what i turns leave.
 * So all that is proved of a supply that fails during an update (docs/POWER-FAIL.md) holds while the script is played.
 *
 * What is written depends on the geometry, the image and T alone, the low half of the sequence word of the bank on the lower alias. So one
 * script serves every sign whose update start is accepted and whose T is the same. A play checks none of the start's conditions: on any
 * other sign nothing is promised of it. Ask yohrundel_update_start there before the play.
 */
yohrundel_write_script_answer yohrundel_write_script(
    yohrundel_geometry g, yohrundel_device d,
    const uint32_t *one, size_t one_words,
    const uint32_t *two, size_t two_words,
    const uint32_t *image, size_t image_words,
    uint8_t *out, size_t out_bytes);

/*
 * The smallest script that shows a number: drops the lowest record of a script without which its play still gives the number as an answer,
 * begins again from the top, and stops when none can go. The result, of script_bytes bytes, gets the records that are left, in their order,
 * and then zeros. Declines 1, 2, 3, 14, 20 and 21, in this order.
 *
 * The play of the result gives the number, and without any one of its records it does not. It need not have the fewest records: two that
 * undo each other both stay where one of them alone would hide the number, though the play without both gives it too.
 *
 * Each trial plays on the scratch banks, as long as the banks, from the device and the contents of the banks. The banks themselves never
 * change. Afterwards the scratch banks hold what the banks hold, also where the call is declined by 21; by any other decline they keep
 * their contents. The result keeps its contents by every decline.
 *
 * A record is answered by 0, 4, 5 or 6. The number 0 counts as never given, so any other number than 4, 5 and 6 is declined by 21. There
 * are at most 2,081 trials, of which each sets both scratch banks.
 */
yohrundel_smallest_answer yohrundel_smallest(
    yohrundel_geometry g, yohrundel_device d,
    const uint32_t *one, size_t one_words,
    const uint32_t *two, size_t two_words,
    const uint32_t *sram, size_t sram_words,
    uint32_t *scratch_one, size_t scratch_one_words,
    uint32_t *scratch_two, size_t scratch_two_words,
    const uint8_t *script, size_t script_bytes,
    uint32_t number,
    uint8_t *result, size_t result_bytes);

/*
 * ---- the call that compares two images
 */

/*
 * How far one word reaches: what differs between the updates with two images, each one bank long. It changes nothing, and asks nothing of a
 * device or of banks. Declines 1 and 2.
 *
 * Where the images differ in one word outside the sequence quad, exactly one action of the two updates differs: the store of that word to
 * its NVMDATA register, at place. Two updates with them, begun from the same accepted start and with the same turns and flash reads, are
 * at the same place, and their banks differ in at most that one word of the new bank, also after any equal cut and start-up; the same bank
 * runs in both. Inside the sequence quad, which an update ignores, nothing differs. Of equal images, and of several words that differ,
 * those of the sequence quad too, the answer has their number and the lowest and highest of them.
 */
yohrundel_reach_answer yohrundel_reach(
    yohrundel_geometry g,
    const uint32_t *image, size_t image_words,
    const uint32_t *other, size_t other_words);

/*
 * ---- the call for garage hours
 *
 * A week has minutes 0 to 10,079 from Monday 00:00. A window has a start minute and a length of 1 to 10,080 and may run past the end of
 * the week. One of 10,080 holds every minute; a shorter one holds its first minute and not the one after its last.
 */

/*
 * The function of the archive that yohrundel_plan stands on. Its windows are lent as numbers, start, length, start, length, .., and its
 * count is of these numbers, two for each window; an odd count is out of range.
 */
yohrundel_plan_answer yohrundel_plan_numbers(uint32_t minute, uint32_t duration, const uint32_t *numbers, size_t count);

/*
 * The smallest wait from the present minute on after which all minutes of a duration of 1 to 1,440, counted modulo 10,080, lie in the same
 * window. There are 1 to 14 windows, and count is how many; more are declined unread. Declines 15 and 16.
 */
static inline yohrundel_plan_answer yohrundel_plan(
    uint32_t minute, uint32_t duration, const yohrundel_window *windows, size_t count)
{
    /* Too many are declined as none are, so that twice the count cannot wrap. */
    if (count > YOHRUNDEL_MOST_WINDOWS)
        return yohrundel_plan_numbers(minute, duration, NULL, 0);
    return yohrundel_plan_numbers(minute, duration, (const uint32_t *)windows, 2 * count);
}

/*
 * ---- the call for a page sheet
 *
 * A sheet has one line a page, bank 1 then bank 2, boot then program, ascending: bank, blank, B or P, blank, page of its kind from 0 in
 * three columns right-aligned, blank, L or U for its present side, blank, 1 if protected else 0, blank, quads that aren't all ones in four
 * columns right-aligned, line feed. Each line is 17 bytes, and the sheet 34×N. Number padding is blanks.
 */

/* Writes a sheet to the front of out, without a null byte at its end; bytes past it keep their contents. Declines 1, 2, 3 and 18. */
yohrundel_page_sheet_answer yohrundel_page_sheet(
    yohrundel_geometry g, yohrundel_device d,
    const uint32_t *one, size_t one_words,
    const uint32_t *two, size_t two_words,
    uint8_t *out, size_t out_bytes);

/*
 * ---- calls for byte lanes
 *
 * An image of n words is 4×n little-endian bytes. Stored in byte lanes it is all first bytes, then all second, third and fourth. Each call
 * writes the whole target and answers a number of enum yohrundel_decline, which is 0 or 22.
 */

/* Stores an image in byte lanes. */
uint32_t yohrundel_lanes_out(const uint8_t *source, size_t source_bytes, uint8_t *target, size_t target_bytes);

/* Restores an image from its byte lanes. */
uint32_t yohrundel_lanes_back(const uint8_t *source, size_t source_bytes, uint8_t *target, size_t target_bytes);

#ifdef __cplusplus
}
#endif

#endif
