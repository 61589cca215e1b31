//! When each decline is given, in the words of include/yohrundel.h, and what to do about it.

use yohrundel::Decline;

/// When a decline is given, and what to do about it.
pub struct Explanation {
    pub when: &'static str,
    pub remedy: &'static str,
}

pub fn explained(decline: Decline) -> &'static Explanation {
    &EXPLANATIONS[decline.number() as usize - 1]
}

/// In the order of the numbers, from 1.
const EXPLANATIONS: [Explanation; Decline::ALL.len()] = [
    Explanation {
        when: "Q, B or P is outside its list or range.",
        remedy: "give the sizes of the sign's part. Q is 1, 2, 4, 8, 16, 32, 64 or 128, B is 1 to \
                 5 and P is 1 to 128.",
    },
    Explanation {
        when: "A bank or image has another length than N x 32 x Q words, a result another length \
               than its script, or the SRAM exceeds 16,384.",
        remedy: "look whether Q, B and P are those of the sign that the bank or image was made \
                 for. N is B + P, so that its file has (B + P) x 128 x Q bytes.",
    },
    Explanation {
        when: "The device record is impossible: an unimplemented bit set, NVMBWP bit 6 clear, \
               NVMKEY not 0, key step above 3, WR = 0 with step number or any of launched not 0, \
               or WR = 1 with key step not 0, WRERR = 0, LVDERR = 1, an NVMOP or launched target \
               for which no steps begin, or step number not below its length.",
        remedy: "hand over the record that the call before gave: none of them makes an impossible \
                 one. A record that was stored without launched is completed first, as the header \
                 says. Where it is lost, begin with the record of power-on and a reset.",
    },
    Explanation {
        when: "A register number above 10, a form above 3, or a form other than 0 for NVMKEY.",
        remedy: "take the numbers of registers and forms from the header. NVMKEY is stored to by \
                 the form plain, 0.",
    },
    Explanation {
        when: "With WR = 1: a store to another register than NVMADDR, NVMDATA0 to 3 and \
               NVMSRCADDR, a start-up or an update start.",
        remedy: "do the steps of the operation first, until WR is 0, or reset the sign. Meanwhile \
                 NVMADDR, NVMDATA0 to 3 and NVMSRCADDR may be loaded for the next launch.",
    },
    Explanation {
        when: "A step with WR = 0.",
        remedy: "launch an operation first, or leave the step out. A turn of an update gives it \
                 where a flash read has waited and done the step: then reset the sign, start it up \
                 and start the update again.",
    },
    Explanation {
        when: "A reset kind above 2.",
        remedy: "take 0 for power-on, 1 for brown-out or 2 for any other reset.",
    },
    Explanation {
        when: "A flash read outside the four windows or not on a multiple of 4; a page request \
               with a page number of N or more.",
        remedy: "read boot pages from 0x1FC00000 on, of the lower side, or from 0x1FC20000 on, of \
                 the upper, and program pages from 0x1D000000 on, of the lower side and then of \
                 the upper. The N = B + P pages of a bank have the numbers 0 to N - 1, boot pages \
                 first.",
    },
    Explanation {
        when: "It was a flash read from a bank that the running operation targets. Such a read \
               now waits, and no call gives the number.",
        remedy: "nothing. A program that looks for it may leave that out.",
    },
    Explanation {
        when: "Update start: the lower-alias bank's sequence is invalid, a reset would choose the \
               other bank, PFSWAP differs from BFSWAP, or the other bank's sequence word is \
               invalid with no bit position at 1 in both halves.",
        remedy: "reset the sign and start it up, so that the bank with the higher sequence number \
                 is lower and runs, and start the update again. Where that is declined, too, erase \
                 the other bank's last boot page on the bench, or write the banks there where none \
                 has a valid sequence word.",
    },
    Explanation {
        when: "Update start with T = 65,535.",
        remedy: "write the banks on the bench, with a lower sequence number. No update can follow \
                 this number, since none is higher.",
    },
    Explanation {
        when: "Update start with UBWPULOCK = 0 or PWP at least P x 128 x Q.",
        remedy: "reset the sign and start it up: its protection is then as an update needs it. \
                 Start the update before a program locks the upper boot pages or raises PWP.",
    },
    Explanation {
        when: "A turn whose place exceeds the total.",
        remedy: "hand each turn the place that the turn before gave, from 0 on, and end when one \
                 says done. The update start gives the total; yohrundel places lists the places.",
    },
    Explanation {
        when: "A script whose length isn't a multiple of 8, or a record with an unknown kind, \
               register, form or reset kind or an unused byte not 0.",
        remedy: "find the record by yohrundel script --list, which names the first that is \
                 malformed. Where the length is no multiple of 8, the script was cut short: send \
                 it again.",
    },
    Explanation {
        when: "A plan's present minute, duration, count of windows, or a window's start or length \
               is out of range.",
        remedy: "give the present minute and each start from 0 to 10079, counted from Monday \
                 00:00, and a duration from 1 to 1440. There are 1 to 14 windows of 1 to 10080 \
                 minutes.",
    },
    Explanation {
        when: "A plan that no wait fits.",
        remedy:
            "ask the garage for a window that is as long as the update. Two windows that touch \
               do not count as one: give them as one.",
    },
    Explanation {
        when: "A buffer that is shorter than the script of an update, 8 bytes for each of its \
               actions.",
        remedy: "lend a buffer of 8 bytes for each action that the update start counts. \
                 YOHRUNDEL_SCRIPT_BYTES, or script_bytes in Rust, gives its length.",
    },
    Explanation {
        when: "A buffer that is shorter than the page sheet.",
        remedy: "lend a buffer of 34 x (B + P) bytes. YOHRUNDEL_SHEET_BYTES, or sheet_bytes in \
                 Rust, gives its length.",
    },
    Explanation {
        when: "A row's list length, K or last served out of range, a queue that repeats a record \
               or oversteps the list, or overlapping or overhanging banks.",
        remedy: "lend 1 to 32 signs, a K from 1 to 32, and for each sign two banks of its own \
                 inside the store. Hand each call the queue and the last served that the call \
                 before gave, and the first an empty queue and the number of the list's last sign.",
    },
    Explanation {
        when: "A script of more than 64 records, of which the smallest that shows a number is \
               asked.",
        remedy: "hand over a part of the script of at most 64 records. yohrundel play shows \
                 whether the part still gives the number.",
    },
    Explanation {
        when: "A script of which the smallest that shows a number is asked, and whose play never \
               gives the number.",
        remedy: "look in the play's second column which numbers it gives. Where another sign gave \
                 the number, hand over that sign's sizes and banks.",
    },
    Explanation {
        when: "Byte lanes whose source and target differ in length, or have no multiple of 4 \
               bytes.",
        remedy: "lend a target as long as the source. An image has whole words, so that a file of \
                 another length is no image, or was cut short.",
    },
];
