//! Declines 10, 11 and 12.

use crate::sign::{Sign, SEQUENCE};
use crate::{text, Told};

/// An update start by NVMCON and the sequence words of bank 1 and bank 2.
fn start(nvmcon: u32, words: [u32; 2]) -> Told {
    let mut sign = Sign::new();
    sign.device.nvmcon = nvmcon;
    [sign.one[SEQUENCE], sign.two[SEQUENCE]] = words;
    let told = sign.update_start();
    assert_eq!(sign.write_script(2_016), told);
    told
}

/// BFSWAP and PFSWAP: bank 2 is on the lower alias.
const SWAPPED: u32 = 0xC0;

#[test]
fn no_valid_word_on_the_lower_alias() {
    let one = text("bank 1, on the lower alias, has no valid sequence word: 0xFFFFFFFF");
    assert_eq!(start(0, [!0, !0]), one);
    let two = text("bank 2, on the lower alias, has no valid sequence word: 0xFFFE0000");
    assert_eq!(start(SWAPPED, [0xFFFF_0000, 0xFFFE_0000]), two);
    assert_eq!(start(SWAPPED, [!0, 0xFFFF_0000]), None);
}

#[test]
fn another_bank_is_chosen() {
    let (first, second) = (0xFFFE_0001, 0xFFFD_0002);
    let two = "a reset would choose bank 2, as its sequence number is the higher one: \
               bank 1 has 0xFFFE0001, bank 2 0xFFFD0002";
    assert_eq!(start(0, [first, second]), text(two));
    assert_eq!(start(SWAPPED, [first, second]), None);
    let one = "a reset would choose bank 1, as its sequence number is the higher one: \
               bank 1 has 0xFFFD0002, bank 2 0xFFFE0001";
    assert_eq!(start(SWAPPED, [second, first]), text(one));
    let equal = "a reset would choose bank 1, as both banks have the same sequence number: \
                 bank 1 has 0xFFFE0001, bank 2 0xFFFE0001";
    assert_eq!(start(SWAPPED, [first, first]), text(equal));
    assert_eq!(start(0, [first, first]), None);
}

#[test]
fn swaps_that_differ() {
    let program = text("NVMCON is 0x00000080: PFSWAP = 1 and BFSWAP = 0");
    assert_eq!(start(0x80, [0xFFFE_0001, !0]), program);
    let boot = text("NVMCON is 0x00000040: PFSWAP = 0 and BFSWAP = 1");
    assert_eq!(start(0x40, [!0, 0xFFFE_0001]), boot);
}

/// "Other bank's sequence word 0x00000000: 10; 0xFFFFFFFF starts."
#[test]
fn words_that_a_torn_erase_could_make_valid() {
    let (two, one) = (
        "a torn erase could make bank 2's sequence word valid: \
         no bit position is 1 in both halves of 0x00000000",
        "a torn erase could make bank 1's sequence word valid: \
         no bit position is 1 in both halves of 0x80000001",
    );
    assert_eq!(start(0, [0xFFFE_0001, 0]), text(two));
    assert_eq!(start(SWAPPED, [0x8000_0001, 0xFFFE_0001]), text(one));
    assert_eq!(start(0, [0xFFFE_0001, !0]), None);
    assert_eq!(start(0, [0xFFFE_0001, 0x8000_8000]), None);
}

/// "t = 65,534 starts, 65,535 doesn't."
#[test]
fn the_last_number() {
    let one = text("T is 65535: bank 1 has the sequence word 0x0000FFFF");
    assert_eq!(start(0, [0x0000_FFFF, !0]), one);
    let two = text("T is 65535: bank 2 has the sequence word 0x0000FFFF");
    assert_eq!(start(SWAPPED, [!0, 0x0000_FFFF]), two);
    assert_eq!(start(0, [0x0001_FFFE, !0]), None);
}

/// P×128×Q is 0x80 here.
#[test]
fn protection() {
    let protected = |nvmbwp: u32, nvmpwp: u32| {
        let mut sign = Sign::new();
        (sign.device.nvmbwp, sign.device.nvmpwp) = (nvmbwp, nvmpwp);
        sign.update_start()
    };
    let locked = text("NVMBWP is 0x00009F5F: UBWPULOCK = 0");
    assert_eq!(protected(0x9F5F, 0x80), locked);
    let reached = text("NVMPWP is 0x80000080: PWP is not below 0x000080");
    assert_eq!(protected(0xC0, 0x8000_0080), reached);
    assert_eq!(protected(0xC0, 0x8000_007F), None);
}
