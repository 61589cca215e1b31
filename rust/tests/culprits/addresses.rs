//! Decline 8.

use yohrundel::{culprit, page, Geometry};

use crate::sign::{Sign, SMALL};
use crate::{text, told};

#[test]
fn addresses_around_the_windows() {
    let sign = Sign::new();
    let windows = "0x1D000000 to 0x1D0000FF, 0x1FC00000 to 0x1FC0007F or 0x1FC20000 to 0x1FC2007F";
    for first in [0x1D00_0000, 0x1FC0_0000, 0x1FC2_0000] {
        let bytes = if first == 0x1D00_0000 { 0x100 } else { 0x80 };
        for address in [first - 4, first - 1, first + bytes] {
            let expected = format!("0x{address:08X} is not in {windows}");
            assert_eq!(sign.flash_read(address), text(&expected));
        }
        let ends = [first, first + bytes - 4];
        assert_eq!(ends.map(|address| sign.flash_read(address)), [None, None]);
    }
}

/// Pages of 128×128 bytes: two regions of 128 pages, and aliases of 5.
#[test]
fn windows_of_the_largest_sign() {
    let words = 133 * 4_096;
    let sign = Sign {
        geometry: Geometry {
            q: 128,
            b: 5,
            p: 128,
        },
        one: vec![0; words],
        two: vec![0; words],
        ..Sign::new()
    };
    let windows = "0x1D000000 to 0x1D3FFFFF, 0x1FC00000 to 0x1FC13FFF or 0x1FC20000 to 0x1FC33FFF";
    let expected = text(&format!("0x1D400000 is not in {windows}"));
    assert_eq!(sign.flash_read(0x1D40_0000), expected);
    assert_eq!(sign.flash_read(0x1D3F_FFFC), None);
}

#[test]
fn addresses_off_a_multiple_of_4() {
    for address in [0x1D00_0001, 0x1D00_0002, 0x1D00_00FF] {
        let expected = text(&format!("0x{address:08X} is no multiple of 4"));
        assert_eq!(Sign::new().flash_read(address), expected);
    }
}

#[test]
fn page_numbers() {
    let bank = [0; 64];
    let told_of = |number| {
        let answer = page(SMALL, &bank, number);
        told(culprit::page(SMALL, &bank, number), answer)
    };
    assert_eq!(told_of(2), text("the page is 2, not 0 to 1"));
    assert_eq!(
        told_of(u32::MAX),
        text("the page is 4294967295, not 0 to 1")
    );
    assert_eq!(told_of(1), None);
}
