//! Single rules of the later requests.

use model::device::*;
use model::generate::random_image;
use model::geometry::{Banks, Geometry, ALL_ONES, ROW_QUADS};
use model::lanes::{lanes_back, lanes_out};
use model::plan::{plan, Window};
use model::random::Random;
use model::sheet::page_sheet;
use model::Refusal;

fn planned(present: u32, duration: u32, windows: &[(u32, u32)]) -> Result<u32, Refusal> {
    let window = |&(start, length): &(u32, u32)| Window { start, length };
    let windows: Vec<Window> = windows.iter().map(window).collect();
    plan(present, duration, &windows)
}

#[test]
fn waits_for_one_window() {
    assert_eq!(planned(100, 60, &[(100, 60)]), Ok(0));
    assert_eq!(planned(99, 60, &[(100, 60)]), Ok(1));
    assert_eq!(planned(101, 60, &[(100, 60)]), Ok(10_079));
    assert_eq!(planned(101, 60, &[(100, 61)]), Ok(0));
    assert_eq!(planned(100, 60, &[(100, 59)]), Err(Refusal::NoWait));
    assert_eq!(planned(10_079, 2, &[(10_079, 2)]), Ok(0));
    assert_eq!(planned(0, 2, &[(10_079, 2)]), Ok(10_079));
    assert_eq!(planned(0, 1, &[(10_079, 2)]), Ok(0));
    assert_eq!(planned(1, 1, &[(10_079, 2)]), Ok(10_078));
}

#[test]
fn a_window_of_the_whole_week_and_one_of_a_minute_less() {
    for present in [0, 1, 4_999, 5_000, 10_079] {
        assert_eq!(planned(present, 1_440, &[(5_000, 10_080)]), Ok(0));
    }
    // The minute left out is 4,999.
    assert_eq!(planned(3_559, 1_440, &[(5_000, 10_079)]), Ok(0));
    assert_eq!(planned(3_560, 1_440, &[(5_000, 10_079)]), Ok(1_440));
    assert_eq!(planned(4_999, 1_440, &[(5_000, 10_079)]), Ok(1));
    assert_eq!(planned(5_000, 1_440, &[(5_000, 10_079)]), Ok(0));
}

#[test]
fn windows_do_not_join() {
    let touching = [(1_000, 30), (1_030, 30)];
    assert_eq!(planned(1_000, 31, &touching), Err(Refusal::NoWait));
    assert_eq!(planned(1_001, 30, &touching), Ok(29));
    let other = [(1_000, 30), (1_030, 30), (900, 31)];
    assert_eq!(planned(1_000, 31, &other), Ok(9_980));
}

fn small_sheet(device: &Device, buffer: &mut [u8]) -> Result<u32, Refusal> {
    let (mut one, mut two) = (vec![ALL_ONES; 64], vec![0; 64]);
    one[28] = 0xFFFE_0001;
    two[63] = ALL_ONES;
    two[32..48].fill(ALL_ONES);
    let banks = Banks {
        one: &mut one,
        two: &mut two,
    };
    page_sheet([1, 1, 1], device, &banks, buffer)
}

#[test]
fn a_small_sheet() {
    let mut device = Device::reset_values();
    device.registers[NVMBWP] &= !UBWP;
    device.registers[NVMPWP] |= 127;
    let mut buffer = [b'x'; 70];
    assert_eq!(small_sheet(&device, &mut buffer), Ok(68));
    let lines = "1 B   0 L 1    1\n1 P   0 L 1    0\n2 B   0 U 0    8\n2 P   0 U 0    4\nxx";
    assert_eq!(buffer, lines.as_bytes());
    device.registers[NVMCON] |= PFSWAP;
    assert_eq!(small_sheet(&device, &mut buffer), Ok(68));
    let lines = "1 B   0 L 1    1\n1 P   0 U 0    0\n2 B   0 U 0    8\n2 P   0 L 1    4\nxx";
    assert_eq!(buffer, lines.as_bytes());
}

#[test]
fn a_buffer_shorter_than_the_sheet() {
    let device = Device::reset_values();
    let mut buffer = [b'x'; 67];
    let refused = small_sheet(&device, &mut buffer);
    assert_eq!(refused, Err(Refusal::SheetBuffer));
    assert_eq!(buffer, [b'x'; 67]);
}

/// "Each line is 17 bytes, and the sheet 34×N", for the fewest and the most quads.
#[test]
fn widths() {
    for row_quads in ROW_QUADS {
        for (boot_pages, program_pages) in
            [(1, 1), (5, 9), (2, 10), (4, 11), (5, 64), (5, 95), (5, 128)]
        {
            for fill in [0, ALL_ONES] {
                every_line([row_quads, boot_pages, program_pages], fill);
            }
        }
    }
}

fn every_line(numbers: [u32; 3], fill: u32) {
    let geometry = Geometry::new(numbers).unwrap();
    let words = geometry.bank_words() as usize;
    let (mut one, mut two) = (vec![fill; words], vec![fill; words]);
    let banks = Banks {
        one: &mut one,
        two: &mut two,
    };
    let mut buffer = vec![0; 34 * geometry.pages() as usize];
    let length = page_sheet(numbers, &Device::reset_values(), &banks, &mut buffer);
    assert_eq!(length, Ok(buffer.len() as u32));
    for line in buffer.chunks_exact(17) {
        let text = std::str::from_utf8(line).unwrap();
        assert!(text.ends_with('\n') && text.lines().count() == 1, "{text}");
        assert_eq!(text.split_whitespace().count(), 6, "{text}");
    }
}

fn sent(way: fn(&[u8], &mut [u8]) -> Result<(), Refusal>, source: &[u8]) -> Vec<u8> {
    let mut target = vec![0; source.len()];
    way(source, &mut target).unwrap();
    target
}

#[test]
fn lanes_of_three_words() {
    let source = [1, 2, 3, 4, 11, 12, 13, 14, 21, 22, 23, 24];
    let stored = [1, 11, 21, 2, 12, 22, 3, 13, 23, 4, 14, 24];
    assert_eq!(sent(lanes_out, &source), stored);
    assert_eq!(sent(lanes_back, &stored), source);
}

#[test]
fn each_way_undoes_the_other() {
    let mut random = Random::new(1);
    for words in 0..100 {
        let bytes: Vec<u8> = (0..4 * words).map(|_| random.word() as u8).collect();
        assert_eq!(sent(lanes_back, &sent(lanes_out, &bytes)), bytes);
        assert_eq!(sent(lanes_out, &sent(lanes_back, &bytes)), bytes);
    }
}

/// "An image stored this way gives the same update when taken back": it is the same image.
#[test]
fn an_image_taken_back() {
    let geometry = Geometry::new([2, 2, 3]).unwrap();
    let image = random_image(&geometry, 3);
    let bytes: Vec<u8> = image.iter().flat_map(|word| word.to_le_bytes()).collect();
    let back = sent(lanes_back, &sent(lanes_out, &bytes));
    let words = back.chunks_exact(4);
    let words: Vec<u32> = words
        .map(|word| u32::from_le_bytes([word[0], word[1], word[2], word[3]]))
        .collect();
    assert_eq!(words, image);
}

#[test]
fn lengths_that_lanes_decline() {
    for (source, target) in [(4, 8), (8, 4), (0, 4), (3, 3), (5, 5), (6, 8), (8, 6)] {
        let bytes = vec![1; source];
        let mut kept = vec![9; target];
        for way in [lanes_out, lanes_back] {
            assert_eq!(way(&bytes, &mut kept), Err(Refusal::LaneLengths));
        }
        assert_eq!(kept, vec![9; target]);
    }
}
