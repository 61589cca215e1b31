//! The bench values of the paper and its worked script.

use model::device::{protected, Device, NVMCON, NVMPWP};
use model::generate::{old_bank_one, random_image};
use model::geometry::{Bank, Banks, Geometry, Kind, Side, ALL_ONES};
use model::operation::rounded_address;
use model::script::{play, Record};
use model::sequence::{compare, low_half, new_quad, valid, word_of, Comparison, Reason};
use model::update::{total, update_start};
use model::{Answer, Refusal};

fn geometry(numbers: [u32; 3]) -> Geometry {
    Geometry::new(numbers).unwrap()
}

#[test]
fn sequence_words() {
    assert!(valid(0xFFFE_0001));
    assert!(!valid(0xFFFF_FFFF));
    assert!(valid(0x0000_FFFF));
    assert_eq!(low_half(0x0000_FFFF), 65_535);
    assert_eq!(new_quad(1), [0xFFFD_0002, ALL_ONES, ALL_ONES, ALL_ONES]);
}

#[test]
fn comparison() {
    for (first, other, bank, reason) in [
        (0xFFFE_0001, 0xFFFE_0001, Bank::One, Reason::Equal),
        (0xFFFF_FFFF, 0xFFFE_0001, Bank::Two, Reason::OnlyOneValid),
        (0xFFFE_0001, 0xFFFD_0002, Bank::Two, Reason::Higher),
        (0xFFFD_0002, 0xFFFE_0001, Bank::One, Reason::Higher),
        (0xFFFE_0001, 0xFFFF_FFFF, Bank::One, Reason::OnlyOneValid),
        (0, 0xFFFF_FFFF, Bank::One, Reason::NoneValid),
    ] {
        assert_eq!(compare(first, other), Comparison { bank, reason });
    }
}

#[test]
fn totals() {
    assert_eq!(total(&geometry([1, 1, 1])), 252);
    assert_eq!(total(&geometry([128, 5, 64])), 989_748);
    assert_eq!(total(&geometry([128, 5, 128])), 1_907_764);
}

#[test]
fn program_protection() {
    let geometry = geometry([1, 1, 2]);
    let mut device = Device::reset_values();
    let pages = |device: &Device| {
        [
            (Side::Lower, 0),
            (Side::Lower, 1),
            (Side::Upper, 0),
            (Side::Upper, 1),
        ]
        .map(|(side, page)| protected(&geometry, device, Kind::Program, side, page))
    };
    assert_eq!(pages(&device), [false; 4]);
    device.registers[NVMPWP] |= 1;
    assert_eq!(pages(&device), [true, false, false, false]);
}

#[test]
fn rounding_to_a_page() {
    let mut device = Device::reset_values();
    device.registers[NVMCON] = 4;
    let rounded = rounded_address(&geometry([1, 1, 1]), &device, 0x1D00_00FF);
    assert_eq!(rounded, 0x1D00_0080);
}

#[test]
fn empty_script() {
    assert_eq!(play(&[]), "");
}

fn start_with(own: u32, other: u32) -> Answer<(u32, u32)> {
    let geometry = geometry([1, 1, 1]);
    let [mut one, mut two] = old_bank_one(&geometry, 3);
    one[geometry.sequence_index()] = own;
    two[geometry.sequence_index()] = other;
    let image = random_image(&geometry, 4);
    let banks = Banks {
        one: &mut one,
        two: &mut two,
    };
    update_start([1, 1, 1], &Device::reset_values(), &banks, &image)
}

#[test]
fn last_sequence() {
    assert_eq!(start_with(word_of(65_534), ALL_ONES), Ok((0, 252)));
    assert_eq!(
        start_with(word_of(65_535), ALL_ONES),
        Err(Refusal::LastSequence)
    );
}

#[test]
fn other_sequence() {
    assert_eq!(start_with(word_of(1), 0), Err(Refusal::Sequence));
    assert_eq!(start_with(word_of(1), 0xFFFF_FFFF), Ok((0, 252)));
}

#[test]
fn worked_script() {
    let store = |register, form, value| Record::Store {
        register,
        form,
        value,
    };
    let records = [
        store(2, 0, 0x1D00_0080),
        store(0, 0, 2),
        store(0, 2, 0x4000),
        store(1, 0, 0),
        store(1, 0, 0xAA99_6655),
        store(1, 0, 0x5566_99AA),
        store(0, 2, 0x8000),
        Record::Step,
        Record::Step,
    ];
    let bytes: Vec<u8> = records.iter().flat_map(Record::bytes).collect();
    let printed = "0 0 00000000 0\n1 0 00000002 0\n2 0 00004002 0\n3 0 00004002 0\n\
        4 0 00004002 0\n5 0 00004002 0\n6 0 0000E002 0\n7 0 00004002 1\n8 6 00004002 0\n";
    assert_eq!(play(&bytes), printed);
}
