//! The crate's names and sizes stand for the numbers that the model has.

use model::device::{self as outside, RESETS};
use model::geometry::Geometry as OutsideGeometry;
use model::sheet::sheet_bytes;
use model::store as forms;
use model::write_script::script_bytes;
use model::Refusal;
use yohrundel::{form, nvmcon, register, Decline, Device, Geometry, Operands};

#[test]
fn sizes_of_every_geometry() {
    for q in (0..=129).chain([255, 256, 0x8000_0000, u32::MAX]) {
        for b in (0..=6).chain([u32::MAX]) {
            for p in (0..=129).chain([u32::MAX]) {
                let sign = Geometry { q, b, p };
                let sizes = [
                    sign.pages(),
                    sign.page_words(),
                    sign.bank_words(),
                    sign.sequence_index(),
                    sign.sheet_bytes(),
                    sign.script_bytes(),
                ];
                let expected = OutsideGeometry::new([q, b, p]).map(|sign| {
                    let (pages, page, bank) = (sign.pages(), sign.page_words(), sign.bank_words());
                    let (sheet, script) = (sheet_bytes(&sign), script_bytes(&sign));
                    [
                        pages,
                        page,
                        bank,
                        sign.sequence_index() as u32,
                        sheet,
                        script,
                    ]
                });
                match expected {
                    Ok(expected) => assert_eq!(sizes, expected.map(|size| Ok(size as usize))),
                    Err(_) => assert_eq!(sizes, [Err(Decline::Geometry); 6]),
                }
            }
        }
    }
}

#[test]
fn numbers_of_the_declines() {
    let outside = [
        Refusal::Geometry,
        Refusal::Length,
        Refusal::Device,
        Refusal::Register,
        Refusal::Running,
        Refusal::NotRunning,
        Refusal::ResetKind,
        Refusal::Address,
        Refusal::TargetBank,
        Refusal::Sequence,
        Refusal::LastSequence,
        Refusal::Protection,
        Refusal::Place,
        Refusal::Script,
        Refusal::WeekRange,
        Refusal::NoWait,
        Refusal::ScriptBuffer,
        Refusal::SheetBuffer,
        Refusal::Row,
        Refusal::Records,
        Refusal::NotShown,
        Refusal::LaneLengths,
    ];
    let numbers: Vec<u32> = Decline::ALL
        .iter()
        .map(|decline| decline.number())
        .collect();
    assert_eq!(numbers, outside.map(Refusal::number));
}

#[test]
fn numbers_of_registers_forms_and_bits() {
    let registers = [
        (register::NVMCON, outside::NVMCON),
        (register::NVMKEY, outside::NVMKEY),
        (register::NVMADDR, outside::NVMADDR),
        (register::NVMDATA0, outside::NVMDATA0),
        (register::NVMSRCADDR, outside::NVMSRCADDR),
        (register::NVMPWP, outside::NVMPWP),
        (register::NVMBWP, outside::NVMBWP),
        (register::NVMCON2, outside::NVMCON2),
    ];
    for (number, outside) in registers {
        assert_eq!(number as usize, outside);
    }
    assert_eq!(
        [form::PLAIN, form::CLEAR, form::SET, form::INVERT],
        [forms::PLAIN, forms::CLEAR, forms::SET, forms::INVERT]
    );
    let bits = [
        (nvmcon::WR, outside::WR),
        (nvmcon::WREN, outside::WREN),
        (nvmcon::WRERR, outside::WRERR),
        (nvmcon::LVDERR, outside::LVDERR),
        (nvmcon::PFSWAP, outside::PFSWAP),
        (nvmcon::BFSWAP, outside::BFSWAP),
    ];
    for (bit, outside) in bits {
        assert_eq!(bit, outside);
    }
}

#[test]
fn power_on_has_the_reset_values() {
    let device = Device::power_on();
    for (number, value) in RESETS.iter().enumerate() {
        assert_eq!(device.register(number as u32), Some(*value));
    }
    assert_eq!(device.register(RESETS.len() as u32), None);
    assert_eq!([device.keystep, device.step], [0, 0]);
    assert_eq!(device.launched, Operands::default());
}
