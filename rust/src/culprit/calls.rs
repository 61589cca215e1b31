//! The culprit of each call. Memory that a call only writes is taken for its length.

use super::address::{address_culprit, page_culprit};
use super::device::device_clause;
use super::hours::plan_culprit;
use super::lengths::{lane_lengths, lent, result_length, Memory};
use super::protection::protection_culprit;
use super::register::register_culprit;
use super::row::row_culprit;
use super::running::{turn_culprit, while_idle, while_running, Attempt};
use super::script::script_clause;
use super::sequence::sequence_culprit;
use super::shown::shown_culprit;
use super::Culprit;
use crate::form::PLAIN;
use crate::reset_kind::OTHER;
use crate::{Bench, Device, Geometry, SignRecord, Standing, Supply};

/// Declines 1 to 3, which open every call of a device.
fn common(
    geometry: Geometry,
    device: &Device,
    banks: &[(Memory, &[u32])],
    sram: &[u32],
) -> Option<Culprit> {
    lent(geometry, banks, sram).or_else(|| device_culprit(geometry, device))
}

fn device_culprit(geometry: Geometry, device: &Device) -> Option<Culprit> {
    device_clause(geometry, device).map(Culprit::Device)
}

/// Both banks, for [`lent`] and [`common`].
fn both<'a>(one: &'a [u32], two: &'a [u32]) -> [(Memory, &'a [u32]); 2] {
    [(Memory::BankOne, one), (Memory::BankTwo, two)]
}

/// Both banks and an image.
fn with_image<'a>(one: &'a [u32], two: &'a [u32], image: &'a [u32]) -> [(Memory, &'a [u32]); 3] {
    let [one, two] = both(one, two);
    [one, two, (Memory::Image, image)]
}

/// Of [`store`](crate::store).
pub fn store(geometry: Geometry, device: &Device, register: u32, form: u32) -> Option<Culprit> {
    common(geometry, device, &[], &[])
        .or_else(|| register_culprit(register, form))
        .or_else(|| while_running(device, Attempt::Store { register }))
}

/// Of [`register_read`](crate::register_read).
pub fn register_read(geometry: Geometry, device: &Device, register: u32) -> Option<Culprit> {
    common(geometry, device, &[], &[]).or_else(|| register_culprit(register, PLAIN))
}

/// Of [`start_up`](crate::start_up) and [`cut_start_up`](crate::cut_start_up).
pub fn start_up(geometry: Geometry, device: &Device) -> Option<Culprit> {
    common(geometry, device, &[], &[]).or_else(|| while_running(device, Attempt::StartUp))
}

/// Of [`flash_read`](crate::flash_read).
pub fn flash_read(
    geometry: Geometry,
    device: &Device,
    one: &[u32],
    two: &[u32],
    sram: &[u32],
    address: u32,
) -> Option<Culprit> {
    common(geometry, device, &both(one, two), sram).or_else(|| address_culprit(geometry, address))
}

/// Of [`lower_bank`](crate::lower_bank).
pub fn lower_bank(
    geometry: Geometry,
    device: &Device,
    one: &[u32],
    two: &[u32],
) -> Option<Culprit> {
    common(geometry, device, &both(one, two), &[])
}

/// Of [`page`](crate::page).
pub fn page(geometry: Geometry, bank: &[u32], page: u32) -> Option<Culprit> {
    lent(geometry, &[(Memory::Bank, bank)], &[]).or_else(|| page_culprit(geometry, page))
}

/// Of [`step`](crate::step).
pub fn step(
    geometry: Geometry,
    device: &Device,
    one: &[u32],
    two: &[u32],
    sram: &[u32],
) -> Option<Culprit> {
    common(geometry, device, &both(one, two), sram).or_else(|| while_idle(device, None))
}

/// Of [`reset`](crate::reset).
pub fn reset(
    geometry: Geometry,
    device: &Device,
    one: &[u32],
    two: &[u32],
    sram: &[u32],
    kind: u32,
) -> Option<Culprit> {
    common(geometry, device, &both(one, two), sram)
        .or_else(|| (kind > OTHER).then_some(Culprit::ResetKind(kind)))
}

/// Of [`update_start`](crate::update_start).
pub fn update_start(
    geometry: Geometry,
    device: &Device,
    one: &[u32],
    two: &[u32],
    image: &[u32],
) -> Option<Culprit> {
    common(geometry, device, &with_image(one, two, image), &[])
        .or_else(|| while_running(device, Attempt::UpdateStart))
        .or_else(|| sequence_culprit(geometry, device, one, two))
        .or_else(|| protection_culprit(geometry, device))
}

/// Of [`turn`](crate::turn) and [`turn_lent`](crate::turn_lent).
pub fn turn(
    geometry: Geometry,
    device: &Device,
    one: &[u32],
    two: &[u32],
    image: &[u32],
    sram: &[u32],
    place: u32,
) -> Option<Culprit> {
    common(geometry, device, &with_image(one, two, image), sram)
        .or_else(|| turn_culprit(geometry, device, place))
}

/// Of [`play`](crate::play) and [`play_length`](crate::play_length).
pub fn play(
    geometry: Geometry,
    device: &Device,
    one: &[u32],
    two: &[u32],
    sram: &[u32],
    script: &[u8],
) -> Option<Culprit> {
    common(geometry, device, &both(one, two), sram)
        .or_else(|| script_clause(script).map(Culprit::Script))
}

/// Of [`write_script`](crate::write_script).
pub fn write_script(
    geometry: Geometry,
    device: &Device,
    one: &[u32],
    two: &[u32],
    image: &[u32],
    buffer: &[u8],
) -> Option<Culprit> {
    update_start(geometry, device, one, two, image).or_else(|| {
        let (bytes, asked) = (buffer.len(), geometry.script_bytes().ok()?);
        (bytes < asked).then_some(Culprit::ScriptBuffer { bytes, asked })
    })
}

/// Of [`page_sheet`](crate::page_sheet).
pub fn page_sheet(
    geometry: Geometry,
    device: &Device,
    one: &[u32],
    two: &[u32],
    buffer: &[u8],
) -> Option<Culprit> {
    common(geometry, device, &both(one, two), &[]).or_else(|| {
        let (bytes, asked) = (buffer.len(), geometry.sheet_bytes().ok()?);
        (bytes < asked).then_some(Culprit::SheetBuffer { bytes, asked })
    })
}

/// Of [`smallest`](crate::smallest). It plays the script on copies of the banks.
pub fn smallest(
    bench: &Bench,
    scratch: [&[u32]; 2],
    script: &[u8],
    number: u32,
    result: &[u8],
) -> Option<Culprit> {
    let [first, second] = scratch;
    let [one, two] = both(bench.one, bench.two);
    let banks = [
        one,
        two,
        (Memory::ScratchOne, first),
        (Memory::ScratchTwo, second),
    ];
    lent(bench.geometry, &banks, bench.sram)
        .or_else(|| result_length(script, result))
        .or_else(|| device_culprit(bench.geometry, &bench.device))
        .or_else(|| script_clause(script).map(Culprit::Script))
        .or_else(|| shown_culprit(bench, script, number))
}

/// Of [`schedule`](crate::schedule).
pub fn schedule(
    supply: &Supply,
    signs: &[SignRecord],
    standing: &Standing,
    store: &[u32],
) -> Option<Culprit> {
    let image = [(Memory::Image, supply.image)];
    lent(supply.geometry, &image, supply.sram)
        .or_else(|| row_culprit(supply, signs, standing, store))
}

/// Of [`reach`](crate::reach).
pub fn reach(geometry: Geometry, image: &[u32], other: &[u32]) -> Option<Culprit> {
    let images = [(Memory::Image, image), (Memory::OtherImage, other)];
    lent(geometry, &images, &[])
}

/// Of [`plan`](crate::plan).
pub fn plan(minute: u32, duration: u32, windows: &[[u32; 2]]) -> Option<Culprit> {
    plan_culprit(minute, duration, windows)
}

/// Of [`lanes_out`](crate::lanes_out) and [`lanes_back`](crate::lanes_back).
pub fn lanes(source: &[u8], target: &[u8]) -> Option<Culprit> {
    lane_lengths(source.len(), target.len())
}
