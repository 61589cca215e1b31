//! The four windows, and the program pages that NVMPWP protects, for sizes that are in range.

use crate::Geometry;

/// "lower program region 0x1D000000, upper region directly after it".
const PROGRAM: u32 = 0x1D00_0000;

/// "lower boot alias 0x1FC00000, upper boot alias 0x1FC20000".
const BOOT: [u32; 2] = [0x1FC0_0000, 0x1FC2_0000];

/// The field PWP of NVMPWP.
const PWP: u32 = 0x00FF_FFFF;

/// The first and the last byte of both program regions, which adjoin, and of each boot alias.
pub type Windows = [[u32; 2]; 3];

fn page_bytes(geometry: Geometry) -> u32 {
    128 * geometry.q
}

/// P×128×Q.
pub fn region_bytes(geometry: Geometry) -> u32 {
    geometry.p * page_bytes(geometry)
}

pub fn windows(geometry: Geometry) -> Windows {
    let boot_bytes = geometry.b * page_bytes(geometry);
    let window = |first: u32, bytes: u32| [first, first + bytes - 1];
    let [lower, upper] = BOOT;
    [
        window(PROGRAM, 2 * region_bytes(geometry)),
        window(lower, boot_bytes),
        window(upper, boot_bytes),
    ]
}

pub fn is_in(windows: &Windows, address: u32) -> bool {
    let mut windows = windows.iter();
    windows.any(|[first, last]| (*first..=*last).contains(&address))
}

/// "the page's offset from 0x1D000000" of an address in a program page.
pub fn program_page(geometry: Geometry, address: u32) -> Option<u32> {
    let offset = address.checked_sub(PROGRAM)?;
    let inside = offset < 2 * region_bytes(geometry);
    inside.then(|| offset - offset % page_bytes(geometry))
}

/// PWP of a value of NVMPWP.
pub fn pwp(nvmpwp: u32) -> u32 {
    nvmpwp & PWP
}

/// "PWP not 0 and the page's offset .. at most PWP".
pub fn protects(nvmpwp: u32, offset: u32) -> bool {
    pwp(nvmpwp) != 0 && offset <= pwp(nvmpwp)
}
