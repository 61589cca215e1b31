//! The page sheet: the state of a sign as technicians print it.

use crate::{ffi, Decline, Device, Geometry};

/// Writes a line of 17 bytes for each page to the front of a buffer; gives the bytes of the sheet, [`Geometry::sheet_bytes`].
///
/// Bank 1 comes first, then bank 2; of each the boot pages, then the program pages, ascending. A line has the bank, B or P, the number of
/// the page among those of its kind, L or U for its present side, 1 where it is protected and else 0, and how many of its quads aren't all
/// ones. Bytes past the sheet keep their contents.
///
/// ```
/// use yohrundel::{page_sheet, Decline, Device, Geometry};
///
/// fn main() -> Result<(), Decline> {
///     let sign = Geometry { q: 1, b: 1, p: 1 };
///     let (one, two) = ([7; 64], [!0; 64]);
///     let mut sheet = vec![0; sign.sheet_bytes()?];
///     page_sheet(sign, Device::power_on(), &one, &two, &mut sheet)?;
///     assert!(sheet.starts_with(b"1 B   0 L 1    8\n1 P   0 L 0    8\n"));
///     Ok(())
/// }
/// ```
///
/// # Errors
///
/// - [`Decline::Geometry`]: Q, B or P is out of range.
/// - [`Decline::Length`]: a bank has another length than [`Geometry::bank_words`].
/// - [`Decline::Device`]: the device record is impossible.
/// - [`Decline::SheetBuffer`]: the buffer is shorter than the sheet.
pub fn page_sheet(
    geometry: Geometry,
    device: Device,
    one: &[u32],
    two: &[u32],
    buffer: &mut [u8],
) -> Result<usize, Decline> {
    let answer = ffi::page_sheet(geometry, device, one, two, buffer);
    Decline::judge(answer.decline)?;
    Ok(answer.bytes)
}
