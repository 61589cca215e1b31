//! The page sheet: one line for each page of both banks.

use crate::device::{check_device, protected, Device};
use crate::geometry::{Bank, Banks, Geometry, Kind, Side, ALL_ONES};
use crate::{Answer, Refusal};

/// "the sheet 34×N".
pub fn sheet_bytes(geometry: &Geometry) -> u32 {
    34 * geometry.pages()
}

/// Writes the sheet at the buffer's start and gives its length; "Bytes past the sheet keep their contents".
pub fn page_sheet(
    numbers: [u32; 3],
    device: &Device,
    banks: &Banks,
    buffer: &mut [u8],
) -> Answer<u32> {
    let geometry = Geometry::new(numbers)?;
    banks.check(&geometry)?;
    check_device(&geometry, device)?;
    let length = sheet_bytes(&geometry);
    // Decline 18: "the buffer is shorter than the sheet"
    let place = buffer
        .get_mut(..length as usize)
        .ok_or(Refusal::SheetBuffer)?;
    place.copy_from_slice(sheet(&geometry, device, banks).as_bytes());
    Ok(length)
}

/// "bank 1 then bank 2, boot then program, ascending".
fn sheet(geometry: &Geometry, device: &Device, banks: &Banks) -> String {
    let mut text = String::new();
    for bank in [Bank::One, Bank::Two] {
        let mut pages = banks
            .words(bank)
            .chunks_exact(geometry.page_words() as usize);
        for kind in [Kind::Boot, Kind::Program] {
            let of_kind = pages.by_ref().take(geometry.window_pages(kind) as usize);
            for (page, words) in (0..).zip(of_kind) {
                text.push_str(&line(geometry, device, bank, kind, page, words));
            }
        }
    }
    text
}

/// "Each line is 17 bytes".
fn line(
    geometry: &Geometry,
    device: &Device,
    bank: Bank,
    kind: Kind,
    page: u32,
    words: &[u32],
) -> String {
    let number = bank.number();
    let letter = match kind {
        Kind::Boot => 'B',
        Kind::Program => 'P',
    };
    // "L or U for its present side"
    let (side, side_letter) = if device.bank_at(kind, Side::Lower) == bank {
        (Side::Lower, 'L')
    } else {
        (Side::Upper, 'U')
    };
    let protected = u32::from(protected(geometry, device, kind, side, page));
    // "quads that aren't all ones"
    let quads = words
        .chunks_exact(4)
        .filter(|quad| **quad != [ALL_ONES; 4])
        .count();
    format!("{number} {letter} {page:>3} {side_letter} {protected} {quads:>4}\n")
}
