//! Garage hours: when a sign may be updated.

use crate::{ffi, Decline};

/// The smallest wait in minutes, 0 to 10,079, after which all minutes of a duration lie in the same window.
///
/// A week has minutes 0 to 10,079 from Monday 00:00; `minute` is the present one, and the duration has 1 to 1,440. There are 1 to 14
/// windows, each a start minute and a length of 1 to 10,080.
///
/// ```
/// use yohrundel::{plan, Decline};
///
/// // Tuesday from 01:00 for four hours, Sunday from 22:00 for six, past the end of the week.
/// let windows = [[1_500, 240], [9_960, 360]];
/// assert_eq!(plan(0, 60, &windows), Ok(0));
/// assert_eq!(plan(200, 60, &windows), Ok(1_300));
/// assert_eq!(plan(200, 361, &windows), Err(Decline::NoWait));
/// ```
///
/// # Errors
///
/// - [`Decline::Hours`]: the minute, the duration, the number of windows, or the start or length of a window is out of range.
/// - [`Decline::NoWait`]: no wait fits.
pub fn plan(minute: u32, duration: u32, windows: &[[u32; 2]]) -> Result<u32, Decline> {
    let answer = ffi::plan_numbers(minute, duration, windows.as_flattened());
    Decline::judge(answer.decline)?;
    Ok(answer.wait)
}
