//! Garage hours: the smallest wait after which an update lies in one window.

use crate::{Answer, Refusal};

/// "A week has minutes 0 to 10,079".
pub const WEEK: u32 = 10_080;

/// "a duration of 1 to 1,440 minutes".
pub const LONGEST: u32 = 1_440;

/// "There are 1 to 14 windows".
pub const MOST_WINDOWS: usize = 14;

/// "a start minute and a length of 1 to 10,080".
#[derive(Clone, Copy, Debug, PartialEq, Eq)]
pub struct Window {
    pub start: u32,
    pub length: u32,
}

impl Window {
    /// For each minute of the week whether the window holds it.
    fn minutes(&self) -> Vec<bool> {
        let mut held = vec![false; WEEK as usize];
        for passed in 0..self.length {
            // "may run past the end of the week"
            held[((self.start + passed) % WEEK) as usize] = true;
        }
        held
    }
}

/// "the smallest wait, 0 to 10,079, after which all those minutes .. lie in the same window".
pub fn plan(present: u32, duration: u32, windows: &[Window]) -> Answer<u32> {
    check_ranges(present, duration, windows)?;
    let windows: Vec<Vec<bool>> = windows.iter().map(Window::minutes).collect();
    for wait in 0..WEEK {
        for held in &windows {
            // "counted modulo 10,080"
            let mut minutes = (0..duration).map(|passed| (present + wait + passed) % WEEK);
            if minutes.all(|minute| held[minute as usize]) {
                return Ok(wait);
            }
        }
    }
    Err(Refusal::NoWait)
}

/// Decline 15: "any of these numbers out of range".
fn check_ranges(present: u32, duration: u32, windows: &[Window]) -> Answer<()> {
    let mut inside = (0..WEEK).contains(&present)
        && (1..=LONGEST).contains(&duration)
        && (1..=MOST_WINDOWS).contains(&windows.len());
    for window in windows {
        inside &= (0..WEEK).contains(&window.start) && (1..=WEEK).contains(&window.length);
    }
    if inside {
        Ok(())
    } else {
        Err(Refusal::WeekRange)
    }
}
