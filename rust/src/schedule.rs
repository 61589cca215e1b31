//! A row of signs on one supply.

use crate::{ffi, Decline, Device, Geometry};

/// The most signs of a row, and the most flash operations that its supply may bear together.
pub const MOST_SIGNS: usize = 32;

/// A sign of a row.
#[repr(C)]
#[derive(Clone, Copy, Debug, PartialEq, Eq, Hash)]
pub struct SignRecord {
    /// Its device.
    pub device: Device,
    /// Its place in the update: 0 at an update start, and set by each call that serves the sign.
    pub place: u32,
    /// The index in the store of bank 1's first word.
    pub one: u32,
    /// The index in the store of bank 2's first word.
    pub two: u32,
}

/// The signs that wait, by their indexes in the list. [`Queue::default`] is nobody.
#[repr(C)]
#[derive(Clone, Copy, Debug, Default, PartialEq, Eq, Hash)]
pub struct Queue {
    /// How many wait.
    pub count: u32,
    /// The longest waiting first. What stands past the count is not read, and an accepted call leaves 0 there.
    pub numbers: [u32; MOST_SIGNS],
}

impl Queue {
    /// The queue of these signs, the longest waiting first. Of more than [`MOST_SIGNS`] it has their count and the first of them, and
    /// [`schedule`] declines it.
    pub fn of(waiting: &[u32]) -> Queue {
        let mut queue = Queue {
            count: u32::try_from(waiting.len()).unwrap_or(u32::MAX),
            ..Queue::default()
        };
        for (number, record) in queue.numbers.iter_mut().zip(waiting) {
            *number = *record;
        }
        queue
    }

    /// Who waits, the longest waiting first.
    pub fn waiting(&self) -> &[u32] {
        let count = MOST_SIGNS.min(self.count as usize);
        &self.numbers[..count]
    }
}

/// What stands beside a list of signs from one call to the next.
#[derive(Clone, Copy, Debug, PartialEq, Eq, Hash)]
pub struct Standing {
    /// Who waits.
    pub queue: Queue,
    /// The index of the sign last served.
    pub last: u32,
}

impl Standing {
    /// What a row of so many signs begins with: nobody waits, and the last served is the list's last.
    pub fn fresh(signs: usize) -> Standing {
        Standing {
            queue: Queue::default(),
            last: u32::try_from(signs).unwrap_or(u32::MAX).wrapping_sub(1),
        }
    }
}

/// What all signs of a row have in common.
#[derive(Clone, Copy, Debug, PartialEq, Eq, Hash)]
pub struct Supply<'a> {
    /// The sizes of each sign.
    pub geometry: Geometry,
    /// How many flash operations the supply bears together, 1 to 32. It may be another at each call.
    pub k: u32,
    /// The image, one bank long.
    pub image: &'a [u32],
    /// The SRAM.
    pub sram: &'a [u32],
}

/// The sign that a call served.
#[derive(Clone, Copy, Debug, PartialEq, Eq, Hash)]
pub struct Served {
    /// Its index in the list.
    pub record: u32,
    /// Whether its turn gave an event.
    pub event: bool,
}

/// One turn for one sign of a row, in which never more than K operations run together; none where there is nobody to serve.
///
/// With fewer than K operations running it serves the first in the queue whose turn is not declined and not done, which then leaves the
/// queue. Else it serves the first after the last served, round the list, that can do a turn and does not wait. Of the signs that it meets
/// there, those whose turn would launch an operation while K or more run begin to wait, in record order. A sign that is done, or whose
/// [`turn`](crate::turn) would be declined, is passed over.
///
/// No call raises the number of running operations above K; where more than a smaller K run, they go on, and nobody launches. No sign
/// launches twice while one and the same other sign waits that is not passed over. A call changes the device and the place of the sign that
/// it serves and words of that sign's banks, and nothing else of the list and the store. So what holds of one update that is cut holds for
/// each sign when all are reset together. Ask [`update_start`](crate::update_start) for each sign before the first call.
///
/// ```
/// use yohrundel::{schedule, Decline, Device, Geometry, SignRecord, Standing, Supply};
///
/// fn main() -> Result<(), Decline> {
///     let geometry = Geometry { q: 1, b: 1, p: 1 };
///     // Two signs on bank 1, with the banks of each one after another.
///     let mut store = [!0; 256];
///     let mut signs = [0, 128].map(|one| SignRecord { device: Device::power_on(), place: 0, one, two: one + 64 });
///     for sign in &signs {
///         store[sign.one as usize + geometry.sequence_index()?] = 0xFFFE_0001;
///     }
///     let supply = Supply { geometry, k: 1, image: &[7; 64], sram: &[] };
///     let mut standing = Standing::fresh(signs.len());
///     let mut calls = 0;
///     while schedule(supply, &mut signs, &mut standing, &mut store)?.is_some() {
///         assert!(signs.iter().filter(|sign| sign.device.operation_runs()).count() <= 1);
///         calls += 1;
///     }
///     // Each sign's 252 actions, and both new banks.
///     assert_eq!(calls, 2 * 252);
///     assert_eq!([store[64], store[192]], [7, 7]);
///     Ok(())
/// }
/// ```
///
/// # Errors
///
/// - [`Decline::Geometry`]: Q, B or P is out of range.
/// - [`Decline::Length`]: the image has another length than [`Geometry::bank_words`], or the SRAM more than 16,384 words.
/// - [`Decline::Row`]: a list of no sign or of more than [`MOST_SIGNS`]; K of 0 or above it; a last served or a number in the queue that is
///   no index of the list; a queue of more than [`MOST_SIGNS`] or with a number twice; banks that overlap, also those of one sign, or do
///   not lie in the store.
pub fn schedule(
    supply: Supply,
    signs: &mut [SignRecord],
    standing: &mut Standing,
    store: &mut [u32],
) -> Result<Option<Served>, Decline> {
    let answer = ffi::schedule(supply, signs, *standing, store);
    // Where it is declined both are those that were handed over.
    *standing = Standing {
        queue: answer.queue,
        last: answer.last,
    };
    Decline::judge(answer.decline)?;
    let served = Served {
        record: answer.served,
        event: answer.event,
    };
    Ok((!answer.idle).then_some(served))
}
