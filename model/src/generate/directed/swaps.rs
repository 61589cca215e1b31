//! Stores under each SWAPLOCK, to PFSWAP and BFSWAP and to SWAPLOCK itself.

use crate::cases::Case;
use crate::device::*;
use crate::store::{INVERT, PLAIN};

use super::parts::*;

const LOCKS: [u32; 4] = [0, 0x40, 0x80, 0xC0];

pub fn cases() -> Vec<Case> {
    let mut cases = Vec::new();
    for lock in LOCKS {
        for form in PLAIN..=INVERT {
            swap_stores(lock, form, &mut cases);
            lock_stores(lock, form, &mut cases);
        }
    }
    cases
}

fn locked(lock: u32) -> Device {
    with_register(idle(), NVMCON2, RESETS[NVMCON2] | lock)
}

/// PFSWAP and BFSWAP: "WREN = 0, SWAPLOCK = 0, key open".
fn swap_stores(lock: u32, form: u32, cases: &mut Vec<Case>) {
    for value in [PFSWAP, BFSWAP, PFSWAP | BFSWAP, 0] {
        for before in [BFSWAP, PFSWAP | WREN] {
            for key_step in [2, 3] {
                let device = with_key(with_con(locked(lock), before), key_step);
                cases.push(store(&SMALL, device, NVMCON, form, value));
            }
        }
    }
}

/// SWAPLOCK: "needs SWAPLOCK other than 3", no key, any WREN.
fn lock_stores(lock: u32, form: u32, cases: &mut Vec<Case>) {
    for value in LOCKS {
        for (key_step, before) in [(0, 0), (3, WREN)] {
            let device = with_key(with_con(locked(lock), before), key_step);
            cases.push(store(&SMALL, device, NVMCON2, form, value));
        }
    }
}
