//! Scripts at the edges of decline 14, and records that are played and refused.

use crate::device::*;
use crate::geometry::{ALL_ONES, LOWER_BOOT, LOWER_PROGRAM};
use crate::script::Record;
use crate::store::{CLEAR, INVERT, KEYS, PLAIN, SET};

use super::scripts::{keys, store};

/// Scripts that are played, then those under decline 14.
pub fn record_edges() -> Vec<Vec<u8>> {
    [played_scripts(), refused_scripts()].concat()
}

fn bytes(records: &[Record]) -> Vec<u8> {
    records.iter().flat_map(Record::bytes).collect()
}

/// NVMOP and its target, keys, NVMCON set 0x8000.
fn launch(records: &mut Vec<Record>, nvmop: u32, address: u32) {
    store(records, NVMCON, CLEAR, WREN);
    store(records, NVMADDR, PLAIN, address);
    store(records, NVMCON, PLAIN, nvmop);
    store(records, NVMCON, SET, WREN);
    keys(records);
    store(records, NVMCON, SET, WR);
}

fn steps(records: &mut Vec<Record>, count: usize) {
    records.extend(std::iter::repeat_n(Record::Step, count));
}

/// The records before the one that is changed: idle for a store, a page erase that runs for the others.
fn front(record: &[u8; 8]) -> Vec<u8> {
    let mut records = Vec::new();
    if record[0] == 0 {
        store(&mut records, NVMCON, PLAIN, WREN | 2);
    } else {
        launch(&mut records, 4, LOWER_PROGRAM);
        steps(&mut records, 1);
    }
    bytes(&records)
}

/// A store, a step, and resets of each kind.
fn good_records() -> [[u8; 8]; 6] {
    [
        [0, 2, 0, 0, 0x80, 0, 0, 0x1D],
        [0, 0, 2, 0, 0, 0x40, 0, 0],
        [1, 0, 0, 0, 0, 0, 0, 0],
        [2, 0, 0, 0, 0, 0, 0, 0],
        [2, 1, 0, 0, 0, 0, 0, 0],
        [2, 2, 0, 0, 0, 0, 0, 0],
    ]
}

/// The good and the bad values of a byte at each place of a record of each kind.
fn values(kind: u8, place: usize) -> (&'static [u8], &'static [u8]) {
    match (kind, place) {
        (_, 0) => (&[], &[3, 4, 128, 255]),
        (0, 1) => (&[0, 1, 3, 10], &[11, 12, 128, 255]),
        (0, 2) => (&[0, 1, 2, 3], &[4, 5, 128, 255]),
        (2, 1) => (&[0, 1, 2], &[3, 4, 10, 128, 255]),
        (_, 3) => (&[0], &[1, 128, 255]),
        (0, _) => (&[0, 1, 128, 255], &[]),
        _ => (&[0], &[1, 2, 128, 255]),
    }
}

/// Scripts whose last record has one byte changed to each of some values.
fn changed(choose: fn(u8, usize) -> &'static [u8]) -> Vec<Vec<u8>> {
    let mut scripts = Vec::new();
    for record in good_records() {
        for place in 0..8 {
            for value in choose(record[0], place) {
                let mut last = record;
                last[place] = *value;
                let script = [front(&record), last.to_vec()].concat();
                if !scripts.contains(&script) {
                    scripts.push(script);
                }
            }
        }
    }
    scripts
}

/// Scripts under decline 14.
pub fn refused_scripts() -> Vec<Vec<u8>> {
    let mut scripts = changed(|kind, place| values(kind, place).1);
    scripts.extend(other_kinds());
    scripts.extend(bad_before_good());
    scripts.extend(bad_lengths());
    scripts
}

/// A store's bytes as a step or a reset, whose register, form and value must be 0.
fn other_kinds() -> Vec<Vec<u8>> {
    let mut scripts = Vec::new();
    for kind in [1, 2] {
        for record in [
            [kind, 2, 0, 0, 0x80, 0, 0, 0x1D],
            [kind, 0, 2, 0, 0, 0x40, 0, 0],
        ] {
            scripts.push([front(&record), record.to_vec()].concat());
        }
    }
    scripts
}

/// A bad record first and in the middle: nothing before or after it is played.
fn bad_before_good() -> Vec<Vec<u8>> {
    let good: Vec<u8> = good_records().concat();
    let bad = [
        [3, 0, 0, 0, 0, 0, 0, 0],
        [0, 11, 0, 0, 0, 0, 0, 0],
        [0, 0, 4, 0, 0, 0, 0, 0],
        [0, 0, 0, 1, 0, 0, 0, 0],
        [0, 1, 4, 0, 0, 0, 0, 0],
        [1, 1, 0, 0, 0, 0, 0, 0],
        [1, 0, 0, 0, 0, 0, 0, 1],
        [2, 3, 0, 0, 0, 0, 0, 0],
        [2, 0, 0, 0, 0, 0, 1, 0],
    ];
    let first = bad.iter().map(|bad| [bad.to_vec(), good.clone()].concat());
    let middle = bad
        .iter()
        .map(|bad| [good.clone(), bad.to_vec(), good.clone()].concat());
    first.chain(middle).collect()
}

/// Lengths of 1 to 7 more than a multiple of 8, by zeros and by the beginning of a good record.
fn bad_lengths() -> Vec<Vec<u8>> {
    let mut scripts = Vec::new();
    for more in 1..8 {
        for record in [[0; 8], good_records()[0]] {
            scripts.push(record[..more].to_vec());
            scripts.push([front(&record), record[..more].to_vec()].concat());
        }
        let running = front(&good_records()[2]);
        scripts.push([running, good_records()[2][..more].to_vec()].concat());
    }
    // One byte of either record is the same.
    scripts.sort();
    scripts.dedup();
    scripts
}

/// Scripts that are played.
fn played_scripts() -> Vec<Vec<u8>> {
    let mut scripts = changed(|kind, place| values(kind, place).0);
    let made: [fn(&mut Vec<Record>); 16] = [
        key_forms_while_idle,
        key_forms_while_running,
        every_register_and_form,
        stores_while_running,
        steps_while_idle,
        idle_resets,
        running_resets,
        nothing_torn,
        inverted_address,
        inverted_program_protection,
        inverted_boot_protection,
        inverted_swap_lock,
        row_without_data,
        loaded_early,
        loaded_before_a_reset,
        loaded_out_of_the_windows,
    ];
    for make in made {
        let mut records = Vec::new();
        make(&mut records);
        scripts.push(bytes(&records));
    }
    scripts.extend((0..5).map(inverted_data));
    scripts
}

/// NVMKEY with forms 1 to 3 between the keys: declined as 4, and the key stays where it was.
fn key_forms_while_idle(records: &mut Vec<Record>) {
    store(records, NVMADDR, PLAIN, LOWER_PROGRAM);
    store(records, NVMCON, PLAIN, WREN | 4);
    for key in KEYS {
        for form in [CLEAR, SET, INVERT] {
            store(records, NVMKEY, form, key);
        }
        store(records, NVMKEY, PLAIN, key);
    }
    store(records, NVMKEY, SET, 0);
    store(records, NVMCON, SET, WR);
}

/// While an operation runs: 4 for those forms, 5 for form 0.
fn key_forms_while_running(records: &mut Vec<Record>) {
    launch(records, 5, 0);
    for form in [CLEAR, SET, INVERT, PLAIN] {
        store(records, NVMKEY, form, 0);
    }
    steps(records, 9);
}

/// Each register with each form.
fn every_register_and_form(records: &mut Vec<Record>) {
    for register in 0..REGISTERS {
        for form in PLAIN..=INVERT {
            store(records, register, form, 0x4080_00C5);
        }
    }
}

/// Each register while a page erase runs: 5, or 0 for NVMADDR, NVMDATA0 to 3 and NVMSRCADDR; the erase goes on as launched.
fn stores_while_running(records: &mut Vec<Record>) {
    launch(records, 4, LOWER_PROGRAM + 0x80);
    for register in 0..REGISTERS {
        store(records, register, PLAIN, ALL_ONES);
        records.push(Record::Step);
    }
}

/// Steps before a launch, after a failure and after the last step: 6.
fn steps_while_idle(records: &mut Vec<Record>) {
    steps(records, 1);
    launch(records, 2, LOWER_PROGRAM + 0x100);
    steps(records, 1);
    launch(records, 0, 0);
    launch(records, 2, LOWER_PROGRAM);
    steps(records, 2);
    launch(records, 2, LOWER_PROGRAM);
    steps(records, 2);
}

/// Each kind with WR = 0; PFSWAP, WREN, NVMOP and errors are cleared or kept.
fn idle_resets(records: &mut Vec<Record>) {
    for kind in [2, 1, 0, 2] {
        launch(records, 4, 0);
        keys(records);
        store(records, NVMCON, CLEAR, WREN);
        keys(records);
        store(records, NVMCON, SET, WREN | PFSWAP | BFSWAP | 3);
        records.push(Record::Reset { kind });
        records.push(Record::Reset { kind });
        launch(records, 0, 0);
    }
}

/// Each kind with WR = 1, the brown-out's LVDERR kept by others, cleared by NVMOP 0 or power-on.
fn running_resets(records: &mut Vec<Record>) {
    for (first, second) in [(1, 2), (2, 1), (1, 1), (0, 1), (1, 0)] {
        launch(records, 7, 0);
        steps(records, 9);
        records.push(Record::Reset { kind: first });
        records.push(Record::Reset { kind: second });
        launch(records, 6, 0);
        launch(records, 0, 0);
    }
}

/// Resets use mask 0: the quad is still blank, and the next program of it does not abort.
fn nothing_torn(records: &mut Vec<Record>) {
    for kind in 0..3 {
        launch(records, 2, LOWER_PROGRAM + 16 * u32::from(kind));
        records.push(Record::Reset { kind });
        launch(records, 0, 0);
        launch(records, 2, LOWER_PROGRAM + 16 * u32::from(kind));
        steps(records, 1);
    }
}

/// NVMADDR inverted into the windows and out of them.
fn inverted_address(records: &mut Vec<Record>) {
    for address in [LOWER_PROGRAM + 0x100, LOWER_PROGRAM] {
        store(records, NVMCON, PLAIN, 4);
        store(records, NVMADDR, PLAIN, address);
        store(records, NVMADDR, INVERT, 0x100);
        store(records, NVMCON, INVERT, WREN);
        keys(records);
        store(records, NVMCON, INVERT, WR);
        steps(records, 8);
        store(records, NVMCON, INVERT, WREN);
    }
}

/// PWP inverted without the key, with it, and under its lock.
fn inverted_program_protection(records: &mut Vec<Record>) {
    store(records, NVMPWP, INVERT, 1);
    launch(records, 5, 0);
    steps(records, 8);
    keys(records);
    store(records, NVMPWP, INVERT, 0x8000_0001);
    launch(records, 5, 0);
    launch(records, 0, 0);
    keys(records);
    store(records, NVMPWP, INVERT, 0x8000_0001);
    launch(records, 5, 0);
    launch(records, 0, 0);
    launch(records, 6, 0);
    steps(records, 8);
}

/// LBWP0 inverted: the second quad program aborts only where the first one wrote.
fn inverted_boot_protection(records: &mut Vec<Record>) {
    for invert in [false, true] {
        keys(records);
        store(records, NVMBWP, INVERT, u32::from(invert) << 8);
        for _ in 0..2 {
            launch(records, 2, LOWER_BOOT);
            steps(records, 1);
        }
    }
}

/// SWAPLOCK inverted to 3 between two swaps.
fn inverted_swap_lock(records: &mut Vec<Record>) {
    for _ in 0..2 {
        keys(records);
        store(records, NVMCON, INVERT, PFSWAP | BFSWAP);
        store(records, NVMCON2, INVERT, SWAPLOCK);
    }
}

/// No SRAM: a row program aborts, but in a protected boot page it ends.
fn row_without_data(records: &mut Vec<Record>) {
    launch(records, 3, LOWER_PROGRAM);
    steps(records, 2);
    launch(records, 0, 0);
    launch(records, 3, LOWER_BOOT);
    steps(records, 2);
}

/// The next target and data stored while a program runs: each quad is written once, so that no program aborts.
fn loaded_early(records: &mut Vec<Record>) {
    launch(records, 2, LOWER_PROGRAM);
    for number in 1..4 {
        store(records, NVMADDR, PLAIN, LOWER_PROGRAM + 16 * number);
        for word in 0..4 {
            store(records, NVMDATA0 + word, PLAIN, number);
        }
        steps(records, 1);
        keys(records);
        store(records, NVMCON, SET, WR);
    }
    steps(records, 2);
}

/// A reset of each kind after a load: kinds 1 and 2 keep what was loaded, and a launch without an address of its own uses it.
fn loaded_before_a_reset(records: &mut Vec<Record>) {
    for kind in 0..3 {
        launch(records, 4, LOWER_PROGRAM);
        store(records, NVMADDR, PLAIN, LOWER_PROGRAM + 0x80);
        records.push(Record::Reset { kind });
        launch_loaded(records, 0);
        launch_loaded(records, 4);
        steps(records, 1);
        records.push(Record::Reset { kind: 0 });
    }
}

/// NVMADDR stored outside the windows: the running erase ends, the next launch fails.
fn loaded_out_of_the_windows(records: &mut Vec<Record>) {
    launch(records, 4, LOWER_PROGRAM + 0x80);
    steps(records, 1);
    store(records, NVMADDR, PLAIN, LOWER_PROGRAM + 0x100);
    steps(records, 7);
    launch_loaded(records, 4);
}

/// A launch at the address that NVMADDR has.
fn launch_loaded(records: &mut Vec<Record>, nvmop: u32) {
    store(records, NVMCON, CLEAR, WREN);
    store(records, NVMCON, PLAIN, nvmop);
    store(records, NVMCON, SET, WREN);
    keys(records);
    store(records, NVMCON, SET, WR);
}

/// NVMDATA0 to 3 inverted from 0 to all ones, but for one: the second program aborts then.
fn inverted_data(but: usize) -> Vec<u8> {
    let mut records = Vec::new();
    for word in 0..4 {
        let value = if word == but { ALL_ONES - 1 } else { ALL_ONES };
        store(&mut records, NVMDATA0 + word, INVERT, value);
    }
    for _ in 0..2 {
        launch(&mut records, 2, LOWER_PROGRAM);
        steps(&mut records, 1);
    }
    bytes(&records)
}
