//! Which clause of declines 3 and 10 applies: one exactly where the number does, and the first of its sentence.

use model::cases::{Call, Case};
use model::clauses::DeviceClause::{self, *};
use model::clauses::{device_clause, sequence_clause, SequenceClause};
use model::device::*;
use model::generate::{directed, Cases};
use model::geometry::{Bank, Banks, Geometry};
use model::sequence::Reason;

const SMALL: Geometry = Geometry {
    row_quads: 1,
    boot_pages: 1,
    program_pages: 1,
};

/// Directed cases and some made from a seed.
fn cases() -> impl Iterator<Item = Case> {
    let directed = [directed::cases(), directed::request_cases()].concat();
    let made = Cases::new(3, 512).take(20_000);
    let made = made.chain(Cases::of_requests(3, 512).take(2_000));
    directed.into_iter().map(|(_, case)| case).chain(made)
}

#[test]
fn a_clause_of_3_exactly_where_a_device_is_impossible() {
    let mut counts = [0, 0];
    for case in cases().filter(|case| case.call.shape().device) {
        let Ok(geometry) = Geometry::new(case.geometry) else {
            continue;
        };
        let clause = device_clause(&geometry, &case.device);
        let possible = possible(&geometry, &case.device);
        assert_eq!(clause.is_none(), possible, "{clause:?} {}", case.inputs());
        counts[usize::from(possible)] += 1;
    }
    assert!(counts.iter().all(|count| *count > 1_000), "{counts:?}");
}

/// The clause of a start's banks, which have their length.
fn start_clause(case: &Case) -> Option<SequenceClause> {
    let geometry = Geometry::new(case.geometry).unwrap();
    let [mut one, mut two] = [0, 1].map(|bank| case.lists[bank].words());
    let banks = Banks {
        one: &mut one,
        two: &mut two,
    };
    sequence_clause(&geometry, &case.device, &banks)
}

#[test]
fn a_clause_of_10_exactly_where_a_start_is_declined_by_it() {
    let mut counts = [0, 0];
    for case in cases().filter(|case| [Call::UpdateStart, Call::WriteScript].contains(&case.call)) {
        let answer = case.answer().unwrap();
        let number: u32 = answer.split(' ').next().unwrap().parse().unwrap();
        // Where 1, 2, 3 or 5 applies nothing is said of 10.
        if number == 0 || number >= 10 {
            let clause = start_clause(&case);
            assert_eq!(clause.is_some(), number == 10, "{}", case.inputs());
            counts[usize::from(number == 10)] += 1;
        }
    }
    assert!(counts.iter().all(|count| *count > 300), "{counts:?}");
}

/// The numbers of a device after its registers: the key step, the step number, and what was launched.
const KEY_STEP: usize = 11;
const STEP: usize = 12;
const ADDRESS: usize = 13;
const DATA: usize = 14;
const SOURCE: usize = 18;

fn number(device: &mut Device, index: usize) -> &mut u32 {
    match index {
        KEY_STEP => &mut device.key_step,
        STEP => &mut device.step_number,
        ADDRESS => &mut device.launched.address,
        DATA..SOURCE => &mut device.launched.data[index - DATA],
        SOURCE => &mut device.launched.source,
        _ => &mut device.registers[index],
    }
}

/// From a device to which all clauses apply: the first is named, and then one of its numbers gets another value, by which the next is.
fn check_order(numbers: &[(usize, u32)], mends: &[(DeviceClause, usize, u32)]) {
    let mut device = Device::reset_values();
    for (index, value) in numbers {
        *number(&mut device, *index) = *value;
    }
    for (clause, index, value) in mends {
        assert_eq!(device_clause(&SMALL, &device), Some(*clause));
        *number(&mut device, *index) = *value;
    }
    assert_eq!(device_clause(&SMALL, &device), None);
}

#[test]
fn order_of_the_clauses_at_rest() {
    let numbers = [
        (NVMCON, 0x10),
        (NVMKEY, 7),
        (NVMPWP, 0x0100_0000),
        (NVMBWP, 0x9FBF),
        (NVMCON2, 0x20),
        (KEY_STEP, 4),
        (STEP, 9),
        (DATA + 3, 5),
        (SOURCE, 6),
    ];
    let unimplemented = |register, value| Unimplemented { register, value };
    let launched = |register, value| LaunchedAtRest { register, value };
    let mends = [
        (unimplemented(NVMCON, 0x10), NVMCON, 0),
        (unimplemented(NVMPWP, 0x0100_0000), NVMPWP, 0),
        (unimplemented(NVMBWP, 0x9FBF), NVMBWP, 0x9F9F),
        (unimplemented(NVMCON2, 0x20), NVMCON2, 0),
        (BitSixClear { nvmbwp: 0x9F9F }, NVMBWP, 0x40),
        (KeyNotZero { nvmkey: 7 }, NVMKEY, 0),
        (KeyStepAbove { key_step: 4 }, KEY_STEP, 3),
        (StepAtRest { step_number: 9 }, STEP, 0),
        (launched(NVMDATA0 + 3, 5), DATA + 3, 0),
        (launched(NVMSRCADDR, 6), SOURCE, 0),
    ];
    check_order(&numbers, &mends);
}

#[test]
fn order_of_the_clauses_while_an_operation_runs() {
    let numbers = [
        (NVMCON, WR | LVDERR | 8),
        (NVMPWP, 0x80),
        (KEY_STEP, 4),
        (STEP, 16),
    ];
    let (nvmpwp, address, step_number) = (0x80, 0x1D00_00FF, 16);
    let region = |nvmop, nvmpwp| ProtectedRegion { nvmop, nvmpwp };
    let past = |nvmop, length| StepPastEnd {
        nvmop,
        step_number,
        length,
    };
    let mends = [
        (KeyStepAbove { key_step: 4 }, KEY_STEP, 1),
        (KeyStepRunning { key_step: 1 }, KEY_STEP, 0),
        (NoWrerr { nvmcon: 0x9008 }, NVMCON, 0xB008),
        (Lvderr { nvmcon: 0xB008 }, NVMCON, 0xA008),
        (NoOperation { nvmcon: 0xA008 }, NVMCON, 0xA004),
        (Outside { address: 0 }, ADDRESS, address),
        (ProtectedPage { address, nvmpwp }, NVMCON, 0xA006),
        (region(6, 0x80), NVMPWP, 0x7F),
        (past(6, 8), NVMCON, 0xA005),
        (region(5, 0x7F), NVMPWP, 0),
        (past(5, 8), NVMCON, 0xA002),
        (past(2, 1), NVMCON, 0xA003),
        (past(3, 1), NVMCON, 0xA004),
        (past(4, 8), NVMCON, 0xA007),
        (past(7, 16), NVMPWP, 1),
        (region(7, 1), NVMPWP, 0),
        (past(7, 16), STEP, 15),
    ];
    check_order(&numbers, &mends);
}

/// Words of the sequence quads of two banks, and the mapping.
fn clause_of(nvmcon: u32, words: [u32; 2]) -> Option<SequenceClause> {
    let mut device = Device::reset_values();
    device.registers[NVMCON] = nvmcon;
    let [mut one, mut two] = words.map(|word| {
        let mut bank = [0; 64];
        bank[28] = word;
        bank
    });
    let banks = Banks {
        one: &mut one,
        two: &mut two,
    };
    sequence_clause(&SMALL, &device, &banks)
}

#[test]
fn order_of_the_clauses_of_a_start() {
    let invalid = |bank, word| Some(SequenceClause::LowerInvalid { bank, word });
    let chosen = |bank, reason, words| {
        Some(SequenceClause::OtherChosen {
            bank,
            reason,
            words,
        })
    };
    let disjoint = |bank, word| Some(SequenceClause::OtherDisjoint { bank, word });
    // T = 2 and T = 1.
    let (higher, lower) = (0xFFFD_0002, 0xFFFE_0001);
    assert_eq!(clause_of(PFSWAP, [0, higher]), invalid(Bank::One, 0));
    assert_eq!(
        clause_of(PFSWAP, [lower, higher]),
        chosen(Bank::Two, Reason::Higher, [lower, higher])
    );
    assert_eq!(
        clause_of(BFSWAP, [lower, lower]),
        chosen(Bank::One, Reason::Equal, [lower, lower])
    );
    assert_eq!(
        clause_of(PFSWAP, [lower, 0]),
        Some(SequenceClause::SwapsDiffer { nvmcon: 0x80 })
    );
    assert_eq!(clause_of(0, [lower, 0]), disjoint(Bank::Two, 0));
    assert_eq!(
        clause_of(PFSWAP | BFSWAP, [1, higher]),
        disjoint(Bank::One, 1)
    );
    assert_eq!(clause_of(0, [lower, 0x0001_0001]), None);
    assert_eq!(clause_of(0, [higher, lower]), None);
    assert_eq!(clause_of(0, [lower, lower]), None);
}
