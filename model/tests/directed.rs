//! Directed cases and scripts are what they are meant to be.

use std::collections::{BTreeMap, BTreeSet};

use model::cases::{answer_line, Call, Case};
use model::device::{WR, WRERR};
use model::generate::directed::{
    cases, ordered, ordered_reaches, ordered_schedules, ordered_sheets, ordered_smallest,
    ordered_writes, request_cases,
};
use model::generate::{line, record_edges, refused_scripts};
use model::script::play;

/// The numbers of a device.
const DEVICE: usize = 19;

/// Where NVMCON stands in an answer that gives a device.
const CON: usize = 1;

/// Where the number or the event after such a device stands.
const AFTER_DEVICE: usize = 20;

/// Where the event stands in a turn's answer: after done, the device and the place.
const TURN_EVENT: usize = 22;

/// Where the event and NVMCON stand in a flash read's answer, and what changed in the banks.
const READ_EVENT: usize = 2;
const READ_CON: usize = 3;
const READ_CHANGES: usize = 22;

fn numbers(case: &Case) -> Vec<u32> {
    let answer = case.answer().expect("a case of a known call");
    answer
        .split(' ')
        .map(|part| part.parse().unwrap())
        .collect()
}

/// Where the calls of a row ended: nobody was served, all were served, or some calls were idle or declined.
fn row_outcome(case: &Case, numbers: &[u32]) -> &'static str {
    let calls = numbers.chunks(3).take(case.numbers[0] as usize);
    let served = calls.filter(|call| call[..2] == [0, 0]).count();
    match served {
        0 => "nobody",
        _ if served == case.numbers[0] as usize => "all",
        _ => "some",
    }
}

/// A list of calls has no answer of its own. A run ends with the bank that runs; what a walk changed in the banks follows the device.
fn list_outcome(case: &Case, numbers: &[u32]) -> String {
    let old = case.device.lower_alias_bank().number();
    let text = match (case.call, numbers[numbers.len() - 1]) {
        (Call::Run, 0) => "none",
        (Call::Run, bank) if bank == old => "old",
        (Call::Run, _) => "new",
        (Call::RowRun, _) => row_outcome(case, numbers),
        _ if numbers[3 * case.numbers[0] as usize + DEVICE] > 0 => "written",
        _ => "untouched",
    };
    String::from(text)
}

/// Whom an accepted call of a row served: a waiting sign, the first after the last served, or nobody; and whether others began to wait.
fn schedule_outcome(case: &Case, numbers: &[u32]) -> &'static str {
    let (idle, served, waiting) = (numbers[1] == 1, numbers[2], numbers[4] as usize);
    let queue = &case.row.queue;
    match (idle, waiting > queue.len()) {
        (true, true) => "idle/begin",
        (true, false) => "idle",
        (false, true) => "round/begin",
        _ if queue.first() == Some(&served) => "head",
        _ if queue.contains(&served) => "behind",
        _ => "round",
    }
}

/// What became of a case, in a few words.
fn outcome(case: &Case) -> String {
    let numbers = numbers(case);
    if case.call.is_list() {
        return list_outcome(case, &numbers);
    }
    if case.call == Call::CompareReason {
        return format!("{}/{}", numbers[0], numbers[1]);
    }
    let named = matches!(
        case.call,
        Call::Compare | Call::CompareReason | Call::Possible | Call::Protected | Call::ValidBySum
    );
    if named || numbers[0] != 0 {
        return numbers[0].to_string();
    }
    let text = match case.call {
        Call::Store if case.device.running() => "loaded",
        Call::Store if numbers[CON] & WR != 0 => "launched",
        Call::Store if numbers[AFTER_DEVICE] == 1 => "failed",
        Call::Step if numbers[AFTER_DEVICE + 1] > 0 => "written",
        Call::Step if numbers[AFTER_DEVICE] == 1 && numbers[CON] & WRERR != 0 => "aborted",
        Call::Step => "counted",
        Call::FlashRead if numbers[READ_EVENT] == 0 => "accepted",
        Call::FlashRead if numbers[READ_CON] & WRERR != 0 => "aborted",
        Call::FlashRead if numbers[READ_CHANGES] > 0 => "written",
        Call::FlashRead => "counted",
        Call::Reset if numbers[AFTER_DEVICE + 1] > 0 => "torn",
        Call::Reset => "untouched",
        Call::Smallest if 8 * numbers[1] as usize == case.lists[5].length => "whole",
        Call::Smallest => "reduced",
        Call::Schedule => schedule_outcome(case, &numbers),
        Call::Reach => ["action", "none", "words"][numbers[1] as usize],
        Call::Turn if numbers[1] == 1 => "done",
        Call::Turn if numbers[TURN_EVENT + 1] > 0 => "written",
        Call::Turn if numbers[TURN_EVENT] == 1 => "event",
        _ => "accepted",
    };
    String::from(text)
}

/// The outcomes of a subject's cases, by call.
fn outcomes() -> BTreeMap<(&'static str, &'static str), BTreeSet<String>> {
    let mut outcomes: BTreeMap<_, BTreeSet<String>> = BTreeMap::new();
    for (subject, case) in cases().into_iter().chain(request_cases()) {
        let call = case.call.shape().name;
        outcomes
            .entry((subject, call))
            .or_default()
            .insert(outcome(&case));
    }
    outcomes
}

/// The outcomes of each subject's cases of a call.
const EXPECTED: &[(&str, &str, &str)] = &[
    ("rows", "step", "written aborted counted 2"),
    ("rows", "reset", "torn untouched 2"),
    ("reads", "flash_read", "accepted written aborted counted 8"),
    ("reads", "lower_bank", "accepted"),
    ("launches", "store", "launched failed accepted"),
    ("steps", "step", "written aborted counted"),
    ("swaps", "store", "accepted"),
    ("keys", "store", "accepted 4"),
    ("keys", "register_read", "accepted"),
    ("fields", "store", "launched accepted"),
    ("resets", "reset", "torn untouched 7"),
    ("tears", "reset", "torn untouched"),
    ("start_ups", "startup", "accepted 5"),
    ("orders", "store", "accepted 1 3 4 5"),
    ("orders", "register_read", "accepted 1 3 4"),
    ("orders", "flash_read", "accepted counted 1 2 3 8"),
    ("orders", "lower_bank", "1 2 3"),
    ("orders", "page", "accepted 1 2 8"),
    ("orders", "step", "counted 1 2 3 6"),
    ("orders", "reset", "untouched 1 2 3 7"),
    ("orders", "startup", "accepted 1 3 5"),
    ("orders", "update_start", "accepted 1 2 3 5 10 11 12"),
    ("orders", "turn", "accepted 1 2 3 5 6 13"),
    ("impossible", "possible", "0 1"),
    ("pages", "page", "accepted 2 8"),
    ("protection", "protected", "0 1"),
    ("updates", "update_start", "accepted 2 5 10 11 12"),
    ("updates", "turn", "accepted written event done 2 5 6 13"),
    ("plans", "plan", "accepted 15 16"),
    ("sheets", "page_sheet", "accepted 1 2 3 18"),
    ("lanes", "lanes_out", "accepted 22"),
    ("lanes", "lanes_back", "accepted 22"),
    ("sums", "valid_by_sum", "0 1"),
    ("probes", "register_read", "accepted 4"),
    ("probes", "walk", "written untouched"),
    ("reasons", "compare_reason", "1/0 1/1 1/2 1/3 2/0 2/2"),
    ("loads", "possible", "0 1"),
    ("loads", "store", "loaded launched failed accepted 3 4 5"),
    ("loads", "register_read", "accepted 3 4"),
    ("loads", "flash_read", "accepted written aborted 3"),
    ("loads", "lower_bank", "accepted 3"),
    ("loads", "step", "written aborted counted 3"),
    ("loads", "reset", "torn untouched 3"),
    ("loads", "startup", "3 5"),
    ("loads", "update_start", "3 5"),
    ("loads", "turn", "accepted written event done 3 5 13"),
    ("loads", "page_sheet", "accepted"),
    ("loads", "walk", "written"),
    (
        "waits",
        "flash_read",
        "accepted written aborted counted 2 8",
    ),
    ("waits", "turn", "accepted done 6"),
    ("waits", "step", "6"),
    ("waits", "reset", "untouched"),
    ("waits", "startup", "accepted"),
    ("waits", "update_start", "accepted 10"),
    ("waits", "walk", "written untouched"),
    ("writes", "write_script", "accepted 1 2 3 5 10 11 12 17"),
    ("reaches", "reach", "action none words 1 2"),
    ("tries", "run", "old new none"),
    ("smallest", "smallest", "whole reduced 1 2 3 14 20 21"),
    (
        "schedules",
        "schedule",
        "head behind round round/begin idle idle/begin 1 2 19",
    ),
    ("schedules", "rowrun", "all some nobody"),
];

#[test]
fn both_sides_of_each_subject_occur() {
    let outcomes = outcomes();
    for (subject, call, expected) in EXPECTED.iter().copied() {
        let expected: BTreeSet<String> = expected.split(' ').map(String::from).collect();
        assert_eq!(outcomes[&(subject, call)], expected, "{subject} {call}");
    }
}

#[test]
fn every_call_declines_an_impossible_device() {
    let outcomes = outcomes();
    for call in [
        "store",
        "register_read",
        "flash_read",
        "lower_bank",
        "step",
        "reset",
        "startup",
        "update_start",
        "turn",
    ] {
        let expected = BTreeSet::from([String::from("3")]);
        assert_eq!(outcomes[&("impossible", call)], expected, "{call}");
    }
}

/// "Decline 9 no longer occurs".
#[test]
fn no_call_is_declined_with_9() {
    for ((subject, call), outcomes) in outcomes() {
        if !matches!(call, "compare" | "plan") {
            assert!(!outcomes.contains("9"), "{subject} {call}");
        }
    }
}

#[test]
fn the_lowest_decline_is_given() {
    let requests = [
        ordered_sheets(),
        ordered_writes(),
        ordered_reaches(),
        ordered_smallest(),
        ordered_schedules(),
    ]
    .concat();
    for (lowest, case) in ordered().into_iter().chain(requests) {
        assert_eq!(numbers(&case)[0], lowest, "{}", case.inputs());
    }
}

#[test]
fn directed_cases_come_back() {
    let mut seen = BTreeSet::new();
    for (_, case) in cases().into_iter().chain(request_cases()) {
        let line = line(&case).unwrap();
        assert_eq!(Case::parse(&line).as_ref(), Some(&case));
        assert_eq!(line, format!("{} | {}", case.inputs(), answer_line(&line)));
        assert!(seen.insert(case.inputs()), "twice: {line}");
    }
}

#[test]
fn scripts_at_the_edges_of_decline_14() {
    let (all, refused) = (record_edges(), refused_scripts());
    let mut played = 0;
    for script in &all {
        let refused = refused.contains(script);
        assert_eq!(play(script) == "14\n", refused, "{script:?}");
        played += usize::from(!refused);
    }
    assert!(played > 60 && all.len() - played > 150);
    let once: BTreeSet<&Vec<u8>> = all.iter().collect();
    assert_eq!(once.len(), all.len());
}

/// Each answer that a record can have occurs in the scripts that are played.
#[test]
fn records_answered_4_5_and_6() {
    let mut answers = BTreeSet::new();
    for script in record_edges() {
        for line in play(&script).lines() {
            answers.extend(line.split(' ').nth(1).map(String::from));
        }
    }
    assert_eq!(answers, ["0", "4", "5", "6"].map(String::from).into());
}
