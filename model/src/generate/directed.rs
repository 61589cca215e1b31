//! Directed cases: for each subject, inputs on both sides of every edge that its sentences draw.

mod fields;
mod impossible;
mod keys;
mod lanes;
mod launches;
mod loads;
mod operations;
mod orders;
mod pages;
mod parts;
mod plans;
mod probes;
mod protection;
mod reaches;
mod reads;
mod reasons;
mod resets;
mod rows;
mod schedules;
mod sheets;
mod singles;
mod smallest;
mod start_ups;
mod steps;
mod sums;
mod swaps;
mod tears;
mod tries;
mod updates;
mod waits;
mod writes;

pub use orders::ordered;
pub use reaches::ordered_reaches;
pub use schedules::ordered_schedules;
pub use sheets::ordered_sheets;
pub use smallest::ordered_smallest;
pub use writes::ordered_writes;

use std::collections::HashSet;

use crate::cases::Case;

/// A subject's name and what makes its cases.
pub struct Subject {
    pub name: &'static str,
    make: fn() -> Vec<Case>,
}

const fn subject(name: &'static str, make: fn() -> Vec<Case>) -> Subject {
    Subject { name, make }
}

pub const SUBJECTS: [Subject; 16] = [
    subject("rows", rows::cases),
    subject("reads", reads::cases),
    subject("launches", launches::cases),
    subject("steps", steps::cases),
    subject("swaps", swaps::cases),
    subject("keys", keys::cases),
    subject("fields", fields::cases),
    subject("resets", resets::cases),
    subject("tears", tears::cases),
    subject("start_ups", start_ups::cases),
    subject("orders", orders::cases),
    subject("singles", singles::cases),
    subject("impossible", impossible::cases),
    subject("pages", pages::cases),
    subject("protection", protection::cases),
    subject("updates", updates::cases),
];

/// Subjects of the calls that later requests added.
pub const REQUEST_SUBJECTS: [Subject; 13] = [
    subject("plans", plans::cases),
    subject("sheets", sheets::cases),
    subject("lanes", lanes::cases),
    subject("sums", sums::cases),
    subject("probes", probes::cases),
    subject("reasons", reasons::cases),
    subject("loads", loads::cases),
    subject("waits", waits::cases),
    subject("writes", writes::cases),
    subject("reaches", reaches::cases),
    subject("tries", tries::cases),
    subject("smallest", smallest::cases),
    subject("schedules", schedules::cases),
];

/// The cases of the base's subjects.
pub fn cases() -> Vec<(&'static str, Case)> {
    cases_of(&SUBJECTS)
}

/// The cases of the requests' subjects.
pub fn request_cases() -> Vec<(&'static str, Case)> {
    cases_of(&REQUEST_SUBJECTS)
}

/// The cases of the base's calls, of all subjects.
pub fn base_cases() -> Vec<(&'static str, Case)> {
    let mut all = [cases(), request_cases()].concat();
    all.retain(|(_, case)| case.call.of_base());
    all
}

/// The cases of some subjects; one that several of them make stands with the first.
fn cases_of(subjects: &[Subject]) -> Vec<(&'static str, Case)> {
    let mut seen = HashSet::new();
    let mut cases = Vec::new();
    for subject in subjects {
        for case in (subject.make)() {
            if seen.insert(case.inputs()) {
                cases.push((subject.name, case));
            }
        }
    }
    cases
}
