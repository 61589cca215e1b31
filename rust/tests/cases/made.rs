//! Cases that the model makes while the test runs.

use model::cases::Case;
use model::generate::{directed, Cases, DEFAULT_WORDS, MOST_WORDS};

use crate::run::check;

fn check_all(cases: impl IntoIterator<Item = Case>) {
    let answered = cases.into_iter().map(|case| {
        let expected = case.answer().expect("a case that the model knows");
        (case.inputs(), expected)
    });
    check(&answered.collect::<Vec<_>>());
}

/// Those of the base's calls are among the conformance program's inputs.
#[test]
fn directed_requests() {
    check_all(directed::request_cases().into_iter().map(|(_, case)| case));
}

#[test]
fn random_cases() {
    check_all(Cases::new(11, DEFAULT_WORDS).take(5_000));
    check_all(Cases::of_requests(12, DEFAULT_WORDS).take(2_000));
}

#[test]
fn random_long_cases() {
    check_all(Cases::new(13, MOST_WORDS).take(200));
    check_all(Cases::of_requests(14, MOST_WORDS).take(50));
}
