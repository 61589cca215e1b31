//! Cases of the calls that later requests added: random and directed ones.

use model::cases::Case;
use model::generate::{directed, Cases, DEFAULT_WORDS, MOST_WORDS};

use crate::case::{check, is_call};
use crate::settings::{cases, seed, Report};

fn check_case(case: &Case) {
    let expected = case.answer().expect("a case that the model knows");
    check(&case.inputs(), &expected);
}

fn check_random(seed: u64, most_words: u32, count: usize) {
    let report = Report::new(format!(
        "requests on banks of up to {most_words} words, seed {seed}"
    ));
    let made = Cases::of_requests(seed, most_words).filter(|case| is_call(&case.inputs()));
    for case in made.take(count) {
        check_case(&case);
    }
    report.finish(format_args!("{count} cases"));
}

#[test]
fn random_short_requests() {
    check_random(seed(8), DEFAULT_WORDS, cases(20));
}

#[test]
fn random_long_requests() {
    check_random(seed(9), MOST_WORDS, cases(600));
}

#[test]
fn directed_requests() {
    let report = Report::new(String::from("directed requests"));
    let all = directed::request_cases().into_iter();
    let calls = all.map(|(_, case)| case);
    let calls: Vec<Case> = calls.filter(|case| is_call(&case.inputs())).collect();
    for case in &calls {
        check_case(case);
    }
    report.finish(format_args!("{} cases", calls.len()));
}
