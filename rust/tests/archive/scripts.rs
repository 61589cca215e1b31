//! Plays of scripts: random and damaged, at the edges of decline 14, and stored ones.

use std::path::Path;

use model::cases::Call;
use model::generate::{self, Cases};
use model::random::Random;
use model::script::{play, BYTE_LIMIT};

use crate::play_cases::Bench;
use crate::settings::{cases, seed, Report};

/// A length for the buffer of an output.
fn buffer_length(random: &mut Random, output: usize) -> usize {
    match random.below(6) {
        0 => 0,
        1 => output.saturating_sub(1),
        2 => output,
        3 => output + 1,
        4 => output + random.below(200) as usize,
        _ => random.below(output as u32 + 1) as usize,
    }
}

/// Plays a script on a bench, into a buffer of some length.
fn check(random: &mut Random, bench: &Bench, script: &[u8]) {
    let output = bench.play(script).map_or(40, |played| played.output.len());
    bench.check(script, buffer_length(random, output));
}

#[test]
fn random_scripts_on_random_benches() {
    let (seed, count) = (seed(4), cases(40));
    let report = Report::new(format!("plays on any sign, seed {seed}"));
    let mut random = Random::new(seed);
    let benches =
        Cases::new(seed, 512).filter(|case| [Call::Step, Call::Reset].contains(&case.call));
    for (number, case) in benches.take(count).enumerate() {
        let script = generate::script(seed.wrapping_add(number as u64), random.one_in(12));
        check(&mut random, &Bench::new(case), &script);
    }
    report.finish(format_args!("{count} scripts"));
}

/// The bench here is that of the model's own play program.
fn check_on_the_program_bench(random: &mut Random, script: &[u8]) {
    let bench = Bench::of_the_program();
    let printed = bench.play(script).map_or_else(
        |refusal| format!("{}\n", refusal.number()),
        |played| played.output,
    );
    if script.len() <= BYTE_LIMIT {
        assert_eq!(printed, play(script), "the two benches of the model");
    }
    check(random, &bench, script);
}

#[test]
fn scripts_on_the_program_bench() {
    let (seed, count) = (seed(5), cases(200));
    let report = Report::new(format!("plays on the program's sign, seed {seed}"));
    let mut random = Random::new(seed);
    let edges = generate::record_edges();
    for script in &edges {
        check_on_the_program_bench(&mut random, script);
    }
    for number in 0..count {
        let script = generate::script(seed.wrapping_add(number as u64), false);
        check_on_the_program_bench(&mut random, &script);
    }
    report.finish(format_args!("{} scripts", edges.len() + count));
}

#[test]
fn stored_scripts() {
    let report = Report::new(String::from("stored scripts"));
    let mut random = Random::new(0);
    let folder = Path::new(env!("CARGO_MANIFEST_DIR")).join("../model/vectors/scripts");
    let mut count = 0;
    for entry in std::fs::read_dir(folder).expect("the stored scripts") {
        let path = entry.expect("a stored script").path();
        if path.extension().is_some_and(|extension| extension == "bin") {
            let script = std::fs::read(&path).expect("a stored script");
            check_on_the_program_bench(&mut random, &script);
            count += 1;
        }
    }
    assert!(count > 0);
    report.finish(format_args!("{count} scripts"));
}
