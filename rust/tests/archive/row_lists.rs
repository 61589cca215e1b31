//! Lists of calls for rows of signs: who waits how long, and rows that are cut.

use model::random::Random;
use yohrundel::*;

use crate::row_promises::{fresh, End};
use crate::rows::Row;
use crate::settings::{cases, seed, Report};

const GEOMETRIES: [[u32; 3]; 4] = [[1, 1, 1], [1, 2, 1], [1, 1, 2], [2, 1, 1]];

/// For each sign that waits, who launched since; a launch of the same one again is one too many.
struct Waits(Vec<Vec<u32>>);

impl Waits {
    /// "no sign sets WR twice while one and the same other sign, unfinished and with a turn that isn't declined, waits": every sign of a
    /// fresh row that waits is such a one. True where one was overtaken.
    fn note(&mut self, before: &Row, after: &Row, served: Served) -> bool {
        let mut overtaken = false;
        let launched = after.running() > before.running();
        for (record, since) in self.0.iter_mut().enumerate() {
            let record = record as u32;
            let waits = |row: &Row| row.standing.queue.waiting().contains(&record);
            if !waits(before) || !waits(after) {
                since.clear();
            } else if launched {
                assert!(!since.contains(&served.record), "{record} {served:?}");
                since.push(served.record);
                overtaken = true;
            }
        }
        overtaken
    }
}

/// K is one and the same, or another at each call.
#[test]
fn nobody_launches_twice_while_another_waits() {
    let (seed, count) = (seed(43), cases(10_000));
    let report = Report::new(format!("lists of calls with waits, seed {seed}"));
    let (mut random, mut calls, mut overtaken) = (Random::new(seed), 0, 0);
    for number in 0..count {
        let signs = random.between(2, 8) as usize;
        let (mut row, _) = fresh(&mut random, GEOMETRIES[number % 4], signs);
        let (mut waits, usual) = (Waits(vec![Vec::new(); signs]), random.between(1, 3));
        let changes = random.one_in(3);
        loop {
            let k = if changes { random.between(1, 4) } else { usual };
            let before = row.clone();
            let Some(served) = row.call(k).expect("an accepted row") else {
                break;
            };
            overtaken += usize::from(waits.note(&before, &row, served));
            calls += 1;
        }
    }
    assert!(count < 30 || overtaken > count, "{overtaken}");
    report.finish(format_args!(
        "{calls} calls, {overtaken} launches beside one that waits"
    ));
}

/// A reset and a start-up of one sign, which then runs the whole old bank or exactly the new; on the old one its update is accepted again.
/// True for the new.
fn check_cut(row: &mut Row, record: usize, ends: &[End], kind: u32, mask: [u32; 4]) -> bool {
    let (sign, words) = (row.signs[record], row.image.len());
    let (one, two) = row.store[sign.one as usize..][..2 * words].split_at_mut(words);
    let cut = reset(row.geometry, sign.device, one, two, &row.sram, kind, mask);
    let device = start_up(row.geometry, cut.expect("a reset").device).expect("a start-up");
    let runs = match device.running_bank().expect("a bank that runs") {
        Bank::One => sign.one as usize,
        Bank::Two => sign.two as usize,
    };
    let accepted = update_start(row.geometry, device, one, two, &row.image).is_ok();
    let [(old, old_words), (new, new_words)] = ends else {
        panic!("the ends of one sign");
    };
    assert!(row.store[*old..][..words] == *old_words, "the old bank");
    if runs == *old {
        assert!(accepted, "the same update again");
        return false;
    }
    assert!(row.store[*new..][..words] == *new_words, "the new bank");
    true
}

/// "The cut statement is per sign, all reset together", each with a mask of its own.
#[test]
fn rows_that_are_cut() {
    let (seed, count) = (seed(44), cases(1_000));
    let report = Report::new(format!("rows that are cut, seed {seed}"));
    let (mut random, mut torn, mut runs) = (Random::new(seed), 0, [0, 0]);
    for number in 0..count {
        let signs = random.between(1, 5) as usize;
        let (mut row, ends) = fresh(&mut random, GEOMETRIES[number % 4], signs);
        let all = row.geometry.script_bytes().expect("a sign") / 8 * signs;
        let before_end = match random.below(2) {
            0 => random.below(6 * signs as u32),
            _ => random.below(all as u32),
        };
        let k = random.between(1, 3);
        for _ in 0..all - before_end as usize {
            row.call(k).expect("an accepted row");
        }
        let kind = random.below(3);
        torn += row.running();
        for (record, ends) in ends.chunks(2).enumerate() {
            let new = check_cut(&mut row, record, ends, kind, random.mask());
            runs[usize::from(new)] += 1;
        }
    }
    assert!(count < 300 || torn > 50 && runs.iter().all(|count| *count > 50));
    let [old, new] = runs;
    report.finish(format_args!(
        "{torn} torn, {old} run the old bank, {new} the new"
    ));
}
