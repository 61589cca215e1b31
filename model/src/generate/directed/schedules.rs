//! One supply, many signs: who is served and who waits, the banks of each sign, lists of calls, and every decline.

mod banks;
mod calls;
mod members;
mod queues;
mod ranges;
mod services;

use crate::cases::{Call, Case};
use crate::geometry::{Geometry, ALL_ONES, SRAM_LIMIT};
use crate::list::List;
use crate::schedule::{Row, Sign, MOST_SIGNS};

use super::orders::{combined, Cause};
use super::parts::*;
use members::{ordinary, stepping, Member};

pub fn cases() -> Vec<Case> {
    let ordered = ordered_schedules().into_iter().map(|(_, case)| case);
    [
        services::cases(),
        queues::cases(),
        banks::cases(),
        ranges::cases(),
        calls::cases(),
        ordered.collect(),
    ]
    .concat()
}

/// A row with its image and its SRAM. The banks stand one after another in the store.
#[derive(Clone)]
struct Bench {
    geometry: Geometry,
    members: Vec<Member>,
    queue: Vec<u32>,
    last: u32,
    image: Vec<u32>,
    sram: Vec<u32>,
}

impl Bench {
    /// Nobody waits, and "the record last served .. starts as the list's last". A blank image and no SRAM.
    fn new(geometry: Geometry, members: &[Member]) -> Bench {
        Bench {
            geometry,
            members: members.to_vec(),
            queue: Vec::new(),
            last: (members.len() as u32).saturating_sub(1),
            image: vec![ALL_ONES; geometry.bank_words() as usize],
            sram: Vec::new(),
        }
    }

    /// Of the smallest signs.
    fn small(members: &[Member]) -> Bench {
        Bench::new(SMALL, members)
    }

    fn waiting(&self, queue: &[u32]) -> Bench {
        let queue = queue.to_vec();
        Bench {
            queue,
            ..self.clone()
        }
    }

    fn after(&self, last: u32) -> Bench {
        Bench {
            last,
            ..self.clone()
        }
    }

    /// One call with K.
    fn call(&self, most: u32) -> Case {
        let mut case = case(Call::Schedule, &self.geometry, idle());
        case.device = Case::new(Call::Schedule).device;
        let store: Vec<u32> = self
            .members
            .iter()
            .flat_map(|member| member.banks.concat())
            .collect();
        case.row = Row {
            signs: self.signs(),
            queue: self.queue.clone(),
            last: self.last,
        };
        case.lists = [&store, &self.image, &self.sram]
            .map(|words| List::from_words(words))
            .to_vec();
        case.numbers = vec![most];
        case
    }

    /// A call with each K.
    fn calls(&self, most: &[u32]) -> Case {
        let mut case = self.call(0);
        case.call = Call::RowRun;
        case.numbers = [&[most.len() as u32], most].concat();
        case
    }

    fn signs(&self) -> Vec<Sign> {
        let words = self.geometry.bank_words();
        let members = self.members.iter().zip(0..);
        members
            .map(|(member, number)| Sign {
                device: as_launched(member.device),
                place: member.place,
                starts: [2 * number * words, (2 * number + 1) * words],
            })
            .collect()
    }
}

/// "19, after 1 and 2": every set of declines, each case with the lowest number, 0 where none applies.
pub fn ordered_schedules() -> Vec<(u32, Case)> {
    let base = Bench::small(&[ordinary(0), stepping(1)])
        .waiting(&[1])
        .call(1);
    let causes: [Cause; 3] = [
        (1, &[three_quads]),
        (2, &[image_longer, image_shorter, long_sram]),
        (
            19,
            &[
                no_signs,
                most_zero,
                most_past,
                last_past,
                repeated,
                overstepping,
                overlapping,
                overhanging,
            ],
        ),
    ];
    combined(base, &causes)
}

/// Image, store and starts as three quads per row would ask for.
fn three_quads(case: &mut Case) {
    case.geometry[0] = 3;
    for list in [0, 1] {
        case.lists[list].length *= 3;
    }
    for sign in &mut case.row.signs {
        sign.starts = sign.starts.map(|start| 3 * start);
    }
}

fn image_longer(case: &mut Case) {
    case.lists[1].length += 1;
}

fn image_shorter(case: &mut Case) {
    case.lists[1].length -= 1;
}

fn long_sram(case: &mut Case) {
    case.lists[2] = List::from_words(&vec![0; SRAM_LIMIT + 1]);
}

fn no_signs(case: &mut Case) {
    case.row.signs.clear();
}

fn most_zero(case: &mut Case) {
    case.numbers[0] = 0;
}

fn most_past(case: &mut Case) {
    case.numbers[0] = MOST_SIGNS as u32 + 1;
}

fn last_past(case: &mut Case) {
    case.row.last = case.row.signs.len() as u32;
}

fn repeated(case: &mut Case) {
    case.row.queue.push(1);
}

fn overstepping(case: &mut Case) {
    case.row.queue.push(2);
}

fn overlapping(case: &mut Case) {
    case.row.signs[1].starts[0] -= 1;
}

fn overhanging(case: &mut Case) {
    case.row.signs[1].starts[1] += 1;
}
