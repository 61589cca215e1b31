//! Lists of calls on a sign that is updated and cut.

use super::{changes, put_device, Case};
use crate::device::NVMCON;
use crate::geometry::Bank;
use crate::list::LENGTH_LIMIT;
use crate::tries::{Move, Sign};

impl Case {
    /// "m times (ans word event NVMCON place), then D C, then the bank that BFSWAP and PFSWAP both put lower"; none where an SRAM is
    /// longer than a list may be.
    pub(super) fn answer_run(&self) -> Option<Vec<u32>> {
        let moves: Option<Vec<Move>> = self.moves().into_iter().map(read_move).collect();
        let before = [self.lists[0].words(), self.lists[1].words()];
        let image = self.lists[2].words();
        let mut sign = Sign::new(self.geometry, self.device, before.clone(), image);
        let mut outputs = Vec::new();
        for next in moves? {
            match sign.make(next) {
                Ok(made) => outputs.extend([0, made.word, u32::from(made.event)]),
                Err(refusal) => outputs.extend([refusal.number(), 0, 0]),
            }
            outputs.extend([sign.device.registers[NVMCON], sign.place]);
        }
        put_device(&sign.device, &mut outputs);
        outputs.extend(changes(&before, &sign.banks));
        outputs.push(sign.device.running_bank().map_or(0, Bank::number));
        Some(outputs)
    }
}

/// A move by its kind and its numbers.
fn read_move((kind, numbers): (u32, &[u32])) -> Option<Move> {
    let next = match (kind, numbers) {
        (0, &[sram]) => Move::Turn { sram },
        (1, &[address]) => Move::FlashRead { address },
        (2, _) => Move::Step,
        (3, &[kind, zero, one, two, three]) => {
            let mask = [zero, one, two, three];
            Move::Reset { kind, mask }
        }
        (4, _) => Move::StartUp,
        (5, &[stores]) => Move::CutStartUp { stores },
        (6, _) => Move::UpdateStart,
        (7, &[sram, count]) => Move::Turns { sram, count },
        _ => return None,
    };
    let fits = |sram: u32| sram as usize <= LENGTH_LIMIT;
    next.sram().is_none_or(fits).then_some(next)
}

impl Move {
    /// Its kind and its numbers.
    pub fn numbers(self) -> Vec<u32> {
        match self {
            Move::Turn { sram } => vec![0, sram],
            Move::FlashRead { address } => vec![1, address],
            Move::Step => vec![2],
            Move::Reset { kind, mask } => [&[3, kind][..], &mask].concat(),
            Move::StartUp => vec![4],
            Move::CutStartUp { stores } => vec![5, stores],
            Move::UpdateStart => vec![6],
            Move::Turns { sram, count } => vec![7, sram, count],
        }
    }

    /// A list of moves: the count, then each.
    pub fn list(moves: &[Move]) -> Vec<u32> {
        let numbers = moves.iter().flat_map(|next| next.numbers());
        [moves.len() as u32].into_iter().chain(numbers).collect()
    }
}
