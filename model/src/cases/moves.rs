//! The moves of a list of calls, each its kind and its numbers.

use super::Case;

/// A count, then that many moves; `counts` has how many numbers a move of each kind has.
pub fn take_moves(counts: &[usize], numbers: &mut impl Iterator<Item = u32>) -> Option<Vec<u32>> {
    let count = numbers.next()?;
    let mut taken = vec![count];
    for _ in 0..count {
        let kind = numbers.next()?;
        taken.push(kind);
        for _ in 0..*counts.get(kind as usize)? {
            taken.push(numbers.next()?);
        }
    }
    Some(taken)
}

impl Case {
    /// Kind and numbers of each move of a list of calls.
    pub(super) fn moves(&self) -> Vec<(u32, &[u32])> {
        let counts = self.call.moves().unwrap_or(&[]);
        let mut rest = self.numbers.get(1..).unwrap_or(&[]);
        let mut moves = Vec::new();
        while let Some((kind, after)) = rest.split_first() {
            let (numbers, next) = after.split_at(counts[*kind as usize]);
            moves.push((*kind, numbers));
            rest = next;
        }
        moves
    }
}
