//! The calls of a row in columns: what each sign did in each column, and how many operations ran together.

use crate::wording::counted;

/// What a sign does after a call.
#[derive(Clone, Copy, Debug, PartialEq, Eq)]
pub enum SignState {
    Waits,
    /// Its operation runs.
    Works,
    /// It is between two operations.
    Between,
    Done,
}

impl SignState {
    /// All of them, in the order of the legends.
    pub const ALL: [SignState; 4] = [
        SignState::Waits,
        SignState::Works,
        SignState::Between,
        SignState::Done,
    ];

    /// What the legends call it.
    pub fn name(self) -> &'static str {
        match self {
            SignState::Waits => "waits",
            SignState::Works => "its operation runs",
            SignState::Between => "between operations",
            SignState::Done => "done",
        }
    }
}

/// All calls in columns of about the same number of calls.
pub struct Columns {
    calls: u32,
    columns: Vec<Column>,
}

/// Some calls, one after another.
pub struct Column {
    /// For each sign, after how many calls it was in each state.
    counts: Vec<[u32; 4]>,
    /// The most operations that ran together.
    pub together: usize,
}

impl Columns {
    /// For so many calls, in as many columns, but no more than some.
    pub fn new(signs: usize, calls: u32, most: usize) -> Columns {
        let column = || Column {
            counts: vec![[0; 4]; signs],
            together: 0,
        };
        let columns = 0..most.min(calls as usize);
        Columns {
            calls,
            columns: columns.map(|_| column()).collect(),
        }
    }

    /// The column of a call, by its number from 0.
    pub fn of_call(&mut self, call: u32) -> &mut Column {
        let column = u64::from(call) * self.columns.len() as u64 / u64::from(self.calls);
        &mut self.columns[column as usize]
    }

    /// How many calls a column has, in words.
    pub fn calls_each(&self) -> String {
        match self.calls as usize / self.columns.len().max(1) {
            0 | 1 => String::from("one call"),
            calls => format!("about {}", counted(calls, "call")),
        }
    }

    /// After how many calls of each column a sign was in each state.
    pub fn counts(&self, sign: usize) -> impl Iterator<Item = [u32; 4]> + '_ {
        self.columns.iter().map(move |column| column.counts[sign])
    }

    /// What a sign did most often in each column.
    pub fn states(&self, sign: usize) -> impl Iterator<Item = SignState> + '_ {
        self.counts(sign).map(most_often)
    }

    /// The most operations that ran together in each column.
    pub fn together(&self) -> Vec<usize> {
        self.columns.iter().map(|column| column.together).collect()
    }
}

impl Column {
    /// A sign was in a state after a call of the column.
    pub fn note(&mut self, sign: usize, state: SignState) {
        self.counts[sign][state as usize] += 1;
    }
}

/// The state that a sign was in most often; the first of several.
fn most_often(counts: [u32; 4]) -> SignState {
    let most = counts.iter().max().unwrap_or(&0);
    let first = counts.iter().position(|count| count == most);
    SignState::ALL[first.unwrap_or(0)]
}

#[cfg(test)]
mod tests {
    use super::*;

    #[test]
    fn states() {
        assert_eq!(most_often([2, 1, 1, 0]), SignState::Waits);
        assert_eq!(most_often([1, 2, 2, 0]), SignState::Works);
        assert_eq!(most_often([0, 1, 2, 1]), SignState::Between);
        assert_eq!(most_often([0, 0, 0, 1]), SignState::Done);
        for (index, state) in SignState::ALL.into_iter().enumerate() {
            assert_eq!(state as usize, index);
        }
    }

    /// Seven calls in three columns are 0 to 2, 3 and 4, 5 and 6; in ten, one each.
    #[test]
    fn columns_of_calls() {
        for (most, expected) in [(3, &[0, 0, 0, 1, 1, 2, 2]), (10, &[0, 1, 2, 3, 4, 5, 6])] {
            let mut columns = Columns::new(1, 7, most);
            for call in 0..7 {
                columns.of_call(call).together = expected[call as usize] + 1;
            }
            let last = expected.last().map_or(0, |last| last + 1);
            assert_eq!(columns.together(), (1..=last).collect::<Vec<_>>());
        }
    }
}
