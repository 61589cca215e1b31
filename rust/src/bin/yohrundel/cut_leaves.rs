//! What a cut at a place of an update leaves: the new bank's sequence word, and the bank that runs after a reset and start-up.

use yohrundel::Decline;

use crate::update_actions::{Operation, UpdateActions};

/// The two steps of an update that change the new bank's sequence word, by their places.
pub struct SequenceSteps {
    pub erase: u32,
    /// The update's last step.
    pub program: u32,
}

/// The new bank's sequence word where the supply fails.
#[derive(Clone, Copy, PartialEq, Eq)]
pub enum SequenceWord {
    AsItWas,
    /// Its erase runs.
    TornErase,
    Erased,
    /// Its programming runs.
    TornProgramming,
    Valid,
}

impl SequenceSteps {
    pub fn of(actions: &UpdateActions) -> Result<SequenceSteps, Decline> {
        let index = actions.geometry.sequence_index()?;
        let step = |operation| {
            let mut blocks = actions.blocks.iter();
            let step = blocks.find_map(|block| {
                let step = block.step_of(index)?;
                (block.operation == operation).then_some(step)
            });
            step.ok_or(Decline::Place)
        };
        Ok(SequenceSteps {
            erase: step(Operation::PageErase)?,
            program: step(Operation::QuadProgramming)?,
        })
    }

    /// The sequence word after so many actions, with an operation that is cut there.
    pub fn word(&self, place: u32) -> SequenceWord {
        if place < self.erase {
            SequenceWord::AsItWas
        } else if place == self.erase {
            SequenceWord::TornErase
        } else if place < self.program {
            SequenceWord::Erased
        } else if place == self.program {
            SequenceWord::TornProgramming
        } else {
            SequenceWord::Valid
        }
    }
}

impl SequenceWord {
    pub fn name(self) -> &'static str {
        match self {
            SequenceWord::AsItWas => "as it was",
            SequenceWord::TornErase => "not valid or as it was",
            SequenceWord::Erased => "erased",
            SequenceWord::TornProgramming => "not valid or one higher",
            SequenceWord::Valid => "one higher",
        }
    }

    /// The bank that runs.
    pub fn runs(self) -> &'static str {
        match self {
            SequenceWord::TornProgramming => "old or new",
            SequenceWord::Valid => "new",
            _ => "old",
        }
    }

    /// What a cut leaves, in a sentence.
    pub fn sentence(self) -> String {
        let old = "the sign runs the old bank, whole, and the update is accepted again";
        let word = match self {
            SequenceWord::AsItWas => "as it was, and it loses the comparison",
            SequenceWord::TornErase => "torn, so that it is not valid, or as it was",
            SequenceWord::Erased => "erased, and so not valid",
            SequenceWord::TornProgramming => {
                return format!(
                    "A cut here tears the new bank's sequence word: either it is not valid, and \
                     {old}, or it is valid and one higher, and the sign runs exactly the new bank."
                );
            }
            SequenceWord::Valid => {
                return String::from(
                    "A cut here leaves the new bank's sequence word valid and one higher: the \
                     sign runs exactly the new bank.",
                );
            }
        };
        format!("A cut here leaves the new bank's sequence word {word}: {old}.")
    }
}
