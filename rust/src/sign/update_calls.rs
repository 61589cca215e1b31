//! The calls of a sign's update. The image is one bank long.

use crate::{turn_lent, update_start, write_script};
use crate::{Decline, Sign, Started, TurnOutcome};

impl Sign {
    /// Whether an update may start, and how many actions it has. It changes nothing. See [`update_start`].
    ///
    /// # Errors
    ///
    /// [`Decline::Geometry`], [`Decline::Length`], [`Decline::Device`], [`Decline::Running`], [`Decline::Sequence`],
    /// [`Decline::LastSequence`] and [`Decline::Protection`], as there.
    pub fn update_start(&self, image: &[u32]) -> Result<Started, Decline> {
        let [one, two] = &self.banks;
        update_start(self.geometry, self.device, one, two, image)
    }

    /// One turn: the action of its place. See [`turn`](crate::turn).
    ///
    /// # Errors
    ///
    /// [`Decline::Geometry`], [`Decline::Length`], [`Decline::Device`], [`Decline::Running`], [`Decline::Idle`] and [`Decline::Place`], as
    /// there.
    pub fn turn(
        &mut self,
        image: &[u32],
        sram: &[u32],
        place: u32,
    ) -> Result<TurnOutcome, Decline> {
        let [one, two] = &mut self.banks;
        turn_lent(
            self.geometry,
            &mut self.device,
            one,
            two,
            image,
            sram,
            place,
        )
    }

    /// A whole update: its start and all its turns, without SRAM, of which it needs none; gives the number of its actions. A reset and a
    /// start-up then run the new bank.
    ///
    /// # Errors
    ///
    /// Those of [`Sign::update_start`]: [`Decline::Geometry`], [`Decline::Length`], [`Decline::Device`], [`Decline::Running`],
    /// [`Decline::Sequence`], [`Decline::LastSequence`] and [`Decline::Protection`]. After an accepted start no turn is declined.
    pub fn update(&mut self, image: &[u32]) -> Result<u32, Decline> {
        let Started { mut place, total } = self.update_start(image)?;
        while place < total {
            place = self.turn(image, &[], place)?.place;
        }
        Ok(total)
    }

    /// A whole update as a service script. It carries nothing out. See [`write_script`].
    ///
    /// # Errors
    ///
    /// Those of [`Sign::update_start`]: [`Decline::Geometry`], [`Decline::Length`], [`Decline::Device`], [`Decline::Running`],
    /// [`Decline::Sequence`], [`Decline::LastSequence`] and [`Decline::Protection`]; the buffer is long enough.
    pub fn write_script(&self, image: &[u32]) -> Result<Vec<u8>, Decline> {
        let [one, two] = &self.banks;
        let mut script = vec![0; self.geometry.script_bytes()?];
        write_script(self.geometry, self.device, one, two, image, &mut script)?;
        Ok(script)
    }
}
