//! The calls that play and reduce a service script on a sign.

use crate::{play, play_length, smallest, Bench, Decline, Sign};

impl Sign {
    /// The bytes that the play of a script would print. It plays nothing. See [`play_length`].
    ///
    /// # Errors
    ///
    /// [`Decline::Geometry`], [`Decline::Length`], [`Decline::Device`] and [`Decline::Script`], as there.
    pub fn play_length(&self, sram: &[u32], script: &[u8]) -> Result<usize, Decline> {
        let [one, two] = &self.banks;
        play_length(self.geometry, self.device, one, two, sram, script)
    }

    /// Plays a script; gives what it prints, a line for each record. See [`play`].
    ///
    /// # Errors
    ///
    /// [`Decline::Geometry`], [`Decline::Length`], [`Decline::Device`] and [`Decline::Script`], as there.
    pub fn play(&mut self, sram: &[u32], script: &[u8]) -> Result<Vec<u8>, Decline> {
        let mut output = vec![0; self.play_length(sram, script)?];
        let (geometry, device) = (self.geometry, self.device);
        let [one, two] = &mut self.banks;
        self.device = play(geometry, device, one, two, sram, script, &mut output)?.device;
        Ok(output)
    }

    /// The smallest script that shows a number: the records that are left of a script. See [`smallest`].
    ///
    /// # Errors
    ///
    /// [`Decline::Geometry`], [`Decline::Length`], [`Decline::Device`], [`Decline::Script`], [`Decline::Records`] and
    /// [`Decline::NotShown`], as there.
    pub fn smallest(&self, sram: &[u32], script: &[u8], number: u32) -> Result<Vec<u8>, Decline> {
        let [one, two] = &self.banks;
        let bench = Bench {
            geometry: self.geometry,
            device: self.device,
            one,
            two,
            sram,
        };
        let ([mut first, mut second], mut result) = (self.banks.clone(), vec![0; script.len()]);
        let scratch = [&mut first[..], &mut second];
        let records = smallest(bench, scratch, script, number, &mut result)?;
        result.truncate(8 * records as usize);
        Ok(result)
    }
}
