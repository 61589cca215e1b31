//! The declines of a sign's calls, each with its cause.

use yohrundel::culprit::{self, device_clause, script_clause, Culprit};
use yohrundel::{Bench, Decline, Device, Geometry};

use crate::failure::{explained, Failure};
use crate::sign::Sign;

/// The total of a sign's update, where its start is accepted.
pub fn started(sign: &Sign) -> Result<u32, Failure> {
    sign.start().map_err(|decline| of_start(sign, decline))
}

/// A sign's update as a service script, where its start is accepted.
pub fn written(sign: &Sign) -> Result<Vec<u8>, Failure> {
    sign.script().map_err(|decline| of_start(sign, decline))
}

fn of_start(sign: &Sign, decline: Decline) -> Failure {
    let ([one, two], device) = (&sign.banks, &sign.device);
    let culprit = culprit::update_start(sign.geometry, device, one, two, &sign.image);
    explained(decline, culprit)
}

/// A flash read of the address that the argument ADDRESS gives; gives what [`Sign::read`] gives.
pub fn read(sign: &mut Sign, address: u32) -> Result<(u32, Option<u32>), Failure> {
    let read = sign.read(address);
    read.map_err(|decline| of_read(sign, address, decline))
}

fn of_read(sign: &Sign, address: u32, decline: Decline) -> Failure {
    let ([one, two], device) = (&sign.banks, &sign.device);
    match culprit::flash_read(sign.geometry, device, one, two, &[], address) {
        Some(Culprit::Address(clause)) if decline == Decline::Address => {
            Failure::declined(decline, format_args!("ADDRESS {clause}"))
        }
        culprit => explained(decline, culprit),
    }
}

/// The smallest script that shows a number.
pub fn reduced(sign: &Sign, script: &[u8], number: u32) -> Result<Vec<u8>, Failure> {
    let [one, two] = &sign.banks;
    let bench = Bench {
        geometry: sign.geometry,
        device: sign.device,
        one,
        two,
        sram: &[],
    };
    // The scratch banks and the result have the lengths of the banks and the script.
    let culprit = || culprit::smallest(&bench, [one, two], script, number, script);
    let declined = |decline| explained(decline, culprit());
    sign.smallest(script, number).map_err(declined)
}

/// Decline 14, with the first thing by which bytes are no script.
pub fn malformed(script: &[u8]) -> Failure {
    explained(Decline::Script, script_clause(script).map(Culprit::Script))
}

/// A decline of a call that asks no more than declines 1 to 3, where the sizes and lengths are right.
pub fn impossible(geometry: Geometry, device: &Device, decline: Decline) -> Failure {
    explained(
        decline,
        device_clause(geometry, device).map(Culprit::Device),
    )
}

#[cfg(test)]
mod tests {
    use super::*;
    use crate::records::record;

    const KEYS: &str =
        "store NVMKEY plain 0\nstore NVMKEY plain AA996655\nstore NVMKEY plain 556699AA";

    /// Why no update of the play program's sign starts after a script, given as text. Its P x 128 x Q is 0x80.
    fn reason(text: &str) -> Option<String> {
        let mut sign = Sign::bench().expect("a sign");
        let records = text.lines().map(|line| record(line).expect("a record"));
        let script = records.flatten().flatten().collect::<Vec<u8>>();
        sign.play(&script).expect("a script");
        let (started, written) = (started(&sign).err()?, written(&sign).err()?);
        assert_eq!(started.reason, written.reason);
        Some(started.reason)
    }

    #[test]
    fn starts_that_registers_do_not_allow() {
        let target = "store NVMADDR plain 1D000080\nstore NVMCON plain 4002";
        for (text, expected) in [
            (
                format!("{KEYS}\nstore NVMCON plain 80"),
                "declined by 10: the sequence words or the mapping do not allow an update: \
                 NVMCON is 0x00000080: PFSWAP = 1 and BFSWAP = 0",
            ),
            (
                format!("{KEYS}\nstore NVMBWP clear 80"),
                "declined by 12: the protection does not allow an update: \
                 NVMBWP is 0x00009F5F: UBWPULOCK = 0",
            ),
            (
                format!("{KEYS}\nstore NVMPWP plain 80000080"),
                "declined by 12: the protection does not allow an update: \
                 NVMPWP is 0x80000080: PWP is not below 0x000080",
            ),
            (
                format!("{target}\n{KEYS}\nstore NVMCON set 8000"),
                "declined by 5: an operation is running: \
                 an update start with WR = 1: NVMCON is 0x0000E002",
            ),
        ] {
            assert_eq!(reason(&text).as_deref(), Some(expected));
        }
        assert_eq!(
            reason(&format!("{KEYS}\nstore NVMPWP plain 8000007F")),
            None
        );
    }
}
