//! What a decline was for, reckoned by the outside model, in the words of the command.

use model::clauses::{sequence_clause, SequenceClause};
use model::geometry::Banks;
use model::script::records;
use model::Refusal;

use crate::outside::Sign;

/// Decline 14: a script's length, or its first record that the model does not take.
pub fn malformed(script: &[u8]) -> String {
    let cause = match script.len() {
        1 => String::from("1 byte is no multiple of 8"),
        length if length % 8 != 0 => format!("{length} bytes are no multiple of 8"),
        _ => {
            let mut all = script.chunks(8).enumerate();
            let bad = all.find(|(_, record)| records(record).is_err());
            let (number, record) = bad.expect("a record that is none");
            format!("record {number} has {}", wrong_byte(record))
        }
    };
    format!("14: the script is malformed: {cause}")
}

/// The first byte with which a record is none, whatever follows it.
fn wrong_byte(record: &[u8]) -> String {
    let front_is_wrong = |byte: &usize| {
        let mut front = record.to_vec();
        front[byte + 1..].fill(0);
        records(&front).is_err()
    };
    let byte = (0..8).find(front_is_wrong).expect("a wrong byte");
    let value = record[byte];
    match (record[0], byte) {
        (_, 0) => format!("the kind {value}, not 0 to 2"),
        (0, 1) => format!("the register {value}, not 0 to 10"),
        (0, 2) => format!("the form {value}, not 0 to 3"),
        (2, 1) => format!("the reset kind {value}, not 0 to 2"),
        _ => format!("0x{value:02X} in its unused byte {byte}, not 0"),
    }
}

/// Why the smallest script that shows a number is not found, of a script of at most 64 records.
pub fn smallest(sign: &Sign, script: &[u8], number: u32, refusal: Refusal) -> String {
    match refusal {
        Refusal::Script => malformed(script),
        Refusal::NotShown => {
            let given = answers(sign, script).join(", ");
            let given = match given.rsplit_once(", ") {
                Some((front, last)) => format!("{front} and {last}"),
                None => given,
            };
            format!(
                "21: the play never gives the number: \
                 the number is {number}, and the play gives {given}"
            )
        }
        _ => panic!("{refusal:?}"),
    }
}

/// What the records of a script are answered, each number once and ascending.
fn answers(sign: &Sign, script: &[u8]) -> Vec<String> {
    let printed = sign.clone().play(&records(script).expect("a script"));
    let given = |number: &u32| {
        let mut answers = printed.lines().map(|line| line.split(' ').nth(1));
        answers.any(|answer| answer == Some(&number.to_string()))
    };
    let numbers = (0..=22).filter(given);
    numbers.map(|number| number.to_string()).collect()
}

/// Why an update is not accepted after a power-on reset and start-up, which leave the bank that is chosen on both lower sides.
pub fn started(sign: &Sign, refusal: Refusal) -> String {
    let [mut one, mut two] = sign.banks.clone();
    let (one, two) = (&mut one, &mut two);
    let clause = sequence_clause(&sign.geometry, &sign.device, &Banks { one, two });
    let cause = match clause {
        Some(SequenceClause::LowerInvalid { bank, word }) => {
            let bank = bank.number();
            format!("bank {bank}, on the lower alias, has no valid sequence word: 0x{word:08X}")
        }
        Some(SequenceClause::OtherDisjoint { bank, word }) => format!(
            "a torn erase could make bank {}'s sequence word valid: \
             no bit position is 1 in both halves of 0x{word:08X}",
            bank.number()
        ),
        Some(clause) => panic!("{clause:?}"),
        None => {
            let bank = sign.device.lower_alias_bank().number();
            format!("T is 65535: bank {bank} has the sequence word 0x0000FFFF")
        }
    };
    let sentence = match refusal.number() {
        10 => "10: the sequence words or the mapping do not allow an update",
        11 => "11: the last sequence number is in use",
        number => panic!("declined by {number}"),
    };
    format!("{sentence}: {cause}")
}
