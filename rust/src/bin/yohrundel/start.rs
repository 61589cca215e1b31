//! `yohrundel start`: whether a sign accepts an image.

use yohrundel::Decline;

use crate::arguments::Arguments;
use crate::causes::started;
use crate::command::{Command, First};
use crate::failure::{Answer, Declined, Failure};
use crate::given_sign::GivenSign;
use crate::json::{object, Json, JSON};
use crate::registers::REGISTER;
use crate::sign_files::{BANK1, BANK2};
use crate::wording::counted;

pub const COMMAND: Command = Command {
    name: "start",
    arguments: "Q B P [IMAGE]",
    first: First::Any,
    summary: "says whether a sign accepts an image",
    details: "\
Q, B, P, IMAGE and the sign are as for yohrundel update. Nothing is carried out.
Where the update is accepted it prints how many actions it has. Where it is
declined the status is 1, and standard error gets the lowest number that
applies, what it says, and the cause. With --json it prints an object in either
case.",
    options: &[BANK1, BANK2, REGISTER, JSON],
    keys: &[
        ("accepted", "true or false"),
        (
            "total",
            "how many actions the update has, null where it is declined",
        ),
        (
            "decline",
            "the number of the decline, null where it is accepted",
        ),
        (
            "sentence",
            "what the number says, null where it is accepted",
        ),
        (
            "cause",
            "what it says of this sign, null where it is not known",
        ),
    ],
    run,
};

fn run(mut arguments: Arguments) -> Answer {
    let total = total(&mut arguments);
    if arguments.is_given(&JSON) {
        return answer(total);
    }
    let actions = counted(total?, "action");
    Ok(format!("The update is accepted. It has {actions}.\n").into())
}

fn total(arguments: &mut Arguments) -> Result<u32, Failure> {
    let given = GivenSign::of(arguments)?;
    let geometry = arguments.geometry()?;
    let path = arguments.optional();
    arguments.end()?;
    started(&given.sign(geometry, path)?)
}

/// The object of an update that is accepted or declined; other failures have none.
fn answer(total: Result<u32, Failure>) -> Answer {
    match total {
        Ok(total) => Ok(json(Some(total), None).line()),
        Err(Failure {
            declined: Some(declined),
            status,
            ..
        }) => Err(Failure {
            output: json(None, Some(&declined)).line(),
            reason: String::new(),
            declined: Some(declined),
            status,
        }),
        Err(failure) => Err(failure),
    }
}

fn json(total: Option<u32>, declined: Option<&Declined>) -> Json {
    let decline = declined.map(|declined| declined.decline);
    let cause = declined.and_then(|declined| declined.cause.clone());
    object([
        ("accepted", Json::Bool(total.is_some())),
        ("total", total.into()),
        ("decline", decline.map(Decline::number).into()),
        ("sentence", decline.map(|decline| decline.sentence()).into()),
        ("cause", cause.into()),
    ])
}
