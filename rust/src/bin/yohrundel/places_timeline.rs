//! The timeline of an update, a line for each of its parts, as text and as an object.

use yohrundel::Decline;

use crate::cut_leaves::SequenceSteps;
use crate::json::{object, Json};
use crate::update_actions::{Block, Operation, Part, UpdateActions};
use crate::wording::counted;

/// A part of an update: the prologue, or blocks one after another.
struct Row {
    part: Part,
    first: u32,
    last: u32,
    /// What its blocks do, and how many they are.
    blocks: Option<(Operation, usize)>,
}

/// At most 24 lines of at most 80 columns.
pub fn text(actions: &UpdateActions) -> Result<String, Decline> {
    let (total, step) = (actions.total(), SequenceSteps::of(actions)?.program);
    let lines: String = rows(actions).iter().map(Row::line).collect();
    let (head, before, after) = (line("part", "places", "", "actions"), step - 1, step + 1);
    Ok(format!(
        "The update has {}.\n\n{head}{lines}\n\
         Where the supply fails, the sign runs after a reset and start-up\n\
         at places 0 to {before}: the old bank, whole;\n\
         at place {step}, the last step: the old bank, whole, or exactly the new one;\n\
         at places {after} to {total}: exactly the new bank.\n\
         Where it runs the old bank the update is accepted again.\n",
        counted(total, "action")
    ))
}

pub fn json(actions: &UpdateActions) -> Result<Json, Decline> {
    let parts: Vec<Json> = rows(actions).iter().map(Row::json).collect();
    Ok(object([
        ("actions", actions.total().into()),
        ("parts", parts.into()),
        ("last_step", SequenceSteps::of(actions)?.program.into()),
    ]))
}

fn rows(actions: &UpdateActions) -> Vec<Row> {
    let prologue = Row {
        part: Part::Prologue,
        first: 0,
        last: actions.prologue() - 1,
        blocks: None,
    };
    let parts = actions.blocks.chunk_by(|one, next| one.part == next.part);
    [prologue]
        .into_iter()
        .chain(parts.filter_map(Row::of))
        .collect()
}

impl Row {
    /// The row of the blocks of a part.
    fn of(blocks: &[Block]) -> Option<Row> {
        let (first, last) = (blocks.first()?, blocks.last()?);
        Some(Row {
            part: first.part,
            first: first.first,
            last: last.last,
            blocks: Some((first.operation, blocks.len())),
        })
    }

    fn actions(&self) -> u32 {
        self.last - self.first + 1
    }

    /// How many pages it erases, or quads it programs.
    fn count(&self, operation: Operation) -> Option<usize> {
        self.blocks
            .filter(|(of, _)| *of == operation)
            .map(|(_, count)| count)
    }

    fn line(&self) -> String {
        let places = format!("{:>7} to {:<7}", self.first, self.last);
        let blocks = match self.blocks {
            None => String::new(),
            Some((Operation::PageErase, count)) => counted(count, "page"),
            Some((Operation::QuadProgramming, count)) => counted(count, "quad"),
        };
        line(
            self.part.name(),
            &places,
            &blocks,
            &self.actions().to_string(),
        )
    }

    fn json(&self) -> Json {
        object([
            ("part", self.part.name().into()),
            ("first", self.first.into()),
            ("last", self.last.into()),
            ("actions", self.actions().into()),
            ("pages", self.count(Operation::PageErase).into()),
            ("quads", self.count(Operation::QuadProgramming).into()),
        ])
    }
}

fn line(part: &str, places: &str, blocks: &str, actions: &str) -> String {
    format!("{part:29}  {places:>18}  {blocks:>12}  {actions:>7}\n")
}
