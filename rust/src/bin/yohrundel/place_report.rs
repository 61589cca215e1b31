//! One place of an update: its action, its block and what a cut there leaves, as text and as an object.

use yohrundel::register::{NVMDATA0, NVMSRCADDR};
use yohrundel::Decline;

use crate::cut_leaves::{SequenceSteps, SequenceWord};
use crate::json::{object, Json};
use crate::lines::paragraph;
use crate::page_names::{word_place, WordPlace};
use crate::records::Record;
use crate::update_actions::{Block, Operation, Part, UpdateActions};

/// A place up to the total.
pub struct PlaceReport {
    place: u32,
    total: u32,
    /// The action that is next, none at the total.
    action: Option<Action>,
    /// What a cut leaves.
    word: SequenceWord,
}

enum Action {
    /// A store of the prologue, which has so many actions.
    Prologue(Record, u32),
    Block(BlockAction),
}

/// An action of a block.
struct BlockAction {
    record: Record,
    block: Block,
    /// The block's number, from 1, and how many there are.
    number: usize,
    blocks: usize,
    /// The first word that the block's operation works on.
    at: WordPlace,
    /// The number of a step, from 1, and the first word of its quad.
    step: Option<(u32, WordPlace)>,
}

impl PlaceReport {
    pub fn of(actions: &UpdateActions, place: u32) -> Result<PlaceReport, Decline> {
        let record = actions.record(place);
        let action = |record: Record| match actions.block_number(place) {
            Some(number) => BlockAction::of(actions, place, record, number).map(Action::Block),
            None => Ok(Action::Prologue(record, actions.prologue())),
        };
        Ok(PlaceReport {
            place,
            total: actions.total(),
            action: record.map(action).transpose()?,
            word: SequenceSteps::of(actions)?.word(place),
        })
    }

    /// The action, its block and what a cut leaves, each a sentence in lines of its own.
    pub fn text(&self) -> String {
        let (place, total) = (self.place, self.total);
        let front = format!("Place {place} of {total}");
        let cut = self.word.sentence();
        let sentences = match &self.action {
            Some(Action::Prologue(record, actions)) => [
                format!("{front} {}.", stores(record, None)),
                format!("It is in the prologue, places 0 to {}.", actions - 1),
                cut,
            ],
            Some(Action::Block(action)) => {
                let does = action.does();
                [format!("{front} {does}."), action.block_sentence(), cut]
            }
            None => [format!("{front}: the update is done."), String::new(), cut],
        };
        sentences.map(|sentence| paragraph(&sentence)).concat()
    }

    pub fn json(&self) -> Json {
        let (record, block) = match &self.action {
            Some(Action::Prologue(record, _)) => (Some(record), None),
            Some(Action::Block(action)) => (Some(&action.record), Some(action)),
            None => (None, None),
        };
        let part = record.map(|_| block.map_or(Part::Prologue, |action| action.block.part));
        let step = block.and_then(|action| action.step.as_ref());
        let is_data = block.is_some_and(|action| action.data_word().is_some());
        let store = record.and_then(stored);
        object([
            ("place", self.place.into()),
            ("actions", self.total.into()),
            ("part", part.map(Part::name).into()),
            ("action", record.map(kind).into()),
            ("register", store.map(|(register, _, _)| register).into()),
            ("form", store.map(|(_, form, _)| form).into()),
            (
                "value",
                store.filter(|_| !is_data).map(|(_, _, value)| value).into(),
            ),
            ("step", step.map(|(number, _)| *number).into()),
            ("quad", step.map(|(_, at)| at.quad()).into()),
            ("block", block.map(BlockAction::json).into()),
            ("sequence_word", self.word.name().into()),
            ("runs", self.word.runs().into()),
        ])
    }
}

impl BlockAction {
    fn of(
        actions: &UpdateActions,
        place: u32,
        record: Record,
        number: usize,
    ) -> Result<BlockAction, Decline> {
        let (block, geometry) = (actions.blocks[number], actions.geometry);
        let index = block.location.index;
        let step = |number: u32| -> Result<(u32, WordPlace), Decline> {
            let at = word_place(geometry, index + 4 * number as usize)?;
            Ok((number + 1, at))
        };
        let steps = matches!(record, Record::Step).then(|| place - block.first_step);
        Ok(BlockAction {
            record,
            block,
            number: number + 1,
            blocks: actions.blocks.len(),
            at: word_place(geometry, index)?,
            step: steps.map(step).transpose()?,
        })
    }

    /// The action, as the rest of a sentence.
    fn does(&self) -> String {
        match &self.step {
            Some((number, at)) => {
                let (steps, operation) = (self.block.steps, self.block.operation.name());
                let quad = at.quad_name();
                format!("is step {number} of {steps} of a {operation}: {quad}")
            }
            None => stores(&self.record, self.data_word()),
        }
    }

    /// What a store to an NVMDATA register stores, none for another action.
    fn data_word(&self) -> Option<&'static str> {
        let Record::Store {
            register: (_, NVMDATA0..NVMSRCADDR),
            ..
        } = self.record
        else {
            return None;
        };
        Some(match self.block.part {
            Part::ProgramSequenceQuad => "a word of the new sequence quad",
            _ => "a data word of the image",
        })
    }

    fn block_sentence(&self) -> String {
        let does = match self.block.operation {
            Operation::PageErase => format!("erases {}", self.at.page_name()),
            Operation::QuadProgramming => format!("programs {}", self.at.quad_name()),
        };
        let (number, blocks, window) = (self.number, self.blocks, self.block.location.window);
        let (first, last, address) = (self.block.first, self.block.last, self.block.address);
        format!(
            "It is in block {number} of {blocks}, places {first} to {last}, which {does} in the \
             {window}, at 0x{address:08X}."
        )
    }

    fn json(&self) -> Json {
        let block = &self.block;
        let is_quad = block.operation == Operation::QuadProgramming;
        object([
            ("number", self.number.into()),
            ("blocks", self.blocks.into()),
            ("first", block.first.into()),
            ("last", block.last.into()),
            ("operation", block.operation.name().into()),
            ("steps", block.steps.into()),
            ("address", block.address.into()),
            ("window", block.location.window.into()),
            ("kind", self.at.kind.into()),
            ("page", self.at.page.into()),
            ("quad", is_quad.then(|| self.at.quad()).into()),
        ])
    }
}

/// A store, as the rest of a sentence, with other words for its value where these are given.
fn stores(record: &Record, words: Option<&str>) -> String {
    let Some((register, form, value)) = stored(record) else {
        return format!("is a {record}");
    };
    let value = words.map_or_else(|| format!("0x{value:08X}"), String::from);
    format!("stores {value} to {register}, form {form}")
}

/// The register, the form and the value of a store.
fn stored(record: &Record) -> Option<(&'static str, &'static str, u32)> {
    match record {
        Record::Store {
            register: (register, _),
            form: (form, _),
            value,
        } => Some((register, form, *value)),
        _ => None,
    }
}

fn kind(record: &Record) -> &'static str {
    match record {
        Record::Store { .. } => "store",
        Record::Step => "step",
        Record::Reset(_) => "reset",
    }
}
