//! The actions of an update by their places, read from the script that the library writes for it, with the blocks and parts they form.

use yohrundel::form::PLAIN;
use yohrundel::register::{NVMADDR, NVMCON};
use yohrundel::{Decline, Geometry};

use crate::flash_windows::{locate, Location};
use crate::page_names::word_place;
use crate::records::{read, Record, RECORD};
use crate::sign::Sign;

/// NVMOP of a page erase.
const PAGE_ERASE: u32 = 4;

/// An update's actions.
pub struct UpdateActions {
    pub geometry: Geometry,
    /// A record for each place.
    script: Vec<u8>,
    /// The blocks, in their order; the prologue stands before them.
    pub blocks: Vec<Block>,
}

/// The actions for one page or one quad. The store of its address begins it.
#[derive(Clone, Copy)]
pub struct Block {
    /// The places of its first and last action.
    pub first: u32,
    pub last: u32,
    pub operation: Operation,
    pub address: u32,
    /// The first word at the address.
    pub location: Location,
    /// The place of its first step, and its steps.
    pub first_step: u32,
    pub steps: u32,
    pub part: Part,
}

#[derive(Clone, Copy, PartialEq, Eq)]
pub enum Operation {
    PageErase,
    QuadProgramming,
}

/// A part of an update, in the order of the parts.
#[derive(Clone, Copy, PartialEq, Eq)]
pub enum Part {
    Prologue,
    EraseLastBootPage,
    EraseOtherBootPages,
    EraseProgramPages,
    ProgramProgramPages,
    ProgramBootPages,
    ProgramSequenceQuad,
}

impl UpdateActions {
    /// The actions of a sign's update, which is accepted.
    pub fn of(sign: &Sign) -> Result<UpdateActions, Decline> {
        let (geometry, script) = (sign.geometry, sign.script()?);
        let blocks = blocks(geometry, &script)?;
        Ok(UpdateActions {
            geometry,
            script,
            blocks,
        })
    }

    pub fn total(&self) -> u32 {
        (self.script.len() / RECORD) as u32
    }

    /// The action of a place, none at the total.
    pub fn record(&self, place: u32) -> Option<Record> {
        records(&self.script).nth(place as usize)
    }

    /// The number of the block of a place, from 0; none in the prologue and at the total.
    pub fn block_number(&self, place: u32) -> Option<usize> {
        let holds = |block: &Block| (block.first..=block.last).contains(&place);
        self.blocks.iter().position(holds)
    }

    /// The actions before the first block.
    pub fn prologue(&self) -> u32 {
        self.blocks
            .first()
            .map_or(self.total(), |block| block.first)
    }
}

/// The records of a part of a written script.
fn records(script: &[u8]) -> impl Iterator<Item = Record> + '_ {
    script.chunks(RECORD).filter_map(read)
}

fn blocks(geometry: Geometry, script: &[u8]) -> Result<Vec<Block>, Decline> {
    let places = records(script).enumerate();
    let begins = places.filter(|(_, record)| address(record).is_some());
    let starts: Vec<usize> = begins.map(|(place, _)| place).collect();
    let ends = starts.iter().skip(1).copied();
    let ends = ends.chain([script.len() / RECORD]);
    let ranges = starts.iter().copied().zip(ends);
    ranges
        .map(|(start, end)| {
            let part = &script[start * RECORD..end * RECORD];
            Block::of(geometry, start as u32, part)
        })
        .collect()
}

impl Block {
    /// The block of a part of a script, whose first record stores the address.
    fn of(geometry: Geometry, first: u32, script: &[u8]) -> Result<Block, Decline> {
        let address = records(script).find_map(|record| address(&record));
        let address = address.ok_or(Decline::Script)?;
        let location = locate(geometry, address)?;
        let operation = match records(script).find_map(|record| nvmop(&record)) {
            Some(PAGE_ERASE) => Operation::PageErase,
            _ => Operation::QuadProgramming,
        };
        let is_step = |record: &Record| matches!(record, Record::Step);
        let before = records(script).take_while(|record| !is_step(record));
        Ok(Block {
            first,
            last: first + records(script).count() as u32 - 1,
            operation,
            address,
            location,
            first_step: first + before.count() as u32,
            steps: records(script).filter(is_step).count() as u32,
            part: Part::of(geometry, operation, location)?,
        })
    }

    /// The step that does the quad of a word, by its place; none where no step does it. "A step does one quad, ascending."
    pub fn step_of(&self, index: usize) -> Option<u32> {
        let quad = index.checked_sub(self.location.index)? as u32 / 4;
        (quad < self.steps).then_some(self.first_step + quad)
    }
}

/// The value of a store to NVMADDR.
fn address(record: &Record) -> Option<u32> {
    match record {
        Record::Store {
            register: (_, NVMADDR),
            value,
            ..
        } => Some(*value),
        _ => None,
    }
}

/// The value of a plain store to NVMCON, which in a block has NVMOP alone.
fn nvmop(record: &Record) -> Option<u32> {
    match record {
        Record::Store {
            register: (_, NVMCON),
            form: (_, PLAIN),
            value,
        } => Some(*value),
        _ => None,
    }
}

impl Part {
    /// The part of the block of an operation that begins at a word.
    fn of(geometry: Geometry, operation: Operation, at: Location) -> Result<Part, Decline> {
        let (place, last) = (word_place(geometry, at.index)?, geometry.b as usize - 1);
        let is_sequence_quad = at.index == geometry.sequence_index()?;
        Ok(match (operation, place.kind) {
            (Operation::PageErase, "boot") if place.page == last => Part::EraseLastBootPage,
            (Operation::PageErase, "boot") => Part::EraseOtherBootPages,
            (Operation::PageErase, _) => Part::EraseProgramPages,
            (Operation::QuadProgramming, _) if is_sequence_quad => Part::ProgramSequenceQuad,
            (Operation::QuadProgramming, "boot") => Part::ProgramBootPages,
            (Operation::QuadProgramming, _) => Part::ProgramProgramPages,
        })
    }

    pub fn name(self) -> &'static str {
        match self {
            Part::Prologue => "prologue",
            Part::EraseLastBootPage => "erasing the last boot page",
            Part::EraseOtherBootPages => "erasing the other boot pages",
            Part::EraseProgramPages => "erasing the program pages",
            Part::ProgramProgramPages => "programming the program pages",
            Part::ProgramBootPages => "programming the boot pages",
            Part::ProgramSequenceQuad => "programming the sequence quad",
        }
    }
}

impl Operation {
    pub fn name(self) -> &'static str {
        match self {
            Operation::PageErase => "page erase",
            Operation::QuadProgramming => "quad programming",
        }
    }
}
