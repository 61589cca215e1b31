//! The actions of an update in the outside model, with the blocks and parts they form.

use model::device::{NVMADDR, NVMCON};
use model::geometry::{Geometry, Kind, Location, Side};
use model::update::{action, erase_actions, program_place, total, Action};

/// Actions of a quad: "NVMADDR, NVMDATA0 to 3, NVMCON plain 2, set 0x4000, keys, set 0x8000, one step, clear 0x4000".
const QUAD_ACTIONS: u32 = 13;

/// Actions of part 1 of the list.
pub const PROLOGUE: u32 = 12;

/// The actions of an update whose image is of no matter.
pub struct Actions {
    pub geometry: Geometry,
    image: Vec<u32>,
}

/// The actions for one page or one quad.
pub struct Block {
    /// Its number, from 0.
    pub number: u32,
    pub first: u32,
    pub last: u32,
    pub address: u32,
    pub location: Location,
    pub nvmop: u32,
}

impl Actions {
    pub fn new(numbers: [u32; 3]) -> Actions {
        let geometry = Geometry::new(numbers).expect("a sign");
        Actions {
            geometry,
            image: vec![0; geometry.bank_words() as usize],
        }
    }

    pub fn total(&self) -> u32 {
        total(&self.geometry)
    }

    /// The action of a place below the total, where T = 1 runs.
    pub fn at(&self, place: u32) -> Action {
        action(&self.geometry, 1, &self.image, place)
    }

    /// One for each page that is erased, and one for each of its 8×Q quads.
    pub fn blocks(&self) -> u32 {
        self.geometry.pages() * (1 + self.geometry.page_quads())
    }

    /// The block of a place; none in the prologue and at the total.
    pub fn block(&self, place: u32) -> Option<Block> {
        let program = program_place(&self.geometry);
        if place < PROLOGUE || place >= self.total() {
            return None;
        }
        Some(if place < program {
            let each = erase_actions(&self.geometry);
            let page = (place - PROLOGUE) / each;
            self.block_of(page, PROLOGUE + page * each, each, 1)
        } else {
            let quad = (place - program) / QUAD_ACTIONS;
            let first = program + quad * QUAD_ACTIONS;
            self.block_of(self.geometry.pages() + quad, first, QUAD_ACTIONS, 5)
        })
    }

    /// A block by its number, its first place and its actions, of which one stores NVMOP.
    fn block_of(&self, number: u32, first: u32, actions: u32, nvmop: u32) -> Block {
        let address = self.stored(first, NVMADDR);
        Block {
            number,
            first,
            last: first + actions - 1,
            address,
            location: self.geometry.locate(address).expect("a window"),
            nvmop: self.stored(first + nvmop, NVMCON),
        }
    }

    /// What the action of a place stores to a register.
    fn stored(&self, place: u32, wanted: usize) -> u32 {
        match self.at(place) {
            Action::Store {
                register, value, ..
            } if register == wanted as u32 => value,
            other => panic!("{other:?}"),
        }
    }

    /// The name of the part that a block belongs to.
    pub fn part(&self, block: &Block) -> &'static str {
        let page = self.geometry.page_number(block.location);
        let is_last = page == self.geometry.boot_pages - 1;
        let index = self.geometry.word_index(block.location);
        match (block.nvmop, block.location.kind) {
            (4, Kind::Boot) if is_last => "erasing the last boot page",
            (4, Kind::Boot) => "erasing the other boot pages",
            (4, Kind::Program) => "erasing the program pages",
            (2, Kind::Program) => "programming the program pages",
            (2, Kind::Boot) if index == self.geometry.sequence_index() => {
                "programming the sequence quad"
            }
            (2, Kind::Boot) => "programming the boot pages",
            (other, _) => panic!("NVMOP {other}"),
        }
    }
}

impl Block {
    pub fn window(&self) -> &'static str {
        match (self.location.kind, self.location.side) {
            (Kind::Boot, Side::Lower) => "lower boot alias",
            (Kind::Boot, Side::Upper) => "upper boot alias",
            (Kind::Program, Side::Lower) => "lower program region",
            (Kind::Program, Side::Upper) => "upper program region",
        }
    }

    pub fn kind(&self) -> &'static str {
        match self.location.kind {
            Kind::Boot => "boot",
            Kind::Program => "program",
        }
    }

    pub fn erases(&self) -> bool {
        self.nvmop == 4
    }
}
