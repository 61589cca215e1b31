//! The table of calls with the inputs of each.

#[derive(Clone, Copy, Debug, PartialEq, Eq)]
pub enum Call {
    Compare,
    Possible,
    Protected,
    Store,
    RegisterRead,
    FlashRead,
    LowerBank,
    Page,
    Step,
    Reset,
    StartUp,
    UpdateStart,
    Turn,
    Plan,
    PageSheet,
    LanesOut,
    LanesBack,
    ValidBySum,
    Walk,
    CompareReason,
    WriteScript,
    Reach,
    Run,
    Smallest,
    Schedule,
    RowRun,
}

/// The inputs of a call, in the order in which a line gives them.
pub struct Shape {
    pub call: Call,
    pub name: &'static str,
    pub geometry: bool,
    pub device: bool,
    pub lists: usize,
    /// How many of the lists, the last ones, are lists of bytes.
    pub bytes: usize,
    pub numbers: usize,
    /// Whether a row of signs follows the numbers.
    pub row: bool,
    /// How many of the lists, the last ones, stand behind the numbers and the row.
    pub behind: usize,
    pub rest: Rest,
}

/// What stands last.
#[derive(Clone, Copy)]
pub enum Rest {
    Nothing,
    /// A count and that many pairs.
    Pairs,
    /// A count and that many moves; how many numbers a move of each kind has.
    Moves(&'static [usize]),
    /// A count and that many numbers, one for each call of a list.
    Calls,
}

const fn shape(
    call: Call,
    name: &'static str,
    geometry: bool,
    device: bool,
    lists: usize,
    numbers: usize,
) -> Shape {
    Shape {
        call,
        name,
        geometry,
        device,
        lists,
        bytes: 0,
        numbers,
        row: false,
        behind: 0,
        rest: Rest::Nothing,
    }
}

/// The calls of the base stand first, those of later requests follow.
pub const SHAPES: [Shape; 26] = [
    shape(Call::Compare, "compare", false, false, 0, 2),
    shape(Call::Possible, "possible", true, true, 0, 0),
    shape(Call::Protected, "protected", true, true, 0, 3),
    shape(Call::Store, "store", true, true, 0, 3),
    shape(Call::RegisterRead, "register_read", true, true, 0, 1),
    shape(Call::FlashRead, "flash_read", true, true, 3, 1),
    shape(Call::LowerBank, "lower_bank", true, true, 2, 0),
    shape(Call::Page, "page", true, false, 1, 1),
    shape(Call::Step, "step", true, true, 3, 0),
    shape(Call::Reset, "reset", true, true, 3, 5),
    shape(Call::StartUp, "startup", true, true, 0, 0),
    shape(Call::UpdateStart, "update_start", true, true, 3, 0),
    shape(Call::Turn, "turn", true, true, 4, 1),
    Shape {
        rest: Rest::Pairs,
        ..shape(Call::Plan, "plan", false, false, 0, 2)
    },
    Shape {
        bytes: 1,
        ..shape(Call::PageSheet, "page_sheet", true, true, 3, 0)
    },
    Shape {
        bytes: 2,
        ..shape(Call::LanesOut, "lanes_out", false, false, 2, 0)
    },
    Shape {
        bytes: 2,
        ..shape(Call::LanesBack, "lanes_back", false, false, 2, 0)
    },
    shape(Call::ValidBySum, "valid_by_sum", false, false, 0, 1),
    Shape {
        rest: Rest::Moves(&WALK_MOVES),
        ..shape(Call::Walk, "walk", true, true, 3, 0)
    },
    shape(Call::CompareReason, "compare_reason", false, false, 0, 2),
    Shape {
        bytes: 1,
        ..shape(Call::WriteScript, "write_script", true, true, 4, 0)
    },
    shape(Call::Reach, "reach", true, false, 2, 0),
    Shape {
        rest: Rest::Moves(&RUN_MOVES),
        ..shape(Call::Run, "run", true, true, 3, 0)
    },
    Shape {
        bytes: 2,
        behind: 1,
        ..shape(Call::Smallest, "smallest", true, true, 7, 1)
    },
    Shape {
        row: true,
        behind: 3,
        ..shape(Call::Schedule, "schedule", true, false, 3, 1)
    },
    Shape {
        row: true,
        behind: 3,
        rest: Rest::Calls,
        ..shape(Call::RowRun, "rowrun", true, false, 3, 0)
    },
];

/// The moves of a walk: store, register read, step, reset, start-up, flash read.
const WALK_MOVES: [usize; 6] = [3, 1, 0, 5, 0, 1];

/// The moves of a run: turn, flash read, step, reset, start-up, the first stores of one, update start, turns.
const RUN_MOVES: [usize; 8] = [1, 1, 0, 5, 0, 1, 0, 2];

/// How many calls the base has.
pub const BASE: usize = 13;

impl Call {
    pub fn shape(self) -> &'static Shape {
        &SHAPES[self as usize]
    }

    /// Whether it is a list of calls, which has no answer of its own.
    pub fn is_list(self) -> bool {
        matches!(self.shape().rest, Rest::Moves(_) | Rest::Calls)
    }

    /// How many numbers a move of each kind has, where the call is a list of moves.
    pub fn moves(self) -> Option<&'static [usize]> {
        match self.shape().rest {
            Rest::Moves(counts) => Some(counts),
            _ => None,
        }
    }

    /// Whether it is a call of the base.
    pub fn of_base(self) -> bool {
        (self as usize) < BASE
    }
}
