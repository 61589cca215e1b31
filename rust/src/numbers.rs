//! The paper's numbers by their names.

/// Registers.
pub mod register {
    /// NVMCON.
    pub const NVMCON: u32 = 0;
    /// NVMKEY, which has form 0 only.
    pub const NVMKEY: u32 = 1;
    /// NVMADDR.
    pub const NVMADDR: u32 = 2;
    /// NVMDATA0, which NVMDATA1 to 3 follow.
    pub const NVMDATA0: u32 = 3;
    /// NVMSRCADDR.
    pub const NVMSRCADDR: u32 = 7;
    /// NVMPWP.
    pub const NVMPWP: u32 = 8;
    /// NVMBWP.
    pub const NVMBWP: u32 = 9;
    /// NVMCON2.
    pub const NVMCON2: u32 = 10;

    /// Their names, by number.
    pub const NAMES: [&str; 11] = [
        "NVMCON",
        "NVMKEY",
        "NVMADDR",
        "NVMDATA0",
        "NVMDATA1",
        "NVMDATA2",
        "NVMDATA3",
        "NVMSRCADDR",
        "NVMPWP",
        "NVMBWP",
        "NVMCON2",
    ];
}

/// Forms of a store.
pub mod form {
    /// The value itself is wanted.
    pub const PLAIN: u32 = 0;
    /// The bits at 1 in the value are wanted at 0.
    pub const CLEAR: u32 = 1;
    /// The bits at 1 in the value are wanted at 1.
    pub const SET: u32 = 2;
    /// The bits at 1 in the value are wanted changed.
    pub const INVERT: u32 = 3;
}

/// Kinds of a reset.
pub mod reset_kind {
    /// Power-on.
    pub const POWER_ON: u32 = 0;
    /// Brown-out.
    pub const BROWN_OUT: u32 = 1;
    /// Any other reset.
    pub const OTHER: u32 = 2;
}

/// Bits of NVMCON.
pub mod nvmcon {
    /// An operation runs.
    pub const WR: u32 = 1 << 15;
    /// Writes are enabled.
    pub const WREN: u32 = 1 << 14;
    /// A write error.
    pub const WRERR: u32 = 1 << 13;
    /// A low-voltage error.
    pub const LVDERR: u32 = 1 << 12;
    /// Bank 2's program pages are in the lower region.
    pub const PFSWAP: u32 = 1 << 7;
    /// Bank 2's boot pages are on the lower alias.
    pub const BFSWAP: u32 = 1 << 6;
}
