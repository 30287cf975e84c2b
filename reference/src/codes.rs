//! The table of address modifier codes.

use crate::requests::Refusal;

#[derive(Clone, Copy, PartialEq, Eq, Debug)]
pub enum Space {
    A16,
    A24,
    A32,
}

impl Space {
    /// How many addresses the space has.
    pub fn addresses(self) -> u64 {
        match self {
            Space::A16 => 1 << 16,
            Space::A24 => 1 << 24,
            Space::A32 => 1 << 32,
        }
    }
}

#[derive(Clone, Copy, PartialEq, Eq, Debug)]
pub enum Access {
    Data,
    Program,
    Block,
    /// A block of eight-byte data.
    WideBlock,
    Short,
}

#[derive(Clone, Copy, PartialEq, Eq, Debug)]
pub enum Privilege {
    User,
    Supervisory,
}

#[derive(Clone, Copy, Debug)]
pub struct Code {
    pub code: u8,
    pub space: Space,
    pub access: Access,
    pub privilege: Privilege,
}

impl Code {
    pub fn is_block(self) -> bool {
        matches!(self.access, Access::Block | Access::WideBlock)
    }

    pub fn is_wide(self) -> bool {
        self.access == Access::WideBlock
    }
}

const fn row(code: u8, space: Space, access: Access, privilege: Privilege) -> Code {
    Code { code, space, access, privilege }
}

const TABLE: [Code; 18] = [
    row(0x29, Space::A16, Access::Short, Privilege::User),
    row(0x2d, Space::A16, Access::Short, Privilege::Supervisory),
    row(0x39, Space::A24, Access::Data, Privilege::User),
    row(0x3a, Space::A24, Access::Program, Privilege::User),
    row(0x3b, Space::A24, Access::Block, Privilege::User),
    row(0x3d, Space::A24, Access::Data, Privilege::Supervisory),
    row(0x3e, Space::A24, Access::Program, Privilege::Supervisory),
    row(0x3f, Space::A24, Access::Block, Privilege::Supervisory),
    row(0x09, Space::A32, Access::Data, Privilege::User),
    row(0x0a, Space::A32, Access::Program, Privilege::User),
    row(0x0b, Space::A32, Access::Block, Privilege::User),
    row(0x0d, Space::A32, Access::Data, Privilege::Supervisory),
    row(0x0e, Space::A32, Access::Program, Privilege::Supervisory),
    row(0x0f, Space::A32, Access::Block, Privilege::Supervisory),
    row(0x08, Space::A32, Access::WideBlock, Privilege::User),
    row(0x0c, Space::A32, Access::WideBlock, Privilege::Supervisory),
    row(0x38, Space::A24, Access::WideBlock, Privilege::User),
    row(0x3c, Space::A24, Access::WideBlock, Privilege::Supervisory),
];

/// The row of a code, or why the master refuses it.
pub fn look_up(code: u8) -> Result<Code, Refusal> {
    match code {
        0x40.. => Err(Refusal::TooLarge),
        0x10..=0x1f => Err(Refusal::UserDefined),
        _ => TABLE.into_iter().find(|it| it.code == code).ok_or(Refusal::Reserved),
    }
}
