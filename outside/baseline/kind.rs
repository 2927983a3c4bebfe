//! The 35 identifiers and their rows of document 01's table of kinds.
use super::{judge_edition, refuse, Answer, DESK};

/// The rows of the table, in its order.
#[derive(Clone, Copy, Debug, PartialEq, Eq)]
pub enum Kind {
    Marker,
    SimpleCondition,
    SimpleAction,
    SimpleException,
    WordList,
    Size,
    Dates,
}

pub const MARKER: [u32; 1] = [0x64];
pub const SIMPLE_CONDITIONS: [u32; 7] = [0xC8, 0xC9, 0xCA, 0xDE, 0xE2, 0xE3, 0xF5];
pub const SIMPLE_ACTIONS: [u32; 9] = [0x12D, 0x132, 0x13A, 0x13B, 0x142, 0x14A, 0x14C, 0x14F, 0x152];
pub const SIMPLE_EXCEPTIONS: [u32; 10] = [0x1F4, 0x1F5, 0x1F6, 0x208, 0x20A, 0x20E, 0x20F, 0x216, 0x21A, 0x21B];
pub const WORD_LISTS: [u32; 4] = [0x211, 0x212, 0x213, 0x219];
pub const SIZES: [u32; 2] = [0xE0, 0x20C];
pub const DATES: [u32; 2] = [0xE1, 0x20D];

/// The row of an identifier, if it is among the 35: the whole 32 bits count.
pub fn row(identifier: u32) -> Option<Kind> {
    match identifier {
        0x64 => Some(Kind::Marker),
        0xC8 | 0xC9 | 0xCA | 0xDE | 0xE2 | 0xE3 | 0xF5 => Some(Kind::SimpleCondition),
        0x12D | 0x132 | 0x13A | 0x13B | 0x142 | 0x14A | 0x14C | 0x14F | 0x152 => Some(Kind::SimpleAction),
        0x1F4 | 0x1F5 | 0x1F6 | 0x208 | 0x20A | 0x20E | 0x20F | 0x216 | 0x21A | 0x21B => Some(Kind::SimpleException),
        0x211 | 0x212 | 0x213 | 0x219 => Some(Kind::WordList),
        0xE0 | 0x20C => Some(Kind::Size),
        0xE1 | 0x20D => Some(Kind::Dates),
        _ => None,
    }
}

/// What an element is in its rule.
#[derive(Clone, Copy, Debug, PartialEq, Eq)]
pub enum Role {
    None,
    Condition,
    Action,
    Exception,
}

/// The role of an identifier of that row: "E0 condition, 20C exception", "E1 condition, 20D exception".
pub fn role(kind: Kind, identifier: u32) -> Role {
    match (kind, identifier) {
        (Kind::Marker, _) => Role::None,
        (Kind::SimpleCondition, _) | (Kind::Size, 0xE0) | (Kind::Dates, 0xE1) => Role::Condition,
        (Kind::SimpleAction, _) => Role::Action,
        (Kind::SimpleException | Kind::WordList | Kind::Size | Kind::Dates, _) => Role::Exception,
    }
}

/// "Desk has the marker, simple conditions and simple actions."
fn in_desk(kind: Kind) -> bool {
    matches!(kind, Kind::Marker | Kind::SimpleCondition | Kind::SimpleAction)
}

/// An identifier in an edition that is one: its row, or 9 or 10 at 0.
pub fn judge(edition: u64, identifier: u32) -> Answer<Kind> {
    match row(identifier) {
        None => refuse(9, 0),
        Some(kind) if edition == DESK && !in_desk(kind) => refuse(10, 0),
        Some(kind) => Ok(kind),
    }
}

/// "An identifier alone takes an edition and answers its row of the kinds, or 1, 9 or 10 at 0."
pub fn alone(edition: u64, identifier: u32) -> Answer<Kind> {
    judge_edition(edition)?;
    judge(edition, identifier)
}

/// The 35, in the order of the table.
pub fn identifiers() -> Vec<u32> {
    let rows: [&[u32]; 7] =
        [&MARKER, &SIMPLE_CONDITIONS, &SIMPLE_ACTIONS, &SIMPLE_EXCEPTIONS, &WORD_LISTS, &SIZES, &DATES];
    rows.concat()
}

/// Those of the 35 that an edition has.
pub fn identifiers_of(edition: u64) -> Vec<u32> {
    identifiers().into_iter().filter(|&i| judge(edition, i).is_ok()).collect()
}
