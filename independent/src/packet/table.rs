//! "Which types are known, in which parent, with which length, is one fixed table."

/// Where an element stands.
#[derive(Clone, Copy, Debug, PartialEq, Eq)]
pub enum Parent {
    /// What came in, whole.
    Input,
    Interest,
    Data,
    MetaInfo,
    LpPacket,
    Nack,
    Fragment,
}

/// Which lengths an element's value may have.
#[derive(Clone, Copy, Debug, PartialEq, Eq)]
pub enum Length {
    Any,
    NotEmpty,
    Exactly(usize),
    /// "Whole numbers in elements take 1, 2, 4 or 8 bytes."
    WholeNumber,
}

/// Whether the element is taken or marked (6).
#[derive(Clone, Copy, Debug, PartialEq, Eq)]
pub enum Support {
    Taken,
    Unsupported,
}

/// What the parent is without the element.
#[derive(Clone, Copy, Debug, PartialEq, Eq)]
pub enum Absence {
    Allowed,
    Malformed,
    Unsupported,
}

/// What an unknown type is within a parent.
#[derive(Clone, Copy, Debug, PartialEq, Eq)]
pub enum Unknown {
    /// "Unknown and critical is 5, unknown and not critical is skipped."
    ByCriticality,
    /// "Types 800 to 959 divisible by 4 are otherwise skipped; any other type, critical or not, is
    /// 6."
    ByLpRange,
    /// "And nothing else, skippable or not; else 5."
    Malformed,
}

/// One known element: its type, its parent, its place in the parent's order, and its rules.
#[derive(Clone, Copy, Debug, PartialEq, Eq)]
pub struct Row {
    pub kind: u64,
    pub parent: Parent,
    pub place: u8,
    pub length: Length,
    pub support: Support,
    pub absence: Absence,
}

pub const INTEREST: u64 = 0x05;
pub const DATA: u64 = 0x06;
pub const LP_PACKET: u64 = 0x64;
pub const NAME: u64 = 0x07;
pub const CAN_BE_PREFIX: u64 = 0x21;
pub const MUST_BE_FRESH: u64 = 0x12;
pub const FORWARDING_HINT: u64 = 0x1E;
pub const NONCE: u64 = 0x0A;
pub const INTEREST_LIFETIME: u64 = 0x0C;
pub const HOP_LIMIT: u64 = 0x22;
pub const APPLICATION_PARAMETERS: u64 = 0x24;
pub const INTEREST_SIGNATURE_INFO: u64 = 0x2C;
pub const INTEREST_SIGNATURE_VALUE: u64 = 0x2E;
pub const META_INFO: u64 = 0x14;
pub const CONTENT: u64 = 0x15;
pub const SIGNATURE_INFO: u64 = 0x16;
pub const SIGNATURE_VALUE: u64 = 0x17;
pub const CONTENT_TYPE: u64 = 0x18;
pub const FRESHNESS_PERIOD: u64 = 0x19;
pub const FINAL_BLOCK_ID: u64 = 0x1A;
pub const FRAGMENT: u64 = 0x50;
pub const NACK: u64 = 0x0320;
pub const NACK_REASON: u64 = 0x0321;

/// A row that is taken and may be absent.
const fn may(parent: Parent, place: u8, kind: u64, length: Length) -> Row {
    Row { kind, parent, place, length, support: Support::Taken, absence: Absence::Allowed }
}

/// A row without which the parent is 5.
const fn must(parent: Parent, place: u8, kind: u64, length: Length) -> Row {
    Row { kind, parent, place, length, support: Support::Taken, absence: Absence::Malformed }
}

/// A row that is 6 wherever it stands in order.
const fn marked(parent: Parent, place: u8, kind: u64) -> Row {
    let (length, support) = (Length::Any, Support::Unsupported);
    Row { kind, parent, place, length, support, absence: Absence::Allowed }
}

/// "No Fragment is 6."
const FRAGMENT_ROW: Row = Row {
    kind: FRAGMENT,
    parent: Parent::LpPacket,
    place: 1,
    length: Length::Any,
    support: Support::Taken,
    absence: Absence::Unsupported,
};

/// The fixed table. Rows of one parent stand in the order their elements must keep.
pub const TABLE: [Row; 26] = [
    may(Parent::Input, 0, INTEREST, Length::Any),
    may(Parent::Input, 0, DATA, Length::Any),
    may(Parent::Input, 0, LP_PACKET, Length::Any),
    must(Parent::Interest, 0, NAME, Length::NotEmpty),
    may(Parent::Interest, 1, CAN_BE_PREFIX, Length::Exactly(0)),
    may(Parent::Interest, 2, MUST_BE_FRESH, Length::Exactly(0)),
    marked(Parent::Interest, 3, FORWARDING_HINT),
    must(Parent::Interest, 4, NONCE, Length::Exactly(4)),
    may(Parent::Interest, 5, INTEREST_LIFETIME, Length::WholeNumber),
    may(Parent::Interest, 6, HOP_LIMIT, Length::Exactly(1)),
    marked(Parent::Interest, 7, APPLICATION_PARAMETERS),
    marked(Parent::Interest, 8, INTEREST_SIGNATURE_INFO),
    marked(Parent::Interest, 9, INTEREST_SIGNATURE_VALUE),
    must(Parent::Data, 0, NAME, Length::Any),
    may(Parent::Data, 1, META_INFO, Length::Any),
    may(Parent::Data, 2, CONTENT, Length::Any),
    must(Parent::Data, 3, SIGNATURE_INFO, Length::Any),
    must(Parent::Data, 4, SIGNATURE_VALUE, Length::Any),
    may(Parent::MetaInfo, 0, CONTENT_TYPE, Length::Any),
    may(Parent::MetaInfo, 1, FRESHNESS_PERIOD, Length::WholeNumber),
    may(Parent::MetaInfo, 2, FINAL_BLOCK_ID, Length::Any),
    may(Parent::LpPacket, 0, NACK, Length::Any),
    FRAGMENT_ROW,
    may(Parent::Nack, 0, NACK_REASON, Length::WholeNumber),
    may(Parent::Fragment, 0, INTEREST, Length::Any),
    may(Parent::Fragment, 0, DATA, Length::Any),
];

/// The row of a type in a parent, if it is known there.
pub fn row_of(parent: Parent, kind: u64) -> Option<&'static Row> {
    TABLE.iter().find(|row| row.parent == parent && row.kind == kind)
}

/// Whether a length keeps the rule.
pub fn length_is_good(rule: Length, length: usize) -> bool {
    match rule {
        Length::Any => true,
        Length::NotEmpty => length > 0,
        Length::Exactly(wanted) => length == wanted,
        Length::WholeNumber => matches!(length, 1 | 2 | 4 | 8),
    }
}

/// What an unknown type is within a parent.
pub fn unknown_in(parent: Parent) -> Unknown {
    match parent {
        Parent::Interest | Parent::Data | Parent::MetaInfo => Unknown::ByCriticality,
        Parent::LpPacket => Unknown::ByLpRange,
        Parent::Input | Parent::Nack | Parent::Fragment => Unknown::Malformed,
    }
}

/// "A type that is at most 31 or odd is critical."
pub fn is_critical(kind: u64) -> bool {
    kind <= 31 || kind % 2 == 1
}

/// "Types 800 to 959 divisible by 4 are otherwise skipped."
pub fn is_skipped_in_lp(kind: u64) -> bool {
    (800..=959).contains(&kind) && kind.is_multiple_of(4)
}
