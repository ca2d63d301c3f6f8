//! Classes and the room they leave each other in the pending table.

use crate::sizes::PENDING;

/// "1 alarm, 2 monitoring, 3 bulk."
#[derive(Clone, Copy, Debug, PartialEq, Eq, PartialOrd, Ord)]
pub enum Class {
    Alarm = 1,
    Monitoring = 2,
    Bulk = 3,
}

/// All classes in the order of their numbers.
pub const CLASSES: [Class; 3] = [Class::Alarm, Class::Monitoring, Class::Bulk];

impl Class {
    /// The class of a number; "class not 1..3" is none.
    pub fn from_number(number: u64) -> Option<Class> {
        CLASSES.into_iter().find(|&class| class as u64 == number)
    }

    /// "Their reserves are 24, 16 and 8."
    pub fn reserve(self) -> usize {
        match self {
            Class::Alarm => 24,
            Class::Monitoring => 16,
            Class::Bulk => 8,
        }
    }
}

/// "The sum over the classes of the larger of reserve and use", where `used` gives each class's
/// use.
pub fn claimed(used: impl Fn(Class) -> usize) -> usize {
    CLASSES.into_iter().map(|class| class.reserve().max(used(class))).sum()
}

/// "NO_ROOM exactly when the sum [...], counting the new entry, exceeds 64."
pub fn has_room(new: Class, used: impl Fn(Class) -> usize) -> bool {
    claimed(|class| used(class) + usize::from(class == new)) <= PENDING
}
