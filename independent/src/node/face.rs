//! Faces: their numbers, scope and link type.

use crate::sizes::FACES;

/// A face's number, from 1.
pub type FaceNumber = usize;

/// "Link type (point-to-point, multi-access, ad hoc)"; the number is the tape's.
#[derive(Clone, Copy, Debug, PartialEq, Eq)]
pub enum Link {
    PointToPoint = 0,
    MultiAccess = 1,
    AdHoc = 2,
}

/// All link types in the order of their numbers.
const LINKS: [Link; 3] = [Link::PointToPoint, Link::MultiAccess, Link::AdHoc];

/// An open face: "opening gives scope and link type".
#[derive(Clone, Copy, Debug, PartialEq, Eq)]
pub struct Face {
    pub local: bool,
    pub link: Link,
}

impl Face {
    /// A face from a tape's numbers: "scope(0 local, 1 not) link(0, 1, 2 as above)".
    pub fn from_numbers(scope: u64, link: u64) -> Option<Face> {
        let local = match scope {
            0 => true,
            1 => false,
            _ => return None,
        };
        let link = LINKS.into_iter().find(|&known| known as u64 == link)?;
        Some(Face { local, link })
    }

    /// The tape's number of its scope.
    pub fn scope(self) -> u64 {
        u64::from(!self.local)
    }
}

/// All faces; a closed one is absent.
#[derive(Clone, Debug, PartialEq, Eq, Default)]
pub struct Faces {
    open: [Option<Face>; FACES],
}

impl Faces {
    /// "Number not 1..16" is no face's number.
    pub fn number(number: u64) -> Option<FaceNumber> {
        (1..=FACES as u64).contains(&number).then_some(number as FaceNumber)
    }

    /// The open face of that number.
    pub fn get(&self, number: FaceNumber) -> Option<Face> {
        self.open[number - 1]
    }

    /// Opens a face.
    pub fn open(&mut self, number: FaceNumber, face: Face) {
        self.open[number - 1] = Some(face);
    }

    /// Closes a face.
    pub fn close(&mut self, number: FaceNumber) {
        self.open[number - 1] = None;
    }

    /// Whether the face is open and local.
    pub fn is_local(&self, number: FaceNumber) -> bool {
        self.get(number).is_some_and(|face| face.local)
    }

    /// Whether the face is open and has this link type.
    pub fn has_link(&self, number: FaceNumber, link: Link) -> bool {
        self.get(number).is_some_and(|face| face.link == link)
    }
}
