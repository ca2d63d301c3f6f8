//! Any bytes to a meaning, or to 4, 5 or 6.

use super::table::{
    is_critical, is_skipped_in_lp, length_is_good, row_of, unknown_in, Absence, Parent, Row,
    Support, Unknown, CAN_BE_PREFIX, DATA, FRAGMENT, FRESHNESS_PERIOD, HOP_LIMIT, INTEREST,
    INTEREST_LIFETIME, LP_PACKET, META_INFO, MUST_BE_FRESH, NACK, NACK_REASON, NAME, NONCE, TABLE,
};
use crate::answer::Answer;
use crate::name::{count_components, NameFault};
use crate::sizes::{
    ABSENT_LIFETIME, LONGEST_FRESHNESS, LONGEST_LIFETIME, NAME_BYTES, NAME_COMPONENTS, PACKET_BYTES,
};
use crate::tlv::{elements, read_element, read_whole_number, Element};

/// Why bytes are turned away by the reader.
#[derive(Clone, Copy, Debug, PartialEq, Eq)]
pub enum Refusal {
    PacketTooLong,
    NameOfTooManyComponents,
    NameOfTooManyBytes,
    Malformed,
    Unsupported,
}

impl Refusal {
    /// The number of its answer.
    pub fn number(self) -> u8 {
        Answer::from(self).number()
    }
}

impl From<Refusal> for Answer {
    /// The answer to what the reader turned away.
    fn from(refusal: Refusal) -> Answer {
        match refusal {
            Refusal::Malformed => Answer::Malformed,
            Refusal::Unsupported => Answer::Unsupported,
            Refusal::PacketTooLong
            | Refusal::NameOfTooManyComponents
            | Refusal::NameOfTooManyBytes => Answer::TooLong,
        }
    }
}

impl From<NameFault> for Refusal {
    /// The refusal of bytes that are not a name that is taken.
    fn from(fault: NameFault) -> Refusal {
        match fault {
            NameFault::Malformed => Refusal::Malformed,
            NameFault::Unsupported => Refusal::Unsupported,
        }
    }
}

/// A HopLimit and where its byte stands in the bare packet.
#[derive(Clone, Copy, Debug, PartialEq, Eq)]
pub struct HopLimit {
    pub value: u8,
    pub at: usize,
}

/// What an Interest says; the lifetime is as it counts.
#[derive(Clone, Copy, Debug, PartialEq, Eq)]
pub struct Interest<'a> {
    pub name: &'a [u8],
    pub can_be_prefix: bool,
    pub must_be_fresh: bool,
    pub nonce: [u8; 4],
    pub lifetime: u64,
    pub hop_limit: Option<HopLimit>,
}

/// What a Data says; the freshness is as it counts.
#[derive(Clone, Copy, Debug, PartialEq, Eq)]
pub struct Data<'a> {
    pub name: &'a [u8],
    pub freshness: u64,
}

/// What a packet means; a Nack's reason is as sent.
#[derive(Clone, Copy, Debug, PartialEq, Eq)]
pub enum Meaning<'a> {
    Interest(Interest<'a>),
    Data(Data<'a>),
    Nack { reason: u64, interest: Interest<'a> },
}

/// A packet as read: its meaning, and the bare Interest or Data where it stands in the input.
#[derive(Clone, Copy, Debug, PartialEq, Eq)]
pub struct Packet<'a> {
    pub meaning: Meaning<'a>,
    pub bare: &'a [u8],
    pub bare_at: usize,
}

impl<'a> Packet<'a> {
    /// The name the packet is about.
    pub fn name(&self) -> &'a [u8] {
        match self.meaning {
            Meaning::Interest(interest) => interest.name,
            Meaning::Data(data) => data.name,
            Meaning::Nack { interest, .. } => interest.name,
        }
    }
}

/// The grammar is broken: answer 5, whatever else is found.
struct Malformed;

/// How a known element keeps its row of the table.
#[derive(Clone, Copy, Debug, PartialEq, Eq, PartialOrd, Ord)]
pub enum Verdict {
    Good,
    OutOfPlace,
    BadLength,
}

/// Told of every known element met, and how it keeps its row.
pub type Watch<'w> = &'w mut dyn FnMut(&'static Row, Verdict);

/// The state of one reading: whether anything that is 6 has been met so far.
struct Reading<'w> {
    unsupported: bool,
    watch: Watch<'w>,
}

/// The known elements found in one parent.
struct Children<'a> {
    found: Vec<Element<'a>>,
}

impl<'a> Children<'a> {
    /// The element of a type, if it was there.
    fn get(&self, kind: u64) -> Option<Element<'a>> {
        self.found.iter().find(|element| element.kind == kind).copied()
    }
}

/// Reads a packet; "packet over 1,500 (4), 5, 6, name size (4)" in this order.
pub fn read(input: &[u8]) -> Result<Packet<'_>, Refusal> {
    read_watched(input, &mut |_, _| {})
}

/// Reads a packet and tells `watch` of every row of the table that is met.
pub fn read_watched<'a>(input: &'a [u8], watch: Watch) -> Result<Packet<'a>, Refusal> {
    if input.len() > PACKET_BYTES {
        return Err(Refusal::PacketTooLong);
    }
    let mut reading = Reading { unsupported: false, watch };
    let packet = reading.input(input).map_err(|_| Refusal::Malformed)?;
    match packet {
        Some(packet) if !reading.unsupported => check_name_size(packet.name()).map(|_| packet),
        _ => Err(Refusal::Unsupported),
    }
}

/// "Name at most 16 components and 255 bytes (the Name's value)", for a name whose grammar is good.
pub fn check_name_size(name: &[u8]) -> Result<(), Refusal> {
    let count = count_components(name).unwrap_or(0);
    if count > NAME_COMPONENTS {
        Err(Refusal::NameOfTooManyComponents)
    } else if name.len() > NAME_BYTES {
        Err(Refusal::NameOfTooManyBytes)
    } else {
        Ok(())
    }
}

/// A command's prefix: "5, 6, name size (4)".
pub fn check_prefix(prefix: &[u8]) -> Result<(), Refusal> {
    count_components(prefix)?;
    check_name_size(prefix)
}

impl Reading<'_> {
    /// "An outer type other than 0x05, 0x06 or 0x64 is 5"; nothing is given back without a
    /// Fragment.
    fn input<'a>(&mut self, input: &'a [u8]) -> Result<Option<Packet<'a>>, Malformed> {
        let outer = self.only_element(Parent::Input, input)?;
        if outer.kind != LP_PACKET {
            let meaning = self.bare(&outer)?;
            return Ok(Some(Packet { meaning, bare: input, bare_at: 0 }));
        }
        let lp = self.children(Parent::LpPacket, outer.value)?;
        let reason = match lp.get(NACK) {
            Some(nack) => Some(self.nack_reason(nack.value)?),
            None => None,
        };
        match lp.get(FRAGMENT) {
            None => Ok(None),
            Some(fragment) => {
                let meaning = self.fragment(fragment.value, reason)?;
                let bare_at = outer.value_at + fragment.value_at;
                Ok(Some(Packet { meaning, bare: fragment.value, bare_at }))
            }
        }
    }

    /// "A Fragment holds a bare Interest or Data, with Nack an Interest; else 5."
    fn fragment<'a>(
        &mut self,
        value: &'a [u8],
        reason: Option<u64>,
    ) -> Result<Meaning<'a>, Malformed> {
        let inner = self.only_element(Parent::Fragment, value)?;
        match (self.bare(&inner)?, reason) {
            (Meaning::Interest(interest), Some(reason)) => Ok(Meaning::Nack { reason, interest }),
            (_, Some(_)) => Err(Malformed),
            (meaning, None) => Ok(meaning),
        }
    }

    /// The one element that fills its parent: "each element ends within its parent, the packet at
    /// the last byte".
    fn only_element<'a>(
        &mut self,
        parent: Parent,
        bytes: &'a [u8],
    ) -> Result<Element<'a>, Malformed> {
        let element = read_element(bytes, 0).map_err(|_| Malformed)?;
        let row = row_of(parent, element.kind).ok_or(Malformed)?;
        let fills = element.next == bytes.len();
        let verdict = if fills { Verdict::Good } else { Verdict::BadLength };
        self.judged(row, verdict).map(|_| element)
    }

    /// A bare Interest or Data.
    fn bare<'a>(&mut self, outer: &Element<'a>) -> Result<Meaning<'a>, Malformed> {
        match outer.kind {
            INTEREST => self.interest(outer).map(Meaning::Interest),
            DATA => self.data(outer.value).map(Meaning::Data),
            _ => Err(Malformed),
        }
    }

    /// The Interest of one element, read where it stands.
    fn interest<'a>(&mut self, outer: &Element<'a>) -> Result<Interest<'a>, Malformed> {
        let found = self.children(Parent::Interest, outer.value)?;
        let name = found.get(NAME).ok_or(Malformed)?.value;
        self.name(name)?;
        let nonce = found.get(NONCE).ok_or(Malformed)?.value;
        let lifetime = match found.get(INTEREST_LIFETIME) {
            Some(element) => read_whole_number(element.value).ok_or(Malformed)?,
            None => ABSENT_LIFETIME,
        };
        let hop_limit = found.get(HOP_LIMIT).map(|element| HopLimit {
            value: element.value[0],
            at: outer.value_at + element.value_at,
        });
        Ok(Interest {
            name,
            can_be_prefix: found.get(CAN_BE_PREFIX).is_some(),
            must_be_fresh: found.get(MUST_BE_FRESH).is_some(),
            nonce: nonce.try_into().map_err(|_| Malformed)?,
            lifetime: lifetime.min(LONGEST_LIFETIME),
            hop_limit,
        })
    }

    /// "Name and the last two are required; a Data name may be empty"; "only freshness is read".
    fn data<'a>(&mut self, value: &'a [u8]) -> Result<Data<'a>, Malformed> {
        let found = self.children(Parent::Data, value)?;
        let name = found.get(NAME).ok_or(Malformed)?.value;
        self.name(name)?;
        let freshness = match found.get(META_INFO) {
            Some(element) => self.freshness(element.value)?,
            None => 0,
        };
        Ok(Data { name, freshness: freshness.min(LONGEST_FRESHNESS) })
    }

    /// The FreshnessPeriod of a MetaInfo, "absent as 0".
    fn freshness(&mut self, meta_info: &[u8]) -> Result<u64, Malformed> {
        let found = self.children(Parent::MetaInfo, meta_info)?;
        match found.get(FRESHNESS_PERIOD) {
            Some(element) => read_whole_number(element.value).ok_or(Malformed),
            None => Ok(0),
        }
    }

    /// "Nack is empty (reason 0) or holds one NackReason 0x0321 and nothing else."
    fn nack_reason(&mut self, nack: &[u8]) -> Result<u64, Malformed> {
        let found = self.children(Parent::Nack, nack)?;
        match found.get(NACK_REASON) {
            Some(element) => read_whole_number(element.value).ok_or(Malformed),
            None => Ok(0),
        }
    }

    /// "Component types are 1 to 65,535; types 1 and 2 are 6."
    fn name(&mut self, name: &[u8]) -> Result<(), Malformed> {
        match count_components(name) {
            Ok(_) => Ok(()),
            Err(NameFault::Malformed) => Err(Malformed),
            Err(NameFault::Unsupported) => {
                self.unsupported = true;
                Ok(())
            }
        }
    }

    /// All elements of a parent, judged by the table: order, length, support, and what is missing.
    fn children<'a>(&mut self, parent: Parent, value: &'a [u8]) -> Result<Children<'a>, Malformed> {
        let mut children = Children { found: Vec::new() };
        let mut next_place = 0;
        for element in elements(value) {
            let element = element.map_err(|_| Malformed)?;
            if parent == Parent::LpPacket && children.get(FRAGMENT).is_some() {
                return Err(Malformed); // "Anything after the Fragment is 5."
            }
            match row_of(parent, element.kind) {
                Some(row) => {
                    self.known(row, &element, next_place)?;
                    next_place = row.place + 1;
                    children.found.push(element);
                }
                None => self.unknown(parent, element.kind)?,
            }
        }
        self.absent(parent, &children)?;
        Ok(children)
    }

    /// "A known element repeated or out of order is 5"; its length must keep its rule; it may be 6.
    fn known(
        &mut self,
        row: &'static Row,
        element: &Element,
        next_place: u8,
    ) -> Result<(), Malformed> {
        self.unsupported |= row.support == Support::Unsupported;
        if row.place < next_place {
            self.judged(row, Verdict::OutOfPlace)
        } else if !length_is_good(row.length, element.value.len()) {
            self.judged(row, Verdict::BadLength)
        } else {
            self.judged(row, Verdict::Good)
        }
    }

    /// Tells of a verdict; any but a good one is 5.
    fn judged(&mut self, row: &'static Row, verdict: Verdict) -> Result<(), Malformed> {
        (self.watch)(row, verdict);
        match verdict {
            Verdict::Good => Ok(()),
            Verdict::OutOfPlace | Verdict::BadLength => Err(Malformed),
        }
    }

    /// An element whose type is not known in its parent: 5, 6 or skipped.
    fn unknown(&mut self, parent: Parent, kind: u64) -> Result<(), Malformed> {
        match unknown_in(parent) {
            Unknown::ByCriticality if is_critical(kind) => Err(Malformed),
            Unknown::ByCriticality => Ok(()),
            Unknown::ByLpRange => {
                self.unsupported |= !is_skipped_in_lp(kind);
                Ok(())
            }
            Unknown::Malformed => Err(Malformed),
        }
    }

    /// The elements a parent must have: without one it is 5, without a Fragment 6.
    fn absent(&mut self, parent: Parent, children: &Children) -> Result<(), Malformed> {
        for row in TABLE.iter().filter(|row| row.parent == parent) {
            if children.get(row.kind).is_none() {
                match row.absence {
                    Absence::Allowed => {}
                    Absence::Malformed => return Err(Malformed),
                    Absence::Unsupported => self.unsupported = true,
                }
            }
        }
        Ok(())
    }
}
