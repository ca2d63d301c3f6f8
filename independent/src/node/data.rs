//! The Data: scope, matching entries, store, and the copies that end requests.

use super::class::Class;
use super::face::{FaceNumber, Link};
use super::history::What;
use super::turn::{Kind, Turn};
use super::{Answer, Node};
use crate::packet::{data_as_it_leaves, Data, Packet};
use std::collections::BTreeMap;

impl Node {
    /// "Store it, then end every request of the matched entries [...]. The entries leave."
    pub(super) fn on_data(
        &mut self,
        arrival: FaceNumber,
        packet: &Packet,
        data: &Data,
        turn: &mut Turn,
    ) -> Answer {
        if self.is_out_of_scope(arrival, data.name) {
            return Answer::Scope;
        }
        let matched = self.pending.take(|entry| entry.matches(data.name));
        if matched.is_empty() {
            return Answer::Unsolicited;
        }
        let bytes = data_as_it_leaves(packet);
        self.store.put(data.name, bytes, self.last_time, data.freshness);
        let mut served: BTreeMap<FaceNumber, Class> = BTreeMap::new();
        for entry in &matched {
            for (&face, &request) in &entry.ins {
                let what = self.end_by_data(arrival, face);
                turn.happened(what, face, entry, request);
                if what == What::Answered {
                    add_lowest(&mut served, face, entry.class);
                }
            }
            self.bury(entry);
        }
        turn.send_to_all(&served, Kind::Data, bytes);
        Answer::Done
    }

    /// "Those on the arrival face as self-met, unless that face is ad hoc; the others as answered."
    fn end_by_data(&self, arrival: FaceNumber, face: FaceNumber) -> What {
        if face == arrival && !self.faces.has_link(arrival, Link::AdHoc) {
            What::SelfMet
        } else {
            What::Answered
        }
    }
}

/// "The lowest if one Data ends requests of several on that face."
fn add_lowest(served: &mut BTreeMap<FaceNumber, Class>, face: FaceNumber, class: Class) {
    let lowest = served.entry(face).or_insert(class);
    *lowest = class.min(*lowest);
}
