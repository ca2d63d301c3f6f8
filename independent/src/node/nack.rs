//! The Nack: scope, staleness, and the requests it ends.

use super::face::{FaceNumber, Link};
use super::history::What;
use super::pending::Entry;
use super::turn::{Kind, Turn};
use super::{Answer, Node};
use crate::packet::{write_nack, Asked, Interest};

/// "Reasons other than 50, 100, 150 become 0, still Nacked."
fn reason_as_kept(reason: u64) -> u64 {
    match reason {
        50 | 100 | 150 => reason,
        _ => 0,
    }
}

impl Node {
    /// A Nack: marks the out-record, and "if a Nack leaves all out-records Nacked" ends requests.
    pub(super) fn on_nack(
        &mut self,
        arrival: FaceNumber,
        reason: u64,
        interest: &Interest,
        turn: &mut Turn,
    ) -> Answer {
        if self.is_out_of_scope(arrival, interest.name) {
            return Answer::Scope;
        }
        let Some(mut entry) = self.nacked_entry(arrival, interest) else {
            return Answer::StaleNack;
        };
        if let Some(record) = entry.outs.get_mut(&arrival) {
            record.nacked = Some(reason_as_kept(reason));
        }
        if let Some(reason) = entry.reason_if_all_nacked() {
            self.end_by_nack(&mut entry, reason, turn);
        }
        if let Some(place) = self.pending.find_mut(interest) {
            *place = entry;
        }
        self.dismiss_entries_without_requests();
        Answer::Done
    }

    /// "STALE_NACK exactly when the face is not point-to-point, or has no out-record with this
    /// nonce in that entry."
    fn nacked_entry(&self, arrival: FaceNumber, interest: &Interest) -> Option<Entry> {
        let entry = self.pending.find(interest)?;
        let asked = entry.outs.get(&arrival).is_some_and(|record| record.nonce == interest.nonce);
        let link_is_good = self.faces.has_link(arrival, Link::PointToPoint);
        (asked && link_is_good).then(|| entry.clone())
    }

    /// "Each point-to-point request ends by a Nack with its own nonce [...]. Others stay open."
    fn end_by_nack(&self, entry: &mut Entry, reason: u64, turn: &mut Turn) {
        let faces: Vec<FaceNumber> = entry.ins.keys().copied().collect();
        for face in faces {
            if !self.faces.has_link(face, Link::PointToPoint) {
                continue;
            }
            if let Some(request) = entry.ins.remove(&face) {
                let asked = Asked {
                    name: &entry.name,
                    can_be_prefix: entry.can_be_prefix,
                    must_be_fresh: entry.must_be_fresh,
                    nonce: request.nonce,
                };
                turn.send(face, entry.class, Kind::Nack, &write_nack(reason, &asked));
                turn.happened(What::Nacked, face, entry, request);
            }
        }
    }
}
