//! Opening and closing faces, setting and dropping routes and hops.

use super::class::Class;
use super::face::{Face, FaceNumber};
use super::history::What;
use super::turn::Turn;
use super::{Answer, Node};
use crate::fingerprint::fingerprint;
use crate::packet::check_prefix;
use crate::sizes::GREATEST_COST;

impl Node {
    /// "Opening gives scope and link type"; 14 before 15.
    pub(super) fn on_open(&mut self, number: FaceNumber, scope: u64, link: u64) -> Answer {
        if self.faces.get(number).is_some() {
            return Answer::FaceOpen;
        }
        match Face::from_numbers(scope, link) {
            Some(face) => {
                self.faces.open(number, face);
                Answer::Done
            }
            None => Answer::BadSetting,
        }
    }

    /// "Closing goes by entry, oldest opening first: the face's out-record goes, its fingerprint
    /// joining the dead list; its request ends; an entry without requests leaves. Its next hops go
    /// too."
    pub(super) fn on_close(&mut self, face: FaceNumber, turn: &mut Turn) -> Answer {
        let now = self.last_time;
        for mut entry in std::mem::take(&mut self.pending.entries) {
            if let Some(record) = entry.outs.remove(&face) {
                let line = fingerprint(self.fingerprint_start, &entry.name, &record.nonce);
                self.dead.join(line, now);
            }
            if let Some(request) = entry.ins.remove(&face) {
                turn.happened(What::Closed, face, &entry, request);
            }
            if entry.ins.is_empty() {
                self.bury(&entry);
            } else {
                self.pending.entries.push(entry);
            }
        }
        self.routes.drop_face(face);
        self.faces.close(face);
        Answer::Done
    }

    /// "Setting a route gives a prefix (empty allowed) and class": 5, 6, 4, 15, 16.
    pub(super) fn on_set_route(&mut self, class: u64, prefix: &[u8]) -> Answer {
        if let Err(refusal) = check_prefix(prefix) {
            return refusal.into();
        }
        let Some(class) = Class::from_number(class) else {
            return Answer::BadSetting;
        };
        match self.routes.set(prefix, class) {
            Ok(()) => Answer::Done,
            Err(_) => Answer::TableFull,
        }
    }

    /// Dropping a route: "a hop or drop on something absent is 10".
    pub(super) fn on_drop_route(&mut self, prefix: &[u8]) -> Answer {
        match check_prefix(prefix) {
            Err(refusal) => refusal.into(),
            Ok(()) => done_or_absent(self.routes.drop_route(prefix)),
        }
    }

    /// Adding a hop: 5, 6, 4, 15 for the cost, 10 for an absent route.
    pub(super) fn on_add_hop(&mut self, face: FaceNumber, cost: u64, prefix: &[u8]) -> Answer {
        match check_prefix(prefix) {
            Err(refusal) => refusal.into(),
            Ok(()) if cost > GREATEST_COST => Answer::BadSetting,
            Ok(()) => done_or_absent(self.routes.add_hop(prefix, face, cost)),
        }
    }

    /// Dropping a hop: "a hop or drop on something absent is 10".
    pub(super) fn on_drop_hop(&mut self, face: FaceNumber, prefix: &[u8]) -> Answer {
        match check_prefix(prefix) {
            Err(refusal) => refusal.into(),
            Ok(()) => done_or_absent(self.routes.drop_hop(prefix, face)),
        }
    }
}

/// Answer 0, or 10 for something absent.
fn done_or_absent(present: bool) -> Answer {
    if present {
        Answer::Done
    } else {
        Answer::NoRoute
    }
}
