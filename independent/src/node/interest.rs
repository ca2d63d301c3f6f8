//! The Interest: hop limit, scope, loop, store, route, room, sending.

use super::class::has_room;
use super::face::{FaceNumber, Link};
use super::history::What;
use super::pending::{Entry, InRecord};
use super::route::Route;
use super::store::Wanted;
use super::turn::{Kind, Turn};
use super::{Answer, Node};
use crate::fingerprint::fingerprint;
use crate::name::{reach, Reach};
use crate::packet::{interest_as_it_leaves, write_nack, Asked, Interest, Packet};

/// The reasons of the Nacks that go with refusals 9, 10 and 11.
const REASON_LOOP: u64 = 100;
const REASON_NO_ROUTE: u64 = 150;
const REASON_NO_ROOM: u64 = 50;

impl Node {
    /// An Interest that came by itself: checks 7, 8 and 9, then "no entry" or "entry present".
    pub(super) fn on_interest(
        &mut self,
        face: FaceNumber,
        packet: &Packet,
        interest: &Interest,
        turn: &mut Turn,
    ) -> Answer {
        if interest.hop_limit.is_some_and(|hop_limit| hop_limit.value == 0) {
            return Answer::HopLimit;
        }
        if self.is_out_of_scope(face, interest.name) {
            return Answer::Scope;
        }
        if self.is_loop(face, interest) {
            self.refuse(face, REASON_LOOP, interest, turn);
            return Answer::Loop;
        }
        if self.pending.find(interest).is_some() {
            self.join_entry(face, packet, interest, turn);
            Answer::Done
        } else {
            self.without_entry(face, packet, interest, turn)
        }
    }

    /// LOOP: "a live fingerprint equals this one; or the entry has the nonce [...]. The entry does
    /// not count if the face is point-to-point and its own in-record has this nonce."
    fn is_loop(&self, face: FaceNumber, interest: &Interest) -> bool {
        let line = fingerprint(self.fingerprint_start, interest.name, &interest.nonce);
        if self.dead.has_live(line, self.last_time) {
            return true;
        }
        let Some(entry) = self.pending.find(interest) else {
            return false;
        };
        let counts = !(self.faces.has_link(face, Link::PointToPoint)
            && entry.has_own_nonce(face, interest.nonce));
        counts && entry.has_nonce(interest.nonce)
    }

    /// The Nack of a refusal: "Nacks go only to point-to-point faces"; its class is by the name of
    /// the Interest.
    fn refuse(&self, face: FaceNumber, reason: u64, interest: &Interest, turn: &mut Turn) {
        if self.faces.has_link(face, Link::PointToPoint) {
            let class = self.routes.class_for(interest.name);
            turn.send(face, class, Kind::Nack, &write_nack(reason, &Asked::from(interest)));
        }
    }

    /// "No entry: look in the store [...]. Otherwise take the longest matching route. [...] Then
    /// NO_ROOM. Else open."
    fn without_entry(
        &mut self,
        face: FaceNumber,
        packet: &Packet,
        interest: &Interest,
        turn: &mut Turn,
    ) -> Answer {
        let wanted = Wanted {
            name: interest.name,
            can_be_prefix: interest.can_be_prefix,
            must_be_fresh: interest.must_be_fresh,
        };
        if let Some(stored) = self.store.hit(&wanted, self.last_time) {
            let class = self.routes.class_for(&stored.name);
            turn.send(face, class, Kind::Data, &stored.bytes);
            return Answer::Done;
        }
        let from_local = self.faces.is_local(face);
        let route = self.routes.longest(interest.name);
        let chosen = route.and_then(|route| {
            let hop = route.cheapest(|hop| self.is_eligible(hop, face, interest, from_local))?;
            Some((hop, route.class))
        });
        let Some((hop, class)) = chosen else {
            self.refuse(face, REASON_NO_ROUTE, interest, turn);
            return Answer::NoRoute;
        };
        if !has_room(class, |class| self.pending.used(class)) {
            self.refuse(face, REASON_NO_ROOM, interest, turn);
            return Answer::NoRoom;
        }
        let mut entry = Entry::new(self.openings, interest, class);
        self.openings += 1;
        self.take_request(&mut entry, face, interest, turn);
        self.send_interest(&mut entry, hop, packet, interest, turn);
        self.pending.entries.push(entry);
        Answer::Done
    }

    /// "Entry present: open this face's request, or renew it", and send on unless it is too soon.
    fn join_entry(
        &mut self,
        face: FaceNumber,
        packet: &Packet,
        interest: &Interest,
        turn: &mut Turn,
    ) {
        let Some(mut entry) = self.pending.find(interest).cloned() else {
            return;
        };
        self.take_request(&mut entry, face, interest, turn);
        if !entry.is_suppressed(self.last_time) {
            if let Some(hop) = self.hop_for_present(&entry, face, interest) {
                self.send_interest(&mut entry, hop, packet, interest, turn);
            }
        }
        if let Some(place) = self.pending.find_mut(interest) {
            *place = entry;
        }
    }

    /// "Open this face's request, or renew it with the new nonce and expiry (a renewal is the same
    /// request)."
    fn take_request(
        &self,
        entry: &mut Entry,
        face: FaceNumber,
        interest: &Interest,
        turn: &mut Turn,
    ) {
        let expiry = self.last_time + interest.lifetime;
        let request = InRecord { nonce: interest.nonce, expiry };
        let older = entry.ins.insert(face, request);
        if older.is_none() {
            turn.happened(What::Opened, face, entry, request);
        }
    }

    /// Sends the Interest to a hop in the entry's class and sets the out-record.
    fn send_interest(
        &self,
        entry: &mut Entry,
        hop: FaceNumber,
        packet: &Packet,
        interest: &Interest,
        turn: &mut Turn,
    ) {
        turn.send(hop, entry.class, Kind::Interest, &interest_as_it_leaves(packet, interest));
        entry.record_send(hop, interest.nonce, self.last_time);
    }

    /// "In the longest matching route, use the cheapest eligible hop without an out-record; failing
    /// that, the eligible hop with the earliest one, ties to the lower face; failing that,
    /// nothing."
    fn hop_for_present(
        &self,
        entry: &Entry,
        face: FaceNumber,
        interest: &Interest,
    ) -> Option<FaceNumber> {
        let route = self.routes.longest(interest.name)?;
        let from_local = entry.ins.keys().any(|&face| self.faces.is_local(face));
        let eligible = |hop| self.is_eligible(hop, face, interest, from_local);
        let unused = route.cheapest(|hop| eligible(hop) && !entry.outs.contains_key(&hop));
        unused.or_else(|| earliest_used(route, entry, eligible))
    }

    /// "Eligible: not the arrival face, unless ad hoc; local if HopLimit is present and is 0 after
    /// lowering; local for /localhost; local for /localhop unless a live request of the entry, this
    /// one included, is from a local face."
    fn is_eligible(
        &self,
        hop: FaceNumber,
        arrival: FaceNumber,
        interest: &Interest,
        from_local: bool,
    ) -> bool {
        let last_hop = interest.hop_limit.is_some_and(|hop_limit| hop_limit.value <= 1);
        let must_be_local = last_hop
            || match reach(interest.name) {
                Reach::Localhost => true,
                Reach::Localhop => !from_local,
                Reach::Anywhere => false,
            };
        let returns = hop == arrival && !self.faces.has_link(arrival, Link::AdHoc);
        !returns && (!must_be_local || self.faces.is_local(hop))
    }
}

/// Of the eligible hops with an out-record the one sent to earliest, "ties to the lower face".
fn earliest_used(
    route: &Route,
    entry: &Entry,
    eligible: impl Fn(FaceNumber) -> bool,
) -> Option<FaceNumber> {
    let used = entry.outs.iter().filter(|(face, _)| route.hops.contains_key(face));
    let used = used.filter(|(&face, _)| eligible(face));
    used.min_by_key(|(&face, record)| (record.sent, face)).map(|(&face, _)| face)
}
