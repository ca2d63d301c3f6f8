//! Routes and their next hops.

use super::class::Class;
use super::face::FaceNumber;
use crate::name::{components, is_prefix, is_same};
use crate::sizes::ROUTES;
use std::collections::BTreeMap;

/// A route: a prefix, the class that somebody gave it, and the cost of each next hop by face.
#[derive(Clone, Debug, PartialEq, Eq)]
pub struct Route {
    pub prefix: Vec<u8>,
    pub class: Class,
    pub hops: BTreeMap<FaceNumber, u64>,
}

impl Route {
    /// The cheapest of the hops that pass, "ties to the lower face".
    pub fn cheapest(&self, passes: impl Fn(FaceNumber) -> bool) -> Option<FaceNumber> {
        let passing = self.hops.iter().filter(|(&face, _)| passes(face));
        passing.min_by_key(|(&face, &cost)| (cost, face)).map(|(&face, _)| face)
    }
}

/// The table has 32 routes and this would be one more.
#[derive(Clone, Copy, Debug, PartialEq, Eq)]
pub struct Full;

/// All routes in the order in which they were first set; no two have one prefix.
#[derive(Clone, Debug, PartialEq, Eq, Default)]
pub struct Routes {
    routes: Vec<Route>,
}

impl Routes {
    /// "Setting a route gives a prefix (empty allowed) and class; for a known prefix the hops
    /// stay."
    pub fn set(&mut self, prefix: &[u8], class: Class) -> Result<(), Full> {
        if let Some(route) = self.find(prefix) {
            route.class = class;
            return Ok(());
        }
        if self.routes.len() == ROUTES {
            return Err(Full);
        }
        self.routes.push(Route { prefix: prefix.to_vec(), class, hops: BTreeMap::new() });
        Ok(())
    }

    /// Drops the route of a prefix; false if it is absent.
    pub fn drop_route(&mut self, prefix: &[u8]) -> bool {
        let before = self.routes.len();
        self.routes.retain(|route| !is_same(&route.prefix, prefix));
        self.routes.len() < before
    }

    /// Adds a hop to a prefix's route; false if the route is absent. "Adding a known hop changes
    /// its cost."
    pub fn add_hop(&mut self, prefix: &[u8], face: FaceNumber, cost: u64) -> bool {
        match self.find(prefix) {
            Some(route) => {
                route.hops.insert(face, cost);
                true
            }
            None => false,
        }
    }

    /// Drops a hop; false if the route or the hop is absent. "A route without hops stays, class and
    /// all."
    pub fn drop_hop(&mut self, prefix: &[u8], face: FaceNumber) -> bool {
        self.find(prefix).is_some_and(|route| route.hops.remove(&face).is_some())
    }

    /// A closed face: "its next hops go too".
    pub fn drop_face(&mut self, face: FaceNumber) {
        for route in &mut self.routes {
            route.hops.remove(&face);
        }
    }

    /// "The longest matching route."
    pub fn longest(&self, name: &[u8]) -> Option<&Route> {
        let matching = self.routes.iter().filter(|route| is_prefix(&route.prefix, name));
        matching.max_by_key(|route| components(&route.prefix).count())
    }

    /// The class of a send that belongs to no entry: "the class of the longest route for their
    /// name, or 3 if there is none".
    pub fn class_for(&self, name: &[u8]) -> Class {
        self.longest(name).map_or(Class::Bulk, |route| route.class)
    }

    /// The route of exactly this prefix.
    fn find(&mut self, prefix: &[u8]) -> Option<&mut Route> {
        self.routes.iter_mut().find(|route| is_same(&route.prefix, prefix))
    }

    /// The routes in the order in which they were first set.
    pub fn as_set(&self) -> &[Route] {
        &self.routes
    }
}
