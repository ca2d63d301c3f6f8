//! Names, always as the bytes of the Name's value: a row of components.

use crate::tlv::{elements, Element};
use std::cmp::Ordering;

/// The type of an ordinary component.
pub const GENERIC: u64 = 8;
/// "Component types are 1 to 65,535."
pub const GREATEST_COMPONENT_TYPE: u64 = 65_535;
/// The first component that keeps a name within the node.
pub const LOCALHOST: &[u8] = b"localhost";
/// The first component that keeps a name within one hop.
pub const LOCALHOP: &[u8] = b"localhop";

/// Why bytes are not a name that is taken: 5 or 6 of document 01.
#[derive(Clone, Copy, Debug, PartialEq, Eq)]
pub enum NameFault {
    Malformed,
    Unsupported,
}

/// How far a name may travel.
#[derive(Clone, Copy, Debug, PartialEq, Eq)]
pub enum Reach {
    Localhost,
    Localhop,
    Anywhere,
}

/// "Component types are 1 to 65,535; types 1 and 2 are 6": the number of components, any 5 before
/// any 6.
pub fn count_components(name: &[u8]) -> Result<usize, NameFault> {
    let mut count = 0;
    let mut supported = true;
    for element in elements(name) {
        let component = element.map_err(|_| NameFault::Malformed)?;
        if component.kind > GREATEST_COMPONENT_TYPE {
            return Err(NameFault::Malformed);
        }
        supported &= component.kind > 2;
        count += 1;
    }
    if supported {
        Ok(count)
    } else {
        Err(NameFault::Unsupported)
    }
}

/// The components of a name, up to the first that is broken.
pub fn components(name: &[u8]) -> impl Iterator<Item = Element<'_>> {
    elements(name).map_while(Result::ok)
}

/// Whether two components are the same: type and bytes.
fn same_component(a: &Element, b: &Element) -> bool {
    a.kind == b.kind && a.value == b.value
}

/// Whether two names are equal, component by component.
pub fn is_same(a: &[u8], b: &[u8]) -> bool {
    is_prefix(a, b) && is_prefix(b, a)
}

/// Whether `short` is a prefix of `long`, component by component; every name is a prefix of itself.
pub fn is_prefix(short: &[u8], long: &[u8]) -> bool {
    let mut rest = components(long);
    components(short).all(|mine| rest.next().is_some_and(|other| same_component(&mine, &other)))
}

/// "First in canonical order (component type, length, bytes; a prefix first)".
pub fn canonical_order(a: &[u8], b: &[u8]) -> Ordering {
    let mut others = components(b);
    for mine in components(a) {
        let Some(other) = others.next() else {
            return Ordering::Greater;
        };
        let order = component_order(&mine, &other);
        if order != Ordering::Equal {
            return order;
        }
    }
    if others.next().is_some() {
        Ordering::Less
    } else {
        Ordering::Equal
    }
}

/// The order of two components: "component type, length, bytes".
fn component_order(a: &Element, b: &Element) -> Ordering {
    let by_type = a.kind.cmp(&b.kind);
    let by_length = a.value.len().cmp(&b.value.len());
    by_type.then(by_length).then(a.value.cmp(b.value))
}

/// "`localhost` and `localhop` are whole first components of type 8."
pub fn reach(name: &[u8]) -> Reach {
    match components(name).next() {
        Some(first) if first.kind == GENERIC && first.value == LOCALHOST => Reach::Localhost,
        Some(first) if first.kind == GENERIC && first.value == LOCALHOP => Reach::Localhop,
        _ => Reach::Anywhere,
    }
}
