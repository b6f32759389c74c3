//! Where an area comes from.

/// Filled and damaged areas, most of them, are not reachable by calls.
#[derive(Clone, Copy, PartialEq)]
pub enum Origin {
    Reached,
    Filled,
    Damaged,
}

/// Every origin.
pub const ANY: &[Origin] = &[Origin::Reached, Origin::Filled, Origin::Damaged];

/// The origins of areas that calls do not lead to.
pub const NOT_REACHED: &[Origin] = &[Origin::Filled, Origin::Damaged];

/// The origins with their names.
pub const ORIGINS: &[(&str, Origin)] = &[
    ("reached areas", Origin::Reached),
    ("filled areas", Origin::Filled),
    ("damaged areas", Origin::Damaged),
];
