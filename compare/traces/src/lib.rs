//! Seeded traces for the comparison. A seed picks a family by its remainder and a case of that family by its
//! quotient, so consecutive seeds go through the families in turn and through a family's enumerated cases in order.
//! The model runs along, so that most returns are of ids that are held.

pub mod churn;
pub mod damage;
pub mod day;
pub mod directed;
pub mod last;
pub mod maker;
pub mod random;
pub mod ratios;
pub mod requests;
pub mod worn;

use maker::Maker;

/// A family writes one trace; the number is the case.
type Family = fn(&mut Maker, u64);

pub const FAMILIES: [(&str, Family); 19] = [
    ("panel", churn::panel),
    ("columns", churn::columns),
    ("small", churn::small),
    ("aligned", churn::aligned),
    ("growing", churn::growing),
    ("strip", churn::strip),
    ("renewed", churn::renewed),
    ("merging", directed::merging),
    ("filler", directed::filler),
    ("wide", directed::wide),
    ("wear", directed::wear),
    ("edges", directed::edges),
    ("orders", directed::orders),
    ("unmade", directed::unmade),
    ("ratios", ratios::ratios),
    ("damaged", damage::damaged),
    ("cut", damage::cut),
    ("long", damage::long),
    ("noise", damage::noise),
];

/// The trace of a seed.
pub fn trace(seed: u64) -> Vec<u8> {
    let many = FAMILIES.len() as u64;
    let mut maker = Maker::new(seed);
    FAMILIES[(seed % many) as usize].1(&mut maker, seed / many);
    maker.bytes
}

pub fn family(seed: u64) -> &'static str {
    FAMILIES[(seed % FAMILIES.len() as u64) as usize].0
}
