//! Random operation lists and documents, from good ones to noise, that are the
//! same on every machine.

mod changes;
mod damage;
mod deep;
mod good;
mod limits;
mod literal;
mod model;
mod nets;
mod pairs;
mod plan;
mod rng;
mod sizes;
mod spelling;

pub use damage::{damage_bytes, SYMBOLS};
pub use pairs::{family, net_pair, Family, Pair, GOOD_SORTS, SORTS};
pub use rng::Rng;
pub use spelling::{gap, join, Lines, WORD_BYTES};
