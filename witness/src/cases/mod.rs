//! Cases to compare by: runs from the blank book, hand-made books, aimed situations, owners with several tasks that
//! clash, one list in two orders, one pair of hands in several orders, damage, extremes.

use std::io::{Result, Write};

mod asks;
mod books;
mod broken;
mod chance;
mod clashes;
mod crowds;
mod damage;
mod foremen;
mod hands;
mod maker;
mod scene;
mod sheet;
mod situations;

pub use asks::{likely, Ask, Floor};
pub use chance::Chance;
pub use foremen::{agreed_list, rearranged, taking_back};
pub use maker::{aimed_case, Maker};
pub use situations::AIMS;

/// Writes cases with at least so many requests, and audits besides. The same seed gives the same cases.
pub fn cases(seed: u64, count: u64, output: &mut impl Write) -> Result<()> {
    let mut maker = Maker::new(seed);
    while maker.requests() < count {
        maker.round();
        output.write_all(maker.take_text().as_bytes())?;
    }
    Ok(())
}
