//! A plain model of the day's account of one power plant, written from
//! document 01 and wish 1 of document 02 alone, to compare another
//! implementation with and to measure its speed against. See README.md.
//!
//! Energies at the plant's gate are whole kWh, energies at the hub whole
//! grains of 0.1 Wh, money whole Rial. Units and hours are counted from 1 in
//! texts and calls, and from 0 where they index an array.

pub mod allocation;
pub mod check;
pub mod damage;
pub mod generate;
pub mod inputs;
pub mod items;
pub mod ledger;
pub mod numbers;
#[cfg(feature = "product")]
pub mod product;
pub mod random;
pub mod record;
pub mod replay;
pub mod rules;
pub mod sheet;
pub mod shrink;
pub mod statement;
pub mod text;

/// Hours of a day.
pub const HOURS: usize = 24;

/// The most units that a plant has.
pub const UNITS: usize = 8;

/// Items of a unit in an hour.
pub const ITEMS: usize = 5;

/// Why a text or a call was refused: the number of the table in document 01,
/// and for 1 to 4 the line (0 for a text's size or start); otherwise 0.
#[derive(Clone, Copy, Debug, PartialEq, Eq)]
pub struct Refusal {
    pub number: u8,
    pub line: u32,
}

impl Refusal {
    /// A refusal that is about no line.
    pub fn plain(number: u8) -> Refusal {
        Refusal { number, line: 0 }
    }
}
