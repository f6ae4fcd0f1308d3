//! How the plant's net hub energy is placed on its units.

use crate::record::Record;
use crate::sheet::{Offer, Sheet, STEPS};
use crate::UNITS;

/// Grains of one hub kWh.
pub const GRAINS: u64 = 10_000;

/// Splits a whole in proportion to weights by largest remainder: quotients
/// rounded down, then one each to the largest remainders until the parts total
/// the whole; at equal remainders the lower index first. All parts are 0 where
/// all weights are 0.
///
/// At most 8 parts; a whole times a weight, and the sum of the weights, have
/// to be within u64 (both are far below it here: 8 × 10^10 × 10^6).
pub fn largest_remainder(whole: u64, weights: &[u64], parts: &mut [u64]) {
    let total: u64 = weights.iter().sum();
    parts.fill(0);
    if total == 0 || whole == 0 {
        return;
    }
    let mut remainders = [0; UNITS];
    let mut order = [0; UNITS];
    let mut left = whole;
    for (i, &weight) in weights.iter().enumerate() {
        let product = whole * weight;
        parts[i] = product / total;
        remainders[i] = product % total;
        order[i] = i;
        left -= parts[i];
    }
    let order = &mut order[..weights.len()];
    // A stable sort: equal remainders keep the lower index first.
    order.sort_by(|&a, &b| remainders[b].cmp(&remainders[a]));
    for &i in &order[..left as usize] {
        parts[i] += 1;
    }
}

/// N: what the plant sent out in all, in gate kWh.
pub fn sent(record: &Record) -> u64 {
    record.net.saturating_sub(record.reverse)
}

/// H: the plant's net hub energy, in grains.
pub fn plant_energy(sheet: &Sheet, record: &Record) -> u64 {
    sent(record) * sheet.hub_of_one()
}

/// The most grains that each unit gets.
pub fn ceilings(sheet: &Sheet, record: &Record) -> [u64; UNITS] {
    let mut weights = [0; UNITS];
    for u in sheet.plant() {
        weights[u] = record.units[u].real;
    }
    let real_in_all: u64 = weights.iter().sum();
    let excess = sent(record).saturating_sub(real_in_all) * sheet.hub_of_one();
    if real_in_all == 0 {
        for u in sheet.plant() {
            weights[u] = sheet.units[u].nominal;
        }
    }
    let mut ceilings = [0; UNITS];
    largest_remainder(excess, &weights, &mut ceilings);
    for u in sheet.plant() {
        ceilings[u] += record.units[u].real * sheet.hub_of_one();
    }
    ceilings
}

/// Each unit's grains, and the sum of its grains times their modified prices,
/// undivided and unrounded (at most 8 × 10^10 × 10^7).
#[derive(Clone, Copy, Debug, Default, PartialEq, Eq)]
pub struct Split {
    pub energies: [u64; UNITS],
    pub costs: [u64; UNITS],
}

/// A part of a unit's modified offer at one price.
#[derive(Clone, Copy, Default)]
struct Piece {
    price: u64,
    unit: usize,
    grains: u64,
}

/// Commitment, steps, and what goes past the last quantity.
const PIECES: usize = STEPS + 2;

/// Fills by rising price, lower unit first at equal price, each unit to its
/// ceiling, until `energy` grains are placed. `hour` counts from 0.
pub fn fill(
    sheet: &Sheet,
    hour: usize,
    commitments: &[u64; UNITS],
    ceilings: &[u64; UNITS],
    energy: u64,
) -> Split {
    let mut pieces = [Piece::default(); UNITS * PIECES];
    let mut count = 0;
    for u in sheet.plant() {
        let offer = &sheet.units[u].offers[hour];
        let ceiling = ceilings[u];
        // Grains of the unit that have a price already.
        let mut priced = 0;
        let mut piece_up_to = |end: u64, price: u64| {
            let end = end.min(ceiling);
            if end > priced {
                pieces[count] = Piece {
                    price,
                    unit: u,
                    grains: end - priced,
                };
                count += 1;
                priced = end;
            }
        };
        piece_up_to(commitments[u] * GRAINS, 0);
        for step in offer.steps() {
            piece_up_to(step.quantity * GRAINS, step.price);
        }
        piece_up_to(ceiling, offer.steps()[offer.count - 1].price);
    }
    let pieces = &mut pieces[..count];
    // A unit's prices never fall, so its pieces of one price lie side by side
    // and their order does not matter.
    pieces.sort_unstable_by_key(|piece| (piece.price, piece.unit));

    let mut split = Split::default();
    let mut left = energy;
    for piece in pieces.iter() {
        let grains = piece.grains.min(left);
        split.energies[piece.unit] += grains;
        split.costs[piece.unit] += grains * piece.price;
        left -= grains;
        if left == 0 {
            break;
        }
    }
    split
}

/// The allocation of a record: ceilings, then the fill.
pub fn allocate(sheet: &Sheet, record: &Record, commitments: &[u64; UNITS]) -> Split {
    fill(
        sheet,
        record.hour as usize - 1,
        commitments,
        &ceilings(sheet, record),
        plant_energy(sheet, record),
    )
}

/// The modified price of a unit's grain, counted from 0: 0 up to the
/// commitment, then the offer's, past its last quantity its last price.
/// (The fill does not use this; checks do.)
pub fn modified_price(offer: &Offer, commitment: u64, grain: u64) -> u64 {
    if grain < commitment * GRAINS {
        return 0;
    }
    let steps = offer.steps();
    steps
        .iter()
        .find(|step| grain < step.quantity * GRAINS)
        .unwrap_or(&steps[steps.len() - 1])
        .price
}

#[cfg(test)]
mod tests {
    use super::*;
    use crate::random::Random;

    #[test]
    fn remainders() {
        let mut parts = [0; 3];
        largest_remainder(267_300_000, &[100_000, 98_000, 95_000], &mut parts);
        assert_eq!(parts, [91_228_669, 89_404_096, 86_667_235]);
        largest_remainder(2, &[1, 1, 1], &mut parts);
        assert_eq!(parts, [1, 1, 0]);
        largest_remainder(2, &[0, 1, 1], &mut parts);
        assert_eq!(parts, [0, 1, 1]);
        largest_remainder(1, &[0, 3, 4], &mut parts);
        assert_eq!(parts, [0, 0, 1]);
        largest_remainder(0, &[0, 3, 4], &mut parts);
        assert_eq!(parts, [0, 0, 0]);
        largest_remainder(5, &[0, 0, 0], &mut parts);
        assert_eq!(parts, [0, 0, 0]);
    }

    /// The parts total the whole, each is its quotient or one more, and
    /// whoever got one more has no smaller remainder than one who did not.
    #[test]
    fn remainders_of_random_weights() {
        let mut random = Random::new(1);
        for _ in 0..20_000 {
            let n = random.range(1, 8) as usize;
            let most = *random.pick(&[1, 3, 10, 1_000_000]);
            let mut weights = [0; 8];
            for weight in &mut weights[..n] {
                *weight = random.range(0, most);
            }
            let weights = &weights[..n];
            let total: u64 = weights.iter().sum();
            if total == 0 {
                continue;
            }
            let whole = random.range(0, *random.clone().pick(&[1, 7, 100, 80_000_000_000]));
            let mut parts = [0; 8];
            let parts = &mut parts[..n];
            largest_remainder(whole, weights, parts);
            assert_eq!(parts.iter().sum::<u64>(), whole);
            for i in 0..n {
                let extra = parts[i] - whole * weights[i] / total;
                assert!(extra <= 1);
                for j in 0..n {
                    let other = parts[j] - whole * weights[j] / total;
                    if extra == 1 && other == 0 {
                        let here = whole * weights[i] % total;
                        let there = whole * weights[j] % total;
                        assert!((here, j) > (there, i));
                    }
                }
            }
        }
    }
}
