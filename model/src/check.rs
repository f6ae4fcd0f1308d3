//! Checks of a ledger by other ways than the ones that led to it.

use crate::allocation::{self, modified_price, GRAINS};
use crate::items;
use crate::ledger::{Answer, Group, Ledger};
use crate::record::Record;
use crate::sheet::{Offer, Sheet};
use crate::{HOURS, ITEMS, UNITS};

/// Everything below on one ledger.
pub fn ledger(ledger: &Ledger) -> Result<(), String> {
    let sheet = ledger.sheet();
    require(!ledger.state_is_wrong(), || "12 holds".to_string())?;
    let in_plant = |u: usize| sheet.has(u as u64 + 1);
    let mut standing = [[0; ITEMS]; UNITS];
    for h in 0..HOURS {
        let result = ledger.result(h);
        for u in (0..UNITS).filter(|&u| !in_plant(u)) {
            require(
                result.energies[u] == 0 && result.amounts[u] == [0; ITEMS],
                || format!("hour {} unit {} is not in the plant", h + 1, u + 1),
            )?;
        }
        match ledger.record(h) {
            None => require(*result == items::HourResult::default(), || {
                format!("hour {} is open and has amounts", h + 1)
            })?,
            Some(record) => {
                hour(ledger, h, record).map_err(|why| format!("hour {}: {why}", h + 1))?;
                for u in 0..UNITS {
                    for item in 0..ITEMS {
                        standing[u][item] += result.amounts[u][item];
                    }
                }
            }
        }
    }
    journal(ledger, &standing)
}

/// For each unit and item the journal adds up to the amounts over the hours
/// that stand; postings come in whole groups, unit then item ascending.
fn journal(ledger: &Ledger, standing: &[[i64; ITEMS]; UNITS]) -> Result<(), String> {
    let sheet = ledger.sheet();
    let postings = ledger.postings();
    let group = ITEMS * sheet.size();
    require(postings.len() <= ledger.places(), || {
        "more postings than places".to_string()
    })?;
    require(postings.len() % group == 0, || {
        "postings do not come in whole groups".to_string()
    })?;
    for group in postings.chunks(group) {
        let mut at = 0;
        for u in sheet.plant() {
            for item in 1..=ITEMS as u64 {
                let posting = &group[at];
                at += 1;
                require(
                    posting.hour == group[0].hour
                        && posting.unit == u as u64 + 1
                        && posting.item == item,
                    || format!("posting {posting:?} out of order"),
                )?;
            }
        }
    }
    for u in sheet.plant() {
        for item in 0..ITEMS {
            let total = ledger.total(u as u64 + 1, item as u64 + 1);
            require(total == Ok(standing[u][item]), || {
                format!(
                    "unit {} item {}: the journal has {total:?}, the standing hours {}",
                    u + 1,
                    item + 1,
                    standing[u][item]
                )
            })?;
        }
    }
    Ok(())
}

/// A settled hour: the energies total H, each is within its ceiling, no other
/// split is cheaper and ties went to the lower unit; the amounts follow from
/// record and commitments.
fn hour(ledger: &Ledger, h: usize, record: &Record) -> Result<(), String> {
    let sheet = ledger.sheet();
    let commitments = &ledger.commitments()[h];
    let result = ledger.result(h);
    let energies = &result.energies;
    require(
        energies.iter().sum::<u64>() == allocation::plant_energy(sheet, record),
        || "the energies do not total H".to_string(),
    )?;
    let ceilings = allocation::ceilings(sheet, record);
    let n = allocation::sent(record);
    let real: u64 = sheet.plant().map(|u| record.units[u].real).sum();
    require(
        ceilings.iter().sum::<u64>() == n.max(real) * sheet.hub_of_one(),
        || "the ceilings do not total max(N, R)".to_string(),
    )?;
    let price =
        |u: usize, grain: u64| modified_price(&sheet.units[u].offers[h], commitments[u], grain);
    for a in sheet.plant() {
        require(energies[a] <= ceilings[a], || {
            format!("unit {} is above its ceiling", a + 1)
        })?;
        if energies[a] == 0 {
            continue;
        }
        // A unit's prices never fall, so the split is cheapest when no last
        // grain is dearer than another unit's next one.
        let last = price(a, energies[a] - 1);
        for b in sheet.plant() {
            if a != b && energies[b] < ceilings[b] {
                let next = price(b, energies[b]);
                require((last, a) < (next, b), || {
                    format!("a grain of unit {} belongs to unit {}", a + 1, b + 1)
                })?;
            }
        }
    }
    require(*result == items::settle(sheet, record, commitments), || {
        "the amounts are not the record's".to_string()
    })?;
    for u in sheet.plant() {
        let offer = &sheet.units[u].offers[h];
        let energy_pay = cost(offer, commitments[u], energies[u]) / 10_000_000;
        require(
            i128::from(result.amounts[u][0]) == energy_pay as i128,
            || format!("unit {}: item 1 is not {energy_pay}", u + 1),
        )?;
        require(
            result.amounts[u][1] >= 0 && result.amounts[u][2..].iter().all(|&amount| amount <= 0),
            || format!("unit {}: a sign is wrong", u + 1),
        )?;
        charge_bound(sheet, h, record, u, energies[u], result.amounts[u][3])?;
    }
    Ok(())
}

/// Grains times modified price, by the area below each price.
fn cost(offer: &Offer, commitment: u64, energy: u64) -> u128 {
    let mut cost = 0;
    let mut from = commitment * GRAINS;
    for (i, step) in offer.steps().iter().enumerate() {
        let is_last = i + 1 == offer.count;
        let to = if is_last {
            energy
        } else {
            energy.min(step.quantity * GRAINS)
        };
        if to > from {
            cost += u128::from(to - from) * u128::from(step.price);
            from = to;
        }
    }
    cost
}

/// Item 4 never exceeds W × 125 × cpf × bar × 21^n / (10^9 × 20^n) and falls
/// short of it by under 130 Rial. q and W are written out as document 01 has
/// them, with wish 1 of document 02: q gains d8 and W gains 3 × d8.
fn charge_bound(
    sheet: &Sheet,
    h: usize,
    record: &Record,
    u: usize,
    energy: u64,
    item: i64,
) -> Result<(), String> {
    let said = &record.units[u];
    let [d2, d3, _, _, d6, _, d8] = items::deviations(&sheet.units[u], said);
    let d6 = if said.repair == 1 { 0 } else { d6 };
    if !items::is_charged(sheet, d2 + d3 + d6 + d8, said.reading, energy) {
        return require(item == 0, || format!("unit {}: charged", u + 1));
    }
    let n = (said.since - 1).min(24);
    let charge = item.unsigned_abs();
    let mut exact = Wide::new(10 * d2 + 5 * d3 + 10 * d6 + 3 * d8);
    for factor in [125, sheet.cpf[h], sheet.bar] {
        exact.multiply(factor);
    }
    let mut below = Wide::new(charge);
    let mut above = Wide::new(charge + 130);
    for scaled in [&mut below, &mut above] {
        scaled.multiply(1_000_000_000);
    }
    for _ in 0..n {
        exact.multiply(21);
        below.multiply(20);
        above.multiply(20);
    }
    require(below <= exact && exact < above, || {
        format!("unit {}: the charge is off its bound", u + 1)
    })
}

/// A number of 256 bits, the highest part first.
#[derive(Clone, Copy, PartialEq, Eq, PartialOrd, Ord)]
struct Wide([u64; 4]);

impl Wide {
    fn new(value: u64) -> Wide {
        Wide([0, 0, 0, value])
    }

    fn multiply(&mut self, factor: u64) {
        let mut carry = 0;
        for part in self.0.iter_mut().rev() {
            let product = u128::from(*part) * u128::from(factor) + carry;
            *part = product as u64;
            carry = product >> 64;
        }
        assert!(carry == 0);
    }
}

/// Each unit's commitment in an hour is what accepted calls took and moved in
/// less what they released and moved out; and an hour stands exactly if its
/// last accepted settle or void was a settle. Reckoned from calls and answers.
pub fn calls(groups: &[Group], answers: &[Answer], ledger: &Ledger) -> Result<(), String> {
    let mut commitments = [[0u64; UNITS]; HOURS];
    let mut stands = [false; HOURS];
    let mut posted = 0;
    for (group, answer) in groups.iter().zip(answers) {
        match *answer {
            Answer::Refused(_) | Answer::Sum(_) => {}
            Answer::Accepted => {
                let hour = &mut commitments[group.hour as usize - 1];
                let unit = group.unit as usize - 1;
                match group.kind {
                    1 => hour[unit] += group.kwh,
                    2 => hour[unit] -= group.kwh,
                    _ => {
                        hour[unit] -= group.kwh;
                        hour[group.to as usize - 1] += group.kwh;
                    }
                }
            }
            Answer::Posted { postings, .. } => {
                let hour = ledger.postings()[posted].hour as usize;
                posted += postings;
                if group.kind == 4 || group.kind == 5 {
                    stands[hour - 1] = true;
                } else {
                    require(group.hour as usize == hour, || {
                        "void of another hour".to_string()
                    })?;
                    stands[hour - 1] = false;
                }
            }
        }
    }
    require(posted == ledger.postings().len(), || {
        "the answers' counts do not total the postings".to_string()
    })?;
    require(commitments == *ledger.commitments(), || {
        "the commitments are not those of the calls".to_string()
    })?;
    require(
        (0..HOURS).all(|h| stands[h] == ledger.record(h).is_some()),
        || "the hours that stand are not those of the calls".to_string(),
    )
}

fn require(holds: bool, problem: impl FnOnce() -> String) -> Result<(), String> {
    if holds {
        Ok(())
    } else {
        Err(problem())
    }
}
