//! Rules that random input has to come to often, and how often the hours of a
//! ledger do.
//!
//! Only refusals and amounts are compared. So a unit's hour is counted for a
//! rule where another reading of the rule gives another refund or charge.

use crate::items::{self, Rate};
use crate::ledger::Ledger;
use crate::record::{part, UnitRecord, KINDS};
use crate::sheet::{Sheet, UnitSheet};
use crate::HOURS;

/// A rule's name, and whether a unit's hour shows it.
pub type Rule = (&'static str, fn(&UnitHour) -> bool);

/// Kind 8, wish 1 of document 02.
pub const RULES: [Rule; 11] = [
    ("d8 over 0", |hour| hour.d8() > 0),
    ("d8 charged", |hour| hour.d8_is_charged()),
    ("d8 free", |hour| hour.d8() > 0 && !hour.is_charged(0)),
    ("q over by d8", |hour| {
        hour.d8_is_charged() && !hour.is_charged(hour.d8())
    }),
    ("d8 on a repair day", |hour| {
        hour.said.repair == 1 && hour.d8_is_charged()
    }),
    ("refund without d8", |hour| hour.refund_is_without_d8()),
    ("cause 1 leaves 8", |hour| hour.cause_leaves_8(1, 7)),
    ("cause 2 leaves 8", |hour| hour.cause_leaves_8(2, 5)),
    ("kind 8 alone", |hour| {
        hour.total() == hour.proportions[part(8)]
    }),
    ("tie of 7 and 8", |hour| hour.lower_before_8(7)),
    ("tie of 2 to 6 and 8", |hour| {
        (2..=6).any(|kind| hour.lower_before_8(kind))
    }),
];

/// For each rule, how many units' hours show it.
pub type Times = [u64; RULES.len()];

/// Adds the hours that stand in a ledger.
pub fn count(ledger: &Ledger, times: &mut Times) {
    let sheet = ledger.sheet();
    for h in 0..HOURS {
        let Some(record) = ledger.record(h) else {
            continue;
        };
        for u in sheet.plant() {
            let energy = ledger.result(h).energies[u];
            let hour = UnitHour::new(sheet, h, u, &record.units[u], energy);
            if hour.said.deviation > 0 && hour.proportions[part(8)] > 0 {
                for (times, (_, shows)) in times.iter_mut().zip(RULES) {
                    *times += u64::from(shows(&hour));
                }
            }
        }
    }
}

/// A unit in an hour that stands.
pub struct UnitHour<'l> {
    sheet: &'l Sheet,
    unit: &'l UnitSheet,
    said: &'l UnitRecord,
    /// Grains.
    energy: u64,
    rate: Rate,
    /// Of the kinds 2 to 8, as are the deviations.
    proportions: [u64; KINDS],
    deviations: [u64; KINDS],
}

impl<'l> UnitHour<'l> {
    fn new(sheet: &'l Sheet, h: usize, u: usize, said: &'l UnitRecord, energy: u64) -> Self {
        let unit = &sheet.units[u];
        UnitHour {
            sheet,
            unit,
            said,
            energy,
            rate: Rate {
                cpf: sheet.cpf[h],
                bar: sheet.bar,
            },
            proportions: said.proportions(unit),
            deviations: items::deviations(unit, said),
        }
    }

    /// The sum of the proportions.
    fn total(&self) -> u64 {
        self.proportions.iter().sum()
    }

    fn d8(&self) -> u64 {
        self.deviations[part(8)]
    }

    fn refund(&self, deviations: &[u64; KINDS]) -> u64 {
        items::refund(self.sheet, self.unit, self.said, deviations, self.rate)
    }

    fn charge(&self, deviations: &[u64; KINDS]) -> u64 {
        items::test_charge(self.sheet, self.said, deviations, self.energy, self.rate)
    }

    /// Whether other deviations give another refund or charge.
    fn amounts_differ(&self, other: &[u64; KINDS]) -> bool {
        self.refund(other) != self.refund(&self.deviations)
            || self.charge(other) != self.charge(&self.deviations)
    }

    /// Whether q less some kWh is charged.
    fn is_charged(&self, less: u64) -> bool {
        let (q, _) = items::counted(self.said, &self.deviations);
        items::is_charged(self.sheet, q - less, self.said.reading, self.energy)
    }

    fn d8_is_charged(&self) -> bool {
        let mut without = self.deviations;
        without[part(8)] = 0;
        self.charge(&without) != self.charge(&self.deviations)
    }

    fn refund_is_without_d8(&self) -> bool {
        let mut with = self.deviations;
        with[part(7)] += self.d8();
        self.refund(&with) != self.refund(&self.deviations)
    }

    /// Whether it matters that kind 8 does not count as another under a cause.
    fn cause_leaves_8(&self, cause: u64, other: u64) -> bool {
        let mut said = *self.said;
        for span in &mut said.spans.list {
            if (span.kind, span.cause) == (8, cause) {
                span.kind = other;
            }
        }
        self.amounts_differ(&items::deviations(self.unit, &said))
    }

    /// Whether a lower kind got a kWh before kind 8 at equal remainders, and
    /// it matters.
    fn lower_before_8(&self, kind: u64) -> bool {
        let total = self.total();
        let product = |kind: u64| self.said.deviation * self.proportions[part(kind)];
        let got_one = |kind: u64| self.deviations[part(kind)] > product(kind) / total;
        let mut other = self.deviations;
        if product(kind) % total == product(8) % total && got_one(kind) && !got_one(8) {
            other[part(kind)] -= 1;
            other[part(8)] += 1;
        }
        self.amounts_differ(&other)
    }
}

#[cfg(test)]
mod tests {
    use super::*;
    use crate::generate;
    use crate::ledger::Checks;
    use crate::random::Random;
    use crate::statement;

    /// Random days come to each rule often enough that `compare` sees it.
    #[test]
    fn days_show_each_rule() {
        let mut times = Times::default();
        for case in 0..4_000 {
            let day = generate::day(&mut Random::for_case(1, 4 * case));
            if let Ok(ledger) = statement::carry_out(&day, Checks::Once) {
                count(&ledger, &mut times);
            }
        }
        for (times, (name, _)) in times.into_iter().zip(RULES) {
            assert!(times >= 20, "{name}: {times}");
        }
    }
}
