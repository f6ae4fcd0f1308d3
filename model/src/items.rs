//! The five items of each unit in an hour.

use crate::allocation::{allocate, largest_remainder, Split};
use crate::record::{part, Record, UnitRecord, KINDS};
use crate::sheet::{Sheet, UnitSheet};
use crate::{ITEMS, UNITS};

/// An hour's energies (grains) and amounts (Rial), by unit number less 1.
#[derive(Clone, Copy, Debug, Default, PartialEq, Eq)]
pub struct HourResult {
    pub energies: [u64; UNITS],
    pub amounts: [[i64; ITEMS]; UNITS],
}

/// Energies and amounts of a record under commitments.
pub fn settle(sheet: &Sheet, record: &Record, commitments: &[u64; UNITS]) -> HourResult {
    let Split { energies, costs } = allocate(sheet, record, commitments);
    let rate = Rate {
        cpf: sheet.cpf[record.hour as usize - 1],
        bar: sheet.bar,
    };
    let mut amounts = [[0; ITEMS]; UNITS];
    for u in sheet.plant() {
        let unit = &sheet.units[u];
        let said = &record.units[u];
        let deviations = deviations(unit, said);
        amounts[u] = [
            (costs[u] / 10_000_000) as i64,
            availability(sheet, unit, said, commitments[u], rate) as i64,
            -(refund(sheet, unit, said, &deviations, rate) as i64),
            -(test_charge(sheet, said, &deviations, energies[u], rate) as i64),
            0,
        ];
    }
    let lowest = sheet.mask.trailing_zeros() as usize;
    amounts[lowest][4] = -(drawn(sheet, record) as i64);
    HourResult { energies, amounts }
}

/// What availability is paid by in an hour.
#[derive(Clone, Copy)]
pub struct Rate {
    pub cpf: u64,
    pub bar: u64,
}

impl Rate {
    /// V(k), in Rial for kWh.
    pub fn value(self, kwh: u64) -> u64 {
        kwh * self.cpf * self.bar / 1_000_000
    }
}

/// Item 2.
pub fn availability(
    sheet: &Sheet,
    unit: &UnitSheet,
    said: &UnitRecord,
    commitment: u64,
    rate: Rate,
) -> u64 {
    let declared = unit.net(said.declared);
    rate.value(declared.saturating_sub(sheet.gate_of_commitment(commitment)))
}

/// A: the most that may be declared, gross.
pub fn declaration_limit(sheet: &Sheet, power: u64) -> u64 {
    if sheet.in_season() {
        power + (power * 6 / 100).min(6_000)
    } else {
        power + (power * 3 / 100).min(3_000)
    }
}

/// Item 3, before it is negated. `deviations` are d2 to d8, of which d5 and d7
/// count.
pub fn refund(
    sheet: &Sheet,
    unit: &UnitSheet,
    said: &UnitRecord,
    deviations: &[u64; KINDS],
    rate: Rate,
) -> u64 {
    let (d5, d7) = (deviations[part(5)], deviations[part(7)]);
    let declared = unit.net(said.declared);
    let lacking = declared.saturating_sub(said.real + d5 + d7);
    let too_much = declared.saturating_sub(unit.net(declaration_limit(sheet, said.power)));
    rate.value(lacking.max(too_much))
}

/// d2 to d8; at equal remainders the lower kind first.
pub fn deviations(unit: &UnitSheet, said: &UnitRecord) -> [u64; KINDS] {
    let mut parts = [0; KINDS];
    largest_remainder(said.deviation, &said.proportions(unit), &mut parts);
    parts
}

/// What becomes of a kind where `repair` is 1.
#[derive(PartialEq)]
enum OnRepairDay {
    Counted,
    Exempt,
}

/// The kinds that q and W are made of (001, formulas 5 and 7): the kind, its
/// tenths in W, and what becomes of it on a repair day. Kind 8 is of wish 1 of
/// document 02: "q gains d8 and W gains 3 × d8".
const COUNTED: [(u64, u64, OnRepairDay); 4] = [
    (2, 10, OnRepairDay::Counted),
    (3, 5, OnRepairDay::Counted),
    (6, 10, OnRepairDay::Exempt),
    (8, 3, OnRepairDay::Counted),
];

/// q, what counts of the deviation in kWh, and W, its weight in tenths of a
/// kWh. `deviations` are d2 to d8.
pub fn counted(said: &UnitRecord, deviations: &[u64; KINDS]) -> (u64, u64) {
    let mut q = 0;
    let mut w = 0;
    for (kind, tenths, on_repair_day) in COUNTED {
        if said.repair == 0 || on_repair_day == OnRepairDay::Counted {
            let deviation = deviations[part(kind)];
            q += deviation;
            w += tenths * deviation;
        }
    }
    (q, w)
}

/// Whether a counted deviation of q kWh is charged.
pub fn is_charged(sheet: &Sheet, q: u64, reading: Option<u64>, energy: u64) -> bool {
    q > 2_000
        || match reading {
            Some(reading) => 20 * q > reading,
            None => 20 * q * sheet.hub_of_one() > energy,
        }
}

/// Item 4, before it is negated. `deviations` are d2 to d8, `energy` the
/// unit's grains.
pub fn test_charge(
    sheet: &Sheet,
    said: &UnitRecord,
    deviations: &[u64; KINDS],
    energy: u64,
    rate: Rate,
) -> u64 {
    let (q, w) = counted(said, deviations);
    if !is_charged(sheet, q, said.reading, energy) {
        return 0;
    }
    // At most 10^7 × 125 × 10^4 × 10^6 = 1.25 × 10^19, within u64.
    let base = w * 125 * rate.cpf * rate.bar / 1_000_000_000;
    // At most 1.25 × 10^10 × 3.23 × 10^8.
    base * growth(said.since) / 100_000_000
}

/// t(n) for n = min(since − 1, 24).
pub fn growth(since: u64) -> u64 {
    const GROWTH: [u64; 25] = growth_table();
    GROWTH[(since - 1).min(24) as usize]
}

/// t(n) = 10^8 × 1.05^n rounded down, n from 0 to 24.
const fn growth_table() -> [u64; 25] {
    let mut table = [0; 25];
    // 10^8 × 21^n over 20^n, in lowest terms so that it stays within u128.
    let mut above: u128 = 100_000_000;
    let mut below: u128 = 1;
    let mut n = 0;
    while n < table.len() {
        table[n] = (above / below) as u64;
        above *= 21;
        below *= 20;
        while above % 2 == 0 && below % 2 == 0 {
            above /= 2;
            below /= 2;
        }
        while above % 5 == 0 && below % 5 == 0 {
            above /= 5;
            below /= 5;
        }
        n += 1;
    }
    table
}

/// Item 5, before it is negated.
pub fn drawn(sheet: &Sheet, record: &Record) -> u64 {
    // At most 8 × 10^6 × 10^7 × 10^4.
    record.reverse.saturating_sub(record.net) * sheet.ceiling * sheet.hub_of_one() / 10_000_000
}
