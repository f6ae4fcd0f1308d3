//! The program `statement`: bytes of day.txt to bytes printed.

use crate::ledger::{Checks, Ledger};
use crate::sheet::Sheet;
use crate::text::{colon_numbers, line_at, put_number, put_row, split_line};
use crate::{Refusal, HOURS};

/// The length of the journal list.
pub const PLACES: usize = 2_000;

/// Carries out a day's text up to the first refusal.
pub fn carry_out(text: &[u8], checks: Checks) -> Result<Ledger, Refusal> {
    let (sheet, mut place) = Sheet::read(text)?;
    let mut ledger = Ledger::new(sheet, PLACES, checks);
    while place < text.len() {
        let line = line_at(text, place).ok_or(Refusal::plain(4))?;
        match split_line(line).ok_or(Refusal::plain(1))? {
            (b"take", value) => {
                let mut numbers = [0; 3];
                if !colon_numbers(value, &mut numbers) {
                    return Err(Refusal::plain(2));
                }
                let [hour, unit, kwh] = numbers;
                ledger.take(hour, unit, kwh)?;
                place += line.len() + 1;
            }
            (b"hour", _) => (_, place) = ledger.settle(text, place)?,
            _ => return Err(Refusal::plain(1)),
        }
    }
    Ok(ledger)
}

/// Appends what is printed at the end: the settled hours ascending, a line per
/// unit: hour, unit, grains, items 1 to 5.
pub fn put_rows(out: &mut Vec<u8>, ledger: &Ledger) {
    for h in (0..HOURS).filter(|&h| ledger.record(h).is_some()) {
        for u in ledger.sheet().plant() {
            put_row(out, &row(ledger, h, u));
        }
    }
}

/// Hour, unit, grains and items of a settled hour, both counted from 0.
pub fn row(ledger: &Ledger, h: usize, u: usize) -> [i64; 8] {
    let result = ledger.result(h);
    let [i1, i2, i3, i4, i5] = result.amounts[u];
    [
        h as i64 + 1,
        u as i64 + 1,
        result.energies[u] as i64,
        i1,
        i2,
        i3,
        i4,
        i5,
    ]
}

/// What the program prints for a day's text.
pub fn print(text: &[u8]) -> Vec<u8> {
    print_outcome(&carry_out(text, Checks::Once))
}

/// What the program prints for what a day's text led to.
pub fn print_outcome(outcome: &Result<Ledger, Refusal>) -> Vec<u8> {
    let mut out = Vec::new();
    put_outcome(&mut out, outcome);
    out
}

/// Appends it.
pub fn put_outcome(out: &mut Vec<u8>, outcome: &Result<Ledger, Refusal>) {
    match outcome {
        Ok(ledger) => put_rows(out, ledger),
        Err(refusal) => {
            out.extend_from_slice(b"refused=");
            put_number(out, i64::from(refusal.number));
            out.push(b'\n');
        }
    }
}
