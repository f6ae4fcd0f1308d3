//! The plant of document 01's marked figures, and texts made from values.
#![allow(dead_code)]

use model::generate::{put_record, put_sheet};
use model::record::{part, Record, Span, Spans, UnitRecord, KINDS};
use model::sheet::{Offer, Sheet, UnitSheet};
use model::{HOURS, UNITS};

/// A sheet of units with the same values, L = 100, cpf 1,000, bar 100,000,
/// month 1, day 1; the same offer in all hours.
pub fn sheet(offers: &[&str]) -> Sheet {
    let mut units = vec![UnitSheet::default(); UNITS];
    for (unit, offer) in units.iter_mut().zip(offers) {
        *unit = UnitSheet {
            own: 0,
            nominal: 100_000,
            monthly: 90_000,
            offers: [Offer::read(offer.as_bytes()).unwrap(); HOURS],
        };
    }
    Sheet {
        month: 1,
        day: 1,
        loss: 100,
        ceiling: 440_000,
        bar: 100_000,
        cpf: [1_000; HOURS],
        mask: (1 << offers.len()) - 1,
        units,
    }
}

/// The three units of the marked rows.
pub fn marked_sheet() -> Sheet {
    sheet(&[
        "50000:380000,130000:440000",
        "110000:370000,160000:444000",
        "80000:390000,140000:430000",
    ])
}

/// A unit's part of a record, everything blank.
pub fn blank_unit(unit: &UnitSheet) -> UnitRecord {
    UnitRecord {
        declared: unit.monthly,
        power: unit.monthly,
        since: 1,
        spans: Spans::whole_hour(unit.monthly),
        ..UnitRecord::default()
    }
}

/// A record, everything but the hour blank.
pub fn blank_record(sheet: &Sheet, hour: u64) -> Record {
    let mut units = [UnitRecord::default(); UNITS];
    for u in sheet.plant() {
        units[u] = blank_unit(&sheet.units[u]);
    }
    Record {
        hour,
        net: 0,
        reverse: 0,
        units,
    }
}

/// The record of the marked rows.
pub fn marked_record(sheet: &Sheet) -> Record {
    let mut record = blank_record(sheet, 1);
    record.net = 320_000;
    for (u, real, reading) in [
        (0, 120_000, 100_000),
        (1, 150_000, 120_000),
        (2, 130_000, 100_000),
    ] {
        let unit = &mut record.units[u];
        unit.real = real;
        unit.declared = real;
        unit.power = real;
        unit.reading = Some(reading);
        unit.spans = Spans::whole_hour(real);
    }
    record
}

/// Spans from (minutes, kind, cause, capability).
pub fn spans(list: &[(u64, u64, u64, u64)]) -> Spans {
    let mut spans = Spans::default();
    for &(minutes, kind, cause, capability) in list {
        spans.push(Span {
            minutes,
            kind,
            cause,
            capability,
        });
    }
    spans
}

/// Proportions or deviations from (kind, kWh), 0 for other kinds.
pub fn of_kinds(list: &[(u64, u64)]) -> [u64; KINDS] {
    let mut parts = [0; KINDS];
    for &(kind, kwh) in list {
        parts[part(kind)] = kwh;
    }
    parts
}

pub fn sheet_text(sheet: &Sheet) -> Vec<u8> {
    let mut text = Vec::new();
    put_sheet(&mut text, sheet);
    text
}

pub fn record_text(sheet: &Sheet, record: &Record) -> Vec<u8> {
    let mut text = Vec::new();
    put_record(&mut text, sheet, record, || true);
    text
}

/// What a text of bytes says.
pub fn show(bytes: &[u8]) -> String {
    String::from_utf8_lossy(bytes).into_owned()
}
