//! The hour record: its values, its text, and the conditions on it.

use crate::sheet::{Sheet, UnitSheet, MOST_KWH};
use crate::text::{number, Lines};
use crate::{Refusal, UNITS};

/// The most spans of a unit in an hour.
pub const SPANS: usize = 6;

/// The largest `net` and `reverse`, in kWh.
pub const MOST_NET: u64 = 8_000_000;

/// Spans have kinds 1 to 8: 1 to 7 by the annex of 000, 8 by wish 1 of
/// document 02 ("Spans admit kind 8").
pub const LAST_KIND: u64 = 8;

/// The kinds that a deviation is split into are 2 to 8 ("d8 joins the split of
/// the deviation").
pub const KINDS: usize = LAST_KIND as usize - 1;

/// The index of a kind among the parts of a deviation.
pub const fn part(kind: u64) -> usize {
    kind as usize - 2
}

/// A part of the hour.
#[derive(Clone, Copy, Debug, Default, PartialEq, Eq)]
pub struct Span {
    pub minutes: u64,
    pub kind: u64,
    pub cause: u64,
    /// Gross kWh.
    pub capability: u64,
}

impl Span {
    /// The kind that the span counts as: "Kind 2 or 3 counts as 7 under cause
    /// 1, as 5 under cause 2." Other kinds stay ("Causes 1 and 2 don't change
    /// kind 8").
    pub fn counted_kind(&self) -> u64 {
        match (self.kind, self.cause) {
            (2 | 3, 1) => 7,
            (2 | 3, 2) => 5,
            (kind, _) => kind,
        }
    }
}

/// The spans of a unit in an hour.
#[derive(Clone, Copy, Debug, Default, PartialEq, Eq)]
pub struct Spans {
    pub count: usize,
    pub list: [Span; SPANS],
}

impl Spans {
    pub fn spans(&self) -> &[Span] {
        &self.list[..self.count]
    }

    /// One span of kind 1 for the whole hour, which a blank stands for.
    pub fn whole_hour(capability: u64) -> Spans {
        let mut spans = Spans::default();
        spans.push(Span {
            minutes: 60,
            kind: 1,
            cause: 0,
            capability,
        });
        spans
    }

    pub fn push(&mut self, span: Span) {
        self.list[self.count] = span;
        self.count += 1;
    }

    /// Reads a value that is not blank.
    pub fn read(value: &[u8]) -> Option<Spans> {
        let mut spans = Spans::default();
        for span in value.split(|&byte| byte == b',') {
            if spans.count == SPANS {
                return None;
            }
            let mut fields = span.split(|&byte| byte == b':');
            let read = Span {
                minutes: number(fields.next()?, 1, 60)?,
                kind: number(fields.next()?, 1, LAST_KIND)?,
                cause: number(fields.next()?, 0, 2)?,
                capability: number(fields.next()?, 0, MOST_KWH)?,
            };
            if fields.next().is_some() {
                return None;
            }
            spans.push(read);
        }
        Some(spans)
    }

    pub fn minutes(&self) -> u64 {
        self.spans().iter().map(|span| span.minutes).sum()
    }
}

/// What an hour record says of one unit.
#[derive(Clone, Copy, Debug, Default, PartialEq, Eq)]
pub struct UnitRecord {
    /// Gross kWh.
    pub declared: u64,
    /// Net kWh, as are `test`, `deviation` and `reading`.
    pub real: u64,
    pub test: u64,
    pub deviation: u64,
    /// Gross kWh.
    pub power: u64,
    /// None where unmeasured.
    pub reading: Option<u64>,
    pub since: u64,
    pub repair: u64,
    pub spans: Spans,
}

impl UnitRecord {
    /// The proportions that `deviation` is split in, kinds 2 to 8.
    pub fn proportions(&self, unit: &UnitSheet) -> [u64; KINDS] {
        let mut proportions = [0; KINDS];
        for span in self.spans.spans() {
            let kind = span.counted_kind();
            if kind >= 2 {
                let lacking = self.test.saturating_sub(unit.net(span.capability));
                proportions[part(kind)] += lacking * span.minutes;
            }
        }
        proportions
    }
}

/// An hour record.
#[derive(Clone, Debug, PartialEq, Eq)]
pub struct Record {
    pub hour: u64,
    /// Gate kWh.
    pub net: u64,
    pub reverse: u64,
    /// By unit number less 1; those outside the plant have no meaning.
    pub units: [UnitRecord; UNITS],
}

impl Record {
    /// Reads a record from a place of the text on; gives the place after it.
    pub fn read(text: &[u8], start: usize, sheet: &Sheet) -> Result<(Record, usize), Refusal> {
        let mut lines = Lines::new(text, start)?;
        let mut record = Record {
            hour: lines.number("hour", 1, 24)?,
            net: lines.number_or("net", 0, MOST_NET, 0)?,
            reverse: lines.number_or("reverse", 0, MOST_NET, 0)?,
            units: [UnitRecord::default(); UNITS],
        };
        for u in sheet.plant() {
            let monthly = sheet.units[u].monthly;
            let unit = &mut record.units[u];
            unit.declared = lines.number_or("declared", 0, MOST_KWH, monthly)?;
            unit.real = lines.number_or("real", 0, MOST_KWH, 0)?;
            unit.test = lines.number_or("test", 0, MOST_KWH, 0)?;
            unit.deviation = lines.number_or("deviation", 0, MOST_KWH, 0)?;
            unit.power = lines.number_or("power", 0, MOST_KWH, monthly)?;
            let reading = lines.value("reading")?;
            if !reading.is_empty() {
                unit.reading = Some(number(reading, 0, MOST_KWH).ok_or(lines.refusal(2))?);
            }
            unit.since = lines.number_or("since", 1, 744, 1)?;
            unit.repair = lines.number_or("repair", 0, 1, 0)?;
            let spans = lines.value("spans")?;
            unit.spans = if spans.is_empty() {
                Spans::whole_hour(unit.declared)
            } else {
                Spans::read(spans).ok_or(lines.refusal(2))?
            };
        }
        lines.end("hour")?;
        Ok((record, lines.place()))
    }

    /// Refusal 31: a unit's minutes are not 60 in all.
    pub fn minutes_wrong(&self, sheet: &Sheet) -> bool {
        sheet.plant().any(|u| self.units[u].spans.minutes() != 60)
    }

    /// Refusal 32: readings total over `net`, or none is blank and the total
    /// is not `net`.
    pub fn readings_wrong(&self, sheet: &Sheet) -> bool {
        let mut total = 0;
        let mut blank = false;
        for u in sheet.plant() {
            match self.units[u].reading {
                Some(reading) => total += reading,
                None => blank = true,
            }
        }
        total > self.net || (!blank && total != self.net)
    }

    /// Refusal 33: a unit's deviation is over 0, all its proportions are 0.
    pub fn proportions_wrong(&self, sheet: &Sheet) -> bool {
        sheet.plant().any(|u| {
            let unit = &self.units[u];
            unit.deviation > 0 && unit.proportions(&sheet.units[u]) == [0; KINDS]
        })
    }
}
