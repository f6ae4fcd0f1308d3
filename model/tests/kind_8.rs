//! Kind 8: worked cases of wish 1 of document 02, "a deviation charged at 30
//! percent".

mod common;

use common::*;
use model::items::{self, Rate};
use model::ledger::{Checks, Ledger};
use model::record::{Record, Spans, UnitRecord};
use model::sheet::UnitSheet;
use model::{check, statement, Refusal};

/// W × 125 × cpf × bar / 10^9 is 12.5 Rial for each tenth of a kWh.
const RATE: Rate = Rate {
    cpf: 1_000,
    bar: 100_000,
};

/// Item 4 of deviations by kind, with a reading.
fn charge(said: &UnitRecord, list: &[(u64, u64)]) -> u64 {
    items::test_charge(&marked_sheet(), said, &of_kinds(list), 0, RATE)
}

fn measured(reading: u64) -> UnitRecord {
    UnitRecord {
        since: 1,
        reading: Some(reading),
        ..UnitRecord::default()
    }
}

/// The deviations of a unit without own use, whose criterion is 100 kWh and
/// whose spans all have nothing.
fn split(deviation: u64, list: &[(u64, u64, u64)]) -> Vec<u64> {
    let list: Vec<_> = list.iter().map(|&(m, kind, c)| (m, kind, c, 0)).collect();
    let said = UnitRecord {
        test: 100,
        deviation,
        spans: spans(&list),
        ..UnitRecord::default()
    };
    items::deviations(&UnitSheet::default(), &said).to_vec()
}

/// "Spans admit kind 8."
#[test]
fn spans_admit_kind_8() {
    for (value, is_read) in [
        ("60:8:0:0", true),
        ("30:7:1:0,30:8:2:1000000", true),
        ("60:9:0:0", false),
        ("30:8:0:0,30:9:0:0", false),
        ("60:0:0:0", false),
        ("60:08:0:0", false),
        ("60:8:3:0", false),
        ("60:80:0:0", false),
    ] {
        let read = Spans::read(value.as_bytes());
        assert_eq!(read.is_some(), is_read, "{value}");
    }
}

#[test]
fn w_gains_three_times_d8() {
    let mut said = measured(60_000);
    // W = 9,000; kind 2 is charged 375,000 for as much.
    assert_eq!(charge(&said, &[(8, 3_000)]), 112_500);
    // W = 10 × 1,000 + 5 × 1,000 + 10 × 1,000 + 3 × 1,000.
    let all = [(2, 1_000), (3, 1_000), (6, 1_000), (8, 1_000)];
    assert_eq!(charge(&said, &all), 350_000);
    // 112,500 × 1.1025 = 124,031.25, three tenths of the marked 413,437.5.
    said.since = 3;
    assert_eq!(charge(&said, &[(8, 3_000)]), 124_031);
}

#[test]
fn q_gains_d8() {
    let said = measured(60_000);
    assert_eq!(charge(&said, &[(8, 2_000)]), 0);
    // W = 6,003, 75,037.5 Rial.
    assert_eq!(charge(&said, &[(8, 2_001)]), 75_037);
    assert_eq!(charge(&said, &[(2, 1_000), (8, 1_000)]), 0);
    // W = 13,003, 162,537.5 Rial.
    assert_eq!(charge(&said, &[(2, 1_000), (8, 1_001)]), 162_537);
    // A twentieth of the reading: 20 × 100 is not over 2,000.
    assert_eq!(charge(&measured(2_000), &[(8, 100)]), 0);
    assert_eq!(charge(&measured(1_999), &[(8, 100)]), 3_750);
    assert_eq!(charge(&measured(1_999), &[(2, 50), (8, 50)]), 8_125);
}

#[test]
fn unmeasured() {
    let sheet = marked_sheet();
    let said = UnitRecord {
        reading: None,
        ..measured(0)
    };
    let charge = |energy: u64| {
        let deviations = of_kinds(&[(8, 100)]);
        items::test_charge(&sheet, &said, &deviations, energy, RATE)
    };
    assert_eq!(charge(2_000 * 9_900), 0);
    assert_eq!(charge(2_000 * 9_900 - 1), 3_750);
}

/// `repair` exempts kind 6 alone: formulas 5 and 7 of 001 have the factor
/// 1 − X at kind 6 only.
#[test]
fn repair_leaves_d8() {
    let mut said = measured(60_000);
    said.repair = 1;
    assert_eq!(charge(&said, &[(8, 3_000)]), 112_500);
    assert_eq!(charge(&said, &[(6, 9_000), (8, 2_000)]), 0);
    assert_eq!(charge(&said, &[(6, 9_000), (8, 2_001)]), 75_037);
    said.repair = 0;
    // W = 90,000 + 6,003.
    assert_eq!(charge(&said, &[(6, 9_000), (8, 2_001)]), 1_200_037);
}

/// "Causes 1 and 2 don't change kind 8."
#[test]
fn causes_leave_kind_8() {
    for cause in 0..=2 {
        assert_eq!(split(46, &[(60, 8, cause)]), of_kinds(&[(8, 46)]));
    }
    let deviations = split(60, &[(10, 2, 1), (10, 8, 1), (20, 3, 2), (20, 8, 2)]);
    assert_eq!(deviations, of_kinds(&[(5, 20), (7, 10), (8, 30)]));
}

/// "d8 joins the split of the deviation", by largest remainder, lower kind
/// first.
#[test]
fn ties_go_to_the_lower_kind() {
    assert_eq!(
        split(3, &[(30, 7, 0), (30, 8, 0)]),
        of_kinds(&[(7, 2), (8, 1)])
    );
    assert_eq!(
        split(3, &[(30, 8, 0), (30, 7, 0)]),
        of_kinds(&[(7, 2), (8, 1)])
    );
    // Kind 3 counts as 7 under cause 1.
    assert_eq!(split(1, &[(30, 8, 1), (30, 3, 1)]), of_kinds(&[(7, 1)]));
    assert_eq!(split(1, &[(30, 8, 0), (30, 2, 0)]), of_kinds(&[(2, 1)]));
    // The larger remainder goes first.
    assert_eq!(split(1, &[(29, 7, 0), (31, 8, 0)]), of_kinds(&[(8, 1)]));
    // Six equal parts of five kWh: kind 8 gets none.
    let six = [2, 3, 4, 6, 7, 8].map(|kind| (10, kind, 0));
    let lower = of_kinds(&[(2, 1), (3, 1), (4, 1), (6, 1), (7, 1)]);
    assert_eq!(split(5, &six), lower);
}

/// At a tie of kinds 7 and 8, d8 is 2,000 of 4,001 and is not charged.
#[test]
fn a_tie_decides_the_charge() {
    let said = measured(60_000);
    let deviations = split(4_001, &[(30, 8, 0), (30, 7, 0)]);
    assert_eq!(deviations, of_kinds(&[(7, 2_001), (8, 2_000)]));
    assert_eq!(charge(&said, &[(7, 2_001), (8, 2_000)]), 0);
    assert_eq!(charge(&said, &[(7, 2_000), (8, 2_001)]), 75_037);
}

/// "D − (real + d5 + d7)": the refund does not use d8.
#[test]
fn refund_is_without_d8() {
    let sheet = marked_sheet();
    let said = UnitRecord {
        declared: 120_000,
        real: 110_000,
        power: 120_000,
        ..UnitRecord::default()
    };
    let refund = |list: &[(u64, u64)]| {
        let deviations = of_kinds(list);
        items::refund(&sheet, &UnitSheet::default(), &said, &deviations, RATE)
    };
    assert_eq!(refund(&[]), 1_000_000);
    assert_eq!(refund(&[(8, 4_000)]), 1_000_000);
    assert_eq!(refund(&[(7, 4_000), (8, 4_000)]), 600_000);
}

/// A record of one unit: criterion 70,000, real 60,000, a deviation of 10,000
/// in one span.
fn record_of(kind: u64, cause: u64, capability: u64) -> Record {
    let sheet = sheet(&["50000:380000,130000:440000"]);
    let mut record = blank_record(&sheet, 1);
    record.net = 60_000;
    let unit = &mut record.units[0];
    unit.real = 60_000;
    unit.test = 70_000;
    unit.deviation = 10_000;
    unit.reading = Some(60_000);
    unit.spans = spans(&[(60, kind, cause, capability)]);
    record
}

/// Worked out by hand: 59,400 hub kWh, 50,000 of them at 380,000 and 9,400 at
/// 440,000; V(90,000); V(30,000); W = 30,000.
#[test]
fn a_day_with_kind_8() {
    let sheet = sheet(&["50000:380000,130000:440000"]);
    let says = |record: &Record| {
        let text = [sheet_text(&sheet), record_text(&sheet, record)].concat();
        show(&statement::print(&text))
    };
    for cause in 0..=2 {
        assert_eq!(
            says(&record_of(8, cause, 60_000)),
            "1 1 594000000 23136000 9000000 -3000000 -375000 0\n"
        );
    }
    // Kind 7 is not charged, and the refund is V(20,000).
    assert_eq!(
        says(&record_of(7, 0, 60_000)),
        "1 1 594000000 23136000 9000000 -2000000 0 0\n"
    );
    assert_eq!(says(&record_of(9, 0, 60_000)), "refused=2\n");
}

/// 33 looks at the kinds 2 to 8.
#[test]
fn kind_8_alone_has_a_proportion() {
    let sheet = sheet(&["50000:380000,130000:440000"]);
    let settle = |record: &Record| {
        let mut ledger = Ledger::new(sheet.clone(), 2_000, Checks::EveryCall);
        let settled = ledger.settle(&record_text(&sheet, record), 0);
        assert_eq!(check::ledger(&ledger), Ok(()));
        settled.map(|(postings, _)| postings)
    };
    assert_eq!(settle(&record_of(8, 0, 69_999)), Ok(5));
    assert_eq!(settle(&record_of(8, 0, 70_000)), Err(Refusal::plain(33)));
    assert_eq!(settle(&record_of(1, 0, 0)), Err(Refusal::plain(33)));
    // Beside a span of another kind that lacks nothing.
    let mut record = record_of(8, 0, 69_999);
    record.units[0].spans = spans(&[(30, 2, 0, 70_000), (30, 8, 2, 69_999)]);
    assert_eq!(settle(&record), Ok(5));
}
