//! The marked figures of document 01.

mod common;

use common::*;
use model::allocation::ceilings;
use model::items::{self, declaration_limit, growth, is_charged, Rate};
use model::record::UnitRecord;
use model::sheet::UnitSheet;
use model::statement;

const RATE: Rate = Rate {
    cpf: 1_000,
    bar: 100_000,
};

#[test]
fn three_rows() {
    let sheet = marked_sheet();
    let mut text = sheet_text(&sheet);
    text.extend_from_slice(b"take=1:1:20000\ntake=1:2:50000\n");
    text.extend(record_text(&sheet, &marked_record(&sheet)));
    assert_eq!(
        show(&statement::print(&text)),
        "1 1 781000000 23764000 9979700 0 0 0\n\
         1 2 1100000000 22200000 9949400 0 0 0\n\
         1 3 1287000000 52141000 13000000 0 0 0\n"
    );
}

#[test]
fn ceilings_above_real_capability() {
    let sheet = marked_sheet();
    let mut record = marked_record(&sheet);
    for (u, real) in [(0, 100_000), (1, 98_000), (2, 95_000)] {
        record.units[u].real = real;
    }
    let expected = [1_081_228_669, 1_059_604_096, 1_027_167_235, 0, 0, 0, 0, 0];
    assert_eq!(ceilings(&sheet, &record), expected);
    // All of H is what the ceilings hold; item 1 as worked out apart.
    let result = items::settle(&sheet, &record, &[20_000, 50_000, 0, 0, 0, 0, 0, 0]);
    assert_eq!(result.energies, expected);
    let energy_pay: Vec<i64> = result.amounts.iter().map(|amounts| amounts[0]).collect();
    assert_eq!(energy_pay[..3], [36_974_061, 20_705_351, 40_968_191]);
}

#[test]
fn declaration_limit_by_season() {
    let mut sheet = marked_sheet();
    for (month, day, limit) in [
        (3, 14, 123_000),
        (3, 15, 126_000),
        (3, 31, 126_000),
        (4, 1, 126_000),
        (6, 15, 126_000),
        (6, 16, 123_000),
        (2, 20, 123_000),
        (7, 1, 123_000),
    ] {
        (sheet.month, sheet.day) = (month, day);
        assert_eq!(declaration_limit(&sheet, 120_000), limit, "{day}/{month}");
    }
    assert_eq!(declaration_limit(&sheet, 33), 33);
    assert_eq!(declaration_limit(&sheet, 34), 35);
}

#[test]
fn tolerance() {
    let sheet = marked_sheet();
    assert!(!is_charged(&sheet, 2_000, Some(60_000), 0));
    assert!(is_charged(&sheet, 2_001, Some(60_000), 0));
    // A twentieth of the reading, or of the energy where unmeasured.
    assert!(!is_charged(&sheet, 100, Some(2_000), 0));
    assert!(is_charged(&sheet, 100, Some(1_999), 0));
    assert!(!is_charged(&sheet, 100, None, 2_000 * 9_900));
    assert!(is_charged(&sheet, 100, None, 2_000 * 9_900 - 1));
    assert!(!is_charged(&sheet, 0, Some(0), 0));
    assert!(is_charged(&sheet, 1, Some(0), 0));
}

#[test]
fn test_charge() {
    let sheet = marked_sheet();
    let mut said = UnitRecord {
        since: 3,
        reading: Some(60_000),
        ..UnitRecord::default()
    };
    let charge = |said: &UnitRecord, list: &[(u64, u64)]| {
        items::test_charge(&sheet, said, &of_kinds(list), 0, RATE)
    };
    assert_eq!(charge(&said, &[(2, 3_000)]), 413_437);
    said.since = 1;
    assert_eq!(charge(&said, &[(2, 2_000)]), 0);
    assert_eq!(charge(&said, &[(2, 2_001)]), 250_125);
    // Kinds 4, 5 and 7 are never charged; 6 not on an exempt repair day.
    assert_eq!(charge(&said, &[(4, 9_000), (5, 9_000), (7, 9_000)]), 0);
    assert_eq!(charge(&said, &[(6, 3_000)]), 375_000);
    said.repair = 1;
    assert_eq!(charge(&said, &[(6, 3_000)]), 0);
}

#[test]
fn refund() {
    let sheet = marked_sheet();
    let unit = UnitSheet::default();
    let said = UnitRecord {
        declared: 120_000,
        real: 110_000,
        power: 120_000,
        ..UnitRecord::default()
    };
    assert_eq!(declaration_limit(&sheet, said.power), 123_000);
    let refund = |list: &[(u64, u64)]| items::refund(&sheet, &unit, &said, &of_kinds(list), RATE);
    assert_eq!(refund(&[(7, 4_000)]), 600_000);
    // d5 counts as d7 does, the other kinds do not.
    let others = [(2, 1), (3, 1), (4, 1), (5, 4_000), (6, 1), (8, 1)];
    assert_eq!(refund(&others), 600_000);
}

#[test]
fn drawn_energy() {
    let mut sheet = marked_sheet();
    // On the lowest-numbered unit, here the second.
    sheet.mask = 6;
    let mut record = blank_record(&sheet, 1);
    record.reverse = 1_000;
    let result = items::settle(&sheet, &record, &[0; 8]);
    let drawn: Vec<i64> = result.amounts.iter().map(|amounts| amounts[4]).collect();
    assert_eq!(drawn, [0, -435_600, 0, 0, 0, 0, 0, 0]);
    assert_eq!(result.energies, [0; 8]);
}

#[test]
fn growth_table() {
    let table = [
        100000000, 105000000, 110250000, 115762500, 121550625, 127628156, 134009564, 140710042,
        147745544, 155132821, 162889462, 171033935, 179585632, 188564914, 197993159, 207892817,
        218287458, 229201831, 240661923, 252695019, 265329770, 278596259, 292526071, 307152375,
        322509994,
    ];
    for (n, t) in table.into_iter().enumerate() {
        assert_eq!(growth(n as u64 + 1), t);
    }
    assert_eq!(growth(26), 322_509_994);
    assert_eq!(growth(744), 322_509_994);
}
