//! Worked examples of source document 000 that lie inside document 01.

mod common;

use common::*;
use model::items::{self, Rate};
use model::record::UnitRecord;
use model::sheet::{Sheet, UnitSheet};

/// One unit, with own use, an hour's rate and everything else plain.
fn plant(own: u64, loss: u64, cpf: u64, offer: &str) -> Sheet {
    let mut sheet = sheet(&[offer]);
    sheet.units[0].own = own;
    sheet.loss = loss;
    sheet.bar = 185_000;
    sheet.cpf = [cpf; 24];
    sheet
}

#[test]
fn deviation_by_kind() {
    // Example 16.
    let unit = UnitSheet {
        own: 100,
        ..UnitSheet::default()
    };
    let mut said = UnitRecord {
        test: 135_000,
        deviation: 17_500,
        spans: spans(&[
            (20, 1, 0, 135_000),
            (30, 2, 0, 110_000),
            (10, 3, 0, 105_000),
        ]),
        ..UnitRecord::default()
    };
    assert_eq!(
        said.proportions(&unit),
        of_kinds(&[(2, 783_000), (3, 310_500)])
    );
    let split = |said: &UnitRecord| items::deviations(&unit, said);
    assert_eq!(split(&said), of_kinds(&[(2, 12_531), (3, 4_969)]));
    // Example 18: kind 2 for reasons of environment counts as 7.
    said.test = 80_000;
    said.deviation = 46_000;
    said.spans = spans(&[(40, 2, 0, 40_000), (20, 2, 1, 20_000)]);
    assert_eq!(
        said.proportions(&unit),
        of_kinds(&[(2, 1_616_000), (7, 1_204_000)])
    );
    assert_eq!(split(&said), of_kinds(&[(2, 26_360), (7, 19_640)]));
    // For frequency control as 5; a cause on other kinds means nothing.
    said.spans = spans(&[(40, 3, 2, 0), (20, 6, 2, 0)]);
    assert_eq!(split(&said), of_kinds(&[(5, 30_667), (6, 15_333)]));
}

#[test]
fn availability() {
    // Examples 20 to 22, the gate of the commitment being whole kWh here.
    for (cpf, commitment, amount) in [
        (2_000, 80_000, 23_935_670),
        (2_000, 150_000, 0),
        (6_000, 80_000, 71_807_010),
    ] {
        let sheet = plant(300, 100, cpf, "200000:0");
        let said = UnitRecord {
            declared: 150_000,
            ..UnitRecord::default()
        };
        let rate = Rate {
            cpf,
            bar: sheet.bar,
        };
        let paid = items::availability(&sheet, &sheet.units[0], &said, commitment, rate);
        assert_eq!(paid, amount);
    }
}

#[test]
fn refund() {
    // Examples 23 to 25.
    let sheet = plant(200, 100, 1_500, "200000:0");
    for (real, power, d5, amount) in [
        (90_000, 117_000, 10_000, 0),
        (70_000, 117_000, 10_000, 4_995_000),
        (90_000, 77_670, 10_000, 5_439_000),
    ] {
        let said = UnitRecord {
            declared: 100_000,
            real,
            power,
            ..UnitRecord::default()
        };
        let rate = Rate {
            cpf: 1_500,
            bar: sheet.bar,
        };
        let deviations = of_kinds(&[(5, d5)]);
        let refund = items::refund(&sheet, &sheet.units[0], &said, &deviations, rate);
        assert_eq!(refund, amount, "{real} {power}");
    }
}

#[test]
fn failed_test() {
    // Examples 26 to 28.
    for (cpf, since, reading, deviation, spans, charge) in [
        (
            2_000,
            1,
            80_000,
            30_000,
            spans(&[(20, 2, 0, 30_000), (40, 3, 0, 30_000)]),
            9_250_000,
        ),
        (
            1_980,
            2,
            80_000,
            30_000,
            spans(&[(20, 2, 0, 30_000), (40, 3, 0, 30_000)]),
            9_615_375,
        ),
        (2_000, 1, 80_000, 1_800, spans(&[(60, 2, 0, 30_000)]), 0),
        (2_000, 1, 0, 40_000, spans(&[(60, 6, 0, 0)]), 18_500_000),
        (1_980, 2, 0, 40_000, spans(&[(60, 6, 0, 0)]), 19_230_750),
    ] {
        let sheet = plant(0, 0, cpf, "200000:0");
        let mut record = blank_record(&sheet, 1);
        record.net = reading;
        let unit = &mut record.units[0];
        unit.test = 60_000;
        unit.deviation = deviation;
        unit.reading = Some(reading);
        unit.since = since;
        unit.spans = spans;
        let result = items::settle(&sheet, &record, &[0; 8]);
        assert_eq!(result.amounts[0][3], -charge);
    }
}

#[test]
fn energy_pay() {
    // Examples 41, 42, 44; 34 and 40 as document 01 reckons; then with
    // commitments, which count inside the energy at price 0.
    let one = "59000:272000,127000:386000,199000:394000,249000:440000";
    let other = "55000:232000,140000:350000,172000:392000,222000:440000";
    for (offer, net, amount) in [
        (one, 120_000, 39_594_000),
        (one, 75_000, 22_224_000),
        (one, 90_000, 28_014_000),
        (other, 190_000, 62_974_000),
        (
            one,
            300_000,
            59 * 272_000 + 68 * 386_000 + 72 * 394_000 + 101 * 440_000,
        ),
    ] {
        let sheet = plant(0, 0, 1_000, offer);
        let mut record = blank_record(&sheet, 1);
        record.net = net;
        let result = items::settle(&sheet, &record, &[0; 8]);
        assert_eq!(result.amounts[0][0], amount, "{net}");
        assert_eq!(result.energies[0], net * 10_000);
        // A commitment of all that was sent is paid nothing; one of the last
        // quantity leaves the last price to what is beyond it.
        let result = items::settle(&sheet, &record, &[249_000.min(net), 0, 0, 0, 0, 0, 0, 0]);
        let beyond = net.saturating_sub(249_000) as i64;
        assert_eq!(result.amounts[0][0], beyond * 440);
    }
}
