//! The inputs of the benchmark. They are the same in every run.

use crate::generate::{put_record, put_sheet, put_words, CallList};
use crate::ledger::Group;
use crate::random::Random;
use crate::record::{Record, Span, Spans, UnitRecord, KINDS};
use crate::sheet::{Offer, Sheet, Step, UnitSheet, STEPS};
use crate::text::LARGEST_TEXT;
use crate::{HOURS, UNITS};

/// Eight units, each with ten pairs in every hour, whose prices lie in one
/// another's way.
pub fn large_sheet() -> Sheet {
    let mut random = Random::new(8);
    let mut sheet = Sheet {
        month: 4,
        day: 20,
        loss: 137,
        ceiling: 4_400_000,
        bar: 185_000,
        cpf: [0; HOURS],
        mask: 255,
        units: vec![UnitSheet::default(); UNITS],
    };
    for cpf in &mut sheet.cpf {
        *cpf = random.range(1_000, 9_999);
    }
    for unit in &mut sheet.units {
        unit.own = random.range(100, 900);
        unit.nominal = random.range(500_000, 999_999);
        unit.monthly = random.range(500_000, 999_999);
        for offer in &mut unit.offers {
            *offer = Offer {
                count: STEPS,
                ..Offer::default()
            };
            for (i, step) in offer.list.iter_mut().enumerate() {
                *step = Step {
                    quantity: random.range(1, 90_000) + 90_000 * i as u64 + 10_000,
                    price: random.range(1, 399_999) + 400_000 * i as u64 + 1_000_000,
                };
            }
        }
    }
    debug_assert!(sheet.is_allowed());
    sheet
}

/// A record of the large sheet's plant with values in all its fields and
/// `spans` spans a unit; the kinds from 2 on take turns from hour to hour.
pub fn full_record(random: &mut Random, hour: u64, spans: u64) -> Record {
    let mut units = [UnitRecord::default(); UNITS];
    let mut net = 0;
    for unit in &mut units {
        let reading = random.range(200_000, 700_000);
        net += reading;
        *unit = UnitRecord {
            declared: random.range(400_000, 999_999),
            real: random.range(300_000, 900_000),
            test: random.range(600_000, 999_999),
            deviation: random.range(100_000, 400_000),
            power: random.range(400_000, 999_999),
            reading: Some(reading),
            since: random.range(100, 744),
            repair: random.below(2),
            spans: Spans::default(),
        };
        for i in 0..spans {
            unit.spans.push(Span {
                minutes: if i == 0 { 60 - 10 * (spans - 1) } else { 10 },
                kind: (hour + i) % KINDS as u64 + 2,
                cause: random.below(3),
                capability: random.range(100_000, 599_999),
            });
        }
    }
    Record {
        hour,
        net,
        reverse: random.range(1, 100_000),
        units,
    }
}

/// The largest day of 8 units that fits a text: takes and 24 hours, 65,536
/// bytes in all. All of it is accepted.
pub fn largest_day() -> Vec<u8> {
    let sheet = large_sheet();
    let mut head = text_of(&sheet);
    for hour in 1..=HOURS as u64 {
        put_words(&mut head, "take=", &[hour, hour % 8 + 1, 9_000]);
    }
    // As many spans a record as there is room for, fewer in later hours.
    let mut random = Random::new(9);
    let texts: Vec<[Vec<u8>; 7]> = (1..=HOURS as u64)
        .map(|hour| {
            let random = Random::new(random.next());
            std::array::from_fn(|spans| {
                let mut text = Vec::new();
                if spans > 0 {
                    let record = full_record(&mut random.clone(), hour, spans as u64);
                    put_record(&mut text, &sheet, &record, || false);
                }
                text
            })
        })
        .collect();
    let mut spans = [6; HOURS];
    let size = |spans: &[usize; HOURS]| -> usize {
        let records = texts.iter().zip(spans).map(|(texts, &n)| texts[n].len());
        head.len() + records.sum::<usize>()
    };
    // Room for takes that fill the rest exactly.
    let mut at = HOURS;
    while size(&spans) + 24 > LARGEST_TEXT {
        at -= 1;
        spans[at] -= 1;
        if at == 0 {
            at = HOURS;
        }
    }
    let mut text = head.clone();
    let mut rest = LARGEST_TEXT - size(&spans);
    while rest > 0 {
        // 11 to 14 bytes, so that every rest from 22 on is filled.
        let line = match rest {
            11..=14 => rest,
            22..=28 => rest / 2,
            _ => 11,
        };
        let unit = (rest % 8) as u64 + 1;
        put_words(&mut text, "take=", &[1, unit, 10u64.pow(line as u32 - 11)]);
        rest -= line;
    }
    for (texts, &n) in texts.iter().zip(&spans) {
        text.extend_from_slice(&texts[n]);
    }
    assert_eq!(text.len(), LARGEST_TEXT);
    text
}

/// A day of 5,900 takes of 1 kWh under a short sheet of one unit, nearly as many
/// as a text has room for. All of it is accepted, and nothing is settled.
pub fn many_takes() -> Vec<u8> {
    let mut text = b"month=1\nday=1\nloss=0\nceiling=0\nbar=0\n".to_vec();
    text.extend(b"cpf=0\n".repeat(HOURS));
    text.extend(b"units=1\nown=0\nnominal=1\nmonthly=0\n");
    text.extend(b"offer=900:0\n".repeat(HOURS));
    text.extend(b"end=sheet\n");
    for take in 0..5_900 {
        put_words(&mut text, "take=", &[take % 9 + 1, 1, 1]);
    }
    assert!(text.len() <= LARGEST_TEXT);
    text
}

/// Settles at the end of `posted_day`.
pub const SETTLES: usize = HOURS - 1;

/// A settle and 38 restatements of hour 1, which post 1,560 times, and then a
/// settle of each other hour. Before these 23 settles 1,560 to 2,440 places are
/// posted, 2,000 in the mean.
pub fn posted_day() -> CallList {
    let sheet = large_sheet();
    let mut random = Random::new(10);
    let mut text = Vec::new();
    let mut record = |hour: u64| {
        let begin = text.len() as u64;
        let record = full_record(&mut random, hour, 6);
        put_record(&mut text, &sheet, &record, || false);
        Group {
            begin,
            end: text.len() as u64,
            ..Group::default()
        }
    };
    let hour_1 = [record(1), record(1)];
    let restate = |i: usize| Group {
        kind: 5,
        ..hour_1[i % 2]
    };
    let settle = |group: Group| Group { kind: 4, ..group };
    let mut groups = vec![settle(hour_1[0])];
    groups.extend((1..39).map(restate));
    groups.extend((2..=HOURS as u64).map(|hour| settle(record(hour))));
    CallList {
        sheet: text_of(&sheet),
        text,
        groups,
        places: 2_480,
    }
}

/// 10,000 takes, releases and moves, nearly all of them accepted.
pub fn commitment_calls() -> CallList {
    let mut random = Random::new(11);
    let mut held = [[0; UNITS]; HOURS];
    let groups = (0..10_000)
        .map(|_| {
            let hour = random.range(1, 24);
            let unit = random.range(1, 8);
            let to = unit % 8 + 1;
            let (h, u) = (hour as usize - 1, unit as usize - 1);
            let kind = if held[h][u] == 0 {
                1
            } else {
                random.range(1, 3)
            };
            let kwh = match kind {
                1 => random.range(1, 1_000),
                _ => random.range(1, held[h][u]),
            };
            match kind {
                1 => held[h][u] += kwh,
                2 => held[h][u] -= kwh,
                _ => {
                    held[h][u] -= kwh;
                    held[h][to as usize - 1] += kwh;
                }
            }
            Group {
                kind,
                hour,
                unit,
                to,
                kwh,
                ..Group::default()
            }
        })
        .collect();
    CallList {
        sheet: text_of(&large_sheet()),
        text: Vec::new(),
        groups,
        places: 2_000,
    }
}

fn text_of(sheet: &Sheet) -> Vec<u8> {
    let mut text = Vec::new();
    put_sheet(&mut text, sheet);
    text
}

/// The bytes that a list of calls is given: the sheet's text, and for each call
/// its numbers and its part of the text.
pub fn bytes_of(list: &CallList) -> usize {
    let part = |group: &Group| std::mem::size_of::<Group>() + group.part(&list.text).len();
    list.sheet.len() + list.groups.iter().map(part).sum::<usize>()
}

#[cfg(test)]
mod tests {
    use super::*;
    use crate::ledger::{run, Answer, Checks};
    use crate::statement;

    #[test]
    fn inputs_are_accepted() {
        let day = largest_day();
        assert_eq!(day.len(), LARGEST_TEXT);
        let printed = statement::print(&day);
        let rows = printed.iter().filter(|&&byte| byte == b'\n').count();
        assert_eq!(rows, HOURS * UNITS, "{}", String::from_utf8_lossy(&printed));

        let carry_out = |list: CallList| {
            let (sheet, _) = Sheet::read(&list.sheet).unwrap();
            let CallList {
                places,
                groups,
                text,
                ..
            } = list;
            run(sheet, places, &groups, &text, Checks::EveryCall)
        };
        let (answers, ledger) = carry_out(posted_day());
        assert!(answers
            .iter()
            .all(|answer| matches!(answer, Answer::Posted { postings: 40, .. })));
        assert_eq!(ledger.postings().len(), 2_480);

        let (answers, _) = carry_out(commitment_calls());
        let accepted = answers.iter().filter(|&&answer| answer == Answer::Accepted);
        assert!(accepted.count() > 9_900);
    }
}
