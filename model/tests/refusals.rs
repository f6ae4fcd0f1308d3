//! Refusals of texts and calls, and the order they are checked in.

mod common;

use common::*;
use model::ledger::{Answer, Call, Checks, Ledger};
use model::record::{Record, Spans};
use model::sheet::Sheet;
use model::{replay, statement, Refusal};

fn refused(number: u8) -> Result<(), Refusal> {
    Err(Refusal::plain(number))
}

fn at(number: u8, line: u32) -> Refusal {
    Refusal { number, line }
}

/// A text with the line of a number (from 1) put in place of the old one.
fn with_line(text: &[u8], line: usize, new: &[u8]) -> Vec<u8> {
    let mut lines: Vec<&[u8]> = text.split_inclusive(|&byte| byte == b'\n').collect();
    lines[line - 1] = new;
    lines.concat()
}

#[test]
fn sheet_lines() {
    let good = sheet_text(&marked_sheet());
    let lines = 31 + 27 * 3;
    assert_eq!(good.iter().filter(|&&byte| byte == b'\n').count(), lines);
    assert_eq!(Sheet::read(&good), Ok((marked_sheet(), good.len())));
    let refusal = |line: usize, new: &[u8]| Sheet::read(&with_line(&good, line, new)).unwrap_err();
    for (line, new, expected) in [
        (1, &b"month=13\n"[..], 2),
        (1, b"\n", 1),
        (1, b"month=1\r\n", 2),
        (1, b"\r\n", 1),
        (1, b"month\n", 1),
        (1, b"Month=1\n", 1),
        (1, b" month=1\n", 1),
        (1, b"\xEF\xBB\xBFmonth=1\n", 1),
        (1, b"month=\n", 2),
        (1, b"month=1=1\n", 2),
        (2, b"day=32\n", 2),
        (3, b"loss=2001\n", 2),
        (3, b"day=1\n", 1),
        (6, b"cpf=10001\n", 2),
        (29, b"cpf=\n", 2),
        (30, b"units=0\n", 2),
        (30, b"units=256\n", 2),
        (32, b"nominal=0\n", 2),
        (34, b"offer=5:5,5:5\n", 3),
        (57, b"offer=5:5,6:4\n", 3),
        (57, b"offer=5:5,4:4,x\n", 2),
        (
            111,
            b"offer=1:1,2:2,3:3,4:4,5:5,6:6,7:7,8:8,9:9,10:10,10:10\n",
            2,
        ),
        (112, b"end=hour\n", 2),
        (112, b"end=\n", 2),
        (112, b"end=sheet", 4),
        (112, b"", 4),
        (112, b"x", 4),
    ] {
        assert_eq!(
            refusal(line, new),
            at(expected, line as u32),
            "{}",
            show(new)
        );
    }
    // Fewer units than given: the first surplus line is not the key due.
    assert_eq!(refusal(30, b"units=3\n"), at(1, 31 + 27 * 2));
    assert_eq!(Sheet::read(b"").unwrap_err(), at(4, 1));
    let mut large = good.clone();
    large.resize(65_536, b'x');
    assert!(Sheet::read(&large).is_ok());
    large.push(b'x');
    assert_eq!(Sheet::read(&large).unwrap_err(), at(4, 0));
    // Month 7 has no day 31.
    let text = with_line(&with_line(&good, 1, b"month=7\n"), 2, b"day=31\n");
    assert_eq!(Sheet::read(&text).unwrap_err(), at(2, 2));
}

#[test]
fn record_lines() {
    let sheet = marked_sheet();
    let good = record_text(&sheet, &marked_record(&sheet));
    assert_eq!(
        Record::read(&good, 0, &sheet),
        Ok((marked_record(&sheet), good.len()))
    );
    let refusal = |line: usize, new: &[u8]| {
        Record::read(&with_line(&good, line, new), 0, &sheet).unwrap_err()
    };
    for (line, new, expected) in [
        (1, &b"hour=\n"[..], 2),
        (1, b"hour=0\n", 2),
        (1, b"hour=25\n", 2),
        (2, b"net=8000001\n", 2),
        (2, b"net=\r\n", 2),
        (3, b"net=1\n", 1),
        (4, b"declared=1000001\n", 2),
        (10, b"since=745\n", 2),
        (10, b"since=0\n", 2),
        (11, b"repair=2\n", 2),
        (12, b"spans=60:9:0:0\n", 2),
        (12, b"spans=60:1:0:0,\n", 2),
        (12, b"spans=61:1:0:0\n", 2),
        (12, b"spans=60:1:0\n", 2),
        (
            12,
            b"spans=9:1:0:0,9:1:0:0,9:1:0:0,9:1:0:0,9:1:0:0,9:1:0:0,6:1:0:0\n",
            2,
        ),
        (31, b"end=sheet\n", 2),
        (31, b"end=\n", 2),
        (31, b"end=hour", 4),
    ] {
        assert_eq!(
            refusal(line, new),
            at(expected, line as u32),
            "{}",
            show(new)
        );
    }
    // From a place inside a text; size and start first.
    let mut text = b"anything".to_vec();
    text.extend_from_slice(&good);
    let (_, place) = Record::read(&text, 8, &sheet).unwrap();
    assert_eq!(place, text.len());
    let refusal = |start: usize| Record::read(&text, start, &sheet).unwrap_err();
    assert_eq!(refusal(text.len()), at(4, 1));
    assert_eq!(refusal(text.len() + 1), at(4, 0));
    assert_eq!(refusal(7), at(1, 1));
}

#[test]
fn commitments() {
    let sheet = marked_sheet();
    let mut ledger = Ledger::new(sheet.clone(), 2_000, Checks::EveryCall);
    assert_eq!(ledger.take(25, 9, 0), refused(10));
    assert_eq!(ledger.take(0, 9, 0), refused(10));
    assert_eq!(ledger.take(1, 4, 0), refused(11));
    assert_eq!(ledger.take(1, 0, 0), refused(11));
    assert_eq!(ledger.take(1, 257, 0), refused(11));
    assert_eq!(ledger.take(1, 1, 0), refused(21));
    assert_eq!(ledger.take(1, 1, 130_001), refused(22));
    assert_eq!(ledger.take(1, 1, 130_000), Ok(()));
    assert_eq!(ledger.take(1, 1, u64::MAX), refused(22));
    assert_eq!(ledger.take(1, 1, 1), refused(22));
    assert_eq!(ledger.release(1, 2, 1), refused(23));
    assert_eq!(ledger.release(1, 1, 1), Ok(()));
    assert_eq!(ledger.move_over(1, 1, 1, 0), refused(24));
    assert_eq!(ledger.move_over(1, 1, 4, 0), refused(11));
    assert_eq!(ledger.move_over(1, 4, 1, 0), refused(11));
    assert_eq!(ledger.move_over(1, 1, 2, 0), refused(21));
    assert_eq!(ledger.take(1, 2, 160_000), Ok(()));
    assert_eq!(ledger.move_over(1, 1, 2, 129_999), refused(22));
    assert_eq!(ledger.move_over(1, 1, 2, 130_000), refused(23));
    assert_eq!(ledger.move_over(1, 1, 3, 129_999), Ok(()));
    assert_eq!(ledger.commitments()[0][..3], [0, 160_000, 129_999]);
    // A settled hour.
    let record = record_text(&sheet, &blank_record(&sheet, 1));
    assert_eq!(ledger.settle(&record, 0), Ok((15, record.len())));
    assert_eq!(ledger.take(1, 1, 0), refused(20));
    assert_eq!(ledger.release(1, 1, 0), refused(20));
    assert_eq!(ledger.move_over(1, 1, 1, 0), refused(24));
    assert_eq!(ledger.move_over(1, 1, 2, 0), refused(20));
    assert_eq!(ledger.take(2, 1, 1), Ok(()));
}

#[test]
fn records() {
    let sheet = marked_sheet();
    let mut ledger = Ledger::new(sheet.clone(), 44, Checks::EveryCall);
    let good = marked_record(&sheet);
    // All that may be wrong at once; put right one by one.
    let mut record = good.clone();
    record.units[2].deviation = 1;
    record.net += 1;
    record.units[1].spans = spans(&[(59, 1, 0, 0)]);
    let text = |record: &Record| record_text(&sheet, record);
    let plain = |answer: Result<(usize, usize), Refusal>| answer.map(|_| ());
    assert_eq!(plain(ledger.settle(&text(&record), 1)), Err(at(1, 1)));
    assert_eq!(plain(ledger.settle(&text(&record), 0)), refused(31));
    assert_eq!(plain(ledger.restate(&text(&record), 0)), refused(31));
    record.units[1].spans = Spans::whole_hour(150_000);
    assert_eq!(plain(ledger.restate(&text(&record), 0)), refused(41));
    assert_eq!(plain(ledger.settle(&text(&record), 0)), refused(32));
    record.net -= 1;
    assert_eq!(plain(ledger.settle(&text(&record), 0)), refused(33));
    record.units[2].deviation = 0;
    assert_eq!(ledger.void(1), Err(Refusal::plain(41)));
    assert_eq!(ledger.void(25), Err(Refusal::plain(10)));
    let length = text(&record).len();
    assert_eq!(ledger.settle(&text(&record), 0), Ok((15, length)));
    record.units[2].deviation = 1;
    assert_eq!(plain(ledger.settle(&text(&record), 0)), refused(40));
    assert_eq!(plain(ledger.restate(&text(&record), 0)), refused(33));
    assert_eq!(ledger.restate(&text(&good), 0), Ok((15, length)));
    assert!(ledger.postings()[15..]
        .iter()
        .all(|posting| posting.amount == 0));
    // 14 places are left of 44.
    assert_eq!(plain(ledger.restate(&text(&good), 0)), refused(42));
    assert_eq!(ledger.void(1), Err(Refusal::plain(42)));
    assert_eq!(ledger.void(2), Err(Refusal::plain(41)));
    assert_eq!(ledger.total(1, 1), Ok(31_364_000));
    assert_eq!(ledger.total(4, 1), Err(Refusal::plain(11)));
    assert_eq!(ledger.total(1, 6), Err(Refusal::plain(11)));
    assert_eq!(ledger.total(1, 0), Err(Refusal::plain(11)));
}

#[test]
fn readings() {
    let sheet = marked_sheet();
    let mut record = marked_record(&sheet);
    assert!(!record.readings_wrong(&sheet));
    record.net += 1;
    assert!(record.readings_wrong(&sheet));
    record.units[1].reading = None;
    assert!(!record.readings_wrong(&sheet));
    record.net = 200_000;
    assert!(!record.readings_wrong(&sheet));
    record.net = 199_999;
    assert!(record.readings_wrong(&sheet));
}

#[test]
fn sheets_out_of_range() {
    type Spoil = fn(&mut Sheet);
    let spoils: [(Spoil, bool); 13] = [
        (|sheet| sheet.month = 13, true),
        (|sheet| (sheet.month, sheet.day) = (7, 31), true),
        (|sheet| sheet.loss = 2_001, true),
        (|sheet| sheet.mask = 0, true),
        (|sheet| sheet.mask |= 256, true),
        (|sheet| sheet.cpf[23] = 10_001, true),
        (|sheet| sheet.units[2].nominal = 0, true),
        (|sheet| sheet.units[2].offers[23].count = 0, true),
        (|sheet| sheet.units[2].offers[23].list[1].price = 0, true),
        (
            |sheet| sheet.units[2].offers[23].list[1].quantity = 80_000,
            true,
        ),
        // Not the plant's, and not a pair of the offer.
        (|sheet| sheet.units[3].own = 9_999, false),
        (
            |sheet| sheet.units[2].offers[23].list[2].quantity = 1 << 40,
            false,
        ),
        (|_| (), false),
    ];
    for (spoil, is_refused) in spoils {
        let mut sheet = marked_sheet();
        spoil(&mut sheet);
        for checks in [Checks::Once, Checks::EveryCall] {
            let mut ledger = Ledger::new(sheet.clone(), 2_000, checks);
            let answer = ledger.call(&Call::Void { hour: 0 });
            let number = if is_refused { 9 } else { 10 };
            assert_eq!(answer, Answer::Refused(Refusal::plain(number)));
        }
    }
}

/// The longest journal: 100,000 postings, however long the list is.
#[test]
fn longest_journal() {
    let mut sheet = marked_sheet();
    sheet.mask = 255;
    for u in 3..8 {
        sheet.units[u] = sheet.units[0];
    }
    for places in [99_999, 100_000, 100_001, 100_040, usize::MAX] {
        let mut ledger = Ledger::new(sheet.clone(), places, Checks::Once);
        let text = record_text(&sheet, &blank_record(&sheet, 7));
        assert!(ledger.settle(&text, 0).is_ok());
        let mut accepted = 1;
        while ledger.restate(&text, 0).is_ok() {
            accepted += 1;
        }
        assert_eq!(accepted, if places < 100_000 { 2_499 } else { 2_500 });
        assert_eq!(ledger.void(7), Err(Refusal::plain(42)));
        assert!(!ledger.state_is_wrong());
    }
}

#[test]
fn statement_lines() {
    let sheet = marked_sheet();
    let start = sheet_text(&sheet);
    let record = record_text(&sheet, &marked_record(&sheet));
    let says = |rest: &[&[u8]]| {
        let text = [&start[..], &rest.concat()].concat();
        show(&statement::print(&text))
    };
    assert_eq!(show(&statement::print(b"")), "refused=4\n");
    assert_eq!(says(&[]), "");
    for (line, number) in [
        (&b"\n"[..], 1),
        (b"take", 4),
        (b"take=1:1:1", 4),
        (b"take\n", 1),
        (b"release=1:1:1\n", 1),
        (b"take=1:1\n", 2),
        (b"take=1:1:1:1\n", 2),
        (b"take=1:1:1000000000\n", 2),
        (b"take=1:1:01\n", 2),
        (b"take=0:1:1\n", 10),
        (b"take=999999999:1:1\n", 10),
        (b"take=1:4:1\n", 11),
        (b"take=1:1:0\n", 21),
        (b"take=1:1:130001\n", 22),
        (b"hour=25\n", 2),
        (b"hour=1\n", 4),
        (b"end=sheet\n", 1),
    ] {
        assert_eq!(
            says(&[line]),
            format!("refused={number}\n"),
            "{}",
            show(line)
        );
    }
    assert_eq!(says(&[&record, &record]), "refused=40\n");
    assert_eq!(says(&[&record, b"take=1:1:1\n"]), "refused=20\n");
    assert_eq!(says(&[&record, b"take=2:1:1\n"]).lines().count(), 3);
}

/// Void and restatement by the journal.
#[test]
fn replayed() {
    let sheet = marked_sheet();
    let start = sheet_text(&sheet);
    let record = record_text(&sheet, &marked_record(&sheet));
    let mut other = marked_record(&sheet);
    other.units[0].declared -= 1_000;
    let other = record_text(&sheet, &other);
    let mut bad = record.clone();
    bad.splice(0..4, *b"Hour");
    let text = [
        &start[..],
        b"settle=\n",
        &record,
        b"total=1:2\nrestate=\n",
        &other,
        b"total=1:2\nsettle=\n",
        &bad,
        b"void=1\ntotal=1:2\ntotal=3:6\ntake=1:3:5\n",
    ]
    .concat();
    assert_eq!(
        show(&replay::print(&text)),
        "settle= accepted=15\n\
         total=1:2 sum=12000000\n\
         restate= accepted=15\n\
         total=1:2 sum=11900000\n\
         settle= refused=1 line=1\n\
         void=1 accepted=15\n\
         total=1:2 sum=0\n\
         total=3:6 refused=11\n\
         take=1:3:5 accepted\n\
         commitment 1 3 5\n\
         total 1 1 0\ntotal 1 2 0\ntotal 1 3 0\ntotal 1 4 0\ntotal 1 5 0\n\
         total 2 1 0\ntotal 2 2 0\ntotal 2 3 0\ntotal 2 4 0\ntotal 2 5 0\n\
         total 3 1 0\ntotal 3 2 0\ntotal 3 3 0\ntotal 3 4 0\ntotal 3 5 0\n"
    );
    let text = [&start[..], b"void=1\nsettle=1\n"].concat();
    let line = 31 + 27 * 3 + 2;
    let expected = format!("void=1 refused=41\nline={line} refused=2\n");
    assert_eq!(show(&replay::print(&text)), expected);
    assert_eq!(show(&replay::print(b"")), "sheet refused=4 line=1\n");
}
