//! The program `replay`: bytes of calls.txt to bytes printed. A day sheet,
//! then calls, each carried out as it comes and printed with its result, and
//! at the end three tables.

use crate::ledger::{Answer, Call, Checks, Ledger};
use crate::sheet::Sheet;
use crate::statement::{row, PLACES};
use crate::text::{colon_numbers, line_at, put_number, put_row, split_line};
use crate::{Refusal, HOURS, ITEMS};

/// What the program prints for a text, over a list of 2,000 places.
pub fn print(text: &[u8]) -> Vec<u8> {
    carry_out(text, PLACES, Checks::Once).0
}

/// What is printed over a list of a given length; and the ledger, where the
/// sheet was read.
pub fn carry_out(text: &[u8], places: usize, checks: Checks) -> (Vec<u8>, Option<Ledger>) {
    let mut out = Vec::new();
    let (sheet, start) = match Sheet::read(text) {
        Ok(read) => read,
        Err(refusal) => {
            out.extend_from_slice(b"sheet ");
            put_refusal(&mut out, refusal);
            out.push(b'\n');
            return (out, None);
        }
    };
    let mut ledger = Ledger::new(sheet, places, checks);
    match put_calls(&mut out, text, start, &mut ledger) {
        Ok(()) => put_tables(&mut out, &ledger),
        Err((place, number)) => {
            let before = text[..place].iter().filter(|&&byte| byte == b'\n').count();
            out.extend_from_slice(b"line=");
            put_number(&mut out, before as i64 + 1);
            out.extend_from_slice(b" refused=");
            put_number(&mut out, i64::from(number));
            out.push(b'\n');
        }
    }
    (out, Some(ledger))
}

/// Carries out the calls and prints their results; where a line is no call,
/// gives its place and what is wrong with it.
fn put_calls(
    out: &mut Vec<u8>,
    text: &[u8],
    start: usize,
    ledger: &mut Ledger,
) -> Result<(), (usize, u8)> {
    let mut place = start;
    while place < text.len() {
        let line = line_at(text, place).ok_or((place, 4))?;
        let after_line = place + line.len() + 1;
        let call = read_call(line, text, after_line).map_err(|number| (place, number))?;
        let answer = ledger.call(&call);
        out.extend_from_slice(line);
        out.push(b' ');
        put_answer(out, answer);
        out.push(b'\n');
        place = match (call, answer) {
            (
                _,
                Answer::Posted {
                    place: Some(after_record),
                    ..
                },
            ) => after_record,
            (Call::Settle { .. } | Call::Restate { .. }, _) => behind_record(text, after_line),
            _ => after_line,
        };
    }
    Ok(())
}

/// The call that a line stands for; a record starts behind it.
fn read_call<'t>(line: &[u8], text: &'t [u8], after_line: usize) -> Result<Call<'t>, u8> {
    let (key, value) = split_line(line).ok_or(1)?;
    let mut n = [0; 4];
    let (well_formed, call) = match key {
        b"take" | b"release" => {
            let well_formed = colon_numbers(value, &mut n[..3]);
            let [hour, unit, kwh, _] = n;
            let call = if key == b"take" {
                Call::Take { hour, unit, kwh }
            } else {
                Call::Release { hour, unit, kwh }
            };
            (well_formed, call)
        }
        b"move" => {
            let well_formed = colon_numbers(value, &mut n);
            let [hour, from, to, kwh] = n;
            let call = Call::Move {
                hour,
                from,
                to,
                kwh,
            };
            (well_formed, call)
        }
        b"void" => {
            let well_formed = colon_numbers(value, &mut n[..1]);
            (well_formed, Call::Void { hour: n[0] })
        }
        b"total" => {
            let well_formed = colon_numbers(value, &mut n[..2]);
            let call = Call::Total {
                unit: n[0],
                item: n[1],
            };
            (well_formed, call)
        }
        b"settle" => {
            let start = after_line;
            (value.is_empty(), Call::Settle { text, start })
        }
        b"restate" => {
            let start = after_line;
            (value.is_empty(), Call::Restate { text, start })
        }
        _ => return Err(1),
    };
    if well_formed {
        Ok(call)
    } else {
        Err(2)
    }
}

/// The place behind the next line that is exactly `end=hour`, or the text's
/// end.
fn behind_record(text: &[u8], start: usize) -> usize {
    let mut place = start;
    while let Some(line) = line_at(text, place) {
        place += line.len() + 1;
        if line == b"end=hour" {
            return place;
        }
    }
    text.len()
}

fn put_answer(out: &mut Vec<u8>, answer: Answer) {
    match answer {
        Answer::Accepted => out.extend_from_slice(b"accepted"),
        Answer::Posted { postings, .. } => {
            out.extend_from_slice(b"accepted=");
            put_number(out, postings as i64);
        }
        Answer::Sum(rial) => {
            out.extend_from_slice(b"sum=");
            put_number(out, rial);
        }
        Answer::Refused(refusal) => put_refusal(out, refusal),
    }
}

/// `refused=NUMBER`, for 1 to 4 with the line.
fn put_refusal(out: &mut Vec<u8>, refusal: Refusal) {
    out.extend_from_slice(b"refused=");
    put_number(out, i64::from(refusal.number));
    if refusal.number <= 4 {
        out.extend_from_slice(b" line=");
        put_number(out, i64::from(refusal.line));
    }
}

/// Commitments over 0, settled hours, totals.
fn put_tables(out: &mut Vec<u8>, ledger: &Ledger) {
    for (h, units) in ledger.commitments().iter().enumerate() {
        for (u, &kwh) in units.iter().enumerate().filter(|(_, &kwh)| kwh > 0) {
            out.extend_from_slice(b"commitment ");
            put_row(out, &[h as i64 + 1, u as i64 + 1, kwh as i64]);
        }
    }
    for h in (0..HOURS).filter(|&h| ledger.record(h).is_some()) {
        for u in ledger.sheet().plant() {
            out.extend_from_slice(b"settled ");
            put_row(out, &row(ledger, h, u));
        }
    }
    // One walk over the journal for all units and items.
    let mut totals = [[0; ITEMS]; crate::UNITS];
    for posting in ledger.postings() {
        totals[posting.unit as usize - 1][posting.item as usize - 1] += posting.amount;
    }
    for u in ledger.sheet().plant() {
        for item in 0..ITEMS {
            out.extend_from_slice(b"total ");
            put_row(out, &[u as i64 + 1, item as i64 + 1, totals[u][item]]);
        }
    }
}
