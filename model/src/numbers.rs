//! A list of calls in plain numbers, as the product's export takes it and
//! gives it back (`include/gozalvek.h`), carried out by the model.

use crate::items::HourResult;
use crate::ledger::{Answer, Checks, Group, Ledger, Posting};
use crate::sheet::Sheet;
use crate::{HOURS, ITEMS, UNITS};

/// Numbers of a call, of an answer, of a posting.
pub const CALL: usize = 8;
pub const ANSWER: usize = 4;
pub const POSTING: usize = 4;

/// 192 commitments, 24 marks, 192 energies.
pub const HELD: usize = HOURS * (2 * UNITS + 1);

/// By hour, unit and item.
pub const AMOUNTS: usize = HOURS * UNITS * ITEMS;

/// The longest journal list; a longer one is cut to it.
pub const MOST_PLACES: usize = 100_040;

/// What is given.
#[derive(Clone, Copy)]
pub struct Given<'t> {
    /// The day sheet's text.
    pub sheet: &'t [u8],
    /// The journal list's length.
    pub places: u64,
    pub calls: &'t [u64],
    /// The text that the records lie in.
    pub text: &'t [u8],
}

/// What is written. A slice that is too short gets what it has room for, and a
/// longer one keeps the rest.
#[derive(Clone, Debug, Default, PartialEq, Eq)]
pub struct Written {
    /// The sheet's refusal, or 0.
    pub number: u64,
    pub line: u64,
    pub count: u64,
    pub answers: Vec<u64>,
    pub held: Vec<u64>,
    pub amounts: Vec<i64>,
    pub postings: Vec<i64>,
}

/// Lengths of the four slices that are written.
#[derive(Clone, Copy, Debug, PartialEq, Eq)]
pub struct Lengths {
    pub answers: usize,
    pub held: usize,
    pub amounts: usize,
    pub postings: usize,
}

impl Lengths {
    /// Room for all that a list of calls leaves, and for nothing else.
    pub fn of(calls: usize, places: u64) -> Lengths {
        Lengths {
            answers: ANSWER * calls,
            held: HELD,
            amounts: AMOUNTS,
            postings: POSTING * length(places),
        }
    }
}

impl Written {
    /// Gives the slices their lengths. What they hold stays.
    pub fn fit(&mut self, lengths: Lengths) {
        self.answers.resize(lengths.answers, 0);
        self.held.resize(lengths.held, 0);
        self.amounts.resize(lengths.amounts, 0);
        self.postings.resize(lengths.postings, 0);
    }

    /// Fills the slices with a number that no list of calls leaves, to see
    /// what is written and what is not.
    pub fn fill(&mut self) {
        const UNWRITTEN: u64 = 0xA5A5_A5A5_A5A5_A5A5;
        self.answers.fill(UNWRITTEN);
        self.held.fill(UNWRITTEN);
        self.amounts.fill(UNWRITTEN as i64);
        self.postings.fill(UNWRITTEN as i64);
    }
}

/// The numbers of a list of calls.
pub fn numbers(groups: &[Group]) -> Vec<u64> {
    let of = |group: &Group| {
        [
            group.kind,
            group.hour,
            group.unit,
            group.to,
            group.kwh,
            group.begin,
            group.end,
            group.start,
        ]
    };
    groups.iter().flat_map(of).collect()
}

/// Carries out calls on the empty ledger; gives what they lead to, or nothing
/// where the sheet is refused.
pub fn calls(given: &Given, checks: Checks, written: &mut Written) -> Option<Ledger> {
    (written.number, written.line, written.count) = (0, 0, 0);
    let sheet = match Sheet::read(given.sheet) {
        Ok((sheet, _)) => sheet,
        Err(refusal) => {
            written.number = u64::from(refusal.number);
            written.line = u64::from(refusal.line);
            return None;
        }
    };
    let mut ledger = Ledger::new(sheet, length(given.places), checks);
    let answers = written.answers.chunks_exact_mut(ANSWER);
    for (numbers, answer) in given.calls.chunks_exact(CALL).zip(answers) {
        let group = group(numbers);
        let answered = ledger.call(&group.call(given.text));
        answer.copy_from_slice(&reply(&group, answered));
    }
    written.count = ledger.postings().len() as u64;
    put_held(&mut written.held, &ledger);
    put_amounts(&mut written.amounts, &ledger);
    put_postings(&mut written.postings, &ledger);
    Some(ledger)
}

/// The length of a journal list of so many places.
fn length(places: u64) -> usize {
    places.min(MOST_PLACES as u64) as usize
}

fn group(numbers: &[u64]) -> Group {
    Group {
        kind: numbers[0],
        hour: numbers[1],
        unit: numbers[2],
        to: numbers[3],
        kwh: numbers[4],
        begin: numbers[5],
        end: numbers[6],
        start: numbers[7],
    }
}

/// The refusal's number or 0, its line, the postings appended, the text place.
fn reply(group: &Group, answer: Answer) -> [u64; ANSWER] {
    match answer {
        Answer::Accepted | Answer::Sum(_) => [0; ANSWER],
        Answer::Posted { postings, place } => [0, 0, postings as u64, place.unwrap_or(0) as u64],
        Answer::Refused(refusal) => {
            // A refused record leaves the text place at its start.
            let place = match group.kind {
                4 | 5 => group.start,
                _ => 0,
            };
            let (number, line) = (u64::from(refusal.number), u64::from(refusal.line));
            [number, line, 0, place]
        }
    }
}

fn put_held(out: &mut [u64], ledger: &Ledger) {
    let commitments = ledger.commitments().iter().flatten().copied();
    let marks = (0..HOURS).map(|h| u64::from(ledger.record(h).is_some()));
    let energies = results(ledger).flat_map(|result| result.energies);
    put(out, commitments.chain(marks).chain(energies));
}

fn put_amounts(out: &mut [i64], ledger: &Ledger) {
    let units = results(ledger).flat_map(|result| result.amounts.iter());
    put(out, units.flatten().copied());
}

fn results(ledger: &Ledger) -> impl Iterator<Item = &HourResult> {
    (0..HOURS).map(|h| ledger.result(h))
}

/// The postings, and free places up to the list's length.
fn put_postings(out: &mut [i64], ledger: &Ledger) {
    let places = ledger.places().min(out.len() / POSTING);
    let count = ledger.postings().len().min(places);
    let (used, free) = out[..POSTING * places].split_at_mut(POSTING * count);
    for (place, posting) in used.chunks_exact_mut(POSTING).zip(ledger.postings()) {
        let Posting {
            hour,
            unit,
            item,
            amount,
        } = *posting;
        place.copy_from_slice(&[hour as i64, unit as i64, item as i64, amount]);
    }
    free.fill(0);
}

fn put<T>(out: &mut [T], values: impl Iterator<Item = T>) {
    for (place, value) in out.iter_mut().zip(values) {
        *place = value;
    }
}

#[cfg(test)]
mod tests {
    use super::*;
    use crate::inputs;

    /// Slices that are too short get the first part of what is written, longer
    /// ones keep the rest.
    #[test]
    fn slices_of_other_lengths() {
        let list = inputs::posted_day();
        let numbers = numbers(&list.groups);
        let given = Given {
            sheet: &list.sheet,
            places: list.places as u64 + 3,
            calls: &numbers,
            text: &list.text,
        };
        let run = |lengths: Lengths| {
            let mut written = Written::default();
            written.fit(lengths);
            written.fill();
            calls(&given, Checks::Once, &mut written);
            written
        };
        let exact = Lengths::of(list.groups.len(), given.places);
        let whole = run(exact);
        assert_eq!(whole.count, 2_480);
        assert_eq!(whole.postings.len(), POSTING * 2_483);
        assert_eq!(whole.postings[POSTING * 2_480..], [0; 3 * POSTING]);

        let other = run(Lengths {
            answers: exact.answers + 1,
            held: exact.held - 1,
            amounts: exact.amounts + 1,
            postings: exact.postings - 1,
        });
        assert_eq!(other.answers[..exact.answers], whole.answers);
        assert_eq!(other.held, whole.held[..exact.held - 1]);
        assert_eq!(other.amounts[..exact.amounts], whole.amounts);
        // The last place has no room for its four numbers.
        let places = exact.postings - POSTING;
        assert_eq!(other.postings[..places], whole.postings[..places]);
        assert!(other.postings[places..].iter().all(|&number| number != 0));

        // No more calls than answers.
        let first = run(Lengths {
            answers: ANSWER + 3,
            ..exact
        });
        assert_eq!(first.count, 40);
    }

    #[test]
    fn refused_sheet() {
        let mut written = Written::default();
        written.fit(Lengths::of(1, 5));
        written.fill();
        let before = written.clone();
        let given = Given {
            sheet: b"month=1\nday=32\n",
            places: 5,
            calls: &[6; CALL],
            text: b"",
        };
        calls(&given, Checks::Once, &mut written);
        let (number, line) = (2, 2);
        assert_eq!(
            written,
            Written {
                number,
                line,
                ..before
            }
        );
    }
}
