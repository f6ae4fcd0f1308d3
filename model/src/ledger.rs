//! The plain ledger: commitments, kept records, postings, and the calls.

use crate::items::{self, HourResult};
use crate::record::Record;
use crate::sheet::Sheet;
use crate::{Refusal, HOURS, ITEMS, UNITS};

/// The most postings of a journal, however long its list is.
pub const MOST_POSTINGS: usize = 100_000;

/// One posting; hour, unit and item count from 1.
#[derive(Clone, Copy, Debug, PartialEq, Eq)]
pub struct Posting {
    pub hour: u64,
    pub unit: u64,
    pub item: u64,
    pub amount: i64,
}

/// A call and its arguments, which may be any numbers and any text.
#[derive(Clone, Copy, Debug, PartialEq, Eq)]
pub enum Call<'t> {
    Take {
        hour: u64,
        unit: u64,
        kwh: u64,
    },
    Release {
        hour: u64,
        unit: u64,
        kwh: u64,
    },
    Move {
        hour: u64,
        from: u64,
        to: u64,
        kwh: u64,
    },
    Settle {
        text: &'t [u8],
        start: usize,
    },
    Restate {
        text: &'t [u8],
        start: usize,
    },
    Void {
        hour: u64,
    },
    Total {
        unit: u64,
        item: u64,
    },
}

/// What a call answers.
#[derive(Clone, Copy, Debug, PartialEq, Eq)]
pub enum Answer {
    /// Take, release, move.
    Accepted,
    /// Settle and restate (with the text place after the record), void.
    Posted {
        postings: usize,
        place: Option<usize>,
    },
    /// Total, in Rial.
    Sum(i64),
    Refused(Refusal),
}

/// How refusals 9 and 12, which every call has, are come by. On a ledger both
/// ways give the same answers: its sheet never changes, and no call ever leads
/// to a state that 12 is about.
#[derive(Clone, Copy, Debug, PartialEq, Eq)]
pub enum Checks {
    /// 9 is found once, with the first look at the sheet; 12 is not looked at.
    Once,
    /// Both are evaluated at every call, as the table of document 01 says and
    /// as a call on a book and journal of unknown contents has to.
    EveryCall,
}

/// The plain ledger.
#[derive(Clone, Debug)]
pub struct Ledger {
    sheet: Sheet,
    sheet_is_allowed: bool,
    checks: Checks,
    /// The journal list's length.
    places: usize,
    /// Hub kWh, by hour and unit.
    commitments: [[u64; UNITS]; HOURS],
    /// The kept record of each hour that stands.
    records: Vec<Option<Record>>,
    /// Energies and amounts of the kept records, 0 without one. No commitment
    /// changes while its hour stands, so they are worked out once a record.
    results: Vec<HourResult>,
    postings: Vec<Posting>,
}

impl Ledger {
    /// The empty ledger under a sheet, over a journal list of a length.
    pub fn new(sheet: Sheet, places: usize, checks: Checks) -> Ledger {
        Ledger {
            sheet_is_allowed: sheet.is_allowed(),
            sheet,
            checks,
            places,
            commitments: [[0; UNITS]; HOURS],
            records: vec![None; HOURS],
            results: vec![HourResult::default(); HOURS],
            postings: Vec::new(),
        }
    }

    pub fn sheet(&self) -> &Sheet {
        &self.sheet
    }

    pub fn places(&self) -> usize {
        self.places
    }

    /// Commitments by hour and unit, both counted from 0.
    pub fn commitments(&self) -> &[[u64; UNITS]; HOURS] {
        &self.commitments
    }

    /// The kept record of an hour counted from 0.
    pub fn record(&self, hour: usize) -> Option<&Record> {
        self.records[hour].as_ref()
    }

    /// Energies and amounts of an hour counted from 0.
    pub fn result(&self, hour: usize) -> &HourResult {
        &self.results[hour]
    }

    pub fn postings(&self) -> &[Posting] {
        &self.postings
    }

    /// Makes room in memory for postings to come.
    pub fn reserve(&mut self, postings: usize) {
        self.postings.reserve(postings);
    }

    /// Carries out a call.
    pub fn call(&mut self, call: &Call) -> Answer {
        let answer = match *call {
            Call::Take { hour, unit, kwh } => self.take(hour, unit, kwh).map(|()| Answer::Accepted),
            Call::Release { hour, unit, kwh } => {
                self.release(hour, unit, kwh).map(|()| Answer::Accepted)
            }
            Call::Move {
                hour,
                from,
                to,
                kwh,
            } => self
                .move_over(hour, from, to, kwh)
                .map(|()| Answer::Accepted),
            Call::Settle { text, start } => self.settle(text, start).map(Answer::posted_up_to),
            Call::Restate { text, start } => self.restate(text, start).map(Answer::posted_up_to),
            Call::Void { hour } => self.void(hour).map(|postings| Answer::Posted {
                postings,
                place: None,
            }),
            Call::Total { unit, item } => self.total(unit, item).map(Answer::Sum),
        };
        answer.unwrap_or_else(Answer::Refused)
    }

    /// 9 12 10 11 20 21 22.
    pub fn take(&mut self, hour: u64, unit: u64, kwh: u64) -> Result<(), Refusal> {
        self.check_state()?;
        let h = check_hour(hour)?;
        let u = self.check_unit(unit)?;
        self.check_open(h)?;
        check_kwh(kwh)?;
        self.check_room(h, u, kwh)?;
        self.commitments[h][u] += kwh;
        Ok(())
    }

    /// 9 12 10 11 20 21 23.
    pub fn release(&mut self, hour: u64, unit: u64, kwh: u64) -> Result<(), Refusal> {
        self.check_state()?;
        let h = check_hour(hour)?;
        let u = self.check_unit(unit)?;
        self.check_open(h)?;
        check_kwh(kwh)?;
        self.check_held(h, u, kwh)?;
        self.commitments[h][u] -= kwh;
        Ok(())
    }

    /// 9 12 10 11 24 20 21 23 22.
    pub fn move_over(&mut self, hour: u64, from: u64, to: u64, kwh: u64) -> Result<(), Refusal> {
        self.check_state()?;
        let h = check_hour(hour)?;
        let from = self.check_unit(from)?;
        let to = self.check_unit(to)?;
        if from == to {
            return Err(Refusal::plain(24));
        }
        self.check_open(h)?;
        check_kwh(kwh)?;
        self.check_held(h, from, kwh)?;
        self.check_room(h, to, kwh)?;
        self.commitments[h][from] -= kwh;
        self.commitments[h][to] += kwh;
        Ok(())
    }

    /// 9 12, the text, 31 40 32 33 42. Answers how many postings were
    /// appended and the text place after the record.
    pub fn settle(&mut self, text: &[u8], start: usize) -> Result<(usize, usize), Refusal> {
        self.keep_record(text, start, false)
    }

    /// 9 12, the text, 31 41 32 33 42. Answers as settle does.
    pub fn restate(&mut self, text: &[u8], start: usize) -> Result<(usize, usize), Refusal> {
        self.keep_record(text, start, true)
    }

    fn keep_record(
        &mut self,
        text: &[u8],
        start: usize,
        restating: bool,
    ) -> Result<(usize, usize), Refusal> {
        self.check_state()?;
        let (record, place) = Record::read(text, start, &self.sheet)?;
        if record.minutes_wrong(&self.sheet) {
            return Err(Refusal::plain(31));
        }
        let h = record.hour as usize - 1;
        let stands = self.records[h].is_some();
        if !restating && stands {
            return Err(Refusal::plain(40));
        }
        if restating && !stands {
            return Err(Refusal::plain(41));
        }
        if record.readings_wrong(&self.sheet) {
            return Err(Refusal::plain(32));
        }
        if record.proportions_wrong(&self.sheet) {
            return Err(Refusal::plain(33));
        }
        self.check_places()?;
        let result = items::settle(&self.sheet, &record, &self.commitments[h]);
        self.records[h] = Some(record);
        Ok((self.post(h, result), place))
    }

    /// 9 12 10 41 42. Answers how many postings were appended.
    pub fn void(&mut self, hour: u64) -> Result<usize, Refusal> {
        self.check_state()?;
        let h = check_hour(hour)?;
        if self.records[h].is_none() {
            return Err(Refusal::plain(41));
        }
        self.check_places()?;
        self.records[h] = None;
        Ok(self.post(h, HourResult::default()))
    }

    /// 9 12 11. The sum of the postings of a unit and item.
    pub fn total(&self, unit: u64, item: u64) -> Result<i64, Refusal> {
        self.check_state()?;
        self.check_unit(unit)?;
        if !(1..=ITEMS as u64).contains(&item) {
            return Err(Refusal::plain(11));
        }
        Ok(self
            .postings
            .iter()
            .filter(|posting| posting.unit == unit && posting.item == item)
            .map(|posting| posting.amount)
            .sum())
    }

    /// Posts an hour's new amounts less its old ones and puts the new ones in
    /// their place.
    fn post(&mut self, h: usize, new: HourResult) -> usize {
        let old = &mut self.results[h];
        for u in self.sheet.plant() {
            for item in 0..ITEMS {
                self.postings.push(Posting {
                    hour: h as u64 + 1,
                    unit: u as u64 + 1,
                    item: item as u64 + 1,
                    amount: new.amounts[u][item] - old.amounts[u][item],
                });
            }
        }
        *old = new;
        ITEMS * self.sheet.size()
    }

    /// Refusals 9 and 12.
    fn check_state(&self) -> Result<(), Refusal> {
        let sheet_is_allowed = match self.checks {
            Checks::Once => self.sheet_is_allowed,
            Checks::EveryCall => self.sheet.is_allowed(),
        };
        if !sheet_is_allowed {
            return Err(Refusal::plain(9));
        }
        if self.checks == Checks::EveryCall && self.state_is_wrong() {
            return Err(Refusal::plain(12));
        }
        Ok(())
    }

    /// The condition of refusal 12, read on the ledger. (An hour has a record
    /// or none, so its mark is always open or settled.)
    pub fn state_is_wrong(&self) -> bool {
        let commitment_wrong = |h: usize, u: usize| {
            let held = self.commitments[h][u];
            if self.sheet.has(u as u64 + 1) {
                held > self.sheet.units[u].offers[h].last()
            } else {
                held > 0
            }
        };
        let commitments_wrong = || (0..HOURS).any(|h| (0..UNITS).any(|u| commitment_wrong(h, u)));
        let count_wrong =
            || self.postings.len() > self.places || self.postings.len() > MOST_POSTINGS;
        let amounts_wrong = || {
            self.results.iter().any(|result| {
                result
                    .amounts
                    .iter()
                    .flatten()
                    .any(|amount| amount.unsigned_abs() > 100_000_000_000)
            })
        };
        let postings_wrong = || {
            self.postings
                .iter()
                .any(|posting| posting.amount.unsigned_abs() > 1_000_000_000_000)
        };
        let energies_wrong = || {
            self.results.iter().any(|result| {
                result
                    .energies
                    .iter()
                    .any(|&energy| energy > 80_000_000_000)
            })
        };
        commitments_wrong()
            || count_wrong()
            || amounts_wrong()
            || postings_wrong()
            || energies_wrong()
    }

    /// Refusal 11; the unit's index.
    fn check_unit(&self, unit: u64) -> Result<usize, Refusal> {
        if self.sheet.has(unit) {
            Ok(unit as usize - 1)
        } else {
            Err(Refusal::plain(11))
        }
    }

    /// Refusal 20.
    fn check_open(&self, h: usize) -> Result<(), Refusal> {
        refuse_if(self.records[h].is_some(), 20)
    }

    /// Refusal 23.
    fn check_held(&self, h: usize, u: usize, kwh: u64) -> Result<(), Refusal> {
        refuse_if(self.commitments[h][u] < kwh, 23)
    }

    /// Refusal 22.
    fn check_room(&self, h: usize, u: usize, kwh: u64) -> Result<(), Refusal> {
        let room = self.sheet.units[u].offers[h].last() - self.commitments[h][u];
        refuse_if(kwh > room, 22)
    }

    /// Refusal 42.
    fn check_places(&self) -> Result<(), Refusal> {
        let free = self.places.min(MOST_POSTINGS) - self.postings.len();
        refuse_if(free < ITEMS * self.sheet.size(), 42)
    }
}

impl Answer {
    fn posted_up_to((postings, place): (usize, usize)) -> Answer {
        Answer::Posted {
            postings,
            place: Some(place),
        }
    }
}

fn refuse_if(condition: bool, number: u8) -> Result<(), Refusal> {
    if condition {
        Err(Refusal::plain(number))
    } else {
        Ok(())
    }
}

/// Refusal 10; the hour's index.
fn check_hour(hour: u64) -> Result<usize, Refusal> {
    refuse_if(!(1..=HOURS as u64).contains(&hour), 10)?;
    Ok(hour as usize - 1)
}

/// Refusal 21.
fn check_kwh(kwh: u64) -> Result<(), Refusal> {
    refuse_if(kwh == 0, 21)
}

/// A call in plain numbers; texts are parts of one text that the list of calls
/// shares. Kinds 1 to 6 are take, release, move, settle, restate, void. Another
/// number is a void of hour 0, which is always refused: a wrong number never
/// reopens the hour beside it.
#[derive(Clone, Copy, Debug, Default, PartialEq, Eq)]
pub struct Group {
    pub kind: u64,
    pub hour: u64,
    /// The unit, for a move the one that gives.
    pub unit: u64,
    /// For a move, the unit that gets.
    pub to: u64,
    pub kwh: u64,
    /// Begin and end of the record's text in the shared text, both clipped to
    /// it; empty where the end is not behind the begin.
    pub begin: u64,
    pub end: u64,
    /// The start of the record inside its text.
    pub start: u64,
}

impl Group {
    /// The record's text.
    pub fn part<'t>(&self, shared: &'t [u8]) -> &'t [u8] {
        let length = shared.len() as u64;
        let begin = self.begin.min(length);
        let end = self.end.min(length).max(begin);
        &shared[begin as usize..end as usize]
    }

    /// The call that the group means.
    pub fn call<'t>(&self, shared: &'t [u8]) -> Call<'t> {
        let text = || self.part(shared);
        let start = usize::try_from(self.start).unwrap_or(usize::MAX);
        let Group {
            hour, unit, kwh, ..
        } = *self;
        match self.kind {
            1 => Call::Take { hour, unit, kwh },
            2 => Call::Release { hour, unit, kwh },
            3 => Call::Move {
                hour,
                from: unit,
                to: self.to,
                kwh,
            },
            4 => Call::Settle {
                text: text(),
                start,
            },
            5 => Call::Restate {
                text: text(),
                start,
            },
            6 => Call::Void { hour },
            _ => Call::Void { hour: 0 },
        }
    }
}

/// Carries out a list of calls on the empty ledger; gives the answers and the
/// ledger they lead to.
pub fn run(
    sheet: Sheet,
    places: usize,
    groups: &[Group],
    shared: &[u8],
    checks: Checks,
) -> (Vec<Answer>, Ledger) {
    let mut ledger = Ledger::new(sheet, places, checks);
    let answers = groups
        .iter()
        .map(|group| ledger.call(&group.call(shared)))
        .collect();
    (answers, ledger)
}
