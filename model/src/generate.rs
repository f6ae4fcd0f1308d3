//! Random days and lists of calls: valid, at the bounds, and damaged.
//!
//! Each is made from a generator alone, so that a case can be made again from
//! a seed and a number (`Random::for_case`).

use crate::damage::damage;
use crate::ledger::Group;
use crate::random::Random;
use crate::record::{Record, Span, Spans, UnitRecord, KINDS, LAST_KIND, MOST_NET, SPANS};
use crate::sheet::{days_in, Offer, Sheet, Step, UnitSheet, MOST_KWH, MOST_PRICE};
use crate::text::{put_number, LARGEST_TEXT};
use crate::{HOURS, ITEMS, UNITS};

/// A text for `statement`.
pub fn day(random: &mut Random) -> Vec<u8> {
    let mut maker = Maker::new(random, None);
    let mut text = maker.sheet_text();
    let sheet_end = text.len();
    maker.day_lines(&mut text);
    if maker.random.one_in(400) {
        let size = about_largest(maker.random);
        maker.pad_with_takes(&mut text, size);
    }
    damage_some(random, &mut text, sheet_end, 30);
    text
}

/// A text for `replay`: a sheet and 1 to 60 calls.
pub fn call_text(random: &mut Random) -> Vec<u8> {
    // Over 2,000 places, only many postings of many units fill the list.
    let filler = random.percent(4);
    let mut maker = Maker::new(random, filler.then_some(8));
    let mut text = maker.sheet_text();
    let sheet_end = text.len();
    let mut records = Vec::new();
    for _ in 0..maker.number_of_calls(filler) {
        records.clear();
        let made = maker.call(&mut records, filler, true);
        put_call(&mut text, &made);
        text.extend_from_slice(&records);
    }
    if random.one_in(400) {
        // A record that is refused and skipped.
        let size = about_largest(random);
        text.extend_from_slice(b"settle=\n");
        text.resize(size.max(text.len() + 9) - 9, *random.pick(b"\nx"));
        text.extend_from_slice(b"\nend=hour\n");
    }
    damage_some(random, &mut text, sheet_end, 20);
    text
}

/// A list of calls in plain numbers over a journal list of some length.
#[derive(Clone, Debug)]
pub struct CallList {
    /// The day sheet's text.
    pub sheet: Vec<u8>,
    /// The text that the records lie in.
    pub text: Vec<u8>,
    pub groups: Vec<Group>,
    /// The journal list's length.
    pub places: usize,
}

/// 1 to 60 calls, over a short journal list often.
pub fn call_list(random: &mut Random) -> CallList {
    let mut maker = Maker::new(random, None);
    let sheet = {
        let mut text = maker.sheet_text();
        if maker.random.percent(2) {
            damage(maker.random, &mut text, 0);
        }
        text
    };
    let mut text = Vec::new();
    let mut groups: Vec<Group> = Vec::new();
    for _ in 0..maker.number_of_calls(false) {
        let mut group = maker.call(&mut text, false, false);
        let is_record = |group: &Group| group.kind == 4 || group.kind == 5;
        if is_record(&group) && maker.random.percent(25) {
            // A record that an earlier call named.
            let earlier: Vec<&Group> = groups.iter().filter(|group| is_record(group)).collect();
            if !earlier.is_empty() {
                group = Group {
                    kind: group.kind,
                    ..**maker.random.pick(&earlier)
                };
            }
        }
        groups.push(group);
    }
    let size = maker.sheet.size();
    let places = list_length(random, size);
    if random.one_in(200) {
        // Room for a part over the largest size.
        text.resize(LARGEST_TEXT + 10, b'\n');
    }
    let length = text.len() as u64;
    for group in &mut groups {
        match group.kind {
            4 | 5 => other_part(random, group, length),
            // A number that is no kind, beside an hour that may stand.
            6 if random.percent(10) => group.kind = *random.pick(&[0, 7, 256 + 6, u64::MAX]),
            _ => {}
        }
        if random.percent(3) {
            let any = *random.pick(&[1 << 32, (1 << 32) + 1, 1 << 63, u64::MAX, u64::MAX - 1, 257]);
            match random.below(4) {
                0 => group.hour = any,
                1 => group.unit = any,
                2 => group.to = any,
                _ => group.kwh = any,
            }
        }
    }
    CallList {
        sheet,
        text,
        groups,
        places,
    }
}

/// Some 2,500 calls that fill the longest journal.
pub fn long_list(random: &mut Random) -> CallList {
    let mut maker = Maker::new(random, Some(8));
    let sheet = maker.sheet_text();
    let mut text = Vec::new();
    let mut parts = Vec::new();
    for hour in 1..=4 {
        let record = maker.record(hour, Fault::None);
        let begin = text.len() as u64;
        maker.put_record(&mut text, &record);
        parts.push((hour as u64, begin, text.len() as u64));
    }
    let mut stands = [false; HOURS];
    let groups = (0..2_600)
        .map(|_| {
            let (hour, begin, end) = *random.pick(&parts);
            let stands = &mut stands[hour as usize];
            let kind = match (*stands, random.percent(20)) {
                (false, _) => 4,
                (true, false) => 5,
                (true, true) => 6,
            };
            *stands = kind != 6;
            Group {
                kind,
                hour,
                begin,
                end,
                ..Group::default()
            }
        })
        .collect();
    let places = *random.pick(&[99_999, 100_000, 100_001, 100_039, 100_040, 200_000, 80_000]);
    CallList {
        sheet,
        text,
        groups,
        places,
    }
}

/// A length of the journal list for a plant of `size` units.
fn list_length(random: &mut Random, size: usize) -> usize {
    let group = ITEMS * size;
    match random.below(10) {
        0 => random.below(group as u64) as usize,
        1..=4 => {
            let groups = random.range(1, 6) as usize;
            let off = *random.pick(&[0, 0, 1, group - 1]);
            groups * group + off
        }
        5 => random.below(200) as usize,
        6..=8 => 2_000,
        _ => *random.pick(&[100_000, 100_001, 100_039, 100_040, 1_000_000]),
    }
}

/// Names the text of a record in other ways, right and wrong ones.
fn other_part(random: &mut Random, group: &mut Group, length: u64) {
    let (begin, end) = (group.begin, group.end);
    match random.below(100) {
        0..=39 => {}
        // The whole text, and the record's place in it.
        40..=59 => (group.begin, group.end, group.start) = (0, length, begin),
        60..=69 => (group.end, group.start) = (u64::MAX, 0),
        70..=79 => {
            // Some bytes before it.
            let before = random.range(0, begin);
            (group.begin, group.start) = (before, begin - before);
        }
        // The record's text has an end too early.
        80..=84 => group.end = random.range(begin, end),
        85..=87 => group.end = end - 1,
        // A start at, past, or beside its place.
        88..=89 => group.start = end - begin,
        90..=91 => group.start = end - begin + 1,
        92 => group.start = *random.pick(&[u64::MAX, 1 << 32, 65_536, 65_537]),
        93..=94 => group.start = random.range(0, end - begin),
        // Nothing at all.
        95 => (group.begin, group.end) = (u64::MAX, u64::MAX),
        96 => group.end = begin,
        97 => (group.begin, group.end) = (end, begin),
        _ => group.begin = random.range(0, end),
    }
}

/// Damages a text in `percent` of 100 cases, sheet and the rest alike.
fn damage_some(random: &mut Random, text: &mut Vec<u8>, sheet_end: usize, percent: u64) {
    if !random.percent(percent) {
        return;
    }
    loop {
        let from = if random.percent(40) {
            0
        } else {
            sheet_end.min(text.len())
        };
        damage(random, text, from);
        if !random.percent(15) {
            return;
        }
    }
}

/// A size of a text at or near the largest.
fn about_largest(random: &mut Random) -> usize {
    *random.pick(&[65_535, 65_536, 65_536, 65_537, 65_600])
}

/// How large the values of a case are.
#[derive(Clone, Copy, Debug)]
enum Scale {
    /// A few kWh, prices of a few Rial: remainders and equal prices matter.
    Tiny,
    /// As in a real plant.
    Usual,
    /// Mostly the ends of the ranges.
    Edge,
    /// Any number of digits.
    Wide,
}

impl Scale {
    fn any(random: &mut Random) -> Scale {
        match random.weighted(&[25, 40, 15, 20]) {
            0 => Scale::Tiny,
            1 => Scale::Usual,
            2 => Scale::Edge,
            _ => Scale::Wide,
        }
    }
}

/// A value from `least` to `most`, on the usual scale near `usual`.
fn value(random: &mut Random, scale: Scale, least: u64, most: u64, usual: u64) -> u64 {
    let scale = if random.percent(8) {
        Scale::any(random)
    } else {
        scale
    };
    let value = match scale {
        Scale::Tiny => least + random.below(8),
        Scale::Usual => {
            let value = usual / 2 + random.below(usual + 1);
            if random.percent(40) {
                value - value % 1_000
            } else {
                value
            }
        }
        Scale::Edge => match random.below(5) {
            0 => least,
            1 => least + 1,
            2 => most - 1,
            3 => most,
            _ => random.range(least, most),
        },
        Scale::Wide => {
            let bits = random.below(65 - u64::from(most.leading_zeros()));
            least + random.below(1 << bits)
        }
    };
    value.clamp(least, most)
}

/// What is wrong with a record whose lines are well formed.
#[derive(Clone, Copy, PartialEq, Eq)]
enum Fault {
    None,
    /// A span's kind is out of its range.
    Kind,
    Minutes,
    Readings,
    Proportions,
}

/// Makes the lines of one case and keeps a rough account of the state that
/// they lead to, so that bounds are met often.
struct Maker<'r> {
    random: &'r mut Random,
    scale: Scale,
    sheet: Sheet,
    held: [[u64; UNITS]; HOURS],
    stands: [bool; HOURS],
    /// Hours (from 1) that most calls are about.
    pool: Vec<usize>,
    /// Records as short as they get.
    compact: bool,
}

impl Maker<'_> {
    fn new(random: &mut Random, units: Option<u64>) -> Maker<'_> {
        let scale = Scale::any(random);
        let sheet = sheet(random, scale, units);
        let size = *random.pick(&[1, 2, 2, 3, 4, 4, 6, 8, HOURS]);
        let pool = hours(random)[..size].to_vec();
        Maker {
            compact: units.is_some() || random.percent(15),
            random,
            scale,
            sheet,
            held: [[0; UNITS]; HOURS],
            stands: [false; HOURS],
            pool,
        }
    }

    fn sheet_text(&mut self) -> Vec<u8> {
        let mut text = Vec::new();
        if self.random.percent(1) {
            // A date that there is not, or the last one that there is.
            let (month, day) = *self.random.pick(&[
                (0, 1),
                (1, 0),
                (6, 31),
                (6, 32),
                (7, 30),
                (7, 31),
                (12, 30),
                (12, 31),
                (13, 1),
                (self.sheet.month, days_in(self.sheet.month) + 1),
            ]);
            let mut sheet = self.sheet.clone();
            (sheet.month, sheet.day) = (month, day);
            put_sheet(&mut text, &sheet);
        } else {
            put_sheet(&mut text, &self.sheet);
        }
        text
    }

    // ---- days

    /// Takes and records of a day, with at most one fault.
    fn day_lines(&mut self, text: &mut Vec<u8>) {
        let records = match self.random.below(100) {
            0..=4 => 0,
            5..=49 => self.random.range(1, 3),
            50..=84 => self.random.range(2, 8),
            _ => self.random.range(6, 24),
        } as usize;
        let hours = hours(self.random);
        let faulty = self
            .random
            .percent(35)
            .then(|| self.random.below(records as u64 + 1) as usize);
        for i in 0..records {
            for _ in 0..*self.random.pick(&[0, 0, 1, 1, 2, 4]) {
                let hour = hours[i + self.random.below(records as u64 - i as u64) as usize];
                self.good_take(text, hour);
            }
            if faulty == Some(i) {
                self.faulty_line(text, hours[i]);
            }
            let record = self.record(hours[i], Fault::None);
            self.put_record(text, &record);
            self.stands[hours[i] - 1] = true;
        }
        for _ in 0..*self.random.pick(&[0, 0, 0, 1, 2]) {
            if records < HOURS {
                self.good_take(text, hours[HOURS - 1]);
            }
        }
        if faulty == Some(records) {
            self.faulty_line(text, hours[HOURS - 1]);
        }
    }

    /// A take for an open hour that is accepted, where there is room.
    fn good_take(&mut self, text: &mut Vec<u8>, hour: usize) {
        let unit = self.unit();
        let room = self.room(hour, unit);
        if room > 0 {
            let kwh = self.kwh_up_to(room);
            self.held[hour - 1][unit as usize - 1] += kwh;
            put_words(text, "take=", &[hour as u64, unit, kwh]);
        }
    }

    /// Lengthens a day's text to a size exactly, where it is at least 11
    /// bytes shorter, with takes for hours that are open.
    fn pad_with_takes(&mut self, text: &mut Vec<u8>, size: usize) {
        let mut places = Vec::new();
        for hour in (1..=HOURS).filter(|&hour| !self.stands[hour - 1]) {
            for u in self.sheet.plant() {
                places.push((hour, u as u64 + 1));
            }
        }
        // Where there is little room everywhere, a take is refused at last.
        let roomy = |&(hour, unit): &(usize, u64)| self.room(hour, unit) > 1_000;
        if places.iter().any(roomy) {
            places.retain(roomy);
        }
        for &(hour, unit) in places.iter().cycle() {
            let left = size.saturating_sub(text.len());
            let shortest = 11 + usize::from(hour > 9);
            // The number of digits leaves nothing, or what later lines fill.
            let digits = (1..=9).find(|digits| {
                let rest = (left + 1).checked_sub(shortest + digits);
                rest.is_some_and(|rest| rest == 0 || (12..=19).contains(&rest) || rest >= 24)
            });
            let Some(digits) = digits else {
                return;
            };
            let kwh = 10u64.pow(digits as u32 - 1);
            put_words(text, "take=", &[hour as u64, unit, kwh]);
        }
    }

    /// One line or record that is refused, for an hour that is open.
    fn faulty_line(&mut self, text: &mut Vec<u8>, hour: usize) {
        let h = hour as u64;
        let unit = self.unit();
        let fault = match self.random.below(13) {
            0 => {
                let hour = self.wrong_hour();
                return put_words(text, "take=", &[hour, unit, 1]);
            }
            1 => {
                let unit = self.wrong_unit();
                return put_words(text, "take=", &[h, unit, 1]);
            }
            2 => return put_words(text, "take=", &[h, unit, 0]),
            3 | 4 => {
                let over = *self.random.pick(&[1, 1, 2, 1_000_000]);
                let kwh = self.room(hour, unit) + over;
                return put_words(text, "take=", &[h, unit, kwh]);
            }
            5 | 6 => return self.line_for_standing(text, unit),
            7 => {
                let line = *self.random.pick(&WRONG_LINES);
                return text.extend_from_slice(line);
            }
            8 => Fault::Minutes,
            9 | 10 => Fault::Readings,
            11 => Fault::Kind,
            _ => Fault::Proportions,
        };
        let record = self.record(hour, fault);
        self.put_record(text, &record);
    }

    /// For an hour that stands, if there is one: its record again, or a take.
    fn line_for_standing(&mut self, text: &mut Vec<u8>, unit: u64) {
        let standing: Vec<usize> = (1..=HOURS).filter(|&hour| self.stands[hour - 1]).collect();
        if standing.is_empty() {
            return;
        }
        let hour = *self.random.pick(&standing);
        if self.random.percent(50) {
            let kwh = *self.random.pick(&[0, 1, 999_999_999]);
            return put_words(text, "take=", &[hour as u64, unit, kwh]);
        }
        let faults = [Fault::None, Fault::None, Fault::Readings, Fault::Minutes];
        let fault = *self.random.pick(&faults);
        let record = self.record(hour, fault);
        self.put_record(text, &record);
    }

    // ---- calls

    fn number_of_calls(&mut self, filler: bool) -> u64 {
        if filler {
            return 60;
        }
        match self.random.below(10) {
            0..=3 => self.random.range(1, 10),
            4..=7 => self.random.range(5, 30),
            _ => self.random.range(20, 60),
        }
    }

    /// A call; a record's text is appended to `text`. Kind 7 is a total, whose
    /// item is in `to`.
    fn call(&mut self, text: &mut Vec<u8>, filler: bool, with_total: bool) -> Group {
        let weights = if filler {
            [1, 0, 0, 30, 20, 20, 0]
        } else {
            [20, 12, 14, 18, 12, 9, if with_total { 8 } else { 0 }]
        };
        let mut kind = self.random.weighted(&weights) as u64 + 1;
        // Most calls find something to do.
        if filler || self.random.percent(70) {
            let stands = |&hour: &usize| self.stands[hour - 1];
            let holds = |&hour: &usize| self.held[hour - 1] != [0; UNITS];
            kind = match kind {
                2 | 3 if !self.pool.iter().any(holds) => 1,
                3 if self.sheet.size() == 1 => 2,
                4 if self.pool.iter().all(stands) => 5,
                5 | 6 if !self.pool.iter().any(stands) => 4,
                kind => kind,
            };
        }
        let unit = self.any_unit();
        let mut group = Group {
            kind,
            unit,
            ..Group::default()
        };
        match kind {
            1..=3 => self.commitment_call(&mut group),
            4 | 5 => {
                let hour = self.hour_that(kind == 5, 85);
                let fault = self.some_fault(filler);
                let record = self.record(hour, fault);
                let begin = text.len();
                self.put_record(text, &record);
                if !filler && self.random.percent(4) {
                    damage(self.random, text, begin);
                } else if fault == Fault::None {
                    self.stands[hour - 1] = true;
                }
                group.hour = hour as u64;
                group.begin = begin as u64;
                group.end = text.len() as u64;
            }
            6 => {
                let hour = self.hour_that(true, 85);
                group.hour = hour as u64;
                if !filler && self.random.percent(8) {
                    group.hour = self.wrong_hour();
                } else {
                    self.stands[hour - 1] = false;
                }
            }
            _ => {
                group.to = if self.random.percent(10) {
                    *self.random.pick(&[0, 6, 7, 999_999_999])
                } else {
                    self.random.range(1, 5)
                }
            }
        }
        group
    }

    /// What is wrong with the record of a call; nothing most of the time.
    fn some_fault(&mut self, filler: bool) -> Fault {
        match self.random.below(if filler { 1_000 } else { 100 }) {
            0..=2 => Fault::Minutes,
            3..=6 => Fault::Readings,
            7..=9 => Fault::Proportions,
            10 => Fault::Kind,
            _ => Fault::None,
        }
    }

    /// Hour, units and kWh of a take, release or move.
    fn commitment_call(&mut self, group: &mut Group) {
        let hour = self.hour_that(false, 90);
        group.hour = hour as u64;
        if group.kind != 1 && self.random.percent(70) {
            // A unit that holds something.
            let first = self.random.below(UNITS as u64);
            let units = (0..UNITS as u64).map(|i| (first + i) % UNITS as u64 + 1);
            let holds = |&unit: &u64| self.held[hour - 1][unit as usize - 1] > 0;
            group.unit = units.clone().find(holds).unwrap_or(group.unit);
        }
        group.to = if self.random.percent(5) {
            group.unit
        } else {
            self.any_unit()
        };
        let inside = self.sheet.has(group.unit) && (group.kind != 3 || self.sheet.has(group.to));
        let held = |maker: &Maker, unit: u64| maker.held[hour - 1][unit as usize - 1];
        let most = if !inside {
            1
        } else {
            match group.kind {
                1 => self.room(hour, group.unit),
                2 => held(self, group.unit),
                _ => held(self, group.unit).min(self.room(hour, group.to)),
            }
        };
        let kwh = match self.random.below(20) {
            0 => 0,
            1..=3 => most + 1,
            4 => *self.random.pick(&[1, 1_000_000, 1_000_001, 999_999_999]),
            5..=8 => most,
            _ => {
                // A take leaves some room for later ones most of the time.
                let most = if group.kind == 1 && self.random.percent(60) {
                    most / 3
                } else {
                    most
                };
                self.kwh_up_to(most.max(1))
            }
        };
        group.kwh = kwh;
        if self.random.percent(4) {
            group.hour = self.wrong_hour();
        } else if inside && kwh <= most && !self.stands[hour - 1] {
            let held = &mut self.held[hour - 1];
            match group.kind {
                1 => held[group.unit as usize - 1] += kwh,
                2 => held[group.unit as usize - 1] -= kwh,
                _ if group.unit != group.to => {
                    held[group.unit as usize - 1] -= kwh;
                    held[group.to as usize - 1] += kwh;
                }
                _ => {}
            }
        }
    }

    /// An hour of the pool that stands or is open, in `percent` of 100 cases
    /// where there is one; otherwise any of the pool.
    fn hour_that(&mut self, stands: bool, percent: u64) -> usize {
        if self.random.percent(percent) {
            let first = self.random.below(self.pool.len() as u64) as usize;
            let pool = self.pool[first..].iter().chain(&self.pool[..first]);
            for &hour in pool {
                if self.stands[hour - 1] == stands {
                    return hour;
                }
            }
        }
        *self.random.pick(&self.pool)
    }

    // ---- arguments

    /// A unit of the plant.
    fn unit(&mut self) -> u64 {
        let at = self.random.below(self.sheet.size() as u64) as usize;
        self.sheet.plant().nth(at).unwrap() as u64 + 1
    }

    /// Mostly a unit of the plant.
    fn any_unit(&mut self) -> u64 {
        if self.random.percent(4) {
            self.wrong_unit()
        } else {
            self.unit()
        }
    }

    fn wrong_unit(&mut self) -> u64 {
        let gap = self.random.range(1, 8);
        if !self.sheet.has(gap) && self.random.percent(70) {
            gap
        } else {
            *self
                .random
                .pick(&[0, 9, 10, 33, 64, 65, 256, 257, 999_999_999])
        }
    }

    fn wrong_hour(&mut self) -> u64 {
        *self
            .random
            .pick(&[0, 25, 25, 26, 33, 256, 257, 999_999_999])
    }

    /// How much more a unit of the plant takes in an hour.
    fn room(&self, hour: usize, unit: u64) -> u64 {
        let u = unit as usize - 1;
        self.sheet.units[u].offers[hour - 1].last() - self.held[hour - 1][u]
    }

    /// 1 to `most` kWh.
    fn kwh_up_to(&mut self, most: u64) -> u64 {
        match self.random.below(4) {
            0 => 1,
            1 => most,
            2 => value(self.random, self.scale, 1, most, most / 2),
            _ => self.random.range(1, most),
        }
    }

    // ---- records

    /// A record for an hour (from 1).
    fn record(&mut self, hour: usize, fault: Fault) -> Record {
        let mut record = Record {
            hour: hour as u64,
            net: 0,
            reverse: 0,
            units: [UnitRecord::default(); UNITS],
        };
        let members: Vec<usize> = self.sheet.plant().collect();
        let nothing_real = self.random.percent(8);
        for &u in &members {
            record.units[u] = self.unit_record(u);
            if nothing_real {
                record.units[u].real = 0;
            }
        }
        self.energies(&mut record, &members);
        if self.random.percent(12) {
            self.near_tolerance(&mut record, &members);
        }
        if self.random.percent(12) {
            self.kind_8_decides(&mut record, &members);
        }
        for &u in &members {
            let unit = &mut record.units[u];
            if unit.deviation > 0 && unit.proportions(&self.sheet.units[u]) == [0; KINDS] {
                unit.deviation = 0;
            }
        }
        if fault != Fault::None && self.random.percent(20) {
            // Another one besides: which is found first?
            let faults = [Fault::Minutes, Fault::Readings, Fault::Proportions];
            let other = *self.random.pick(&faults);
            self.put_fault(&mut record, &members, other);
        }
        self.put_fault(&mut record, &members, fault);
        record
    }

    fn unit_record(&mut self, u: usize) -> UnitRecord {
        let monthly = self.sheet.units[u].monthly;
        let random = &mut *self.random;
        let scale = self.scale;
        let mut kwh = |blank: u64, blank_percent: u64| {
            if random.percent(blank_percent) {
                blank
            } else {
                value(random, scale, 0, MOST_KWH, monthly)
            }
        };
        let declared = kwh(monthly, 40);
        let real = kwh(0, 10);
        let test = kwh(0, 20);
        let power = kwh(monthly, 40);
        let random = &mut *self.random;
        let deviation = match random.below(10) {
            0..=3 => 0,
            4..=6 => test.saturating_sub(real),
            7 => random.range(1_998, 2_003),
            _ => value(random, scale, 0, MOST_KWH, 10_000),
        };
        let since = match random.below(4) {
            0..=1 => 1,
            2 => *random.pick(&[2, 3, 24, 25, 26, 744]),
            _ => random.range(1, 744),
        };
        UnitRecord {
            declared,
            real,
            test,
            deviation,
            power,
            reading: None,
            since,
            repair: u64::from(random.percent(20)),
            spans: self.spans(u, declared, test),
        }
    }

    fn spans(&mut self, u: usize, declared: u64, test: u64) -> Spans {
        let random = &mut *self.random;
        if random.percent(35) {
            return Spans::whole_hour(declared);
        }
        let count = *random.pick(&[1, 1, 2, 2, 3, 4, 5, 6]);
        let mut spans = Spans::default();
        let mut left = 60;
        for i in 0..count {
            let others = count - 1 - i;
            let minutes = if others == 0 {
                left
            } else {
                random.range(1, (left - others).min(2 * left / (others + 1)))
            };
            left -= minutes;
            let own = self.sheet.units[u].own;
            let capability = match random.below(5) {
                // Gross of about the criterion.
                0 => test * 10_000 / (10_000 - own) + random.below(3),
                1 => 0,
                2 => declared,
                _ => value(random, self.scale, 0, MOST_KWH, test / 2),
            };
            spans.push(Span {
                minutes,
                kind: *random.pick(&[1, 2, 2, 3, 3, 4, 5, 6, 6, 7, 8, 8]),
                cause: *random.pick(&[0, 0, 0, 1, 2]),
                capability: capability.min(MOST_KWH),
            });
        }
        spans
    }

    /// Readings, net and reverse that go together.
    fn energies(&mut self, record: &mut Record, members: &[usize]) {
        let random = &mut *self.random;
        let scale = self.scale;
        let real: u64 = members.iter().map(|&u| record.units[u].real).sum();
        let measured = random.below(100);
        let mut total = 0;
        let mut blank = measured < 35;
        if measured >= 35 {
            for &u in members {
                if measured >= 65 && random.percent(50) {
                    blank = true;
                    continue;
                }
                let reading = match random.below(3) {
                    0 => record.units[u].real,
                    _ => value(random, scale, 0, MOST_KWH, record.units[u].real),
                };
                record.units[u].reading = Some(reading);
                total += reading;
            }
        }
        record.net = if !blank {
            total
        } else {
            let net = match random.below(12) {
                0 => 0,
                1 => real,
                2 => real + 1,
                3 => real.saturating_sub(1),
                4..=7 => random.range(0, real),
                8..=9 => random.range(real, 2 * real + 3),
                10 => total,
                _ => value(random, scale, 0, MOST_NET, real),
            };
            net.clamp(total, MOST_NET)
        };
        let net = record.net;
        record.reverse = match random.below(20) {
            0 => net,
            1..=2 => random.range(0, net),
            3 => (net + 1).min(MOST_NET),
            4..=5 => (net + value(random, scale, 0, MOST_NET, 5_000)).min(MOST_NET),
            6 => value(random, scale, 0, MOST_NET, 1_000),
            _ => 0,
        };
        if random.percent(10) && !members.is_empty() {
            // Real capability of about what was sent.
            let u = *random.pick(members);
            let others = real - record.units[u].real;
            let sent = net.saturating_sub(record.reverse);
            let wanted = (sent + random.below(3)).saturating_sub(others + 1);
            record.units[u].real = wanted.min(MOST_KWH);
        }
    }

    /// A counted deviation of about a twentieth of the unit's energy.
    fn near_tolerance(&mut self, record: &mut Record, members: &[usize]) {
        let random = &mut *self.random;
        let u = *random.pick(members);
        let q = *random.pick(&[1, 2, 100, 1_999, 2_000, 2_001]);
        let unit = &mut record.units[u];
        unit.test = unit.test.max(1);
        unit.deviation = q;
        let kinds = [(2, 0), (3, 0), (6, 0), (8, 0), (8, 1), (8, 2)];
        let (kind, cause) = *random.pick(&kinds);
        unit.spans = Spans::default();
        unit.spans.push(Span {
            minutes: 60,
            kind,
            cause,
            capability: 0,
        });
        let energy = (20 * q + random.below(3)).saturating_sub(1);
        let alone = members.len() == 1;
        let old = unit.reading;
        if old.is_some() || (!alone && random.percent(50)) {
            unit.reading = Some(energy);
            let total = members
                .iter()
                .filter_map(|&u| record.units[u].reading)
                .sum();
            let blank = members.iter().any(|&u| record.units[u].reading.is_none());
            record.net = if blank { record.net.max(total) } else { total };
        } else if alone {
            // All the plant's energy is the unit's.
            record.net = energy;
            record.reverse = 0;
        }
    }

    /// Spans of a unit in which kind 8 decides.
    fn kind_8_decides(&mut self, record: &mut Record, members: &[usize]) {
        let u = *self.random.pick(members);
        let unit = &mut record.units[u];
        unit.test = unit.test.max(1);
        if self.random.percent(30) {
            unit.deviation = unit.deviation.max(1);
            only_kind_8_lacks(self.random, &self.sheet.units[u], unit);
        } else {
            unit.deviation = match self.random.below(3) {
                0 => self.random.range(1, 12),
                // d8 of about 2,000 where two or three kinds tie.
                1 => *self.random.pick(&[4_001, 4_003, 6_001, 6_002]),
                _ => self.random.range(1, MOST_KWH),
            };
            kind_8_ties(self.random, unit);
        }
    }

    fn put_fault(&mut self, record: &mut Record, members: &[usize], fault: Fault) {
        let random = &mut *self.random;
        let u = *random.pick(members);
        let unit = &mut record.units[u];
        match fault {
            Fault::None => {}
            Fault::Kind => {
                let at = random.below(unit.spans.count as u64) as usize;
                let wrong = [0, LAST_KIND + 1, LAST_KIND + 1, 10, 18, 80];
                unit.spans.list[at].kind = *random.pick(&wrong);
            }
            Fault::Minutes => put_wrong_minutes(random, &mut unit.spans),
            Fault::Readings => put_wrong_readings(random, record, members, u),
            Fault::Proportions => put_no_proportions(random, &self.sheet.units[u], unit),
        }
    }

    /// Appends a record's text; what a blank stands for is blank often.
    fn put_record(&mut self, out: &mut Vec<u8>, record: &Record) {
        let compact = self.compact;
        let random = &mut *self.random;
        put_record(out, &self.sheet, record, || compact || random.percent(60));
    }
}

/// Lines that are no part of a day.
const WRONG_LINES: [&[u8]; 18] = [
    b"take=1:1\n",
    b"take=1:1:1:1\n",
    b"take=\n",
    b"take=1:1:\n",
    b"take=1:1:1000000000\n",
    b"take=0000000001:1:1\n",
    b"take=1:01:1\n",
    b"take=1:1:1\r\n",
    b"take=1:1: 1\n",
    b"release=1:1:1\n",
    b"Take=1:1:1\n",
    b"take:1:1:1\n",
    b"\n",
    b"end=day\n",
    b"net=1\n",
    b"=\n",
    b"hour=\n",
    b"hour\n",
];

/// The least gross kWh whose net is no less than that.
fn gross_of(unit: &UnitSheet, net: u64) -> u64 {
    (net * 10_000).div_ceil(10_000 - unit.own)
}

/// Two spans, one of kind 8 that lacks something, one that has no proportion.
fn only_kind_8_lacks(random: &mut Random, sheet: &UnitSheet, unit: &mut UnitRecord) {
    let minutes = random.range(1, 59);
    let enough = gross_of(sheet, unit.test);
    let lacking = Span {
        minutes,
        kind: 8,
        cause: random.below(3),
        capability: random.below(unit.test),
    };
    let other = Span {
        minutes: 60 - minutes,
        // Kind 1 is no part of the split.
        kind: if enough > MOST_KWH {
            1
        } else {
            random.range(1, LAST_KIND)
        },
        cause: random.below(3),
        capability: enough.min(MOST_KWH),
    };
    let mut two = [lacking, other];
    two.rotate_left(random.below(2) as usize);
    unit.spans = Spans::default();
    two.into_iter().for_each(|span| unit.spans.push(span));
}

/// Spans of one length and one capability, so that kinds tie: one of kind 8,
/// one that counts as 7 most of the time, others of any kind.
fn kind_8_ties(random: &mut Random, unit: &mut UnitRecord) {
    let lower = [(7, 0), (7, 1), (7, 2), (2, 1), (3, 1), (2, 0), (5, 0)];
    // Each of these counts divides 60.
    let count = *random.pick(&[2, 2, 3, 4, 5, SPANS]);
    let capability = random.below(unit.test);
    let mut kinds = [(0, 0); SPANS];
    for kind in &mut kinds {
        *kind = (random.range(1, LAST_KIND), random.below(3));
    }
    kinds[0] = (8, random.below(3));
    kinds[1] = *random.pick(&lower);
    kinds[..count].rotate_left(random.below(count as u64) as usize);
    unit.spans = Spans::default();
    for &(kind, cause) in &kinds[..count] {
        unit.spans.push(Span {
            minutes: 60 / count as u64,
            kind,
            cause,
            capability,
        });
    }
}

/// Spans whose minutes are not 60 in all.
fn put_wrong_minutes(random: &mut Random, spans: &mut Spans) {
    let at = random.below(spans.count as u64) as usize;
    let span = &mut spans.list[at];
    let other = match random.below(3) {
        0 => span.minutes - 1,
        1 => span.minutes + 1,
        _ => random.range(1, 60),
    };
    span.minutes = other.clamp(1, 60);
    if spans.minutes() == 60 {
        let first = &mut spans.list[0].minutes;
        *first = if *first == 60 { 59 } else { *first + 1 };
    }
}

/// Readings that do not go with `net`.
fn put_wrong_readings(random: &mut Random, record: &mut Record, members: &[usize], u: usize) {
    let more = *random.pick(&[1, 1, 2, 1_000]);
    if random.percent(50) {
        // All measured and not `net`.
        let mut total = 0;
        for &u in members {
            let reading = record.units[u].reading.unwrap_or(0);
            record.units[u].reading = Some(reading);
            total += reading;
        }
        let less = random.percent(50) || total + more > MOST_NET;
        record.net = if less && total >= more {
            total - more
        } else {
            total + more
        };
    } else {
        // Too much in all.
        record.net = record.net.min(MOST_KWH - 1_000);
        record.units[u].reading = Some(record.net + more);
    }
}

/// A deviation and nothing to split it by.
fn put_no_proportions(random: &mut Random, sheet: &UnitSheet, unit: &mut UnitRecord) {
    unit.deviation = unit.deviation.max(1);
    match random.below(3) {
        0 => unit.test = 0,
        1 => unit.spans = Spans::whole_hour(unit.declared),
        _ => {
            let gross = gross_of(sheet, unit.test);
            for span in &mut unit.spans.list[..unit.spans.count] {
                span.capability = gross.min(MOST_KWH);
            }
            if unit.proportions(sheet) != [0; KINDS] {
                unit.test = 0;
            }
        }
    }
}

/// The hours 1 to 24 in random order.
fn hours(random: &mut Random) -> [usize; HOURS] {
    let mut hours = [0; HOURS];
    for i in 0..HOURS {
        let j = random.below(i as u64 + 1) as usize;
        hours[i] = hours[j];
        hours[j] = i + 1;
    }
    hours
}

// ---- sheets

fn sheet(random: &mut Random, scale: Scale, units: Option<u64>) -> Sheet {
    let (month, day) = if random.percent(40) {
        *random.pick(&[
            (3, 14),
            (3, 15),
            (3, 31),
            (4, 1),
            (6, 15),
            (6, 16),
            (6, 31),
            (12, 30),
        ])
    } else {
        let month = random.range(1, 12);
        (month, random.range(1, days_in(month)))
    };
    let size = units.unwrap_or(random.weighted(&[20, 22, 18, 12, 10, 6, 5, 7]) as u64 + 1);
    let mut mask = 0u64;
    while u64::from(mask.count_ones()) < size {
        mask |= 1 << random.below(UNITS as u64);
    }
    let mut cpf = [value(random, scale, 0, 10_000, 1_000); HOURS];
    if random.percent(60) {
        for hour in &mut cpf {
            *hour = value(random, scale, 0, 10_000, 1_000);
        }
    }
    let loss = value(random, scale, 0, 2_000, 100);
    let palette: Vec<u64> = if random.percent(50) {
        (0..random.range(1, 5))
            .map(|_| value(random, scale, 0, MOST_PRICE, 400_000))
            .collect()
    } else {
        Vec::new()
    };
    let mut sheet = Sheet {
        month,
        day,
        loss,
        ceiling: value(random, scale, 0, MOST_PRICE, 440_000),
        bar: value(random, scale, 0, 1_000_000, 100_000),
        cpf,
        mask,
        units: vec![UnitSheet::default(); UNITS],
    };
    for u in (0..UNITS).filter(|u| mask >> u & 1 == 1) {
        let unit = &mut sheet.units[u];
        unit.own = value(random, scale, 0, 2_000, 300);
        unit.nominal = value(random, scale, 1, MOST_KWH, 130_000);
        unit.monthly = value(random, scale, 0, MOST_KWH, 120_000);
        let fresh = *random.pick(&[0, 20, 100]);
        let some: Vec<Offer> = (0..3).map(|_| offer(random, scale, &palette)).collect();
        for hour in &mut unit.offers {
            *hour = if random.percent(fresh) {
                offer(random, scale, &palette)
            } else {
                *random.pick(&some)
            };
        }
    }
    debug_assert!(sheet.is_allowed());
    sheet
}

fn offer(random: &mut Random, scale: Scale, palette: &[u64]) -> Offer {
    let count = match random.below(10) {
        0..=5 => random.range(1, 3),
        6..=8 => random.range(1, 10),
        _ => 10,
    };
    let last = value(random, scale, count, MOST_KWH, 150_000);
    let mut prices = [0; 10];
    let one_price = random.percent(10);
    for i in 0..count as usize {
        prices[i] = if one_price && i > 0 {
            prices[0]
        } else if !palette.is_empty() {
            *random.pick(palette)
        } else {
            value(random, scale, 0, MOST_PRICE, 400_000)
        };
    }
    let prices = &mut prices[..count as usize];
    prices.sort_unstable();
    let mut offer = Offer::default();
    let mut before = 0;
    for i in 0..count {
        let to_come = count - i;
        // Up to what leaves one kWh for each of the pairs to come.
        let space = last - before - to_come;
        let quantity = if to_come == 1 {
            last
        } else {
            before + 1 + random.below(2 * space / to_come + 1).min(space)
        };
        offer.list[i as usize] = Step {
            quantity,
            price: prices[i as usize],
        };
        offer.count += 1;
        before = quantity;
    }
    offer
}

// ---- texts

pub fn put_sheet(out: &mut Vec<u8>, sheet: &Sheet) {
    put_words(out, "month=", &[sheet.month]);
    put_words(out, "day=", &[sheet.day]);
    put_words(out, "loss=", &[sheet.loss]);
    put_words(out, "ceiling=", &[sheet.ceiling]);
    put_words(out, "bar=", &[sheet.bar]);
    for &cpf in &sheet.cpf {
        put_words(out, "cpf=", &[cpf]);
    }
    put_words(out, "units=", &[sheet.mask]);
    for u in sheet.plant() {
        let unit = &sheet.units[u];
        put_words(out, "own=", &[unit.own]);
        put_words(out, "nominal=", &[unit.nominal]);
        put_words(out, "monthly=", &[unit.monthly]);
        for offer in &unit.offers {
            let mut start = "offer=";
            for step in offer.steps() {
                put_words(out, start, &[step.quantity, step.price]);
                out.pop();
                start = ",";
            }
            out.push(b'\n');
        }
    }
    out.extend_from_slice(b"end=sheet\n");
}

/// Appends a record's text. A value that a blank stands for is left blank
/// where `blank` says so; unmeasured readings are always blank.
pub fn put_record(
    out: &mut Vec<u8>,
    sheet: &Sheet,
    record: &Record,
    mut blank: impl FnMut() -> bool,
) {
    let put = |out: &mut Vec<u8>, key: &str, value: u64, is_blank: bool| {
        if is_blank {
            out.extend_from_slice(key.as_bytes());
            out.push(b'\n');
        } else {
            put_words(out, key, &[value]);
        }
    };
    put_words(out, "hour=", &[record.hour]);
    put(out, "net=", record.net, record.net == 0 && blank());
    put(
        out,
        "reverse=",
        record.reverse,
        record.reverse == 0 && blank(),
    );
    for u in sheet.plant() {
        let monthly = sheet.units[u].monthly;
        let unit = &record.units[u];
        put(
            out,
            "declared=",
            unit.declared,
            unit.declared == monthly && blank(),
        );
        put(out, "real=", unit.real, unit.real == 0 && blank());
        put(out, "test=", unit.test, unit.test == 0 && blank());
        put(
            out,
            "deviation=",
            unit.deviation,
            unit.deviation == 0 && blank(),
        );
        put(out, "power=", unit.power, unit.power == monthly && blank());
        put(
            out,
            "reading=",
            unit.reading.unwrap_or(0),
            unit.reading.is_none(),
        );
        put(out, "since=", unit.since, unit.since == 1 && blank());
        put(out, "repair=", unit.repair, unit.repair == 0 && blank());
        if unit.spans == Spans::whole_hour(unit.declared) && blank() {
            out.extend_from_slice(b"spans=\n");
        } else {
            put_spans(out, &unit.spans);
        }
    }
    out.extend_from_slice(b"end=hour\n");
}

pub fn put_spans(out: &mut Vec<u8>, spans: &Spans) {
    let mut start = "spans=";
    for span in spans.spans() {
        let fields = [span.minutes, span.kind, span.cause, span.capability];
        put_words(out, start, &fields);
        out.pop();
        start = ",";
    }
    out.push(b'\n');
}

/// Appends the line that `replay` reads for a call.
fn put_call(out: &mut Vec<u8>, group: &Group) {
    let Group {
        hour,
        unit,
        to,
        kwh,
        ..
    } = *group;
    match group.kind {
        1 => put_words(out, "take=", &[hour, unit, kwh]),
        2 => put_words(out, "release=", &[hour, unit, kwh]),
        3 => put_words(out, "move=", &[hour, unit, to, kwh]),
        4 => out.extend_from_slice(b"settle=\n"),
        5 => out.extend_from_slice(b"restate=\n"),
        6 => put_words(out, "void=", &[hour]),
        _ => put_words(out, "total=", &[unit, to]),
    }
}

/// Appends a start, numbers parted by colons, and an LF.
pub fn put_words(out: &mut Vec<u8>, start: &str, numbers: &[u64]) {
    out.extend_from_slice(start.as_bytes());
    for (i, &number) in numbers.iter().enumerate() {
        if i > 0 {
            out.push(b':');
        }
        put_number(out, number as i64);
    }
    out.push(b'\n');
}

#[cfg(test)]
mod tests {
    use super::*;
    use crate::statement;

    #[test]
    fn padded_days_have_the_size() {
        let mut accepted = 0;
        let mut cases = 0;
        for case in 0..200 {
            let random = &mut Random::for_case(7, case);
            let mut maker = Maker::new(random, None);
            let mut text = Vec::new();
            put_sheet(&mut text, &maker.sheet);
            maker.pad_with_takes(&mut text, LARGEST_TEXT);
            if text.len() < LARGEST_TEXT {
                continue;
            }
            assert_eq!(text.len(), LARGEST_TEXT);
            cases += 1;
            accepted += u32::from(statement::print(&text).is_empty());
        }
        assert!(cases > 190, "{cases}");
        assert!(accepted > 50, "{accepted}");
    }

    /// What is made without damage and fault is accepted.
    #[test]
    fn clean_records_are_read() {
        for case in 0..2_000 {
            let random = &mut Random::for_case(8, case);
            let mut maker = Maker::new(random, None);
            let mut text = Vec::new();
            put_sheet(&mut text, &maker.sheet);
            let (sheet, place) = Sheet::read(&text).unwrap();
            assert_eq!((&sheet, place), (&maker.sheet, text.len()));
            let record = maker.record(5, Fault::None);
            maker.put_record(&mut text, &record);
            let (read, end) = Record::read(&text, place, &sheet).unwrap();
            assert_eq!((&read, end), (&record, text.len()));
            assert!(!record.minutes_wrong(&sheet));
            assert!(!record.readings_wrong(&sheet), "{case} {record:?}");
            assert!(!record.proportions_wrong(&sheet));
            for (fault, number) in [
                (Fault::Minutes, 31),
                (Fault::Readings, 32),
                (Fault::Proportions, 33),
            ] {
                let record = maker.record(5, fault);
                let wrong = [
                    record.minutes_wrong(&sheet),
                    record.readings_wrong(&sheet),
                    record.proportions_wrong(&sheet),
                ];
                assert!(wrong[number - 31], "{case} {number}");
            }
        }
    }

    /// A kind out of its range is refused 2, at the unit's line of spans.
    #[test]
    fn wrong_kinds_are_refused() {
        for case in 0..500 {
            let random = &mut Random::for_case(9, case);
            let mut maker = Maker::new(random, None);
            let record = maker.record(5, Fault::Kind);
            let mut text = Vec::new();
            maker.put_record(&mut text, &record);
            let refusal = Record::read(&text, 0, &maker.sheet).unwrap_err();
            // Three lines, then nine a unit, of which spans are the last.
            assert_eq!((refusal.number, (refusal.line - 3) % 9), (2, 0), "{case}");
        }
    }

    /// Kind 9 comes often enough: 1,000 times in a million days at the least.
    #[test]
    fn kind_9_comes_often() {
        let is_kind_9 = |span: &[u8]| span.split(|&byte| byte == b':').nth(1) == Some(b"9");
        let has_kind_9 = |line: &[u8]| {
            let value = line.strip_prefix(b"spans=").unwrap_or(b"");
            value.split(|&byte| byte == b',').any(is_kind_9)
        };
        let mut refused = 0;
        for case in 0..2_000 {
            let text = day(&mut Random::for_case(10, case));
            let has_kind_9 = text.split(|&byte| byte == b'\n').any(has_kind_9);
            refused += u32::from(has_kind_9 && statement::print(&text) == b"refused=2\n");
        }
        assert!(refused > 10, "{refused}");
    }

    #[test]
    fn hours_are_all_there() {
        let mut hours = hours(&mut Random::new(3));
        hours.sort_unstable();
        assert!(hours.iter().copied().eq(1..=HOURS));
    }
}
