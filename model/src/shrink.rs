//! Makes a failing input smaller.

use crate::generate::CallList;
use crate::ledger::Group;
use crate::UNITS;

/// The smallest list that leaving out parts leads to and that still fails.
pub fn shrink_list<T: Clone>(mut list: Vec<T>, mut fails: impl FnMut(&[T]) -> bool) -> Vec<T> {
    let mut size = list.len() / 2;
    while size > 0 {
        let mut at = 0;
        let mut shorter = false;
        while at < list.len() {
            let end = (at + size).min(list.len());
            let candidate = [&list[..at], &list[end..]].concat();
            if fails(&candidate) {
                list = candidate;
                shorter = true;
            } else {
                at = end;
            }
        }
        // Another round of the same size while it helps.
        if !shorter {
            size /= 2;
        }
    }
    if list.len() == 1 && fails(&[]) {
        list.clear();
    }
    list
}

/// The same for a text: whole lines first, then single bytes; then its digits
/// are made 0 or 1.
pub fn shrink_text(text: &[u8], mut fails: impl FnMut(&[u8]) -> bool) -> Vec<u8> {
    let lines = text.split_inclusive(|&byte| byte == b'\n').collect();
    let text = shrink_list(lines, |lines: &[&[u8]]| fails(&lines.concat())).concat();
    let mut text = shrink_list(text, &mut fails);
    for at in 0..text.len() {
        let old = text[at];
        if !(b'2'..=b'9').contains(&old) {
            continue;
        }
        text[at] = b'0';
        if !fails(&text) {
            text[at] = b'1';
            if !fails(&text) {
                text[at] = old;
            }
        }
    }
    text
}

/// A number from which nothing more can be taken.
fn shrink_number(mut number: u64, mut fails: impl FnMut(u64) -> bool) -> u64 {
    for bit in (0..u64::BITS).rev() {
        while number >= 1 << bit && fails(number - (1 << bit)) {
            number -= 1 << bit;
        }
    }
    number
}

/// A day's text: whole records and units are left out too.
pub fn shrink_day(text: &[u8], mut fails: impl FnMut(&[u8]) -> bool) -> Vec<u8> {
    let mut text = text.to_vec();
    loop {
        let before = text.clone();
        let parts = parts(&text);
        text = shrink_list(parts, |parts: &[&[u8]]| fails(&parts.concat())).concat();
        for unit in 1..=UNITS as u64 {
            let without = without_unit(&text, mask(&text), unit);
            if fails(&without) {
                text = without;
            }
        }
        text = shrink_text(&text, &mut fails);
        if text == before {
            return text;
        }
    }
}

/// A list of calls: calls and units are left out, the sheet and the records
/// shortened, the numbers made smaller. Once it is `late`, what was found is
/// enough.
pub fn shrink_calls(
    list: &CallList,
    late: impl Fn() -> bool,
    mut fails: impl FnMut(&CallList) -> bool,
) -> CallList {
    let mut small = Apart::of(list);
    if !fails(&small.together()) {
        // It fails only where the records lie in one text.
        let mut list = list.clone();
        list.groups = shrink_list(list.groups.clone(), |groups| {
            fails(&CallList {
                groups: groups.to_vec(),
                ..list.clone()
            })
        });
        return list;
    }
    let mut differs = |small: &Apart| fails(&small.together());
    loop {
        let before = small.clone();
        small.calls = shrink_list(small.calls.clone(), |calls| {
            differs(&Apart {
                calls: calls.to_vec(),
                ..small.clone()
            })
        });
        for unit in 1..=UNITS as u64 {
            let without = small.without_unit(unit);
            if differs(&without) {
                small = without;
            }
        }
        for at in 0..small.calls.len() {
            if late() {
                return small.together();
            }
            let record = small.calls[at].1.clone();
            small.calls[at].1 = shrink_text(&record, |text| {
                let mut other = small.clone();
                other.calls[at].1 = text.to_vec();
                differs(&other)
            });
            for field in 0..5 {
                let number = *field_of(&mut small.calls[at].0, field);
                let shrunk = shrink_number(number, |number| {
                    let mut other = small.clone();
                    *field_of(&mut other.calls[at].0, field) = number;
                    differs(&other)
                });
                *field_of(&mut small.calls[at].0, field) = shrunk;
            }
        }
        small.places = shrink_number(small.places as u64, |places| {
            differs(&Apart {
                places: places as usize,
                ..small.clone()
            })
        }) as usize;
        small.sheet = shrink_text(&small.sheet.clone(), |sheet| {
            differs(&Apart {
                sheet: sheet.to_vec(),
                ..small.clone()
            })
        });
        if small == before {
            return small.together();
        }
    }
}

fn field_of(group: &mut Group, field: usize) -> &mut u64 {
    match field {
        0 => &mut group.hour,
        1 => &mut group.unit,
        2 => &mut group.to,
        3 => &mut group.kwh,
        _ => &mut group.start,
    }
}

/// A list of calls where each has a text of its own.
#[derive(Clone, PartialEq, Eq)]
struct Apart {
    sheet: Vec<u8>,
    calls: Vec<(Group, Vec<u8>)>,
    places: usize,
}

impl Apart {
    fn of(list: &CallList) -> Apart {
        let apart = |group: &Group| match group.kind {
            4 | 5 => (*group, group.part(&list.text).to_vec()),
            _ => (*group, Vec::new()),
        };
        Apart {
            sheet: list.sheet.clone(),
            calls: list.groups.iter().map(apart).collect(),
            places: list.places,
        }
    }

    fn together(&self) -> CallList {
        let mut text = Vec::new();
        let mut groups = Vec::new();
        for (group, part) in &self.calls {
            let begin = text.len() as u64;
            text.extend_from_slice(part);
            groups.push(Group {
                begin,
                end: text.len() as u64,
                ..*group
            });
        }
        CallList {
            sheet: self.sheet.clone(),
            text,
            groups,
            places: self.places,
        }
    }

    fn without_unit(&self, unit: u64) -> Apart {
        let mask = mask(&self.sheet);
        let mut calls = self.calls.clone();
        calls.retain(|(group, _)| match group.kind {
            1 | 2 => group.unit != unit,
            3 => group.unit != unit && group.to != unit,
            _ => true,
        });
        for (_, part) in &mut calls {
            *part = without_unit(part, mask, unit);
        }
        Apart {
            sheet: without_unit(&self.sheet, mask, unit),
            calls,
            places: self.places,
        }
    }
}

/// The parts of a day's text: the sheet, each record, each other line.
fn parts(text: &[u8]) -> Vec<&[u8]> {
    let mut parts = Vec::new();
    let mut begin = 0;
    let mut end = 0;
    // The sheet comes first.
    let mut inside = true;
    for line in text.split_inclusive(|&byte| byte == b'\n') {
        inside |= line.starts_with(b"hour=");
        end += line.len();
        if line.starts_with(b"end=") {
            inside = false;
        }
        if !inside {
            parts.push(&text[begin..end]);
            begin = end;
        }
    }
    parts.push(&text[begin..]);
    parts
}

/// The units that a sheet's text names, 0 where it does not.
fn mask(sheet: &[u8]) -> u64 {
    let mut lines = sheet.split(|&byte| byte == b'\n');
    let value = lines.find_map(|line| line.strip_prefix(b"units="));
    let digits = value.and_then(|value| std::str::from_utf8(value).ok());
    digits.and_then(|digits| digits.parse().ok()).unwrap_or(0)
}

/// A text of a plant without one of its units: its blocks in sheet and
/// records, its bit in `units`, its takes. Other texts stay as they are.
fn without_unit(text: &[u8], mask: u64, unit: u64) -> Vec<u8> {
    let bit = 1 << (unit - 1);
    if mask & bit == 0 {
        return text.to_vec();
    }
    let block = (mask & (bit - 1)).count_ones() as usize + 1;
    // Blocks begun since the sheet's or the record's first line.
    let mut begun = 0;
    let mut out = Vec::new();
    for line in text.split_inclusive(|&byte| byte == b'\n') {
        let key = line.split(|&byte| byte == b'=').next().unwrap();
        match key {
            b"own" | b"declared" => begun += 1,
            b"end" | b"hour" | b"month" => begun = 0,
            b"units" => {
                out.extend_from_slice(format!("units={}\n", mask & !bit).as_bytes());
                continue;
            }
            b"take"
                if line.split(|&byte| byte == b':').nth(1) == Some(unit.to_string().as_bytes()) =>
            {
                continue;
            }
            _ => {}
        }
        if begun != block {
            out.extend_from_slice(line);
        }
    }
    out
}

#[cfg(test)]
mod tests {
    use super::*;

    #[test]
    fn finds_the_part_that_matters() {
        let text = b"one\ntwo\nthree\nfour\nfive\n";
        let small = shrink_text(text, |text| text.windows(2).any(|two| two == b"hr"));
        assert_eq!(small, b"hr");
        let small = shrink_list((0..100).collect(), |list| {
            list.contains(&17) && list.contains(&80)
        });
        assert_eq!(small, [17, 80]);
        assert!(shrink_list(vec![1, 2, 3], |_| true).is_empty());
        assert_eq!(shrink_number(u64::MAX, |number| number >= 77), 77);
        assert_eq!(shrink_number(9, |_| true), 0);
    }

    #[test]
    fn leaves_a_unit_out() {
        let text = b"units=5\nown=1\noffer=1\nown=3\noffer=3\nend=sheet\ntake=1:3:5\ntake=1:1:3\n\
            hour=3\ndeclared=1\nspans=1\ndeclared=3\nspans=3\nend=hour\n";
        let without = b"units=1\nown=1\noffer=1\nend=sheet\ntake=1:1:3\n\
            hour=3\ndeclared=1\nspans=1\nend=hour\n";
        assert_eq!(mask(text), 5);
        let lengths: Vec<usize> = parts(text).iter().map(|part| part.len()).collect();
        assert_eq!(lengths, [46, 11, 11, 54, 0]);
        assert_eq!(without_unit(text, 5, 3), without);
        assert_eq!(without_unit(text, 5, 2), text);
    }
}
