//! Damages a text at one place: bytes, lines, values, keys, line ends.

use crate::random::Random;
use std::ops::Range;

/// Damages the part of a text from a place on.
pub fn damage(random: &mut Random, text: &mut Vec<u8>, from: usize) {
    if from >= text.len() {
        // Nothing there: something strange at the end.
        return append(random, text);
    }
    let at = random.range(from as u64, text.len() as u64 - 1) as usize;
    match random.below(40) {
        0..=3 => text[at] = any_byte(random),
        4..=6 => text.insert(at, any_byte(random)),
        7..=8 => {
            text.remove(at);
        }
        9..=10 => {
            text.drain(line_around(text, at));
        }
        11..=12 => {
            let line = line_around(text, at);
            let copy = text[line.clone()].to_vec();
            text.splice(line.end..line.end, copy);
        }
        13 => {
            // Two lines change places.
            let first = line_around(text, at);
            if first.end < text.len() {
                let second = line_around(text, first.end);
                text[first.start..second.end].rotate_left(first.len());
            }
        }
        14..=15 => text.truncate(at),
        16..=17 => text.truncate(line_around(text, at).start),
        18 => {
            text.pop();
        }
        19..=22 => bound(random, text, at),
        // One of the lines that are few.
        23..=24 => {
            let keys: [&[u8]; 12] = [
                b"month=",
                b"day=",
                b"day=",
                b"loss=",
                b"ceiling=",
                b"bar=",
                b"units=",
                b"own=",
                b"nominal=",
                b"monthly=",
                b"hour=",
                b"end=",
            ];
            let key = *random.pick(&keys);
            if let Some(value) = value_of(text, at, key) {
                bound(random, text, value.start - 1);
            }
        }
        25..=28 => malformed(random, text, at),
        29..=30 => wrong_key(random, text, at),
        31 => {
            let end = line_around(text, at).end - 1;
            text.insert(end, b'\r');
        }
        32 => {
            let with_cr: Vec<u8> = text
                .iter()
                .flat_map(|&byte| {
                    let cr = (byte == b'\n').then_some(b'\r');
                    cr.into_iter().chain([byte])
                })
                .collect();
            *text = with_cr;
        }
        33..=35 => offer(random, text, at),
        36 => spans(random, text, at),
        37 => {
            let start = line_around(text, at).start;
            let line = *random.pick(&[&b"\n"[..], b"\r\n", b"=\n", b" \n"]);
            text.splice(start..start, line.iter().copied());
        }
        38 => append(random, text),
        _ => {
            text.splice(0..0, *b"\xEF\xBB\xBF");
        }
    }
}

fn any_byte(random: &mut Random) -> u8 {
    if random.percent(80) {
        *random.pick(b"0123456789019=:,\n\n\r -+.aehost\0\xFF")
    } else {
        random.below(256) as u8
    }
}

/// The line, its LF included, that a place lies in.
fn line_around(text: &[u8], at: usize) -> Range<usize> {
    let start = text[..at]
        .iter()
        .rposition(|&byte| byte == b'\n')
        .map_or(0, |lf| lf + 1);
    let end = text[at..]
        .iter()
        .position(|&byte| byte == b'\n')
        .map_or(text.len(), |lf| at + lf + 1);
    start..end
}

/// Key and the range of the value of the line that a place lies in.
fn value_around(text: &[u8], at: usize) -> Option<(Vec<u8>, Range<usize>)> {
    let line = line_around(text, at);
    let equals = text[line.clone()].iter().position(|&byte| byte == b'=')?;
    let key = text[line.start..line.start + equals].to_vec();
    let end = if text[line.end - 1] == b'\n' {
        line.end - 1
    } else {
        line.end
    };
    Some((key, line.start + equals + 1..end))
}

/// The next value of a key at or behind a place, or the first of the text.
fn value_of(text: &[u8], at: usize, key: &[u8]) -> Option<Range<usize>> {
    let find = |from: usize| {
        let found = text[from..]
            .windows(key.len())
            .position(|window| window == key)?;
        value_around(text, from + found).map(|(_, value)| value)
    };
    find(at).or_else(|| find(0))
}

/// A value at the bounds of its range or just past them.
fn bound(random: &mut Random, text: &mut Vec<u8>, at: usize) {
    let Some((key, value)) = value_around(text, at) else {
        return;
    };
    let choices: &[&str] = match key.as_slice() {
        b"month" => &["0", "1", "6", "7", "12", "13"],
        b"day" => &["0", "1", "15", "30", "31", "32"],
        b"loss" | b"own" => &["0", "2000", "2001"],
        b"ceiling" => &["0", "10000000", "10000001"],
        b"bar" => &["0", "1000000", "1000001"],
        b"cpf" => &["0", "10000", "10001"],
        b"units" => &["0", "1", "128", "255", "256", "257"],
        b"nominal" => &["0", "1", "1000000", "1000001"],
        b"hour" => &["0", "1", "24", "25", ""],
        b"net" | b"reverse" => &["0", "8000000", "8000001", ""],
        b"since" => &["0", "1", "744", "745", ""],
        b"repair" => &["0", "1", "2", ""],
        b"end" => &["", "hour", "sheet", "Hour", "hour ", "day"],
        b"offer" => &[
            "1:0",
            "1000000:10000000",
            "1000001:0",
            "1:10000001",
            "0:0",
            "1:0,1000000:10000000",
        ],
        b"spans" => &[
            "60:8:2:1000000",
            "60:8:2:1000001",
            "60:9:0:0",
            "60:2:0:0",
            "61:1:0:0",
            "",
        ],
        b"take" | b"release" => &[
            "1:1:999999999",
            "24:8:1",
            "25:1:1",
            "0:1:1",
            "1:0:1",
            "1:9:1",
            "1:1:0",
            "1:1:1000000000",
            "999999999:1:1",
            "1:1:1",
        ],
        b"move" => &[
            "1:1:2:1", "1:1:1:1", "1:1:1", "25:1:2:1", "1:9:1:1", "1:1:2:0",
        ],
        b"void" => &["0", "1", "24", "25", "999999999", "1000000000", ""],
        b"total" => &["1:1", "1:5", "1:6", "1:0", "0:1", "9:1", "1", "1:1:1"],
        b"settle" | b"restate" => &["", "1", " ", "="],
        // Declared, real, test, deviation, power, reading, monthly.
        _ => &["0", "1", "1000000", "1000001", ""],
    };
    let choice = random.pick(choices);
    text.splice(value, choice.bytes());
}

/// A value that is no number, or a part of it.
fn malformed(random: &mut Random, text: &mut Vec<u8>, at: usize) {
    let Some((_, value)) = value_around(text, at) else {
        return;
    };
    let choices: [&[u8]; 20] = [
        b"",
        b"00",
        b"01",
        b"-1",
        b"-0",
        b"+1",
        b" 1",
        b"1 ",
        b"1\t",
        b"1=2",
        b"=1",
        b"1.0",
        b"1e1",
        b"0x1",
        b"a",
        b"\xD9\xA1",
        b"99999999999999999999",
        b"18446744073709551617",
        b"4294967297",
        b"000000000000000000001",
    ];
    let choice = *random.pick(&choices);
    // All of it, or in front of it, or behind it.
    let place = match random.below(4) {
        0..=1 => value,
        2 => value.start..value.start,
        _ => value.end..value.end,
    };
    text.splice(place, choice.iter().copied());
}

/// Another key, or none, in the line that a place lies in.
fn wrong_key(random: &mut Random, text: &mut Vec<u8>, at: usize) {
    let Some((key, value)) = value_around(text, at) else {
        return;
    };
    let start = value.start - 1 - key.len();
    let others: [&[u8]; 14] = [
        b"",
        b"month",
        b"cpf",
        b"own",
        b"offer",
        b"end",
        b"hour",
        b"net",
        b"declared",
        b"real",
        b"take",
        b"settle",
        b"void",
        b"x",
    ];
    match random.below(5) {
        0 => text[start..value.start - 1].make_ascii_uppercase(),
        1 => text.insert(start, b' '),
        2 => text.insert(value.start - 1, b' '),
        // No `=` at all, or not the first one.
        3 => {
            text.remove(value.start - 1);
        }
        _ => {
            let other = *random.pick(&others);
            text.splice(start..value.start - 1, other.iter().copied());
        }
    }
}

/// Offers with a broken order, too many pairs, parts too many or too few.
fn offer(random: &mut Random, text: &mut Vec<u8>, at: usize) {
    let Some(value) = value_of(text, at, b"offer=") else {
        return;
    };
    let choices: [&str; 26] = [
        "5:5,5:5",
        "5:5,4:5",
        "5:5,6:4",
        "5:5,6:5,6:6",
        "5:5,6:6,7:5",
        "1000000:0,1000000:0",
        "1:10000000,2:9999999",
        "1:1,2:1,3:0",
        "1:1,2:2,3:3,4:4,5:5,6:6,7:7,8:8,9:9,10:9,11:9",
        "1:1,2:2,3:3,4:4,5:5,6:6,7:7,8:8,9:9,9:9",
        "1:1,2:2,3:3,4:4,5:5,6:6,7:7,8:8,9:9,10:8",
        "1:1,2:2,3:3,4:4,5:5,6:6,7:7,8:8,9:9,10:10",
        "1:1,2:2,3:3,4:4,5:5,6:6,7:7,8:8,9:9,10:10,",
        "5:5,4:5,1000001:5",
        "5:5,4:5,x",
        "5:5,4:5,",
        "5:5,,6:6",
        ",5:5",
        "5:5,",
        "5",
        "5:",
        ":5",
        "5:5:5",
        "0:5,1:5",
        "5:5;6:6",
        "5:5, 6:6",
    ];
    let choice = if random.percent(40) {
        *random.pick(&choices[..11])
    } else {
        *random.pick(&choices)
    };
    text.splice(value, choice.bytes());
}

fn spans(random: &mut Random, text: &mut Vec<u8>, at: usize) {
    let Some(value) = value_of(text, at, b"spans=") else {
        return;
    };
    let choices: [&str; 22] = [
        "60:1:0",
        "60:1:0:0:0",
        "61:1:0:0",
        "0:1:0:0",
        "60:0:0:0",
        "60:8:0:0",
        "60:9:0:0",
        "60:9:1:0",
        "30:8:0:0,30:9:2:0",
        "60:1:3:0",
        "60:8:3:0",
        "60:1:0:1000001",
        "60:1:0:",
        "60:1:0:0,",
        ",60:1:0:0",
        "59:1:0:0",
        "30:2:0:0,31:2:0:0",
        "10:1:0:0,10:2:0:0,10:3:0:0,10:4:0:0,10:5:0:0,10:6:0:0",
        "10:1:0:0,10:2:0:0,10:3:0:0,10:4:0:0,10:5:0:0,5:6:0:0,5:7:0:0",
        "60:1:0:0,60:1:0:0",
        "60;1;0;0",
        "60:01:0:0",
    ];
    let choice = *random.pick(&choices);
    text.splice(value, choice.bytes());
}

fn append(random: &mut Random, text: &mut Vec<u8>) {
    let choices: [&[u8]; 12] = [
        b"\n",
        b"\r\n",
        b"x",
        b"x=1\n",
        b"take",
        b"take=1:1:1",
        b"hour=1",
        b"hour=1\n",
        b"end=hour\n",
        b"end=sheet\n",
        b"settle=\n",
        b"settle=\nhour=1\nend=hour",
    ];
    let choice = *random.pick(&choices);
    text.extend_from_slice(choice);
}
