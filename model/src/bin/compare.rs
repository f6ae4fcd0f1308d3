//! Runs random days and lists of calls through the product and the model, and
//! stops at the first difference, with the smallest input found that still
//! differs.
//!
//! compare [SEED [DAYS [LISTS [LONG [THREADS]]]]]

use model::generate::{self, CallList};
use model::ledger::{Checks, Ledger};
use model::numbers::{self, Given, Lengths, Written, ANSWER, POSTING};
use model::random::Random;
use model::rules::{self, RULES};
use model::{product, shrink, statement, HOURS, ITEMS, UNITS};
use std::collections::BTreeMap;
use std::process::ExitCode;
use std::sync::atomic::{AtomicU64, Ordering::Relaxed};
use std::time::{Duration, Instant};

/// The numbers that texts and calls come to. 9 and 12 do not come: a sheet
/// that was read keeps its ranges, and so does what calls leave.
const REACHED: [u64; 17] = [
    1, 2, 3, 4, 10, 11, 20, 21, 22, 23, 24, 31, 32, 33, 40, 41, 42,
];

/// How often each of them, and each of the rules, has to be seen in a run of
/// the usual size.
const ENOUGH: u64 = 1_000;

/// Seed, days, lists, long lists, threads.
const USUAL: [u64; 5] = [1, 1_000_000, 200_000, 100, 1];

/// How long a case is made smaller.
const SHRINKING: Duration = Duration::from_secs(60);

/// The product keeps its journal list on the stack.
const STACK: usize = 64 << 20;

fn main() -> ExitCode {
    let mut size = USUAL;
    for (at, word) in std::env::args().skip(1).enumerate() {
        match (size.get_mut(at), word.parse()) {
            (Some(number), Ok(given)) => *number = given,
            _ => {
                eprintln!("usage: compare [SEED [DAYS [LISTS [LONG [THREADS]]]]]");
                return ExitCode::FAILURE;
            }
        }
    }
    match compare(size) {
        Ok(seen) => {
            let enough = report(&seen);
            let usual = (1..4).all(|at| size[at] >= USUAL[at]);
            if usual && !enough {
                return ExitCode::FAILURE;
            }
            ExitCode::SUCCESS
        }
        Err(difference) => {
            println!("{difference}");
            ExitCode::FAILURE
        }
    }
}

/// What was seen of days, lists and long lists, or the first difference.
fn compare([seed, days, lists, long, threads]: [u64; 5]) -> Result<[Seen; 3], String> {
    let day = Kind {
        name: "days",
        number: 0,
        agree: day_agrees,
        explain: explain_day,
    };
    let list = Kind {
        name: "lists",
        number: 2,
        agree: |random, worker| list_agrees(&a_list(random, generate::call_list), worker),
        explain: |random| explain_list(a_list(random, generate::call_list)),
    };
    let long_list = Kind {
        name: "long lists",
        number: 3,
        agree: |random, worker| list_agrees(&a_list(random, generate::long_list), worker),
        explain: |random| explain_list(a_list(random, generate::long_list)),
    };
    Ok([
        day.every_case(seed, days, threads)?,
        list.every_case(seed, lists, threads)?,
        long_list.every_case(seed, long, threads)?,
    ])
}

// ---- counts

/// How often each was seen.
#[derive(Default)]
struct Seen {
    cases: u64,
    accepted: u64,
    refused: BTreeMap<u64, u64>,
    rules: rules::Times,
}

impl Seen {
    fn count(&mut self, number: u64) {
        if number == 0 {
            self.accepted += 1;
        } else {
            *self.refused.entry(number).or_default() += 1;
        }
    }

    fn times(&self, number: u64) -> u64 {
        self.refused.get(&number).copied().unwrap_or(0)
    }

    fn add(&mut self, other: Seen) {
        self.cases += other.cases;
        self.accepted += other.accepted;
        for (number, times) in other.refused {
            *self.refused.entry(number).or_default() += times;
        }
        for (rule, times) in self.rules.iter_mut().zip(other.rules) {
            *rule += times;
        }
    }
}

/// Prints what was seen of days, lists and long lists; tells whether each
/// number and each rule was seen often enough.
fn report(seen: &[Seen; 3]) -> bool {
    println!(
        "{:<20} {:>10} {:>10} {:>10}",
        "", "days", "lists", "long lists"
    );
    line("cases agree", seen.each_ref().map(|seen| seen.cases));
    line("accepted", seen.each_ref().map(|seen| seen.accepted));
    let mut numbers = REACHED.to_vec();
    let others = seen.iter().flat_map(|seen| seen.refused.keys());
    numbers.extend(others.filter(|number| !REACHED.contains(number)));
    let mut few = Vec::new();
    let mut counted = |name: &str, times: [u64; 3]| {
        if line(name, times) < ENOUGH {
            few.push(name.to_string());
        }
    };
    for number in numbers {
        let times = seen.each_ref().map(|seen| seen.times(number));
        counted(&format!("refused {number}"), times);
    }
    for (at, (name, _)) in RULES.iter().enumerate() {
        counted(name, seen.each_ref().map(|seen| seen.rules[at]));
    }
    if few.is_empty() {
        println!("each number and rule was seen {ENOUGH} times or more");
    } else {
        println!("seen fewer than {ENOUGH} times: {}", few.join(", "));
    }
    few.is_empty()
}

/// Prints a line of the report; gives the sum of its numbers.
fn line(name: &str, times: [u64; 3]) -> u64 {
    let [days, lists, long] = times;
    println!("{name:<20} {days:>10} {lists:>10} {long:>10}");
    days + lists + long
}

// ---- cases

/// A kind of case, made from a generator alone.
struct Kind {
    name: &'static str,
    /// Case n has the generator of number 4 n and this.
    number: u64,
    /// Whether product and model agree; what they come to is counted.
    agree: fn(&mut Random, &mut Worker) -> bool,
    /// What differs, on the smallest input found.
    explain: fn(&mut Random) -> String,
}

/// What a thread counts, and the slices that it keeps from case to case.
struct Worker {
    seen: Seen,
    out: Vec<u8>,
    by_model: Written,
    by_product: Written,
    /// What the calls led to in the model.
    ledger: Option<Ledger>,
}

impl Worker {
    fn new() -> Worker {
        Worker {
            seen: Seen::default(),
            out: vec![0; product::STATEMENT],
            by_model: Written::default(),
            by_product: Written::default(),
            ledger: None,
        }
    }
}

impl Kind {
    /// Runs the cases 0 to `count` − 1, up to the first difference. Threads
    /// take the cases in order and finish what they took, so the lowest case
    /// that differs is the first.
    fn every_case(&self, seed: u64, count: u64, threads: u64) -> Result<Seen, String> {
        let next = AtomicU64::new(0);
        let lowest = AtomicU64::new(u64::MAX);
        let random = |case: u64| Random::for_case(seed, 4 * case + self.number);
        let work = || {
            let mut worker = Worker::new();
            while lowest.load(Relaxed) == u64::MAX {
                let case = next.fetch_add(1, Relaxed);
                if case >= count {
                    break;
                }
                if case > 0 && case.is_multiple_of(100_000) {
                    println!("{}: {case}", self.name);
                }
                if !(self.agree)(&mut random(case), &mut worker) {
                    lowest.fetch_min(case, Relaxed);
                }
                worker.seen.cases += 1;
            }
            worker.seen
        };
        let mut all = Seen::default();
        for seen in on_threads(threads.max(1), work) {
            all.add(seen);
        }
        match lowest.into_inner() {
            u64::MAX => Ok(all),
            case => {
                let name = self.name;
                println!("seed {seed}, {name}, case {case} differs; it is made smaller");
                let explained = on_threads(1, || (self.explain)(&mut random(case)));
                Err(explained.concat())
            }
        }
    }
}

/// The same work on each of some threads.
fn on_threads<T: Send>(threads: u64, work: impl Fn() -> T + Sync) -> Vec<T> {
    std::thread::scope(|scope| {
        let start = |_| {
            let thread = std::thread::Builder::new().stack_size(STACK);
            thread.spawn_scoped(scope, &work).expect("a thread starts")
        };
        let threads: Vec<_> = (0..threads).map(start).collect();
        let end = threads.into_iter().map(|thread| thread.join());
        end.map(|done| done.expect("a thread ends")).collect()
    })
}

// ---- days

/// A byte that no statement has.
const UNWRITTEN: u8 = 0xA5;

/// A day, and the room for its statement: too little in some cases.
fn a_day(random: &mut Random) -> (Vec<u8>, usize) {
    let text = generate::day(random);
    let room = match random.below(16) {
        0 => random.below(400) as usize,
        _ => product::STATEMENT,
    };
    (text, room)
}

fn day_agrees(random: &mut Random, worker: &mut Worker) -> bool {
    let (text, room) = a_day(random);
    let outcome = statement::carry_out(&text, Checks::Once);
    match &outcome {
        Ok(ledger) => {
            worker.seen.count(0);
            rules::count(ledger, &mut worker.seen.rules);
        }
        Err(refusal) => worker.seen.count(u64::from(refusal.number)),
    }
    let printed = statement::print_outcome(&outcome);
    product_prints(&text, &printed, &mut worker.out[..room])
}

/// Whether the product writes what is printed as far as there is room, and
/// nothing after it.
fn product_prints(text: &[u8], printed: &[u8], out: &mut [u8]) -> bool {
    out.fill(UNWRITTEN);
    let length = product::statement(text, out).len();
    let (written, rest) = out.split_at(length);
    written == &printed[..printed.len().min(out.len())]
        && rest.iter().all(|&byte| byte == UNWRITTEN)
}

fn explain_day(random: &mut Random) -> String {
    let (text, mut room) = a_day(random);
    let differs =
        |text: &[u8], room| !product_prints(text, &statement::print(text), &mut vec![0; room]);
    if differs(&text, product::STATEMENT) {
        room = product::STATEMENT;
    }
    let start = Instant::now();
    let text = shrink::shrink_day(&text, |text| {
        start.elapsed() < SHRINKING && differs(text, room)
    });
    let model = show(&statement::print(&text));
    let product = show(product::statement(&text, &mut vec![0; room]));
    let text = show(&text);
    format!("room for {room} bytes, day:\n{text}model:\n{model}product:\n{product}")
}

// ---- lists of calls

/// A list of calls, and lengths of the slices: too short or too long in some
/// cases, otherwise as long as needed.
type List = (CallList, Option<Lengths>);

fn a_list(random: &mut Random, make: fn(&mut Random) -> CallList) -> List {
    let list = make(random);
    if !random.one_in(10) {
        return (list, None);
    }
    let mut other = |length: usize| match random.below(3) {
        0 => length,
        1 => length + random.below(9) as usize,
        _ => random.below(length as u64 + 1) as usize,
    };
    let exact = Lengths::of(list.groups.len(), list.places as u64);
    let lengths = Lengths {
        answers: other(exact.answers),
        held: other(exact.held),
        amounts: other(exact.amounts),
        postings: other(exact.postings),
    };
    (list, Some(lengths))
}

fn list_agrees(list: &List, worker: &mut Worker) -> bool {
    let agrees = run_both(list, worker);
    let written = &worker.by_model;
    match written.number {
        0 => {
            let carried_out = list.0.groups.len();
            for answer in written.answers.chunks_exact(ANSWER).take(carried_out) {
                worker.seen.count(answer[0]);
            }
        }
        number => worker.seen.count(number),
    }
    if let Some(ledger) = &worker.ledger {
        rules::count(ledger, &mut worker.seen.rules);
    }
    agrees
}

/// Lets model and product write into slices with the same contents.
fn run_both((list, lengths): &List, worker: &mut Worker) -> bool {
    let calls = numbers::numbers(&list.groups);
    let given = Given {
        sheet: &list.sheet,
        places: list.places as u64,
        calls: &calls,
        text: &list.text,
    };
    let lengths = lengths.unwrap_or(Lengths::of(list.groups.len(), given.places));
    for written in [&mut worker.by_model, &mut worker.by_product] {
        written.fit(lengths);
        written.fill();
    }
    worker.ledger = numbers::calls(&given, Checks::Once, &mut worker.by_model);
    product::calls(&given, &mut worker.by_product);
    worker.by_model == worker.by_product
}

fn explain_list((list, mut lengths): List) -> String {
    let worker = &mut Worker::new();
    if !run_both(&(list.clone(), None), worker) {
        lengths = None;
    }
    let start = Instant::now();
    let late = || start.elapsed() > SHRINKING;
    let small = shrink::shrink_calls(&list, late, |list| {
        !late() && !run_both(&(list.clone(), lengths), worker)
    });
    let shown = show_list(&small, lengths);
    run_both(&(small, lengths), worker);
    shown + &differences(&worker.by_model, &worker.by_product)
}

// ---- differences

fn show(text: &[u8]) -> String {
    let mut out = String::from_utf8_lossy(text).into_owned();
    if !out.ends_with('\n') {
        out.push('\n');
    }
    out
}

fn show_list(list: &CallList, lengths: Option<Lengths>) -> String {
    let mut out = format!("{} places, sheet:\n{}", list.places, show(&list.sheet));
    if let Some(lengths) = lengths {
        out = format!("{lengths:?}\n{out}");
    }
    let mut shown: Vec<&[u8]> = Vec::new();
    for (i, group) in list.groups.iter().enumerate() {
        out += &format!("call {}: {group:?}\n", i + 1);
        let record = match group.kind {
            4 | 5 => group.part(&list.text),
            _ => b"",
        };
        // A record that many calls name is shown once.
        match shown.iter().position(|other| *other == record) {
            _ if record.is_empty() => {}
            Some(at) => out += &format!("record of call {}\n", at + 1),
            None => out += &show(record),
        }
        shown.push(record);
    }
    out
}

/// The first places of each slice that differ, a line for each.
fn differences(model: &Written, product: &Written) -> String {
    const FIRST: usize = 8;
    let mut lines = Vec::new();
    let mut part = |name: String, model: &dyn std::fmt::Debug, product: &dyn std::fmt::Debug| {
        let (model, product) = (format!("{model:?}"), format!("{product:?}"));
        if model != product {
            lines.push(format!("{name}: model {model}, product {product}\n"));
        }
    };
    part("sheet's number".into(), &model.number, &product.number);
    part("sheet's line".into(), &model.line, &product.line);
    part("count".into(), &model.count, &product.count);
    let groups = |numbers: &[u64]| {
        numbers
            .chunks(ANSWER)
            .map(<[u64]>::to_vec)
            .collect::<Vec<_>>()
    };
    let pairs = groups(&model.answers)
        .into_iter()
        .zip(groups(&product.answers));
    for (i, (m, p)) in pairs.enumerate().filter(|(_, (m, p))| m != p).take(FIRST) {
        part(format!("answer {}", i + 1), &m, &p);
    }
    let pairs = model.held.iter().zip(&product.held);
    for (at, (m, p)) in pairs.enumerate().filter(|(_, (m, p))| m != p).take(FIRST) {
        part(held_name(at), m, p);
    }
    let pairs = model.amounts.iter().zip(&product.amounts);
    for (at, (m, p)) in pairs.enumerate().filter(|(_, (m, p))| m != p).take(FIRST) {
        let place = at / ITEMS;
        part(
            format!("amount, {}, item {}", entry(place), at % ITEMS + 1),
            m,
            p,
        );
    }
    let pairs = model
        .postings
        .chunks(POSTING)
        .zip(product.postings.chunks(POSTING));
    for (at, (m, p)) in pairs.enumerate().filter(|(_, (m, p))| m != p).take(FIRST) {
        part(format!("journal place {}", at + 1), &m, &p);
    }
    lines.concat()
}

fn entry(place: usize) -> String {
    format!("hour {} unit {}", place / UNITS + 1, place % UNITS + 1)
}

fn held_name(at: usize) -> String {
    let marks = HOURS * UNITS;
    let energies = marks + HOURS;
    if at < marks {
        format!("commitment, {}", entry(at))
    } else if at < energies {
        format!("mark, hour {}", at - marks + 1)
    } else {
        format!("energy, {}", entry(at - energies))
    }
}
