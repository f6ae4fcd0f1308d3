//! Runs random days and lists of calls through the model alone, counts how
//! often each refusal number, acceptance and rule (`rules`) was seen, and
//! checks each ledger by other ways (`check`).
//!
//! soak [SEED [DAYS [LISTS [LONG]]]]: LISTS texts of calls and as many lists
//! in numbers are run, and LONG lists that fill the longest journal.

use model::ledger::{self, Answer, Checks, Ledger};
use model::random::Random;
use model::rules::{self, RULES};
use model::sheet::Sheet;
use model::{check, generate, replay, statement};
use std::collections::BTreeMap;
use std::process::ExitCode;
use std::time::{Duration, Instant};

/// How often each was seen.
#[derive(Default)]
struct Seen {
    cases: u64,
    bytes: u64,
    accepted: u64,
    refused: BTreeMap<u8, u64>,
    rules: rules::Times,
    making: Duration,
    running: Duration,
}

impl Seen {
    fn print(&self, name: &str) {
        println!(
            "{name}: {} cases, {} bytes a case; made in {:.2} µs, run in {:.2} µs a case",
            self.cases,
            self.bytes / self.cases.max(1),
            micros(self.making, self.cases),
            micros(self.running, self.cases),
        );
        println!("  accepted {}", self.accepted);
        for (number, count) in &self.refused {
            println!("  refused {number}: {count}");
        }
        for ((name, _), count) in RULES.iter().zip(self.rules) {
            println!("  {name}: {count}");
        }
    }

    /// Checks a ledger and counts the rules that it shows.
    fn ledger(&mut self, ledger: &Ledger) -> Result<(), String> {
        rules::count(ledger, &mut self.rules);
        check::ledger(ledger)
    }

    fn refuse(&mut self, number: u8) {
        *self.refused.entry(number).or_default() += 1;
    }

    fn answer(&mut self, answer: &Answer) {
        match answer {
            Answer::Refused(refusal) => self.refuse(refusal.number),
            _ => self.accepted += 1,
        }
    }

    /// Counts the results in what `replay` printed.
    fn replayed(&mut self, printed: &[u8]) {
        for line in printed.split(|&byte| byte == b'\n') {
            let Some(at) = line.windows(8).position(|part| part == b"refused=") else {
                let is_result = line.windows(2).any(|two| two == b" a" || two == b" s");
                self.accepted += u64::from(is_result);
                continue;
            };
            let digits = line[at + 8..]
                .iter()
                .take_while(|byte| byte.is_ascii_digit());
            let number = digits.fold(0, |n, digit| 10 * n + digit - b'0');
            self.refuse(number);
        }
    }
}

fn micros(time: Duration, cases: u64) -> f64 {
    time.as_secs_f64() * 1e6 / cases.max(1) as f64
}

fn main() -> ExitCode {
    let numbers: Vec<u64> = std::env::args()
        .skip(1)
        .map(|arg| arg.parse().expect("numbers: SEED DAYS LISTS LONG"))
        .collect();
    let number = |at: usize, usual: u64| numbers.get(at).copied().unwrap_or(usual);
    let seed = number(0, 1);
    let outcome = days(seed, number(1, 100_000))
        .and_then(|()| call_texts(seed, number(2, 20_000)))
        .and_then(|()| call_lists(seed, number(2, 20_000)))
        .and_then(|()| long_lists(seed, number(3, 20)));
    match outcome {
        Ok(()) => ExitCode::SUCCESS,
        Err(problem) => {
            println!("{problem}");
            ExitCode::FAILURE
        }
    }
}

/// A thing done, and how long it took added to a time.
fn timed<T>(time: &mut Duration, what: impl FnOnce() -> T) -> T {
    let start = Instant::now();
    let done = what();
    *time += start.elapsed();
    done
}

fn days(seed: u64, count: u64) -> Result<(), String> {
    let mut seen = Seen::default();
    for case in 0..count {
        let mut random = Random::for_case(seed, 4 * case);
        let text = timed(&mut seen.making, || generate::day(&mut random));
        let outcome = timed(&mut seen.running, || {
            let outcome = statement::carry_out(&text, Checks::Once);
            std::hint::black_box(statement::print_outcome(&outcome));
            outcome
        });
        seen.cases += 1;
        seen.bytes += text.len() as u64;
        let problem = |why: String| format!("seed {seed} day {case}: {why}");
        match &outcome {
            Ok(ledger) => {
                seen.accepted += 1;
                seen.ledger(ledger).map_err(problem)?;
            }
            Err(refusal) => seen.refuse(refusal.number),
        }
        let again = statement::carry_out(&text, Checks::EveryCall);
        if statement::print_outcome(&again) != statement::print_outcome(&outcome) {
            return Err(problem(
                "checking 9 and 12 at every call differs".to_string(),
            ));
        }
    }
    seen.print("days");
    Ok(())
}

fn call_texts(seed: u64, count: u64) -> Result<(), String> {
    let mut seen = Seen::default();
    for case in 0..count {
        let mut random = Random::for_case(seed, 4 * case + 1);
        let text = timed(&mut seen.making, || generate::call_text(&mut random));
        let places = statement::PLACES;
        let (printed, ledger) = timed(&mut seen.running, || {
            replay::carry_out(&text, places, Checks::Once)
        });
        seen.cases += 1;
        seen.bytes += text.len() as u64;
        seen.replayed(&printed);
        let problem = |why: String| format!("seed {seed} call text {case}: {why}");
        if let Some(ledger) = &ledger {
            seen.ledger(ledger).map_err(problem)?;
        }
        if replay::carry_out(&text, places, Checks::EveryCall).0 != printed {
            return Err(problem(
                "checking 9 and 12 at every call differs".to_string(),
            ));
        }
    }
    seen.print("call texts");
    Ok(())
}

fn call_lists(seed: u64, count: u64) -> Result<(), String> {
    let mut seen = Seen::default();
    for case in 0..count {
        let mut random = Random::for_case(seed, 4 * case + 2);
        let list = timed(&mut seen.making, || generate::call_list(&mut random));
        run_list(&list, &mut seen).map_err(|why| format!("seed {seed} list {case}: {why}"))?;
    }
    seen.print("call lists");
    Ok(())
}

fn long_lists(seed: u64, count: u64) -> Result<(), String> {
    let mut seen = Seen::default();
    for case in 0..count {
        let mut random = Random::for_case(seed, 4 * case + 3);
        let list = timed(&mut seen.making, || generate::long_list(&mut random));
        run_list(&list, &mut seen).map_err(|why| format!("seed {seed} long list {case}: {why}"))?;
    }
    seen.print("long lists");
    Ok(())
}

fn run_list(list: &generate::CallList, seen: &mut Seen) -> Result<(), String> {
    seen.cases += 1;
    seen.bytes += (list.sheet.len() + list.text.len()) as u64;
    let run = |checks: Checks| -> Result<(Vec<Answer>, Ledger), model::Refusal> {
        let (sheet, _) = Sheet::read(&list.sheet)?;
        Ok(ledger::run(
            sheet,
            list.places,
            &list.groups,
            &list.text,
            checks,
        ))
    };
    match timed(&mut seen.running, || run(Checks::Once)) {
        Err(refusal) => seen.answer(&Answer::Refused(refusal)),
        Ok((answers, ledger)) => {
            answers.iter().for_each(|answer| seen.answer(answer));
            seen.ledger(&ledger)?;
            check::calls(&list.groups, &answers, &ledger)?;
            let again = run(Checks::EveryCall).map(|(answers, _)| answers);
            if again != Ok(answers) {
                return Err("checking 9 and 12 at every call differs".to_string());
            }
        }
    }
    Ok(())
}
