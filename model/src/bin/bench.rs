//! Times the product and the model on the same inputs (`inputs`) in one run.
//!
//! Each side does the same work: it reads the sheet's text, carries out the
//! day or the list of calls, and writes all of its results into slices that
//! are kept from run to run and never cleared. The sides take turns.
//!
//! The export takes whole lists of calls, so that one settle cannot be timed
//! alone: it is the difference of two lists, which run in pairs.

use model::generate::CallList;
use model::inputs::{self, bytes_of, SETTLES};
use model::ledger::Checks;
use model::numbers::{self, Given, Lengths, Written};
use model::{product, statement};
use std::hint::black_box;
use std::time::{Duration, Instant};

/// Runs of an input: as many as the time allows, but not fewer or more.
const TIME: Duration = Duration::from_secs(6);
const FEWEST: usize = 51;
const MOST: usize = 2_001;

/// The product; the model with 9 and 12 looked at once; at every call.
const SIDES: [Side; 3] = [
    Side::Product,
    Side::Model(Checks::Once),
    Side::Model(Checks::EveryCall),
];

#[derive(Clone, Copy)]
enum Side {
    Product,
    Model(Checks),
}

fn main() {
    println!("Median of the runs, in µs. Buffers are not cleared between runs.");
    println!(
        "b is a list less the list without its last 23 settles, by 23; 1,560 to 2,440 were posted."
    );
    println!("Ratio: product over model. The model looks at 9 and 12 once, then at every call.");
    println!(
        "{:<36} {:>7} {:>5} {:>11} {:>11} {:>7} {:>11} {:>7} {:>13} {:>11}",
        "",
        "bytes",
        "runs",
        "product",
        "model once",
        "ratio",
        "every call",
        "ratio",
        "product MB/s",
        "model MB/s"
    );
    let day = inputs::largest_day();
    report("a. largest day, statement", day.len(), days(&day));
    let day = inputs::many_takes();
    report("   a day of 5,900 takes", day.len(), days(&day));

    let list = inputs::posted_day();
    let shorter = CallList {
        groups: list.groups[..list.groups.len() - SETTLES].to_vec(),
        ..list.clone()
    };
    let (with, without) = pairs(&list, &shorter);
    let one = std::array::from_fn(|side| {
        let with: &Vec<f64> = &with[side];
        let pairs = with.iter().zip(&without[side]);
        let settle = |(with, without): (&f64, &f64)| (with - without) / SETTLES as f64;
        pairs.map(settle).collect()
    });
    let bytes = (bytes_of(&list) - bytes_of(&shorter)) / SETTLES;
    report("b. one settle, 2,000 posted", bytes, one);
    report("   the list of 62 calls", bytes_of(&list), with);
    report(
        "   without its last 23 settles",
        bytes_of(&shorter),
        without,
    );

    let list = inputs::commitment_calls();
    let empty = CallList {
        groups: Vec::new(),
        ..list.clone()
    };
    let (times, sheet_alone) = pairs(&list, &empty);
    report("c. 10,000 takes, releases, moves", bytes_of(&list), times);
    report("   the list of no calls", bytes_of(&empty), sheet_alone);
}

/// The times of each side, in µs.
type Times = [Vec<f64>; 3];

/// Statements of a day.
fn days(day: &[u8]) -> Times {
    let mut out = vec![0; product::STATEMENT];
    let mut rows = Vec::new();
    turns(|side| match side {
        Side::Product => timed(|| product::statement(black_box(day), &mut out).len()),
        Side::Model(checks) => timed(|| {
            rows.clear();
            let outcome = statement::carry_out(black_box(day), checks);
            statement::put_outcome(&mut rows, &outcome);
            rows.len()
        }),
    })
}

/// Two lists of calls, one after the other in each run.
fn pairs(first: &CallList, second: &CallList) -> (Times, Times) {
    let mut first = timer(first);
    let mut second = timer(second);
    let mut seconds = Times::default();
    let mut side_index = 0;
    let firsts = turns(|side| {
        let time = first(side);
        seconds[side_index].push(second(side));
        side_index = (side_index + 1) % SIDES.len();
        time
    });
    (firsts, seconds)
}

/// What times one run of a list of calls.
fn timer(list: &CallList) -> impl FnMut(Side) -> f64 + '_ {
    let calls = numbers::numbers(&list.groups);
    let mut written = Written::default();
    written.fit(Lengths::of(list.groups.len(), list.places as u64));
    move |side| {
        let given = Given {
            sheet: &list.sheet,
            places: list.places as u64,
            calls: &calls,
            text: &list.text,
        };
        timed(|| {
            match side {
                Side::Product => product::calls(black_box(&given), &mut written),
                Side::Model(checks) => {
                    numbers::calls(black_box(&given), checks, &mut written);
                }
            }
            written.count
        })
    }
}

/// Lets the sides take turns.
fn turns(mut run: impl FnMut(Side) -> f64) -> Times {
    let mut times = Times::default();
    let start = Instant::now();
    let more = |runs: usize| runs < FEWEST || (runs < MOST && start.elapsed() < TIME);
    while more(times[0].len()) {
        for (times, side) in times.iter_mut().zip(SIDES) {
            times.push(run(side));
        }
    }
    times
}

/// The time of a thing done, in µs, just after it was done once untimed, so
/// that what the other side left in the caches does not count.
fn timed<T>(mut what: impl FnMut() -> T) -> f64 {
    black_box(what());
    let start = Instant::now();
    black_box(what());
    start.elapsed().as_secs_f64() * 1e6
}

fn report(name: &str, bytes: usize, times: Times) {
    let runs = times[0].len();
    let [product, once, every] = times.map(median);
    println!(
        "{name:<36} {bytes:>7} {runs:>5} {product:>11.2} {once:>11.2} {:>7.2} {every:>11.2} {:>7.2} {:>13.1} {:>11.1}",
        product / once,
        product / every,
        bytes as f64 / product,
        bytes as f64 / once,
    );
}

fn median(mut times: Vec<f64>) -> f64 {
    times.sort_by(f64::total_cmp);
    times[times.len() / 2]
}
