//! A day of readings: for each hour and feed a bracket of feed, unit and value, side by side in
//! one register.
//!
//! Run it with `cargo run --release --example readings`. Hours are collected in register 1 and
//! joined to the day in register 0 once complete, since a join copies the cells of both sides.

use std::error::Error;

use zelmotar::{Call, Store, Term, Terms, FIRST_HEAP_CELL};

/// The cells of the store's heap.
const HEAP: usize = 496;

const DAY: u32 = 0;
const HOUR: u32 = 1;
const READING: u32 = 2;
const PART: u32 = 3;

const AMPS: u32 = 1;
const MILLIAMPS: u32 = 2;

/// A reading as the store holds it.
#[derive(Clone, Copy, Debug, PartialEq, Eq)]
struct Reading {
    feed: u32,
    unit: u32,
    value: u32,
}

impl Reading {
    /// The calls that append the reading to the hour.
    fn calls(self) -> Vec<Call> {
        let mut calls = vec![Call::Clear { d: READING }];
        for code in [self.feed, self.unit, self.value] {
            calls.push(Call::Symbol { d: PART, code });
            calls.push(Call::Join { d: READING, a: READING, b: PART });
        }
        calls.push(Call::Wrap { d: READING, a: READING });
        calls.push(Call::Join { d: HOUR, a: HOUR, b: READING });
        calls
    }

    /// The reading in a term, if it is a bracket of exactly three symbols.
    fn of(term: Term) -> Option<Reading> {
        let Term::Bracket(parts) = term else {
            return None;
        };
        let codes: Option<Vec<u32>> = parts.map(code).collect();
        match codes?[..] {
            [feed, unit, value] => Some(Reading { feed, unit, value }),
            _ => None,
        }
    }

    fn milliamps(self) -> u64 {
        let factor = if self.unit == AMPS { 1000 } else { 1 };
        u64::from(self.value) * factor
    }
}

/// The code of a symbol.
fn code(term: Term) -> Option<u32> {
    match term {
        Term::Symbol(code) => Some(code),
        Term::Bracket(_) => None,
    }
}

/// What three feeds read in an hour: a lamp, a pump that runs by day, a heater that runs by night.
fn readings_of(hour: u32) -> [Reading; 3] {
    let day = (6..20).contains(&hour);
    [
        Reading { feed: 11, unit: MILLIAMPS, value: 300 + 7 * hour },
        Reading { feed: 12, unit: AMPS, value: if day { 9 } else { 1 } },
        Reading { feed: 13, unit: MILLIAMPS, value: if day { 40 } else { 5200 } },
    ]
}

fn print_feed(feed: u32, day: Terms) {
    let readings = day.filter_map(Reading::of).filter(|reading| reading.feed == feed);
    let amounts: Vec<u64> = readings.map(Reading::milliamps).collect();
    let (sum, most) = (amounts.iter().sum::<u64>(), amounts.iter().max().unwrap_or(&0));
    println!("feed {feed}: {} readings, mean {} mA, most {most} mA", amounts.len(), sum / 24);
}

fn main() -> Result<(), Box<dyn Error>> {
    let mut store = Store::new(FIRST_HEAP_CELL + HEAP)?;
    for hour in 0..24 {
        let mut calls = vec![Call::Clear { d: HOUR }];
        calls.extend(readings_of(hour).into_iter().flat_map(Reading::calls));
        calls.push(Call::Join { d: DAY, a: DAY, b: HOUR });
        store.run_all(&calls)?;
    }
    store.run_all(&[HOUR, READING, PART].map(|d| Call::Clear { d }))?;
    println!(
        "the day has {} readings; the first is ({})",
        store.look(0).len(),
        first(store.look(0))
    );
    for feed in 11..=13 {
        print_feed(feed, store.look(0));
    }
    let before = store.top();
    let live = store.collect()?;
    println!("{live} of {HEAP} cells are live; top was {before} and is {}", store.top());
    Ok(())
}

/// The first reading, written out.
fn first(mut day: Terms) -> String {
    match day.next() {
        Some(Term::Bracket(parts)) => parts.to_string(),
        _ => String::new(),
    }
}
