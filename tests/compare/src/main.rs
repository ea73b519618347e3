//! Asks the library and the reference the same questions, made by chance from a seed, and fails where an answer or a byte of lent memory
//! differs: compare [--seconds N] [--calls N] [--seed S] [--only FAMILY] [--lister WORDS]. It ends at whichever comes first, 40 seconds
//! where neither is named. WORDS run the lister, which is compared too where they are given.

mod asked;
mod case;
mod chance;
mod coder;
mod library;
mod listed;
mod make;
mod shelf;
mod writing;

use asked::{Asked, Call};
use case::{report, Case, Family, Tally};
use chance::Chance;
use std::process::ExitCode;
use std::time::{Duration, Instant};

/// A listing is a process of its own and takes as long as some thousand calls.
const ROUNDS_A_LISTING: u64 = 3000;

struct Limits {
    seconds: Option<u64>,
    calls: Option<u64>,
    seed: u64,
    only: Option<Family>,
    lister: Option<String>,
}

fn limits() -> Option<Limits> {
    let mut limits = Limits { seconds: None, calls: None, seed: 1, only: None, lister: None };
    let mut words = std::env::args().skip(1);
    while let Some(word) = words.next() {
        let value = words.next()?;
        match word.as_str() {
            "--seconds" => limits.seconds = Some(value.parse().ok()?),
            "--calls" => limits.calls = Some(value.parse().ok()?),
            "--seed" => limits.seed = value.parse().ok()?,
            "--only" => limits.only = Some(Family::ALL.into_iter().find(|family| family.name() == value)?),
            "--lister" => limits.lister = Some(value),
            _ => return None,
        }
    }
    if limits.calls.is_none() {
        limits.seconds.get_or_insert(40);
    }
    Some(limits)
}

/// A run so far: the chance it goes by, and what was compared.
struct Run {
    chance: Chance,
    tally: Tally,
    only: Option<Family>,
}

impl Run {
    /// An error is the report of the case's smallest form.
    fn compare(&mut self, case: &impl Case) -> Result<(), String> {
        if self.only.is_some_and(|only| only != case.family()) {
            return Ok(());
        }
        match case.difference(&mut self.tally) {
            None => Ok(()),
            Some(_) => Err(report(case)),
        }
    }

    fn calls(&mut self, calls: Vec<Call>, bytes: &[u8]) -> Result<(), String> {
        let mut case = Asked { call: Call::Judge, bytes: bytes.to_vec() };
        for call in calls {
            case.call = call;
            self.compare(&case)?;
        }
        Ok(())
    }

    fn section(&mut self, bytes: &[u8]) -> Result<(), String> {
        let calls = asked::of_section(&mut self.chance, bytes);
        self.calls(calls, bytes)
    }

    fn field(&mut self) -> Result<(), String> {
        let most = self.chance.of(&[20, 60, 255, 255, 1200]);
        let built = make::text(&mut self.chance, most);
        let bytes = make::damaged(&mut self.chance, built);
        let calls = asked::of_field(&mut self.chance, &bytes);
        self.calls(calls, &bytes)
    }

    fn list(&mut self) -> Result<(), String> {
        let most = self.chance.of(&[20, 200, 1000]);
        let built = make::list(&mut self.chance, most, true);
        let bytes = make::damaged(&mut self.chance, built);
        let calls = asked::of_list(&mut self.chance);
        self.calls(calls, &bytes)
    }

    /// There and back: what was written is read.
    fn written(&mut self) -> Result<(), String> {
        let write = writing::any(&mut self.chance);
        self.compare(&write)?;
        write.section().map_or(Ok(()), |bytes| self.section(&bytes))
    }

    fn round(&mut self) -> Result<(), String> {
        match self.chance.below(20) {
            0..=9 => {
                let bytes = make::received(&mut self.chance);
                self.section(&bytes)
            }
            10..=12 => self.field(),
            13..=15 => self.list(),
            16 | 17 => self.written(),
            18 => {
                let history = shelf::history(&mut self.chance);
                self.compare(&history)
            }
            _ => shelf::unruly(&mut self.chance).iter().try_for_each(|case| self.compare(case)),
        }
    }
}

fn main() -> ExitCode {
    let Some(limits) = limits() else {
        eprintln!("compare [--seconds N] [--calls N] [--seed S] [--only FAMILY] [--lister WORDS]");
        return ExitCode::from(2);
    };
    let began = Instant::now();
    let mut run = Run { chance: Chance::new(limits.seed), tally: Tally::default(), only: limits.only };
    let over = |tally: &Tally| {
        limits.calls.is_some_and(|calls| tally.all() >= calls)
            || limits.seconds.is_some_and(|seconds| began.elapsed() >= Duration::from_secs(seconds))
    };
    for round in 0u64.. {
        if over(&run.tally) {
            break;
        }
        let compared = match &limits.lister {
            Some(words) if round % ROUNDS_A_LISTING == 0 => {
                let listed = listed::any(&mut run.chance, words);
                run.compare(&listed)
            }
            _ => run.round(),
        };
        if let Err(difference) = compared {
            println!("seed {}: a difference at call {}\n{difference}", limits.seed, run.tally.all());
            return ExitCode::FAILURE;
        }
    }
    for family in Family::ALL {
        println!("{}", run.tally.line(family));
    }
    println!("seed {}, {:.0} seconds", limits.seed, began.elapsed().as_secs_f64());
    println!("{} calls compared, 0 different", run.tally.all());
    ExitCode::SUCCESS
}
