//! The words of the command line.

use std::thread::available_parallelism;

/// Commodities times phases of a run.
const MOST_WORK: u64 = 2_097_152;
/// Phases where none are asked.
const PHASES: u64 = 1_000;

/// What is asked of a run.
#[derive(Debug)]
pub struct Options {
    pub file: String,
    pub workers: usize,
    phases: Option<u32>,
    /// in millionths
    pub gap: u64,
    pub step: u32,
    /// claims of all commodities of a source, or of each alone
    pub by_source: bool,
    /// times of lengths, searches and additions are told apart
    pub parts: bool,
    no_limit: bool,
    /// threads of the bound
    pub bound_threads: Option<usize>,
    /// searches begin at the tree of the search before (`tuned`)
    pub keep_trees: bool,
    /// each commodity adds to each cell of its path by a step of its own (`tuned`), as the model of `mcf`'s loads has it
    pub single_adds: bool,
}

const USAGE: &str = "usage: plain|tuned NET [--workers N] [--phases P] [--gap G] [--step S] [--groups 0|1] [--parts 0|1] \
                     [--nolimit 0|1] [--bound N] [--trees 0|1] [--single 0|1]";

impl Options {
    /// The program's own words, or an end with how it is called.
    pub fn read() -> Options {
        Options::parse(std::env::args().skip(1)).unwrap_or_else(|| {
            eprintln!("{USAGE}");
            std::process::exit(2)
        })
    }

    fn parse(mut words: impl Iterator<Item = String>) -> Option<Options> {
        let mut options = Options {
            file: words.next()?,
            workers: 4,
            phases: None,
            gap: 50_000,
            step: 8_192,
            by_source: true,
            parts: false,
            no_limit: false,
            bound_threads: None,
            keep_trees: true,
            single_adds: false,
        };
        while let Some(name) = words.next() {
            options.set(&name, &words.next()?)?;
        }
        Some(options)
    }

    fn set(&mut self, name: &str, value: &str) -> Option<()> {
        let number = |most: u64| value.parse::<u64>().ok().filter(|&number| number <= most);
        match name {
            "--workers" => self.workers = number(64)?.max(1) as usize,
            "--phases" => self.phases = Some(number(u32::MAX as u64)?.max(1) as u32),
            "--gap" => self.gap = u64::try_from(crate::numbers::millionths(value).ok()?).ok()?,
            "--step" => self.step = number(1 << 20)?.max(1) as u32,
            "--groups" => self.by_source = number(1)? == 1,
            "--parts" => self.parts = number(1)? == 1,
            "--nolimit" => self.no_limit = number(1)? == 1,
            "--bound" => self.bound_threads = Some(number(64)?.max(1) as usize),
            "--trees" => self.keep_trees = number(1)? == 1,
            "--single" => self.single_adds = number(1)? == 1,
            _ => return None,
        }
        Some(())
    }

    /// The most phases for so many commodities, or an end where the work is over its limit.
    pub fn budget(&self, commodities: usize) -> u32 {
        let commodities = commodities as u64;
        let most = MOST_WORK / commodities;
        let phases = self.phases.map_or(PHASES.min(most), u64::from);
        if phases > most && !self.no_limit {
            eprintln!("refused work {}", phases * commodities);
            std::process::exit(3)
        }
        phases as u32
    }
}

/// As many threads as there are processors.
pub fn processors() -> usize {
    available_parallelism().map_or(1, |count| count.get())
}
