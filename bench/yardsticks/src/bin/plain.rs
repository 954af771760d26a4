//! The plain yardstick: the solver's rules as one writes them without tuning. Each claim makes all lengths anew and searches
//! from nothing, each phase starts its workers, and each bound its threads.

use std::collections::HashMap;
use std::sync::atomic::{AtomicU64, AtomicUsize, Ordering};
use std::thread;
use std::time::{Duration, Instant};
use yardsticks::fraction::Fraction;
use yardsticks::graph::Graph;
use yardsticks::lengths::{fullest, volume, Fill, Lengths};
use yardsticks::network::{turns_of, Network, Turn};
use yardsticks::options::{processors, Options};
use yardsticks::report::{Outcome, Parts};
use yardsticks::run::{main_of, Progress};
use yardsticks::search::Search;

/// A thread of the bound is started for no fewer sources times cells than these.
const WORK_OF_A_START: usize = 8_192;

/// What every phase needs of a network.
struct Prepared<'a> {
    net: &'a Network,
    graph: Graph,
    lengths: Lengths<'a>,
    turns: Vec<Turn>,
    /// the commodities of each source, for the bound
    groups: Vec<Turn>,
}

/// The paths that a worker found in a phase: for each the commodity, and where its cells end.
#[derive(Default)]
struct Routes {
    ends: Vec<(u32, usize)>,
    cells: Vec<u16>,
    parts: Parts,
}

/// A path and its commodity's weight, for each commodity.
type Rows = Vec<HashMap<Box<[u16]>, u64>>;

/// What a worker of a phase shares with the others.
struct Phase<'a> {
    on: &'a Prepared<'a>,
    reference: Option<Fill>,
    loads: &'a [AtomicU64],
    claimed: AtomicUsize,
    parts: bool,
}

/// Times parts of a claim, where they are asked.
struct Clock(Option<Instant>);

impl Clock {
    fn start(parts: bool) -> Clock {
        Clock(parts.then(Instant::now))
    }

    /// Adds the seconds since the last call.
    fn add_to(&mut self, seconds: &mut f64) {
        if let Some(last) = self.0 {
            let now = Instant::now();
            *seconds += (now - last).as_secs_f64();
            self.0 = Some(now);
        }
    }
}

/// Claims turns until none is left.
fn work(phase: &Phase) -> Routes {
    let mut routes = Routes::default();
    let mut search = Search::new(phase.on.net.nodes);
    let (mut loads, mut exponents, mut lengths) = (Vec::new(), Vec::new(), Vec::new());
    loop {
        let ticket = phase.claimed.fetch_add(1, Ordering::SeqCst);
        let Some(turn) = phase.on.turns.get(ticket) else {
            return routes;
        };
        let mut clock = Clock::start(phase.parts);
        read(phase.loads, &mut loads);
        phase
            .on
            .lengths
            .make(phase.reference, &loads, &mut exponents, &mut lengths);
        clock.add_to(&mut routes.parts.lengths);
        search.from(&phase.on.graph, &lengths, turn.source);
        clock.add_to(&mut routes.parts.search);
        route(phase, turn, &search, &mut routes);
        clock.add_to(&mut routes.parts.add);
    }
}

/// Reads every load.
fn read(shared: &[AtomicU64], loads: &mut Vec<u64>) {
    loads.clear();
    loads.extend(shared.iter().map(|load| load.load(Ordering::SeqCst)));
}

/// Routes each member of the turn along its least path.
fn route(phase: &Phase, turn: &Turn, search: &Search, routes: &mut Routes) {
    for &member in &turn.members {
        let commodity = &phase.on.net.commodities[member as usize];
        let start = routes.cells.len();
        search.path(turn.source, commodity.to, &mut routes.cells);
        for &cell in &routes.cells[start..] {
            phase.loads[cell as usize].fetch_add(commodity.amount, Ordering::SeqCst);
        }
        routes.ends.push((member, routes.cells.len()));
    }
}

/// The work of all workers: that of one in the caller's thread.
fn route_all(phase: &Phase, workers: usize) -> Vec<Routes> {
    thread::scope(|scope| {
        let others: Vec<_> = (1..workers).map(|_| scope.spawn(|| work(phase))).collect();
        let mut routes = vec![work(phase)];
        routes.extend(
            others
                .into_iter()
                .map(|other| other.join().expect("a worker ends")),
        );
        routes
    })
}

/// Adds the paths of a worker to the rows.
fn store(net: &Network, routes: &Routes, rows: &mut Rows) {
    let mut start = 0;
    for &(member, end) in &routes.ends {
        let amount = net.commodities[member as usize].amount;
        let path = &routes.cells[start..end];
        let rows = &mut rows[member as usize];
        match rows.get_mut(path) {
            Some(weight) => *weight += amount,
            None => {
                rows.insert(path.into(), amount);
            }
        }
        start = end;
    }
}

/// Amount times distance over the commodities of some sources.
fn weighted_distance(on: &Prepared, lengths: &[u64], groups: &[Turn]) -> u128 {
    let mut search = Search::new(on.net.nodes);
    let mut sum = 0;
    for group in groups {
        search.from(&on.graph, lengths, group.source);
        let members = group
            .members
            .iter()
            .map(|&member| &on.net.commodities[member as usize]);
        sum += members
            .map(|k| k.amount as u128 * search.distances[k.to as usize] as u128)
            .sum::<u128>();
    }
    sum
}

/// The bound of lengths, in as many threads as pay.
fn bound(on: &Prepared, lengths: &[u64], threads: usize) -> Fraction {
    let work = on.groups.len() * on.net.cells.len();
    let threads = threads.min(work / WORK_OF_A_START).max(1);
    let share = on.groups.len().div_ceil(threads);
    let mut parts = on.groups.chunks(share);
    let own = parts.next().unwrap_or(&[]);
    let den = thread::scope(|scope| {
        let others: Vec<_> = parts
            .map(|part| scope.spawn(|| weighted_distance(on, lengths, part)))
            .collect();
        let own = weighted_distance(on, lengths, own);
        own + others
            .into_iter()
            .map(|other| other.join().expect("a thread ends"))
            .sum::<u128>()
    });
    Fraction {
        num: volume(on.net, lengths),
        den,
    }
}

/// Seconds of the parts of a run.
#[derive(Default)]
struct Times {
    routing: Duration,
    store: Duration,
    bound: Duration,
    parts: Parts,
}

/// A run between its phases.
struct Run<'a> {
    on: &'a Prepared<'a>,
    options: &'a Options,
    loads: Vec<AtomicU64>,
    reference: Option<Fill>,
    rows: Rows,
    times: Times,
}

impl Run<'_> {
    /// One phase, and its bound.
    fn phase(&mut self, earlier: Option<Progress>) -> Progress {
        let start = Instant::now();
        let phase = Phase {
            on: self.on,
            reference: self.reference,
            loads: &self.loads,
            claimed: AtomicUsize::new(0),
            parts: self.options.parts,
        };
        let routes = route_all(&phase, self.options.workers);
        self.times.routing += start.elapsed();
        self.store_all(&routes);
        self.close(earlier)
    }

    fn store_all(&mut self, routes: &[Routes]) {
        let start = Instant::now();
        for routes in routes {
            store(self.on.net, routes, &mut self.rows);
            self.times.parts.join(&routes.parts);
        }
        self.times.store += start.elapsed();
    }

    /// The fullest cell and the bound of the loads as they are now.
    fn close(&mut self, earlier: Option<Progress>) -> Progress {
        let start = Instant::now();
        let (mut loads, mut exponents, mut lengths) = (Vec::new(), Vec::new(), Vec::new());
        read(&self.loads, &mut loads);
        let fill = fullest(self.on.net, &loads).expect("a phase loads some cell");
        self.reference = self.reference.or(Some(fill));
        self.on
            .lengths
            .make(self.reference, &loads, &mut exponents, &mut lengths);
        let bound = bound(
            self.on,
            &lengths,
            self.options.bound_threads.unwrap_or_else(processors),
        );
        self.times.bound += start.elapsed();
        Progress::after(earlier, fill, bound, self.options.gap)
    }

    fn outcome(&self, progress: Progress, seconds: f64) -> Outcome {
        Outcome {
            phases: progress.phases,
            closed: progress.closed,
            lower: progress.lower(),
            upper: progress.upper,
            rows: self.rows.iter().map(HashMap::len).sum(),
            seconds,
            routing: self.times.routing.as_secs_f64(),
            store: self.times.store.as_secs_f64(),
            bound: self.times.bound.as_secs_f64(),
            parts: self.options.parts.then_some(self.times.parts),
        }
    }
}

/// Phases until the gap is met or the budget is spent.
fn solve(net: &Network, options: &Options) -> Outcome {
    let budget = options.budget(net.commodities.len());
    let start = Instant::now();
    let on = Prepared {
        net,
        graph: Graph::new(net),
        lengths: Lengths::new(net, options.step),
        turns: turns_of(net, options.by_source),
        groups: turns_of(net, true),
    };
    let mut run = Run {
        on: &on,
        options,
        loads: net.cells.iter().map(|_| AtomicU64::new(0)).collect(),
        reference: None,
        rows: vec![HashMap::new(); net.commodities.len()],
        times: Times::default(),
    };
    let mut progress = run.phase(None);
    while !progress.closed && progress.phases < budget {
        progress = run.phase(Some(progress));
    }
    run.outcome(progress, start.elapsed().as_secs_f64())
}

fn main() {
    main_of("plain", solve)
}
