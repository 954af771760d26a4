//! The tuned yardstick: the solver's rules for speed alone. Trees are kept for each source and repaired, lengths follow the
//! loads, amounts are added up along a tree before they go to the shared loads, unless single additions are asked for, paths
//! have numbers, and workers live for the whole run. It writes no certificate and nothing of it is proved.

mod follow;
mod meeting;
mod paths;
mod tree;

use follow::Followed;
use meeting::Meeting;
use paths::{Paths, Uses};
use std::sync::atomic::{AtomicU64, AtomicUsize, Ordering};
use std::sync::Mutex;
use std::thread;
use std::time::{Duration, Instant};
use tree::{Room, Tree, Ways};
use yardsticks::fraction::Fraction;
use yardsticks::graph::Graph;
use yardsticks::lengths::{volume, Fill};
use yardsticks::network::{turns_of, Commodity, Network, Turn};
use yardsticks::options::Options;
use yardsticks::report::{Outcome, Parts};
use yardsticks::run::{main_of, Progress};

/// Fills whose quotients differ by less than this part are compared exactly.
const NEAR: f64 = 1.0 - 1e-12;

/// What is kept for a source from claim to claim.
struct Source {
    tree: Tree,
    paths: Paths,
    uses: Vec<Uses>,
}

/// Some members of a source's group, by their places in it.
struct Claim {
    group: usize,
    first: usize,
    end: usize,
}

/// What all workers share.
struct Shared<'a> {
    net: &'a Network,
    options: &'a Options,
    budget: u32,
    graph: Graph,
    groups: Vec<Turn>,
    sources: Vec<Mutex<Source>>,
    claims: Vec<Claim>,
    ends: Vec<(u16, u16)>,
    inverses: Vec<f64>,
    loads: Vec<AtomicU64>,
    claimed: AtomicUsize,
    bounded: AtomicUsize,
    /// each worker's part of the bound
    bounds: Vec<Mutex<Fraction>>,
    meeting: Meeting,
}

impl<'a> Shared<'a> {
    fn new(net: &'a Network, options: &'a Options) -> Shared<'a> {
        let groups = turns_of(net, true);
        let threads = threads_of(options);
        let source = |group: &Turn| Source {
            tree: Tree::new(net.nodes, group.source),
            paths: Paths::new(net.nodes),
            uses: group.members.iter().map(|_| Uses::default()).collect(),
        };
        let inverse = |capacity: u64| {
            if capacity == 0 {
                0.0
            } else {
                1.0 / capacity as f64
            }
        };
        Shared {
            net,
            options,
            budget: options.budget(net.commodities.len()),
            graph: Graph::new(net),
            sources: groups
                .iter()
                .map(|group| Mutex::new(source(group)))
                .collect(),
            claims: claims_of(&groups, options.by_source),
            groups,
            ends: net
                .cells
                .iter()
                .map(|cell| (cell.tail, cell.head))
                .collect(),
            inverses: net
                .cells
                .iter()
                .map(|cell| inverse(cell.capacity))
                .collect(),
            loads: net.cells.iter().map(|_| AtomicU64::new(0)).collect(),
            claimed: AtomicUsize::new(0),
            bounded: AtomicUsize::new(0),
            bounds: (0..threads)
                .map(|_| Mutex::new(Fraction { num: 0, den: 0 }))
                .collect(),
            meeting: Meeting::new(threads),
        }
    }

    /// The fullest cell, the first of several.
    fn fullest(&self) -> Fill {
        let mut fullest = Fill {
            capacity: 1,
            load: 0,
        };
        let mut near = f64::MIN_POSITIVE;
        for (number, load) in self.loads.iter().enumerate() {
            let load = load.load(Ordering::Relaxed);
            let full = load as i64 as f64 * self.inverses[number];
            if full >= near {
                let fill = Fill {
                    capacity: self.net.cells[number].capacity,
                    load,
                };
                if fill.is_fuller(&fullest) {
                    fullest = fill;
                    near = full * NEAR;
                }
            }
        }
        fullest
    }

    fn bound_threads(&self) -> usize {
        self.options.bound_threads.unwrap_or(self.options.workers)
    }

    /// The bound of which every thread has made its part.
    fn bound(&self) -> Fraction {
        let mut sum = Fraction { num: 0, den: 0 };
        for bound in &self.bounds {
            let part = *bound.lock().expect("no thread has failed");
            sum = Fraction {
                num: sum.num + part.num,
                den: sum.den + part.den,
            };
        }
        sum
    }
}

/// As many as route or make bounds.
fn threads_of(options: &Options) -> usize {
    options.workers.max(options.bound_threads.unwrap_or(1))
}

/// The claims of a phase: a group each, or a commodity each in the order of commodities.
fn claims_of(groups: &[Turn], by_source: bool) -> Vec<Claim> {
    let whole = |(group, turn): (usize, &Turn)| Claim {
        group,
        first: 0,
        end: turn.members.len(),
    };
    if by_source {
        return groups.iter().enumerate().map(whole).collect();
    }
    let singles = |(group, turn): (usize, &Turn)| {
        let single = move |(first, &member): (usize, &u32)| {
            (
                member,
                Claim {
                    group,
                    first,
                    end: first + 1,
                },
            )
        };
        turn.members
            .iter()
            .enumerate()
            .map(single)
            .collect::<Vec<_>>()
    };
    let mut claims: Vec<_> = groups.iter().enumerate().flat_map(singles).collect();
    claims.sort_by_key(|(member, _)| *member);
    claims.into_iter().map(|(_, claim)| claim).collect()
}

/// Seconds of the parts of a run, as one worker sees them.
#[derive(Default)]
struct Times {
    routing: Duration,
    bound: Duration,
    parts: Parts,
}

/// A thread that lives for the whole run.
struct Worker<'a> {
    number: usize,
    shared: &'a Shared<'a>,
    lengths: Followed<'a>,
    room: Room,
    flows: Vec<u64>,
    /// the cells of a path, the last one first
    path: Vec<u16>,
    /// cells to which this worker has added since it last looked at the loads
    touched: Vec<u16>,
    times: Times,
}

impl<'a> Worker<'a> {
    fn new(number: usize, shared: &'a Shared<'a>) -> Worker<'a> {
        Worker {
            number,
            shared,
            lengths: Followed::new(shared.net, shared.options.step),
            room: Room::new(shared.net.nodes),
            flows: vec![0; shared.net.nodes],
            path: Vec::new(),
            touched: Vec::new(),
            times: Times::default(),
        }
    }

    /// Phases until the gap is met or the budget is spent. Each worker comes to the same end.
    fn run(&mut self) -> Progress {
        let mut progress = None;
        loop {
            let next = self.phase(progress);
            if next.closed || next.phases >= self.shared.budget {
                return next;
            }
            progress = Some(next);
        }
    }

    fn phase(&mut self, earlier: Option<Progress>) -> Progress {
        let shared = self.shared;
        let start = Instant::now();
        if self.number == 0 {
            shared.bounded.store(0, Ordering::Relaxed);
        }
        self.route();
        shared.meeting.meet();
        let routed = Instant::now();
        self.times.routing += routed - start;
        if self.number == 0 {
            shared.claimed.store(0, Ordering::Relaxed);
        }
        let fill = shared.fullest();
        self.close(earlier.is_none(), fill);
        shared.meeting.meet();
        let progress = Progress::after(earlier, fill, shared.bound(), shared.options.gap);
        self.times.bound += routed.elapsed();
        progress
    }

    /// Claims until none is left.
    fn route(&mut self) {
        let shared = self.shared;
        if self.number >= shared.options.workers {
            return;
        }
        while let Some(claim) = shared
            .claims
            .get(shared.claimed.fetch_add(1, Ordering::Relaxed))
        {
            if shared.options.parts {
                self.claim_timed(claim)
            } else {
                self.claim(claim)
            }
        }
    }

    fn claim(&mut self, claim: &Claim) {
        self.follow();
        let source = &mut *self.shared.sources[claim.group]
            .lock()
            .expect("no thread has failed");
        self.search(source);
        source.paths.follow(&source.tree);
        self.add(source, claim);
    }

    fn claim_timed(&mut self, claim: &Claim) {
        let start = Instant::now();
        self.follow();
        let source = &mut *self.shared.sources[claim.group]
            .lock()
            .expect("no thread has failed");
        let followed = Instant::now();
        self.search(source);
        let searched = Instant::now();
        source.paths.follow(&source.tree);
        self.add(source, claim);
        self.times.parts.lengths += (followed - start).as_secs_f64();
        self.times.parts.search += (searched - followed).as_secs_f64();
        self.times.parts.add += searched.elapsed().as_secs_f64();
    }

    /// Puts the lengths right. Where one worker routes alone, it knows which loads have changed.
    fn follow(&mut self) {
        if self.shared.options.workers == 1 && self.number == 0 {
            self.lengths.follow_at(&self.shared.loads, &self.touched);
        } else {
            self.lengths.follow(&self.shared.loads);
        }
        self.touched.clear();
    }

    fn search(&mut self, source: &mut Source) {
        let ways = Ways {
            graph: &self.shared.graph,
            ends: &self.shared.ends,
            lengths: &self.lengths.lengths,
        };
        source
            .tree
            .search(ways, &mut self.room, self.shared.options.keep_trees);
    }

    /// Counts the path of each commodity of the claim, and adds its amount to the loads.
    fn add(&mut self, source: &mut Source, claim: &Claim) {
        let shared = self.shared;
        let members = &shared.groups[claim.group].members[claim.first..claim.end];
        for (&member, uses) in members.iter().zip(&mut source.uses[claim.first..claim.end]) {
            let Commodity { to, amount, .. } = shared.net.commodities[member as usize];
            if shared.options.single_adds {
                self.add_along(&source.tree, to, amount);
            } else {
                self.flows[to as usize] += amount;
            }
            uses.add(source.paths.to[to as usize]);
        }
        if !shared.options.single_adds {
            self.gather(&source.tree, shared.groups[claim.group].source);
        }
    }

    /// Adds the amount to each cell of the path to the node, from the source on.
    fn add_along(&mut self, tree: &Tree, to: u16, amount: u64) {
        let mut path = std::mem::take(&mut self.path);
        tree.put_path(to, &mut path);
        for &cell in path.iter().rev() {
            self.add_to(cell, amount);
        }
        self.path = path;
    }

    /// Gathers amounts along the tree, from its ends on, and adds them to the loads.
    fn gather(&mut self, tree: &Tree, source: u16) {
        for &node in tree.order.iter().rev() {
            let flow = std::mem::take(&mut self.flows[node as usize]);
            if flow > 0 {
                let step = tree.steps[node as usize];
                self.flows[step.from as usize] += flow;
                self.add_to(step.cell, flow);
            }
        }
        self.flows[source as usize] = 0;
    }

    #[inline]
    fn add_to(&mut self, cell: u16, flow: u64) {
        let load = &self.shared.loads[cell as usize];
        if self.shared.options.workers == 1 {
            load.store(load.load(Ordering::Relaxed) + flow, Ordering::Relaxed);
            self.touched.push(cell);
        } else {
            load.fetch_add(flow, Ordering::Relaxed);
        }
    }

    /// This thread's part of the bound of the loads as they are now.
    fn close(&mut self, is_first: bool, fill: Fill) {
        if is_first {
            self.lengths.begin(fill, &self.shared.loads);
            self.touched.clear();
        } else {
            self.follow();
        }
        let num = if self.number == 0 {
            volume(self.shared.net, &self.lengths.lengths)
        } else {
            0
        };
        let den = if self.number < self.shared.bound_threads() {
            self.weigh()
        } else {
            0
        };
        *self.shared.bounds[self.number]
            .lock()
            .expect("no thread has failed") = Fraction { num, den };
    }

    /// Amount times distance over the commodities of the sources that this thread takes.
    fn weigh(&mut self) -> u128 {
        let shared = self.shared;
        let mut sum = 0;
        loop {
            let group = shared.bounded.fetch_add(1, Ordering::Relaxed);
            let Some(turn) = shared.groups.get(group) else {
                return sum;
            };
            self.search(&mut shared.sources[group].lock().expect("no thread has failed"));
            let members = turn
                .members
                .iter()
                .map(|&member| &shared.net.commodities[member as usize]);
            sum += members
                .map(|k| k.amount as u128 * self.room.distances[k.to as usize] as u128)
                .sum::<u128>();
        }
    }
}

/// All threads, the first of which is the caller's.
fn run_all(shared: &Shared) -> (Progress, Times, Parts) {
    thread::scope(|scope| {
        let start = |number: usize| {
            scope.spawn(move || {
                let mut worker = Worker::new(number, shared);
                worker.run();
                worker.times.parts
            })
        };
        let others: Vec<_> = (1..threads_of(shared.options)).map(start).collect();
        let mut first = Worker::new(0, shared);
        let progress = first.run();
        let mut parts = first.times.parts;
        for other in others {
            parts.join(&other.join().expect("a worker ends"));
        }
        (progress, first.times, parts)
    })
}

fn solve(net: &Network, options: &Options) -> Outcome {
    let start = Instant::now();
    let shared = Shared::new(net, options);
    let (progress, times, parts) = run_all(&shared);
    let sources = shared
        .sources
        .into_iter()
        .map(|source| source.into_inner().expect("no thread has failed"));
    let rows = sources
        .map(|source| source.uses.iter().map(Uses::count).sum::<usize>())
        .sum();
    Outcome {
        phases: progress.phases,
        closed: progress.closed,
        lower: progress.lower(),
        upper: progress.upper,
        rows,
        seconds: start.elapsed().as_secs_f64(),
        routing: times.routing.as_secs_f64(),
        store: 0.0,
        bound: times.bound.as_secs_f64(),
        parts: options.parts.then_some(parts),
    }
}

fn main() {
    main_of("tuned", solve)
}
