//! What both programs begin and end with, and how a run ends.

use crate::fraction::Fraction;
use crate::graph::Graph;
use crate::lengths::{Fill, FAR};
use crate::network::Network;
use crate::options::Options;
use crate::report::{report, Outcome};
use crate::search::Search;
use std::cmp::Ordering;
use std::time::Instant;

/// Reads the network, runs, and writes the line.
pub fn main_of(program: &str, solve: impl Fn(&Network, &Options) -> Outcome) {
    let options = Options::read();
    let start = Instant::now();
    let net = Network::read(&options.file).unwrap_or_else(|error| stop(&error));
    if let Some(cut) = first_cut(&net) {
        stop(&format!(
            "the commodity of number {cut} has no walk, so no phase can be measured"
        ));
    }
    let read = start.elapsed().as_secs_f64();
    let outcome = solve(&net, &options);
    report(program, &net, &options, read, &outcome);
}

fn stop(why: &str) -> ! {
    eprintln!("{why}");
    std::process::exit(3)
}

/// The first commodity without a walk over cells with a capacity.
fn first_cut(net: &Network) -> Option<usize> {
    let graph = Graph::new(net);
    let ones = vec![1; net.cells.len()];
    let mut search = Search::new(net.nodes);
    let mut reached = vec![Vec::new(); net.nodes];
    for source in net.sources() {
        search.from(&graph, &ones, source);
        reached[source as usize] = search
            .distances
            .iter()
            .map(|&distance| distance < FAR)
            .collect();
    }
    net.commodities
        .iter()
        .position(|commodity| !reached[commodity.from as usize][commodity.to as usize])
}

/// How far a run has come: its phases, the fullest cell, and the least bound.
#[derive(Clone, Copy, Debug)]
pub struct Progress {
    pub phases: u32,
    pub fill: Fill,
    pub upper: Fraction,
    pub closed: bool,
}

impl Progress {
    /// The fraction that all phases carry.
    pub fn lower(&self) -> Fraction {
        Fraction {
            num: self.phases as u128 * self.fill.capacity as u128,
            den: self.fill.load as u128,
        }
    }

    /// One more phase: its fullest cell and its bound, of which the earlier is kept where both are equal.
    pub fn after(earlier: Option<Progress>, fill: Fill, bound: Fraction, gap: u64) -> Progress {
        let phases = earlier.map_or(1, |progress| progress.phases + 1);
        let upper = match earlier {
            Some(progress) if bound.compare(&progress.upper) != Ordering::Less => progress.upper,
            _ => bound,
        };
        let mut progress = Progress {
            phases,
            fill,
            upper,
            closed: false,
        };
        progress.closed = progress.lower().is_within(&upper, gap);
        progress
    }
}
