//! The line that a run writes: names and values in turn.

use crate::fraction::Fraction;
use crate::network::Network;
use crate::options::Options;

/// Seconds of the parts of all claims, of all workers together.
#[derive(Clone, Copy, Debug, Default)]
pub struct Parts {
    pub lengths: f64,
    pub search: f64,
    pub add: f64,
}

impl Parts {
    pub fn join(&mut self, other: &Parts) {
        self.lengths += other.lengths;
        self.search += other.search;
        self.add += other.add;
    }
}

/// What a run found, and the seconds that it took.
#[derive(Clone, Copy, Debug)]
pub struct Outcome {
    pub phases: u32,
    pub closed: bool,
    pub lower: Fraction,
    pub upper: Fraction,
    pub rows: usize,
    /// all phases and bounds, without reading
    pub seconds: f64,
    /// claims alone
    pub routing: f64,
    /// the rows of paths, where they are not part of claims
    pub store: f64,
    pub bound: f64,
    pub parts: Option<Parts>,
}

/// Writes the line.
pub fn report(program: &str, net: &Network, options: &Options, read: f64, outcome: &Outcome) {
    let verdict = if outcome.closed { "closed" } else { "open" };
    print!(
        "{program} {} nodes {} cells {} commodities {} sources {} ",
        options.file.rsplit('/').next().unwrap_or(""),
        net.nodes,
        net.cells.len(),
        net.commodities.len(),
        net.sources().len()
    );
    print!(
        "step {} workers {} groups {} ",
        options.step, options.workers, options.by_source as u8
    );
    print!("phases {} verdict {verdict} ", outcome.phases);
    let (lower, upper) = (outcome.lower.value(), outcome.upper.value());
    print!(
        "lower {lower:.6} upper {upper:.6} gap {:.6} ",
        upper / lower - 1.0
    );
    print!(
        "seconds {:.4} msphase {:.4} ",
        outcome.seconds,
        1000.0 * outcome.seconds / outcome.phases as f64
    );
    print!(
        "routing {:.4} store {:.4} bound {:.4} rows {} read {read:.4} ",
        outcome.routing, outcome.store, outcome.bound, outcome.rows
    );
    if let Some(parts) = outcome.parts {
        print!(
            "parts_lengths {:.4} parts_search {:.4} parts_add {:.4} ",
            parts.lengths, parts.search, parts.add
        );
    }
    println!("frac {} {}", outcome.lower, outcome.upper);
}
