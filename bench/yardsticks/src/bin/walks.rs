//! The plain yardstick's lengths and searches on the networks and loads of the crate `walk_speed`: `walks NODES LINKS ROUNDS`.
//! It writes nanoseconds of a round, and the sum of the distances, which has to be that of `walk_speed`.

use std::time::Instant;
use yardsticks::graph::Graph;
use yardsticks::lengths::{Fill, Lengths, FAR};
use yardsticks::network::{Cell, Network};
use yardsticks::search::Search;

/// What loads count against.
const REFERENCE: Fill = Fill {
    capacity: 7,
    load: 3_000,
};
const STEP: u32 = 8_192;

/// Words that look random, the same as those of `walk_speed`.
struct Words {
    state: u64,
}

impl Words {
    fn below(&mut self, end: u64) -> u64 {
        self.state = self
            .state
            .wrapping_mul(6364136223846793005)
            .wrapping_add(1442695040888963407);
        (self.state >> 33) % end
    }
}

/// A cell of the ring, or one between any two nodes.
fn drawn_cell(words: &mut Words, number: u64, nodes: u64) -> Cell {
    let (tail, head) = if number < nodes {
        (number, (number + 1) % nodes)
    } else {
        let tail = words.below(nodes);
        (tail, (tail + 1 + words.below(nodes - 1)) % nodes)
    };
    Cell {
        tail: tail as u16,
        head: head as u16,
        capacity: 1 + words.below(1_000),
    }
}

/// Nanoseconds of all lengths and of all searches, and the sum of the distances.
fn measure(net: &Network, loads: &mut [u64], rounds: u64) -> (u128, u128, u64) {
    let (graph, made) = (Graph::new(net), Lengths::new(net, STEP));
    let mut search = Search::new(net.nodes);
    let (mut exponents, mut lengths, mut path) = (Vec::new(), Vec::new(), Vec::new());
    let (mut lengths_took, mut searches_took, mut far) = (0, 0, 0u64);
    for round in 0..rounds {
        let start = Instant::now();
        made.make(Some(REFERENCE), loads, &mut exponents, &mut lengths);
        let begun = Instant::now();
        lengths_took += (begun - start).as_nanos();
        let from = (round % net.nodes as u64) as u16;
        search.from(&graph, &lengths, from);
        searches_took += begun.elapsed().as_nanos();
        let to = (round * 7 % net.nodes as u64) as u16;
        if search.distances[to as usize] < FAR {
            far = far.wrapping_add(search.distances[to as usize]);
            path.clear();
            search.path(from, to, &mut path);
            path.iter()
                .for_each(|&cell: &u16| loads[cell as usize] += 1 + round % 100);
        }
    }
    (lengths_took, searches_took, far)
}

fn main() {
    let numbers: Vec<u64> = std::env::args()
        .skip(1)
        .filter_map(|word| word.parse().ok())
        .collect();
    let &[nodes, links, rounds] = numbers.as_slice() else {
        eprintln!("usage: walks NODES LINKS ROUNDS");
        std::process::exit(2)
    };
    let mut words = Words { state: 7 };
    let cells = (0..links)
        .map(|number| drawn_cell(&mut words, number, nodes))
        .collect();
    let mut loads: Vec<u64> = (0..links).map(|_| words.below(10_000)).collect();
    let net = Network {
        nodes: nodes as usize,
        cells,
        commodities: Vec::new(),
    };
    let (lengths, searches, far) = measure(&net, &mut loads, rounds);
    println!(
        "lengths {} search {} sum {far}",
        lengths / rounds as u128,
        searches / rounds as u128
    );
}
