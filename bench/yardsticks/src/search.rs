//! The plain search: least distances from a node, by a heap from std.

use crate::graph::Graph;
use crate::lengths::FAR;
use std::cmp::Reverse;
use std::collections::BinaryHeap;

/// The cell by which a node was reached, and the node before it.
#[derive(Clone, Copy, Debug, Default)]
pub struct Step {
    pub cell: u16,
    pub from: u16,
}

/// Distances from one node, and the last step to each.
pub struct Search {
    pub distances: Vec<u64>,
    steps: Vec<Step>,
    open: BinaryHeap<Reverse<(u64, u16)>>,
}

impl Search {
    pub fn new(nodes: usize) -> Search {
        Search {
            distances: vec![FAR; nodes],
            steps: vec![Step::default(); nodes],
            open: BinaryHeap::new(),
        }
    }

    /// Finds the least distances from the node.
    pub fn from(&mut self, graph: &Graph, lengths: &[u64], source: u16) {
        self.distances.fill(FAR);
        self.distances[source as usize] = 0;
        self.open.push(Reverse((0, source)));
        while let Some(Reverse((distance, node))) = self.open.pop() {
            if distance == self.distances[node as usize] {
                self.go_on(graph, lengths, node, distance);
            }
        }
    }

    fn go_on(&mut self, graph: &Graph, lengths: &[u64], node: u16, distance: u64) {
        for arc in graph.out(node) {
            let there = distance + lengths[arc.cell as usize];
            if there < self.distances[arc.to as usize] {
                self.distances[arc.to as usize] = there;
                self.steps[arc.to as usize] = Step {
                    cell: arc.cell,
                    from: node,
                };
                self.open.push(Reverse((there, arc.to)));
            }
        }
    }

    /// Puts the cells of the path from the source to a node that was reached behind those of the list.
    pub fn path(&self, source: u16, to: u16, cells: &mut Vec<u16>) {
        let (start, mut node) = (cells.len(), to);
        while node != source {
            let step = self.steps[node as usize];
            cells.push(step.cell);
            node = step.from;
        }
        cells[start..].reverse();
    }
}
