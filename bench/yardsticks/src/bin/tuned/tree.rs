//! Trees of least paths that are kept and repaired: distances along the tree of before are put right where a cell shows that
//! they are not least.

use std::cmp::Reverse;
use std::collections::BinaryHeap;
use yardsticks::graph::Graph;
use yardsticks::lengths::FAR;
use yardsticks::search::Step;

/// Cells for each node up to which it pays to look at all ways to each node.
const FEW_CELLS: usize = 2;

/// What searches of a worker work in.
pub struct Room {
    pub distances: Vec<u64>,
    open: BinaryHeap<Reverse<(u64, u16)>>,
    placed: Vec<bool>,
    late: Vec<u16>,
}

impl Room {
    pub fn new(nodes: usize) -> Room {
        Room {
            distances: vec![FAR; nodes],
            open: BinaryHeap::new(),
            placed: vec![false; nodes],
            late: Vec::new(),
        }
    }
}

/// The last step to each node, and the nodes that were reached, each behind the one before it.
pub struct Tree {
    source: u16,
    pub steps: Vec<Step>,
    pub order: Vec<u16>,
    is_known: bool,
}

/// What a search goes over.
#[derive(Clone, Copy)]
pub struct Ways<'a> {
    pub graph: &'a Graph,
    /// both ends of each cell
    pub ends: &'a [(u16, u16)],
    pub lengths: &'a [u64],
}

impl Tree {
    pub fn new(nodes: usize, source: u16) -> Tree {
        Tree {
            source,
            steps: vec![Step::default(); nodes],
            order: Vec::new(),
            is_known: false,
        }
    }

    /// Finds the least distances, from the tree of before where it may.
    pub fn search(&mut self, ways: Ways, room: &mut Room, keep: bool) {
        room.distances.fill(FAR);
        room.distances[self.source as usize] = 0;
        if !self.is_known || !keep {
            self.find(ways, room);
            return;
        }
        if ways.ends.len() <= FEW_CELLS * ways.graph.nodes() {
            self.look_along(ways, room);
        } else {
            self.go_along(ways, room);
        }
        self.shorten(ways, room);
        if !room.open.is_empty() {
            self.spread(ways, room);
            self.put_in_order(room);
        }
    }

    /// The cells of the path to a node, the last one first.
    pub fn put_path(&self, to: u16, path: &mut Vec<u16>) {
        path.clear();
        let mut node = to;
        while node != self.source {
            let step = self.steps[node as usize];
            path.push(step.cell);
            node = step.from;
        }
    }

    /// From nothing.
    fn find(&mut self, ways: Ways, room: &mut Room) {
        room.open.push(Reverse((0, self.source)));
        self.spread(ways, room);
        let source = self.source;
        let distances = &room.distances;
        self.order.clear();
        self.order.extend(
            (0..distances.len() as u16)
                .filter(|&node| node != source && distances[node as usize] < FAR),
        );
        self.order
            .sort_unstable_by_key(|&node| distances[node as usize]);
        self.is_known = true;
    }

    /// Distances along the tree.
    fn go_along(&self, ways: Ways, room: &mut Room) {
        for &node in &self.order {
            let step = self.steps[node as usize];
            room.distances[node as usize] =
                room.distances[step.from as usize] + ways.lengths[step.cell as usize];
        }
    }

    /// The same, over the nearest of the nodes before each in the tree's order: mostly these are the least distances, and it
    /// pays where nodes have few ways.
    fn look_along(&mut self, ways: Ways, room: &mut Room) {
        for &node in &self.order {
            let mut step = self.steps[node as usize];
            let mut distance =
                room.distances[step.from as usize] + ways.lengths[step.cell as usize];
            for arc in ways.graph.out(node) {
                let there = room.distances[arc.to as usize] + ways.lengths[arc.cell as usize];
                if there < distance {
                    distance = there;
                    step = Step {
                        cell: arc.cell,
                        from: arc.to,
                    };
                }
            }
            room.distances[node as usize] = distance;
            self.steps[node as usize] = step;
        }
    }

    /// Goes over each cell by which a node is nearer.
    fn shorten(&mut self, ways: Ways, room: &mut Room) {
        for (number, (&(tail, head), &length)) in ways.ends.iter().zip(ways.lengths).enumerate() {
            let apart = room.distances[tail as usize] as i64 - room.distances[head as usize] as i64;
            // which end is nearer follows no pattern, so no branch asks for it before one is needed
            if apart.unsigned_abs() > length {
                self.go_over(ways, room, number, apart > 0);
            }
        }
    }

    /// Goes over the cell, from its head or from its tail.
    #[cold]
    fn go_over(&mut self, ways: Ways, room: &mut Room, number: usize, from_head: bool) {
        let (tail, head) = ways.ends[number];
        let (from, to) = if from_head {
            (head, tail)
        } else {
            (tail, head)
        };
        let there = room.distances[from as usize] + ways.lengths[number];
        self.step(
            room,
            Step {
                cell: number as u16,
                from,
            },
            to,
            there,
        );
    }

    #[inline]
    fn step(&mut self, room: &mut Room, step: Step, to: u16, distance: u64) {
        room.distances[to as usize] = distance;
        self.steps[to as usize] = step;
        room.open.push(Reverse((distance, to)));
    }

    /// Goes on from the open nodes, the nearest first.
    fn spread(&mut self, ways: Ways, room: &mut Room) {
        while let Some(Reverse((distance, node))) = room.open.pop() {
            if distance == room.distances[node as usize] {
                self.go_on(ways, room, node, distance);
            }
        }
    }

    #[inline]
    fn go_on(&mut self, ways: Ways, room: &mut Room, node: u16, distance: u64) {
        for arc in ways.graph.out(node) {
            let there = distance + ways.lengths[arc.cell as usize];
            if there < room.distances[arc.to as usize] {
                self.step(
                    room,
                    Step {
                        cell: arc.cell,
                        from: node,
                    },
                    arc.to,
                    there,
                );
            }
        }
    }

    /// Puts each node behind the one before it: those that are not go to the end, again and again.
    fn put_in_order(&mut self, room: &mut Room) {
        room.placed.fill(false);
        room.placed[self.source as usize] = true;
        let mut end = self.place_all(0, room);
        while end < self.order.len() {
            end = self.place_all(end, room);
        }
    }

    /// Places those nodes from the given place on whose node before is placed, and gives the place where the others begin.
    fn place_all(&mut self, start: usize, room: &mut Room) -> usize {
        let mut end = start;
        room.late.clear();
        for at in start..self.order.len() {
            let node = self.order[at];
            if room.placed[self.steps[node as usize].from as usize] {
                room.placed[node as usize] = true;
                self.order[end] = node;
                end += 1;
            } else {
                room.late.push(node);
            }
        }
        self.order[end..].copy_from_slice(&room.late);
        end
    }
}
