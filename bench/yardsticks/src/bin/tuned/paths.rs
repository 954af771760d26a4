//! Numbers for paths: two paths of a source that begin alike share what they begin with, so a path is told by its number.

use crate::tree::Tree;

const NONE: u32 = u32::MAX;

/// A path: the path before its last cell, that cell, and the paths that go on by a cell from the same path.
struct Path {
    before: u32,
    cell: u16,
    longer: u32,
    beside: u32,
}

impl Path {
    fn new(before: u32, cell: u16, beside: u32) -> Path {
        Path {
            before,
            cell,
            longer: NONE,
            beside,
        }
    }
}

/// The paths that were taken from a source, and for each node the number of its own.
pub struct Paths {
    paths: Vec<Path>,
    pub to: Vec<u32>,
}

impl Paths {
    pub fn new(nodes: usize) -> Paths {
        Paths {
            paths: vec![Path::new(NONE, 0, NONE)],
            to: vec![0; nodes],
        }
    }

    /// Gives each node the number of its path in the tree.
    pub fn follow(&mut self, tree: &Tree) {
        for &node in &tree.order {
            let step = tree.steps[node as usize];
            let before = self.to[step.from as usize];
            let known = &self.paths[self.to[node as usize] as usize];
            if known.before != before || known.cell != step.cell {
                self.to[node as usize] = self.longer(before, step.cell);
            }
        }
    }

    /// The path that goes on from that one by the cell.
    fn longer(&mut self, before: u32, cell: u16) -> u32 {
        let first = self.paths[before as usize].longer;
        let mut path = first;
        while path != NONE && self.paths[path as usize].cell != cell {
            path = self.paths[path as usize].beside;
        }
        if path != NONE {
            return path;
        }
        let path = self.paths.len() as u32;
        self.paths.push(Path::new(before, cell, first));
        self.paths[before as usize].longer = path;
        path
    }
}

/// How often a commodity took each of its paths.
#[derive(Default)]
pub struct Uses {
    times: Vec<(u32, u32)>,
    last: usize,
}

impl Uses {
    #[inline]
    pub fn add(&mut self, path: u32) {
        match self.times.get_mut(self.last) {
            Some((last, times)) if *last == path => *times += 1,
            _ => self.add_other(path),
        }
    }

    fn add_other(&mut self, path: u32) {
        self.last = self
            .times
            .iter()
            .position(|&(other, _)| other == path)
            .unwrap_or(self.times.len());
        match self.times.get_mut(self.last) {
            Some((_, times)) => *times += 1,
            None => self.times.push((path, 1)),
        }
    }

    /// How many paths there are.
    pub fn count(&self) -> usize {
        self.times.len()
    }
}
