//! The ways from each node over cells with a capacity.

use crate::network::Network;

/// A way over a cell to a node.
#[derive(Clone, Copy, Debug)]
pub struct Arc {
    pub cell: u16,
    pub to: u16,
}

/// The ways of all nodes in one list, those of a node in the order of cells.
#[derive(Debug)]
pub struct Graph {
    first: Vec<u32>,
    arcs: Vec<Arc>,
}

impl Graph {
    pub fn new(net: &Network) -> Graph {
        let mut out = vec![Vec::new(); net.nodes];
        for (number, cell) in net
            .cells
            .iter()
            .enumerate()
            .filter(|(_, cell)| cell.capacity > 0)
        {
            let number = number as u16;
            out[cell.tail as usize].push(Arc {
                cell: number,
                to: cell.head,
            });
            if cell.tail != cell.head {
                out[cell.head as usize].push(Arc {
                    cell: number,
                    to: cell.tail,
                });
            }
        }
        let ends = out.iter().scan(0, |end, arcs| {
            *end += arcs.len() as u32;
            Some(*end)
        });
        Graph {
            first: std::iter::once(0).chain(ends).collect(),
            arcs: out.concat(),
        }
    }

    pub fn nodes(&self) -> usize {
        self.first.len() - 1
    }

    /// The ways from the node.
    #[inline]
    pub fn out(&self, node: u16) -> &[Arc] {
        let node = node as usize;
        &self.arcs[self.first[node] as usize..self.first[node + 1] as usize]
    }
}
