//! The length of each cell under loads, as the rules have it.

use crate::network::Network;

/// 2 ^ 62: longer than every path.
pub const FAR: u64 = 1 << 62;

/// How many bits of a drop are a part of a power of two.
pub const PART_BITS: u32 = 16;

/// From so many whole powers of two on, a weight is 0.
pub const MOST_POWERS: u64 = 41;

/// A weight is counted in so many parts of a length.
pub const SCALE_BITS: u32 = 12;

/// The capacity and the load of a cell.
#[derive(Clone, Copy, Debug)]
pub struct Fill {
    pub capacity: u64,
    pub load: u64,
}

impl Fill {
    /// Whether this cell is fuller than that one.
    pub fn is_fuller(&self, other: &Fill) -> bool {
        self.capacity as u128 * (other.load as u128) < other.capacity as u128 * self.load as u128
    }
}

/// The fullest cell, the first of several, and of those with a load alone.
pub fn fullest(net: &Network, loads: &[u64]) -> Option<Fill> {
    let mut fullest: Option<Fill> = None;
    for (cell, &load) in net.cells.iter().zip(loads).filter(|(_, &load)| load > 0) {
        let fill = Fill {
            capacity: cell.capacity,
            load,
        };
        if fullest.map_or(true, |other| fill.is_fuller(&other)) {
            fullest = Some(fill);
        }
    }
    fullest
}

/// 2 ^ (32 - i / 256) for each i from 0 to 256, each the whole root of the product of two that stand as far on both sides.
pub fn power_table() -> Vec<u64> {
    let mut table = vec![0u64; 257];
    table[0] = 1 << 32;
    table[256] = 1 << 31;
    let mut half = 128;
    while half > 0 {
        for place in (half..256).step_by(2 * half) {
            table[place] = root(table[place - half] as u128 * table[place + half] as u128);
        }
        half /= 2;
    }
    table
}

/// The whole square root.
fn root(square: u128) -> u64 {
    let mut root = 0u64;
    for bit in (0..33).rev() {
        let more = root | 1 << bit;
        if more as u128 * more as u128 <= square {
            root = more;
        }
    }
    root
}

/// 2 ^ (40 - drop / 65536), read from the table and rounded down.
#[inline]
pub fn weight(table: &[u64], drop: u64) -> u64 {
    let powers = drop >> PART_BITS;
    if powers >= MOST_POWERS {
        return 0;
    }
    let (place, part) = ((drop >> 8 & 255) as usize, drop & 255);
    (table[place] * (256 - part) + table[place + 1] * part) >> powers
}

/// What lengths of a network are made with.
pub struct Lengths<'a> {
    net: &'a Network,
    table: Vec<u64>,
    least: u64,
    step: u32,
}

impl<'a> Lengths<'a> {
    pub fn new(net: &'a Network, step: u32) -> Lengths<'a> {
        Lengths {
            net,
            table: power_table(),
            least: net.least_capacity(),
            step,
        }
    }

    /// The length of each cell under loads. Without a reference, in the first phase, loads have no effect.
    pub fn make(
        &self,
        reference: Option<Fill>,
        loads: &[u64],
        exponents: &mut Vec<u128>,
        lengths: &mut Vec<u64>,
    ) {
        exponents.clear();
        exponents.extend(
            self.net
                .cells
                .iter()
                .zip(loads)
                .map(|(cell, &load)| self.exponent(reference, cell.capacity, load)),
        );
        let top = exponents.iter().copied().max().unwrap_or(0);
        lengths.clear();
        lengths.extend(
            self.net
                .cells
                .iter()
                .zip(exponents)
                .map(|(cell, exponent)| self.length(cell.capacity, top - *exponent)),
        );
    }

    fn exponent(&self, reference: Option<Fill>, capacity: u64, load: u64) -> u128 {
        match reference {
            Some(fill) if capacity > 0 => {
                load as u128 * fill.capacity as u128 * self.step as u128
                    / (capacity as u128 * fill.load as u128)
            }
            _ => 0,
        }
    }

    fn length(&self, capacity: u64, drop: u128) -> u64 {
        if capacity == 0 {
            return FAR;
        }
        let weight = weight(&self.table, drop.min(u64::MAX as u128) as u64) as u128;
        ((weight << SCALE_BITS) * self.least as u128 / capacity as u128).max(1) as u64
    }
}

/// Capacity times length over all cells.
pub fn volume(net: &Network, lengths: &[u64]) -> u128 {
    net.cells
        .iter()
        .zip(lengths)
        .map(|(cell, &length)| cell.capacity as u128 * length as u128)
        .sum()
}
