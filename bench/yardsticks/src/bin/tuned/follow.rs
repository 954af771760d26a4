//! Lengths that follow the loads: those of changed cells are made anew, and all where the greatest exponent moves. Quotients
//! are guessed by reciprocals and put right by their remainders.

use std::sync::atomic::{AtomicU64, Ordering};
use yardsticks::lengths::{power_table, Fill, FAR, PART_BITS, SCALE_BITS};
use yardsticks::network::Network;

/// Guesses below it are off by one at most.
const SURE: u64 = 1 << 50;
/// Remainders of numbers up to it fit a signed word.
const SMALL: u128 = 1 << 61;

/// An exponent is load times num over den.
#[derive(Clone, Copy, Default)]
struct Quotient {
    rate: f64,
    num: u64,
    /// 0 where the numbers are too large to guess with
    den: u64,
}

/// A length is a weight times the least capacity over the cell's.
#[derive(Clone, Copy)]
struct Rate {
    rate: f64,
    capacity: u64,
}

/// The lengths of all cells, and what they are made of.
pub struct Followed<'a> {
    net: &'a Network,
    table: Vec<u64>,
    least: u64,
    step: u32,
    reference: Option<Fill>,
    quotients: Vec<Quotient>,
    rates: Vec<Rate>,
    seen: Vec<u64>,
    exponents: Vec<u64>,
    top: u64,
    changed: Vec<u16>,
    pub lengths: Vec<u64>,
}

impl<'a> Followed<'a> {
    /// Lengths of the first phase, in which loads have no effect.
    pub fn new(net: &'a Network, step: u32) -> Followed<'a> {
        let cells = net.cells.len();
        let least = net.least_capacity();
        let rate = |capacity: u64| Rate {
            rate: least as f64 / capacity.max(1) as f64,
            capacity,
        };
        let mut followed = Followed {
            net,
            table: power_table(),
            least,
            step,
            reference: None,
            quotients: vec![Quotient::default(); cells],
            rates: net.cells.iter().map(|cell| rate(cell.capacity)).collect(),
            seen: vec![0; cells],
            exponents: vec![0; cells],
            top: 0,
            changed: vec![0; cells],
            lengths: vec![FAR; cells],
        };
        followed.make_all();
        followed
    }

    /// Loads have an effect from here on.
    pub fn begin(&mut self, reference: Fill, loads: &[AtomicU64]) {
        self.reference = Some(reference);
        for (cell, quotient) in self.net.cells.iter().zip(&mut self.quotients) {
            *quotient = quotient_of(cell.capacity, reference, self.step);
        }
        for (cell, load) in loads.iter().enumerate() {
            self.seen[cell] = load.load(Ordering::Relaxed);
            self.exponents[cell] = self.exponent(cell);
        }
        self.top = self.exponents.iter().copied().max().unwrap_or(0);
        self.make_all();
    }

    /// Follows all loads.
    pub fn follow(&mut self, loads: &[AtomicU64]) {
        if self.reference.is_none() {
            return;
        }
        let mut count = 0;
        for (cell, (load, seen)) in loads.iter().zip(&mut self.seen).enumerate() {
            let now = load.load(Ordering::Relaxed);
            // without a branch: which loads change follows no pattern
            self.changed[count] = cell as u16;
            count += (now != *seen) as usize;
            *seen = now;
        }
        self.settle(count);
    }

    /// Follows the loads of these cells, where no other has changed.
    pub fn follow_at(&mut self, loads: &[AtomicU64], cells: &[u16]) {
        if self.reference.is_none() {
            return;
        }
        for &cell in cells {
            self.seen[cell as usize] = loads[cell as usize].load(Ordering::Relaxed);
        }
        let top = self.raise(cells);
        self.remake(top, cells);
    }

    /// Puts right what the first so many changed cells have part in.
    fn settle(&mut self, count: usize) {
        let changed = std::mem::take(&mut self.changed);
        let top = self.raise(&changed[..count]);
        self.remake(top, &changed[..count]);
        self.changed = changed;
    }

    /// Makes the exponents of these cells, and gives the greatest of all: loads never fall.
    fn raise(&mut self, cells: &[u16]) -> u64 {
        let mut top = self.top;
        for &cell in cells {
            let exponent = self.exponent(cell as usize);
            self.exponents[cell as usize] = exponent;
            top = top.max(exponent);
        }
        top
    }

    fn remake(&mut self, top: u64, cells: &[u16]) {
        if top != self.top {
            self.top = top;
            self.make_all();
            return;
        }
        for &cell in cells {
            self.lengths[cell as usize] = self.length(
                self.rates[cell as usize],
                top - self.exponents[cell as usize],
            );
        }
    }

    fn make_all(&mut self) {
        let mut lengths = std::mem::take(&mut self.lengths);
        for ((length, &rate), &exponent) in lengths.iter_mut().zip(&self.rates).zip(&self.exponents)
        {
            *length = self.length(rate, self.top - exponent);
        }
        self.lengths = lengths;
    }

    #[inline]
    fn exponent(&self, cell: usize) -> u64 {
        let quotient = &self.quotients[cell];
        let load = self.seen[cell];
        let guess = (load as i64 as f64 * quotient.rate) as i64 as u64;
        if guess >= SURE || quotient.den == 0 {
            return self.divided(cell);
        }
        let rest = load
            .wrapping_mul(quotient.num)
            .wrapping_sub(guess.wrapping_mul(quotient.den)) as i64;
        put_right(guess, rest, quotient.den)
    }

    #[cold]
    fn divided(&self, cell: usize) -> u64 {
        let capacity = self.net.cells[cell].capacity as u128;
        match self.reference {
            Some(fill) if capacity > 0 => {
                let num = self.seen[cell] as u128 * fill.capacity as u128 * self.step as u128;
                u64::try_from(num / (capacity * fill.load as u128)).unwrap_or(u64::MAX)
            }
            _ => 0,
        }
    }

    #[inline]
    fn length(&self, rate: Rate, drop: u64) -> u64 {
        if rate.capacity == 0 {
            return FAR;
        }
        let (place, part) = ((drop >> 8 & 255) as usize, drop & 255);
        let level = self.table[place] * (256 - part) + self.table[place + 1] * part;
        let weight = (level >> (drop >> PART_BITS).min(63)) << SCALE_BITS;
        let guess = (weight as i64 as f64 * rate.rate) as i64 as u64;
        let rest = weight
            .wrapping_mul(self.least)
            .wrapping_sub(guess.wrapping_mul(rate.capacity)) as i64;
        put_right(guess, rest, rate.capacity).max(1)
    }
}

/// The quotient of which a guess, off by one at most, leaves this rest.
#[inline]
fn put_right(guess: u64, rest: i64, den: u64) -> u64 {
    guess
        .wrapping_add((rest >= den as i64) as u64)
        .wrapping_sub((rest < 0) as u64)
}

/// What exponents of a cell are made with, in least terms.
fn quotient_of(capacity: u64, reference: Fill, step: u32) -> Quotient {
    let num = reference.capacity as u128 * step as u128;
    let den = capacity as u128 * reference.load as u128;
    if den == 0 {
        return Quotient::default();
    }
    let common = common_divisor(num, den);
    let rate = num as f64 / den as f64;
    if num / common >= SMALL || den / common >= SMALL {
        return Quotient {
            rate,
            num: 0,
            den: 0,
        };
    }
    Quotient {
        rate,
        num: (num / common) as u64,
        den: (den / common) as u64,
    }
}

fn common_divisor(a: u128, b: u128) -> u128 {
    if b == 0 {
        a
    } else {
        common_divisor(b, a % b)
    }
}
