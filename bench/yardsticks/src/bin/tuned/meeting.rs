//! Where workers wait for each other.

use std::hint::spin_loop;
use std::sync::atomic::{AtomicUsize, Ordering};
use std::thread::yield_now;

/// So many looks are taken before the processor is left to others.
const LOOKS: u32 = 2_000;

/// A barrier for threads that run on processors of their own: it looks again and again, and so wakes at once.
pub struct Meeting {
    count: usize,
    here: AtomicUsize,
    round: AtomicUsize,
}

impl Meeting {
    pub fn new(count: usize) -> Meeting {
        Meeting {
            count,
            here: AtomicUsize::new(0),
            round: AtomicUsize::new(0),
        }
    }

    /// Waits until all are here.
    pub fn meet(&self) {
        if self.count == 1 {
            return;
        }
        let round = self.round.load(Ordering::Acquire);
        if self.here.fetch_add(1, Ordering::AcqRel) + 1 == self.count {
            self.here.store(0, Ordering::Relaxed);
            self.round.store(round + 1, Ordering::Release);
            return;
        }
        let mut looks = 0;
        while self.round.load(Ordering::Acquire) == round {
            looks += 1;
            if looks % LOOKS == 0 {
                yield_now()
            } else {
                spin_loop()
            }
        }
    }
}
