// Four pieces of work in four threads, which one thread starts, or two.
use std::hint::black_box;
use std::thread::scope;
use std::time::Instant;

fn work(steps: u64) -> u64 {
    (0..steps).fold(1, |x: u64, i| black_box(x.wrapping_mul(6364136223846793005).wrapping_add(i)))
}

fn started_by_one(steps: u64) {
    scope(|threads| {
        for _ in 0..3 {
            threads.spawn(move || work(steps));
        }
        work(steps);
    });
}

fn half(steps: u64) {
    scope(|threads| {
        threads.spawn(move || work(steps));
        work(steps);
    });
}

fn started_by_halves(steps: u64) {
    scope(|threads| {
        threads.spawn(move || half(steps));
        half(steps);
    });
}

fn median(mut run: impl FnMut()) -> f64 {
    let mut times: Vec<f64> = (0..101)
        .map(|_| {
            let start = Instant::now();
            run();
            start.elapsed().as_secs_f64() * 1000.0
        })
        .collect();
    times.sort_by(f64::total_cmp);
    times[50]
}

fn main() {
    // no work at all: what the threads take themselves
    for steps in [0, 200_000, 2_000_000] {
        let one = median(|| {
            work(steps);
        });
        let flat = median(|| started_by_one(steps));
        let halves = median(|| started_by_halves(steps));
        println!("one {one:.3} ms; four started by one thread {flat:.3} ms, by halves {halves:.3} ms");
    }
}
