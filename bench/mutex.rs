//! Adds a number under std's Mutex in 1, 2, 4 and 8 threads, and prints for each the threads, the additions of all and the nanoseconds.

use std::hint::black_box;
use std::sync::Mutex;
use std::thread;
use std::time::Instant;

const ADDITIONS: u64 = 200_000;

fn main() {
    for threads in [1, 2, 4, 8] {
        let sum = Mutex::new(0u64);
        let start = Instant::now();
        thread::scope(|scope| {
            for _ in 0..threads {
                scope.spawn(|| {
                    for _ in 0..ADDITIONS / threads {
                        let mut sum = sum.lock().unwrap();
                        *sum = black_box(sum.wrapping_add(1));
                    }
                });
            }
        });
        let nanoseconds = start.elapsed().as_nanos();
        assert_eq!(*sum.lock().unwrap(), ADDITIONS);
        println!("{threads} {ADDITIONS} {nanoseconds}");
    }
}
