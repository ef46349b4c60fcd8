// The same measurements as the crate bus_lock_bench, over the mutex of Rust's standard library.
use std::hint::black_box;
use std::sync::Mutex;
use std::time::Instant;

fn main() {
    let rounds: u64 = std::env::args().nth(1).and_then(|word| word.parse().ok()).expect("the number of rounds");
    for adds in [false, true] {
        let what = if adds { "add" } else { "look" };
        for threads in [1, 2, 4] {
            let bell = Mutex::new(Vec::<u64>::new());
            let start = Instant::now();
            std::thread::scope(|scope| {
                for _ in 0..threads {
                    scope.spawn(|| {
                        for _ in 0..rounds {
                            let mut bell = bell.lock().unwrap();
                            if adds {
                                bell.push(7);
                            } else {
                                black_box(&mut bell);
                            }
                        }
                    });
                }
            });
            println!("{what} {threads} {rounds} {}", start.elapsed().as_nanos());
        }
    }
}
