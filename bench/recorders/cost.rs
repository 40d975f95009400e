//! Prints the nanoseconds that recording one call, its begin and its end, takes with this many threads: the
//! quartiles of some rounds. usage: cost THREADS
#[path = "../../ffi/record/rust/snaprecord.rs"]
mod snaprecord;

use snaprecord::{Log, Recorder};
use std::sync::Barrier;
use std::time::Instant;
use std::{env, thread};

const ROUNDS: usize = 21;

fn work(log: &mut Log, own: usize, calls: usize, start: &Barrier) -> f64 {
    start.wait();
    let begun = Instant::now();
    for value in 1..=calls as u32 {
        if log.begin_update(own as u32, value).is_none() {
            break;
        }
        log.end_update();
    }
    begun.elapsed().as_secs_f64() * 1e9 / calls as f64
}

fn round(threads: usize) -> f64 {
    let calls = 32768 / threads;
    let mut recorder = Recorder::new(threads, threads, calls).expect("within the limits");
    let start = Barrier::new(threads);
    let took: Vec<f64> = thread::scope(|scope| {
        let start = &start;
        let spawned: Vec<_> =
            recorder.logs.iter_mut().enumerate().map(|(own, log)| scope.spawn(move || work(log, own, calls, start))).collect();
        spawned.into_iter().map(|thread| thread.join().expect("no thread panics")).collect()
    });
    took.iter().sum::<f64>() / threads as f64
}

fn main() {
    let threads = env::args().nth(1).and_then(|word| word.parse().ok()).unwrap_or(1);
    let mut found: Vec<f64> = (0..ROUNDS).map(|_| round(threads)).collect();
    found.sort_by(f64::total_cmp);
    println!("{:.0} to {:.0}", found[ROUNDS / 4], found[ROUNDS * 3 / 4]);
}
