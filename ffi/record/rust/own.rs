//! Tests two boards: `naive` collects once, which is not atomic; `double` collects until two collects are equal, which is.
//!
//! ```text
//! rustc --edition 2021 -O own.rs
//! ./own naive --runs 20
//! ```
//!
//! SPDX-License-Identifier: 0BSD
mod snapdrive;
mod snaprecord;
mod snapverdict;

use snapdrive::{pause, run, Board};
use std::process::ExitCode;
use std::sync::atomic::{AtomicU32, Ordering::SeqCst};

struct Naive(Vec<AtomicU32>);

impl Board for Naive {
    fn new(components: usize) -> Self {
        Naive((0..components).map(|_| AtomicU32::new(0)).collect())
    }
    fn update(&self, _thread: usize, component: usize, value: u32) {
        self.0[component].store(value, SeqCst);
    }
    fn view(&self, _thread: usize) -> Option<Vec<u32>> {
        let words = self.0.iter();
        Some(words.map(|word| (word.load(SeqCst), pause()).0).collect())
    }
}

struct Double(Naive);

impl Board for Double {
    fn new(components: usize) -> Self {
        Double(Naive::new(components))
    }
    fn update(&self, thread: usize, component: usize, value: u32) {
        self.0.update(thread, component, value);
    }
    fn view(&self, thread: usize) -> Option<Vec<u32>> {
        let mut values = self.0.view(thread);
        loop {
            let again = self.0.view(thread);
            if values == again {
                return values;
            }
            values = again;
        }
    }
}

fn main() -> ExitCode {
    snapdrive::main(&[("naive", run::<Naive>), ("double", run::<Double>)])
}
