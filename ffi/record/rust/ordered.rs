//! Whether calls are ordered as the recorder says: an end with an earlier stamp than a begin happened before it. Two threads write and
//! read a plain word in calls that follow each other. They wait for each other by a relaxed flag, which orders nothing. So
//! ThreadSanitizer reports a race exactly when the clock of the recorder does not order them.
//!
//! SPDX-License-Identifier: 0BSD
mod snaprecord;

use snaprecord::{Log, Recorder};
use std::cell::UnsafeCell;
use std::sync::atomic::{AtomicU32, Ordering::Relaxed};
use std::thread;

const ROUNDS: u32 = 20;

struct Word(UnsafeCell<u32>);

// SAFETY: the calls that use the word follow each other, which is what is tried here.
unsafe impl Sync for Word {}

fn wait(turn: &AtomicU32, wanted: u32) {
    while turn.load(Relaxed) != wanted {
        thread::yield_now();
    }
}

fn write(log: &mut Log, word: &Word, turn: &AtomicU32) {
    for i in 0..ROUNDS {
        wait(turn, 2 * i);
        log.begin_update(0, i + 1).expect("an update begins");
        // SAFETY: no other call is open.
        unsafe { *word.0.get() = i + 1 };
        log.end_update();
        turn.store(2 * i + 1, Relaxed);
    }
}

fn read(log: &mut Log, word: &Word, turn: &AtomicU32) {
    for i in 0..ROUNDS {
        wait(turn, 2 * i + 1);
        assert!(log.begin_view());
        // SAFETY: no other call is open.
        let value = unsafe { *word.0.get() };
        log.end_view_values(&[value]);
        turn.store(2 * i + 2, Relaxed);
    }
}

fn main() {
    let mut recorder = Recorder::new(2, 1, ROUNDS as usize).expect("within the limits");
    let (word, turn) = (Word(UnsafeCell::new(0)), AtomicU32::new(0));
    let (writer, reader) = recorder.logs.split_at_mut(1);
    thread::scope(|scope| {
        let writing = scope.spawn(|| write(&mut writer[0], &word, &turn));
        let reading = scope.spawn(|| read(&mut reader[0], &word, &turn));
        // ThreadSanitizer sees a join; it does not see how a scope waits
        writing.join().expect("no call panics");
        reading.join().expect("no call panics");
    });
    print!("{}", recorder.text().expect("no misuse"));
}
