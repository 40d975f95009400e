//! Objects that test the answers of a driver: usage as that of own. `stale` shows nothing but the initial values, `gives-up` never has a
//! view, and a view of `hangs` does not end. A view of `short` lacks a component, an update of `dies` panics, and `unmade` can't be made.
//! `second` is stale from its second run on, and gives up before. `slow` pauses around what it does, and is right with one component.
//! `fails` is stale; of its updates the first had no effect, and of the third it is not known. `retries` is slow, and right with one
//! component: of five updates one has no effect, one is tried again, and the 13th comes late.
mod snapdrive;
mod snaprecord;
mod snapverdict;

use snapdrive::{pause, run, Board, Failed, FallibleBoard};
use std::process::ExitCode;
use std::sync::atomic::{AtomicU32, Ordering::SeqCst};
use std::thread;
use std::time::Duration;

/// What the objects have in common: how many components, and what a view shows.
macro_rules! object {
    ($name:ident, $update:expr, $view:expr) => {
        struct $name(usize);

        impl Board for $name {
            fn new(components: usize) -> Self {
                $name(components)
            }
            fn update(&self, _thread: usize, _component: usize, _value: u32) {
                $update
            }
            fn view(&self, _thread: usize) -> Option<Vec<u32>> {
                let view: fn(usize) -> Option<Vec<u32>> = $view;
                view(self.0)
            }
        }
    };
}

object!(Stale, (), |components| Some(vec![0; components]));
object!(GivesUp, (), |_| None);
object!(Hangs, (), |_| loop {
    thread::sleep(Duration::from_secs(1))
});
object!(Short, (), |components| Some(vec![0; components - 1]));
object!(Dies, panic!("no connection"), |components| Some(vec![0; components]));

struct Unmade;

impl Board for Unmade {
    fn new(_components: usize) -> Self {
        panic!("no connection")
    }
    fn update(&self, _thread: usize, _component: usize, _value: u32) {}
    fn view(&self, _thread: usize) -> Option<Vec<u32>> {
        None
    }
}

struct Second {
    components: usize,
    begun: u32,
}

static BEGUN: AtomicU32 = AtomicU32::new(0);

impl Board for Second {
    fn new(components: usize) -> Self {
        Second { components, begun: BEGUN.fetch_add(1, SeqCst) }
    }
    fn update(&self, _thread: usize, _component: usize, _value: u32) {}
    fn view(&self, _thread: usize) -> Option<Vec<u32>> {
        (self.begun > 0).then(|| vec![0; self.components])
    }
}

struct Slow(AtomicU32);

impl Board for Slow {
    fn new(_components: usize) -> Self {
        Slow(AtomicU32::new(0))
    }
    fn update(&self, _thread: usize, _component: usize, value: u32) {
        pause();
        self.0.store(value, SeqCst);
        pause();
    }
    fn view(&self, _thread: usize) -> Option<Vec<u32>> {
        pause();
        let value = self.0.load(SeqCst);
        pause();
        Some(vec![value])
    }
}

struct Fails {
    components: usize,
    updates: AtomicU32,
}

impl FallibleBoard for Fails {
    fn new(components: usize) -> Self {
        Fails { components, updates: AtomicU32::new(0) }
    }
    fn update(&self, _thread: usize, _component: usize, _value: u32) -> Result<(), Failed> {
        match self.updates.fetch_add(1, SeqCst) {
            0 => Err(Failed::NoEffect),
            2 => Err(Failed::Unknown),
            _ => Ok(()),
        }
    }
    fn view(&self, _thread: usize) -> Option<Vec<u32>> {
        Some(vec![0; self.components])
    }
}

struct Retries {
    board: Slow,
    updates: AtomicU32,
    late: AtomicU32,
}

impl Retries {
    /// Whether a try has an effect. The first one of each fifth update has none.
    fn is_done(&self, number: u32, tries: u32, value: u32) -> bool {
        let is_lost = number % 5 == 2 && tries == 0;
        if !is_lost {
            Board::update(&self.board, 0, 0, value);
        }
        !is_lost
    }
}

impl FallibleBoard for Retries {
    fn new(components: usize) -> Self {
        Retries { board: <Slow as Board>::new(components), updates: AtomicU32::new(0), late: AtomicU32::new(0) }
    }
    fn update(&self, _thread: usize, _component: usize, value: u32) -> Result<(), Failed> {
        let number = self.updates.fetch_add(1, SeqCst) + 1;
        if number % 5 == 1 {
            return Err(Failed::NoEffect);
        }
        if number == 13 {
            self.late.store(value, SeqCst);
            return Err(Failed::Unknown);
        }
        let mut tries = 0;
        while !self.is_done(number, tries, value) {
            tries += 1;
        }
        Ok(())
    }
    /// What comes late comes at the end of a view.
    fn view(&self, thread: usize) -> Option<Vec<u32>> {
        let values = Board::view(&self.board, thread);
        let value = self.late.swap(0, SeqCst);
        if value > 0 {
            self.board.0.store(value, SeqCst);
        }
        values
    }
}

fn main() -> ExitCode {
    snapdrive::main(&[
        ("stale", run::<Stale>),
        ("gives-up", run::<GivesUp>),
        ("hangs", run::<Hangs>),
        ("short", run::<Short>),
        ("dies", run::<Dies>),
        ("second", run::<Second>),
        ("slow", run::<Slow>),
        ("fails", run::<Fails>),
        ("retries", run::<Retries>),
        ("unmade", run::<Unmade>),
    ])
}
