//! Drives a snapshot object of one's own: threads update and view it by a seeded schedule, and the judge judges each run.
//!
//! It needs `snaprecord.rs` and `snapverdict.rs` beside it, Unix, no dependencies: copy all three. `docs/OWN-OBJECT.md` of
//! snapjudge shows how.
//!
//! ```text
//! mod snapdrive;
//! mod snaprecord;
//! mod snapverdict;
//!
//! impl snapdrive::Board for Mine {
//!     fn new(components: usize) -> Self { .. }                            // a fresh one for each run, with 0 in each component
//!     fn update(&self, thread: usize, component: usize, value: u32) { .. }
//!     fn view(&self, thread: usize) -> Option<Vec<u32>> { .. }            // nothing if it gave up
//! }
//!
//! fn main() -> ExitCode { snapdrive::main(&[("mine", snapdrive::run::<Mine>)]) }
//! ```
//!
//! If an object calls `pause()` between its steps, the other threads run in the middle of its calls. An object whose updates can
//! fail has the trait `FallibleBoard` in place of `Board`. In a test of one's own, `run::<Mine>("mine", &options)` does the same
//! without a command line.
//!
//! SPDX-License-Identifier: 0BSD
//! Copyright (C) 2026 by the authors of snapjudge
//! Permission to use, copy, modify, and/or distribute this software for any purpose with or without fee is hereby granted.
//! THE SOFTWARE IS PROVIDED "AS IS" AND THE AUTHOR DISCLAIMS ALL WARRANTIES WITH REGARD TO THIS SOFTWARE INCLUDING ALL IMPLIED
//! WARRANTIES OF MERCHANTABILITY AND FITNESS. IN NO EVENT SHALL THE AUTHOR BE LIABLE FOR ANY SPECIAL, DIRECT, INDIRECT, OR
//! CONSEQUENTIAL DAMAGES OR ANY DAMAGES WHATSOEVER RESULTING FROM LOSS OF USE, DATA OR PROFITS, WHETHER IN AN ACTION OF
//! CONTRACT, NEGLIGENCE OR OTHER TORTIOUS ACTION, ARISING OUT OF OR IN CONNECTION WITH THE USE OR PERFORMANCE OF THIS SOFTWARE.
#![allow(dead_code)]

use crate::snaprecord::{self, Log, Recorder, SoFar, Views, EVENT_LIMIT};
use crate::snapverdict::{self, Judge};
use std::cell::RefCell;
use std::io::{self, Write};
use std::panic::{self, AssertUnwindSafe};
use std::process::{self, ExitCode};
use std::sync::atomic::{AtomicU64, Ordering};
use std::sync::{mpsc, Arc, Barrier, Condvar, Mutex, MutexGuard, PoisonError};
use std::time::{Duration, Instant};
use std::{env, fmt, fs, thread};

pub const USAGE: &str = "usage: [OBJECT] [OPTION VALUE ..]
  --threads 4      how many threads, at most 64
  --components 4   how many components, at most 64; thread t updates t, t + threads and so on
  --calls 200      how many calls each thread makes; all threads together make at most half of --events
  --events 65536   how many events a run may have, at most 1048576; a call has two
  --runs 20        how many runs, each of a fresh object
  --seed 1         the seed of the random choice of calls
  --order choice   the seed chooses each call; or turn: updates and a view in turn
  --schedule free  threads run freely; or pct: in turns that the seed chooses, the same in each try
  --depth 3        by pct the turns change at this many moments, less one; at most 64
  --nap 0          if not 0, pauses and the gaps between calls last up to that many microseconds
  --stop 0         if not 0, ends after that many runs that were not atomic
  --limit 60       how many seconds a run may take
  --views 1        how many views must end in all runs together; 0 asks for none
  --out .          the folder for the first run that was not atomic
  --program FILE   the program snapjudge; else SNAPJUDGE_PROGRAM names it, else it is on the PATH
  --choices        writes the calls that the seed chooses, and runs nothing
  --help           writes the options and the objects, with status 0";

/// An object under test; each component is 0 at first.
pub trait Board: Sync {
    fn new(components: usize) -> Self;
    fn update(&self, thread: usize, component: usize, value: u32);
    /// One value for each component; nothing if it gave up.
    fn view(&self, thread: usize) -> Option<Vec<u32>>;
}

/// What is known of an update that failed.
#[derive(Clone, Copy, Debug, PartialEq, Eq)]
pub enum Failed {
    /// It had no effect, and can have none any more. It is left out of the history.
    NoEffect,
    /// Nobody knows whether it had an effect, or will have one. It stays pending, and its thread makes no more calls in this run.
    Unknown,
}

/// An object whose updates can fail. Each `Board` is one.
pub trait FallibleBoard: Sync {
    fn new(components: usize) -> Self;
    fn update(&self, thread: usize, component: usize, value: u32) -> Result<(), Failed>;
    fn view(&self, thread: usize) -> Option<Vec<u32>>;
}

impl<B: Board> FallibleBoard for B {
    fn new(components: usize) -> Self {
        Board::new(components)
    }
    fn update(&self, thread: usize, component: usize, value: u32) -> Result<(), Failed> {
        Board::update(self, thread, component, value);
        Ok(())
    }
    fn view(&self, thread: usize) -> Option<Vec<u32>> {
        Board::view(self, thread)
    }
}

#[derive(Clone, Debug)]
pub struct Options {
    pub threads: u64,
    pub components: u64,
    pub calls: u64,
    pub runs: u64,
    pub seed: u64,
    pub nap: u64,
    pub stop: u64,
    pub limit: u64,
    pub views: u64,
    pub events: u64,
    pub depth: u64,
    pub order: String,
    pub schedule: String,
    pub out: String,
    pub program: Option<String>,
}

impl Default for Options {
    fn default() -> Self {
        let (order, schedule, out) = ("choice".into(), "free".into(), ".".into());
        let (events, depth, program) = (65536, 3, None);
        let (threads, components, calls, runs, seed, nap, stop, limit, views) = (4, 4, 200, 20, 1, 0, 0, 60, 1);
        Options { threads, components, calls, runs, seed, nap, stop, limit, views, events, depth, order, schedule, out, program }
    }
}

/// How many runs were atomic, only regular, or not regular; and which was the first that was not atomic, from 1.
#[derive(Clone, Debug, Default, PartialEq, Eq)]
pub struct Outcome {
    pub atomic: u64,
    pub only_regular: u64,
    pub not_regular: u64,
    pub first: Option<u64>,
    /// How many views ended in all runs.
    pub views: u64,
    /// How many of these overlapped an update.
    pub overlapping: u64,
    /// How many runs have such a view.
    pub overlapped: u64,
}

impl Outcome {
    fn caught(&self) -> u64 {
        self.only_regular + self.not_regular
    }

    fn runs(&self) -> u64 {
        self.atomic + self.caught()
    }

    fn counted_runs(&self) -> String {
        format!("{} {}", self.runs(), if self.runs() == 1 { "run" } else { "runs" })
    }

    fn add(&mut self, views: Views) {
        self.views += views.ended as u64;
        self.overlapping += views.overlapping as u64;
        self.overlapped += u64::from(views.overlapping > 0);
    }

    /// An error if the runs say nothing of the object: all were atomic, and too few views ended, or none of them overlapped an update.
    fn test_looked(&self, options: &Options) -> Result<(), Error> {
        let (views, runs) = (self.views, self.counted_runs());
        if self.first.is_some() || options.views == 0 {
            Ok(())
        } else if views < options.views {
            Err(Error::FewViews(format!("{views} views ended in {runs}, fewer than {}: there is no verdict", options.views)))
        } else if self.overlapping == 0 {
            let none = format!("none of {views} views overlapped an update in {runs}");
            Err(Error::NoOverlap(format!("{none}: there is no verdict on calls at the same time")))
        } else {
            Ok(())
        }
    }
}

impl fmt::Display for Outcome {
    fn fmt(&self, f: &mut fmt::Formatter<'_>) -> fmt::Result {
        write!(f, "atomic {}, only-regular {}, not-regular {}; ", self.atomic, self.only_regular, self.not_regular)?;
        write!(f, "{} of {} views overlapped an update, in {} of {}", self.overlapping, self.views, self.overlapped, self.counted_runs())
    }
}

/// Why runs have no verdict. A call that hangs is none of these: it ends the process, with status 4.
#[derive(Debug)]
pub enum Error {
    Usage(String),
    /// A number among the options is out of its range.
    Limits(String),
    /// A view has not one value for each component.
    View(String),
    /// A call of the object panicked, or its making did.
    Died(String),
    /// All runs were atomic, and fewer views ended than were asked for.
    FewViews(String),
    /// All runs were atomic, and no view overlapped an update.
    NoOverlap(String),
    Judge(snapverdict::Error),
    Recorder(snaprecord::Fault),
}

impl fmt::Display for Error {
    fn fmt(&self, f: &mut fmt::Formatter<'_>) -> fmt::Result {
        match self {
            Error::Usage(message) => write!(f, "usage: {message}"),
            Error::Limits(message) => write!(f, "limits: {message}"),
            Error::View(message) => write!(f, "view: {message}"),
            Error::Died(message) => write!(f, "died: {message}"),
            Error::FewViews(message) => write!(f, "few views: {message}"),
            Error::NoOverlap(message) => write!(f, "no overlap: {message}"),
            Error::Judge(error) => error.fmt(f),
            Error::Recorder(fault) => write!(f, "recorder: {fault}"),
        }
    }
}

impl std::error::Error for Error {}

impl From<snapverdict::Error> for Error {
    fn from(error: snapverdict::Error) -> Self {
        Error::Judge(error)
    }
}

impl From<snaprecord::Fault> for Error {
    fn from(fault: snaprecord::Fault) -> Self {
        Error::Recorder(fault)
    }
}

// ---- the schedule

const GAMMA: u64 = 0x9E37_79B9_7F4A_7C15;

/// The output of splitmix64 in this state.
fn mix(state: u64) -> u64 {
    let state = (state ^ state >> 30).wrapping_mul(0xBF58_476D_1CE4_E5B9);
    let state = (state ^ state >> 27).wrapping_mul(0x94D0_49BB_1331_11EB);
    state ^ state >> 31
}

/// The generator splitmix64.
struct Random(u64);

impl Random {
    fn next(&mut self) -> u64 {
        self.0 = self.0.wrapping_add(GAMMA);
        mix(self.0)
    }
}

/// The component that call `i` of a thread updates; nothing is a view.
fn choose(options: &Options, thread: usize, i: u64, random: &mut Random) -> Option<usize> {
    let mut own = (thread..options.components as usize).step_by(options.threads as usize);
    let count = own.len() as u64;
    let place = if options.order == "turn" {
        i % (count + 1)
    } else {
        let choice = random.next();
        if choice % 2 == 1 || count == 0 {
            count
        } else {
            (choice >> 1) % count
        }
    };
    own.nth(place as usize)
}

// ---- turns

/// What all runs share: the source of choices, and how many points the last run had.
struct Pace {
    random: Random,
    points: u64,
}

impl Pace {
    fn new(options: &Options) -> Self {
        Pace { random: Random(mix(options.seed)), points: 6 * options.threads * options.calls }
    }
}

/// Lets one thread pass each time that it is opened.
#[derive(Default)]
struct Gate(Mutex<bool>, Condvar);

impl Gate {
    fn open(&self) {
        *lock(&self.0) = true;
        self.1.notify_one();
    }

    fn pass(&self) {
        let mut is_open = lock(&self.0);
        while !*is_open {
            is_open = self.1.wait(is_open).unwrap_or_else(PoisonError::into_inner);
        }
        *is_open = false;
    }
}

fn lock<T>(mutex: &Mutex<T>) -> MutexGuard<'_, T> {
    mutex.lock().unwrap_or_else(PoisonError::into_inner)
}

/// What the turns are chosen by. A thread that has ended has no priority.
struct Order {
    priorities: Vec<Option<i64>>,
    changes: Vec<u64>,
    points: u64,
    spins: u64,
    lowest: i64,
}

impl Order {
    fn new(options: &Options, pace: &mut Pace) -> Self {
        let mut order: Vec<usize> = (0..options.threads as usize).collect();
        let mut priorities = vec![None; order.len()];
        for i in (0..order.len()).rev() {
            order.swap(i, (pace.random.next() % (i as u64 + 1)) as usize);
            priorities[order[i]] = Some((options.depth + i as u64) as i64);
        }
        let changes = (1..options.depth).map(|_| 1 + pace.random.next() % pace.points).collect();
        Order { priorities, changes, points: 0, spins: 0, lowest: 0 }
    }

    /// The thread that has the turn.
    fn first(&self) -> Option<usize> {
        let running = (0..self.priorities.len()).filter(|&thread| self.priorities[thread].is_some());
        running.max_by_key(|&thread| self.priorities[thread])
    }

    /// A thread comes to a point.
    fn step(&mut self, thread: usize) {
        self.points += 1;
        for (i, _) in self.changes.iter().enumerate().filter(|change| *change.1 == self.points) {
            self.priorities[thread] = Some(i as i64);
        }
        self.spins += 1;
        if self.spins > MOST_SPINS {
            self.spins = 0;
            self.lowest -= 1;
            self.priorities[thread] = Some(self.lowest);
        }
    }
}

/// A thread that comes to this many points within one call may wait for another one, and gets a priority below all others.
const MOST_SPINS: u64 = 10_000;

/// Turns of the threads of a run: probabilistic concurrency testing, by Burckhardt, Kothari, Musuvathi and Nagarakatte (2010). One thread
/// runs at a time: of those that have not ended the one with the highest priority. The seed chooses these, and the points at which the
/// running thread gets a priority below all of them.
struct Turns {
    order: Mutex<Order>,
    gates: Vec<Gate>,
}

impl Turns {
    fn new(options: &Options, pace: &mut Pace) -> Self {
        Turns { order: Mutex::new(Order::new(options, pace)), gates: (0..options.threads).map(|_| Gate::default()).collect() }
    }

    fn start(&self) {
        let first = lock(&self.order).first();
        first.into_iter().for_each(|thread| self.gates[thread].open());
    }

    /// A thread begins, and waits for its turn.
    fn enter(self: &Arc<Self>, thread: usize) {
        TURNS.with(|turns| *turns.borrow_mut() = Some((Arc::clone(self), thread)));
        self.gates[thread].pass();
    }

    /// A thread ends.
    fn leave(&self, thread: usize) {
        TURNS.with(|turns| *turns.borrow_mut() = None);
        lock(&self.order).priorities[thread] = None;
        self.start();
    }

    fn point(&self, thread: usize) {
        let mut order = lock(&self.order);
        order.step(thread);
        let first = order.first();
        drop(order);
        if first != Some(thread) {
            first.into_iter().for_each(|first| self.gates[first].open());
            self.gates[thread].pass();
        }
    }
}

thread_local! {
    /// The turns of this thread and its number; none if it runs freely.
    static TURNS: RefCell<Option<(Arc<Turns>, usize)>> = const { RefCell::new(None) };
}

/// A place between two steps. By the schedule pct the turn may change here, and the answer is true; else nothing is done.
pub fn point() -> bool {
    let turns = TURNS.with(|turns| turns.borrow().clone());
    turns.is_some_and(|(turns, thread)| {
        turns.point(thread);
        true
    })
}

/// A call has ended.
fn go_on(options: &Options) {
    let turns = TURNS.with(|turns| turns.borrow().clone());
    match turns {
        Some((turns, _)) => lock(&turns.order).spins = 0,
        None if options.nap > 0 => pause(),
        None => (),
    }
}

static NAPS: AtomicU64 = AtomicU64::new(0);
static LONGEST_NAP: AtomicU64 = AtomicU64::new(0);

/// Lets the other threads run, and naps if the options ask for it.
pub fn pause() {
    if point() {
        return;
    }
    let longest = LONGEST_NAP.load(Ordering::Relaxed);
    if longest == 0 {
        thread::yield_now();
    } else {
        let state = NAPS.fetch_add(GAMMA, Ordering::Relaxed).wrapping_add(GAMMA);
        thread::sleep(Duration::from_micros(mix(state) % (longest + 1)));
    }
}

// ---- one run

fn work<B: FallibleBoard>(board: &B, log: &mut Log, thread: usize, options: &Options, mut random: Random) -> Result<(), Error> {
    for i in 0..options.calls {
        point();
        if let Some(component) = choose(options, thread, i, &mut random) {
            let value = (thread as u32 + 1) * 1_000_000 + i as u32; // each value once
            if log.begin_update(component as u32, value).is_none() {
                break;
            }
            point();
            let done = board.update(thread, component, value);
            point();
            match done {
                Ok(()) => log.end_update(),
                Err(Failed::NoEffect) => log.drop_update(),
                Err(Failed::Unknown) => break,
            }
        } else {
            if !log.begin_view() {
                break;
            }
            point();
            let values = board.view(thread);
            point();
            match &values {
                Some(values) => log.end_view_values(values),
                None => log.drop_view(),
            }
            if let Some(values) = values.filter(|values| values.len() as u64 != options.components) {
                return Err(Error::View(format!("a view has {} values of {} components", values.len(), options.components)));
            }
        }
        go_on(options);
    }
    Ok(())
}

/// Writes the calls so far of a run that does not end, or in which a call died.
fn keep_unfinished(name: &str, out: &str, so_far: &SoFar) {
    let file = format!("{out}/{name}-unfinished.csv");
    if so_far.text().is_ok_and(|text| fs::write(&file, text).is_ok()) {
        eprintln!("{name}: its calls so far are in {file}");
    }
}

/// Ends the process if nobody sends or hangs up within this many seconds: a call that hangs can't be ended.
fn watch(ended: &mpsc::Receiver<()>, name: &str, options: &Options, so_far: &SoFar) {
    let limit = options.limit;
    if ended.recv_timeout(Duration::from_secs(limit)) == Err(mpsc::RecvTimeoutError::Timeout) {
        keep_unfinished(name, &options.out, so_far);
        eprintln!("{name}: hangs: a run took more than {limit} s: a call of the object does not end");
        process::exit(4);
    }
}

/// The history of a fresh object, and its views. What a run made that did not end is in NAME-unfinished.csv.
fn record<B: FallibleBoard>(name: &str, options: &Options, seeds: &mut Random, pace: &mut Pace) -> Result<(String, Views), Error> {
    let mut recorder = Recorder::new(options.threads as usize, options.components as usize, options.calls as usize)?;
    let board = panic::catch_unwind(|| B::new(options.components as usize))
        .map_err(|_| Error::Died("the object can't be made: it panicked".into()))?;
    let start = Barrier::new(options.threads as usize);
    let so_far = recorder.so_far();
    let turns = (options.schedule == "pct").then(|| Arc::new(Turns::new(options, pace)));
    let (running, ended) = mpsc::channel();
    thread::scope(|scope| {
        let workers: Vec<_> = recorder.logs.iter_mut().enumerate().map(|(thread, log)| (thread, log, Random(seeds.next()))).collect();
        let workers = workers.into_iter().map(|(thread, log, random)| {
            let (board, start, turns, running) = (&board, &start, &turns, running.clone());
            let started = thread::Builder::new().spawn_scoped(scope, move || {
                let _running = running; // dropped at the end, which the watch hears
                start.wait();
                turns.iter().for_each(|turns| turns.enter(thread));
                let done = panic::catch_unwind(AssertUnwindSafe(|| work(board, log, thread, options, random)));
                turns.iter().for_each(|turns| turns.leave(thread));
                done.unwrap_or_else(|_| Err(Error::Died(format!("a call of thread {thread} panicked"))))
            });
            started.unwrap_or_else(|_| {
                eprintln!("{name}: memory: thread {thread} can't be started");
                process::exit(4) // those before it wait for it
            })
        });
        let workers: Vec<_> = workers.collect();
        drop(running);
        turns.iter().for_each(|turns| turns.start());
        watch(&ended, name, options, &so_far);
        workers.into_iter().try_for_each(|worker| worker.join().expect("a worker catches what its object panics with"))
    })
    .map_err(|error| {
        keep_unfinished(name, &options.out, &so_far);
        error
    })?;
    if let Some(turns) = turns {
        pace.points = lock(&turns.order).points;
    }
    Ok((recorder.text()?, recorder.views()))
}

// ---- all runs

/// Of each number among the options the least and the greatest.
fn ranges(options: &mut Options) -> [(&'static str, &mut u64, u64, u64); 11] {
    [
        ("threads", &mut options.threads, 1, 64),
        ("components", &mut options.components, 1, 64),
        ("calls", &mut options.calls, 1, EVENT_LIMIT as u64 / 2),
        ("runs", &mut options.runs, 1, 1_000_000_000),
        ("seed", &mut options.seed, 0, u64::MAX),
        ("nap", &mut options.nap, 0, 1_000_000),
        ("stop", &mut options.stop, 0, 1_000_000_000),
        ("limit", &mut options.limit, 1, 100_000),
        ("views", &mut options.views, 0, 1_000_000_000),
        ("events", &mut options.events, 2, EVENT_LIMIT as u64),
        ("depth", &mut options.depth, 1, 64),
    ]
}

fn beyond(name: &str, least: u64, greatest: u64) -> Error {
    Error::Limits(format!("{name} is a number from {least} to {greatest}"))
}

fn test(options: &Options) -> Result<(), Error> {
    for (name, value, least, greatest) in ranges(&mut options.clone()) {
        if !(least..=greatest).contains(value) {
            return Err(beyond(name, least, greatest));
        }
    }
    if options.threads * options.calls > options.events / 2 {
        return Err(Error::Limits(format!("all threads make at most {} calls", options.events / 2)));
    }
    match (options.order.as_str(), options.schedule.as_str()) {
        ("choice" | "turn", "free" | "pct") => Ok(()),
        ("choice" | "turn", _) => Err(Error::Usage("schedule is free or pct".into())),
        _ => Err(Error::Usage("order is choice or turn".into())),
    }
}

/// Runs fresh objects, and counts the verdicts. Of the first run that is not atomic it keeps NAME-caught.csv, the history,
/// NAME-witness.csv, the least of it that is not atomic, and NAME-explained.txt.
pub fn run<B: FallibleBoard>(name: &str, options: &Options) -> Result<Outcome, Error> {
    test(options)?;
    let judge = Judge::find(options.program.as_deref(), options.events as u32)?;
    judge.test_folder(&options.out)?;
    judge.test_verdict(&options.out)?;
    let front = format!("{}/{name}", options.out);
    let mut seeds = Random(options.seed);
    let mut pace = Pace::new(options);
    let mut outcome = Outcome::default();
    let mut told = Instant::now();
    LONGEST_NAP.store(options.nap, Ordering::Relaxed);
    NAPS.store(options.seed, Ordering::Relaxed);
    for number in 1..=options.runs {
        let (text, views) = record::<B>(name, options, &mut seeds, &mut pace)?;
        outcome.add(views);
        let status = judge.status(&text, &options.out)?;
        *[&mut outcome.atomic, &mut outcome.only_regular, &mut outcome.not_regular][status as usize] += 1;
        if status != 0 && outcome.first.is_none() {
            outcome.first = Some(number);
            judge.keep(&text, &front)?;
            eprintln!("{name}: run {number} is not atomic: see {front}-caught.csv and the files beside it");
        }
        let has_ended = number == options.runs || options.stop > 0 && outcome.caught() == options.stop;
        if has_ended || told.elapsed() >= Duration::from_secs(1) {
            told = Instant::now();
            eprintln!("{name}: run {number} of {}: {outcome}", options.runs);
        }
        if has_ended {
            break;
        }
    }
    outcome.test_looked(options)?;
    Ok(outcome)
}

// ---- the command line

/// Takes an option, and its value if there is one.
fn read_option(options: &mut Options, word: &str, value: Option<&String>) -> Result<(), Error> {
    let name = word.strip_prefix("--").ok_or_else(|| Error::Usage(format!("{word} is not an option")))?;
    let is_known = ["order", "schedule", "out", "program"].contains(&name) || ranges(options).iter().any(|range| range.0 == name);
    if !is_known {
        return Err(Error::Usage(format!("there is no option {word}")));
    }
    let value = value.ok_or_else(|| Error::Usage(format!("{word} has no value")))?;
    match name {
        "order" => options.order = value.into(),
        "schedule" => options.schedule = value.into(),
        "out" => options.out = value.into(),
        "program" => options.program = Some(value.into()),
        _ => return read_number(options, name, value),
    }
    Ok(())
}

fn read_number(options: &mut Options, name: &str, value: &str) -> Result<(), Error> {
    if value.is_empty() || !value.bytes().all(|byte| byte.is_ascii_digit()) {
        return Err(Error::Usage(format!("--{name}: {value} is not a number")));
    }
    for (_, place, least, greatest) in ranges(options).into_iter().filter(|range| range.0 == name) {
        *place = value.parse().map_err(|_| beyond(name, least, greatest))?;
    }
    Ok(())
}

/// The options of a command line.
fn read(words: &[String]) -> Result<Options, Error> {
    let mut options = Options::default();
    for pair in words.chunks(2) {
        read_option(&mut options, &pair[0], pair.get(1))?;
    }
    Ok(options)
}

/// Writes to standard output.
fn print(text: &str) -> Result<(), Error> {
    let done = io::stdout().write_all(text.as_bytes()).and_then(|()| io::stdout().flush());
    done.map_err(|error| Error::Judge(snapverdict::Error::Files(format!("standard output can't be written: {error}"))))
}

fn show_choices(options: &Options) -> Result<(), Error> {
    test(options)?;
    let mut seeds = Random(options.seed);
    for number in 1..=options.runs {
        for thread in 0..options.threads as usize {
            let mut random = Random(seeds.next());
            for i in 0..options.calls {
                let call = choose(options, thread, i, &mut random).map_or("view".into(), |component| format!("update {component}"));
                print(&format!("{number} {thread} {call}\n"))?;
            }
        }
    }
    Ok(())
}

/// An object of the command line: its name, and `run` of its type.
pub type Object<'a> = (&'a str, fn(&str, &Options) -> Result<Outcome, Error>);

fn usage_of(objects: &[Object]) -> String {
    let names: Vec<&str> = objects.iter().map(|object| object.0).collect();
    format!("{USAGE}\nobjects: {}\n", names.join(" "))
}

/// Runs what the words ask for. `None` means that they asked for the list of options or of calls.
fn answer(objects: &[Object], name: &str, mut words: Vec<String>) -> Result<Option<Outcome>, Error> {
    let (_, run) = objects.iter().find(|object| object.0 == name).ok_or_else(|| Error::Usage(format!("there is no object {name}")))?;
    if words.iter().any(|word| word == "--help" || word == "-h") {
        return print(&usage_of(objects)).map(|()| None);
    }
    let shows_choices = words.iter().position(|word| word == "--choices").map(|at| words.remove(at)).is_some();
    let options = read(&words)?;
    if shows_choices {
        return show_choices(&options).map(|()| None);
    }
    let outcome = run(name, &options)?;
    print(&format!("{name}: {outcome}\n")).map(|()| Some(outcome))
}

/// Runs the object that the command line names, or the first one. The status is 0 if each run was atomic, 1 if some were only
/// regular, and 2 if some were not regular. It is 3 if too little was seen for a verdict, and 4 if there is none for another
/// reason.
pub fn main(objects: &[Object]) -> ExitCode {
    let mut words: Vec<String> = env::args().skip(1).collect();
    let is_named = words.first().is_some_and(|word| !word.starts_with('-'));
    let name = if is_named { words.remove(0) } else { objects[0].0.into() };
    match answer(objects, &name, words) {
        Err(error) => {
            if matches!(error, Error::Usage(_)) {
                eprint!("{}", usage_of(objects));
            }
            eprintln!("{name}: {error}");
            ExitCode::from(if matches!(error, Error::FewViews(_) | Error::NoOverlap(_)) { 3 } else { 4 })
        }
        Ok(outcome) => {
            let outcome = outcome.unwrap_or_default();
            ExitCode::from(if outcome.not_regular > 0 { 2 } else { u8::from(outcome.only_regular > 0) })
        }
    }
}
