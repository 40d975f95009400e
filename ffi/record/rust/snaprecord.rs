//! Records the calls that threads make of a single-writer board, and writes them as a history for `snapjudge check`.
//!
//! One file, no dependencies, no unsafe code: copy it into a harness. `docs/OWN-OBJECT.md` of snapjudge leads through one.
//!
//! ```text
//! let mut recorder = Recorder::new(threads, components, calls)?;
//!
//! let log = &mut recorder.logs[t];                                         // thread t, and no other
//! let Some(number) = log.begin_update(component, value) else { return };   // refused: make no further call
//! board.update(component, value);
//! log.end_update();
//! if !log.begin_view() { return }
//! let values = board.view();
//! log.end_view_values(&values);                                            // or end_view, of numbers; of a failed call drop_..
//!
//! let text = recorder.text()?;                                             // after the threads were joined
//!
//! let so_far = recorder.so_far();                                          // before they start
//! let text = so_far.text()?;                                               // at any time, from any thread
//! so_far.keep("unfinished.csv");                                           // or: whenever a thread panics
//! ```
//!
//! What the record says: if call A ended before call B began, A happened before B. Each stamp is a `fetch_add` of one clock with
//! acquire and release. A begin takes it last in `begin_..`, and an end takes it first in `end_..`. A thread writes to its own log
//! alone. A call locks and allocates nothing, and does not panic, and all pages of a log are there before threads run.
//! What it cannot say: the clock orders more calls than the object may, so a fault that needs two calls without such an order can hide.
//!
//! SPDX-License-Identifier: 0BSD
//! Copyright (C) 2026 by the authors of snapjudge
//! Permission to use, copy, modify, and/or distribute this software for any purpose with or without fee is hereby granted.
//! THE SOFTWARE IS PROVIDED "AS IS" AND THE AUTHOR DISCLAIMS ALL WARRANTIES WITH REGARD TO THIS SOFTWARE INCLUDING ALL IMPLIED
//! WARRANTIES OF MERCHANTABILITY AND FITNESS. IN NO EVENT SHALL THE AUTHOR BE LIABLE FOR ANY SPECIAL, DIRECT, INDIRECT, OR
//! CONSEQUENTIAL DAMAGES OR ANY DAMAGES WHATSOEVER RESULTING FROM LOSS OF USE, DATA OR PROFITS, WHETHER IN AN ACTION OF
//! CONTRACT, NEGLIGENCE OR OTHER TORTIOUS ACTION, ARISING OUT OF OR IN CONNECTION WITH THE USE OR PERFORMANCE OF THIS SOFTWARE.
#![allow(dead_code)]

use std::collections::HashMap;
use std::fmt::{self, Write};
use std::path::PathBuf;
use std::sync::atomic::{fence, AtomicBool, AtomicU32, AtomicU64, AtomicUsize, Ordering};
use std::sync::{Arc, Mutex, OnceLock};
use std::{fs, panic};

/// How many events a history may have; a call has two. More than 65,536 the judge takes by `--events N`.
pub const EVENT_LIMIT: usize = 1_048_576;
pub const COMPONENT_LIMIT: usize = 256;
/// A thread is one process.
pub const PROCESS_LIMIT: usize = 65536;

/// What is wrong with a record, or with the use of a recorder.
#[derive(Clone, Copy, Debug, PartialEq, Eq)]
pub enum Fault {
    /// More threads, components or calls than the judge takes.
    Limits,
    /// A call began before the thread's last one had ended.
    Nested { thread: usize },
    /// A call ended that had not begun.
    NotOpen { thread: usize },
    /// A call was made although its begin was refused.
    AfterFull { thread: usize },
    /// A component is too high, or the entries of a view do not rise.
    Component { thread: usize },
    /// Two threads updated one component.
    TwoWriters { component: u32 },
    /// Views have values alone, and a component got one value twice, or its initial one.
    SameValue { component: u32, value: u32 },
    /// A view has values of fewer components than there are.
    Part { thread: usize },
    /// There are initial values, and not as many as components.
    Initials,
    /// `logs` lacks a log of this recorder, or has one in the wrong place.
    LogMissing,
}

impl fmt::Display for Fault {
    fn fmt(&self, f: &mut fmt::Formatter<'_>) -> fmt::Result {
        match self {
            Fault::Limits => {
                write!(
                    f,
                    "a history has at most {} calls of {PROCESS_LIMIT} threads in all, and {COMPONENT_LIMIT} components",
                    EVENT_LIMIT / 2
                )
            }
            Fault::Nested { thread } => write!(f, "thread {thread} began a call before its last one had ended"),
            Fault::NotOpen { thread } => write!(f, "thread {thread} ended a call that it had not begun"),
            Fault::AfterFull { thread } => write!(f, "thread {thread} made a call although begin had refused it: a log was full"),
            Fault::Component { thread } => write!(f, "thread {thread} named a component that is too high, or entries that do not rise"),
            Fault::TwoWriters { component } => write!(f, "two threads updated component {component}: a component has one writer"),
            Fault::SameValue { component, value } => write!(
                f,
                "component {component} got the value {value} twice, or has it at first, so a view's value has no one number: \
                 make the values differ, or end views with numbers"
            ),
            Fault::Part { thread } => {
                write!(f, "thread {thread} told the values of fewer components than there are: record each part by a recorder of its own")
            }
            Fault::Initials => f.write_str("there are initial values, and not as many as components"),
            Fault::LogMissing => f.write_str("a log is missing, or is not at its place"),
        }
    }
}

impl std::error::Error for Fault {}

/// What a view shows of a component; number 0 is its initial state.
#[derive(Clone, Copy, Debug, PartialEq, Eq)]
pub struct Entry {
    pub component: u32,
    pub number: u32,
    pub value: u32,
}

/// Shares no line of the cache with anything else.
#[repr(align(128))]
#[derive(Default)]
struct Clock(AtomicU64);

#[derive(Default)]
struct Shared {
    clock: Clock,
    /// A log is full, or a call was misused: begin is refused to all threads.
    stopped: AtomicBool,
    misuse: OnceLock<Fault>,
}

#[derive(Clone, Copy, PartialEq, Eq)]
enum State {
    Idle,
    Refused,
    Updating,
    Viewing,
}

/// How many views of the history ended, and how many of these overlapped an update: both calls were open at one moment.
#[derive(Clone, Copy, Debug, Default, PartialEq, Eq)]
pub struct Views {
    pub ended: usize,
    pub overlapping: usize,
}

#[derive(Clone, Copy, PartialEq, Eq)]
enum Kind {
    BeginUpdate,
    EndUpdate,
    BeginView,
    EndView,
    EndViewValues,
}

const KINDS: [Kind; 5] = [Kind::BeginUpdate, Kind::EndUpdate, Kind::BeginView, Kind::EndView, Kind::EndViewValues];

#[derive(Clone, Copy)]
struct Event {
    stamp: u64,
    kind: Kind,
    first: usize,
    count: usize,
}

/// An event as others may read it: its stamp, its kind, and the first of its entries and their number.
struct Slot(AtomicU64, AtomicU32, AtomicU32, AtomicU32);

/// What a log has recorded. Its thread writes it, and others read the events up to `whole`. `drops` counts how often a begin was taken
/// back. The lists have room for all that they can get. Each place was written once, so that no page is made while threads run: what is
/// written is not zero, since new pages have that.
struct Recorded {
    events: Vec<Slot>,
    entries: Vec<[AtomicU32; 3]>,
    whole: AtomicUsize,
    drops: AtomicUsize,
}

impl Recorded {
    fn new(events: usize, entries: usize) -> Self {
        let number = || AtomicU32::new(1);
        Recorded {
            events: (0..events).map(|_| Slot(AtomicU64::new(1), number(), number(), number())).collect(),
            entries: (0..entries).map(|_| [number(), number(), number()]).collect(),
            whole: AtomicUsize::new(0),
            drops: AtomicUsize::new(0),
        }
    }

    fn set_event(&self, at: usize, event: Event) {
        let Slot(stamp, kind, first, count) = &self.events[at];
        kind.store(event.kind as u32, Ordering::Relaxed);
        first.store(event.first as u32, Ordering::Relaxed);
        count.store(event.count as u32, Ordering::Relaxed);
        stamp.store(event.stamp, Ordering::Relaxed);
    }

    fn event(&self, at: usize) -> Event {
        let Slot(stamp, kind, first, count) = &self.events[at];
        let number = |of: &AtomicU32| of.load(Ordering::Relaxed) as usize;
        Event { stamp: stamp.load(Ordering::Relaxed), kind: KINDS[number(kind)], first: number(first), count: number(count) }
    }

    fn set_entry(&self, at: usize, entry: Entry) {
        for (place, word) in self.entries[at].iter().zip([entry.component, entry.number, entry.value]) {
            place.store(word, Ordering::Relaxed);
        }
    }

    fn entry(&self, at: usize) -> Entry {
        let [component, number, value] = [0, 1, 2].map(|word: usize| self.entries[at][word].load(Ordering::Relaxed));
        Entry { component, number, value }
    }

    /// Others may read this many events. What the object writes next does not come before that: no instruction on x86.
    fn publish(&self, whole: usize) {
        self.whole.store(whole, Ordering::Release);
        fence(Ordering::Release);
    }

    /// The events that began or ended before this moment. A begin that is taken back meanwhile is read again.
    fn before(&self, now: u64) -> Vec<Event> {
        loop {
            let drops = self.drops.load(Ordering::Acquire);
            let events = (0..self.whole.load(Ordering::Acquire)).map(|at| self.event(at));
            let events = events.take_while(|event| event.stamp < now).collect();
            fence(Ordering::Acquire);
            if drops == self.drops.load(Ordering::Relaxed) {
                return events;
            }
        }
    }
}

/// What one thread recorded, as the process of its number. It has no copies: what a copy records would be in no text.
#[repr(align(128))]
pub struct Log {
    shared: Arc<Shared>,
    thread: usize,
    components: usize,
    calls: usize,
    state: State,
    recorded: Arc<Recorded>,
    events: usize,
    entries: usize,
    begun: [u32; COMPONENT_LIMIT],
}

impl Log {
    fn tick(&self) -> u64 {
        self.shared.clock.0.fetch_add(1, Ordering::AcqRel)
    }

    /// The first misuse is kept for `Recorder::text`, and stops all threads.
    fn misused(&mut self, fault: Fault) {
        let _ = self.shared.misuse.set(fault);
        self.shared.stopped.store(true, Ordering::Relaxed);
        self.state = State::Refused;
    }

    fn may_begin(&mut self) -> bool {
        if matches!(self.state, State::Updating | State::Viewing) {
            self.misused(Fault::Nested { thread: self.thread });
        }
        if self.events == 2 * self.calls {
            // all threads stop, else views show updates that no one recorded
            self.shared.stopped.store(true, Ordering::Relaxed);
        }
        if self.shared.stopped.load(Ordering::Relaxed) {
            self.state = State::Refused;
        }
        self.state == State::Idle
    }

    fn may_end(&mut self, expected: State) -> bool {
        let is_open = self.state == expected;
        if !is_open {
            let thread = self.thread;
            self.misused(if self.state == State::Refused { Fault::AfterFull { thread } } else { Fault::NotOpen { thread } });
        }
        is_open
    }

    fn begin(&mut self, state: State, kind: Kind, first: usize) {
        let (recorded, place) = (&self.recorded, self.events);
        self.state = state;
        recorded.set_event(place, Event { stamp: u64::MAX, kind, first, count: self.entries - first });
        recorded.events[place].0.store(self.tick(), Ordering::Relaxed);
        self.events += 1;
        recorded.publish(self.events);
    }

    fn end(&mut self, stamp: u64, kind: Kind, first: usize) {
        self.recorded.set_event(self.events, Event { stamp, kind, first, count: self.entries - first });
        self.state = State::Idle;
        self.events += 1;
        self.recorded.publish(self.events);
    }

    fn show(&mut self, entry: Entry) {
        self.recorded.set_entry(self.entries, entry);
        self.entries += 1;
    }

    /// The number of the update, from 1 in each component; or `None`: a log is full, or a call was misused. Then make no
    /// further call.
    #[must_use]
    pub fn begin_update(&mut self, component: u32, value: u32) -> Option<u32> {
        if !self.may_begin() {
            return None;
        }
        if component as usize >= self.components {
            self.misused(Fault::Component { thread: self.thread });
            return None;
        }
        let begun = &mut self.begun[component as usize];
        *begun += 1;
        let number = *begun;
        let first = self.entries;
        self.show(Entry { component, number, value });
        self.begin(State::Updating, Kind::BeginUpdate, first);
        Some(number)
    }

    pub fn end_update(&mut self) {
        let stamp = self.tick();
        if self.may_end(State::Updating) {
            self.end(stamp, Kind::EndUpdate, self.entries);
        }
    }

    /// False: a log is full, or a call was misused. Then make no further call.
    #[must_use]
    pub fn begin_view(&mut self) -> bool {
        let may = self.may_begin();
        if may {
            self.begin(State::Viewing, Kind::BeginView, self.entries);
        }
        may
    }

    /// The end of a view that shows these entries, components rising. Number 0, or no entry, is the initial state.
    pub fn end_view(&mut self, shown: &[Entry]) {
        let stamp = self.tick();
        if !self.may_end(State::Viewing) {
            return;
        }
        let rise = shown.windows(2).all(|pair| pair[0].component < pair[1].component);
        if !rise || shown.last().is_some_and(|entry| entry.component as usize >= self.components) {
            return self.misused(Fault::Component { thread: self.thread });
        }
        let first = self.entries;
        shown.iter().for_each(|&entry| self.show(entry));
        self.end(stamp, Kind::EndView, first);
    }

    /// The end of a view that shows these values, of component 0 and so on. `Recorder::text` finds the number of each by its
    /// value. So the updates of a component must write values that differ from each other and from the one that it has at first.
    pub fn end_view_values(&mut self, shown: &[u32]) {
        let stamp = self.tick();
        if !self.may_end(State::Viewing) {
            return;
        }
        if shown.len() != self.components {
            let thread = self.thread;
            return self.misused(if shown.len() > self.components { Fault::Component { thread } } else { Fault::Part { thread } });
        }
        let first = self.entries;
        (0..).zip(shown).for_each(|(component, &value)| self.show(Entry { component, number: 0, value }));
        self.end(stamp, Kind::EndViewValues, first);
    }

    fn dropped(&mut self, expected: State) -> bool {
        let may = self.may_end(expected);
        if may {
            self.events -= 1;
            self.state = State::Idle;
            self.recorded.drops.fetch_add(1, Ordering::AcqRel);
            self.recorded.publish(self.events);
        }
        may
    }

    /// Call this in place of the end of a view that gave no answer, because it gave up: the view is left out of the history.
    pub fn drop_view(&mut self) {
        self.dropped(State::Viewing);
    }

    /// In place of the end of an update that had no effect, and can have none any more: it is left out of the history, and the
    /// next update of its component gets its number. If that is not known, end nothing, and use this log no more.
    pub fn drop_update(&mut self) {
        if self.dropped(State::Updating) {
            self.entries -= 1;
            self.begun[self.recorded.entry(self.entries).component as usize] -= 1;
        }
    }
}

/// A log for each thread. Threads borrow the logs, or take them and give them back at their places.
pub struct Recorder {
    pub logs: Vec<Log>,
    /// The value that each component has at first.
    pub initial: u32,
    /// Or, if it is not empty, the first value of each component.
    pub initials: Vec<u32>,
    shared: Arc<Shared>,
    threads: usize,
    components: usize,
}

impl Recorder {
    /// A recorder for this many threads, components, and calls of each thread, at most `EVENT_LIMIT / 2` calls in all.
    pub fn new(threads: usize, components: usize, calls: usize) -> Result<Self, Fault> {
        let fits =
            (1..=PROCESS_LIMIT).contains(&threads) && components <= COMPONENT_LIMIT && (1..=EVENT_LIMIT / 2 / threads).contains(&calls);
        if !fits {
            return Err(Fault::Limits);
        }
        let shared = Arc::new(Shared::default());
        let logs = (0..threads)
            .map(|thread| Log {
                shared: Arc::clone(&shared),
                thread,
                components,
                calls,
                state: State::Idle,
                recorded: Arc::new(Recorded::new(2 * calls, calls * components.max(1))),
                events: 0,
                entries: 0,
                begun: [0; COMPONENT_LIMIT],
            })
            .collect();
        Ok(Recorder { logs, initial: 0, initials: Vec::new(), shared, threads, components })
    }

    /// The history that all logs hold. The logs follow one another: the judge puts the events in the order of their
    /// stamps. The fault is the first misuse, or one of `LogMissing`, `Initials`, `TwoWriters` and `SameValue`.
    pub fn text(&self) -> Result<String, Fault> {
        if let Some(&misuse) = self.shared.misuse.get() {
            return Err(misuse);
        }
        let is_own = |(place, log): (usize, &Log)| log.thread == place && Arc::ptr_eq(&log.shared, &self.shared);
        if self.logs.len() != self.threads || !self.logs.iter().enumerate().all(is_own) {
            return Err(Fault::LogMissing);
        }
        if !self.initials.is_empty() && self.initials.len() != self.components {
            return Err(Fault::Initials);
        }
        self.so_far().text()
    }

    /// What the recorder has so far can be read by this at any time, from any thread. Set `initial` or `initials` before.
    pub fn so_far(&self) -> SoFar {
        SoFar {
            shared: Arc::clone(&self.shared),
            recorded: self.logs.iter().map(|log| Arc::clone(&log.recorded)).collect(),
            initial: self.initial,
            initials: self.initials.clone(),
        }
    }

    /// Counts the views, after the threads were joined. A run in which none overlapped an update says nothing of calls at the same time.
    pub fn views(&self) -> Views {
        let parts: Vec<Vec<Event>> = self.logs.iter().map(|log| log.recorded.before(u64::MAX)).collect();
        let stamps_of = |kind| {
            let events = parts.iter().flatten();
            let mut stamps: Vec<u64> = events.filter(|event| event.kind == kind).map(|event| event.stamp).collect();
            stamps.sort_unstable();
            stamps
        };
        let (begun, ended) = (stamps_of(Kind::BeginUpdate), stamps_of(Kind::EndUpdate));
        // the event before an end is the begin of its call
        let calls = parts.iter().flat_map(|events| events.windows(2));
        let views = calls.filter(|call| matches!(call[1].kind, Kind::EndView | Kind::EndViewValues));
        views.fold(Views::default(), |found, view| Views {
            ended: found.ended + 1,
            // more updates began before its end than ended before its begin
            overlapping: found.overlapping + usize::from(below(&begun, view[1].stamp) > below(&ended, view[0].stamp)),
        })
    }
}

/// Reads what a recorder has, while its threads run.
pub struct SoFar {
    shared: Arc<Shared>,
    recorded: Vec<Arc<Recorded>>,
    initial: u32,
    initials: Vec<u32>,
}

impl SoFar {
    /// The history so far: a call that is open, or ends meanwhile, has no end in it. An update whose begin is left out had not begun
    /// before each view that is in it had ended. So a right run is never called wrong. The fault is the first misuse, or one of
    /// `TwoWriters` and `SameValue`.
    pub fn text(&self) -> Result<String, Fault> {
        if let Some(&misuse) = self.shared.misuse.get() {
            return Err(misuse);
        }
        let now = self.shared.clock.0.load(Ordering::Acquire);
        let parts: Vec<Vec<Event>> = self.recorded.iter().map(|recorded| recorded.before(now)).collect();
        let updates = Updates::of(self, &parts)?;
        let mut text = String::from("at,event,process,op,data\n");
        for (thread, events) in parts.iter().enumerate() {
            for event in events {
                self.write(&mut text, &updates, thread, event);
            }
        }
        Ok(text)
    }

    /// From now on each panic, of any thread, first writes the history so far into a file of this path. Then it does what panics did
    /// before. So a process that aborts by a panic keeps its run. One that dies otherwise writes nothing.
    pub fn keep(self, path: impl Into<PathBuf>) {
        let (path, before, turn) = (path.into(), panic::take_hook(), Mutex::new(()));
        panic::set_hook(Box::new(move |info| {
            let _turn = turn.lock(); // threads that panic at once write one after the other
            match self.text().map(|text| fs::write(&path, text)) {
                Ok(Ok(())) => {}
                Ok(Err(error)) => eprintln!("{} can't be written: {error}", path.display()),
                Err(fault) => eprintln!("{} is not written: {fault}", path.display()),
            }
            before(info);
        }));
    }

    fn initial_of(&self, component: u32) -> u32 {
        self.initials.get(component as usize).copied().unwrap_or(self.initial)
    }

    fn write(&self, text: &mut String, updates: &Updates, thread: usize, event: &Event) {
        let (word, op) = match event.kind {
            Kind::BeginUpdate => ("begin", "update"),
            Kind::EndUpdate => ("end", "update"),
            Kind::BeginView => ("begin", "view"),
            Kind::EndView | Kind::EndViewValues => ("end", "view"),
        };
        let entries = (event.first..event.first + event.count).map(|at| self.recorded[thread].entry(at));
        let shown = entries.filter_map(|entry| {
            let number = match event.kind {
                Kind::EndViewValues if entry.value == self.initial_of(entry.component) => 0,
                Kind::EndViewValues => updates.number(&entry, event.stamp),
                _ => entry.number,
            };
            (number > 0).then(|| format!("{}:{number}:{}", entry.component, entry.value))
        });
        let data = shown.collect::<Vec<_>>().join(" ");
        writeln!(text, "{},{word},{thread},{op},{data}", event.stamp).expect("a string takes all that is written");
    }
}

/// How many of these rising stamps are below another one.
fn below(stamps: &[u64], stamp: u64) -> usize {
    stamps.partition_point(|&it| it < stamp)
}

/// All updates, to look numbers up.
struct Updates {
    /// By component and number: the stamp of the begin.
    begun: Vec<Vec<u64>>,
    /// By component and value, if some view has values alone.
    numbers: HashMap<(u32, u32), u32>,
}

impl Updates {
    fn of(recorder: &SoFar, parts: &[Vec<Event>]) -> Result<Self, Fault> {
        let by_values = parts.iter().flatten().any(|event| event.kind == Kind::EndViewValues);
        let mut updates = Updates { begun: vec![Vec::new(); COMPONENT_LIMIT], numbers: HashMap::new() };
        let mut writers = [None; COMPONENT_LIMIT];
        for (thread, events) in parts.iter().enumerate() {
            for event in events.iter().filter(|event| event.kind == Kind::BeginUpdate) {
                let Entry { component, number, value } = recorder.recorded[thread].entry(event.first);
                if writers[component as usize].replace(thread).is_some_and(|other| other != thread) {
                    return Err(Fault::TwoWriters { component });
                }
                updates.begun[component as usize].push(event.stamp);
                let is_initial = value == recorder.initial_of(component);
                if by_values && (is_initial || updates.numbers.insert((component, value), number).is_some()) {
                    return Err(Fault::SameValue { component, value });
                }
            }
        }
        Ok(updates)
    }

    /// The number of the value that a view shows. One that nobody wrote gets the last number that had begun when the view
    /// ended: the judge then says `integrity`, and no more of this entry by itself.
    fn number(&self, entry: &Entry, ended: u64) -> u32 {
        let last = || below(&self.begun[entry.component as usize], ended).max(1) as u32;
        self.numbers.get(&(entry.component, entry.value)).copied().unwrap_or_else(last)
    }
}
