// Package snaprecord records the calls that goroutines make of a single-writer board, and writes them as a history for
// `snapjudge check`. Run, in snapdrive.go, does all of it by a seeded schedule.
//
// A folder without dependencies, Go 1.19 or later: copy it into a module. docs/OWN-OBJECT.md of snapjudge leads through one.
//
//	recorder, err := snaprecord.New[uint32](threads, components, calls)
//
//	log := recorder.Log(t)                                   // goroutine t, and no other; never a copy of the log
//	if log.BeginUpdate(component, value) == 0 { return }     // refused: make no further call
//	board.Update(component, value)
//	log.EndUpdate()
//	if !log.BeginView() { return }
//	values := board.View()
//	log.EndViewValues(values)                                // or EndView, of numbers; of a call that failed Drop..
//
//	text, err := recorder.Text()                             // after the goroutines have ended; TextSoFar gives one before
//	defer recorder.Keep("unfinished.csv")                    // in each goroutine: writes what there is if it panics
//
// Values may be of any type that Go compares. Those of type uint32 stand for themselves, others are numbered by a table.
//
// What the record says: if call A ended before call B began, A happened before B. Each stamp is one atomic step of one clock. A
// begin takes it last in Begin.., and an end takes it first in End... A goroutine writes to its own log alone. A call locks and
// allocates nothing unless it is misused, and all pages of a log are there before goroutines run.
// What it cannot say: the clock orders more calls than the object may, so a fault that needs two calls without such an order can
// hide.
//
// SPDX-License-Identifier: 0BSD
// Copyright (C) 2026 by the authors of snapjudge
// Permission to use, copy, modify, and/or distribute this software for any purpose with or without fee is hereby granted.
// THE SOFTWARE IS PROVIDED "AS IS" AND THE AUTHOR DISCLAIMS ALL WARRANTIES WITH REGARD TO THIS SOFTWARE INCLUDING ALL IMPLIED
// WARRANTIES OF MERCHANTABILITY AND FITNESS. IN NO EVENT SHALL THE AUTHOR BE LIABLE FOR ANY SPECIAL, DIRECT, INDIRECT, OR
// CONSEQUENTIAL DAMAGES OR ANY DAMAGES WHATSOEVER RESULTING FROM LOSS OF USE, DATA OR PROFITS, WHETHER IN AN ACTION OF
// CONTRACT, NEGLIGENCE OR OTHER TORTIOUS ACTION, ARISING OUT OF OR IN CONNECTION WITH THE USE OR PERFORMANCE OF THIS SOFTWARE.
package snaprecord

import (
	"fmt"
	"sync/atomic"
)

// What the judge takes.
const (
	EventLimit     = 1048576 // in all; a call has two. More than 65536 the judge takes by --events N
	ComponentLimit = 256
	ProcessLimit   = 65536 // a goroutine is one process
)

// A Fault is what is wrong with a record, or with the use of a recorder; it is an error too.
type Fault int32

const (
	Limits     Fault = iota + 1 // more goroutines, components or calls than the judge takes
	Nested                      // a call began before the goroutine's last one had ended
	NotOpen                     // a call ended that had not begun
	AfterFull                   // a call was made although its begin was refused
	Component                   // a component is too high, or the entries of a view do not rise
	TwoWriters                  // two goroutines updated one component
	SameValue                   // views have values alone, and a component got one value twice, or its initial one
	Part                        // a view has values of fewer components than there are
	Initials                    // there are first values, and not as many as components
	Copied                      // a call was made of a copy of a log: keep what Log answers
)

var sentences = map[Fault]string{
	Limits:     "limits: more goroutines, components or calls than the judge takes",
	Nested:     "nested: a call began before the goroutine's last one had ended",
	NotOpen:    "not open: a call ended that had not begun",
	AfterFull:  "after full: a call was made although begin had refused it: a log was full",
	Component:  "component: a component is too high, or the entries of a view do not rise",
	TwoWriters: "two writers: two goroutines updated one component",
	SameValue:  "same value: a component got one value twice, or its initial one: make the values differ, or end views with numbers",
	Part:       "part: a view tells the values of fewer components than there are: record each part by a recorder of its own",
	Initials:   "initials: there are first values, and not as many as components",
	Copied:     "copied: a call was made of a copy of a log, whose records would be lost: keep what Log answers",
}

func (fault Fault) Error() string { return sentences[fault] }

// An Entry is what a view shows of a component; number 0 is its initial state.
type Entry[V comparable] struct {
	Component, Number uint32
	Value             V
}

type kind int

const (
	beginUpdate kind = iota
	endUpdate
	beginView
	endView
	endViewValues
)

type state int

const (
	idle state = iota
	refused
	updating
	viewing
)

type event struct {
	stamp        uint64
	kind         kind
	first, count int // its entries
}

// go vet warns of copies of what has one of these.
type noCopy struct{}

func (*noCopy) Lock()   {}
func (*noCopy) Unlock() {}

// What others may read of a log: the room of its lists, how many events there are, and how often a begin was taken back.
type recorded[V comparable] struct {
	events  []event
	entries []Entry[V]
	count   atomic.Int64
	drops   atomic.Int64
}

// A Log is what one goroutine recorded.
type Log[V comparable] struct {
	_        noCopy
	recorder *Recorder[V]
	thread   int
	state    state
	events   []event // both have room for everything that they can get
	entries  []Entry[V]
	recorded recorded[V]
	begun    [ComponentLimit]uint32
	_        [128]byte // alone in its lines of the cache
}

// A Recorder holds a log for each goroutine.
type Recorder[V comparable] struct {
	clock      atomic.Uint64
	_          [120]byte
	stopped    atomic.Bool // a log is full, or a call was misused: Begin.. is refused to all goroutines
	misuse     atomic.Pointer[error]
	components int
	calls      int
	logs       []Log[V]
	table      []V

	// Initial is the value that each component has at first, and Initials, if it is not nil, has the first value of each. Set
	// them before the goroutines start.
	Initial  V
	Initials []V
}

// New makes a recorder for this many goroutines, components, and calls of each goroutine, at most EventLimit / 2 calls in all.
func New[V comparable](threads, components, calls int) (*Recorder[V], error) {
	fits := threads >= 1 && threads <= ProcessLimit && components >= 0 && components <= ComponentLimit && calls >= 1
	if !fits || calls > EventLimit/2/threads {
		return nil, Limits
	}
	recorder := &Recorder[V]{components: components, calls: calls, logs: make([]Log[V], threads)}
	for t := range recorder.logs {
		log := &recorder.logs[t]
		log.recorder, log.thread = recorder, t
		log.events = touched(2*calls, event{stamp: 1})
		log.entries = touched(calls*(components+1), Entry[V]{Number: 1})
		log.recorded.events, log.recorded.entries = log.events[:cap(log.events)], log.entries[:cap(log.entries)]
	}
	return recorder, nil
}

// An empty list with room for this many, each of which was written once, so that no page is made while goroutines run. What is written
// is not zero, since new pages have that.
func touched[T any](room int, with T) []T {
	list := make([]T, room)
	for i := range list {
		list[i] = with
	}
	return list[:0]
}

// Log is the log of a goroutine, which is the process of that number.
func (recorder *Recorder[V]) Log(thread int) *Log[V] { return &recorder.logs[thread] }

func (log *Log[V]) tick() uint64 { return log.recorder.clock.Add(1) - 1 }

// The first misuse is kept for Text, and stops all goroutines.
func (log *Log[V]) misused(fault Fault) bool {
	var first error = fmt.Errorf("goroutine %d: %w", log.thread, fault)
	log.recorder.misuse.CompareAndSwap(nil, &first)
	log.recorder.stopped.Store(true)
	log.state = refused
	return false
}

// Whether the log is a copy. What it records is in no text, and so a history without it could look right.
func (log *Log[V]) isCopy() bool { return log != &log.recorder.logs[log.thread] }

func (log *Log[V]) mayBegin() bool {
	if log.isCopy() {
		return log.misused(Copied)
	}
	if log.state >= updating {
		return log.misused(Nested)
	}
	if len(log.events) == 2*log.recorder.calls {
		log.recorder.stopped.Store(true) // all goroutines stop, else views show updates that no one recorded
	}
	if log.recorder.stopped.Load() {
		log.state = refused
	}
	return log.state == idle
}

func (log *Log[V]) mayEnd(expected state) bool {
	if log.isCopy() {
		return log.misused(Copied)
	}
	switch log.state {
	case expected:
		return true
	case refused:
		return log.misused(AfterFull)
	default:
		return log.misused(NotOpen)
	}
}

func (log *Log[V]) begin(next state, kind kind, first int) {
	log.state = next
	log.events = append(log.events, event{0, kind, first, len(log.entries) - first})
	log.events[len(log.events)-1].stamp = log.tick()
	log.recorded.count.Store(int64(len(log.events)))
}

func (log *Log[V]) end(stamp uint64, kind kind, first int) {
	log.events = append(log.events, event{stamp, kind, first, len(log.entries) - first})
	log.state = idle
	log.recorded.count.Store(int64(len(log.events)))
}

// BeginUpdate answers the number of the update, from 1 in each component; or 0: a log is full, or a call was misused. Then make no
// further call.
func (log *Log[V]) BeginUpdate(component int, value V) uint32 {
	if !log.mayBegin() {
		return 0
	}
	if component < 0 || component >= log.recorder.components {
		log.misused(Component)
		return 0
	}
	log.begun[component]++
	first := len(log.entries)
	log.entries = append(log.entries, Entry[V]{uint32(component), log.begun[component], value})
	log.begin(updating, beginUpdate, first)
	return log.begun[component]
}

func (log *Log[V]) EndUpdate() {
	stamp := log.tick()
	if log.mayEnd(updating) {
		log.end(stamp, endUpdate, len(log.entries))
	}
}

// BeginView answers false if a log is full, or a call was misused. Then make no further call.
func (log *Log[V]) BeginView() bool {
	may := log.mayBegin()
	if may {
		log.begin(viewing, beginView, len(log.entries))
	}
	return may
}

// EndView is the end of a view that shows these entries, components rising. Number 0, or no entry, is the initial state.
func (log *Log[V]) EndView(shown []Entry[V]) {
	stamp := log.tick()
	if !log.mayEnd(viewing) {
		return
	}
	for i, entry := range shown {
		if int(entry.Component) >= log.recorder.components || i > 0 && entry.Component <= shown[i-1].Component {
			log.misused(Component)
			return
		}
	}
	first := len(log.entries)
	log.entries = append(log.entries, shown...)
	log.end(stamp, endView, first)
}

// EndViewValues is the end of a view that shows these values, of component 0 and so on. Text finds the number of each by its value.
// So the updates of a component must write values that differ from each other and from the one that it has at first.
func (log *Log[V]) EndViewValues(shown []V) {
	stamp := log.tick()
	if !log.mayEnd(viewing) {
		return
	}
	if len(shown) > log.recorder.components {
		log.misused(Component)
		return
	}
	if len(shown) < log.recorder.components {
		log.misused(Part)
		return
	}
	first := len(log.entries)
	for k, value := range shown {
		log.entries = append(log.entries, Entry[V]{uint32(k), 0, value})
	}
	log.end(stamp, endViewValues, first)
}

func (log *Log[V]) dropped(expected state) bool {
	may := log.mayEnd(expected)
	if may {
		log.events = log.events[:len(log.events)-1]
		log.state = idle
		log.recorded.drops.Add(1)
		log.recorded.count.Store(int64(len(log.events)))
	}
	return may
}

// DropView takes the place of the end of a view that gave no answer, because it gave up: it is left out of the history.
func (log *Log[V]) DropView() { log.dropped(viewing) }

// DropUpdate takes the place of the end of an update that had no effect, and can have none any more: it is left out of the history,
// and the next update of its component gets its number. If that is not known, end nothing, and use this log no more.
func (log *Log[V]) DropUpdate() {
	if log.dropped(updating) {
		last := len(log.entries) - 1
		log.begun[log.entries[last].Component]--
		log.entries = log.entries[:last]
	}
}
