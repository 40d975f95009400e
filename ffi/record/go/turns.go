// SPDX-License-Identifier: 0BSD

package snaprecord

import (
	"math"
	"sync/atomic"
)

// What all runs share: the source of choices, and how many points the last run had.
type pace struct {
	random random
	points uint64
}

func newPace(options Options) *pace {
	return &pace{random(mix(options.Seed)), 6 * options.Threads * options.Calls}
}

// Turns of the goroutines of a run: probabilistic concurrency testing, by Burckhardt, Kothari, Musuvathi and Nagarakatte (2010). One
// goroutine runs at a time: of those that have not ended the one with the highest priority. The seed chooses these, and the points at
// which the running goroutine gets a priority below all of them. Only the running goroutine reads and writes the turns.
type turns struct {
	running       int
	priorities    []int64
	changes       []uint64
	points, spins uint64 // spins: points since the last end of a call
	lowest        int64
	turn          []chan bool
}

const (
	hasEnded  = math.MinInt64
	mostSpins = 10000 // a goroutine that comes to this many may wait for another one, and gets a priority below all others
)

// The turns of the run, if it has some. A goroutine has no name, so the turn that it has identifies it: a goroutine that an object
// starts itself must not call Pause or Point.
var ofRun atomic.Pointer[turns]

// The turns of a run; nothing if goroutines run freely.
func newTurns(options Options, pace *pace) *turns {
	if options.Schedule != "pct" {
		return nil
	}
	count := int(options.Threads)
	made, order := &turns{priorities: make([]int64, count), turn: make([]chan bool, count)}, make([]int, count)
	for t := range order {
		order[t], made.turn[t] = t, make(chan bool, 1)
	}
	for i := count - 1; i >= 0; i-- {
		j := pace.random.next() % uint64(i+1)
		order[i], order[j] = order[j], order[i]
		made.priorities[order[i]] = int64(options.Depth) + int64(i)
	}
	for i := uint64(1); i < options.Depth; i++ {
		made.changes = append(made.changes, 1+pace.random.next()%pace.points)
	}
	return made
}

// Gives the first turn.
func (turns *turns) start() {
	if turns != nil {
		turns.running = turns.first()
		ofRun.Store(turns)
		turns.turn[turns.running] <- true
	}
}

// A goroutine begins, and waits for its turn.
func (turns *turns) enter(thread int) {
	if turns != nil {
		<-turns.turn[thread]
	}
}

// A goroutine ends.
func (turns *turns) leave(thread int) {
	if turns != nil {
		turns.priorities[thread] = hasEnded
		turns.pass(thread)
	}
}

// The run has ended.
func (turns *turns) end(pace *pace) {
	if turns != nil {
		ofRun.Store(nil)
		pace.points = turns.points
	}
}

func (turns *turns) first() int {
	first := 0
	for t, priority := range turns.priorities {
		if priority > turns.priorities[first] {
			first = t
		}
	}
	return first
}

func (turns *turns) pass(from int) {
	next := turns.first()
	if next == from || turns.priorities[next] == hasEnded {
		return
	}
	waits := turns.priorities[from] != hasEnded
	turns.running = next
	turns.turn[next] <- true
	if waits {
		<-turns.turn[from]
	}
}

func (turns *turns) point() {
	thread := turns.running
	turns.points++
	turns.spins++
	for i, at := range turns.changes {
		if at == turns.points {
			turns.priorities[thread] = int64(i)
		}
	}
	if turns.spins > mostSpins {
		turns.spins = 0
		turns.lowest--
		turns.priorities[thread] = turns.lowest
	}
	turns.pass(thread)
}

// Point marks a place between two steps. By the schedule pct the turn may change here, and the answer is true; else nothing is done.
func Point() bool {
	turns := ofRun.Load()
	if turns == nil {
		return false
	}
	turns.point()
	return true
}

// A call has ended.
func goOn(options Options) {
	if turns := ofRun.Load(); turns != nil {
		turns.spins = 0
	} else if options.Nap > 0 {
		Pause()
	}
}
