// SPDX-License-Identifier: 0BSD

package fromporcupine

import "container/heap"

// When a call takes effect, and in which turn among all calls, from 1.
type effect struct {
	at   int64
	turn int
}

// A queue of calls has first the one that takes effect first.
type queue struct {
	calls   []*call
	effects map[*call]effect
}

func (queue *queue) Len() int        { return len(queue.calls) }
func (queue *queue) Swap(i, j int)   { queue.calls[i], queue.calls[j] = queue.calls[j], queue.calls[i] }
func (queue *queue) Push(pushed any) { queue.calls = append(queue.calls, pushed.(*call)) }
func (queue *queue) Less(i, j int) bool {
	return queue.at(i) < queue.at(j) || queue.at(i) == queue.at(j) && queue.calls[i].before(queue.calls[j])
}
func (queue *queue) at(i int) int64 { return queue.effects[queue.calls[i]].at }

func (queue *queue) Pop() any {
	last := len(queue.calls) - 1
	popped := queue.calls[last]
	queue.calls = queue.calls[:last]
	return popped
}

// Parts writes of one component that overlap: the first ends, and the next begins, where the next one takes effect.
func (board *board) part() {
	if !board.hasOverlap() {
		return
	}
	effects := board.effects()
	for _, component := range board.components {
		writes := board.inOrder[component]
		whole := append([]*call(nil), writes...)
		for at := 1; at < len(writes); at++ {
			if !overlap(writes[at-1], writes[at]) {
				continue
			}
			when := effects[whole[at]]
			if writes[at-1].ended >= when.at {
				writes[at-1] = writes[at-1].within(writes[at-1].begun, when.at)
				writes[at-1].endedTurn = when.turn
			}
			writes[at] = writes[at].within(when.at, writes[at].ended)
			writes[at].begunTurn = when.turn
		}
	}
}

func (board *board) hasOverlap() bool {
	for _, writes := range board.inOrder {
		for at := 1; at < len(writes); at++ {
			if overlap(writes[at-1], writes[at]) {
				return true
			}
		}
	}
	return false
}

// If some order of all calls explains the reads, one in which each call takes effect as early as it can: at its begin, or with the last
// call that must come before it. Those are the write that a read shows, the read that misses a write, and the write before of the
// component. Otherwise any order of the writes of a component that keeps their numbers.
func (board *board) effects() map[*call]effect {
	later, waits := map[*call][]*call{}, map[*call]int{}
	follow := func(after, before *call) {
		later[before] = append(later[before], after)
		waits[after]++
	}
	var calls []*call
	for _, component := range board.components {
		writes := board.inOrder[component]
		calls = append(calls, writes...)
		for at := 1; at < len(writes); at++ {
			follow(writes[at], writes[at-1])
		}
		for _, read := range board.reads {
			number := board.numbers[entry{component, read.values[component]}]
			if number > 0 {
				follow(read, writes[number-1])
			}
			if number < len(writes) {
				follow(writes[number], read)
			}
		}
	}
	calls = append(calls, board.reads...)
	effects := map[*call]effect{}
	ready := &queue{effects: effects}
	for _, it := range calls {
		effects[it] = effect{at: it.begun}
		if waits[it] == 0 {
			heap.Push(ready, it)
		}
	}
	done := 0
	for ready.Len() > 0 {
		it := heap.Pop(ready).(*call)
		at := effects[it].at
		if it.ended < at {
			break
		}
		done++
		effects[it] = effect{at, done}
		for _, after := range later[it] {
			if effects[after].at < at {
				effects[after] = effect{at: at}
			}
			if waits[after]--; waits[after] == 0 {
				heap.Push(ready, after)
			}
		}
	}
	if done < len(calls) {
		for at, it := range calls {
			effects[it] = effect{it.begun, at + 1}
		}
	}
	return effects
}

// Whether a write overlaps the next one of its component.
func overlap(write, later *call) bool { return write.ended >= later.begun }
