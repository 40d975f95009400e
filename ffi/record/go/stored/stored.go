// Records operations of a small store as one does for Porcupine, and writes the history that the judge takes into a file.
//
//	go run ./stored right history.csv
//
// With a third word `events` it goes by Porcupine's events.
//
// The stores are `right`; `stale`, whose reads at times show what stood some writes ago; and `lost`, which forgets a write at times.
//
// SPDX-License-Identifier: 0BSD
package main

import (
	"fmt"
	"os"
	"snaprecord/fromporcupine"
	"sort"
	"sync"
	"time"
)

// Operation is what Porcupine has; with Porcupine, import it and write porcupine.Operation.
type Operation struct {
	ClientId int
	Input    interface{}
	Call     int64
	Output   interface{}
	Return   int64
}

// Event is what Porcupine has for histories of events, with the two kinds CallEvent and ReturnEvent.
type Event struct {
	ClientId int
	Kind     EventKind
	Value    interface{}
	Id       int
}

type EventKind bool

const (
	CallEvent   EventKind = false
	ReturnEvent EventKind = true
)

// What a client asks for: to write a value into a key, or, if isRead, to read all keys.
type input struct {
	isRead bool
	key    string
	value  int
}

// What the store answers: the values of all keys to a read; and whether there was no answer in time.
type output struct {
	values   map[string]int
	timedOut bool
}

var keys = []string{"a", "b", "c"}

// step says to fromporcupine what an operation did.
func step(asked, answered any) fromporcupine.Step {
	in := asked.(input)
	out, _ := answered.(output) // nil if an event of a return is missing
	if !in.isRead {
		written := []fromporcupine.Entry{{Key: in.key, Value: in.value}}
		if out.timedOut {
			return fromporcupine.Step{Kind: fromporcupine.Write, Outcome: fromporcupine.Unknown, Entries: written}
		}
		return fromporcupine.Step{Kind: fromporcupine.Write, Entries: written}
	}
	var shown []fromporcupine.Entry
	for _, key := range keys {
		shown = append(shown, fromporcupine.Entry{Key: key, Value: out.values[key]})
	}
	return fromporcupine.Step{Kind: fromporcupine.Read, Entries: shown}
}

// A store keeps what stood after each write.
type store struct {
	kind   string
	mutex  sync.Mutex
	boards []map[string]int
}

func (store *store) write(key string, value int) {
	store.mutex.Lock()
	defer store.mutex.Unlock()
	if store.kind == "lost" && value%7 == 0 {
		return
	}
	board := map[string]int{key: value}
	for other, kept := range store.boards[len(store.boards)-1] {
		if other != key {
			board[other] = kept
		}
	}
	store.boards = append(store.boards, board)
}

func (store *store) read(turn int) map[string]int {
	store.mutex.Lock()
	defer store.mutex.Unlock()
	last := len(store.boards) - 1
	if store.kind == "stale" && turn%5 == 0 && last >= 4 {
		last -= 4
	}
	return store.boards[last]
}

// The operations of a client, which writes a key of its own and reads all keys. Its last write has no answer.
func work(store *store, client, calls int, now func() int64) []Operation {
	var operations []Operation
	for i := 1; i <= calls; i++ {
		asked := input{isRead: i%2 == 0, key: keys[client], value: 1000*(client+1) + i}
		called, answered := now(), output{timedOut: i == calls}
		if asked.isRead {
			answered.values = store.read(i)
		} else {
			store.write(asked.key, asked.value)
		}
		operations = append(operations, Operation{client, asked, called, answered, now()})
	}
	return operations
}

func run(kind string) []Operation {
	store, begun := &store{kind: kind, boards: []map[string]int{{}}}, time.Now()
	var all sync.WaitGroup
	recorded := make([][]Operation, len(keys))
	for client := range keys {
		all.Add(1)
		go func(client int) {
			defer all.Done()
			recorded[client] = work(store, client, 201, func() int64 { return int64(time.Since(begun)) })
		}(client)
	}
	all.Wait()
	var operations []Operation
	for _, own := range recorded {
		operations = append(operations, own...)
	}
	return operations
}

// The calls and returns of the operations, in the order of time. An operation that got no answer does not return.
func eventsOf(operations []Operation) []Event {
	type moment struct {
		at    int64
		event Event
	}
	var moments []moment
	for id, it := range operations {
		moments = append(moments, moment{it.Call, Event{it.ClientId, CallEvent, it.Input, id}})
		if !it.Output.(output).timedOut {
			moments = append(moments, moment{it.Return, Event{it.ClientId, ReturnEvent, it.Output, id}})
		}
	}
	sort.SliceStable(moments, func(i, j int) bool {
		a, b := moments[i], moments[j]
		return a.at < b.at || a.at == b.at && a.event.Kind == CallEvent && b.event.Kind == ReturnEvent
	})
	events := make([]Event, len(moments))
	for at, moment := range moments {
		events[at] = moment.event
	}
	return events
}

func histories(kind string, byEvents bool) ([]fromporcupine.History, error) {
	options := fromporcupine.Options{Initial: 0}
	if byEvents {
		return fromporcupine.HistoriesOfEvents(eventsOf(run(kind)), step, options)
	}
	return fromporcupine.Histories(run(kind), step, options)
}

func main() {
	if len(os.Args) < 3 || os.Args[1] != "right" && os.Args[1] != "stale" && os.Args[1] != "lost" {
		fmt.Fprintln(os.Stderr, "usage: stored right|stale|lost FILE [operations|events]")
		os.Exit(5)
	}
	histories, err := histories(os.Args[1], len(os.Args) > 3 && os.Args[3] == "events")
	if err != nil {
		fmt.Fprintln(os.Stderr, err)
		os.Exit(3)
	}
	if err := os.WriteFile(os.Args[2], []byte(histories[0].Text), 0o666); err != nil {
		fmt.Fprintln(os.Stderr, err)
		os.Exit(4)
	}
}
