// Package fromporcupine makes histories for `snapjudge check` of operations that were recorded for Porcupine.
//
// A folder without dependencies, Go 1.19 or later: copy it into a module. It does not import Porcupine: any type with the fields of
// porcupine.Operation or porcupine.Event is taken. docs/PORCUPINE.md of snapjudge leads through it, and ../stored is an example.
//
//	histories, err := fromporcupine.Histories(operations, step, fromporcupine.Options{})
//
// where step says what an operation did, by its input and its output.
//
// SPDX-License-Identifier: 0BSD
// Copyright (C) 2026 by the authors of snapjudge
// Permission to use, copy, modify, and/or distribute this software for any purpose with or without fee is hereby granted.
// THE SOFTWARE IS PROVIDED "AS IS" AND THE AUTHOR DISCLAIMS ALL WARRANTIES WITH REGARD TO THIS SOFTWARE INCLUDING ALL IMPLIED
// WARRANTIES OF MERCHANTABILITY AND FITNESS. IN NO EVENT SHALL THE AUTHOR BE LIABLE FOR ANY SPECIAL, DIRECT, INDIRECT, OR
// CONSEQUENTIAL DAMAGES OR ANY DAMAGES WHATSOEVER RESULTING FROM LOSS OF USE, DATA OR PROFITS, WHETHER IN AN ACTION OF
// CONTRACT, NEGLIGENCE OR OTHER TORTIOUS ACTION, ARISING OUT OF OR IN CONNECTION WITH THE USE OR PERFORMANCE OF THIS SOFTWARE.
package fromporcupine

import (
	"math"
	"sort"
)

// What the judge takes.
const (
	EventLimit     = 65536 // events of a history, if Options do not say; a call has two
	MostEvents     = 1048576
	ComponentLimit = 256
	ProcessLimit   = 65536
)

// A Kind is what an operation did. The zero value is none of these.
type Kind int

const (
	Read  Kind = iota + 1 // of one key, or of several at one moment
	Write                 // of one key, whatever it had before
)

// An Outcome is how an operation ended.
type Outcome int

const (
	Done    Outcome = iota
	Failed          // it had no effect, and never will: it is left out
	Unknown         // nobody knows, as after a timeout: a write stays open, and a read is left out
)

// An Entry is what a write writes, or a read shows, of one key. Keys and values are of any types that Go compares.
type Entry struct {
	Key, Value any
	Version    uint64 // with Options.Versions, the number that the store gave to this write; 0 if nobody knows it
}

// A Step says what an operation did: its one entry if it wrote, and an entry for each key if it read.
type Step struct {
	Kind    Kind
	Outcome Outcome
	Entries []Entry
}

// Options say how operations are read.
type Options struct {
	Initial  any  // what a read shows of a key that nobody has written; nil always means that too
	Versions bool // the store orders the writes of a key by the versions of entries
	Events   int  // how many events a history may have, EventLimit if it is 0; `snapjudge check --events` needs the same
}

// A History has the calls on keys that are read together.
type History struct {
	Keys   []any    // component k of the history is Keys[k]
	Values []any    // the number v of the history stands for Values[v]
	Text   string   // what `snapjudge check` reads
	Told   []string // what was changed, a sentence each
}

type operation struct {
	ClientId int
	Input    any
	Call     int64
	Output   any
	Return   int64
}

// An Operation has the fields of porcupine.Operation.
type Operation interface {
	~struct {
		ClientId int
		Input    any
		Call     int64
		Output   any
		Return   int64
	}
}

type event[Kind ~bool] struct {
	ClientId int
	Kind     Kind
	Value    any
	Id       int
}

// An Event has the fields of porcupine.Event, whose kind is true for a return.
type Event[Kind ~bool] interface {
	~struct {
		ClientId int
		Kind     Kind
		Value    any
		Id       int
	}
}

// Histories makes a history of each set of keys that are read together. The error is a *Refusal, which says what to record instead;
// or a *Contradiction, if the versions show that the run is not atomic.
//
// As in Porcupine, two operations overlap if one is called at the moment when the other one returns.
func Histories[O Operation](operations []O, step func(input, output any) Step, options Options) ([]History, error) {
	reader := newReader(options)
	for place := range operations {
		it := operation(operations[place])
		if err := reader.take(place, it, step(it.Input, it.Output)); err != nil {
			return nil, err
		}
	}
	return reader.histories()
}

// HistoriesOfEvents does the same for events, whose order in the list is the order of time. A call without a return is Unknown, and
// step gets nil as its output.
func HistoriesOfEvents[E Event[K], K ~bool](events []E, step func(input, output any) Step, options Options) ([]History, error) {
	calls, returned := map[int]*operation{}, map[int]bool{}
	var inOrder []int
	for place := range events {
		it := event[K](events[place])
		call := calls[it.Id]
		switch {
		case !bool(it.Kind) && call == nil:
			calls[it.Id] = &operation{ClientId: it.ClientId, Input: it.Value, Call: int64(place), Return: math.MaxInt64}
			inOrder = append(inOrder, it.Id)
		case !bool(it.Kind):
			return nil, refusal("id", place)
		case call == nil || returned[it.Id]:
			return nil, refusal("return", place)
		default:
			returned[it.Id], call.Output, call.Return = true, it.Value, int64(place)
		}
	}
	reader := newReader(options)
	for _, id := range inOrder {
		it := *calls[id]
		did := step(it.Input, it.Output)
		if !returned[id] {
			did.Outcome = Unknown
		}
		if err := reader.take(int(it.Call), it, did); err != nil {
			return nil, err
		}
	}
	return reader.histories()
}

// A call is an operation that the history has. One that is pending ends never.
type call struct {
	place, client int // of the operation in its list
	isWrite       bool
	begun, ended  int64
	components    []int
	values        map[int]any // by components; nil is the first value
	versions      map[int]uint64
	begunTurn     int // of a write that was parted from the one before: its turn at that moment
	endedTurn     int // of one that was parted from the next
}

const never = math.MaxInt64

func (it *call) isPending() bool { return it.ended == never }

// The component and the value of a write.
func (it *call) written() entry { return entry{it.components[0], it.values[it.components[0]]} }

// An entry is what a component shows, or gets.
type entry struct {
	component int
	value     any
}

// A reader takes operations one by one, and has their calls.
type reader struct {
	options    Options
	calls      []*call
	components map[any]int
	keys       []any
}

func newReader(options Options) *reader { return &reader{options: options, components: map[any]int{}} }

func (reader *reader) component(key any) int {
	component, isKnown := reader.components[key]
	if !isKnown {
		component = len(reader.keys)
		reader.components[key] = component
		reader.keys = append(reader.keys, key)
	}
	return component
}

func (reader *reader) take(place int, it operation, did Step) error {
	if did.Kind != Read && did.Kind != Write {
		return refusal("kind", place)
	}
	if it.ClientId < 0 || it.ClientId >= ProcessLimit {
		return refusal("client", place)
	}
	if did.Outcome == Failed || did.Outcome == Unknown && did.Kind == Read {
		return nil
	}
	made := &call{place: place, client: it.ClientId, isWrite: did.Kind == Write, begun: it.Call, ended: it.Return,
		values: map[int]any{}, versions: map[int]uint64{}}
	if did.Outcome == Unknown {
		made.ended = never
	}
	if made.ended < made.begun {
		return refusal("time", place)
	}
	reader.calls = append(reader.calls, made)
	return reader.show(made, did.Entries)
}

// Gives a call its entries.
func (reader *reader) show(made *call, entries []Entry) error {
	if made.isWrite && len(entries) != 1 {
		return refusal("keys", made.place)
	}
	if len(entries) == 0 {
		return refusal("nothing", made.place)
	}
	for _, shown := range entries {
		if !isComparable(shown.Key) || !isComparable(shown.Value) {
			return refusal("compare", made.place)
		}
		value := shown.Value
		if value == reader.options.Initial {
			value = nil
		}
		if made.isWrite && value == nil {
			return refusal("first", made.place)
		}
		component := reader.component(shown.Key)
		if _, isTwice := made.values[component]; isTwice {
			return refusal("twice", made.place)
		}
		made.components = append(made.components, component)
		made.values[component] = value
		if reader.options.Versions && shown.Version != 0 && value != nil {
			made.versions[component] = shown.Version
		}
	}
	sort.Ints(made.components)
	if len(made.components) > ComponentLimit {
		return refusal("many", made.place)
	}
	return nil
}

func isComparable(value any) (is bool) {
	defer func() { is = recover() == nil }()
	return value == value
}
