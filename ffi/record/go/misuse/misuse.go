// The recorder's texts of two worked runs, written to the files that are named, and the fault of each misuse.
// usage: misuse FILE [FILE]
package main

import (
	"errors"
	"fmt"
	"os"
	"path/filepath"
	"reflect"
	"strings"
	"syscall"

	. "snaprecord"
)

var passed, failures int

func expect(name string, holds bool) {
	if holds {
		passed++
		return
	}
	failures++
	fmt.Fprintf(os.Stderr, "go: %s: failed\n", name)
}

func recorder(threads, components, calls int) *Recorder[uint32] {
	made, err := New[uint32](threads, components, calls)
	expect("a recorder", err == nil)
	return made
}

// The recorder has no text, for this reason; or it has one, if there is no reason.
func expectFault[V comparable](name string, recorder *Recorder[V], fault error) {
	_, err := recorder.Text()
	expect(name, errors.Is(err, fault))
}

func update[V comparable](log *Log[V], component int, value V) {
	if log.BeginUpdate(component, value) != 0 {
		log.EndUpdate()
	}
}

func show[V comparable](log *Log[V], values ...V) {
	if log.BeginView() {
		log.EndViewValues(values)
	}
}

func textOf(recorder *Recorder[uint32]) []byte {
	text, err := recorder.Text()
	expect("a text", err == nil)
	return []byte(text)
}

func worked() []byte {
	recorder := recorder(2, 2, 6)
	writer, viewer := recorder.Log(0), recorder.Log(1)
	expect("the first update has number 1", writer.BeginUpdate(0, 7) == 1)
	show(viewer, 7, 0)
	writer.EndUpdate()
	expect("the second update has number 2", writer.BeginUpdate(0, 8) == 2)
	writer.EndUpdate()
	if viewer.BeginView() {
		viewer.EndView([]Entry[uint32]{{Component: 0, Number: 2, Value: 8}, {Component: 1}})
	}
	if viewer.BeginView() {
		viewer.DropView()
	}
	show(viewer, 99, 0) // nobody wrote 99
	expect("the views of the worked run", recorder.Views() == Views{Ended: 3, Overlapping: 1})
	return textOf(recorder)
}

func failed() []byte {
	recorder := recorder(3, 2, 6)
	recorder.Initials = []uint32{5, 6}
	writer, viewer, spare := recorder.Log(0), recorder.Log(1), recorder.Log(2)
	expect("an update that is dropped", writer.BeginUpdate(0, 7) == 1)
	writer.DropUpdate()
	expect("its number is used again", writer.BeginUpdate(0, 7) == 1)
	show(viewer, 5, 6)
	writer.EndUpdate()
	show(viewer, 7, 6)
	expect("an update of which it is not known whether it had an effect", writer.BeginUpdate(1, 8) == 1)
	show(viewer, 7, 8)
	show(spare, 7, 8)
	expect("the views beside an update that stays pending", recorder.Views() == Views{Ended: 4, Overlapping: 3})
	return textOf(recorder)
}

// What there is while a call is open.
func soFar() string {
	recorder := recorder(2, 1, 2)
	expect("an update begins", recorder.Log(0).BeginUpdate(0, 7) == 1)
	show(recorder.Log(1), 7)
	text, err := recorder.TextSoFar()
	expect("there is a text so far", err == nil)
	recorder.Log(0).EndUpdate()
	whole, err := recorder.TextSoFar()
	expect("what there is so far is all that there is", err == nil && whole == string(textOf(recorder)))
	return text
}

// A goroutine that panics leaves what was recorded.
func kept() string {
	recorder, path := recorder(1, 1, 2), filepath.Join(os.TempDir(), fmt.Sprintf("snaprecord-%d.csv", os.Getpid()))
	done := make(chan any)
	go func() {
		defer func() { done <- recover() }()
		defer recorder.Keep(path)
		recorder.Log(0).BeginUpdate(0, 7)
		panic("the object dies")
	}()
	expect("the panic goes on", <-done == "the object dies")
	text, err := os.ReadFile(path)
	expect("the file is there", err == nil && os.Remove(path) == nil)
	return string(text)
}

// The view shows what a dropped update wrote.
func dirty() string {
	recorder := recorder(2, 1, 2)
	expect("an update begins", recorder.Log(0).BeginUpdate(0, 9) == 1)
	show(recorder.Log(1), 9)
	recorder.Log(0).DropUpdate()
	return string(textOf(recorder))
}

// How many pages this process was given so far, without a read from a disk.
func pages() int64 {
	var usage syscall.Rusage
	expect("the use of resources", syscall.Getrusage(syscall.RUSAGE_SELF, &usage) == nil)
	return usage.Minflt
}

// The logs take some 3,000 pages, and all of them are there before.
func tryPages() {
	recorder, values := recorder(1, 64, 16000), make([]uint32, 64)
	before := pages()
	for i := 0; i < 16000; i++ {
		show(recorder.Log(0), values...)
	}
	expect("no page is made while calls are recorded", pages()-before < 300)
	expect("all of them ended", recorder.Views() == Views{Ended: 16000})
}

// A copy of a log, of which go vet would warn if it were made by a plain assignment.
func copyOf(log *Log[uint32]) *Log[uint32] {
	copied := reflect.New(reflect.TypeOf(log).Elem())
	copied.Elem().Set(reflect.ValueOf(log).Elem())
	return copied.Interface().(*Log[uint32])
}

// What is recorded in a copy is in no text, so a copy refuses to record, and all goroutines stop.
func tryCopies() {
	begins, ends := recorder(2, 1, 4), recorder(1, 1, 4)
	expect("a copy of a log is refused", copyOf(begins.Log(0)).BeginUpdate(0, 1) == 0)
	expect("a copy of a log stops all goroutines", !begins.Log(1).BeginView())
	expectFault("a copy of a log", begins, Copied)
	expect("an update", ends.Log(0).BeginUpdate(0, 1) == 1)
	copyOf(ends.Log(0)).EndUpdate()
	expectFault("an end by a copy of a log", ends, Copied)
}

// The values of the last view of one history are the first ones of the next, which may write older ones again.
func goesOn() string {
	recorder := recorder(1, 2, 4)
	recorder.Initials = []uint32{7, 0}
	show(recorder.Log(0), 7, 0)
	update(recorder.Log(0), 0, 0)
	show(recorder.Log(0), 0, 0)
	return string(textOf(recorder))
}

func hasLog(recorder *Recorder[uint32], thread int) (has bool) {
	defer func() { has = recover() == nil }()
	return recorder.Log(thread) != nil
}

func main() {
	for place, text := range [][]byte{worked(), failed()} {
		if place+1 < len(os.Args) {
			expect("a file", os.WriteFile(os.Args[place+1], text, 0o666) == nil)
		}
	}

	for _, of := range [][3]int{{0, 1, 1}, {65537, 1, 1}, {1, 257, 1}, {2, 1, EventLimit/4 + 1}, {1, 1, 0}} {
		_, err := New[uint32](of[0], of[1], of[2])
		expect("limits", errors.Is(err, Limits))
	}
	recorder(2, 256, 100)
	recorder(16, 1, EventLimit/32)

	header := "at,event,process,op,data\n"
	expect("what a panic leaves", kept() == header+"0,begin,0,update,0:1:7\n")
	expect("what there is so far", soFar() == header+"0,begin,0,update,0:1:7\n1,begin,1,view,\n2,end,1,view,0:1:7\n")
	expect("a dropped update that was seen", dirty() == header+"1,begin,1,view,\n2,end,1,view,0:1:9\n")
	expect("a history that goes on", goesOn() == header+"0,begin,0,view,\n1,end,0,view,\n2,begin,0,update,0:1:0\n"+
		"3,end,0,update,\n4,begin,0,view,\n5,end,0,view,0:1:0\n")
	two := recorder(2, 1, 1)
	expect("a log that there is not", hasLog(two, 1) && !hasLog(two, 2) && !hasLog(two, -1))

	tryCopies()
	tryPages()

	full := recorder(2, 1, 2)
	update(full.Log(0), 0, 1)
	update(full.Log(0), 0, 2)
	expect("a full log refuses", full.Log(0).BeginUpdate(0, 3) == 0)
	expect("a full log stops all goroutines", !full.Log(1).BeginView())
	expectFault("a full log is a history", full, nil)
	full.Log(0).EndUpdate()
	expectFault("a call after a full log", full, AfterFull)

	nested := recorder(2, 1, 4)
	expect("begun", nested.Log(0).BeginUpdate(0, 1) == 1)
	expect("a nested call is refused", !nested.Log(0).BeginView())
	expect("a misuse stops all goroutines", !nested.Log(1).BeginView())
	expectFault("a nested call", nested, Nested)

	alone := recorder(1, 1, 4)
	alone.Log(0).EndUpdate()
	expectFault("an end without a begin", alone, NotOpen)

	other := recorder(1, 1, 4)
	if other.Log(0).BeginView() {
		other.Log(0).EndUpdate()
	}
	expectFault("an end of another kind", other, NotOpen)

	dropped, viewed, room := recorder(1, 1, 4), recorder(1, 1, 4), recorder(1, 1, 1)
	dropped.Log(0).DropUpdate()
	expectFault("an update dropped without a begin", dropped, NotOpen)
	if viewed.Log(0).BeginView() {
		viewed.Log(0).DropUpdate()
	}
	expectFault("a view dropped as an update", viewed, NotOpen)
	for i := 0; i < 100; i++ {
		expect("a dropped update leaves its room", room.Log(0).BeginUpdate(0, 1) == 1)
		room.Log(0).DropUpdate()
	}

	ends := []func(*Log[uint32]){
		func(log *Log[uint32]) { log.EndViewValues([]uint32{0}) },
		func(log *Log[uint32]) { log.EndView([]Entry[uint32]{{}}) },
		func(log *Log[uint32]) { log.DropView() },
	}
	for _, end := range ends {
		for _, updates := range []bool{false, true} {
			ended := recorder(1, 1, 4)
			expect("an update", !updates || ended.Log(0).BeginUpdate(0, 1) == 1)
			end(ended.Log(0))
			expectFault("an end of a view without a begin", ended, NotOpen)
		}
	}

	high := recorder(1, 2, 4)
	expect("a component that is too high is refused", high.Log(0).BeginUpdate(2, 1) == 0)
	expectFault("a component that is too high", high, Component)

	falling := recorder(1, 2, 4)
	if falling.Log(0).BeginView() {
		falling.Log(0).EndView([]Entry[uint32]{{Component: 1}, {Component: 0}})
	}
	expectFault("entries that do not rise", falling, Component)

	far := recorder(1, 2, 4)
	if far.Log(0).BeginView() {
		far.Log(0).EndView([]Entry[uint32]{{Component: 2}})
	}
	expectFault("an entry that is too high", far, Component)

	long, short := recorder(1, 2, 4), recorder(1, 2, 4)
	show(long.Log(0), 0, 0, 0)
	expectFault("a view of too many values", long, Component)
	show(short.Log(0), 0)
	expectFault("a view of a part", short, Part)

	writers := recorder(2, 2, 4)
	update(writers.Log(0), 1, 5)
	update(writers.Log(1), 1, 6)
	expectFault("two writers", writers, TwoWriters)

	same := recorder(1, 2, 4)
	update(same.Log(0), 1, 5)
	update(same.Log(0), 1, 5)
	expectFault("one value twice, and no view", same, nil)
	show(same.Log(0), 0, 5)
	expectFault("one value twice", same, SameValue)

	initial := recorder(1, 1, 4)
	initial.Initial = 5
	update(initial.Log(0), 0, 5)
	show(initial.Log(0), 5)
	expectFault("the initial value", initial, SameValue)

	initials := recorder(1, 2, 4)
	initials.Initials = []uint32{1}
	expectFault("too few first values", initials, Initials)
	initials.Initials = []uint32{1, 2, 3}
	expectFault("too many first values", initials, Initials)
	for component, fault := range []error{nil, SameValue} {
		first := recorder(1, 2, 4)
		first.Initials = []uint32{4, 5}
		update(first.Log(0), component, 5)
		show(first.Log(0), 5, 5)
		expectFault("the first value of a component", first, fault)
	}

	named, err := New[string](1, 2, 4)
	expect("a recorder of texts", err == nil)
	update(named.Log(0), 1, "b")
	update(named.Log(0), 0, "a")
	show(named.Log(0), "a", "b")
	text, err := named.Text()
	expect("texts are numbered", err == nil && strings.Contains(text, ",update,1:1:0\n") && strings.HasSuffix(text, ",view,0:1:1 1:1:0\n"))
	expect("a table of texts", reflect.DeepEqual(named.Table(), []string{"b", "a"}))

	fmt.Printf("%d passed, %d failed\n", passed, failures)
	if failures > 0 {
		os.Exit(1)
	}
}
