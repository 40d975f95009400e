// SPDX-License-Identifier: 0BSD

package snaprecord

import (
	"fmt"
	"os"
	"sort"
	"strings"
)

// The updates of one component, to look numbers up.
type updates[V comparable] struct {
	initial V
	writer  *Log[V]
	begun   []uint64 // by number: the stamp of the begin
	numbers map[V]uint32
}

// Text is the history that all logs hold. They follow one another: the judge puts the events in the order of their stamps.
// The error is the first misuse, or Initials, TwoWriters or SameValue.
func (recorder *Recorder[V]) Text() (string, error) {
	parts := make([][]event, len(recorder.logs))
	for t := range recorder.logs {
		parts[t] = recorder.logs[t].events
	}
	return recorder.text(parts)
}

// TextSoFar is such a history while goroutines run: a call that is open, or ends meanwhile, has no end in it. An update whose begin is
// left out had not begun before each view that is in it had ended. So a right run is never called wrong.
func (recorder *Recorder[V]) TextSoFar() (string, error) {
	now, parts := recorder.clock.Load(), make([][]event, len(recorder.logs))
	for t := range recorder.logs {
		parts[t] = recorder.logs[t].recorded.before(now)
	}
	return recorder.text(parts)
}

// Keep is deferred by a goroutine, first of all: if it panics, the history so far goes into a file of this path, and the panic goes on.
// A process that dies otherwise writes nothing.
func (recorder *Recorder[V]) Keep(path string) {
	died := recover()
	if died == nil {
		return
	}
	text, err := recorder.TextSoFar()
	if err == nil {
		err = os.WriteFile(path, []byte(text), 0o666)
	}
	if err != nil {
		fmt.Fprintf(os.Stderr, "%s can't be written: %v\n", path, err)
	}
	panic(died)
}

// The events that began or ended before this moment. A begin that is taken back meanwhile is read again.
func (recorded *recorded[V]) before(now uint64) []event {
	for {
		drops, count := recorded.drops.Load(), recorded.count.Load()
		events := append([]event(nil), recorded.events[:count]...)
		if drops == recorded.drops.Load() {
			return events[:sort.Search(len(events), func(i int) bool { return events[i].stamp >= now })]
		}
	}
}

// The history of these events of each log.
func (recorder *Recorder[V]) text(parts [][]event) (string, error) {
	if misuse := recorder.misuse.Load(); misuse != nil {
		return "", *misuse
	}
	updates, err := recorder.tabulate(parts)
	if err != nil {
		return "", err
	}
	var text strings.Builder
	places := map[V]int{}
	recorder.table = nil
	text.WriteString("at,event,process,op,data\n")
	for t := range recorder.logs {
		for _, event := range parts[t] {
			recorder.write(&text, updates, places, &recorder.logs[t], event)
		}
	}
	return text.String(), nil
}

// Views says how many views of the history ended, and how many of these overlapped an update: both calls were open at one moment.
type Views struct{ Ended, Overlapping int }

// Views counts the views, after the goroutines have ended. A run in which none overlapped an update says nothing of calls at the same
// time.
func (recorder *Recorder[V]) Views() Views {
	var begun, ended []uint64 // the stamps of the updates
	var views Views
	for t := range recorder.logs {
		for _, event := range recorder.logs[t].events {
			switch event.kind {
			case beginUpdate:
				begun = append(begun, event.stamp)
			case endUpdate:
				ended = append(ended, event.stamp)
			}
		}
	}
	sort.Slice(begun, func(i, j int) bool { return begun[i] < begun[j] })
	sort.Slice(ended, func(i, j int) bool { return ended[i] < ended[j] })
	for t := range recorder.logs {
		events := recorder.logs[t].events
		for i, event := range events {
			if event.kind != endView && event.kind != endViewValues {
				continue
			}
			views.Ended++
			// more updates began before its end than ended before its begin; the event before an end is the begin of its call
			if below(begun, event.stamp) > below(ended, events[i-1].stamp) {
				views.Overlapping++
			}
		}
	}
	return views
}

// How many of these rising stamps are below another one.
func below(stamps []uint64, stamp uint64) int {
	return sort.Search(len(stamps), func(i int) bool { return stamps[i] >= stamp })
}

// Table has the values by the numbers that stand for them in the last Text, from 0 on. It is empty if values are of type uint32.
func (recorder *Recorder[V]) Table() []V { return recorder.table }

func (recorder *Recorder[V]) tabulate(parts [][]event) ([]updates[V], error) {
	table := make([]updates[V], recorder.components)
	if recorder.Initials != nil && len(recorder.Initials) != recorder.components {
		return nil, Initials
	}
	for k := range table {
		table[k] = updates[V]{initial: recorder.Initial, numbers: map[V]uint32{}}
		if recorder.Initials != nil {
			table[k].initial = recorder.Initials[k]
		}
	}
	byValues := false
	for _, events := range parts {
		for _, event := range events {
			byValues = byValues || event.kind == endViewValues
		}
	}
	for t := range recorder.logs {
		log := &recorder.logs[t]
		for _, event := range parts[t] {
			if event.kind != beginUpdate {
				continue
			}
			entry := log.recorded.entries[event.first]
			of := &table[entry.Component]
			if of.writer != nil && of.writer != log {
				return nil, fmt.Errorf("component %d: %w", entry.Component, TwoWriters)
			}
			if byValues && (entry.Value == of.initial || of.numbers[entry.Value] != 0) {
				return nil, fmt.Errorf("component %d, value %v: %w", entry.Component, entry.Value, SameValue)
			}
			of.writer = log
			of.begun = append(of.begun, event.stamp)
			of.numbers[entry.Value] = entry.Number
		}
	}
	return table, nil
}

// The number of the value that a view shows. One that nobody wrote gets the last number that had begun when the view ended: the
// judge then says `integrity`, and no more of this entry by itself.
func (of *updates[V]) number(value V, ended uint64) uint32 {
	if value == of.initial {
		return 0
	}
	if number := of.numbers[value]; number != 0 {
		return number
	}
	if last := below(of.begun, ended); last > 0 {
		return uint32(last)
	}
	return 1
}

// What stands for a value: itself, or its place in the table.
func (recorder *Recorder[V]) plain(places map[V]int, value V) any {
	if itself, is := any(value).(uint32); is {
		return itself
	}
	place, isKnown := places[value]
	if !isKnown {
		place = len(recorder.table)
		places[value] = place
		recorder.table = append(recorder.table, value)
	}
	return place
}

var words = [...]string{"begin,%d,update,", "end,%d,update,", "begin,%d,view,", "end,%d,view,", "end,%d,view,"}

func (recorder *Recorder[V]) write(text *strings.Builder, updates []updates[V], places map[V]int, log *Log[V], event event) {
	fmt.Fprintf(text, "%d,"+words[event.kind], event.stamp, log.thread)
	space := ""
	for _, entry := range log.recorded.entries[event.first : event.first+event.count] {
		number := entry.Number
		if event.kind == endViewValues {
			number = updates[entry.Component].number(entry.Value, event.stamp)
		}
		if number != 0 {
			fmt.Fprintf(text, "%s%d:%d:%v", space, entry.Component, number, recorder.plain(places, entry.Value))
			space = " "
		}
	}
	text.WriteByte('\n')
}
