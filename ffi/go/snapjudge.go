// Package snapjudge judges a recorded history of a single-writer board: is it atomic, only regular, or neither?
//
// Check gives the verdict as values. Explain, Shrink, Draw and JSON give what the commands of the program write, to the byte. Each takes
// the text of a history as a string or as bytes, and leaves it unchanged. Goroutines may call at the same time.
//
// What the library answers is proved. This package, which calls it by cgo and makes values of its JSON, is not.
//
// The package links libsnapjudge.a. In a clone of the project ffi/build.sh leaves it where the package looks. Elsewhere set CGO_CFLAGS
// to -I and the folder of snapjudge.h, and CGO_LDFLAGS to -L and that of the library. An installation in /usr/local needs neither.
package snapjudge

import (
	"encoding/json"
	"errors"
	"fmt"
	"strings"
)

// Text is the text of a history, in the format of `snapjudge check`.
type Text interface{ ~string | ~[]byte }

// The usual limit of the events of a history, and the greatest.
const (
	UsualEvents = 65_536
	MostEvents  = 1_048_576
)

// Option changes how a text is judged.
type Option func(*options)

type options struct {
	events      uint32
	manyWriters bool
}

// Events lets a history have up to this many events, from 1 to MostEvents, in place of UsualEvents.
func Events(most uint32) Option { return func(o *options) { o.events = most } }

// ManyWriters lets a component have many writers, as `--writers many` does.
func ManyWriters() Option { return func(o *options) { o.manyWriters = true } }

func optionsOf(chosen []Option) options {
	all := options{events: UsualEvents}
	for _, option := range chosen {
		option(&all)
	}
	return all
}

// Answer is what a command of the program ends with, and what it writes.
type Answer struct {
	Status Status
	Text   string
}

// RefusedError says why a text is not a history.
type RefusedError struct {
	Record    uint32 // the first record at fault, counted from 1 with the header, and 0 for the text as a whole
	Word      string // what is wrong, in one word, as the report has it
	Sentences string // what `snapjudge explain` writes
}

// Error is what `snapjudge explain` writes, without the last line end.
func (e *RefusedError) Error() string { return strings.TrimSuffix(e.Sentences, "\n") }

// LimitError says that no history can have this limit of events.
type LimitError struct{ Events uint32 }

func (e *LimitError) Error() string {
	return fmt.Sprintf("a limit of events is from 1 to 1,048,576, and not %d", e.Events)
}

// ErrMemory says that memory ran out.
var ErrMemory = errors.New("snapjudge: out of memory")

// ErrOption says that a form of a picture is none of the package, or that a history has no such part.
var ErrOption = errors.New("snapjudge: there is no such form or part")

// ErrVersion says that the library is not of the version that its header names.
var ErrVersion = errors.New("snapjudge: the library is of another version")

// Check judges a history. The error is a *RefusedError if the text is not a history, a *LimitError if there is no such limit of events,
// or ErrMemory.
//
// The library judges twice if the history is atomic, since only the report has the order. Report judges once.
func Check[T Text](text T, chosen ...Option) (*Judged, error) {
	judged := new(Judged)
	if err := read(question{command: object}, text, chosen, judged); err != nil {
		return nil, err
	}
	if judged.Atomic {
		report, err := Report(text, chosen...)
		if err != nil {
			return nil, err
		}
		judged.Order = orderOf(report.Text)
	}
	return judged, nil
}

// Reads the object that answers a question into a value.
func read[T Text](asked question, text T, chosen []Option, into any) error {
	answer, err := ask(asked, []byte(text), optionsOf(chosen))
	if err != nil {
		return err
	}
	if answer.Status == Refused {
		return refusalOf(text, answer.Text, chosen)
	}
	return json.Unmarshal([]byte(answer.Text), into)
}

// The error of a text that is not a history.
func refusalOf[T Text](text T, object string, chosen []Option) error {
	var found struct {
		Refused struct {
			Record uint32 `json:"record"`
			Fault  string `json:"fault"`
		} `json:"refused"`
	}
	if err := json.Unmarshal([]byte(object), &found); err != nil {
		return err
	}
	why, err := Explain(text, chosen...)
	if err != nil {
		return err
	}
	return &RefusedError{found.Refused.Record, found.Refused.Fault, why.Text}
}

// Report gives the status and the report of a text, as `snapjudge check` writes it. Each error is that of a limit or of memory, here and
// in the functions below: of a text that is not a history they say so in the answer.
func Report[T Text](text T, chosen ...Option) (Answer, error) {
	return ask(question{command: report}, []byte(text), optionsOf(chosen))
}

// Explain gives what `snapjudge explain` writes: why the history is not atomic, an order if it is, or why the text is not a history.
func Explain[T Text](text T, chosen ...Option) (Answer, error) {
	return ask(question{command: explain}, []byte(text), optionsOf(chosen))
}

// ExplainDrawn gives what `snapjudge explain --draw` writes: the sentences of Explain, and below them a picture in characters.
func ExplainDrawn[T Text](text T, chosen ...Option) (Answer, error) {
	return ask(question{command: explain, option: 1}, []byte(text), optionsOf(chosen))
}

// ExplainAll gives what `snapjudge explain --all` writes: the sentences of Explain, with all entries of the views of a fault.
func ExplainAll[T Text](text T, chosen ...Option) (Answer, error) {
	return ask(question{command: explain, option: 2}, []byte(text), optionsOf(chosen))
}

// ExplainAllDrawn gives what `snapjudge explain --all --draw` writes: the sentences of ExplainAll, and below them a picture in characters.
func ExplainAllDrawn[T Text](text T, chosen ...Option) (Answer, error) {
	return ask(question{command: explain, option: 3}, []byte(text), optionsOf(chosen))
}

// ExplainFaults gives what `snapjudge explain --faults N` writes, with faults for N: of each kind the first fault of each of the first N views
// that have one. The error is ErrOption if N is not from 1 to 1,000.
func ExplainFaults[T Text](text T, faults uint32, chosen ...Option) (Answer, error) {
	return ask(question{command: explainFaults, faults: faults}, []byte(text), optionsOf(chosen))
}

// ExplainAllFaults gives what `snapjudge explain --all --faults N` writes: the sentences of ExplainFaults, with all entries of the views of a
// fault.
func ExplainAllFaults[T Text](text T, faults uint32, chosen ...Option) (Answer, error) {
	return ask(question{command: explainFaults, option: 1, faults: faults}, []byte(text), optionsOf(chosen))
}

// JSON gives what `snapjudge check --format json` writes of a file with this name: an object on a line.
func JSON[T Text](text T, name string, chosen ...Option) (Answer, error) {
	return ask(question{command: object, name: []byte(name)}, []byte(text), optionsOf(chosen))
}

// Shrink gives what `snapjudge shrink` writes: a history of at most four of the calls, which has the first fault.
func Shrink[T Text](text T, chosen ...Option) (Answer, error) {
	return ask(question{command: shrink}, []byte(text), optionsOf(chosen))
}

// ShrinkDrawn gives what `snapjudge shrink --draw` writes: the picture of that history.
func ShrinkDrawn[T Text](text T, chosen ...Option) (Answer, error) {
	return ask(question{command: shrink, option: 1}, []byte(text), optionsOf(chosen))
}

// ShrinkMap gives what `snapjudge shrink --map` writes: which calls of the text that history keeps.
func ShrinkMap[T Text](text T, chosen ...Option) (Answer, error) {
	return ask(question{command: shrink, option: 2}, []byte(text), optionsOf(chosen))
}

// Draw gives the picture of a history in this form. The error is ErrOption for a form that there is not.
func Draw[T Text](text T, form Form, chosen ...Option) (Answer, error) {
	return ask(question{command: draw, option: uint32(form)}, []byte(text), optionsOf(chosen))
}

// Part says which calls of a history are drawn: how many, and from which on or around which. Calls are counted from 1, and 0 asks for
// nothing.
type Part struct{ Calls, From, Around uint32 }

// DrawPart gives the picture of a part of a history in this form. The error is ErrOption for a form that there is not. It is ErrOption too
// if the history lacks the call, if both calls are named, or if the form has no room for as many calls.
func DrawPart[T Text](text T, form Form, part Part, chosen ...Option) (Answer, error) {
	return ask(question{command: draw, option: uint32(form), part: part}, []byte(text), optionsOf(chosen))
}

// Stats counts what a run has shown, such as how many views overlap an update. It is not a verdict. Its errors are those of Check.
func Stats[T Text](text T, chosen ...Option) (*RunStats, error) {
	shown := new(RunStats)
	if err := read(question{command: stats, option: 1}, text, chosen, shown); err != nil {
		return nil, err
	}
	return shown, nil
}

// StatsLines gives what `snapjudge stats` writes.
func StatsLines[T Text](text T, chosen ...Option) (string, error) {
	answer, err := ask(question{command: stats}, []byte(text), optionsOf(chosen))
	return answer.Text, err
}
