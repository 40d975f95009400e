// SPDX-License-Identifier: 0BSD

package snaprecord

import (
	"errors"
	"fmt"
	"os"
	"runtime"
	"strconv"
	"strings"
	"sync/atomic"
	"time"
)

const usage = `usage: [OBJECT] [OPTION VALUE ..]
  --threads 4      how many threads, at most 64
  --components 4   how many components, at most 64; thread t updates t, t + threads and so on
  --calls 200      how many calls each thread makes; all threads together make at most half of --events
  --events 65536   how many events a run may have, at most 1048576; a call has two
  --runs 20        how many runs, each of a fresh object
  --seed 1         the seed of the random choice of calls
  --order choice   the seed chooses each call; or turn: updates and a view in turn
  --schedule free  threads run freely; or pct: in turns that the seed chooses, the same in each try
  --depth 3        by pct the turns change at this many moments, less one; at most 64
  --nap 0          if not 0, pauses and the gaps between calls last up to that many microseconds
  --stop 0         if not 0, ends after that many runs that were not atomic
  --limit 60       how many seconds a run may take
  --views 1        how many views must end in all runs together; 0 asks for none
  --out .          the folder for the first run that was not atomic
  --program FILE   the program snapjudge; else SNAPJUDGE_PROGRAM names it, else it is on the PATH
  --choices        writes the calls that the seed chooses, and runs nothing
  --help           writes the options and the objects, with status 0`

// A Board is an object under test; each component is 0 at first. A view has one value for each component, and is nil if it gave
// up. If an object calls Pause between its steps, the other goroutines run in the middle of its calls.
type Board interface {
	Update(thread, component int, value uint32)
	View(thread int) []uint32
}

// A FallibleBoard is a board whose updates can fail. An update answers NoEffect, or an error that wraps it, if it had no effect and
// can have none any more: it is left out of the history. With any other error nobody knows whether it had an effect, or will have one:
// it stays pending, and its goroutine makes no more calls in this run.
type FallibleBoard interface {
	Update(thread, component int, value uint32) error
	View(thread int) []uint32
}

// NoEffect is the error of an update that had no effect.
var NoEffect = errors.New("the update had no effect")

// An Object has a name, and makes a fresh board for each run. If its updates can fail, it has MakeFallible in place of Make.
type Object struct {
	Name         string
	Make         func(components int) Board
	MakeFallible func(components int) FallibleBoard
}

// A board whose updates do not fail.
type sureBoard struct{ Board }

func (board sureBoard) Update(thread, component int, value uint32) error {
	board.Board.Update(thread, component, value)
	return nil
}

func (object Object) fresh(components int) FallibleBoard {
	if object.MakeFallible != nil {
		return object.MakeFallible(components)
	}
	return sureBoard{object.Make(components)}
}

// A fresh object.
func (object Object) made(components int) (board FallibleBoard, err error) {
	defer func() {
		if reason := recover(); reason != nil {
			err = failed("died", "the object can't be made: %v", reason)
		}
	}()
	return object.fresh(components), nil
}

type Options struct {
	Threads, Components, Calls, Runs, Seed, Nap, Stop, Limit, Views, Events, Depth uint64
	Order, Schedule, Out, Program                                                  string
}

func DefaultOptions() Options {
	return Options{Threads: 4, Components: 4, Calls: 200, Runs: 20, Seed: 1, Limit: 60, Views: 1, Events: 65536, Depth: 3, Order: "choice",
		Schedule: "free", Out: "."}
}

// An Outcome says how many runs were atomic, only regular, or not regular. It says which was the first that was not atomic, from 1,
// or 0. Views ended in all runs, Overlapping of these overlapped an update, and Overlapped runs have such a view.
type Outcome struct {
	Atomic, OnlyRegular, NotRegular, First uint64
	Views, Overlapping, Overlapped         uint64
}

func (outcome Outcome) caught() uint64 { return outcome.OnlyRegular + outcome.NotRegular }

func (outcome Outcome) runs() uint64 { return outcome.Atomic + outcome.caught() }

func (outcome Outcome) countedRuns() string {
	if outcome.runs() == 1 {
		return "1 run"
	}
	return fmt.Sprintf("%d runs", outcome.runs())
}

func (outcome Outcome) String() string {
	return fmt.Sprintf("atomic %d, only-regular %d, not-regular %d; %d of %d views overlapped an update, in %d of %s",
		outcome.Atomic, outcome.OnlyRegular, outcome.NotRegular, outcome.Overlapping, outcome.Views, outcome.Overlapped, outcome.countedRuns())
}

// A DriveError is why runs have no verdict. Its name is usage, limits, view, died, hangs, few views, no overlap, no judge, no verdict
// or files.
type DriveError struct{ Name, Message string }

func (err *DriveError) Error() string { return err.Name + ": " + err.Message }

func failed(name, format string, values ...any) error {
	return &DriveError{name, fmt.Sprintf(format, values...)}
}

// ---- the schedule

const gamma = 0x9E3779B97F4A7C15

// The output of splitmix64 in this state.
func mix(state uint64) uint64 {
	state = (state ^ state>>30) * 0xBF58476D1CE4E5B9
	state = (state ^ state>>27) * 0x94D049BB133111EB
	return state ^ state>>31
}

// The generator splitmix64.
type random uint64

func (state *random) next() uint64 {
	*state += gamma
	return mix(uint64(*state))
}

const view = -1

// The component that each call of a goroutine updates, or view.
func choose(options Options, thread uint64, generator random) []int {
	own := uint64(0)
	if thread < options.Components {
		own = (options.Components-1-thread)/options.Threads + 1
	}
	calls := make([]int, options.Calls)
	for i := range calls {
		place := uint64(i) % (own + 1)
		if options.Order == "choice" {
			choice := generator.next()
			if place = own; choice%2 == 0 && own > 0 {
				place = (choice >> 1) % own
			}
		}
		if calls[i] = view; place < own {
			calls[i] = int(thread + place*options.Threads)
		}
	}
	return calls
}

// For each run the calls of each goroutine, as the seed has them.
func schedules(options Options) func() [][]int {
	seeds := random(options.Seed)
	return func() [][]int {
		schedule := make([][]int, options.Threads)
		for t := range schedule {
			schedule[t] = choose(options, uint64(t), random(seeds.next()))
		}
		return schedule
	}
}

var naps, longestNap atomic.Uint64

// Pause lets the other goroutines run, and naps if the options ask for it.
func Pause() {
	if Point() {
		return
	}
	if longest := longestNap.Load(); longest > 0 {
		time.Sleep(time.Duration(mix(naps.Add(gamma))%(longest+1)) * time.Microsecond)
	} else {
		runtime.Gosched()
	}
}

// ---- one run

func work(board FallibleBoard, log *Log[uint32], calls []int, options Options) (err error) {
	defer func() {
		if reason := recover(); reason != nil {
			err = failed("died", "a call of thread %d panicked: %v", log.thread, reason)
		}
	}()
	for i, component := range calls {
		Point()
		if component == view {
			if !log.BeginView() {
				return nil
			}
			Point()
			values := board.View(log.thread)
			Point()
			if values == nil {
				log.DropView()
				continue
			}
			log.EndViewValues(values)
			if uint64(len(values)) != options.Components {
				return failed("view", "a view has %d values of %d components", len(values), options.Components)
			}
		} else {
			value := uint32((log.thread+1)*1000000 + i) // each value once
			if log.BeginUpdate(component, value) == 0 {
				return nil
			}
			Point()
			err := board.Update(log.thread, component, value)
			Point()
			if err == nil {
				log.EndUpdate()
			} else if errors.Is(err, NoEffect) {
				log.DropUpdate()
			} else {
				return nil
			}
		}
		goOn(options)
	}
	return nil
}

// Writes the calls so far of a run that does not end, or in which a call died.
func keepUnfinished(name, out string, recorder *Recorder[uint32]) {
	file := fmt.Sprintf("%s/%s-unfinished.csv", out, name)
	text, err := recorder.TextSoFar()
	if err == nil {
		err = os.WriteFile(file, []byte(text), 0o666)
	}
	if err != nil {
		fmt.Fprintf(os.Stderr, "%s: its calls so far can't be written: %v\n", name, err)
		return
	}
	fmt.Fprintf(os.Stderr, "%s: its calls so far are in %s\n", name, file)
}

// The history of a fresh object under a schedule. Its views are counted. What a run made that did not end is in
// NAME-unfinished.csv.
func record(object Object, options Options, schedule [][]int, pace *pace, outcome *Outcome) (string, error) {
	recorder, err := New[uint32](int(options.Threads), int(options.Components), int(options.Calls))
	if err != nil {
		return "", err
	}
	board, err := object.made(int(options.Components))
	if err != nil {
		return "", err
	}
	ready, start, ended := make(chan bool, len(schedule)), make(chan bool), make(chan error, len(schedule))
	turns := newTurns(options, pace)
	for t, calls := range schedule {
		go func(log *Log[uint32], calls []int) {
			ready <- true
			<-start
			turns.enter(log.thread)
			err := work(board, log, calls, options)
			turns.leave(log.thread)
			ended <- err
		}(recorder.Log(t), calls)
	}
	for range schedule {
		<-ready
	}
	turns.start()
	defer turns.end(pace)
	close(start)
	late := time.After(time.Duration(options.Limit) * time.Second)
	for range schedule {
		select {
		case err = <-ended:
		case <-late:
			err = failed("hangs", "a run took more than %d s: a call of the object does not end", options.Limit)
		}
		if err != nil {
			keepUnfinished(object.Name, options.Out, recorder)
			return "", err
		}
	}
	views := recorder.Views()
	outcome.Views += uint64(views.Ended)
	outcome.Overlapping += uint64(views.Overlapping)
	if views.Overlapping > 0 {
		outcome.Overlapped++
	}
	return recorder.Text()
}

// ---- all runs

type number struct {
	name            string
	place           *uint64
	least, greatest uint64
}

func numbers(options *Options) []number {
	return []number{
		{"threads", &options.Threads, 1, 64},
		{"components", &options.Components, 1, 64},
		{"calls", &options.Calls, 1, EventLimit / 2},
		{"runs", &options.Runs, 1, 1000000000},
		{"seed", &options.Seed, 0, 1<<64 - 1},
		{"nap", &options.Nap, 0, 1000000},
		{"stop", &options.Stop, 0, 1000000000},
		{"limit", &options.Limit, 1, 100000},
		{"views", &options.Views, 0, 1000000000},
		{"events", &options.Events, 2, EventLimit},
		{"depth", &options.Depth, 1, 64},
	}
}

func (it number) beyond() error {
	return failed("limits", "%s is a number from %d to %d", it.name, it.least, it.greatest)
}

func test(options Options) error {
	for _, it := range numbers(&options) {
		if *it.place < it.least || *it.place > it.greatest {
			return it.beyond()
		}
	}
	if options.Threads*options.Calls > options.Events/2 {
		return failed("limits", "all threads make at most %d calls", options.Events/2)
	}
	if options.Order != "choice" && options.Order != "turn" {
		return failed("usage", "order is choice or turn")
	}
	if options.Schedule != "free" && options.Schedule != "pct" {
		return failed("usage", "schedule is free or pct")
	}
	return nil
}

// An error if the runs say nothing of the object: all were atomic, and too few views ended, or none of them overlapped an update.
func testLooked(options Options, outcome Outcome) error {
	if outcome.First > 0 || options.Views == 0 {
		return nil
	}
	if outcome.Views < options.Views {
		return failed("few views", "%d views ended in %s, fewer than %d: there is no verdict", outcome.Views, outcome.countedRuns(), options.Views)
	}
	if outcome.Overlapping == 0 {
		return failed("no overlap", "none of %d views overlapped an update in %s: there is no verdict on calls at the same time",
			outcome.Views, outcome.countedRuns())
	}
	return nil
}

// Run runs fresh objects, and counts the verdicts. Of the first run that is not atomic it keeps NAME-caught.csv, the history,
// NAME-witness.csv, the least of it that is not atomic, and NAME-explained.txt.
func Run(object Object, options Options) (Outcome, error) {
	var outcome Outcome
	if err := test(options); err != nil {
		return outcome, err
	}
	judge, err := findJudge(options.Program, options.Events)
	if err != nil {
		return outcome, err
	}
	if err := testFolder(options.Out); err != nil {
		return outcome, err
	}
	if err := judge.test(); err != nil {
		return outcome, err
	}
	front, told, next, pace := options.Out+"/"+object.Name, time.Now(), schedules(options), newPace(options)
	longestNap.Store(options.Nap)
	naps.Store(options.Seed)
	for run := uint64(1); ; run++ {
		text, err := record(object, options, next(), pace, &outcome)
		if err != nil {
			return outcome, err
		}
		status, err := judge.status(text)
		if err != nil {
			return outcome, err
		}
		*[]*uint64{&outcome.Atomic, &outcome.OnlyRegular, &outcome.NotRegular}[status]++
		if status > 0 && outcome.First == 0 {
			outcome.First = run
			if err := judge.keep(text, front); err != nil {
				return outcome, err
			}
			fmt.Fprintf(os.Stderr, "%s: run %d is not atomic: see %s-caught.csv and the files beside it\n", object.Name, run, front)
		}
		hasEnded := run == options.Runs || options.Stop > 0 && outcome.caught() == options.Stop
		if hasEnded || time.Since(told) >= time.Second {
			told = time.Now()
			fmt.Fprintf(os.Stderr, "%s: run %d of %d: %v\n", object.Name, run, options.Runs, outcome)
		}
		if hasEnded {
			return outcome, testLooked(options, outcome)
		}
	}
}

// ---- the command line

// The number of a word, or an error.
func (it number) read(word string) error {
	read, err := strconv.ParseUint(word, 10, 64)
	if errors.Is(err, strconv.ErrRange) {
		return it.beyond()
	}
	if err != nil {
		return failed("usage", "--%s: %s is not a number", it.name, word)
	}
	*it.place = read
	return nil
}

// Takes the option that comes first among words.
func readOption(options *Options, words []string) error {
	name := strings.TrimPrefix(words[0], "--")
	text := map[string]*string{"order": &options.Order, "schedule": &options.Schedule, "out": &options.Out, "program": &options.Program}[name]
	var place *number
	for _, it := range numbers(options) {
		if it.name == name {
			place = &number{it.name, it.place, it.least, it.greatest}
		}
	}
	switch {
	case !strings.HasPrefix(words[0], "--"):
		return failed("usage", "%s is not an option", words[0])
	case text == nil && place == nil:
		return failed("usage", "there is no option %s", words[0])
	case len(words) == 1:
		return failed("usage", "%s has no value", words[0])
	case text == nil:
		return place.read(words[1])
	}
	*text = words[1]
	return nil
}

// What a command line asks for.
type job int

const (
	runs job = iota
	choices
	help
)

// The options of a command line, and what it asks for.
func read(words []string) (Options, job, error) {
	options, asked := DefaultOptions(), runs
	for len(words) > 0 {
		switch words[0] {
		case "--help", "-h":
			return options, help, nil
		case "--choices":
			asked, words = choices, words[1:]
			continue
		}
		if err := readOption(&options, words); err != nil {
			return options, asked, err
		}
		words = words[2:]
	}
	return options, asked, test(options)
}

func usageOf(objects []Object) string {
	text := usage + "\nobjects:"
	for _, object := range objects {
		text += " " + object.Name
	}
	return text + "\n"
}

// Writes to standard output.
func tell(format string, values ...any) error {
	if _, err := fmt.Printf(format, values...); err != nil {
		return failed("files", "standard output can't be written: %v", err)
	}
	return nil
}

func showChoices(options Options) error {
	next := schedules(options)
	for run := uint64(1); run <= options.Runs; run++ {
		for thread, calls := range next() {
			for _, component := range calls {
				call := "view"
				if component != view {
					call = fmt.Sprint("update ", component)
				}
				if err := tell("%d %d %s\n", run, thread, call); err != nil {
					return err
				}
			}
		}
	}
	return nil
}

// Main runs the object that the command line names, or the first one. The status is 0 if each run was atomic, 1 if some were
// only regular, and 2 if some were not regular. It is 3 if too little was seen for a verdict, and 4 if there is none for
// another reason.
func Main(objects ...Object) {
	words, name := os.Args[1:], objects[0].Name
	if len(words) > 0 && !strings.HasPrefix(words[0], "-") {
		name, words = words[0], words[1:]
	}
	options, asked, err := read(words)
	var outcome Outcome
	var chosen *Object
	for i := range objects {
		if objects[i].Name == name {
			chosen = &objects[i]
		}
	}
	switch {
	case chosen == nil:
		err = failed("usage", "there is no object %s", name)
	case err == nil && asked == help:
		err = tell("%s", usageOf(objects))
	case err == nil && asked == choices:
		err = showChoices(options)
	case err == nil:
		if outcome, err = Run(*chosen, options); err == nil {
			err = tell("%s: %v\n", name, outcome)
		}
	}
	if err != nil {
		os.Exit(tellError(name, err, objects))
	}
	switch {
	case outcome.NotRegular > 0:
		os.Exit(2)
	case outcome.OnlyRegular > 0:
		os.Exit(1)
	}
}

// Says why there is no verdict, and answers the status.
func tellError(name string, err error, objects []Object) int {
	var why *DriveError
	isNamed := errors.As(err, &why)
	if isNamed && why.Name == "usage" {
		fmt.Fprint(os.Stderr, usageOf(objects))
	}
	fmt.Fprintf(os.Stderr, "%s: %v\n", name, err)
	if isNamed && (why.Name == "few views" || why.Name == "no overlap") {
		return 3
	}
	return 4
}
