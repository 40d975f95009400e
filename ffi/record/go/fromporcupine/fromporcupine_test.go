// Histories of simulated stores, of small runs beside all orders of their operations, and each refusal. SNAPJUDGE_PROGRAM names the
// program that judges.
package fromporcupine

import (
	"encoding/json"
	"errors"
	"fmt"
	"math/rand"
	"os"
	"os/exec"
	"path/filepath"
	"sort"
	"strings"
	"testing"
)

// Porcupine's two types.
type porcupineOperation struct {
	ClientId int
	Input    interface{}
	Call     int64
	Output   interface{}
	Return   int64
}

type porcupineEvent struct {
	ClientId int
	Kind     eventKind
	Value    interface{}
	Id       int
}

type eventKind bool

// Here the input of an operation is its step.
func asGiven(input, output any) Step { return input.(Step) }

func write(key, value any, version uint64) Step {
	return Step{Kind: Write, Entries: []Entry{{key, value, version}}}
}

func read(entries ...Entry) Step { return Step{Kind: Read, Entries: entries} }

func done(client int, called, returned int64, step Step) porcupineOperation {
	return porcupineOperation{client, step, called, nil, returned}
}

func unknown(client int, called int64, step Step) porcupineOperation {
	step.Outcome = Unknown
	return porcupineOperation{client, step, called, nil, called + 1}
}

// Which of the histories the program calls atomic, by its status alone.
func judge(t *testing.T, texts []string) []bool {
	t.Helper()
	program, folder := os.Getenv("SNAPJUDGE_PROGRAM"), t.TempDir()
	if program == "" {
		t.Fatal("SNAPJUDGE_PROGRAM names no program")
	}
	for at, text := range texts {
		if err := os.WriteFile(filepath.Join(folder, fmt.Sprintf("%06d.csv", at)), []byte(text), 0o666); err != nil {
			t.Fatal(err)
		}
	}
	said, err := exec.Command(program, "check", "--format", "json", "-r", folder).Output()
	var exit *exec.ExitError
	if err != nil && !errors.As(err, &exit) {
		t.Fatal(err)
	}
	var atomic []bool
	for decoder := json.NewDecoder(strings.NewReader(string(said))); decoder.More(); {
		var verdict struct{ Status int }
		if err := decoder.Decode(&verdict); err != nil || verdict.Status > 2 {
			t.Fatal(err, verdict)
		}
		atomic = append(atomic, verdict.Status == 0)
	}
	if len(atomic) != len(texts) {
		t.Fatalf("%d verdicts on %d histories", len(atomic), len(texts))
	}
	return atomic
}

// ---- small runs beside all orders

// A small run has two keys, "a" and "b". A write has a number of its key, a read a number of each.
type small struct {
	isWrite       bool
	begun, ended  int64
	key           int
	number        int
	shown         [2]int
	version, open bool // whether its version is known; whether its outcome is not
}

func drawRun(draw *rand.Rand) []small {
	count := 3 + draw.Intn(4)
	times, run, numbers := draw.Perm(2*count), make([]small, count), [2]int{}
	for at := range run {
		a, b := int64(times[2*at]), int64(times[2*at+1])
		if a > b {
			a, b = b, a
		}
		run[at] = small{isWrite: draw.Float64() < 0.55, begun: a, ended: b, key: draw.Intn(2)}
		run[at].open = run[at].isWrite && draw.Float64() < 0.15
	}
	order := draw.Perm(count)
	if draw.Float64() < 0.7 { // mostly near the order of their begins
		sort.Slice(order, func(i, j int) bool { return run[order[i]].begun < run[order[j]].begun })
		if draw.Intn(2) == 0 {
			i := draw.Intn(count - 1)
			order[i], order[i+1] = order[i+1], order[i]
		}
	}
	for _, at := range order {
		if run[at].isWrite {
			numbers[run[at].key]++
			run[at].number = numbers[run[at].key]
		}
	}
	for at := range run {
		for key, most := range numbers {
			run[at].shown[key] = draw.Intn(most + 1)
		}
	}
	return run
}

// Whether some order of all operations that ended, and of some of the others, explains each read, and keeps precedence and numbers.
func hasOrder(run []small, done uint, last [2]int) bool {
	isOver := true
	for at, it := range run {
		isOver = isOver && (it.open || done&(1<<at) != 0)
	}
	if isOver {
		return true
	}
	for at, it := range run {
		if done&(1<<at) != 0 || !mayCome(run, done, it) {
			continue
		}
		next := last
		if it.isWrite {
			next[it.key] = it.number
		}
		if it.isWrite && last[it.key] >= it.number || !it.isWrite && it.shown != last {
			continue
		}
		if hasOrder(run, done|1<<at, next) {
			return true
		}
	}
	return false
}

func mayCome(run []small, done uint, it small) bool {
	for at, other := range run {
		if done&(1<<at) == 0 && !other.open && other.ended < it.begun {
			return false
		}
	}
	return true
}

var smallKeys = [2]string{"a", "b"}

// The operations of a run. A value has the key and the number; a version is 7 times the number.
func operationsOf(run []small, clients func(at int) int) []porcupineOperation {
	var operations []porcupineOperation
	shown := func(key, number int) Entry {
		if number == 0 {
			return Entry{Key: smallKeys[key]}
		}
		return Entry{smallKeys[key], fmt.Sprint(key, number), uint64(7 * number)}
	}
	for at, it := range run {
		step := read(shown(0, it.shown[0]), shown(1, it.shown[1]))
		if it.isWrite {
			step = Step{Kind: Write, Entries: []Entry{shown(it.key, it.number)}}
			if it.open {
				step.Outcome, step.Entries[0].Version = Unknown, 0
			}
		}
		operations = append(operations, done(clients(at), it.begun, it.ended, step))
	}
	return operations
}

func hasRead(run []small) bool {
	for _, it := range run {
		if !it.isWrite {
			return true
		}
	}
	return false
}

// Whether the writes of each key that ended have numbers in the order of their begins, which is what a history without versions shows.
func inTurn(run []small) bool {
	for _, it := range run {
		for _, other := range run {
			if it.isWrite && other.isWrite && it.key == other.key && it.begun < other.begun && it.number > other.number {
				return false
			}
		}
	}
	return true
}

func TestSmallRunsBesideAllOrders(t *testing.T) {
	ways := []func(at int) int{
		func(at int) int { return at },     // a client for each operation
		func(at int) int { return 0 },      // one client, whose operations overlap
		func(at int) int { return at % 2 }, // two
	}
	for _, versions := range []bool{true, false} {
		draw, found := rand.New(rand.NewSource(5)), map[string]int{}
		var texts []string
		var wanted []bool
		for i := 0; i < 6000; i++ {
			run := drawRun(draw)
			if !hasRead(run) || !versions && !inTurn(run) {
				continue
			}
			isAtomic := hasOrder(run, 0, [2]int{})
			made, err := Histories(operationsOf(run, ways[i%len(ways)]), asGiven, Options{Versions: versions})
			var contradiction *Contradiction
			var refusal *Refusal
			switch {
			case errors.As(err, &contradiction):
				found["contradiction"]++
				if isAtomic {
					t.Fatal(run, err)
				}
			case errors.As(err, &refusal):
				found[refusal.Word]++
			default:
				found[fmt.Sprint(isAtomic)]++
				texts, wanted = append(texts, made[0].Text), append(wanted, isAtomic)
			}
		}
		for at, atomic := range judge(t, texts) {
			if atomic != wanted[at] {
				t.Fatalf("atomic: %v, and by all orders %v:\n%s", atomic, wanted[at], texts[at])
			}
		}
		t.Log(versions, found)
		for _, word := range map[bool][]string{true: {"true", "false", "contradiction"}, false: {"true", "false", "overlap"}}[versions] {
			if found[word] < 50 {
				t.Errorf("%d runs ended as %s", found[word], word)
			}
		}
	}
}

// ---- simulated stores

// A store of three keys, and clients that read all keys or write one. Time is a counter. What a client asks for takes effect between
// its call and its return, except for the faults of the kind: `stale` reads what stood some writes ago, and `lost` answers to a write
// that it forgets.
type store struct {
	draw     *rand.Rand
	kind     string
	now      int64
	board    [3]int
	versions [3]uint64
	boards   []board3
}

type board3 struct {
	values   [3]int
	versions [3]uint64
}

func (store *store) write(key, value int) uint64 {
	if store.kind != "lost" || store.draw.Float64() >= 0.1 {
		store.board[key] = value
		store.versions[key]++
		store.boards = append(store.boards, board3{store.board, store.versions})
	}
	return store.versions[key]
}

func (store *store) read() Step {
	stood := board3{store.board, store.versions}
	if last := len(store.boards) - 4; store.kind == "stale" && last >= 0 && store.draw.Float64() < 0.2 {
		stood = store.boards[last]
	}
	step := Step{Kind: Read}
	for key, value := range stood.values {
		step.Entries = append(step.Entries, Entry{key, value, stood.versions[key]})
	}
	return step
}

type client struct {
	name, key int
	called    int64
	step      *Step
	tookPlace bool
}

// The operations of a run. Each of three clients writes a key of its own, or all write all keys, one at a time; a fourth one reads.
func (store *store) run(calls int, timeouts float64, share bool) []porcupineOperation {
	clients, writers, late := make([]client, 4), map[int]int{}, [][2]int{}
	var operations []porcupineOperation
	for name := range clients {
		clients[name].name = name
	}
	for value, open := 0, 0; calls > 0 || open > 0; store.now++ {
		it := &clients[store.draw.Intn(len(clients))]
		if len(late) > 0 && store.draw.Float64() < 0.1 { // what timed out may take effect later
			store.write(late[0][0], late[0][1])
			late = late[1:]
		}
		switch {
		case it.step == nil && calls > 0:
			calls, open = calls-1, open+1
			it.called, it.tookPlace, it.key = store.now, false, it.name
			if share {
				it.key = store.draw.Intn(3)
			}
			it.step = &Step{Kind: Read}
			if writer, isTaken := writers[it.key]; it.key < 3 && store.draw.Intn(2) == 0 && (!isTaken || writer == it.name) {
				writers[it.key], value = it.name, value+1
				*it.step = write(it.key, value, 0)
			}
		case it.step == nil:
		case !it.tookPlace:
			it.tookPlace = true
			if it.step.Kind == Read {
				*it.step = store.read()
			} else if written := it.step.Entries[0].Value.(int); store.draw.Float64() < timeouts {
				late = append(late, [2]int{it.key, written})
				operations = append(operations, unknown(it.name, it.called, *it.step))
				writers[it.key] = -1 // nobody writes this key again
				it.step, open = nil, open-1
			} else {
				it.step.Entries[0].Version = store.write(it.key, written)
			}
		default:
			if share && it.step.Kind == Write {
				delete(writers, it.key)
			}
			operations = append(operations, done(it.name, it.called, store.now, *it.step))
			it.step, open = nil, open-1
		}
	}
	sort.Slice(operations, func(i, j int) bool { return operations[i].Call < operations[j].Call })
	return operations
}

// The same as events.
func eventsOf(operations []porcupineOperation) []porcupineEvent {
	var times []int64
	at := map[int64]porcupineEvent{}
	for id, it := range operations {
		at[it.Call] = porcupineEvent{it.ClientId, false, it.Input, id}
		times = append(times, it.Call)
		if it.Input.(Step).Outcome != Unknown {
			at[it.Return] = porcupineEvent{it.ClientId, true, it.Output, id}
			times = append(times, it.Return)
		}
	}
	sort.Slice(times, func(i, j int) bool { return times[i] < times[j] })
	events := make([]porcupineEvent, len(times))
	for i, time := range times {
		events[i] = at[time]
	}
	return events
}

// Right stores are atomic, whoever writes; of the others some run is caught.
func TestSimulatedStores(t *testing.T) {
	for _, kind := range []string{"right", "stale", "lost"} {
		var texts []string
		for seed := int64(0); seed < 40; seed++ {
			store := store{draw: rand.New(rand.NewSource(seed)), kind: kind}
			options := Options{Initial: 0, Versions: seed%8 >= 4 && kind != "lost"}
			operations := store.run(200, []float64{0, 0.02}[seed%2], seed%4 >= 2)
			made, err := Histories(operations, asGiven, options)
			if err != nil {
				t.Fatal(kind, seed, err)
			}
			byEvents, err := HistoriesOfEvents(eventsOf(operations), asGiven, options)
			if err != nil || byEvents[0].Text != made[0].Text {
				t.Fatal("events make another history", kind, seed, err)
			}
			texts = append(texts, made[0].Text)
		}
		caught := 0
		for _, atomic := range judge(t, texts) {
			if !atomic {
				caught++
			}
		}
		if kind == "right" && caught != 0 || kind != "right" && caught < 20 {
			t.Errorf("%s: %d of %d runs are caught", kind, caught, len(texts))
		}
	}
}

// ---- what a history looks like

func TestEachSetOfKeysByItself(t *testing.T) {
	operations := []porcupineOperation{
		done(3, 10, 20, write("x", "one", 0)),
		done(1, 15, 30, read(Entry{Key: "x", Value: "one"})),
		done(3, 40, 41, read(Entry{Key: 'y'})),
		done(1, 50, 60, Step{Kind: Write, Outcome: Failed}),
		unknown(1, 61, Step{Kind: Read}),
	}
	made, err := Histories(operations, asGiven, Options{})
	if err != nil || len(made) != 2 {
		t.Fatal(made, err)
	}
	wanted := "event,process,op,data\nbegin,3,update,0:1:0\nbegin,1,view,\nend,3,update,\nend,1,view,0:1:0\n"
	if made[0].Text != wanted || fmt.Sprint(made[0].Keys, made[0].Values, made[0].Told) != "[x] [one] []" {
		t.Error(made[0])
	}
	if made[1].Text != "event,process,op,data\nbegin,3,view,\nend,3,view,\n" || made[1].Keys[0] != 'y' {
		t.Error(made[1])
	}
}

// At one moment calls come before returns, as in Porcupine, so both operations overlap, and the read may show the old value.
func TestOneMoment(t *testing.T) {
	made, err := Histories([]porcupineOperation{done(0, 1, 5, write("x", 1, 0)), done(1, 5, 6, read(Entry{Key: "x"}))}, asGiven, Options{})
	if err != nil || !judge(t, []string{made[0].Text})[0] {
		t.Error(made, err)
	}
	made, err = Histories([]porcupineOperation{done(0, 1, 5, write("x", 1, 0)), done(1, 6, 7, read(Entry{Key: "x"}))}, asGiven, Options{})
	if err != nil || judge(t, []string{made[0].Text})[0] {
		t.Error(made, err)
	}
}

// A value that nobody wrote is a fault of the run, for the judge to find.
func TestValueThatNobodyWrote(t *testing.T) {
	made, err := Histories([]porcupineOperation{done(0, 1, 2, read(Entry{Key: "x", Value: 9}))}, asGiven, Options{})
	if err != nil || !strings.Contains(made[0].Text, "0:1:0") || judge(t, []string{made[0].Text})[0] {
		t.Error(made, err)
	}
}

// Told says what was changed.
func TestTold(t *testing.T) {
	x := func(value any) Entry { return Entry{Key: "x", Value: value} }
	made, err := Histories([]porcupineOperation{
		done(0, 1, 2, write("x", 1, 0)),
		unknown(1, 3, write("x", 2, 0)),
		done(1, 4, 5, read(x(1))),
		done(1, 4, 6, read(x(1))),
		unknown(0, 7, write("x", 3, 0)),
		done(0, 8, 9, read(x(3))),
		done(2, 10, 11, write("x", 4, 0)),
	}, asGiven, Options{})
	if err != nil {
		t.Fatal(err)
	}
	wanted := []string{
		"key x: writes of unknown outcome that no read shows, left out: 1",
		"key x: writes cut short: 1; atomic stays as it is, regular may become stricter",
		"client 1: its calls overlap, so its writes get processes of their own, and its reads have 2",
		"key x: in the history its writes have process 4",
	}
	if strings.Join(made[0].Told, "\n") != strings.Join(wanted, "\n") {
		t.Error(strings.Join(made[0].Told, "\n"))
	}
}

// ---- refusals

func manyEntries(count int) []Entry {
	entries := make([]Entry, count)
	for key := range entries {
		entries[key].Key = key
	}
	return entries
}

func manyClients() []porcupineOperation {
	operations := []porcupineOperation{done(ProcessLimit-1, 1, 2, write("x", 1, 0))}
	return append(operations, done(0, 3, 4, write("x", 2, 0)), done(0, 5, 6, read(Entry{Key: "x"})))
}

func TestRefusals(t *testing.T) {
	x := func(value any, version uint64) Step { return read(Entry{"x", value, version}) }
	first := done(0, 1, 4, write("x", 1, 7))
	refused := map[string][]porcupineOperation{
		"kind":        {done(0, 1, 2, Step{})},
		"client":      {done(-1, 1, 2, x(nil, 0))},
		"time":        {done(0, 2, 1, x(nil, 0))},
		"keys":        {done(0, 1, 2, Step{Kind: Write, Entries: manyEntries(2)})},
		"nothing":     {done(0, 1, 2, read())},
		"compare":     {done(0, 1, 2, x([]int{1}, 0))},
		"first":       {done(0, 1, 2, write("x", 0, 0))},
		"twice":       {done(0, 1, 2, read(Entry{Key: "x"}, Entry{Key: "x"}))},
		"many":        {done(0, 1, 2, read(manyEntries(ComponentLimit+1)...))},
		"same":        {first, done(0, 5, 6, write("x", 1, 8)), done(0, 7, 8, x(1, 7))},
		"overlap":     {first, done(1, 4, 6, write("x", 2, 8)), done(0, 7, 8, x(1, 7))},
		"unversioned": {first, done(1, 5, 6, write("x", 2, 0)), done(0, 7, 8, x(1, 7))},
		"versions":    {first, done(1, 5, 6, write("x", 2, 7)), done(0, 7, 8, x(1, 7))},
		"version":     {first, done(0, 7, 8, x(1, 9))},
		"empty":       {first},
		"events":      {first, done(1, 5, 6, x(1, 7)), done(1, 7, 8, x(1, 7))},
		"processes":   manyClients(),
	}
	for word, operations := range refused {
		options := Options{Initial: 0, Events: 5, Versions: word != "overlap" && word != "processes"}
		if word == "processes" {
			options.Events = 6
		}
		expectRefusal(t, word, func() error { _, err := Histories(operations, asGiven, options); return err })
	}
	events := map[string][]porcupineEvent{
		"id":     {{0, false, x(nil, 0), 1}, {0, false, x(nil, 0), 1}},
		"return": {{0, true, nil, 1}},
	}
	for word, events := range events {
		expectRefusal(t, word, func() error { _, err := HistoriesOfEvents(events, asGiven, Options{}); return err })
	}
	if len(refused)+len(events) != len(sentences) {
		t.Errorf("%d of %d refusals are tried", len(refused)+len(events), len(sentences))
	}
}

func expectRefusal(t *testing.T, word string, run func() error) {
	t.Helper()
	var refusal *Refusal
	if err := run(); !errors.As(err, &refusal) || refusal.Word != word || !strings.Contains(err.Error(), sentences[word]) {
		t.Errorf("%s: %v", word, err)
	}
}

func TestContradiction(t *testing.T) {
	_, err := Histories([]porcupineOperation{
		done(0, 1, 2, write("x", 1, 8)), done(1, 3, 4, write("x", 2, 7)), done(1, 5, 6, read(Entry{Key: "x", Value: 1})),
	}, asGiven, Options{Versions: true})
	if err == nil || !strings.HasPrefix(err.Error(), "operations 1 and 0: not atomic: ") {
		t.Error(err)
	}
}
