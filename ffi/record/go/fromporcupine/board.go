// SPDX-License-Identifier: 0BSD

package fromporcupine

import (
	"fmt"
	"sort"
	"strings"
)

// A board has the calls of the keys that are read together.
type board struct {
	reader     *reader
	components []int // of the reader, in the order of those of the history
	writes     map[entry]*call
	firstShown map[entry]*call // the read that ended first of those that show it
	numbers    map[entry]int
	inOrder    map[int][]*call // the writes of a component, by their numbers
	whole      map[int][]*call // the same before they were cut
	reads      []*call
	processes  map[*call]int
	free       int // no process has this number, nor one above it
	told       []string
}

// The histories of all sets of keys that are read together.
func (reader *reader) histories() ([]History, error) {
	var made []History
	for _, components := range reader.parts() {
		history, err := reader.history(components)
		if err != nil {
			return nil, err
		}
		made = append(made, history)
	}
	if made == nil {
		return nil, refusal("empty")
	}
	return made, nil
}

// The sets of components that some read shows, each once, in the order of their reads.
func (reader *reader) parts() [][]int {
	var parts [][]int
	known := map[string]bool{}
	for _, it := range reader.calls {
		if name := fmt.Sprint(it.components); !it.isWrite && !known[name] {
			known[name] = true
			parts = append(parts, it.components)
		}
	}
	return parts
}

func (reader *reader) history(components []int) (History, error) {
	made := &board{reader: reader, components: components, writes: map[entry]*call{}, firstShown: map[entry]*call{},
		numbers: map[entry]int{}, inOrder: map[int][]*call{}, whole: map[int][]*call{}, processes: map[*call]int{}}
	for _, fill := range []func() error{made.fill, made.tellVersions, made.order, made.name} {
		if err := fill(); err != nil {
			return History{}, err
		}
	}
	text, values, err := made.text()
	if err != nil {
		return History{}, err
	}
	history := History{Values: values, Text: text, Told: made.told}
	for _, component := range components {
		history.Keys = append(history.Keys, reader.keys[component])
	}
	return history, nil
}

// Takes the calls of these components: each value is written once.
func (board *board) fill() error {
	isPart := map[int]bool{}
	for _, component := range board.components {
		isPart[component] = true
	}
	for _, it := range board.reader.calls {
		switch {
		case !it.isWrite && it.showsAll(board.components):
			board.reads = append(board.reads, it)
		case it.isWrite && isPart[it.components[0]]:
			if other := board.writes[it.written()]; other != nil {
				return refusal("same", it.place, other.place)
			}
			board.writes[it.written()] = it
		}
	}
	sort.SliceStable(board.reads, func(i, j int) bool { return board.reads[i].ended < board.reads[j].ended })
	for _, read := range board.reads {
		for _, component := range board.components {
			shown := entry{component, read.values[component]}
			if board.firstShown[shown] == nil {
				board.firstShown[shown] = read
			}
		}
	}
	return nil
}

func (it *call) showsAll(components []int) bool {
	for _, component := range components {
		if _, shows := it.values[component]; !shows {
			return false
		}
	}
	return true
}

// Gives the writes the versions that reads have for them.
func (board *board) tellVersions() error {
	for _, read := range board.reads {
		for _, component := range board.components {
			version, write := read.versions[component], board.writes[entry{component, read.values[component]}]
			if version == 0 || write == nil {
				continue
			}
			if known := write.versions[component]; known != 0 && known != version {
				return refusal("version", read.place, write.place)
			}
			write.versions[component] = version
		}
	}
	return nil
}

// Puts the writes of each component in order, numbers them, and parts those that overlap.
func (board *board) order() error {
	for _, it := range board.writes {
		board.inOrder[it.components[0]] = append(board.inOrder[it.components[0]], it)
	}
	for _, component := range board.components {
		if err := board.orderOne(component); err != nil {
			return err
		}
		for at, write := range board.inOrder[component] {
			board.numbers[write.written()] = at + 1
		}
	}
	if board.reader.options.Versions {
		board.part()
	}
	for _, component := range board.components {
		if count := countCut(board.whole[component], board.inOrder[component]); count > 0 {
			board.tell("key %v: writes cut short: %d; atomic stays as it is, regular may become stricter", board.reader.keys[component], count)
		}
	}
	return nil
}

func (board *board) orderOne(component int) error {
	writes := board.inOrder[component]
	sort.Slice(writes, func(i, j int) bool { return writes[i].before(writes[j]) })
	kept := board.kept(writes)
	if left := len(writes) - len(kept); left > 0 {
		board.tell("key %v: writes of unknown outcome that no read shows, left out: %d", board.reader.keys[component], left)
	}
	if board.reader.options.Versions {
		if err := byVersions(component, kept); err != nil {
			return err
		}
	}
	ended := make([]*call, len(kept))
	for at, write := range kept {
		ended[at] = board.ended(write, at+1 == len(kept))
	}
	if board.reader.options.Versions {
		cut, err := cut(ended)
		if err != nil {
			return err
		}
		ended = cut
	}
	for at := 1; at < len(ended) && !board.reader.options.Versions; at++ {
		if overlap(ended[at-1], ended[at]) {
			return refusal("overlap", ended[at].place, ended[at-1].place)
		}
	}
	board.inOrder[component], board.whole[component] = ended, kept
	return nil
}

func (it *call) before(other *call) bool {
	return it.begun < other.begun || it.begun == other.begun && it.place < other.place
}

// The writes that stay. One of unknown outcome may go if no read shows it; without versions the last of the component stays open.
func (board *board) kept(writes []*call) []*call {
	var kept []*call
	for at, write := range writes {
		isLast := at+1 == len(writes) && !board.reader.options.Versions
		if !write.isPending() || board.firstShown[write.written()] != nil || isLast {
			kept = append(kept, write)
		}
	}
	return kept
}

func byVersions(component int, writes []*call) error {
	for _, write := range writes {
		if write.versions[component] == 0 {
			return refusal("unversioned", write.place)
		}
	}
	sort.SliceStable(writes, func(i, j int) bool { return writes[i].versions[component] < writes[j].versions[component] })
	for at := 1; at < len(writes); at++ {
		if writes[at-1].versions[component] == writes[at].versions[component] {
			return refusal("versions", writes[at].place, writes[at-1].place)
		}
	}
	return nil
}

// The write with an end, if it has none and others come after it: it took effect before the end of a read that shows it.
func (board *board) ended(write *call, isLast bool) *call {
	read := board.firstShown[write.written()]
	if !write.isPending() || isLast || read == nil || read.ended < write.begun {
		return write
	}
	return write.within(write.begun, read.ended)
}

func (it *call) within(begun, ended int64) *call {
	cut := *it
	cut.begun, cut.ended = begun, ended
	return &cut
}

// Cuts each write to what the order of versions allows: it comes after the begin of each with a lower version, and before the end of
// each with a higher one. The same orders of all calls explain the run.
func cut(writes []*call) ([]*call, error) {
	begins, ends := make([]*call, len(writes)), make([]*call, len(writes))
	for at, write := range writes {
		begins[at] = write
		if at > 0 && begins[at-1].begun > write.begun {
			begins[at] = begins[at-1]
		}
	}
	for at := len(writes) - 1; at >= 0; at-- {
		ends[at] = writes[at]
		if at+1 < len(writes) && ends[at+1].ended < writes[at].ended {
			ends[at] = ends[at+1]
		}
	}
	made := make([]*call, len(writes))
	for at, write := range writes {
		if ends[at].ended < begins[at].begun {
			return nil, &Contradiction{begins[at].place, ends[at].place}
		}
		made[at] = write.within(begins[at].begun, ends[at].ended)
	}
	return made, nil
}

func countCut(before, after []*call) int {
	count := 0
	for at := range before {
		if before[at].begun != after[at].begun || before[at].ended != after[at].ended || after[at].begunTurn+after[at].endedTurn > 0 {
			count++
		}
	}
	return count
}

func (board *board) tell(form string, words ...any) {
	board.told = append(board.told, fmt.Sprintf(form, words...))
}

// Gives each call a process, which has one call at a time: its client, or one that has the writes of a component. Processes change no
// verdict.
func (board *board) name() error {
	clients := map[int][]*call{}
	for _, read := range board.reads {
		clients[read.client] = append(clients[read.client], read)
	}
	for _, component := range board.components {
		if writer, isOne := board.writer(component); isOne {
			clients[writer] = append(clients[writer], board.inOrder[component]...)
		}
	}
	for _, it := range board.reader.calls {
		if it.client >= board.free {
			board.free = it.client + 1
		}
	}
	inOrder := make([]int, 0, len(clients))
	for client := range clients {
		inOrder = append(inOrder, client)
	}
	sort.Ints(inOrder)
	for _, client := range inOrder {
		board.nameClient(client, clients[client])
	}
	for _, component := range board.components {
		board.nameWrites(component)
	}
	if board.free > ProcessLimit {
		return refusal("processes")
	}
	return nil
}

// The client that made all writes of a component, if there is one.
func (board *board) writer(component int) (int, bool) {
	writes := board.inOrder[component]
	if len(writes) == 0 {
		return 0, false
	}
	for _, write := range writes {
		if write.client != writes[0].client {
			return 0, false
		}
	}
	return writes[0].client, true
}

// Names the calls of a client; if these overlap, its reads alone, by as many processes as that needs.
func (board *board) nameClient(client int, calls []*call) {
	lanes := laned(calls)
	if len(lanes) > 1 {
		var reads []*call
		for _, it := range calls {
			if !it.isWrite {
				reads = append(reads, it)
			}
		}
		lanes = laned(reads)
		board.tell("client %d: its calls overlap, so its writes get processes of their own, and its reads have %d", client, len(lanes))
	}
	for at, lane := range lanes {
		process := client
		if at > 0 {
			process = board.next()
		}
		for _, it := range lane {
			board.processes[it] = process
		}
	}
}

func (board *board) next() int {
	board.free++
	return board.free - 1
}

// The calls in lists of calls that do not overlap, as few as there can be.
func laned(calls []*call) [][]*call {
	calls = append([]*call(nil), calls...)
	sort.Slice(calls, func(i, j int) bool { return calls[i].before(calls[j]) })
	var lanes [][]*call
	for _, it := range calls {
		at := 0
		for at < len(lanes) && lanes[at][len(lanes[at])-1].ended >= it.begun {
			at++
		}
		if at == len(lanes) {
			lanes = append(lanes, nil)
		}
		lanes[at] = append(lanes[at], it)
	}
	return lanes
}

// Names the writes of a component that have no process yet.
func (board *board) nameWrites(component int) {
	writes := board.inOrder[component]
	if len(writes) == 0 {
		return
	}
	if _, isNamed := board.processes[writes[0]]; isNamed {
		return
	}
	process := board.next()
	board.tell("key %v: in the history its writes have process %d", board.reader.keys[component], process)
	for _, write := range writes {
		board.processes[write] = process
	}
}

// A moment is the begin or the end of a call. One at which writes are parted has a turn.
type moment struct {
	at    int64
	isEnd bool
	turn  int
	call  *call
}

// At one moment begins come first, so that such calls overlap. Then writes are parted, each in its turn.
func (it moment) before(other moment) bool {
	if it.at != other.at {
		return it.at < other.at
	}
	if it.turn > 0 && it.turn == other.turn {
		return it.isEnd && !other.isEnd
	}
	if it.turn > 0 && other.turn > 0 {
		return it.turn < other.turn
	}
	return !it.isEnd && it.turn == 0 && (other.isEnd || other.turn > 0) || it.turn > 0 && other.isEnd && other.turn == 0
}

// The begins and ends of all calls in the order of time.
func (board *board) moments() []moment {
	calls := append([]*call(nil), board.reads...)
	for _, component := range board.components {
		calls = append(calls, board.inOrder[component]...)
	}
	sort.Slice(calls, func(i, j int) bool { return calls[i].before(calls[j]) })
	var moments []moment
	for _, it := range calls {
		moments = append(moments, moment{it.begun, false, it.begunTurn, it})
		if !it.isPending() {
			moments = append(moments, moment{it.ended, true, it.endedTurn, it})
		}
	}
	sort.SliceStable(moments, func(i, j int) bool { return moments[i].before(moments[j]) })
	return moments
}

// The number of what a read shows. A value that nobody wrote gets the last number that had begun when the read ended: the judge then
// says `integrity`.
func (board *board) number(read *call, shown entry) int {
	if shown.value == nil {
		return 0
	}
	if number := board.numbers[shown]; number > 0 {
		return number
	}
	writes := board.inOrder[shown.component]
	begun := sort.Search(len(writes), func(at int) bool { return writes[at].begun > read.ended })
	if begun == 0 {
		return 1
	}
	return begun
}

// A table has the values by the numbers that stand for them.
type table struct {
	values []any
	places map[any]int
}

func (table *table) number(value any) int {
	place, isKnown := table.places[value]
	if !isKnown {
		place = len(table.values)
		table.places[value] = place
		table.values = append(table.values, value)
	}
	return place
}

// The text of the history, and the values by the numbers that stand for them.
func (board *board) text() (string, []any, error) {
	limit := board.reader.options.Events
	if limit == 0 {
		limit = EventLimit
	}
	moments := board.moments()
	if len(moments) > limit || len(moments) > MostEvents {
		return "", nil, refusal("events")
	}
	var text strings.Builder
	values := table{places: map[any]int{}}
	text.WriteString("event,process,op,data\n")
	for _, it := range moments {
		event, op := "begin", "view"
		if it.isEnd {
			event = "end"
		}
		if it.call.isWrite {
			op = "update"
		}
		fmt.Fprintf(&text, "%s,%d,%s,%s\n", event, board.processes[it.call], op, board.data(it, &values))
	}
	return text.String(), values.values, nil
}

// What the begin of a write writes, or the end of a read shows, without what is as at first.
func (board *board) data(of moment, values *table) string {
	if of.call.isWrite == of.isEnd {
		return ""
	}
	var entries []string
	for place, component := range board.components {
		value, isShown := of.call.values[component]
		if number := board.number(of.call, entry{component, value}); isShown && number > 0 {
			entries = append(entries, fmt.Sprintf("%d:%d:%d", place, number, values.number(value)))
		}
	}
	return strings.Join(entries, " ")
}
