package snapjudge_test

import (
	"errors"
	"fmt"
	"os"
	"path/filepath"
	"reflect"
	"strings"
	"sync"
	"testing"

	"wovencliff.example/snapjudge"
)

const header = "event,process,op,data\n"

func check(t *testing.T, rows string) *snapjudge.Judged {
	t.Helper()
	judged, err := snapjudge.Check(header + rows)
	if err != nil {
		t.Fatal(err)
	}
	return judged
}

func expect(t *testing.T, found, wanted any) {
	t.Helper()
	if !reflect.DeepEqual(found, wanted) {
		t.Errorf("%+v is not %+v", found, wanted)
	}
}

// A call that has ended, with the entries 0:1:VALUE, 1:1:VALUE and so on, without those of value 0.
func call(number, process uint32, op snapjudge.Op, begin, end uint32, values ...uint32) snapjudge.Call {
	made := snapjudge.Call{Call: number, Process: process, Op: op, Begin: begin, End: &end, Entries: []snapjudge.Entry{}}
	for component, value := range values {
		if value != 0 {
			made.Entries = append(made.Entries, snapjudge.Entry{Component: uint32(component), Number: 1, Value: value})
		}
	}
	return made
}

func TestAnAtomicHistoryHasAnOrder(t *testing.T) {
	judged := check(t, "begin,3,update,2:1:7\nend,3,update,\nbegin,1,view,\nend,1,view,2:1:7\n")
	shown := []snapjudge.Entry{{Component: 2, Number: 1, Value: 7}}
	expect(t, *judged, snapjudge.Judged{Status: snapjudge.Atomic, Events: 4, Calls: 2, Views: 1, Regular: true, Monotone: true, Atomic: true,
		Order: []snapjudge.Step{{Call: 1, Process: 3, Op: snapjudge.Update, Entries: shown}, {Call: 2, Process: 1, Op: snapjudge.View, Entries: shown}}})
}

func TestEachKindOfFaultIsTold(t *testing.T) {
	update := call(1, 0, snapjudge.Update, 2, 3, 7)
	judged := check(t, "begin,0,update,0:1:7\nend,0,update,\nbegin,1,view,\nend,1,view,\nbegin,1,view,\nend,1,view,0:1:9\n")
	expect(t, judged.Status, snapjudge.Irregular)
	expect(t, *judged.Proximity, snapjudge.ProximityFault{Count: 1, View: call(2, 1, snapjudge.View, 4, 5), Side: "old", Update: &update})
	expect(t, *judged.Integrity, snapjudge.IntegrityFault{Count: 1, View: call(3, 1, snapjudge.View, 6, 7, 9),
		Entry: snapjudge.Entry{Number: 1, Value: 9}, Update: &update})

	judged = check(t, "begin,0,update,0:1:7\nbegin,1,view,\nend,1,view,0:1:7\nbegin,2,view,\nend,2,view,\nend,0,update,\n")
	expect(t, judged.Status, snapjudge.Regular)
	expect(t, judged.Monotone, false)
	update = call(1, 0, snapjudge.Update, 2, 7, 7)
	expect(t, *judged.Read, snapjudge.ReadFault{Count: 1, View: call(2, 1, snapjudge.View, 3, 4, 7), Other: call(3, 2, snapjudge.View, 5, 6),
		Differs: []snapjudge.Difference{{ViewNumber: 1, Update: &update}}})

	judged = check(t, "begin,2,view,\nbegin,0,update,0:1:5\nend,0,update,\nbegin,1,update,1:1:6\nend,1,update,\nend,2,view,1:1:6\n")
	misses, shows := call(2, 0, snapjudge.Update, 3, 4, 5), call(3, 1, snapjudge.Update, 5, 6, 0, 6)
	expect(t, *judged.Write, snapjudge.WriteFault{Count: 1, View: call(1, 2, snapjudge.View, 2, 7, 0, 6),
		Misses: snapjudge.NamedUpdate{Number: 1, Update: &misses}, Shows: snapjudge.NamedUpdate{Component: 1, Number: 1, Update: &shows}})
}

func TestAPendingUpdateHasNoEnd(t *testing.T) {
	judged := check(t, "begin,0,update,0:1:7\nbegin,1,view,\nend,1,view,0:1:9\n")
	expect(t, judged.Pending, uint64(1))
	expect(t, judged.Integrity.Update.End, (*uint32)(nil))
	judged = check(t, "begin,1,view,\nend,1,view,0:1:9\n")
	expect(t, judged.Integrity.Update, (*snapjudge.Call)(nil))
}

func TestATextThatIsNotAHistoryIsAnError(t *testing.T) {
	_, err := snapjudge.Check([]byte(header + "begin,0,update,0:2:7\n"))
	var refused *snapjudge.RefusedError
	if !errors.As(err, &refused) {
		t.Fatal(err)
	}
	expect(t, refused.Record, uint32(2))
	expect(t, refused.Word, "number")
	expect(t, strings.Split(err.Error(), "\n"), []string{"refused record 2: number",
		"an update has the next number of its component, which is one more than the updates of it that began before",
		"  record 2 has the fields \"begin\" \"0\" \"update\" \"0:2:7\""})
	_, err = snapjudge.Check("")
	expect(t, errors.As(err, &refused), true)
}

func TestACallerChoosesTheLimit(t *testing.T) {
	view := header + "begin,0,view,\nend,0,view,\n"
	_, err := snapjudge.Check(view, snapjudge.Events(1))
	var refused *snapjudge.RefusedError
	expect(t, errors.As(err, &refused) && refused.Word == "toomany", true)
	_, err = snapjudge.Check(view, snapjudge.Events(snapjudge.MostEvents))
	expect(t, err, nil)
	// to the library the last but one is a limit of one event with many writers
	for _, events := range []uint32{0, snapjudge.MostEvents + 1, 1 << 31, 1<<31 + 1, 1<<32 - 1} {
		_, err = snapjudge.Check(view, snapjudge.Events(events))
		expect(t, err, &snapjudge.LimitError{Events: events})
		_, err = snapjudge.Check(view, snapjudge.Events(events), snapjudge.ManyWriters())
		expect(t, err, &snapjudge.LimitError{Events: events})
	}
	_, err = snapjudge.Draw(view, snapjudge.DarkSVG+1)
	expect(t, err, snapjudge.ErrOption)
	_, err = snapjudge.DrawPart(view, snapjudge.SVG, snapjudge.Part{From: 1000})
	expect(t, err, snapjudge.ErrOption)
}

func TestAComponentHasManyWritersWhereTheCallerSaysSo(t *testing.T) {
	const begins = header + "begin,0,update,0:1:5\nbegin,1,update,0:2:6\n"
	const text = begins + "end,0,update,\nend,1,update,\n"
	many := snapjudge.ManyWriters()
	judged, err := snapjudge.Check(text, many)
	if err != nil {
		t.Fatal(err)
	}
	step := func(call, process, number, value uint32) snapjudge.Step {
		return snapjudge.Step{Call: call, Process: process, Op: snapjudge.Update, Entries: []snapjudge.Entry{{Number: number, Value: value}}}
	}
	expect(t, *judged, snapjudge.Judged{Status: snapjudge.Atomic, Events: 4, Calls: 2, Regular: true, Monotone: true, Atomic: true,
		Order: []snapjudge.Step{step(1, 0, 1, 5), step(2, 1, 2, 6)}})
	report, _ := snapjudge.Report(text, many)
	expect(t, report.Text, "events 4 calls 2 pending 0 views 0\nregular yes\nmonotone yes\natomic yes\norder 2\n1 p0 update 0:1:5\n2 p1 update 0:2:6\n")
	witness, _ := snapjudge.Shrink(text, many)
	expect(t, witness, snapjudge.Answer{Status: snapjudge.Atomic, Text: text})
	picture, _ := snapjudge.Draw(text, snapjudge.Page, many)
	expect(t, picture.Status, snapjudge.Atomic)
	shown, _ := snapjudge.Stats(text, many)
	expect(t, shown.ByComponent, []snapjudge.ComponentStats{{Updates: 2}})

	var refused *snapjudge.RefusedError
	_, err = snapjudge.Check(text)
	expect(t, errors.As(err, &refused) && refused.Record == 3 && refused.Word == "writer", true)
	_, err = snapjudge.Check(begins+"end,1,update,\nend,0,update,\n", many)
	expect(t, errors.As(err, &refused) && refused.Record == 4 && refused.Word == "order", true)
	_, err = snapjudge.Check(text, many, snapjudge.Events(3))
	expect(t, errors.As(err, &refused) && refused.Record == 5 && refused.Word == "toomany", true)
}

func TestAllEntriesOfALargeViewAreToldIfTheyAreAskedFor(t *testing.T) {
	rows, shown := "", []string{}
	for component := 0; component < 20; component++ {
		rows += fmt.Sprintf("begin,%d,update,%d:1:7\nend,%d,update,\n", component, component, component)
		shown = append(shown, fmt.Sprintf("%d:1:7", component))
	}
	// the one entry that belongs to the fault
	shown[3] = "3:1:8"
	entries := strings.Join(shown, " ")
	text := header + rows + "begin,20,view,\nend,20,view," + entries + "\n"
	few, _ := snapjudge.Explain(text)
	all, _ := snapjudge.ExplainAll(text)
	expect(t, strings.Contains(few.Text, " more entries\n") && !strings.Contains(few.Text, entries), true)
	expect(t, !strings.Contains(all.Text, " more entries\n") && strings.Contains(all.Text, "view "+entries+"\n"), true)
	expect(t, all.Status, few.Status)
	drawn, _ := snapjudge.ExplainAllDrawn(text)
	expect(t, strings.HasPrefix(drawn.Text, all.Text), true)
}

func TestSeveralFaultsAndTheCallsOfTheWitness(t *testing.T) {
	text := header + "begin,0,update,0:1:7\nend,0,update,\nbegin,1,view,\nend,1,view,\nbegin,1,view,\nend,1,view,\n"
	one, _ := snapjudge.Explain(text)
	first, _ := snapjudge.ExplainFaults(text, 1)
	both, _ := snapjudge.ExplainAllFaults(text, 2)
	if first != one || !strings.HasPrefix(both.Text, one.Text) || strings.Count(both.Text, "proximity: view") != 2 {
		t.Error(first, both)
	}
	if _, err := snapjudge.ExplainFaults(text, 1001); !errors.Is(err, snapjudge.ErrOption) {
		t.Error(err)
	}
	table, _ := snapjudge.ShrinkMap(text)
	if !strings.HasSuffix(table.Text, "of end\n1,0,2,3,1,0,2,3\n2,1,4,5,2,1,4,5\n") {
		t.Error(table)
	}
}

func TestColoursAreChosenByTheForm(t *testing.T) {
	for form, end := range map[snapjudge.Form]string{snapjudge.LightPage: "</html>\n", snapjudge.DarkPage: "</html>\n", snapjudge.DarkSVG: "</svg>\n"} {
		picture, err := snapjudge.Draw(inversion, form)
		expect(t, err, nil)
		expect(t, strings.HasSuffix(picture.Text, end), true)
	}
	dark, _ := snapjudge.Draw(inversion, snapjudge.DarkSVG)
	expect(t, strings.Contains(dark.Text, "snapjudge-dark") && !strings.Contains(dark.Text, "snapjudge-light"), true)
}

func TestEightGoroutinesGetTheReportOfEachExample(t *testing.T) {
	names, err := filepath.Glob("../../examples/*.csv")
	if err != nil || len(names) < 10 {
		t.Fatal(names, err)
	}
	var group sync.WaitGroup
	for i := 0; i < 8; i++ {
		group.Add(1)
		go func() {
			defer group.Done()
			for _, name := range names {
				text, _ := os.ReadFile(name)
				wanted, _ := os.ReadFile(strings.TrimSuffix(name, "csv") + "report")
				if found, err := snapjudge.Report(text); err != nil || found.Text != string(wanted) {
					t.Errorf("%s: %v, %v", name, found, err)
				}
			}
		}()
	}
	group.Wait()
}

const inversion = header + "begin,0,update,0:1:7\nbegin,1,view,\nend,1,view,0:1:7\nbegin,2,view,\nend,2,view,\nend,0,update,\n"

func ExampleCheck() {
	judged, err := snapjudge.Check(inversion)
	if err != nil {
		fmt.Println(err)
		return
	}
	fault := judged.Read
	fmt.Println(judged.Status, "by views", fault.View.Call, "and", fault.Other.Call)
	// Output: regular by views 2 and 3
}

func ExampleCheck_refused() {
	_, err := snapjudge.Check("event,process,op,data\nbegin,0,update,0:2:7\n")
	fmt.Println(err)
	// Output:
	// refused record 2: number
	// an update has the next number of its component, which is one more than the updates of it that began before
	//   record 2 has the fields "begin" "0" "update" "0:2:7"
}

func ExampleReport() {
	report, err := snapjudge.Report(inversion)
	fmt.Print(report.Text, err)
	// Output:
	// events 6 calls 3 pending 0 views 2
	// regular yes
	// monotone no
	// atomic no
	// read 1 first view 2 view 3 component 0
	// <nil>
}

func ExampleExplain() {
	why, _ := snapjudge.Explain(inversion)
	fmt.Print(why.Text)
	// Output:
	// regular, and not atomic
	// read: view 2 shows more of component 0 than view 3, and had ended before that view began
	//   view 2 shows 0:1; view 3 shows 0:0
	//   call 2 of process 1, records 3 and 4: view 0:1:7
	//   call 3 of process 2, records 5 and 6: view
	//   call 1 of process 0, records 2 and 7: update 0:1:7
}

func ExampleShrink() {
	witness, _ := snapjudge.Shrink(inversion)
	fmt.Println(witness.Text == inversion) // it has three calls, and each is needed
	// Output: true
}

func ExampleJSON() {
	object, _ := snapjudge.JSON("event,process,op,data\n", "run.csv")
	fmt.Print(object.Text)
	// Output: {"name":"run.csv","status":0,"events":0,"calls":0,"pending":0,"views":0,"regular":true,"monotone":true,"atomic":true,"integrity":null,"proximity":null,"read":null,"write":null}
}

func ExampleDraw() {
	picture, _ := snapjudge.Draw(inversion, snapjudge.SVG)
	fmt.Println(strings.HasSuffix(picture.Text, "</svg>\n"))
	// Output: true
}

func ExampleStats() {
	shown, _ := snapjudge.Stats(inversion)
	fmt.Println(shown.OverlapUpdate, "views overlap an update, and", shown.OverlapView, "another view")
	fmt.Println(shown.ByComponent)
	// Output:
	// 2 views overlap an update, and 0 another view
	// [{0 0 1 1}]
}

func ExampleStatsLines() {
	lines, _ := snapjudge.StatsLines("event,process,op,data\nbegin,0,update,0:2:7\n")
	fmt.Print(lines)
	// Output: refused record 2: number
}
