// Answers as the program does, by the package: ../../../differential.py compares the two.
package main

import (
	"bufio"
	"encoding/json"
	"errors"
	"fmt"
	"io"
	"os"
	"strings"

	"wovencliff.example/snapjudge"
)

// What is asked of a text, with options.
type asker func([]byte, ...snapjudge.Option) (snapjudge.Answer, error)

// The question that each command asks of a text.
var questions = map[string]asker{
	"check":                    snapjudge.Report[[]byte],
	"explain":                  snapjudge.Explain[[]byte],
	"explain --draw":           snapjudge.ExplainDrawn[[]byte],
	"explain --all":            snapjudge.ExplainAll[[]byte],
	"explain --all --draw":     snapjudge.ExplainAllDrawn[[]byte],
	"check --format json":      with(snapjudge.JSON[[]byte], "-"),
	"shrink":                   snapjudge.Shrink[[]byte],
	"shrink --draw":            snapjudge.ShrinkDrawn[[]byte],
	"shrink --map":             snapjudge.ShrinkMap[[]byte],
	"explain --faults 3":       with(snapjudge.ExplainFaults[[]byte], 3),
	"explain --all --faults 3": with(snapjudge.ExplainAllFaults[[]byte], 3),
	"draw":                     with(snapjudge.Draw[[]byte], snapjudge.Page),
	"draw --svg":               with(snapjudge.Draw[[]byte], snapjudge.SVG),
	"draw --text":              with(snapjudge.Draw[[]byte], snapjudge.Lines),
	"draw --light":             with(snapjudge.Draw[[]byte], snapjudge.LightPage),
	"draw --dark":              with(snapjudge.Draw[[]byte], snapjudge.DarkPage),
	"draw --svg --calls 5":     with(fewCalls, 5),
	"draw --svg --dark":        with(snapjudge.Draw[[]byte], snapjudge.DarkSVG),
	"stats":                    statsLines,
	"stats --format json":      stats,
	"values":                   values,
}

// The question of a function that takes one thing more than the text.
func with[T any](ask func([]byte, T, ...snapjudge.Option) (snapjudge.Answer, error), more T) asker {
	return func(text []byte, chosen ...snapjudge.Option) (snapjudge.Answer, error) {
		return ask(text, more, chosen...)
	}
}

func fewCalls(text []byte, calls uint32, chosen ...snapjudge.Option) (snapjudge.Answer, error) {
	return snapjudge.DrawPart(text, snapjudge.SVG, snapjudge.Part{Calls: calls}, chosen...)
}

// The lines of what a run has shown. The program ends with 0, unless the text is not a history.
func statsLines(text []byte, chosen ...snapjudge.Option) (snapjudge.Answer, error) {
	lines, err := snapjudge.StatsLines(text, chosen...)
	answer := snapjudge.Answer{Text: lines}
	if strings.HasPrefix(lines, "refused ") {
		answer.Status = snapjudge.Refused
	}
	return answer, err
}

// What a run has shown, written as the program writes its object.
func stats(text []byte, chosen ...snapjudge.Option) (snapjudge.Answer, error) {
	shown, err := snapjudge.Stats(text, chosen...)
	var refused *snapjudge.RefusedError
	if errors.As(err, &refused) {
		return snapjudge.Answer{Status: snapjudge.Refused, Text: objectOf(refused)}, nil
	}
	if err != nil {
		return snapjudge.Answer{}, err
	}
	object, err := json.Marshal(struct {
		Name   string `json:"name"`
		Status int    `json:"status"`
		*snapjudge.RunStats
	}{"-", 0, shown})
	return snapjudge.Answer{Text: string(object) + "\n"}, err
}

// The object of a text that is not a history.
func objectOf(refused *snapjudge.RefusedError) string {
	return fmt.Sprintf("{\"name\":\"-\",\"status\":3,\"refused\":{\"record\":%d,\"fault\":%q}}\n", refused.Record, refused.Word)
}

// The values of a text, written as the program writes them: its object, and below it the order of the report. Of a text that is not a
// history they are the object and the sentences.
func values(text []byte, chosen ...snapjudge.Option) (snapjudge.Answer, error) {
	judged, err := snapjudge.Check(text, chosen...)
	var refused *snapjudge.RefusedError
	if errors.As(err, &refused) {
		return snapjudge.Answer{Status: snapjudge.Refused, Text: objectOf(refused) + refused.Sentences}, nil
	}
	if err != nil {
		return snapjudge.Answer{}, err
	}
	object, err := json.Marshal(struct {
		Name string `json:"name"`
		*snapjudge.Judged
	}{"-", judged})
	written := string(object) + "\n"
	for _, step := range judged.Order {
		written += fmt.Sprintf("%d p%d %s", step.Call, step.Process, step.Op)
		for _, entry := range step.Entries {
			written += fmt.Sprintf(" %d:%d:%d", entry.Component, entry.Number, entry.Value)
		}
		written += "\n"
	}
	return snapjudge.Answer{Status: judged.Status, Text: written}, err
}

func main() {
	in, out := bufio.NewReader(os.Stdin), bufio.NewWriter(os.Stdout)
	for {
		line, err := in.ReadString('\n')
		if err == io.EOF {
			return
		}
		length, words, _ := strings.Cut(strings.TrimSuffix(line, "\n"), " ")
		var size int
		fmt.Sscan(length, &size)
		text := make([]byte, size)
		if _, err := io.ReadFull(in, text); err != nil {
			panic(err)
		}
		command := strings.TrimSuffix(words, " --writers many")
		var chosen []snapjudge.Option
		if command != words {
			chosen = append(chosen, snapjudge.ManyWriters())
		}
		answer, err := questions[command](text, chosen...)
		if err != nil {
			panic(err)
		}
		fmt.Fprintf(out, "%d %d\n%s", answer.Status, len(answer.Text), answer.Text)
		out.Flush()
	}
}
