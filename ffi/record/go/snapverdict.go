// SPDX-License-Identifier: 0BSD

package snaprecord

import (
	"errors"
	"fmt"
	"os"
	"os/exec"
	"path/filepath"
	"strings"
)

// The library if it is there, and else the program, which is empty if there is none.
type judge struct {
	program string
	library library
	events  uint64 // how many a history may have
}

// SNAPJUDGE_LIBRARY names the library; it is empty for none. Else it is sought beside the program.
func findJudge(named string, events uint64) (judge, error) {
	for _, name := range []string{os.Getenv("SNAPJUDGE_PROGRAM"), "snapjudge"} {
		if named == "" {
			named = name
		}
	}
	program, err := exec.LookPath(named)
	if err == nil {
		program, err = filepath.EvalSymlinks(program)
	}
	if err == nil {
		program, err = filepath.Abs(program)
	}
	if err != nil {
		program = ""
	} else if !isJudge(program) {
		return judge{}, failed("no judge", "%s is not snapjudge: it tells no version of it", program)
	}
	folder := filepath.Dir(program)
	places := []string{folder + "/../lib/libsnapjudge.so", folder + "/ffi/build/libsnapjudge.so", "libsnapjudge.so"}
	only, isNamed := os.LookupEnv("SNAPJUDGE_LIBRARY")
	if isNamed {
		places = []string{only}
	}
	found := judge{program: program, events: events}
	for _, place := range places {
		if place != "" && !found.library.isThere() {
			found.library = load(place)
		}
	}
	if only != "" && !found.library.isThere() {
		return found, failed("no judge", "there is no library %s", only)
	}
	if program == "" && !found.library.isThere() {
		return found, failed("no judge", "there is no program %s: install snapjudge, or name it by --program", named)
	}
	return found, nil
}

// Whether the program says its version. A program of another kind may end with 0 whatever it is given, and that is not a verdict.
func isJudge(program string) bool {
	said, err := exec.Command(program, "--version").Output()
	rest := strings.TrimPrefix(string(said), "snapjudge ")
	return err == nil && len(rest) < len(said) && rest != "" && '0' <= rest[0] && rest[0] <= '9'
}

func (judge judge) command(verb string) *exec.Cmd {
	words := []string{verb, fmt.Sprint("--events=", judge.events)}
	if verb == "check" {
		words = append(words, "--quiet")
	}
	return exec.Command(judge.program, words...)
}

// 0 for atomic, 1 for only regular, 2 for not regular.
func (judge judge) status(text string) (int, error) {
	status := 4
	if judge.library.isThere() {
		status = judge.library.check(text, judge.events)
	} else {
		command := judge.command("check")
		command.Stdin = strings.NewReader(text)
		if err := command.Run(); err == nil || errors.As(err, new(*exec.ExitError)) {
			status = command.ProcessState.ExitCode()
		}
	}
	if status < 0 || status > 2 {
		return 0, failed("no verdict", "the judge ends with status %d", status)
	}
	return status, nil
}

// Tries, before the first run, whether the judge recognizes a history that is not regular: its view misses an update. A judge whose
// status is lost, as by a script with a pipe, would call every run atomic.
func (judge judge) test() error {
	status, err := judge.status("event,process,op,data\nbegin,0,update,0:1:7\nend,0,update,\nbegin,1,view,\nend,1,view,\n")
	if err == nil && status != 2 {
		err = failed("no judge", "of a history that is not regular the judge tells status %d, and not 2", status)
	}
	return err
}

// Tries whether files can be written into a folder, before the first run, so that none is lost.
func testFolder(out string) error {
	name := fmt.Sprintf("%s/run-%d.csv", out, os.Getpid())
	err := os.WriteFile(name, nil, 0o666)
	if err == nil {
		err = os.Remove(name)
	}
	if err != nil {
		return failed("files", "%v", err)
	}
	return nil
}

// Writes a history, its witness and its explanation.
func (judge judge) keep(text, front string) error {
	if err := os.WriteFile(front+"-caught.csv", []byte(text), 0o666); err != nil {
		return failed("files", "%v", err)
	}
	for verb, name := range map[string]string{"shrink": "-witness.csv", "explain": "-explained.txt"} {
		os.Remove(front + name) // of an earlier run
		if judge.program == "" {
			continue
		}
		command := judge.command(verb)
		command.Stdin = strings.NewReader(text)
		said, err := command.Output()
		if err != nil && command.ProcessState.ExitCode() > 2 {
			return failed("files", "%s%s can't be written: the program ends with %v", front, name, err)
		}
		if err := os.WriteFile(front+name, said, 0o666); err != nil {
			return failed("files", "%v", err)
		}
	}
	return nil
}
