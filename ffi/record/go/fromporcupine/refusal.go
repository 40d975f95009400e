// SPDX-License-Identifier: 0BSD

package fromporcupine

import "fmt"

// What is not taken, by a word, and what to record instead.
var sentences = map[string]string{
	"kind":        "step says neither Read nor Write: record operations that read, or that write one key; a compare and set, an append or a swap is neither",
	"client":      "a ClientId is a number from 0 to 65535: number the clients from 0",
	"time":        "it returns before it is called: read one clock, which never goes back, before each call and after it",
	"id":          "two calls have one Id: give each call an Id of its own",
	"return":      "a return has no call that is open: record the call before it, with the same Id, and one return",
	"keys":        "a write has one key: record writes of one key",
	"nothing":     "a read shows no key: record an entry for each key that it asked for, with a nil value where there is none",
	"compare":     "Go does not compare this key or value: give a string or an array for it",
	"first":       "a write of the first value can't be told from no write: write another value",
	"twice":       "a read shows one key twice: record one entry for each key",
	"many":        "it reads more than 256 keys: record reads of fewer keys",
	"same":        "two writes of a key have one value: give each write a value of its own, such as the client and a counter",
	"overlap":     "two writes of a key overlap: let one client at a time write a key, or record the version that the store gives to each write, and set Options.Versions",
	"unversioned": "no operation tells the version of this write: record it with the write, or with each read",
	"versions":    "two writes of a key have one version: record the number that the store gave to each write, such as a revision",
	"version":     "a read tells another version of a write than an operation before: record the version that the value had, as one answer of the store",
	"empty":       "no read has ended, so there is nothing to judge: record reads",
	"events":      "there are more events than Options.Events allows: give up to 1048576, and `snapjudge check --events` the same; or record less",
	"processes":   "there is no number left for a process: number the clients from 0, and let fewer of them have calls that overlap",
}

// A Refusal is why operations are not taken. Operation and Other are places in the list, or -1 if there is none.
type Refusal struct {
	Word             string // names what is wrong
	Operation, Other int
}

func (it *Refusal) Error() string {
	where, other := "", ""
	if it.Operation >= 0 {
		where = fmt.Sprintf("operation %d: ", it.Operation)
	}
	if it.Other >= 0 {
		other = fmt.Sprintf(": the other one is operation %d", it.Other)
	}
	return where + it.Word + ": " + sentences[it.Word] + other
}

func refusal(word string, places ...int) *Refusal {
	places = append(places, -1, -1)
	return &Refusal{word, places[0], places[1]}
}

// A Contradiction is a finding: of two writes of a key the one with the lower version was called after the other had returned. No
// order of the operations keeps both, so the run is not atomic. Both are places in the list.
type Contradiction struct{ Lower, Higher int }

func (it *Contradiction) Error() string {
	return fmt.Sprintf("operations %d and %d: not atomic: the first write has the lower version, and it was called after the second had "+
		"returned", it.Lower, it.Higher)
}
