// Whether calls are ordered as the recorder says: an end with an earlier stamp than a begin happened before it. Two goroutines write
// and read a plain word in calls that follow each other. They wait for each other by a flag that the race detector does not see. So
// it reports a race exactly when the clock of the recorder does not order them.
//
// SPDX-License-Identifier: 0BSD
package main

import (
	"fmt"
	"runtime"
	"snaprecord"
)

const rounds = 20

var (
	word uint32
	turn int
)

//go:norace
//go:noinline
func is(wanted int) bool { return turn == wanted }

//go:norace
//go:noinline
func pass(to int) { turn = to }

func await(wanted int) {
	for !is(wanted) {
		runtime.Gosched()
	}
}

func write(log *snaprecord.Log[uint32], ended chan bool) {
	for i := 0; i < rounds; i++ {
		await(2 * i)
		log.BeginUpdate(0, uint32(i+1))
		word = uint32(i + 1)
		log.EndUpdate()
		pass(2*i + 1)
	}
	ended <- true
}

func read(log *snaprecord.Log[uint32], ended chan bool) {
	values := []uint32{0}
	for i := 0; i < rounds; i++ {
		await(2*i + 1)
		log.BeginView()
		values[0] = word
		log.EndViewValues(values)
		pass(2*i + 2)
	}
	ended <- true
}

func main() {
	recorder, err := snaprecord.New[uint32](2, 1, rounds)
	if err != nil {
		panic(err)
	}
	ended := make(chan bool)
	go write(recorder.Log(0), ended)
	go read(recorder.Log(1), ended)
	<-ended
	<-ended
	text, err := recorder.Text()
	if err != nil {
		panic(err)
	}
	fmt.Print(text)
}
