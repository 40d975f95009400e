// Tests two boards: `naive` collects once, which is not atomic; `double` collects until two collects are equal, which is.
//
//	go run ./own naive --runs 20
//
// SPDX-License-Identifier: 0BSD
package main

import (
	"reflect"
	"snaprecord"
	"sync/atomic"
)

type naive []atomic.Uint32

func (words naive) Update(thread, component int, value uint32) { words[component].Store(value) }

func (words naive) View(thread int) []uint32 {
	values := make([]uint32, len(words))
	for k := range words {
		values[k] = words[k].Load()
		snaprecord.Pause()
	}
	return values
}

type double struct{ naive }

func (board double) View(thread int) []uint32 {
	values, again := []uint32(nil), board.naive.View(thread)
	for !reflect.DeepEqual(values, again) {
		values, again = again, board.naive.View(thread)
	}
	return values
}

func main() {
	snaprecord.Main(
		snaprecord.Object{Name: "naive", Make: func(n int) snaprecord.Board { return make(naive, n) }},
		snaprecord.Object{Name: "double", Make: func(n int) snaprecord.Board { return double{make(naive, n)} }})
}
