// Objects that test the answers of a driver: usage as that of own. `stale` shows nothing but the initial values, `gives-up` never has a
// view, and a view of `hangs` does not end. A view of `short` lacks a component, an update of `dies` panics, and `unmade` can't be
// made. `second` is stale from its second run on, and gives up before. `slow` pauses around what it does, and is right with one
// component. `fails` is stale; of its updates the first had no effect, and of the third it is not known. `retries` is slow, and right
// with one component: of five updates one has no effect, one is tried again, and the 13th comes late.
package main

import (
	"errors"
	"fmt"
	"snaprecord"
	"sync/atomic"
	"time"
)

type faulty struct {
	name       string
	components int
	begun      int
	word       *atomic.Uint32
}

var made int

func (board faulty) Update(thread, component int, value uint32) {
	if board.name == "dies" {
		panic("no connection")
	}
	snaprecord.Pause()
	board.word.Store(value)
	snaprecord.Pause()
}

func (board faulty) View(thread int) []uint32 {
	switch board.name {
	case "gives-up":
		return nil
	case "second":
		if board.begun == 1 {
			return nil
		}
	case "slow":
		snaprecord.Pause()
		value := board.word.Load()
		snaprecord.Pause()
		return []uint32{value}
	case "hangs":
		time.Sleep(time.Hour)
	case "short":
		return make([]uint32, board.components-1)
	}
	return make([]uint32, board.components)
}

type fails struct {
	components int
	updates    *atomic.Uint32
}

func (board fails) Update(thread, component int, value uint32) error {
	switch board.updates.Add(1) {
	case 1:
		return fmt.Errorf("component %d: %w", component, snaprecord.NoEffect)
	case 3:
		return errors.New("no answer")
	}
	return nil
}

func (board fails) View(thread int) []uint32 { return make([]uint32, board.components) }

type retries struct {
	faulty
	updates, late atomic.Uint32
}

// Whether a try has an effect. The first one of each fifth update has none.
func (board *retries) isDone(number, tries, value uint32) bool {
	if number%5 == 2 && tries == 0 {
		return false
	}
	board.faulty.Update(0, 0, value)
	return true
}

func (board *retries) Update(thread, component int, value uint32) error {
	number := board.updates.Add(1)
	if number%5 == 1 {
		return snaprecord.NoEffect
	}
	if number == 13 {
		board.late.Store(value)
		return errors.New("no answer")
	}
	for tries := uint32(0); !board.isDone(number, tries, value); {
		tries++
	}
	return nil
}

// What comes late comes at the end of a view.
func (board *retries) View(thread int) []uint32 {
	values := board.faulty.View(thread)
	if value := board.late.Swap(0); value != 0 {
		board.word.Store(value)
	}
	return values
}

func object(name string) snaprecord.Object {
	return snaprecord.Object{Name: name, Make: func(n int) snaprecord.Board {
		if name == "unmade" {
			panic("no connection")
		}
		made++
		return faulty{name, n, made, new(atomic.Uint32)}
	}}
}

func main() {
	failing := snaprecord.Object{Name: "fails", MakeFallible: func(n int) snaprecord.FallibleBoard {
		return fails{n, new(atomic.Uint32)}
	}}
	retrying := snaprecord.Object{Name: "retries", MakeFallible: func(n int) snaprecord.FallibleBoard {
		return &retries{faulty: faulty{name: "slow", components: n, word: new(atomic.Uint32)}}
	}}
	snaprecord.Main(object("stale"), object("gives-up"), object("hangs"), object("short"), object("dies"), object("second"), object("slow"),
		failing, retrying, object("unmade"))
}
