// Prints the nanoseconds that recording one call, its begin and its end, takes with this many goroutines: the quartiles of some rounds.
// usage: cost THREADS
package main

import (
	"fmt"
	"os"
	"snaprecord"
	"sort"
	"strconv"
	"time"
)

const rounds = 21

func round(threads int) float64 {
	calls := 32768 / threads
	recorder, err := snaprecord.New[uint32](threads, threads, calls)
	if err != nil {
		panic(err)
	}
	start, took := make(chan bool), make(chan time.Duration)
	for t := 0; t < threads; t++ {
		go func(log *snaprecord.Log[uint32], own int) {
			<-start
			begun := time.Now()
			for value := uint32(1); value <= uint32(calls) && log.BeginUpdate(own, value) > 0; value++ {
				log.EndUpdate()
			}
			took <- time.Since(begun)
		}(recorder.Log(t), t)
	}
	close(start)
	total := time.Duration(0)
	for t := 0; t < threads; t++ {
		total += <-took
	}
	return float64(total.Nanoseconds()) / float64(threads*calls)
}

func main() {
	threads, err := strconv.Atoi(os.Args[1])
	if err != nil {
		panic(err)
	}
	found := make([]float64, rounds)
	for i := range found {
		found[i] = round(threads)
	}
	sort.Float64s(found)
	fmt.Printf("%.0f to %.0f\n", found[rounds/4], found[rounds*3/4])
}
