// Records the calls of threads on a channel of Go, as a log to be judged.
//
//	go run main.go recorder.go QUEUE LOG SENDERS TAKERS CALLS SEED
//
// The files of the threads are LOG with their numbers. Each thread makes this number of calls. The channel
// `chan_closed` is closed once all sends are done. At the end the items that are left are taken, until two takes have
// found none.
package main

import (
	"fmt"
	"os"
	"runtime"
	"strconv"
	"sync"
	"time"
)

// How long a thread sleeps that found no item or no room.
const pause = 20 * time.Microsecond

// Sends an item, and records that. Whether it is sent.
func send(mine *recorder, queue chan uint64, item uint64) bool {
	mine.begin(`"send":%d`, item)
	select {
	case queue <- item:
		mine.end(`"send":%d`, item)
		return true
	default:
		mine.end(`"send":%d,"answer":"full"`, item)
		return false
	}
}

// Takes an item, and records that. Whether it is taken.
func take(mine *recorder, queue chan uint64) bool {
	mine.begin(`"take":null`)
	select {
	case item, open := <-queue:
		if open {
			mine.end(`"take":%d`, item)
		} else {
			mine.end(`"take":null,"answer":"ended"`)
		}
		return open
	default:
		mine.end(`"take":null`)
		return false
	}
}

func work(mine *recorder, queue chan uint64, thread, senders, calls, seed uint64) {
	random := seed*7919 + thread*104729 + 1
	for number := uint64(0); number < calls; number++ {
		random ^= random << 13
		random ^= random >> 7
		random ^= random << 17
		for spins := random % 64; spins > 0; spins-- {
		}
		var done bool
		if thread < senders {
			done = send(mine, queue, (thread+1)<<32|number)
		} else {
			done = take(mine, queue)
		}
		if !done || random>>20%512 == 0 {
			time.Sleep(pause)
		}
	}
}

// The recorder of a thread, whose file is LOG with its number.
func open(thread uint64) *recorder {
	return record(fmt.Sprintf("%s.%d", os.Args[2], thread), thread)
}

func main() {
	var numbers [4]uint64
	for at := range numbers {
		number, err := strconv.ParseUint(os.Args[3+at], 10, 32)
		if err != nil {
			fmt.Fprintln(os.Stderr, err)
			os.Exit(1)
		}
		numbers[at] = number
	}
	senders, threads := numbers[0], numbers[0]+numbers[1]
	capacity := map[string]int{"chan": 16, "chan_single": 1, "chan_closed": 16}[os.Args[1]]
	queue := make(chan uint64, capacity)
	var sending, running sync.WaitGroup
	sending.Add(int(senders))
	for thread := uint64(0); thread < threads; thread++ {
		running.Add(1)
		go func(thread uint64) {
			defer running.Done()
			runtime.LockOSThread()
			work(open(thread), queue, thread, senders, numbers[2], numbers[3])
			if thread < senders {
				sending.Done()
			}
		}(thread)
	}
	if os.Args[1] == "chan_closed" {
		sending.Wait()
		it := open(threads + 1)
		it.begin(`"close":true`)
		close(queue)
		it.end(`"close":true`)
	}
	running.Wait()
	for last, found := open(threads), 0; found < 2; {
		if !take(last, queue) {
			found++
		}
	}
}
