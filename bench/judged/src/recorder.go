// Records the calls on any queue in Go: the lines of a log to be judged, in one file for each thread, or in one pipe
// for all.
package main

import (
	"fmt"
	"os"
	"time"
)

// The recorder of one thread, whose file is new.
type recorder struct {
	file      *os.File
	thread    int
	at, began int64
	isPipe    bool
}

// The recorder of a thread, in a new file, or in a pipe.
func record(path string, thread uint64) *recorder {
	file, err := os.OpenFile(path, os.O_WRONLY|os.O_CREATE|os.O_TRUNC, 0o666)
	if err != nil {
		panic(err)
	}
	info, err := file.Stat()
	if err != nil {
		panic(err)
	}
	return &recorder{file: file, thread: int(thread), isPipe: !info.Mode().IsRegular()}
}

var start = time.Now()

func now() int64 { return int64(time.Since(start)) }

// Before a call: its line, as one that hasn't returned. A program that is killed leaves that, but in no pipe.
func (it *recorder) begin(what string, words ...any) {
	if !it.isPipe {
		it.write(fmt.Sprintf(`"begin":%d`, now()), fmt.Sprintf(what, words...))
	}
	it.began = now()
}

// After the call: its line again, over the other.
func (it *recorder) end(what string, words ...any) {
	end := now()
	it.at += it.write(fmt.Sprintf(`"begin":%d,"end":%d`, it.began, end), fmt.Sprintf(what, words...))
}

// Writes 128 bytes, within a page of memory: a kill cuts no line, but for longer ones.
func (it *recorder) write(times, what string) int64 {
	line := fmt.Sprintf(`{"thread":%d,%s,%s}`, it.thread, times, what)
	bytes := []byte(fmt.Sprintf("%-127s\n", line))
	if it.isPipe {
		if _, err := it.file.Write(bytes); err != nil {
			panic(err)
		}
		return 0
	}
	size, err := it.file.WriteAt(bytes, it.at)
	if err != nil {
		panic(err)
	}
	return int64(size)
}
