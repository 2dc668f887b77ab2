// Package output brings what a container writes to where containerd wants it: FIFOs, a file, or a program for logs.
package output

import (
	"fmt"
	"net/url"
	"os"
	"path/filepath"
	"sync"
	"time"

	"github.com/containerd/containerd/errdefs"
	"github.com/sirupsen/logrus"

	"feulgama/lines"
)

// Times of a reader.
const (
	writeTime = 100 * time.Millisecond // of a write while the task runs
	drainTime = 2 * time.Second        // for a reader to take what is left
)

// Wish is where output has to go. No word is nowhere.
type Wish struct {
	ID        string
	Namespace string
	Stdout    string
	Stderr    string
	Terminal  bool // standard error goes where standard output goes, unless it has a word of its own
}

// place is one place that output goes to.
type place interface {
	// write writes what it can until a time, and answers how many bytes that were.
	write(data []byte, until time.Time) (int, error)
	// drained tells whether the reader has taken all.
	drained() bool
	close()
}

// Streams are the two streams of a container.
type Streams struct {
	streams map[int]*stream
	areOne  bool // they have the same place
}

type stream struct {
	mu    sync.Mutex
	to    place
	taken int // bytes of the stream that are written
}

// Open opens the places of a wish.
func Open(wish Wish) (*Streams, error) {
	s := &Streams{streams: map[int]*stream{}}
	address, err := url.Parse(wish.Stdout)
	if err != nil {
		return nil, fmt.Errorf("%v: %w", err, errdefs.ErrInvalidArgument)
	}
	if address.Scheme == "binary" {
		return s, s.openProgram(wish, address)
	}
	if wish.Terminal && wish.Stderr == "" {
		wish.Stderr = wish.Stdout
	}
	s.areOne = wish.Stdout != "" && wish.Stderr == wish.Stdout
	for number, name := range map[int]string{lines.Stdout: wish.Stdout, lines.Stderr: wish.Stderr} {
		if name == "" {
			continue
		}
		to, err := open(name)
		if err != nil {
			s.Close()
			return nil, err
		}
		s.streams[number] = &stream{to: to}
	}
	return s, nil
}

func open(name string) (place, error) {
	address, err := url.Parse(name)
	if err != nil {
		return nil, fmt.Errorf("%v: %w", err, errdefs.ErrInvalidArgument)
	}
	switch address.Scheme {
	case "", "fifo":
		return openFifo(address.Path)
	case "file":
		return openFile(address.Path)
	}
	return nil, fmt.Errorf("output to %s: only FIFOs, file:// and binary:// are known: %w", name, errdefs.ErrInvalidArgument)
}

// Wanted tells whether anybody gets the output.
func (s *Streams) Wanted() bool { return len(s.streams) > 0 }

// Takes tells whether somebody gets a stream.
func (s *Streams) Takes(number int) bool { return s.streams[number] != nil }

// Deliver writes what is new of all that a stream has so far. What the reader does not take now comes with the next call.
func (s *Streams) Deliver(number int, all []byte) {
	if one := s.streams[number]; one != nil {
		one.deliver(all, time.Now().Add(writeTime))
	}
}

// Finish writes the rest, and a remark after standard error, and waits for some time until the readers have it. The ends of
// those that have are closed.
func (s *Streams) Finish(all map[int][]byte, remark string) {
	until := time.Now().Add(drainTime)
	if s.areOne { // so that standard error is not in the middle of it
		s.streams[lines.Stdout].deliver(all[lines.Stdout], until)
	}
	var wait sync.WaitGroup
	for number, one := range s.streams {
		said := ""
		if number == lines.Stderr {
			said = remark
		}
		wait.Add(1)
		go func(one *stream, data []byte) {
			defer wait.Done()
			one.deliver(data, until)
			one.say(said, until)
			one.drain()
		}(one, all[number])
	}
	wait.Wait()
}

// Close closes all places.
func (s *Streams) Close() {
	for _, one := range s.streams {
		one.close()
	}
}

func (s *stream) deliver(all []byte, until time.Time) {
	s.mu.Lock()
	defer s.mu.Unlock()
	if s.to == nil || s.taken >= len(all) {
		return
	}
	count, err := s.to.write(all[s.taken:], until)
	s.taken += count
	if err != nil {
		logrus.WithError(err).Warnf("%d of %d bytes of output were written", s.taken, len(all))
	}
}

// say writes what is none of the stream after all that was delivered.
func (s *stream) say(text string, until time.Time) {
	s.mu.Lock()
	defer s.mu.Unlock()
	if s.to == nil || text == "" {
		return
	}
	if _, err := s.to.write([]byte(text), until); err != nil {
		logrus.WithError(err).Warnf("it was not written that %q", text)
	}
}

// drain closes the place once its reader has all. If that does not come, the place stays open until close.
func (s *stream) drain() {
	last := time.Now().Add(drainTime)
	for rest := 100 * time.Microsecond; !s.drained(); {
		if time.Now().After(last) {
			return
		}
		time.Sleep(rest)
		if rest *= 2; rest > 5*time.Millisecond {
			rest = 5 * time.Millisecond
		}
	}
	s.close()
}

func (s *stream) drained() bool {
	s.mu.Lock()
	defer s.mu.Unlock()
	return s.to == nil || s.to.drained()
}

func (s *stream) close() {
	s.mu.Lock()
	defer s.mu.Unlock()
	if s.to != nil {
		s.to.close()
		s.to = nil
	}
}

// file is a file, to the end of which output is written.
type file struct{ *os.File }

func openFile(path string) (place, error) {
	if err := os.MkdirAll(filepath.Dir(path), 0o755); err != nil {
		return nil, fmt.Errorf("make the folder of a log: %w", err)
	}
	opened, err := os.OpenFile(path, os.O_APPEND|os.O_CREATE|os.O_WRONLY, 0o644)
	if err != nil {
		return nil, fmt.Errorf("open a log: %w", err)
	}
	return file{opened}, nil
}

func (f file) write(data []byte, _ time.Time) (int, error) { return f.File.Write(data) }
func (f file) drained() bool                               { return true }
func (f file) close()                                      { f.File.Close() }
