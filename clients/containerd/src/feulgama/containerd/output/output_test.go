package output

import (
	"bytes"
	"errors"
	"io"
	"os"
	"path/filepath"
	"strings"
	"syscall"
	"testing"
	"time"

	"github.com/containerd/containerd/errdefs"

	"feulgama/lines"
)

// byTheClock passes over a test that a busy machine may fail, if the tests are to be short.
func byTheClock(t *testing.T) {
	t.Helper()
	if testing.Short() {
		t.Skip("goes by the clock")
	}
}

func makeFifo(t *testing.T) string {
	t.Helper()
	path := filepath.Join(t.TempDir(), "out")
	if err := syscall.Mkfifo(path, 0o600); err != nil {
		t.Fatal(err)
	}
	return path
}

func opened(t *testing.T, wish Wish) *Streams {
	t.Helper()
	s, err := Open(wish)
	if err != nil {
		t.Fatal(err)
	}
	t.Cleanup(s.Close)
	return s
}

func TestAFileGetsEachByteOnce(t *testing.T) {
	path := filepath.Join(t.TempDir(), "new", "log")
	s := opened(t, Wish{Stdout: "file://" + path, Stderr: "file://" + path})
	s.Deliver(lines.Stdout, []byte("one "))
	s.Deliver(lines.Stdout, []byte("one "))
	s.Deliver(lines.Stderr, []byte("err "))
	s.Deliver(lines.Stdout, []byte("one two "))
	s.Finish(map[int][]byte{lines.Stdout: []byte("one two three"), lines.Stderr: []byte("err ")}, "")
	s.Deliver(lines.Stdout, []byte("one two three four"))
	if text, err := os.ReadFile(path); err != nil || string(text) != "one err two three" {
		t.Errorf("%q, %v", text, err)
	}
}

// What comes at the end to a place that both streams have comes in order.
func TestStreamsWithOnePlace(t *testing.T) {
	for tries := 0; tries < 64; tries++ {
		path := filepath.Join(t.TempDir(), "log")
		for _, wish := range []Wish{{Stdout: "file://" + path, Terminal: true}, {Stdout: "file://" + path, Stderr: "file://" + path}} {
			s := opened(t, wish)
			s.Finish(map[int][]byte{lines.Stdout: []byte("out "), lines.Stderr: []byte("err ")}, "and a remark; ")
		}
		if text, err := os.ReadFile(path); err != nil || string(text) != strings.Repeat("out err and a remark; ", 2) {
			t.Fatalf("%q, %v", text, err)
		}
	}
}

// A remark does not depend on how much of standard error is known.
func TestARemarkComesAfterWhatIsWritten(t *testing.T) {
	path := filepath.Join(t.TempDir(), "log")
	s := opened(t, Wish{Stderr: "file://" + path})
	s.Deliver(lines.Stderr, []byte("a long line of the module "))
	s.Finish(nil, "a remark")
	if text, err := os.ReadFile(path); err != nil || string(text) != "a long line of the module a remark" {
		t.Errorf("%q, %v", text, err)
	}
}

func TestNobodyGetsIt(t *testing.T) {
	s := opened(t, Wish{})
	if s.Wanted() || s.Takes(lines.Stdout) {
		t.Error("somebody gets it")
	}
	s.Deliver(lines.Stdout, []byte("x"))
	s.Finish(map[int][]byte{lines.Stdout: []byte("x")}, "")
}

// The end is not told before the reader of a FIFO has all.
func TestFinishWaitsForTheReader(t *testing.T) {
	byTheClock(t)
	path := makeFifo(t)
	s := opened(t, Wish{Stdout: path})
	reader, err := os.OpenFile(path, os.O_RDONLY|syscall.O_NONBLOCK, 0)
	if err != nil {
		t.Fatal(err)
	}
	defer reader.Close()
	all := bytes.Repeat([]byte("0123456789abcdef"), 4096) // as much as a stream of a module can have
	finished := make(chan struct{})
	go func() { s.Finish(map[int][]byte{lines.Stdout: all}, ""); close(finished) }()
	select {
	case <-finished:
		t.Fatal("it does not wait")
	case <-time.After(50 * time.Millisecond):
	}
	got, err := io.ReadAll(reader)
	if err != nil || !bytes.Equal(got, all) {
		t.Errorf("%d bytes, %v", len(got), err)
	}
	<-finished
}

// Output that nobody reads stays in the FIFO until the container is deleted, as when containerd is started again.
func TestAReaderThatComesLate(t *testing.T) {
	byTheClock(t)
	path := makeFifo(t)
	s := opened(t, Wish{Stdout: path})
	began := time.Now()
	s.Finish(map[int][]byte{lines.Stdout: []byte("kept")}, "")
	if took := time.Since(began); took < drainTime || took > 5*drainTime {
		t.Errorf("it waits %v", took)
	}
	reader, err := os.Open(path)
	if err != nil {
		t.Fatal(err)
	}
	defer reader.Close()
	got := make([]byte, 4)
	if _, err := io.ReadFull(reader, got); err != nil || string(got) != "kept" {
		t.Errorf("%q, %v", got, err)
	}
	s.Close()
	if more, err := io.ReadAll(reader); err != nil || len(more) != 0 {
		t.Errorf("%q, %v", more, err)
	}
}

func TestPlacesThatAreNone(t *testing.T) {
	file := filepath.Join(t.TempDir(), "plain")
	if err := os.WriteFile(file, nil, 0o600); err != nil {
		t.Fatal(err)
	}
	for name, class := range map[string]error{
		file: errdefs.ErrInvalidArgument, "http://somewhere/": errdefs.ErrInvalidArgument, "%zz": errdefs.ErrInvalidArgument,
		"/nothing/here": errdefs.ErrInvalidArgument,
	} {
		if _, err := Open(Wish{Stdout: name}); !errors.Is(err, class) {
			t.Errorf("%s: %v", name, err)
		}
	}
	if _, err := Open(Wish{Stdout: "binary:///nothing/here"}); err == nil || !strings.Contains(err.Error(), "/nothing/here") {
		t.Errorf("%v", err)
	}
}

// A program for logs gets both streams, the container's id, and the time to write its last line.
func TestAProgramForLogs(t *testing.T) {
	folder := t.TempDir()
	program := filepath.Join(folder, "log")
	text := `#!/bin/sh
exec 5>&-
cat <&3 >"$1.out" & cat <&4 >"$1.err"
wait; sleep 0.1; echo "$CONTAINER_NAMESPACE $CONTAINER_ID" >"$1.end"
`
	if err := os.WriteFile(program, []byte(text), 0o755); err != nil {
		t.Fatal(err)
	}
	to := filepath.Join(folder, "to")
	uri := "binary://" + program + "?" + to
	s := opened(t, Wish{ID: "one", Namespace: "here", Stdout: uri, Stderr: uri})
	s.Deliver(lines.Stdout, []byte("a"))
	s.Finish(map[int][]byte{lines.Stdout: []byte("ab"), lines.Stderr: []byte("c")}, "")
	for end, want := range map[string]string{".out": "ab", ".err": "c", ".end": "here one\n"} {
		if got, err := os.ReadFile(to + end); err != nil || string(got) != want {
			t.Errorf("%s: %q, %v", end, got, err)
		}
	}
}
