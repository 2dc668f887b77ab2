package output

import (
	"errors"
	"fmt"
	"io"
	"net/url"
	"os"
	"os/exec"
	"sync"
	"syscall"
	"time"

	"github.com/containerd/containerd/pkg/process"
	"github.com/sirupsen/logrus"

	"feulgama/lines"
)

// Times of a program for logs.
const (
	readyTime = 10 * time.Second // until it says that it is ready
	endTime   = 10 * time.Second // until it has ended, once its input has
)

// program is a program that logs: its descriptors 3 and 4 are the streams, and it closes 5 when it is ready.
type program struct {
	command *exec.Cmd
	open    int // streams
	mu      sync.Mutex
}

// openProgram starts the program of an address, and gives it both streams.
func (s *Streams) openProgram(wish Wish, address *url.URL) (err error) {
	command := process.NewBinaryCmd(address, wish.ID, wish.Namespace)
	var theirs, ours []*os.File
	defer func() {
		for _, file := range theirs {
			file.Close()
		}
		for _, file := range ours {
			if err != nil {
				file.Close()
			}
		}
	}()
	for range []int{lines.Stdout, lines.Stderr} {
		read, write, err := logPipeEnds()
		if err != nil {
			return err
		}
		theirs, ours = append(theirs, read), append(ours, write)
	}
	ready, write, err := logPipeEnds()
	if err != nil {
		return err
	}
	defer ready.Close()
	theirs = append(theirs, write)
	command.ExtraFiles = theirs
	if err := command.Start(); err != nil {
		return fmt.Errorf("start the program of %s: %w", address, err)
	}
	write.Close()
	if err := waitUntilReady(ready); err != nil {
		_ = command.Process.Kill()
		_ = command.Wait()
		return fmt.Errorf("wait for the program of %s: %w", address, err)
	}
	p := &program{command: command, open: len(ours)}
	s.streams[lines.Stdout] = &stream{to: logPipe{pipe{ours[0]}, p}}
	s.streams[lines.Stderr] = &stream{to: logPipe{pipe{ours[1]}, p}}
	return nil
}

func logPipeEnds() (read, write *os.File, err error) {
	if read, write, err = os.Pipe(); err != nil {
		err = fmt.Errorf("make a pipe for a log: %w", err)
	}
	return read, write, err
}

// waitUntilReady waits for a byte or the end of a pipe.
func waitUntilReady(ready *os.File) error {
	if err := ready.SetReadDeadline(time.Now().Add(readyTime)); err != nil {
		return err
	}
	if _, err := ready.Read(make([]byte, 1)); err != nil && !errors.Is(err, io.EOF) {
		return err
	}
	return nil
}

// logPipe is a stream of a program. It is the program, and not the pipe, that is waited for.
type logPipe struct {
	pipe
	to *program
}

func (l logPipe) drained() bool { return true }

func (l logPipe) close() {
	l.pipe.close()
	l.to.closed()
}

// closed waits for the end of the program when both its streams have ended. It is asked to end if that takes long.
func (p *program) closed() {
	p.mu.Lock()
	defer p.mu.Unlock()
	if p.open--; p.open > 0 {
		return
	}
	done := make(chan struct{})
	go func() {
		defer close(done)
		_ = p.command.Wait() // how it ends is its own matter
	}()
	for _, signal := range []syscall.Signal{syscall.SIGTERM, syscall.SIGKILL} {
		select {
		case <-done:
			return
		case <-time.After(endTime):
			logrus.Warnf("the program for logs %s does not end: %s", p.command.Path, signal)
			_ = p.command.Process.Signal(signal)
		}
	}
	<-done
}
