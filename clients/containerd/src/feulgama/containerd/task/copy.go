package task

import (
	"errors"
	"fmt"
	"time"

	"github.com/sirupsen/logrus"

	"feulgama/containerd/serve"
	"feulgama/lines"
)

const (
	// firstCopy is the time from the start of a task to the first copy of its output, and between the next ones.
	firstCopy = 100 * time.Millisecond
	// part of the age of a task lies between two copies once it is older. So those of a year take 5,000 requests.
	part = 50
)

// copyWhileItRuns copies the output of a running task at growing distances.
func (c *container) copyWhileItRuns() {
	began := time.Now()
	for {
		distance := time.Since(began) / part
		if distance < firstCopy {
			distance = firstCopy
		}
		select {
		case <-c.end.done:
			return
		case <-time.After(distance):
		}
		c.mu.Lock()
		if c.status == lines.Running && c.guest == nil && c.process.Left() >= serve.ForCopies {
			if err := c.still(func(string) error { c.copyNow(); return nil }); err != nil {
				logrus.WithError(err).Debug("copy the output of a task")
			}
		}
		c.mu.Unlock()
	}
}

// copyNow copies the output of a task that stands still.
func (c *container) copyNow() {
	if c.process.Left() < serve.ForCopies {
		return
	}
	all, err := c.outputs(c.process.Ask)
	if err != nil {
		logrus.WithError(err).Debug("copy the output of a task")
	}
	for _, stream := range streams {
		c.streams.Deliver(stream, all[stream])
	}
}

// streams are those of a task, in the order in which they are written to a place that is one for both.
var streams = []int{lines.Stdout, lines.Stderr}

// outputs answers all that the task has written to the streams that somebody gets. One that cannot be read takes nothing away
// of the other, and the last error is answered.
func (c *container) outputs(ask func([]byte) (lines.Reply, error)) (map[int][]byte, error) {
	all := map[int][]byte{}
	var fault error
	for _, stream := range streams {
		if !c.streams.Takes(stream) {
			continue
		}
		reply, err := ask(lines.Output(c.task, stream))
		if err == nil {
			all[stream], err = reply.Bytes()
		}
		if err != nil {
			fault = err
		}
	}
	return all, fault
}

// halt pauses the task, waits until no slice of it is out, and answers what it is then: paused or stopped. If it fails,
// the task goes on. Whoever calls it holds mu.
func (c *container) halt() (string, error) {
	reply, err := c.process.Ask(lines.Of(lines.Pause, c.task))
	if err == nil && reply.Status == lines.Pausing {
		if reply, err = c.process.Ask(lines.Of(lines.Wait, c.task)); err != nil {
			_ = c.goOn() // the first error is the one to tell
			err = fmt.Errorf("wait until the task stands still: %w", err)
		}
	}
	return reply.Status, err
}

// goOn lets a task go on that stands still, or soon will. It is refused WrongStatus if the task has ended. A task that
// cannot go on is ended, because nobody would see that it stands still. Whoever calls it holds mu.
func (c *container) goOn() error {
	defer c.wake()
	_, err := c.process.Ask(lines.Of(lines.Resume, c.task))
	if lines.IsRefused(err, lines.WrongStatus) {
		err = c.goOnLater(err)
	}
	if err == nil || hasEnded(err) {
		return err
	}
	logrus.WithError(err).Errorf("let %s go on", c.request.ID)
	c.process.Kill()
	return fmt.Errorf("let the task go on: %w", err)
}

// goOnLater is goOn for a task that does not stand still. If a slice of it is out, it will once that is back.
func (c *container) goOnLater(refused error) error {
	reply, err := c.process.Ask(lines.Of(lines.State, c.task))
	if err == nil && reply.Status == lines.Pausing {
		reply, err = c.process.Ask(lines.Of(lines.Wait, c.task))
	}
	switch {
	case err != nil:
		return err
	case reply.Status == lines.Running:
		return nil
	case reply.Status == lines.Paused:
		_, err = c.process.Ask(lines.Of(lines.Resume, c.task))
		return err
	}
	return refused
}

// hasEnded tells whether a request has failed because the task has ended, as by a kill.
func hasEnded(err error) bool {
	return errors.Is(err, serve.ErrEnded) || lines.IsRefused(err, lines.WrongStatus)
}

// still calls look while the task stands still, with what it was doing before. Whoever calls it holds mu.
func (c *container) still(look func(status string) error) error {
	if c.status != lines.Running {
		return look(c.status)
	}
	status, err := c.halt()
	switch {
	case lines.IsRefused(err, lines.WrongStatus): // it has ended, or is at a breakpoint of a debugger
		reply, stateErr := c.process.Ask(lines.Of(lines.State, c.task))
		if stateErr != nil {
			return stateErr
		}
		if reply.Status != lines.Paused || c.guest != nil {
			return look(reply.Status)
		}
		// It stands still for nobody, and goes on below.
	case err != nil:
		return err
	case status == lines.Stopped:
		return look(lines.Stopped)
	case c.guest != nil && c.guest.isAtBreakpoint():
		c.status = lines.Paused // where the debugger will find it
		return look(lines.Paused)
	}
	err = look(lines.Running)
	if goErr := c.goOn(); err == nil && !hasEnded(goErr) {
		err = goErr
	}
	return err
}
