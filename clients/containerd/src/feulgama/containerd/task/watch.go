package task

import (
	"errors"
	"fmt"
	"time"

	events "github.com/containerd/containerd/api/events"
	"github.com/containerd/containerd/runtime"
	"github.com/sirupsen/logrus"

	"feulgama/containerd/remains"
	"feulgama/containerd/serve"
	"feulgama/lines"
)

// wake lets the watcher wait anew. Whoever has started, resumed or killed the task calls it.
func (c *container) wake() {
	select {
	case c.wakes <- struct{}{}:
	default:
	}
}

// watch tells the end of the task when it comes. A wait is also answered when the task is paused, and is asked again
// after the next wake.
func (c *container) watch() {
	for {
		select {
		case <-c.wakes:
		case <-c.process.Ended():
			c.lost()
			return
		}
		reply, err := c.process.Wait(lines.Of(lines.Wait, c.task))
		switch {
		case errors.Is(err, serve.ErrEnded):
			c.lost()
			return
		case err != nil:
			// Its end cannot be seen any more, so this is its end.
			logrus.WithError(err).Errorf("wait for %s", c.request.ID)
			c.process.Kill()
			c.lost()
			return
		case reply.Status == lines.Stopped:
			c.finish(reply)
			return
		}
	}
}

// finish brings the rest of the output to its readers, and then tells the end.
func (c *container) finish(reply lines.Reply) {
	all, err := c.outputs(c.process.AskLong)
	remark := remarks(all, reply)
	if err != nil {
		logrus.WithError(err).Errorf("read the output of %s", c.request.ID)
		remark += fmt.Sprintf("the rest of the output could not be read: %v\n", err)
	}
	c.streams.Finish(all, remark)
	c.tellGuest(reply) // before somebody can remove the container
	c.tellEnd(reply.Exit)
}

// remarks is what standard error says after the module, as that of `wasm-shim run` does.
func remarks(all map[int][]byte, reply lines.Reply) string {
	text := ""
	if reply.Cause == "trap" {
		text = "trap: " + reply.Trap + "\n"
	}
	for _, one := range []struct {
		stream int
		name   string
	}{{lines.Stdout, "standard output"}, {lines.Stderr, "standard error"}} {
		if len(all[one.stream]) >= lines.MostOutput {
			text += fmt.Sprintf("%s is full: %d bytes\n", one.name, lines.MostOutput)
		}
	}
	return text
}

// lost tells the end of a task whose process has ended.
func (c *container) lost() {
	status := c.process.Status()
	logrus.Errorf("the wasm-shim of %s ended with status %d: %s", c.request.ID, status, c.process.Said())
	if status == 0 {
		status = 255 // no task has ended well
	}
	c.streams.Finish(nil, "")
	c.tellEnd(status)
}

func (c *container) tellEnd(status uint32) {
	c.mu.Lock()
	defer c.mu.Unlock()
	c.status = lines.Stopped
	c.record.Exit, c.record.At = &status, time.Now()
	if err := remains.Write(c.request.Bundle, c.record); err != nil {
		logrus.WithError(err).Warn("keep the end of a container")
	}
	c.events.Tell(runtime.TaskExitEventTopic, &events.TaskExit{
		ContainerID: c.request.ID, ID: c.request.ID, Pid: c.pid(), ExitStatus: status, ExitedAt: c.record.At,
	})
	c.end.set(status, c.record.At)
}
