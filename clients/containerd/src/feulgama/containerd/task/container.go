package task

import (
	"errors"
	"fmt"
	"sync"
	"time"

	events "github.com/containerd/containerd/api/events"
	"github.com/containerd/containerd/api/types/task"
	"github.com/containerd/containerd/errdefs"
	"github.com/containerd/containerd/runtime"
	api "github.com/containerd/containerd/runtime/v2/task"
	"github.com/sirupsen/logrus"

	"feulgama/containerd/door"
	"feulgama/containerd/group"
	"feulgama/containerd/output"
	"feulgama/containerd/remains"
	"feulgama/containerd/serve"
	"feulgama/lines"
)

// How long wasm-shim may take before it is killed itself.
var (
	killTime = 10 * time.Second // to end a task by SIGKILL
	loadTime = 5 * time.Minute  // to make a task, also with few processors
)

// container is a container of a module, with the process that runs it.
type container struct {
	request   *api.CreateTaskRequest
	namespace string
	events    Teller
	task      string // its id in wasm-shim
	module    []byte
	original  []byte // that of the image, if it was lowered
	config    []byte // as wasm-shim has it
	process   *serve.Process
	door      *door.Door
	group     group.Group
	streams   *output.Streams
	record    remains.Record
	wakes     chan struct{} // has one entry if there may be something to wait for
	end       *ending

	mu     sync.Mutex // held while requests are asked that belong together
	status string     // what wasm-shim has told last
	looks  map[string]*looking
	guest  *guest // the debugger that is attached
}

var statuses = map[string]task.Status{
	lines.Created: task.StatusCreated, lines.Running: task.StatusRunning, lines.Pausing: task.StatusPausing,
	lines.Paused: task.StatusPaused, lines.Stopped: task.StatusStopped,
}

func (c *container) pid() uint32 { return uint32(c.process.PID()) }

func (c *container) ended() *ending { return c.end }

func (c *container) start() error {
	c.mu.Lock()
	defer c.mu.Unlock()
	if err := c.allows(lines.Created); err != nil {
		return err
	}
	if _, err := c.process.Ask(lines.Of(lines.Start, c.task)); err != nil {
		return c.fault(err)
	}
	// Also a task that has ended at once runs until its end is told.
	c.status = lines.Running
	c.events.Tell(runtime.TaskStartEventTopic, &events.TaskStart{ContainerID: c.request.ID, Pid: c.pid()})
	c.wake()
	if c.streams.Wanted() {
		go c.copyWhileItRuns()
	}
	return nil
}

// allows refuses what only a container with a status can do. wasm-shim would refuse it too, but each refusal takes a request,
// and a container that has none left is ended. Of one that has ended wasm-shim says more. Whoever calls it holds mu.
func (c *container) allows(status string) error {
	if c.status == status || c.status == lines.Stopped {
		return nil
	}
	return fmt.Errorf("the container is %s, and not %s: %w", c.status, status, errdefs.ErrFailedPrecondition)
}

func (c *container) state() *api.StateResponse {
	c.mu.Lock()
	defer c.mu.Unlock()
	answer := stateOf(c.request)
	answer.Pid, answer.Status = c.pid(), statuses[c.status]
	answer.ExitStatus, answer.ExitedAt = c.end.told()
	return answer
}

// stateOf is what a request to create has told already.
func stateOf(r *api.CreateTaskRequest) *api.StateResponse {
	return &api.StateResponse{
		ID: r.ID, Bundle: r.Bundle, Stdin: r.Stdin, Stdout: r.Stdout, Stderr: r.Stderr, Terminal: r.Terminal,
	}
}

func (c *container) kill(signal uint32) error {
	by, ends := ending9or15(signal)
	if c.end.is() {
		return fmt.Errorf("the container has ended: %w", errdefs.ErrNotFound)
	}
	if !ends {
		return nil
	}
	if by == lines.SIGKILL {
		// The last resort, if wasm-shim itself does not do what it is told.
		time.AfterFunc(killTime, func() {
			if !c.end.is() {
				c.process.Kill()
			}
		})
	}
	c.mu.Lock()
	defer c.mu.Unlock()
	_, err := c.process.Ask(lines.Kill(c.task, by))
	switch {
	case err == nil:
		c.wake()
		return nil
	case lines.IsRefused(err, lines.JournalFull):
		c.process.Kill()
		return nil
	case lines.IsRefused(err, lines.WrongStatus), errors.Is(err, serve.ErrEnded):
		return fmt.Errorf("the container has ended: %w", errdefs.ErrNotFound)
	}
	return err
}

func (c *container) pause() error {
	c.mu.Lock()
	defer c.mu.Unlock()
	if c.guest != nil {
		return errAttached
	}
	if c.process.Left() < serve.ForPauses {
		return errFewLeft
	}
	status, err := c.halt()
	if err != nil {
		return c.fault(err)
	}
	if status == lines.Stopped {
		return fmt.Errorf("the container has ended: %w", errdefs.ErrFailedPrecondition)
	}
	c.status = lines.Paused
	c.copyNow()
	c.events.Tell(runtime.TaskPausedEventTopic, &events.TaskPaused{ContainerID: c.request.ID})
	return nil
}

func (c *container) resume() error {
	c.mu.Lock()
	defer c.mu.Unlock()
	if c.guest != nil {
		return errAttached
	}
	if err := c.allows(lines.Paused); err != nil {
		return err
	}
	if _, err := c.process.Ask(lines.Of(lines.Resume, c.task)); err != nil {
		return c.fault(err)
	}
	c.status = lines.Running
	c.wake()
	c.events.Tell(runtime.TaskResumedEventTopic, &events.TaskResumed{ContainerID: c.request.ID})
	return nil
}

func (c *container) stats() (interface{}, error) {
	return c.group.Stats()
}

func (c *container) remove() error {
	if err := c.endIfCreated(); err != nil {
		return err
	}
	c.mu.Lock()
	defer c.mu.Unlock()
	if _, err := c.process.Ask(lines.Of(lines.Delete, c.task)); err != nil {
		logrus.WithError(err).Debug("delete a task whose process ends")
	}
	c.letGo()
	c.events.Tell(runtime.TaskDeleteEventTopic, &events.TaskDelete{
		ContainerID: c.request.ID, Pid: c.pid(), ExitStatus: c.end.status, ExitedAt: c.end.at,
	})
	return nil
}

// endIfCreated kills a task that was not started, and refuses one that runs.
func (c *container) endIfCreated() error {
	if c.end.is() {
		return nil
	}
	c.mu.Lock()
	status := c.status
	c.mu.Unlock()
	if status != lines.Created {
		return fmt.Errorf("the container has not ended: %w", errdefs.ErrFailedPrecondition)
	}
	if err := c.kill(lines.SIGKILL); err != nil && !errdefs.IsNotFound(err) {
		return err
	}
	<-c.end.done
	return nil
}

// letGo ends the process, and gives back all that the container has on the machine.
func (c *container) letGo() {
	if c.door != nil {
		c.door.Close()
	}
	if c.guest != nil {
		c.guest.connection.Close()
	}
	if c.process != nil {
		c.process.Kill()
		<-c.process.Ended()
	}
	if c.streams != nil {
		c.streams.Close()
	}
	for _, look := range c.looks {
		look.cancel()
		look.streams.Close()
	}
	if c.group != nil {
		if err := c.group.Delete(); err != nil {
			logrus.WithError(err).Warn("remove the cgroup of a container")
			return // the call `delete` tries it once more
		}
	}
	remains.Forget(c.request.Bundle)
}

var errAttached = fmt.Errorf("a debugger is attached, and lets the container run or stand still: %w", errdefs.ErrFailedPrecondition)

var errFewLeft = fmt.Errorf("wasm-shim has answered nearly all the requests that it can: %w", errdefs.ErrUnavailable)

// fault is an error of a request. A task that has ended is not what containerd takes it for.
func (c *container) fault(err error) error {
	if errors.Is(err, serve.ErrEnded) {
		status := c.process.Status() // after which it has said all
		return fmt.Errorf("%v with status %d: %s: %w", err, status, c.process.Said(), errdefs.ErrFailedPrecondition)
	}
	return err
}
