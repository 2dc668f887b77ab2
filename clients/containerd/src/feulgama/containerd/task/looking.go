package task

import (
	"encoding/json"
	"fmt"
	"sync"
	"time"

	events "github.com/containerd/containerd/api/events"
	"github.com/containerd/containerd/api/types/task"
	"github.com/containerd/containerd/errdefs"
	"github.com/containerd/containerd/runtime"
	api "github.com/containerd/containerd/runtime/v2/task"
	specs "github.com/opencontainers/runtime-spec/specs-go"

	"feulgama/containerd/look"
	"feulgama/containerd/output"
	"feulgama/containerd/serve"
	"feulgama/lines"
)

// looking is an exec in a container: a look at its module.
type looking struct {
	of      *container
	request *api.ExecProcessRequest
	at      *look.Look
	streams *output.Streams
	end     *ending
	mu      sync.Mutex
	status  task.Status
}

func (c *container) addLook(r *api.ExecProcessRequest) error {
	var wanted specs.Process
	if r.Spec == nil {
		return fmt.Errorf("the request has no process: %w", errdefs.ErrInvalidArgument)
	}
	if err := json.Unmarshal(r.Spec.Value, &wanted); err != nil {
		return fmt.Errorf("%v: %w", err, errdefs.ErrInvalidArgument)
	}
	at, err := look.Parse(wanted.Args)
	if err != nil {
		return fmt.Errorf("%v; what can be asked is %s: %w", err, look.Usage, errdefs.ErrNotImplemented)
	}
	c.mu.Lock()
	defer c.mu.Unlock()
	if c.process.Left() < serve.ForCopies {
		return errFewLeft
	}
	if _, there := c.looks[r.ExecID]; there {
		return fmt.Errorf("exec %s: %w", r.ExecID, errdefs.ErrAlreadyExists)
	}
	streams, err := output.Open(output.Wish{ID: r.ExecID, Namespace: c.namespace, Stdout: r.Stdout, Stderr: r.Stderr})
	if err != nil {
		return err
	}
	c.looks[r.ExecID] = &looking{
		of: c, request: r, at: at, streams: streams, end: newEnding(), status: task.StatusCreated,
	}
	c.events.Tell(runtime.TaskExecAddedEventTopic, &events.TaskExecAdded{ContainerID: c.request.ID, ExecID: r.ExecID})
	return nil
}

func (c *container) look(id string) (*looking, error) {
	c.mu.Lock()
	defer c.mu.Unlock()
	if found := c.looks[id]; found != nil {
		return found, nil
	}
	return nil, fmt.Errorf("exec %s: %w", id, errdefs.ErrNotFound)
}

func (c *container) removeLook(id string) error {
	found, err := c.look(id)
	if err != nil {
		return err
	}
	found.cancel()
	if found.state().Status == task.StatusRunning {
		return fmt.Errorf("exec %s has not ended: %w", id, errdefs.ErrFailedPrecondition)
	}
	found.streams.Close()
	c.mu.Lock()
	defer c.mu.Unlock()
	delete(c.looks, id)
	return nil
}

func (l *looking) start() error {
	l.mu.Lock()
	defer l.mu.Unlock()
	if l.status != task.StatusCreated {
		return fmt.Errorf("exec %s was started or removed before: %w", l.request.ExecID, errdefs.ErrFailedPrecondition)
	}
	l.status = task.StatusRunning
	l.of.events.Tell(runtime.TaskExecStartedEventTopic, &events.TaskExecStarted{
		ContainerID: l.of.request.ID, ExecID: l.request.ExecID, Pid: l.of.pid(),
	})
	go l.run()
	return nil
}

// cancel ends a look that was never started, since somebody may wait for it. Its status is that of a container that was never
// started. Any other look ends by itself.
func (l *looking) cancel() {
	l.mu.Lock()
	defer l.mu.Unlock()
	if l.status == task.StatusCreated {
		l.status = task.StatusStopped
		l.end.set(128+lines.SIGKILL, time.Now())
	}
}

func (l *looking) state() *api.StateResponse {
	l.mu.Lock()
	defer l.mu.Unlock()
	answer := &api.StateResponse{
		ID: l.request.ExecID, Bundle: l.of.request.Bundle, Pid: l.of.pid(), Status: l.status,
		Stdout: l.request.Stdout, Stderr: l.request.Stderr, Terminal: l.request.Terminal, ExecID: l.request.ExecID,
	}
	answer.ExitStatus, answer.ExitedAt = l.end.told()
	return answer
}

// run looks, and tells the end once the readers have the text.
func (l *looking) run() {
	text, err := l.text()
	status, written := uint32(0), map[int][]byte{lines.Stdout: []byte(text)}
	if err != nil {
		status = 1
		written[lines.Stderr] = []byte(err.Error() + "\n")
		if !l.streams.Takes(lines.Stderr) { // a terminal has one stream
			written[lines.Stdout] = append(written[lines.Stdout], written[lines.Stderr]...)
		}
	}
	l.streams.Finish(written, "")
	l.mu.Lock()
	defer l.mu.Unlock()
	l.status = task.StatusStopped
	at := time.Now()
	l.of.events.Tell(runtime.TaskExitEventTopic, &events.TaskExit{
		ContainerID: l.of.request.ID, ID: l.request.ExecID, Pid: l.of.pid(), ExitStatus: status, ExitedAt: at,
	})
	l.end.set(status, at)
}

func (l *looking) text() (text string, err error) {
	c := l.of
	names := look.NamesOf(c.module)
	c.mu.Lock()
	defer c.mu.Unlock()
	if c.process.Left() < serve.ForCopies {
		return "", errFewLeft
	}
	err = c.still(func(status string) error {
		text, err = l.at.At(look.Task{ID: c.task, Status: status, Names: names, Ask: c.process.Ask})
		return err
	})
	return text, err
}
