package task

import (
	"fmt"
	"os"
	"sync"
	"time"

	events "github.com/containerd/containerd/api/events"
	"github.com/containerd/containerd/api/types/task"
	"github.com/containerd/containerd/errdefs"
	"github.com/containerd/containerd/runtime"
	api "github.com/containerd/containerd/runtime/v2/task"

	"feulgama/containerd/group"
)

// sandbox is the container that a pod begins with. It runs nothing, until it is killed.
type sandbox struct {
	request *api.CreateTaskRequest
	events  Teller
	end     *ending
	mu      sync.Mutex
	status  task.Status
}

func newSandbox(r *api.CreateTaskRequest, events Teller) *sandbox {
	return &sandbox{request: r, events: events, end: newEnding(), status: task.StatusCreated}
}

// pid is that of the shim, because a sandbox has no process.
func (s *sandbox) pid() uint32 { return uint32(os.Getpid()) }

func (s *sandbox) ended() *ending { return s.end }

func (s *sandbox) start() error {
	s.mu.Lock()
	defer s.mu.Unlock()
	if s.status != task.StatusCreated {
		return fmt.Errorf("the sandbox was started before: %w", errdefs.ErrFailedPrecondition)
	}
	s.status = task.StatusRunning
	s.events.Tell(runtime.TaskStartEventTopic, &events.TaskStart{ContainerID: s.request.ID, Pid: s.pid()})
	return nil
}

func (s *sandbox) state() *api.StateResponse {
	s.mu.Lock()
	defer s.mu.Unlock()
	answer := stateOf(s.request)
	answer.Pid, answer.Status = s.pid(), s.status
	answer.ExitStatus, answer.ExitedAt = s.end.told()
	return answer
}

func (s *sandbox) kill(signal uint32) error {
	s.mu.Lock()
	defer s.mu.Unlock()
	if s.status == task.StatusStopped {
		return fmt.Errorf("the sandbox has ended: %w", errdefs.ErrNotFound)
	}
	by, ends := ending9or15(signal)
	if !ends {
		return nil
	}
	s.status = task.StatusStopped
	s.end.set(128+by, time.Now())
	s.events.Tell(runtime.TaskExitEventTopic, &events.TaskExit{
		ContainerID: s.request.ID, ID: s.request.ID, Pid: s.pid(), ExitStatus: s.end.status, ExitedAt: s.end.at,
	})
	return nil
}

func (s *sandbox) remove() error {
	s.mu.Lock()
	defer s.mu.Unlock()
	if s.status == task.StatusRunning {
		return fmt.Errorf("the sandbox runs: %w", errdefs.ErrFailedPrecondition)
	}
	s.end.set(0, time.Now())
	s.events.Tell(runtime.TaskDeleteEventTopic, &events.TaskDelete{
		ContainerID: s.request.ID, Pid: s.pid(), ExitStatus: s.end.status, ExitedAt: s.end.at,
	})
	return nil
}

func (s *sandbox) stats() (interface{}, error) { return group.Nothing(), nil }

func (s *sandbox) pause() error                          { return s.none("pause") }
func (s *sandbox) resume() error                         { return s.none("resume") }
func (s *sandbox) addLook(*api.ExecProcessRequest) error { return s.none("exec") }
func (s *sandbox) look(string) (*looking, error)         { return nil, s.none("exec") }
func (s *sandbox) removeLook(string) error               { return s.none("exec") }

func (s *sandbox) none(what string) error {
	return fmt.Errorf("the sandbox of a pod has no %s: %w", what, errdefs.ErrNotImplemented)
}
