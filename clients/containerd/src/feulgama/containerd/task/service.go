// Package task answers containerd's requests for the containers of a shim. Each container has a `wasm-shim serve` of its
// own, which decides what a request may do: what is kept here is what that has answered.
package task

import (
	"context"
	"fmt"
	"os"
	"sync"
	"time"

	events "github.com/containerd/containerd/api/events"
	"github.com/containerd/containerd/errdefs"
	"github.com/containerd/containerd/pkg/shutdown"
	"github.com/containerd/containerd/runtime"
	api "github.com/containerd/containerd/runtime/v2/task"
	"github.com/containerd/ttrpc"
	"github.com/gogo/protobuf/types"
	specs "github.com/opencontainers/runtime-spec/specs-go"

	"feulgama/containerd/group"
)

var (
	_     api.TaskService = (*Service)(nil)
	empty                 = &types.Empty{}
)

// Teller tells containerd of an event.
type Teller interface {
	Tell(topic string, event interface{})
}

// Service is the shim's answer to requests.
type Service struct {
	namespace string
	events    Teller
	program   func() (string, error) // finds wasm-shim
	newGroup  func(string, *specs.LinuxResources) (group.Group, error)
	shutdown  shutdown.Service
	mu        sync.Mutex
	units     map[string]unit // nil while it is made
	givenUp   map[string]bool // those that were to be deleted while they were made
}

// idleTime is how long a shim stays without a container. containerd ends it before, unless it was killed meanwhile.
var idleTime = 20 * time.Second

// answerTime is how long a shim that is to end has for the answers to other requests.
var answerTime = 100 * time.Millisecond

// New makes the service of a shim.
func New(namespace string, events Teller, program func() (string, error), down shutdown.Service) *Service {
	s := &Service{namespace: namespace, events: events, program: program, newGroup: group.New, shutdown: down,
		units: map[string]unit{}, givenUp: map[string]bool{}}
	go s.endWhenIdle(idleTime / 2)
	return s
}

// endWhenIdle ends a shim that had no container at two looks.
func (s *Service) endWhenIdle(between time.Duration) {
	for empty := 0; empty < 2; {
		time.Sleep(between)
		if s.isEmpty() {
			empty++
		} else {
			empty = 0
		}
	}
	s.shutdown.Shutdown()
}

// RegisterTTRPC tells the server of requests who answers.
func (s *Service) RegisterTTRPC(server *ttrpc.Server) error {
	api.RegisterTaskService(server, s)
	return nil
}

// find answers the container of a request.
func (s *Service) find(id string) (unit, error) {
	s.mu.Lock()
	defer s.mu.Unlock()
	if found := s.units[id]; found != nil {
		return found, nil
	}
	return nil, errdefs.ToGRPCf(errdefs.ErrNotFound, "container %s", id)
}

// reserve takes an id for a container that is to be made.
func (s *Service) reserve(id string) error {
	s.mu.Lock()
	defer s.mu.Unlock()
	if _, there := s.units[id]; there {
		return errdefs.ToGRPCf(errdefs.ErrAlreadyExists, "container %s", id)
	}
	s.units[id] = nil
	return nil
}

// keep makes a container the one of its reserved id, and tells containerd. One that containerd has given up meanwhile is
// refused, since nobody would delete it.
func (s *Service) keep(ctx context.Context, r *api.CreateTaskRequest, made unit) error {
	s.mu.Lock()
	defer s.mu.Unlock()
	if err := ctx.Err(); err != nil {
		return fmt.Errorf("the request ended before the container was made: %w", err)
	}
	if s.givenUp[r.ID] {
		return fmt.Errorf("the container was deleted before it was made: %w", errdefs.ErrUnavailable)
	}
	s.units[r.ID] = made
	s.events.Tell(runtime.TaskCreateEventTopic, &events.TaskCreate{
		ContainerID: r.ID, Bundle: r.Bundle, Rootfs: r.Rootfs, Pid: made.pid(),
		IO: &events.TaskIO{Stdin: r.Stdin, Stdout: r.Stdout, Stderr: r.Stderr, Terminal: r.Terminal},
	})
	return nil
}

// free says that an id is no container's any more.
func (s *Service) free(id string) {
	s.mu.Lock()
	early := s.givenUp[id]
	delete(s.units, id)
	delete(s.givenUp, id)
	s.mu.Unlock()
	if early {
		s.endSoon() // containerd has asked for it when the container was still being made
	}
}

// release answers a container that is to be deleted. One that is still being made is not there, and will not be kept.
func (s *Service) release(id string) (unit, error) {
	s.mu.Lock()
	if found, there := s.units[id]; there && found == nil {
		s.givenUp[id] = true
	}
	s.mu.Unlock()
	return s.find(id)
}

// Connect answers the ids of processes.
func (s *Service) Connect(_ context.Context, r *api.ConnectRequest) (*api.ConnectResponse, error) {
	answer := &api.ConnectResponse{ShimPid: uint32(os.Getpid())}
	if found, err := s.find(r.ID); err == nil {
		answer.TaskPid = found.pid()
	}
	return answer, nil
}

// Shutdown ends the shim, unless it has containers. containerd may ask for it as soon as it has heard of an exit, so a
// request that made the container exit may not be answered yet.
func (s *Service) Shutdown(context.Context, *api.ShutdownRequest) (*types.Empty, error) {
	s.endSoon()
	return empty, nil
}

// endSoon ends a shim without containers, unless it gets one before.
func (s *Service) endSoon() {
	if s.isEmpty() {
		time.AfterFunc(answerTime, func() {
			if s.isEmpty() {
				s.shutdown.Shutdown()
			}
		})
	}
}

// isEmpty tells whether the shim has no container.
func (s *Service) isEmpty() bool {
	s.mu.Lock()
	defer s.mu.Unlock()
	return len(s.units) == 0
}

// Checkpoint is not there.
func (s *Service) Checkpoint(context.Context, *api.CheckpointTaskRequest) (*types.Empty, error) {
	return nil, missing("checkpoints")
}

// Update is not there: the limits of a module are those that it was created with.
func (s *Service) Update(context.Context, *api.UpdateTaskRequest) (*types.Empty, error) {
	return nil, missing("new limits for a container")
}

// CloseIO is not there, because a module has no standard input.
func (s *Service) CloseIO(context.Context, *api.CloseIORequest) (*types.Empty, error) {
	return nil, missing("standard input")
}

// ResizePty has nothing to do: a module does not know of a terminal.
func (s *Service) ResizePty(context.Context, *api.ResizePtyRequest) (*types.Empty, error) {
	return empty, nil
}

func missing(what string) error {
	return errdefs.ToGRPCf(errdefs.ErrNotImplemented, "a container of a module has no %s", what)
}

// failed is an error in containerd's words, after what was tried.
func failed(what string, err error) error {
	return errdefs.ToGRPC(fmt.Errorf("%s: %w", what, err))
}
