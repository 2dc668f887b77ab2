package task

import (
	"context"

	"github.com/containerd/containerd/api/types/task"
	"github.com/containerd/containerd/errdefs"
	api "github.com/containerd/containerd/runtime/v2/task"
	"github.com/containerd/typeurl"
	"github.com/gogo/protobuf/types"
)

// unit is a container of a module, or the sandbox of a pod.
type unit interface {
	pid() uint32
	start() error
	state() *api.StateResponse
	kill(signal uint32) error
	pause() error
	resume() error
	// remove ends what is left, and lets go of all that the container has.
	remove() error
	ended() *ending
	stats() (interface{}, error)
	addLook(r *api.ExecProcessRequest) error
	look(id string) (*looking, error)
	removeLook(id string) error
}

// Create makes a container. A module or a config that wasm-shim refuses fails here.
func (s *Service) Create(ctx context.Context, r *api.CreateTaskRequest) (*api.CreateTaskResponse, error) {
	if r.Checkpoint != "" {
		return nil, missing("checkpoints")
	}
	if err := s.reserve(r.ID); err != nil {
		return nil, err
	}
	made, err := s.create(ctx, r)
	if err != nil {
		s.free(r.ID)
		return nil, failed("create", err)
	}
	return &api.CreateTaskResponse{Pid: made.pid()}, nil
}

// Start starts a container, or a look into it.
func (s *Service) Start(_ context.Context, r *api.StartRequest) (*api.StartResponse, error) {
	found, err := s.find(r.ID)
	if err != nil {
		return nil, err
	}
	if r.ExecID != "" {
		look, err := found.look(r.ExecID)
		if err == nil {
			err = look.start()
		}
		if err != nil {
			return nil, failed("start", err)
		}
	} else if err := found.start(); err != nil {
		return nil, failed("start", err)
	}
	return &api.StartResponse{Pid: found.pid()}, nil
}

// State answers what a container or a look is doing.
func (s *Service) State(_ context.Context, r *api.StateRequest) (*api.StateResponse, error) {
	found, err := s.find(r.ID)
	if err != nil {
		return nil, err
	}
	if r.ExecID == "" {
		return found.state(), nil
	}
	look, err := found.look(r.ExecID)
	if err != nil {
		return nil, failed("state", err)
	}
	return look.state(), nil
}

// Wait answers when a container or a look has ended.
func (s *Service) Wait(ctx context.Context, r *api.WaitRequest) (*api.WaitResponse, error) {
	found, err := s.find(r.ID)
	if err != nil {
		return nil, err
	}
	end := found.ended()
	if r.ExecID != "" {
		look, err := found.look(r.ExecID)
		if err != nil {
			return nil, failed("wait", err)
		}
		end = look.end
	}
	select {
	case <-end.done:
		return &api.WaitResponse{ExitStatus: end.status, ExitedAt: end.at}, nil
	case <-ctx.Done():
		return nil, errdefs.ToGRPC(ctx.Err())
	}
}

// Kill ends a container by a signal. A look ends by itself.
func (s *Service) Kill(_ context.Context, r *api.KillRequest) (*types.Empty, error) {
	found, err := s.find(r.ID)
	if err != nil {
		return nil, err
	}
	if r.ExecID != "" {
		_, err = found.look(r.ExecID)
	} else {
		err = found.kill(r.Signal)
	}
	if err != nil {
		return nil, failed("kill", err)
	}
	return empty, nil
}

// Pause lets a container stand still.
func (s *Service) Pause(_ context.Context, r *api.PauseRequest) (*types.Empty, error) {
	found, err := s.find(r.ID)
	if err != nil {
		return nil, err
	}
	if err := found.pause(); err != nil {
		return nil, failed("pause", err)
	}
	return empty, nil
}

// Resume lets a container go on.
func (s *Service) Resume(_ context.Context, r *api.ResumeRequest) (*types.Empty, error) {
	found, err := s.find(r.ID)
	if err != nil {
		return nil, err
	}
	if err := found.resume(); err != nil {
		return nil, failed("resume", err)
	}
	return empty, nil
}

// Delete removes a container that has ended, or a look.
func (s *Service) Delete(_ context.Context, r *api.DeleteRequest) (*api.DeleteResponse, error) {
	find := s.release
	if r.ExecID != "" {
		find = s.find
	}
	found, err := find(r.ID)
	if err != nil {
		return nil, err
	}
	answer := &api.DeleteResponse{Pid: found.pid()}
	end := found.ended()
	if r.ExecID != "" {
		look, err := found.look(r.ExecID)
		if err == nil {
			err = found.removeLook(r.ExecID)
		}
		if err != nil {
			return nil, failed("delete", err)
		}
		end = look.end
	} else {
		if err := found.remove(); err != nil {
			return nil, failed("delete", err)
		}
		s.free(r.ID)
	}
	answer.ExitStatus, answer.ExitedAt = end.told()
	return answer, nil
}

// Pids answers the processes of a container: the one that runs its module.
func (s *Service) Pids(_ context.Context, r *api.PidsRequest) (*api.PidsResponse, error) {
	found, err := s.find(r.ID)
	if err != nil {
		return nil, err
	}
	return &api.PidsResponse{Processes: []*task.ProcessInfo{{Pid: found.pid()}}}, nil
}

// Stats answers the metrics of a container's cgroup.
func (s *Service) Stats(_ context.Context, r *api.StatsRequest) (*api.StatsResponse, error) {
	found, err := s.find(r.ID)
	if err != nil {
		return nil, err
	}
	metrics, err := found.stats()
	if err != nil {
		return nil, failed("stats", err)
	}
	value, err := typeurl.MarshalAny(metrics)
	if err != nil {
		return nil, failed("stats", err)
	}
	return &api.StatsResponse{Stats: value}, nil
}

// Exec prepares a look into a container.
func (s *Service) Exec(_ context.Context, r *api.ExecProcessRequest) (*types.Empty, error) {
	found, err := s.find(r.ID)
	if err != nil {
		return nil, err
	}
	if err := found.addLook(r); err != nil {
		return nil, failed("exec", err)
	}
	return empty, nil
}
