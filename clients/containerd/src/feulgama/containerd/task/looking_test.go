package task

import (
	"context"
	"encoding/json"
	"os"
	"path/filepath"
	"strings"
	"testing"
	"time"

	"github.com/containerd/containerd/api/types/task"
	"github.com/containerd/containerd/errdefs"
	api "github.com/containerd/containerd/runtime/v2/task"
	"github.com/gogo/protobuf/types"
	specs "github.com/opencontainers/runtime-spec/specs-go"

	"feulgama/containerd/fakeshim"
)

// lookAt is the request for a look.
func lookAt(id, exec string, words ...string) *api.ExecProcessRequest {
	text, _ := json.Marshal(specs.Process{Args: words})
	return &api.ExecProcessRequest{ID: id, ExecID: exec, Spec: &types.Any{Value: text}}
}

// looked answers the text and the status of a look, from exec to delete.
func (s *tested) looked(id string, words ...string) (string, uint32) {
	s.t.Helper()
	request := lookAt(id, "x", words...)
	request.Stdout = "file://" + s.log("look")
	request.Stderr = request.Stdout
	if _, err := s.Exec(background, request); err != nil {
		s.t.Fatal(err)
	}
	_, err := s.Exec(background, request)
	is(s.t, err, errdefs.ErrAlreadyExists)
	if _, err := s.Start(background, &api.StartRequest{ID: id, ExecID: "x"}); err != nil {
		s.t.Fatal(err)
	}
	limited, cancel := context.WithTimeout(background, time.Minute)
	defer cancel()
	answer, err := s.Wait(limited, &api.WaitRequest{ID: id, ExecID: "x"})
	if err != nil {
		s.t.Fatal(err)
	}
	until(s.t, "its status", func() bool {
		state, err := s.State(background, &api.StateRequest{ID: id, ExecID: "x"})
		return err == nil && state.Status == task.StatusStopped
	})
	deleted, err := s.Delete(background, &api.DeleteRequest{ID: id, ExecID: "x"})
	if err != nil || deleted.ExitStatus != answer.ExitStatus {
		s.t.Errorf("%v, %v", deleted, err)
	}
	return s.written("look"), answer.ExitStatus
}

func TestALookIntoARunningContainer(t *testing.T) {
	s := newShim(t)
	s.run("one", fakeshim.Loop)
	text, status := s.looked("one", "inspect")
	want := "running, after 3 instructions\n#0 func0, function 0, at instruction 1\n    local0 = 5 (i64)\n"
	if text != want || status != 0 {
		t.Errorf("%q, status %d", text, status)
	}
	if state, _ := s.State(background, &api.StateRequest{ID: "one"}); state.Status != task.StatusRunning {
		t.Errorf("it does not run on: %v", state)
	}
	topics, exits := s.events.all()
	if last := topics[len(topics)-3:]; strings.Join(last, " ") != "/tasks/exec-added /tasks/exec-started /tasks/exit" {
		t.Errorf("%v", topics)
	}
	if exits[0].ID != "x" || exits[0].ContainerID != "one" {
		t.Errorf("%+v", exits[0])
	}
}

// A container that is removed closes what a look holds that was never started.
func TestALookThatIsNeverStarted(t *testing.T) {
	s := newShim(t)
	s.run("one", fakeshim.Loop)
	request := lookAt("one", "x", "state")
	request.Stdout = "file://" + s.log("look")
	if _, err := s.Exec(background, request); err != nil {
		t.Fatal(err)
	}
	if held(s.log("look")) != 1 {
		t.Fatal("the look has no file")
	}
	if err := s.signal("one", 9); err != nil {
		t.Fatal(err)
	}
	s.wait("one")
	if _, err := s.delete("one"); err != nil {
		t.Fatal(err)
	}
	if count := held(s.log("look")); count != 0 {
		t.Errorf("%d descriptors of its file are left", count)
	}
}

// waiting is a context that tells when somebody waits for its end too.
type waiting struct {
	context.Context
	begun chan struct{}
}

func (w waiting) Done() <-chan struct{} {
	close(w.begun)
	return w.Context.Done()
}

// waited waits for a look beside the test, and returns once it does. The channel gets the status.
func (s *tested) waited(id, exec string) <-chan uint32 {
	s.t.Helper()
	limited, cancel := context.WithTimeout(background, time.Minute)
	begun, status := make(chan struct{}), make(chan uint32, 1)
	go func() {
		defer cancel()
		defer close(status)
		answer, err := s.Wait(waiting{limited, begun}, &api.WaitRequest{ID: id, ExecID: exec})
		if err != nil {
			s.t.Errorf("wait for %s: %v", exec, err)
			return
		}
		status <- answer.ExitStatus
	}()
	select {
	case <-begun:
	case <-status:
	}
	return status
}

// Whoever waits for a look that is never started is answered when it is removed, and when its container is.
func TestAWaitForALookThatIsNeverStarted(t *testing.T) {
	s := newShim(t)
	s.run("one", fakeshim.Loop)
	for _, exec := range []string{"x", "y"} {
		if _, err := s.Exec(background, lookAt("one", exec, "state")); err != nil {
			t.Fatal(err)
		}
	}
	first, second := s.waited("one", "x"), s.waited("one", "y")
	deleted, err := s.Delete(background, &api.DeleteRequest{ID: "one", ExecID: "x"})
	if status := <-first; err != nil || status != 137 || deleted.ExitStatus != status {
		t.Errorf("%v, %v, status %d", deleted, err, status)
	}
	if err := s.signal("one", 9); err != nil {
		t.Fatal(err)
	}
	s.wait("one")
	if _, err := s.delete("one"); err != nil {
		t.Fatal(err)
	}
	if status := <-second; status != 137 {
		t.Errorf("status %d", status)
	}
}

// held is how many descriptors of this process are of a file.
func held(path string) int {
	count := 0
	descriptors, _ := filepath.Glob("/proc/self/fd/*")
	for _, one := range descriptors {
		if to, err := os.Readlink(one); err == nil && to == path {
			count++
		}
	}
	return count
}

func TestALookThatFails(t *testing.T) {
	s := newShim(t)
	s.run("one", fakeshim.Loop)
	if text, status := s.looked("one", "peek", "0", "3"); status != 1 || text != "4 bytes came in place of 3\n" {
		t.Errorf("%q, status %d", text, status)
	}
}

func TestASandbox(t *testing.T) {
	s := newShim(t)
	folder := s.bundle("pod", "", func(config map[string]interface{}) {
		config["annotations"] = map[string]string{"io.kubernetes.cri.container-type": "sandbox"}
	})
	if _, err := s.Create(background, &api.CreateTaskRequest{ID: "pod", Bundle: folder}); err != nil {
		t.Fatal(err)
	}
	if _, err := s.Start(background, &api.StartRequest{ID: "pod"}); err != nil {
		t.Fatal(err)
	}
	state, err := s.State(background, &api.StateRequest{ID: "pod"})
	if err != nil || state.Status != task.StatusRunning || state.Bundle != filepath.Join(s.folder, "pod") {
		t.Errorf("%+v, %v", state, err)
	}
	if _, err := s.Stats(background, &api.StatsRequest{ID: "pod"}); err != nil {
		t.Error(err)
	}
	_, err = s.delete("pod")
	is(t, err, errdefs.ErrFailedPrecondition)
	if err := s.signal("pod", 9); err != nil {
		t.Error(err)
	}
	if status := s.wait("pod"); status != 137 {
		t.Errorf("exit status %d", status)
	}
	is(t, s.signal("pod", 9), errdefs.ErrNotFound)
	if status, err := s.delete("pod"); status != 137 || err != nil {
		t.Errorf("deleted with %d, %v", status, err)
	}
}
