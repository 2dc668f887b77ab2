package task

import (
	"context"
	"encoding/json"
	"fmt"
	"os"
	"path/filepath"
	"sync"
	"testing"
	"time"

	events "github.com/containerd/containerd/api/events"
	api "github.com/containerd/containerd/runtime/v2/task"
	specs "github.com/opencontainers/runtime-spec/specs-go"

	"feulgama/containerd/fakeshim"
	"feulgama/containerd/group"
)

func TestMain(m *testing.M) {
	os.Exit(fakeshim.Run(m))
}

var background = context.Background()

// byTheClock passes over a test that a busy machine may fail, if the tests are to be short.
func byTheClock(t *testing.T) {
	t.Helper()
	if testing.Short() {
		t.Skip("goes by the clock")
	}
}

// told are the events that were told.
type told struct {
	mu     sync.Mutex
	topics []string
	exits  []*events.TaskExit
}

func (o *told) Tell(topic string, event interface{}) {
	o.mu.Lock()
	defer o.mu.Unlock()
	o.topics = append(o.topics, topic)
	if exit, ok := event.(*events.TaskExit); ok {
		o.exits = append(o.exits, exit)
	}
}

func (o *told) all() ([]string, []*events.TaskExit) {
	o.mu.Lock()
	defer o.mu.Unlock()
	return append([]string{}, o.topics...), append([]*events.TaskExit{}, o.exits...)
}

// down tells whether the shim was shut down.
type down struct {
	mu   sync.Mutex
	done bool
}

func (d *down) Shutdown() {
	d.mu.Lock()
	defer d.mu.Unlock()
	d.done = true
}

func (d *down) called() bool {
	d.mu.Lock()
	defer d.mu.Unlock()
	return d.done
}

func (d *down) RegisterCallback(func(context.Context) error) {}
func (d *down) Done() <-chan struct{}                        { return nil }
func (d *down) Err() error                                   { return nil }

// noGroup is a cgroup that does nothing, so that a test needs none.
type noGroup struct{}

func (noGroup) Add(int) error               { return nil }
func (noGroup) Stats() (interface{}, error) { return group.Nothing(), nil }
func (noGroup) Delete() error               { return nil }

// tested is a service with the fake.
type tested struct {
	*Service
	t      *testing.T
	events *told
	down   *down
	folder string
}

func newShim(t *testing.T) *tested {
	t.Helper()
	program := fakeshim.Program(t)
	s := &tested{t: t, events: &told{}, down: &down{}, folder: t.TempDir()}
	s.Service = New("here", s.events, func() (string, error) { return program, nil }, s.down)
	s.newGroup = func(string, *specs.LinuxResources) (group.Group, error) { return noGroup{}, nil }
	t.Cleanup(func() {
		for id := range s.units {
			_ = s.signal(id, 9) // most have ended
			s.wait(id)
			if _, err := s.delete(id); err != nil {
				t.Error(err)
			}
		}
	})
	return s
}

// bundle makes the folder of a container, whose module is a text of the fake.
func (s *tested) bundle(id, module string, change func(config map[string]interface{})) string {
	s.t.Helper()
	folder := filepath.Join(s.folder, id)
	config := map[string]interface{}{
		"ociVersion": "1.0.2", "root": map[string]interface{}{"path": "rootfs"},
		"process":     map[string]interface{}{"args": []string{"/m.wasm"}, "cwd": "/"},
		"annotations": map[string]interface{}{},
	}
	if change != nil {
		change(config)
	}
	text, err := json.Marshal(config)
	if err == nil {
		err = os.MkdirAll(filepath.Join(folder, "rootfs"), 0o755)
	}
	if err == nil {
		err = os.WriteFile(filepath.Join(folder, "config.json"), text, 0o644)
	}
	if err == nil {
		err = os.WriteFile(filepath.Join(folder, "rootfs", "m.wasm"), []byte(module), 0o644)
	}
	if err != nil {
		s.t.Fatal(err)
	}
	return folder
}

// create makes a container whose output goes to a file.
func (s *tested) create(id, module string) error {
	s.t.Helper()
	folder := s.bundle(id, module, nil)
	_, err := s.Create(background, &api.CreateTaskRequest{
		ID: id, Bundle: folder, Stdout: "file://" + s.log(id), Stderr: "file://" + s.log(id),
	})
	return err
}

func (s *tested) log(id string) string { return filepath.Join(s.folder, id+".log") }

func (s *tested) written(id string) string {
	text, err := os.ReadFile(s.log(id))
	if err != nil {
		s.t.Error(err)
	}
	return string(text)
}

// run makes and starts a container.
func (s *tested) run(id, module string) *container {
	s.t.Helper()
	if err := s.create(id, module); err != nil {
		s.t.Fatal(err)
	}
	if _, err := s.Start(background, &api.StartRequest{ID: id}); err != nil {
		s.t.Fatal(err)
	}
	return s.units[id].(*container)
}

// wait waits for the end of a container.
func (s *tested) wait(id string) uint32 {
	s.t.Helper()
	limited, cancel := context.WithTimeout(background, time.Minute)
	defer cancel()
	answer, err := s.Wait(limited, &api.WaitRequest{ID: id})
	if err != nil {
		s.t.Fatal(err)
	}
	return answer.ExitStatus
}

func (s *tested) signal(id string, signal uint32) error {
	_, err := s.Kill(background, &api.KillRequest{ID: id, Signal: signal})
	return err
}

func (s *tested) delete(id string) (uint32, error) {
	answer, err := s.Delete(background, &api.DeleteRequest{ID: id})
	if err != nil {
		return 0, err
	}
	return answer.ExitStatus, nil
}

// until waits until something is so.
func until(t *testing.T, what string, is func() bool) {
	t.Helper()
	for tries := 0; !is(); tries++ {
		if tries > 5000 {
			t.Fatal(fmt.Sprint(what, ": it does not come"))
		}
		time.Sleep(2 * time.Millisecond)
	}
}
