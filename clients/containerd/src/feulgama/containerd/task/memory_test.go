package task

import (
	"strings"
	"testing"

	"github.com/containerd/containerd/api/types/task"
	"github.com/containerd/containerd/errdefs"
	api "github.com/containerd/containerd/runtime/v2/task"

	"feulgama/containerd/fakeshim"
	"feulgama/lines"
)

// always is more requests than a test sends.
const always = 1 << 30

// quiet makes and starts a container whose output nobody wants. So nothing is asked that a test does not ask for.
func (s *tested) quiet(id, module string) *container {
	s.t.Helper()
	_, err := s.Create(background, &api.CreateTaskRequest{ID: id, Bundle: s.bundle(id, module, nil)})
	if err == nil {
		_, err = s.Start(background, &api.StartRequest{ID: id})
	}
	if err != nil {
		s.t.Fatal(err)
	}
	return s.units[id].(*container)
}

// pausedBy pauses a task without a wait, and says what it is said to be.
func (c *container) pausedBy(t *testing.T, status string) {
	t.Helper()
	c.mu.Lock()
	defer c.mu.Unlock()
	if _, err := c.process.Ask(lines.Of(lines.Pause, c.task)); err != nil {
		t.Fatal(err)
	}
	c.status = status
}

// runsOn waits until a task runs, and is said to.
func (s *tested) runsOn(id string) {
	s.t.Helper()
	c := s.units[id].(*container)
	until(s.t, "the task runs", func() bool {
		c.mu.Lock()
		defer c.mu.Unlock()
		reply, err := c.process.Ask(lines.Of(lines.State, c.task))
		return err == nil && reply.Status == lines.Running && c.status == lines.Running
	})
}

// isKilled checks that a task ends with its process, and that this is told once.
func (s *tested) isKilled(id string) {
	s.t.Helper()
	if status := s.wait(id); status != 137 {
		s.t.Errorf("exit status %d", status)
	}
	if _, exits := s.events.all(); len(exits) != 1 {
		s.t.Errorf("the exit is told %d times", len(exits))
	}
}

// Whichever request finds no memory after a pause, the task does not stand still.
func TestATaskRunsOnAfterALookWithoutMemory(t *testing.T) {
	for name, module := range map[string]string{
		"one wait":                fakeshim.Short("wait", 1),
		"each wait":               fakeshim.Short("wait", always),
		"waits, with a slice out": fakeshim.Short("wait", 40) + fakeshim.Slow,
		"one resume":              fakeshim.Short("resume", 1),
	} {
		t.Run(name, func(t *testing.T) {
			s := newShim(t)
			s.quiet("one", module)
			s.looked("one", "state")
			s.runsOn("one")
		})
	}
}

func TestATaskRunsOnAfterACopyWithoutMemory(t *testing.T) {
	s := newShim(t)
	s.run("one", fakeshim.Short("resume", 1))
	until(t, "output", func() bool { return s.written("one") == fakeshim.Written })
	s.runsOn("one")
}

func TestAPauseWithoutMemory(t *testing.T) {
	s := newShim(t)
	s.quiet("one", fakeshim.Short("wait", always))
	_, err := s.Pause(background, &api.PauseRequest{ID: "one"})
	is(t, err, errdefs.ErrUnavailable)
	s.runsOn("one")
}

// Nobody would see that such a task stands still.
func TestATaskThatCannotRunOnIsEnded(t *testing.T) {
	s := newShim(t)
	s.run("one", fakeshim.Short("resume", always)) // a copy of its output comes soon
	s.isKilled("one")

	s = newShim(t)
	s.quiet("one", fakeshim.Short("wait", always)+fakeshim.Slow)
	_, err := s.Pause(background, &api.PauseRequest{ID: "one"})
	is(t, err, errdefs.ErrUnavailable)
	s.isKilled("one")
}

func TestATaskThatStandsStillForNobodyRunsOn(t *testing.T) {
	s := newShim(t)
	s.quiet("one", fakeshim.Loop).pausedBy(t, lines.Running)
	if text, status := s.looked("one", "state"); text != "running, after 3 instructions\n" || status != 0 {
		t.Errorf("%q, %d", text, status)
	}
	s.runsOn("one")
}

func TestAWatchWithoutMemory(t *testing.T) {
	s := newShim(t)
	s.quiet("one", fakeshim.Short("watch", 3))
	if err := s.signal("one", 15); err != nil {
		t.Error(err)
	}
	if status := s.wait("one"); status != 143 {
		t.Errorf("exit status %d", status)
	}
}

// Nothing is held up at the end of a task, so its output is asked for as long as its end is waited for.
func TestTheLastOutputWithoutMemory(t *testing.T) {
	s := newShim(t)
	s.run("one", fakeshim.Short("output", 60))
	if err := s.signal("one", 15); err != nil {
		t.Error(err)
	}
	if status := s.wait("one"); status != 143 {
		t.Errorf("exit status %d", status)
	}
	if text := s.written("one"); text != fakeshim.Written {
		t.Errorf("written: %q", text)
	}
}

func TestADebuggerThatLeavesWithoutMemory(t *testing.T) {
	for name, c := range map[string]struct {
		module string
		ends   bool
	}{
		"one resume":   {fakeshim.Short("resume", 1), false},
		"each resume":  {fakeshim.Short("resume", always), true},
		"one unbreak":  {fakeshim.Short("unbreak", 1), false},
		"each unbreak": {fakeshim.Short("unbreak", always), true},
	} {
		t.Run(name, func(t *testing.T) {
			s := newShim(t)
			s.quiet("one", c.module)
			d, _ := s.attached("one")
			if got := d.ask(`{"op":"break","func":1,"place":2}`); got != "<nil> <nil>" {
				t.Errorf("the breakpoint is answered %s", got)
			}
			d.connection.Close()
			if c.ends {
				s.isKilled("one")
				return
			}
			s.free("one")
			s.runsOn("one")
			topics, _ := s.events.all()
			if told := strings.Join(topics, " "); told != "/tasks/create /tasks/start /tasks/paused /tasks/resumed" {
				t.Error(told)
			}
		})
	}
}

func TestADebuggerThatCannotPause(t *testing.T) {
	s := newShim(t)
	c := s.quiet("one", fakeshim.Short("wait", always))
	if _, answer := s.attached("one"); answer["ok"] != false || !strings.Contains(answer["error"].(string), "NoMemory") {
		t.Errorf("%v", answer)
	}
	s.runsOn("one")

	c.pausedBy(t, lines.Paused)
	d, _ := s.attached("one")
	for _, words := range [][2]string{{"resume", "running 3"}, {"pause", "NoMemory"}, {"state", "running 3"}} {
		if got := d.ask(`{"op":"` + words[0] + `"}`); got != words[1] {
			t.Errorf("%s is answered %s", words[0], got)
		}
	}
	if s.status("one") != task.StatusRunning {
		t.Errorf("it is %v", s.status("one"))
	}
	// A task of the fake that has a breakpoint meets it at once, so the fake does not know of this one.
	c.mu.Lock()
	c.guest.breaks[lines.Breakpoint{Func: 1, Place: 2}] = true
	c.mu.Unlock()
	d.connection.Close()
	s.isKilled("one")
}
