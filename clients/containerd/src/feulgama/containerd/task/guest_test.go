package task

import (
	"bufio"
	"encoding/hex"
	"encoding/json"
	"errors"
	"fmt"
	"net"
	"os"
	"path/filepath"
	"strings"
	"testing"
	"time"

	"github.com/containerd/containerd/api/types/task"
	"github.com/containerd/containerd/errdefs"
	"github.com/containerd/containerd/runtime"
	api "github.com/containerd/containerd/runtime/v2/task"
	"golang.org/x/sys/unix"

	"feulgama/containerd/door"
	"feulgama/containerd/fakeshim"
	"feulgama/containerd/serve"
	"feulgama/lines"
)

// debugger is the other end of a door.
type debugger struct {
	t          *testing.T
	connection net.Conn
	lines      *bufio.Reader
}

// attached goes in by the door of a container, and answers its first line.
func (s *tested) attached(id string) (*debugger, map[string]interface{}) {
	s.t.Helper()
	folder, err := os.Open(filepath.Join(s.folder, id))
	if err != nil {
		s.t.Fatal(err)
	}
	defer folder.Close()
	connection, err := net.Dial("unix", fmt.Sprintf("/proc/self/fd/%d/%s", folder.Fd(), door.Name))
	if err != nil {
		s.t.Fatal(err)
	}
	s.t.Cleanup(func() { connection.Close() })
	d := &debugger{s.t, connection, bufio.NewReader(connection)}
	return d, d.read()
}

func (d *debugger) read() map[string]interface{} {
	d.t.Helper()
	_ = d.connection.SetReadDeadline(time.Now().Add(time.Minute))
	line, err := d.lines.ReadBytes('\n')
	var answer map[string]interface{}
	if err == nil {
		err = json.Unmarshal(line, &answer)
	}
	if err != nil {
		d.t.Fatalf("%q: %v", line, err)
	}
	return answer
}

// ask answers the reply to a request, in short.
func (d *debugger) ask(request string) string {
	d.t.Helper()
	if _, err := d.connection.Write([]byte(request + "\n")); err != nil {
		d.t.Fatal(err)
	}
	reply := d.read()
	if reply["ok"] != true {
		return fmt.Sprint(reply["error"])
	}
	return fmt.Sprint(reply["status"], " ", reply["n"])
}

func (s *tested) status(id string) task.Status {
	state, err := s.State(background, &api.StateRequest{ID: id})
	if err != nil {
		s.t.Fatal(err)
	}
	return state.Status
}

func TestADebuggerFromAttachToLeave(t *testing.T) {
	s := newShim(t)
	s.run("one", fakeshim.Loop)
	d, first := s.attached("one")
	if first["ok"] != true || first["ran"] != true || first["container"] != "one" || first["protocol"] != 1.0 ||
		first["module"] != hex.EncodeToString([]byte(fakeshim.Loop)) || first["original"] != nil {
		t.Errorf("%v", first)
	}
	if state := first["state"].(map[string]interface{}); state["status"] != "paused" || state["n"] != 3.0 {
		t.Errorf("%v", state)
	}
	var config struct{ Annotations map[string]string }
	if err := json.Unmarshal([]byte(first["config"].(string)), &config); err != nil || config.Annotations["dev.shim.module"] == "" {
		t.Errorf("%v, %v", first["config"], err)
	}
	if s.status("one") != task.StatusPaused {
		t.Errorf("it is %v while a debugger is attached", s.status("one"))
	}
	for _, c := range [][2]string{
		{`{"op":"step","id":"other","count":2}`, "paused 5"},
		{`{"op":"state","id":"one"}`, "paused 5"},
		{`{"op":"break","id":"one","func":1,"place":2}`, "<nil> <nil>"},
		{`{"op":"resume","id":"one"}`, "paused 5"}, // the fake meets the breakpoint at once
		{`{"op":"unbreak","id":"one","func":9,"place":2}`, "NotFound"},
		{`{"op":"kill","id":"one","signal":9}`, "BadRequest"},
		{`{"op":"delete","id":"one"}`, "BadRequest"},
		{`{"op":"put","hex":""}`, "BadRequest"},
		{`what`, "BadRequest"},
	} {
		if got := d.ask(c[0]); got != c[1] {
			t.Errorf("%s is answered %s, and not %s", c[0], got, c[1])
		}
	}
	d.connection.Close()
	s.free("one")
	if s.status("one") != task.StatusRunning {
		t.Errorf("it is %v afterwards", s.status("one"))
	}
	topics, _ := s.events.all()
	if told := strings.Join(topics, " "); told != "/tasks/create /tasks/start /tasks/paused /tasks/resumed" {
		t.Error(told)
	}
}

// The breakpoints of a debugger that is gone would stop the container, and nobody would resume it.
func TestADebuggerLeavesNoBreakpoint(t *testing.T) {
	s := newShim(t)
	c := s.run("one", fakeshim.Loop)
	d, _ := s.attached("one")
	d.ask(`{"op":"break","func":1,"place":2}`)
	d.ask(`{"op":"resume"}`)
	d.connection.Close()
	s.free("one")
	reply, err := c.process.Ask(lines.Of(lines.State, "one"))
	if err != nil || reply.Status != lines.Running {
		t.Errorf("%+v, %v", reply, err)
	}
}

func TestAPausedContainerStaysPaused(t *testing.T) {
	s := newShim(t)
	s.run("one", fakeshim.Loop)
	if _, err := s.Pause(background, &api.PauseRequest{ID: "one"}); err != nil {
		t.Fatal(err)
	}
	d, first := s.attached("one")
	if first["ran"] != false {
		t.Errorf("%v", first)
	}
	d.ask(`{"op":"resume"}`)
	d.connection.Close()
	s.free("one")
	if s.status("one") != task.StatusPaused {
		t.Errorf("it is %v", s.status("one"))
	}
}

// free waits until no debugger is attached.
func (s *tested) free(id string) {
	c := s.units[id].(*container)
	until(s.t, "the debugger has left", func() bool {
		c.mu.Lock()
		defer c.mu.Unlock()
		return c.guest == nil
	})
}

func TestWhoIsNotLetIn(t *testing.T) {
	s := newShim(t)
	if err := s.create("new", fakeshim.Loop); err != nil {
		t.Fatal(err)
	}
	c := s.run("one", fakeshim.Loop)
	first, _ := s.attached("one")
	for id, want := range map[string]string{"new": "it was not started yet", "one": "another debugger is attached to it"} {
		if _, answer := s.attached(id); answer["ok"] != false || answer["error"] != want {
			t.Errorf("%s: %v", id, answer)
		}
	}
	if got := first.ask(`{"op":"state"}`); got != "paused 3" {
		t.Errorf("the first one is answered %s", got)
	}
	c.process.Spend(c.process.Left() - serve.ForDebuggers + 1)
	if got := first.ask(`{"op":"state"}`); got != "JournalFull" {
		t.Errorf("with few requests left it is answered %s", got)
	}
	first.connection.Close()
	s.free("one")
	if s.status("one") != task.StatusRunning {
		t.Errorf("with few requests left it is %v afterwards", s.status("one"))
	}
	if _, answer := s.attached("one"); !strings.Contains(fmt.Sprint(answer["error"]), "nearly all the requests") {
		t.Errorf("%v", answer)
	}
}

func TestWhatADebuggerDecides(t *testing.T) {
	s := newShim(t)
	s.run("one", fakeshim.Loop)
	d, _ := s.attached("one")
	_, pause := s.Pause(background, &api.PauseRequest{ID: "one"})
	_, resume := s.Resume(background, &api.ResumeRequest{ID: "one"})
	for _, err := range []error{pause, resume} {
		is(t, err, errdefs.ErrFailedPrecondition)
	}
	if text, status := s.looked("one", "state"); text != "paused, after 3 instructions\n" || status != 0 {
		t.Errorf("%q, %d", text, status)
	}
	if got := d.ask(`{"op":"resume"}`); got != "running 3" {
		t.Error(got)
	}
	os.Remove(s.log("look"))
	if text, status := s.looked("one", "state"); text != "running, after 3 instructions\n" || status != 0 {
		t.Errorf("%q, %d", text, status)
	}
	if got := d.ask(`{"op":"state"}`); got != "running 3" {
		t.Errorf("after a look it is %s", got)
	}
}

func TestALookFindsABreakpoint(t *testing.T) {
	s := newShim(t)
	c := s.run("one", fakeshim.Loop)
	d, _ := s.attached("one")
	d.ask(`{"op":"break","func":0,"place":1}`) // where the fake always is
	d.ask(`{"op":"resume"}`)
	c.mu.Lock()
	found := c.guest.isAtBreakpoint()
	c.mu.Unlock()
	if !found {
		t.Error("the breakpoint is not seen")
	}
	if text, _ := s.looked("one", "state"); text != "paused, after 3 instructions\n" {
		t.Errorf("%q", text)
	}
}

func TestADebuggerMakesTheLastStep(t *testing.T) {
	s := newShim(t)
	s.run("one", fakeshim.Loop)
	d, _ := s.attached("one")
	for turns := 0; turns < fakeshim.StepsToTheEnd; turns += 1000 {
		d.ask(`{"op":"step","count":1000}`)
	}
	if status := s.wait("one"); status != 7 {
		t.Errorf("exit status %d", status)
	}
	end := d.read()["ended"].(map[string]interface{})
	if end["status"] != "stopped" || end["exit"] != 7.0 || end["n"] != 5003.0 || end["cause"] != "exit" || end["trap"] != nil {
		t.Errorf("%v", end)
	}
	if got := d.ask(`{"op":"state"}`); got != "stopped 5003" {
		t.Error(got)
	}
	if _, err := s.delete("one"); err != nil {
		t.Error(err)
	}
	if _, err := d.lines.ReadByte(); err == nil {
		t.Error("the debugger of a container that was removed is still attached")
	}
}

func TestAContainerThatHasEndedIsShown(t *testing.T) {
	s := newShim(t)
	s.run("one", fakeshim.Hello)
	s.wait("one")
	d, first := s.attached("one")
	if state := first["state"].(map[string]interface{}); first["ran"] != false || state["status"] != "stopped" || state["exit"] != 7.0 {
		t.Errorf("%v", first)
	}
	d.connection.Close()
	s.free("one")
	if _, exits := s.events.all(); len(exits) != 1 {
		t.Errorf("the exit is told %d times", len(exits))
	}
}

func TestAKillIsHeardWhileADebuggerIsAttached(t *testing.T) {
	s := newShim(t)
	s.run("one", fakeshim.Loop)
	d, _ := s.attached("one")
	if err := s.signal("one", uint32(unix.SIGTERM)); err != nil {
		t.Error(err)
	}
	if status := s.wait("one"); status != 143 {
		t.Errorf("exit status %d", status)
	}
	if end := d.read()["ended"].(map[string]interface{}); end["signal"] != 15.0 || end["cause"] != "kill" {
		t.Errorf("%v", end)
	}
}

// atPause is told of events, and does something when it is told of a pause.
type atPause struct {
	*told
	do func()
}

func (a atPause) Tell(topic string, event interface{}) {
	a.told.Tell(topic, event)
	if topic == runtime.TaskPausedEventTopic {
		a.do()
	}
}

// A debugger reads what the container is before it reads how it has ended, which may be told in the same moment.
func TestTheEndIsToldAfterTheFirstLine(t *testing.T) {
	s := newShim(t)
	c := s.run("one", fakeshim.Loop)
	c.mu.Lock()
	c.module = make([]byte, 1<<20) // so that the first line takes its time
	c.events = atPause{s.events, func() { go c.tellGuest(lines.Reply{Status: lines.Stopped, Cause: "exit", Exit: 7}) }}
	c.mu.Unlock()
	d, first := s.attached("one")
	if first["ok"] != true || first["container"] != "one" {
		t.Errorf("the first line has %d keys, and ok is %v", len(first), first["ok"])
	}
	if end, ok := d.read()["ended"].(map[string]interface{}); !ok || end["exit"] != 7.0 {
		t.Errorf("%v", end)
	}
}

func TestAContainerThatIsRemovedHasNoDoor(t *testing.T) {
	s := newShim(t)
	s.run("one", fakeshim.Hello)
	s.wait("one")
	if _, err := s.delete("one"); err != nil {
		t.Fatal(err)
	}
	if _, err := os.Stat(filepath.Join(s.folder, "one", door.Name)); !errors.Is(err, os.ErrNotExist) {
		t.Errorf("the socket is left: %v", err)
	}
}
