package task

import (
	"context"
	"encoding/hex"
	"encoding/json"
	"errors"
	"os"
	"path/filepath"
	"reflect"
	"strings"
	"syscall"
	"testing"
	"time"

	"github.com/containerd/containerd/api/types/task"
	"github.com/containerd/containerd/errdefs"
	api "github.com/containerd/containerd/runtime/v2/task"
	specs "github.com/opencontainers/runtime-spec/specs-go"

	"feulgama/containerd/fakeshim"
	"feulgama/containerd/group"
	"feulgama/containerd/remains"
	"feulgama/containerd/serve"
	"feulgama/lines"
	"feulgama/oci/programs"
)

// is tells whether an error, as it comes to containerd, is of a class.
func is(t *testing.T, err, class error) {
	t.Helper()
	if !errors.Is(errdefs.FromGRPC(err), class) {
		t.Errorf("%v, and not %v", err, class)
	}
}

func TestAContainerFromCreateToDelete(t *testing.T) {
	s := newShim(t)
	s.run("one", fakeshim.Hello)
	if status := s.wait("one"); status != 7 {
		t.Errorf("exit status %d", status)
	}
	if text := s.written("one"); text != fakeshim.Written {
		t.Errorf("written: %q", text)
	}
	if status, err := s.delete("one"); status != 7 || err != nil {
		t.Errorf("deleted with %d, %v", status, err)
	}
	topics, exits := s.events.all()
	want := []string{"/tasks/create", "/tasks/start", "/tasks/exit", "/tasks/delete"}
	if !reflect.DeepEqual(topics, want) || exits[0].ExitStatus != 7 || exits[0].ID != "one" {
		t.Errorf("%v, %+v", topics, exits)
	}
	_, err := s.State(background, &api.StateRequest{ID: "one"})
	is(t, err, errdefs.ErrNotFound)
	if _, err := os.Stat(filepath.Join(s.folder, "one", "feulgama.json")); !errors.Is(err, os.ErrNotExist) {
		t.Errorf("the record is left: %v", err)
	}
}

func TestARefusedModuleFailsAtCreate(t *testing.T) {
	s := newShim(t)
	err := s.create("bad", fakeshim.Refuse)
	is(t, err, errdefs.ErrInvalidArgument)
	if !strings.Contains(err.Error(), "create: refused 7 BadModule: create: it is written so") {
		t.Errorf("%v", err)
	}
	if topics, _ := s.events.all(); len(topics) != 0 || len(s.units) != 0 {
		t.Errorf("%v, %v", topics, s.units)
	}
}

// meanwhile does something each time while a container is made.
func (s *tested) meanwhile(do func()) {
	s.newGroup = func(string, *specs.LinuxResources) (group.Group, error) {
		do()
		return noGroup{}, nil
	}
}

// isNowhere checks that the shim has nothing of a container, and has told nothing of it.
func (s *tested) isNowhere(id string) {
	s.t.Helper()
	topics, _ := s.events.all()
	left, err := filepath.Glob(filepath.Join(s.folder, id, "*.*"))
	if !s.isEmpty() || len(topics) != 0 || err != nil || len(left) != 1 || filepath.Base(left[0]) != "config.json" {
		s.t.Errorf("%v, %v, %v, %v", s.units, topics, left, err)
	}
}

// A shim that is killed as soon as it has made a cgroup leaves a folder that says which one.
func TestTheCgroupIsKnownBeforeItIsMade(t *testing.T) {
	s := newShim(t)
	var record remains.Record
	s.newGroup = func(name string, _ *specs.LinuxResources) (group.Group, error) {
		text, err := os.ReadFile(filepath.Join(s.folder, "one", "feulgama.json"))
		if err == nil {
			err = json.Unmarshal(text, &record)
		}
		if err != nil || record.Cgroup != name || record.PID != 0 {
			t.Errorf("%s: %+v, %v", name, record, err)
		}
		return nil, group.ErrNone
	}
	if err := s.create("one", fakeshim.Loop); err == nil || !strings.Contains(err.Error(), group.ErrNone.Error()) {
		t.Errorf("%v", err)
	}
	s.isNowhere("one")
}

// Nobody is there who would delete it.
func TestAContainerWhoseRequestEndsWhileItIsMade(t *testing.T) {
	s := newShim(t)
	ctx, cancel := context.WithCancel(background)
	s.meanwhile(cancel)
	_, err := s.Create(ctx, &api.CreateTaskRequest{ID: "one", Bundle: s.bundle("one", fakeshim.Loop, nil)})
	is(t, err, context.Canceled)
	s.isNowhere("one")
}

// So containerd asks when it has given a container up. It asks for the end of the shim right after that, and not again.
func TestAContainerThatIsDeletedWhileItIsMade(t *testing.T) {
	for module, class := range map[string]error{
		fakeshim.Loop: errdefs.ErrUnavailable, fakeshim.Refuse: errdefs.ErrInvalidArgument,
	} {
		s := newShim(t)
		s.meanwhile(func() {
			_, err := s.delete("one")
			is(t, err, errdefs.ErrNotFound)
		})
		is(t, s.create("one", module), class)
		s.isNowhere("one")
		until(t, "the end of the shim", s.down.called)
		s.meanwhile(func() {})
		s.run("one", fakeshim.Loop) // the id is free
	}
}

// An older wasm-shim does not know the options, says so and ends.
func TestAProgramThatEndsAtOnce(t *testing.T) {
	s := newShim(t)
	folder := t.TempDir()
	program := filepath.Join(folder, "old")
	if err := os.WriteFile(program, []byte("#!/bin/sh\necho no such option >&2\nexit 2\n"), 0o755); err != nil {
		t.Fatal(err)
	}
	for path := folder; path != "/" && path != os.TempDir(); path = filepath.Dir(path) {
		if err := os.Chmod(path, 0o755); err != nil {
			t.Fatal(err)
		}
	}
	s.program = func() (string, error) { return program, nil }
	err := s.create("one", fakeshim.Hello)
	is(t, err, errdefs.ErrFailedPrecondition)
	if !strings.Contains(err.Error(), "wasm-shim has ended with status 2: no such option") {
		t.Errorf("%v", err)
	}
}

func TestAnImageWithoutAModule(t *testing.T) {
	s := newShim(t)
	err := s.create("other", "\x7fELF and more")
	is(t, err, errdefs.ErrInvalidArgument)
	if !strings.Contains(err.Error(), `"/m.wasm", is no WebAssembly module`) {
		t.Errorf("%v", err)
	}
}

func TestSignals(t *testing.T) {
	for _, c := range []struct{ signal, want uint32 }{{15, 143}, {9, 137}, {uint32(syscall.SIGINT), 143}} {
		s := newShim(t)
		s.run("one", fakeshim.Loop)
		if err := s.signal("one", uint32(syscall.SIGWINCH)); err != nil {
			t.Error(err)
		}
		if err := s.signal("one", c.signal); err != nil {
			t.Error(err)
		}
		if status := s.wait("one"); status != c.want {
			t.Errorf("signal %d ends it with %d", c.signal, status)
		}
		is(t, s.signal("one", 15), errdefs.ErrNotFound)
	}
}

func TestDeleteOfAContainerThatHasNotEnded(t *testing.T) {
	s := newShim(t)
	s.run("one", fakeshim.Loop)
	_, err := s.delete("one")
	is(t, err, errdefs.ErrFailedPrecondition)
	if err := s.create("two", fakeshim.Loop); err != nil {
		t.Fatal(err)
	}
	if status, err := s.delete("two"); status != 137 || err != nil {
		t.Errorf("one that was not started is deleted with %d, %v", status, err)
	}
}

func TestTheEndOfTheProcessIsTheEndOfTheContainer(t *testing.T) {
	for _, status := range []string{lines.Created, lines.Running, lines.Paused} {
		s := newShim(t)
		if err := s.create("one", fakeshim.Loop); err != nil {
			t.Fatal(err)
		}
		c := s.units["one"].(*container)
		if status != lines.Created {
			if _, err := s.Start(background, &api.StartRequest{ID: "one"}); err != nil {
				t.Fatal(err)
			}
		}
		if status == lines.Paused {
			if _, err := s.Pause(background, &api.PauseRequest{ID: "one"}); err != nil {
				t.Fatal(err)
			}
		}
		c.process.Kill()
		if exit := s.wait("one"); exit != 137 {
			t.Errorf("%s: exit status %d", status, exit)
		}
		if _, exits := s.events.all(); len(exits) != 1 {
			t.Errorf("%s: the exit is told %d times", status, len(exits))
		}
		if exit, err := s.delete("one"); exit != 137 || err != nil {
			t.Errorf("%s: deleted with %d, %v", status, exit, err)
		}
	}
}

func TestAProcessThatDoesNotEndATaskIsKilled(t *testing.T) {
	before := killTime
	killTime = 50 * time.Millisecond
	defer func() { killTime = before }()
	s := newShim(t)
	s.run("one", fakeshim.Deaf)
	if err := s.signal("one", 9); err != nil {
		t.Error(err)
	}
	if status := s.wait("one"); status != 137 {
		t.Errorf("exit status %d", status)
	}
}

func TestPauseAndResume(t *testing.T) {
	s := newShim(t)
	s.run("one", fakeshim.Loop)
	for _, want := range []task.Status{task.StatusPaused, task.StatusRunning} {
		var err error
		if want == task.StatusPaused {
			_, err = s.Pause(background, &api.PauseRequest{ID: "one"})
		} else {
			_, err = s.Resume(background, &api.ResumeRequest{ID: "one"})
		}
		state, stateErr := s.State(background, &api.StateRequest{ID: "one"})
		if err != nil || stateErr != nil || state.Status != want {
			t.Errorf("%v, %v, %v", state, err, stateErr)
		}
	}
	_, err := s.Resume(background, &api.ResumeRequest{ID: "one"})
	is(t, err, errdefs.ErrFailedPrecondition)
	if err := s.signal("one", 15); err != nil {
		t.Error(err)
	}
	if status := s.wait("one"); status != 143 {
		t.Errorf("after a resume it ends with %d", status)
	}
}

func TestOutputComesWhileTheTaskRuns(t *testing.T) {
	s := newShim(t)
	s.run("one", fakeshim.Loop)
	until(t, "output", func() bool { return s.written("one") == fakeshim.Written })
	if state, _ := s.State(background, &api.StateRequest{ID: "one"}); state.Status != task.StatusRunning {
		t.Errorf("%v", state)
	}
}

// A terminal has one place for both streams, and containerd names it as that of standard output.
func TestATerminalShowsStandardErrorToo(t *testing.T) {
	s := newShim(t)
	_, err := s.Create(background, &api.CreateTaskRequest{
		ID: "one", Bundle: s.bundle("one", fakeshim.Trap, nil), Stdout: "file://" + s.log("one"), Terminal: true,
	})
	if err == nil {
		_, err = s.Start(background, &api.StartRequest{ID: "one"})
	}
	if err != nil {
		t.Fatal(err)
	}
	if status := s.wait("one"); status != 134 {
		t.Errorf("exit status %d", status)
	}
	if text := s.written("one"); text != fakeshim.Written+fakeshim.Complained+"trap: unreachable\n" {
		t.Errorf("written: %q", text)
	}
}

// A stream that cannot be read takes nothing of the other one away, and somebody is told.
func TestAnOutputThatCannotBeRead(t *testing.T) {
	s := newShim(t)
	s.run("one", fakeshim.Mute)
	if status := s.wait("one"); status != 134 {
		t.Errorf("exit status %d", status)
	}
	want := fakeshim.Complained + "trap: unreachable\nthe rest of the output could not be read: refused 15 JournalFull\n"
	if text := s.written("one"); text != want {
		t.Errorf("written: %q", text)
	}
}

// wasm-shim would refuse these too, and each refusal would take one of the requests that it answers.
func TestWhatTheStatusDoesNotAllowTakesNoRequest(t *testing.T) {
	s := newShim(t)
	if err := s.create("new", fakeshim.Loop); err != nil {
		t.Fatal(err)
	}
	one, created := s.quiet("one", fakeshim.Loop), s.units["new"].(*container)
	until(t, "put, create, start and wait", func() bool { return one.process.Left() == lines.Requests-4 })
	_, again := s.Start(background, &api.StartRequest{ID: "one"})
	_, running := s.Resume(background, &api.ResumeRequest{ID: "one"})
	_, early := s.Resume(background, &api.ResumeRequest{ID: "new"})
	for _, err := range []error{again, running, early} {
		is(t, err, errdefs.ErrFailedPrecondition)
	}
	if one.process.Left() != lines.Requests-4 || created.process.Left() != lines.Requests-2 {
		t.Errorf("%d and %d requests are left", one.process.Left(), created.process.Left())
	}
}

// With few requests left there are no more copies and looks, and with nearly none no pause. A kill and its end work.
func TestAShimThatHasAnsweredNearlyAll(t *testing.T) {
	byTheClock(t)
	s := newShim(t)
	c := s.run("one", fakeshim.Loop)
	c.process.Spend(c.process.Left() - serve.ForCopies + 1)
	left := c.process.Left()
	time.Sleep(4 * firstCopy)
	if now := c.process.Left(); left-now > 10 {
		t.Errorf("%d requests were sent with %d left", left-now, left)
	}
	_, err := s.Exec(background, lookAt("one", "x", "state"))
	is(t, err, errdefs.ErrUnavailable)
	if _, err = s.Pause(background, &api.PauseRequest{ID: "one"}); err != nil {
		t.Error(err)
	}
	c.process.Spend(c.process.Left() - serve.ForPauses + 1)
	if _, err = s.Resume(background, &api.ResumeRequest{ID: "one"}); err != nil {
		t.Error(err)
	}
	_, err = s.Pause(background, &api.PauseRequest{ID: "one"})
	is(t, err, errdefs.ErrUnavailable)
	if err := s.signal("one", 15); err != nil {
		t.Error(err)
	}
	if status := s.wait("one"); status != 143 {
		t.Errorf("exit status %d", status)
	}
	if text := s.written("one"); text != fakeshim.Written {
		t.Errorf("written: %q", text)
	}
	if status, err := s.delete("one"); status != 143 || err != nil {
		t.Errorf("deleted with %d, %v", status, err)
	}
	if c.process.Left() < 0 {
		t.Errorf("%d requests too many", -c.process.Left())
	}
}

func TestFullStreamsAreToldInTheirOrder(t *testing.T) {
	full := make([]byte, lines.MostOutput)
	want := "trap: unreachable\nstandard output is full: 65536 bytes\nstandard error is full: 65536 bytes\n"
	for tries := 0; tries < 64; tries++ {
		all := map[int][]byte{lines.Stderr: full, lines.Stdout: full}
		if got := remarks(all, lines.Reply{Cause: "trap", Trap: "unreachable"}); got != want {
			t.Fatalf("%q", got)
		}
	}
}

// Should a journal be full all the same, the end of the task cannot be seen, and so it is ended. It is told once.
func TestAShimThatAnswersNoMore(t *testing.T) {
	s := newShim(t)
	s.run("one", fakeshim.Full)
	if status := s.wait("one"); status != 137 {
		t.Errorf("exit status %d", status)
	}
	if _, exits := s.events.all(); len(exits) != 1 {
		t.Errorf("the exit is told %d times", len(exits))
	}
}

func TestWaitEndsWithItsCaller(t *testing.T) {
	s := newShim(t)
	s.run("one", fakeshim.Loop)
	gone, cancel := context.WithCancel(background)
	cancel()
	if _, err := s.Wait(gone, &api.WaitRequest{ID: "one"}); err == nil {
		t.Error("it is answered")
	}
}

func TestWhatIsNotThere(t *testing.T) {
	s := newShim(t)
	s.run("one", fakeshim.Loop)
	_, checkpoint := s.Checkpoint(background, &api.CheckpointTaskRequest{ID: "one"})
	_, update := s.Update(background, &api.UpdateTaskRequest{ID: "one"})
	_, input := s.CloseIO(background, &api.CloseIORequest{ID: "one"})
	_, exec := s.Exec(background, lookAt("one", "x", "sh"))
	for _, err := range []error{checkpoint, update, input, exec} {
		is(t, err, errdefs.ErrNotImplemented)
	}
	_, start := s.Start(background, &api.StartRequest{ID: "one", ExecID: "x"})
	_, state := s.State(background, &api.StateRequest{ID: "none"})
	for _, err := range []error{start, state} {
		is(t, err, errdefs.ErrNotFound)
	}
}

func TestTheShimEndsWithItsLastContainer(t *testing.T) {
	s := newShim(t)
	s.run("one", fakeshim.Hello)
	s.wait("one")
	if _, err := s.Shutdown(background, &api.ShutdownRequest{}); err != nil || s.down.called() {
		t.Errorf("it is shut down with a container: %v", err)
	}
	if _, err := s.delete("one"); err != nil {
		t.Error(err)
	}
	if _, err := s.Shutdown(background, &api.ShutdownRequest{}); err != nil {
		t.Error(err)
	}
	until(t, "the shim is shut down", s.down.called)
}

// The answer to the request that made the last container exit may still be on its way.
func TestAShimThatEndsAnswersFirst(t *testing.T) {
	before := answerTime
	answerTime = time.Hour
	defer func() { answerTime = before }()
	s := newShim(t)
	if _, err := s.Shutdown(background, &api.ShutdownRequest{}); err != nil || s.down.called() {
		t.Errorf("it is shut down at once: %v", err)
	}
}

// A shim whose containerd was killed before it made a container is not left.
func TestAShimWithoutAContainerEnds(t *testing.T) {
	byTheClock(t)
	before := idleTime
	idleTime = 20 * time.Millisecond
	defer func() { idleTime = before }()
	s := newShim(t)
	s.run("one", fakeshim.Loop)
	time.Sleep(5 * idleTime)
	if s.down.called() {
		t.Error("it ends with a container")
	}
	_ = s.signal("one", 9)
	s.wait("one")
	if _, err := s.delete("one"); err != nil {
		t.Error(err)
	}
	until(t, "its end", s.down.called)
}

func TestOneIDTwice(t *testing.T) {
	s := newShim(t)
	s.run("one", fakeshim.Loop)
	is(t, s.create("one", fakeshim.Loop), errdefs.ErrAlreadyExists)
}

func TestTheLimitOfTheConfigIsThatOfTheCgroup(t *testing.T) {
	s := newShim(t)
	var given *specs.LinuxResources
	s.newGroup = func(_ string, limits *specs.LinuxResources) (group.Group, error) {
		given = limits
		return noGroup{}, nil
	}
	folder := s.bundle("one", fakeshim.Loop, func(config map[string]interface{}) {
		config["linux"] = map[string]interface{}{"resources": map[string]interface{}{"memory": map[string]interface{}{"limit": 7}}}
	})
	if _, err := s.Create(background, &api.CreateTaskRequest{ID: "one", Bundle: folder}); err != nil {
		t.Fatal(err)
	}
	if given == nil || given.Memory == nil || *given.Memory.Limit != 7 {
		t.Errorf("%+v", given)
	}
}

func TestIDs(t *testing.T) {
	long := strings.Repeat("k8s.io_", 11)
	for id, want := range map[string]string{"a.b-c_1": "a.b-c_1", long[:64]: long[:64]} {
		if got := taskID(id); got != want {
			t.Errorf("%s becomes %s", id, got)
		}
	}
	for _, id := range []string{long, "-a", "ä", ""} {
		if got := taskID(id); len(got) != 64 || got == id {
			t.Errorf("%s becomes %s", id, got)
		}
	}
}

// lowering makes a script the command feulgama, which every user can run.
func lowering(t *testing.T, script string) {
	t.Helper()
	folder, err := os.MkdirTemp("", "feulgama-lowering-")
	if err != nil {
		t.Fatal(err)
	}
	t.Cleanup(func() { os.RemoveAll(folder) })
	path := filepath.Join(folder, "feulgama")
	if err := os.WriteFile(path, []byte("#!/bin/sh\n"+script), 0o755); err != nil {
		t.Fatal(err)
	}
	if err := os.Chmod(folder, 0o755); err != nil {
		t.Fatal(err)
	}
	t.Setenv(programs.CommandVariable, path)
}

// annotated makes a container with an annotation.
func (s *tested) annotated(id, module, name, value string) error {
	folder := s.bundle(id, module, func(config map[string]interface{}) {
		config["annotations"] = map[string]string{name: value}
	})
	_, err := s.Create(background, &api.CreateTaskRequest{ID: id, Bundle: folder, Stdout: "file://" + s.log(id)})
	return err
}

func TestAModuleIsLoweredIfThatIsAskedFor(t *testing.T) {
	s := newShim(t)
	lowering(t, `echo "1 f64.add" >&2; printf '\000asm\001\000\000\000hello'`)
	if err := s.annotated("one", fakeshim.Refuse, "dev.shim.lower", "true"); err != nil {
		t.Fatal(err)
	}
	c := s.units["one"].(*container)
	if string(c.module) != fakeshim.Hello || string(c.original) != fakeshim.Refuse {
		t.Errorf("%q, %q", c.module, c.original)
	}
	if _, err := s.Start(background, &api.StartRequest{ID: "one"}); err != nil {
		t.Fatal(err)
	}
	if status := s.wait("one"); status != 7 {
		t.Errorf("exit status %d", status)
	}
	if _, first := s.attached("one"); first["original"] != hex.EncodeToString([]byte(fakeshim.Refuse)) {
		t.Errorf("%v", first)
	}
	is(t, s.annotated("two", fakeshim.Refuse, "dev.shim.lower", "false"), errdefs.ErrInvalidArgument)
}

func TestAModuleThatCannotBeLowered(t *testing.T) {
	s := newShim(t)
	lowering(t, `echo "feulgama: -: it has vectors" >&2; exit 1`)
	err := s.annotated("one", fakeshim.Hello, "dev.shim.lower", "true")
	is(t, err, errdefs.ErrInvalidArgument)
	if !strings.Contains(err.Error(), "the module cannot be lowered: it has vectors") {
		t.Errorf("%v", err)
	}
	err = s.annotated("one", fakeshim.Hello, "dev.shim.lower", "perhaps")
	is(t, err, errdefs.ErrInvalidArgument)
	if !strings.Contains(err.Error(), `dev.shim.lower is "perhaps"`) || len(s.units) != 0 {
		t.Errorf("%v, %v", err, s.units)
	}
}
