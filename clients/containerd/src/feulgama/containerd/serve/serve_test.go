package serve

import (
	"errors"
	"os"
	"path/filepath"
	"strconv"
	"strings"
	"testing"
	"time"

	"feulgama/containerd/fakeshim"
	"feulgama/lines"
)

func TestMain(m *testing.M) {
	os.Exit(fakeshim.Run(m))
}

// byTheClock passes over a test that a busy machine may fail, if the tests are to be short.
func byTheClock(t *testing.T) {
	t.Helper()
	if testing.Short() {
		t.Skip("goes by the clock")
	}
}

func start(t *testing.T) *Process {
	t.Helper()
	p, err := Start(fakeshim.Program(t), func(int) error { return nil })
	if err != nil {
		t.Fatal(err)
	}
	t.Cleanup(func() { p.Kill(); <-p.Ended() })
	return p
}

// ask sends a request that has to be accepted.
func ask(t *testing.T, p *Process, request []byte) lines.Reply {
	t.Helper()
	reply, err := p.Ask(request)
	if err != nil {
		t.Fatalf("%s: %v", request, err)
	}
	return reply
}

// load makes a task of a module of the fake.
func load(t *testing.T, p *Process, module string) {
	t.Helper()
	put := ask(t, p, lines.Put([]byte(module)))
	ask(t, p, lines.Create("a", []byte(`{"annotations":{"dev.shim.module":"`+put.Digest+`"}}`)))
}

func TestATaskFromItsStartToItsEnd(t *testing.T) {
	p := start(t)
	load(t, p, fakeshim.Hello)
	ask(t, p, lines.Of(lines.Start, "a"))
	reply, err := p.Wait(lines.Of(lines.Wait, "a"))
	if err != nil || reply.Status != lines.Stopped || reply.Exit != 7 {
		t.Errorf("%+v, %v", reply, err)
	}
	if left := p.Left(); left != lines.Requests-4 {
		t.Errorf("%d requests are left after 4", left)
	}
}

func TestAKillIsHeardWhileTheOtherCallerWaits(t *testing.T) {
	byTheClock(t)
	p := start(t)
	load(t, p, fakeshim.Loop)
	ask(t, p, lines.Of(lines.Start, "a"))
	told := make(chan lines.Reply)
	go func() {
		reply, _ := p.Wait(lines.Of(lines.Wait, "a"))
		told <- reply
	}()
	select {
	case reply := <-told:
		t.Fatalf("a wait for a task that runs is answered %+v", reply)
	case <-time.After(50 * time.Millisecond):
	}
	ask(t, p, lines.Kill("a", lines.SIGTERM))
	if reply := <-told; reply.Exit != 143 {
		t.Errorf("%+v", reply)
	}
}

func TestARefusalHasItsReason(t *testing.T) {
	p := start(t)
	put := ask(t, p, lines.Put([]byte(fakeshim.Refuse)))
	_, err := p.Ask(lines.Create("a", []byte(`{"annotations":{"dev.shim.module":"`+put.Digest+`"}}`)))
	if err == nil || err.Error() != "refused 7 BadModule: create: it is written so" {
		t.Errorf("%v", err)
	}
}

func TestARequestThatFindsNoMemoryIsSentAgain(t *testing.T) {
	p := start(t)
	load(t, p, fakeshim.Short("start", 3))
	ask(t, p, lines.Of(lines.Start, "a"))
	if left := p.Left(); left != lines.Requests-3 {
		t.Errorf("%d requests are left after 3", left)
	}
	p = start(t)
	load(t, p, fakeshim.Short("start", 1000))
	_, err := p.Ask(lines.Of(lines.Start, "a"))
	text, _, relayErr := p.Relay(lines.Of(lines.Start, "a"))
	if !lines.IsRefused(err, lines.NoMemory) || !lines.IsRefused(relayErr, lines.NoMemory) {
		t.Errorf("%v, %v", err, relayErr)
	}
	if !strings.Contains(string(text), "NoMemory") {
		t.Errorf("the line is %s", text)
	}
	if left := p.Left(); left != lines.Requests-2 {
		t.Errorf("%d requests are left after 2", left)
	}
}

func TestTheEndOfTheProgramIsNoticed(t *testing.T) {
	byTheClock(t)
	p := start(t)
	p.Kill()
	select {
	case <-p.Ended():
	case <-time.After(10 * time.Second):
		t.Fatal("the end of the program is not noticed")
	}
	if status := p.Status(); status != 137 {
		t.Errorf("it ended by SIGKILL with %d", status)
	}
	for name, ask := range map[string]func([]byte) (lines.Reply, error){"control": p.Ask, "waiter": p.Wait} {
		if _, err := ask(lines.Of(lines.State, "a")); !errors.Is(err, ErrEnded) {
			t.Errorf("%s: %v", name, err)
		}
	}
}

func TestTheEndOfTheProgramEndsARequest(t *testing.T) {
	p := start(t)
	load(t, p, fakeshim.Die)
	if _, err := p.Ask(lines.Of(lines.Start, "a")); !errors.Is(err, ErrEnded) {
		t.Errorf("%v", err)
	}
	if status := p.Status(); status != 3 {
		t.Errorf("it ended with %d", status)
	}
}

func TestALineThatIsNoReply(t *testing.T) {
	p := start(t)
	load(t, p, fakeshim.Noise)
	_, err := p.Ask(lines.Of(lines.Start, "a"))
	if err == nil || !strings.Contains(err.Error(), "read a reply") {
		t.Errorf("%v", err)
	}
}

func TestALineWithoutAnEndIsTheEnd(t *testing.T) {
	byTheClock(t)
	read, write, err := os.Pipe()
	if err != nil {
		t.Fatal(err)
	}
	go func() {
		defer write.Close()
		for part := make([]byte, 1<<20); err == nil; {
			_, err = write.Write(part)
		}
	}()
	ended := make(chan struct{})
	c := newCaller(pair{write: write})
	c.begin(read, func() { close(ended) })
	select {
	case <-ended:
	case <-time.After(10 * time.Second):
		t.Fatal("it is read for ever")
	}
	if _, more := <-c.replies; more {
		t.Error("it is taken for a reply")
	}
}

func TestAProgramThatIsNotThere(t *testing.T) {
	if _, err := Start("/nothing/here", func(int) error { return nil }); err == nil || !strings.Contains(err.Error(), "/nothing/here") {
		t.Errorf("%v", err)
	}
}

func TestAProgramThatCannotJoinIsEnded(t *testing.T) {
	joined := 0
	wrong := errors.New("no cgroup")
	_, err := Start(fakeshim.Program(t), func(pid int) error { joined = pid; return wrong })
	if !errors.Is(err, wrong) {
		t.Errorf("%v", err)
	}
	if _, err := os.Stat(filepath.Join("/proc", strconv.Itoa(joined))); joined == 0 || !errors.Is(err, os.ErrNotExist) {
		t.Errorf("process %d: %v", joined, err)
	}
}

// What the program has of the system: no rights, and its pipes only. It is the kernel that says so.
func TestTheProgramHasNoRights(t *testing.T) {
	if os.Geteuid() != 0 {
		t.Skip("only root can give up rights")
	}
	p := start(t)
	load(t, p, fakeshim.Loop) // so it has begun
	text, err := os.ReadFile(filepath.Join("/proc", strconv.Itoa(p.PID()), "status"))
	if err != nil {
		t.Fatal(err)
	}
	for _, want := range []string{
		"Uid:\t65534\t65534\t65534\t65534\n", "Gid:\t65534\t65534\t65534\t65534\n", "Groups:\t \n", "NoNewPrivs:\t1\n",
		"CapInh:\t0000000000000000\n", "CapPrm:\t0000000000000000\n", "CapEff:\t0000000000000000\n",
		"CapBnd:\t0000000000000000\n", "CapAmb:\t0000000000000000\n",
	} {
		if !strings.Contains(string(text), want) {
			t.Errorf("no %q in\n%s", want, text)
		}
	}
	for _, kind := range []string{"net", "ipc", "uts", "pid"} {
		theirs, err := os.Readlink(filepath.Join("/proc", strconv.Itoa(p.PID()), "ns", kind))
		ours, ownErr := os.Readlink(filepath.Join("/proc/self/ns", kind))
		if err != nil || ownErr != nil || theirs == ours {
			t.Errorf("%s: %s, %s, %v, %v", kind, theirs, ours, err, ownErr)
		}
	}
}
