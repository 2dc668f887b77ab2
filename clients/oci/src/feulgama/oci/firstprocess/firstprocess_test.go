package firstprocess

import (
	"os"
	"os/exec"
	"strings"
	"syscall"
	"testing"
	"time"
)

// The test's own program is the supervisor in a process of its own, if this variable is set.
const isSupervisor = "FEULGAMA_TEST_SUPERVISOR"

func TestMain(m *testing.M) {
	if os.Getenv(isSupervisor) != "" {
		os.Exit(Run(os.Args[1:], []string{"KEPT=yes"}))
	}
	os.Exit(m.Run())
}

// byTheClock passes over a test that a busy machine may fail, if the tests are to be short.
func byTheClock(t *testing.T) {
	t.Helper()
	if testing.Short() {
		t.Skip("goes by the clock")
	}
}

func supervisor(t *testing.T, words ...string) *exec.Cmd {
	t.Helper()
	command := exec.Command(os.Args[0], words...)
	command.Env = append(os.Environ(), isSupervisor+"=1")
	return command
}

func TestStatuses(t *testing.T) {
	cases := []struct {
		name  string
		words []string
		want  int
	}{
		{"an exit", []string{"/bin/sh", "-c", "exit 7"}, 7},
		{"a signal", []string{"/bin/sh", "-c", "kill -9 $$"}, 137},
		{"no program of that name", []string{"/nowhere/program"}, 127},
		{"a program that cannot be run", []string{"/"}, 126},
		{"no words", nil, 2},
		{"only its own environment", []string{"/bin/sh", "-c", "test $KEPT = yes && test -z \"$" + isSupervisor + "\""}, 0},
		{"a process that lost its parent", []string{"/bin/sh", "-c", "(sleep 0.05 &); sleep 0.1; exit 5"}, 5},
	}
	for _, c := range cases {
		t.Run(c.name, func(t *testing.T) {
			command := supervisor(t, c.words...)
			text, _ := command.CombinedOutput()
			if got := command.ProcessState.ExitCode(); got != c.want {
				t.Errorf("%v: %d, want %d: %s", c.words, got, c.want, text)
			}
		})
	}
}

func TestSignalsAreHandedOn(t *testing.T) {
	byTheClock(t)
	for number, want := range map[syscall.Signal]int{
		syscall.SIGTERM: 143, syscall.SIGINT: 130, syscall.SIGHUP: 129, syscall.SIGUSR1: 138,
	} {
		command := supervisor(t, "/bin/sh", "-c", "echo ready; exec sleep 60")
		ready, err := command.StdoutPipe()
		if err != nil {
			t.Fatal(err)
		}
		if err := command.Start(); err != nil {
			t.Fatal(err)
		}
		if _, err := ready.Read(make([]byte, 5)); err != nil {
			t.Fatal(err)
		}
		began := time.Now()
		if err := command.Process.Signal(number); err != nil {
			t.Fatal(err)
		}
		_ = command.Wait()
		if got := command.ProcessState.ExitCode(); got != want || time.Since(began) > time.Second {
			t.Errorf("%v: status %d after %v, want %d", number, got, time.Since(began), want)
		}
	}
}

func TestSignalsThatStay(t *testing.T) {
	byTheClock(t)
	for _, number := range []syscall.Signal{syscall.SIGCHLD, syscall.SIGURG, syscall.SIGPIPE, syscall.SIGWINCH} {
		if isForChild(number) {
			t.Errorf("%v is handed on", number)
		}
	}
	command := supervisor(t, "/bin/sh", "-c", "trap 'exit 9' USR2; while :; do sleep 0.02; done")
	if err := command.Start(); err != nil {
		t.Fatal(err)
	}
	time.Sleep(200 * time.Millisecond)
	for _, number := range []syscall.Signal{syscall.SIGURG, syscall.SIGWINCH, syscall.SIGUSR2} {
		if err := command.Process.Signal(number); err != nil {
			t.Fatal(err)
		}
	}
	_ = command.Wait()
	if got := command.ProcessState.ExitCode(); got != 9 {
		t.Errorf("status %d, want 9: %s", got, strings.Join(command.Args, " "))
	}
}

func TestAwait(t *testing.T) {
	byTheClock(t)
	command := exec.Command("/bin/sh", "-c", "exec /bin/sh -c 'read word; sleep 60 & wait'")
	begin, err := command.StdinPipe()
	if err != nil {
		t.Fatal(err)
	}
	command.SysProcAttr = &syscall.SysProcAttr{Setpgid: true}
	if err := command.Start(); err != nil {
		t.Fatal(err)
	}
	pid := command.Process.Pid
	defer func() {
		_ = syscall.Kill(-pid, syscall.SIGKILL)
		_ = command.Wait()
	}()
	began := time.Now()
	Await(pid, 100*time.Millisecond)
	if time.Since(began) < 100*time.Millisecond {
		t.Error("a process without a child is ready")
	}
	if _, err := begin.Write([]byte("go\n")); err != nil {
		t.Fatal(err)
	}
	began = time.Now()
	Await(pid, 10*time.Second)
	if time.Since(began) > 5*time.Second {
		t.Error("a process with a child is not ready")
	}
}

func TestAwaitOfWhatHasEnded(t *testing.T) {
	byTheClock(t)
	command := exec.Command("/bin/true")
	if err := command.Start(); err != nil {
		t.Fatal(err)
	}
	began := time.Now()
	Await(command.Process.Pid, 10*time.Second) // a zombie, until it is waited for
	_ = command.Wait()
	Await(command.Process.Pid, 10*time.Second)
	if time.Since(began) > 5*time.Second {
		t.Error("a process that has ended is waited for")
	}
}
