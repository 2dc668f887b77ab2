package remains

import (
	"errors"
	"os"
	"os/exec"
	"testing"
	"time"
)

func sleeping(t *testing.T) *exec.Cmd {
	t.Helper()
	command := exec.Command("sleep", "60")
	if err := command.Start(); err != nil {
		t.Fatal(err)
	}
	t.Cleanup(func() { _ = command.Process.Kill(); _ = command.Wait() })
	return command
}

// alive tells whether a process runs.
func alive(command *exec.Cmd) bool { return began(command.Process.Pid) != "" }

func TestAProcessThatIsLeft(t *testing.T) {
	folder, command := t.TempDir(), sleeping(t)
	if err := Write(folder, Of(command.Process.Pid, "")); err != nil {
		t.Fatal(err)
	}
	record, err := Clean(folder)
	if err != nil || record.PID != command.Process.Pid || record.Exit != nil || alive(command) {
		t.Errorf("%+v, %v", record, err)
	}
}

func TestAnotherProcessWithTheIDIsLetAlone(t *testing.T) {
	folder, command := t.TempDir(), sleeping(t)
	record := Of(command.Process.Pid, "")
	record.Began = "1"
	if err := Write(folder, record); err != nil {
		t.Fatal(err)
	}
	if _, err := Clean(folder); err != nil || !alive(command) {
		t.Errorf("%v, %v", err, alive(command))
	}
}

func TestTheEndThatWasToldIsKept(t *testing.T) {
	folder, exit, at := t.TempDir(), uint32(1000), time.Unix(1700000000, 5).UTC()
	if err := Write(folder, Record{PID: 0, Exit: &exit, At: at}); err != nil {
		t.Fatal(err)
	}
	record, err := Clean(folder)
	if err != nil || record.Exit == nil || *record.Exit != 1000 || !record.At.Equal(at) {
		t.Errorf("%+v, %v", record, err)
	}
}

func TestNothingIsLeft(t *testing.T) {
	folder := t.TempDir()
	if err := Write(folder, Record{}); err != nil {
		t.Fatal(err)
	}
	Forget(folder)
	if record, err := Clean(folder); err != nil || record.PID != 0 {
		t.Errorf("%+v, %v", record, err)
	}
	left, err := os.ReadDir(folder)
	if err != nil || len(left) != 0 {
		t.Errorf("%v, %v", left, err)
	}
}

func TestARecordThatCannotBeRead(t *testing.T) {
	folder := t.TempDir()
	if err := os.WriteFile(folder+"/"+name, []byte("{"), 0o600); err != nil {
		t.Fatal(err)
	}
	if _, err := Clean(folder); err == nil || errors.Is(err, os.ErrNotExist) {
		t.Errorf("%v", err)
	}
}
