package lowering

import (
	"bytes"
	"fmt"
	"os"
	"path/filepath"
	"strings"
	"testing"
	"time"

	"feulgama/oci/programs"
)

// byTheClock passes over a test that a busy machine may fail, if the tests are to be short.
func byTheClock(t *testing.T) {
	t.Helper()
	if testing.Short() {
		t.Skip("goes by the clock")
	}
}

// command makes a script the command feulgama, in a folder into which every user can look.
func command(t *testing.T, script string) string {
	t.Helper()
	folder, err := os.MkdirTemp("", "feulgama-lowering-")
	if err != nil {
		t.Fatal(err)
	}
	t.Cleanup(func() { os.RemoveAll(folder) })
	path := filepath.Join(folder, "feulgama")
	if err := os.WriteFile(path, []byte("#!/bin/sh\n"+script), 0o755); err != nil {
		t.Fatal(err)
	}
	if err := os.Chmod(folder, 0o755); err != nil {
		t.Fatal(err)
	}
	t.Setenv(programs.CommandVariable, path)
	return folder
}

func TestWanted(t *testing.T) {
	for value, want := range map[string]bool{"": false, "false": false, "true": true} {
		if got, err := Wanted(value); got != want || err != nil {
			t.Errorf("%q: %v, %v", value, got, err)
		}
	}
	if _, err := Wanted("yes"); err == nil || !strings.Contains(err.Error(), `dev.shim.lower is "yes"`) {
		t.Errorf("%v", err)
	}
}

func TestWhatTheCommandIsCalledWith(t *testing.T) {
	command(t, `echo "1 f64.add" >&2; echo "2 memory.copy" >&2; printf '%s ' "$@"; cat`)
	found, err := Lower([]byte("module"))
	if err != nil || string(found.Content) != "lower --list -o - - module" || found.Replaced != "1 f64.add, 2 memory.copy" {
		t.Errorf("%+v, %v", found, err)
	}
}

// The numbers are those of proc(5), and the kernel says them.
func TestWhatTheCommandMayDo(t *testing.T) {
	command(t, `cat /proc/self/limits; cat /proc/self/status; cat /proc/self/net/dev; env; pwd; echo "pid $$"`)
	found, err := Lower(bytes.Repeat([]byte("x"), 100_000))
	if err != nil {
		t.Fatal(err)
	}
	text := strings.Join(strings.Fields(string(found.Content)), " ")
	wanted := []string{
		"Max cpu time 30 31 seconds", "Max address space 1073741824 1073741824 bytes", "Max file size 0 0 bytes",
		"Max core file size 0 0 bytes", "NoNewPrivs: 1", "PYTHONDONTWRITEBYTECODE=1", " / ",
	}
	if os.Geteuid() == 0 {
		wanted = append(wanted, "Uid: 65534 65534 65534 65534", "Gid: 65534 65534 65534 65534", "CapEff: 0000000000000000",
			"CapBnd: 0000000000000000", "pid 1")
		if strings.Contains(text, "eth0") {
			t.Error("it has a network")
		}
	}
	for _, want := range wanted {
		if !strings.Contains(text, want) {
			t.Errorf("no %q in %s", want, text)
		}
	}
}

func TestReasons(t *testing.T) {
	for script, want := range map[string]string{
		`echo "feulgama: -: no exceptions" >&2; exit 1`:  "the module cannot be lowered: no exceptions",
		`echo one >&2; echo "feulgama: two" >&2; exit 1`: "the module cannot be lowered: feulgama: two",
		`printf 'feulgama: -: no \033[2J\n' >&2; exit 1`: "the module cannot be lowered: no ?[2J",
		`exit 3`:                   "the command feulgama ended with exit status 3",
		`head -c 300000 /dev/zero`: "the lowered module has more than 262144 bytes",
		`yes 1234567 | head -c 80000 >&2; exit 1`: "the module cannot be lowered: 1234567",
	} {
		command(t, script)
		if _, err := Lower([]byte("module")); err == nil || !strings.Contains(err.Error(), want) {
			t.Errorf("%s: %v", script, err)
		}
	}
	t.Setenv(programs.CommandVariable, "/nothing/here")
	if _, err := Lower(nil); err == nil || !strings.Contains(err.Error(), "/nothing/here") ||
		!strings.Contains(err.Error(), Annotation) {
		t.Errorf("%v", err)
	}
}

// A module that would take for ever ends by one limit or the other, and no process of the command is left.
func TestLimits(t *testing.T) {
	byTheClock(t)
	seconds, whole := processorTime, wholeTime
	defer func() { processorTime, wholeTime = seconds, whole }()
	for script, change := range map[string]func(){
		"while :; do :; done":     func() { processorTime = 1 },
		"sleep 1000 & sleep 1000": func() { wholeTime = 100 * time.Millisecond },
	} {
		processorTime, wholeTime = seconds, whole
		change()
		folder := command(t, script)
		began := time.Now()
		_, err := Lower([]byte("module"))
		if err == nil || !strings.Contains(err.Error(), fmt.Sprintf("takes more than %d s or 1024 MiB", processorTime)) {
			t.Errorf("%s: %v", script, err)
		}
		if took := time.Since(began); took > time.Minute {
			t.Errorf("%s: %v", script, took)
		}
		for _, words := range running(t) {
			if strings.Contains(words, folder) {
				t.Errorf("%s: left: %s", script, words)
			}
		}
	}
}

// running are the command lines of all processes.
func running(t *testing.T) []string {
	t.Helper()
	files, err := filepath.Glob("/proc/[0-9]*/cmdline")
	if err != nil {
		t.Fatal(err)
	}
	var found []string
	for _, file := range files {
		if text, err := os.ReadFile(file); err == nil {
			found = append(found, string(text))
		}
	}
	return found
}

func TestTooLittleMemory(t *testing.T) {
	before := addressSpace
	addressSpace = 1 << 20
	defer func() { addressSpace = before }()
	command(t, "cat")
	if _, err := Lower([]byte("module")); err == nil {
		t.Error("one megabyte is enough")
	}
}
