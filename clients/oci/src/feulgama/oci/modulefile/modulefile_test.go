package modulefile

import (
	"bytes"
	"errors"
	"os"
	"path/filepath"
	"strings"
	"syscall"
	"testing"
	"time"
)

var small = append([]byte("\x00asm\x01\x00\x00\x00"), bytes.Repeat([]byte{7}, 100)...)

// image makes a folder with a module, another program, and beside the folder a module that no link may reach.
func image(t *testing.T) string {
	t.Helper()
	top := t.TempDir()
	root := filepath.Join(top, "root")
	for _, folder := range []string{"app/deep", "etc"} {
		if err := os.MkdirAll(filepath.Join(root, folder), 0o755); err != nil {
			t.Fatal(err)
		}
	}
	files := map[string][]byte{
		"root/app/m.wasm": small, "root/native": []byte("\x7fELF and more"), "root/empty": nil,
		"root/three": []byte("\x00as"), "outside.wasm": []byte("\x00asm outside"),
		"root/most":  append([]byte("\x00asm"), make([]byte, Most-4)...),
		"root/over":  append([]byte("\x00asm"), make([]byte, Most-3)...),
		"root/large": append([]byte("#!/bin/sh"), make([]byte, 4*Most)...),
	}
	for name, text := range files {
		if err := os.WriteFile(filepath.Join(top, name), text, 0o644); err != nil {
			t.Fatal(err)
		}
	}
	links := map[string]string{
		"relative": "app/m.wasm", "absolute": "/app/m.wasm", "app/deep/up": "../m.wasm",
		"out": "../outside.wasm", "far": "../../../../../../../app/m.wasm", "host": filepath.Join(top, "outside.wasm"),
		"loop": "loop", "folder": "/app", "etc/chain": "/relative", "dangling": "/nothing",
		"magic": "/proc/self/root" + filepath.Join(top, "outside.wasm"),
	}
	for name, target := range links {
		if err := os.Symlink(target, filepath.Join(root, name)); err != nil {
			t.Fatal(err)
		}
	}
	return root
}

func TestModulesThatAreFound(t *testing.T) {
	root := image(t)
	for _, path := range []string{
		"/app/m.wasm", "app/m.wasm", "/app/../app/./m.wasm", "/../../app/m.wasm", "/relative", "/absolute", "/app/deep/up",
		"/far", "/folder/m.wasm", "/etc/chain",
	} {
		if got, err := Look(root, path); err != nil || !bytes.Equal(got, small) {
			t.Errorf("%s: %d bytes, %v", path, len(got), err)
		}
	}
	if got, err := Look(root, "/most"); err != nil || len(got) != Most {
		t.Errorf("a module of the most bytes: %d bytes, %v", len(got), err)
	}
}

func TestOtherProgramsAreNone(t *testing.T) {
	root := image(t)
	for _, path := range []string{"/native", "/empty", "/three", "/large"} {
		if got, err := Look(root, path); err != nil || got != nil {
			t.Errorf("%s: %d bytes, %v", path, len(got), err)
		}
	}
}

func TestNothingOutsideIsReached(t *testing.T) {
	root := image(t)
	for _, path := range []string{"/out", "/host", "/magic", "/../outside.wasm", "../outside.wasm", "/dangling", "/nothing",
		"/native/below"} {
		if got, err := Look(root, path); !errors.Is(err, ErrNotThere) || got != nil {
			t.Errorf("%s: %d bytes, %v", path, len(got), err)
		}
	}
	if _, err := Look(root, "/loop"); err == nil || errors.Is(err, ErrNotThere) {
		t.Errorf("a link to itself: %v", err)
	}
}

func TestWhatIsNoFileIsRefused(t *testing.T) {
	root := image(t)
	make := func(name string, mode uint32, device int) bool {
		err := syscall.Mknod(filepath.Join(root, name), mode, device)
		if errors.Is(err, syscall.EPERM) {
			t.Logf("%s was not made: %v", name, err)
			return false
		}
		if err != nil {
			t.Fatal(err)
		}
		return true
	}
	want := map[string]string{"/app": "a directory", "/folder": "a directory", "/over": "more than 262144 bytes"}
	if make("fifo", syscall.S_IFIFO|0o666, 0) {
		want["/fifo"] = "a FIFO"
	}
	if make("socket", syscall.S_IFSOCK|0o666, 0) {
		want["/socket"] = "a socket"
	}
	if make("zero", syscall.S_IFCHR|0o666, 1<<8|5) {
		want["/zero"] = "a device"
	}
	for path, word := range want {
		done := time.AfterFunc(time.Minute, func() { panic(path + " holds up the reader") })
		got, err := Look(root, path)
		done.Stop()
		if err == nil || !strings.Contains(err.Error(), word) || got != nil {
			t.Errorf("%s: %d bytes, %v; want %q", path, len(got), err, word)
		}
	}
}

// endless is a module that grows while it is read.
type endless struct{ given int }

func (e *endless) Read(into []byte) (int, error) {
	copy(into, "\x00asm")
	e.given += len(into)
	return len(into), nil
}

func TestNoMoreIsReadThanAModuleMayHave(t *testing.T) {
	grows := &endless{}
	if _, err := module(grows, "m"); err == nil {
		t.Error("a module without an end is taken")
	}
	if grows.given > 2*Most {
		t.Errorf("%d bytes were read", grows.given)
	}
}

func TestAFileOfTheHost(t *testing.T) {
	root := image(t)
	if got, err := LookAt(filepath.Join(root, "app/m.wasm")); err != nil || !bytes.Equal(got, small) {
		t.Errorf("%d bytes, %v", len(got), err)
	}
	if _, err := LookAt(filepath.Join(root, "none")); !errors.Is(err, ErrNotThere) {
		t.Error(err)
	}
	if _, err := Look(filepath.Join(root, "none"), "/x"); err == nil || errors.Is(err, ErrNotThere) {
		t.Errorf("a root that is not there: %v", err)
	}
}
