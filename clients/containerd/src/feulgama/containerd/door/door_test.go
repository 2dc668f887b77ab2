package door

import (
	"errors"
	"fmt"
	"net"
	"os"
	"path/filepath"
	"strings"
	"testing"
	"time"

	"golang.org/x/sys/unix"
)

// knock connects to the door of a folder, in the way of a client that a long path does not stop.
func knock(folder string) (net.Conn, error) {
	at, err := unix.Open(folder, unix.O_PATH|unix.O_DIRECTORY, 0)
	if err != nil {
		return nil, err
	}
	defer unix.Close(at)
	return net.Dial("unix", fmt.Sprintf("/proc/self/fd/%d/%s", at, Name))
}

func TestADoorInAFolderWithALongPath(t *testing.T) {
	folder := filepath.Join(t.TempDir(), strings.Repeat("long", 40))
	if err := os.Mkdir(folder, 0o700); err != nil {
		t.Fatal(err)
	}
	d, err := Open(folder)
	if err != nil {
		t.Fatal(err)
	}
	about, err := os.Stat(filepath.Join(folder, Name))
	if err != nil || about.Mode() != os.ModeSocket|0o600 {
		t.Errorf("%v, %v", about, err)
	}
	guest, err := knock(folder)
	if err != nil {
		t.Fatal(err)
	}
	defer guest.Close()
	let, err := d.Let()
	if err != nil {
		t.Fatal(err)
	}
	defer let.Close()
	d.Close()
	if _, err := d.Let(); err == nil {
		t.Error("a closed door lets somebody in")
	}
	if _, err := os.Stat(filepath.Join(folder, Name)); !errors.Is(err, os.ErrNotExist) {
		t.Errorf("the socket is left: %v", err)
	}
	if _, err := let.Write([]byte("x")); err != nil {
		t.Errorf("who is inside is thrown out: %v", err)
	}
}

// byTheClock passes over a test that a busy machine may fail, if the tests are to be short.
func byTheClock(t *testing.T) {
	t.Helper()
	if testing.Short() {
		t.Skip("goes by the clock")
	}
}

// A door without a descriptor for a guest lets them in later.
func TestADoorWithoutADescriptor(t *testing.T) {
	byTheClock(t)
	folder := t.TempDir()
	d, err := Open(folder)
	if err != nil {
		t.Fatal(err)
	}
	guest, err := knock(folder)
	if err != nil {
		t.Fatal(err)
	}
	defer guest.Close()
	var before unix.Rlimit
	if err := unix.Getrlimit(unix.RLIMIT_NOFILE, &before); err != nil {
		t.Fatal(err)
	}
	next, err := unix.Dup(0)
	if err != nil {
		t.Fatal(err)
	}
	unix.Close(next)
	if err := unix.Setrlimit(unix.RLIMIT_NOFILE, &unix.Rlimit{Cur: uint64(next), Max: before.Max}); err != nil {
		t.Fatal(err)
	}
	let := make(chan error, 2)
	go func() {
		for {
			guest, err := d.Let()
			let <- err
			if err != nil {
				return
			}
			guest.Close()
		}
	}()
	var early error
	select {
	case early = <-let:
	case <-time.After(50 * time.Millisecond):
	}
	if err := unix.Setrlimit(unix.RLIMIT_NOFILE, &before); err != nil {
		t.Fatal(err)
	}
	if early != nil {
		t.Fatalf("nobody is let in any more: %v", early)
	}
	if err := <-let; err != nil {
		t.Errorf("%v", err)
	}
	d.Close()
	if err := <-let; !errors.Is(err, net.ErrClosed) {
		t.Errorf("a closed door lets somebody in: %v", err)
	}
}

func TestAFolderThatIsNotThere(t *testing.T) {
	if _, err := Open("/nothing/here"); err == nil || !strings.Contains(err.Error(), "/nothing/here") {
		t.Errorf("%v", err)
	}
}

func TestASocketThatIsThere(t *testing.T) {
	folder := t.TempDir()
	first, err := Open(folder)
	if err != nil {
		t.Fatal(err)
	}
	defer first.Close()
	if _, err := Open(folder); !errors.Is(err, unix.EADDRINUSE) {
		t.Errorf("%v", err)
	}
}
