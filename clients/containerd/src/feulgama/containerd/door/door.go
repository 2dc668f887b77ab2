// Package door is the way in for a debugger: a socket in the folder of a container, for the user of the shim alone.
package door

import (
	"errors"
	"fmt"
	"net"
	"os"
	"path/filepath"
	"time"

	"golang.org/x/sys/unix"
)

// Name is the name of the socket in the folder.
const Name = "attach.sock"

const (
	// waiting is how many debuggers may wait until they are let in.
	waiting = 4
	// restTime is the time until one is let in again that could not be.
	restTime = 100 * time.Millisecond
)

// Door is an open door.
type Door struct {
	listener net.Listener
	path     string
}

// Open makes the socket of a folder. It is bound by the folder's descriptor, since the path of a folder may be longer than
// the name of a socket can be.
func Open(folder string) (*Door, error) {
	at, err := unix.Open(folder, unix.O_PATH|unix.O_DIRECTORY|unix.O_CLOEXEC, 0)
	if err != nil {
		return nil, fmt.Errorf("open %s: %w", folder, err)
	}
	defer unix.Close(at)
	socket, err := unix.Socket(unix.AF_UNIX, unix.SOCK_STREAM|unix.SOCK_CLOEXEC, 0)
	if err != nil {
		return nil, fmt.Errorf("make a socket: %w", err)
	}
	file := os.NewFile(uintptr(socket), Name)
	defer file.Close()
	// The mode that a socket has before it is bound is that of its file from the first moment on.
	if err := unix.Fchmod(socket, 0o600); err != nil {
		return nil, fmt.Errorf("keep the socket from others: %w", err)
	}
	if err := unix.Bind(socket, &unix.SockaddrUnix{Name: fmt.Sprintf("/proc/self/fd/%d/%s", at, Name)}); err != nil {
		return nil, fmt.Errorf("bind %s in %s: %w", Name, folder, err)
	}
	d := &Door{path: filepath.Join(folder, Name)}
	if err = unix.Listen(socket, waiting); err == nil {
		d.listener, err = net.FileListener(file)
	}
	if err != nil {
		os.Remove(d.path)
		return nil, fmt.Errorf("listen at %s: %w", d.path, err)
	}
	return d, nil
}

// Let waits for the next one who is let in. It fails when the door is closed.
func (d *Door) Let() (net.Conn, error) {
	for {
		guest, err := d.listener.Accept()
		if errors.Is(err, net.ErrClosed) {
			return nil, err
		}
		if err != nil {
			time.Sleep(restTime) // as without a free descriptor; who waits is let in later
			continue
		}
		if isOurs(guest) {
			return guest, nil
		}
		guest.Close()
	}
}

// isOurs tells whether the other end of a connection is root's, or that of the shim's own user. The mode of the socket
// says the same.
func isOurs(guest net.Conn) bool {
	connection, ok := guest.(*net.UnixConn)
	if !ok {
		return false
	}
	raw, err := connection.SyscallConn()
	if err != nil {
		return false
	}
	ours := false
	err = raw.Control(func(descriptor uintptr) {
		who, whoErr := unix.GetsockoptUcred(int(descriptor), unix.SOL_SOCKET, unix.SO_PEERCRED)
		ours = whoErr == nil && (who.Uid == 0 || int(who.Uid) == os.Geteuid())
	})
	return err == nil && ours
}

// Close closes the door, and removes its socket. Who is inside stays.
func (d *Door) Close() {
	d.listener.Close()
	os.Remove(d.path)
}
