package output

import (
	"fmt"
	"os"
	"syscall"
	"time"

	"github.com/containerd/containerd/errdefs"
	"github.com/containerd/fifo"
	"golang.org/x/sys/unix"
)

// pipe is a FIFO or a pipe. The shim holds both ends of a FIFO, so that what is in it stays while nobody reads it, as
// when containerd is started again.
type pipe struct{ *os.File }

func openFifo(path string) (place, error) {
	is, err := fifo.IsFifo(path)
	if err != nil {
		return nil, fmt.Errorf("look at a FIFO: %w", err)
	}
	if !is {
		return nil, fmt.Errorf("%s is no FIFO: %w", path, errdefs.ErrInvalidArgument)
	}
	opened, err := os.OpenFile(path, os.O_RDWR|syscall.O_NONBLOCK, 0)
	if err != nil {
		return nil, fmt.Errorf("open a FIFO: %w", err)
	}
	return pipe{opened}, nil
}

func (p pipe) write(data []byte, until time.Time) (int, error) {
	if err := p.SetWriteDeadline(until); err != nil {
		return 0, err
	}
	return p.File.Write(data)
}

// drained tells whether no bytes are in the pipe. One that cannot say so is not waited for.
func (p pipe) drained() bool {
	raw, err := p.SyscallConn()
	if err != nil {
		return true
	}
	count := 0
	if controlErr := raw.Control(func(descriptor uintptr) {
		count, err = unix.IoctlGetInt(int(descriptor), unix.TIOCINQ)
	}); controlErr != nil || err != nil {
		return true
	}
	return count == 0
}

func (p pipe) close() { p.File.Close() }
