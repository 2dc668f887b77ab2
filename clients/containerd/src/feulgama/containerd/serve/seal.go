package serve

import "golang.org/x/sys/unix"

// Seal keeps files that the shim was started with from the programs that it starts.
func Seal() error {
	return unix.CloseRange(3, ^uint(0)>>1, unix.CLOSE_RANGE_CLOEXEC)
}
