package task

import (
	"golang.org/x/sys/unix"

	"feulgama/lines"
)

// ignored are the signals that do nothing to a program without handlers, or only stop it.
var ignored = map[uint32]bool{
	0: true, uint32(unix.SIGCHLD): true, uint32(unix.SIGCONT): true, uint32(unix.SIGURG): true, uint32(unix.SIGWINCH): true,
	uint32(unix.SIGSTOP): true, uint32(unix.SIGTSTP): true, uint32(unix.SIGTTIN): true, uint32(unix.SIGTTOU): true,
}

// ending9or15 answers which of the two signals of wasm-shim stands for a signal, if that ends a program at all.
func ending9or15(signal uint32) (uint32, bool) {
	switch {
	case signal == lines.SIGKILL:
		return lines.SIGKILL, true
	case ignored[signal]:
		return 0, false
	}
	return lines.SIGTERM, true
}
