// Package firstprocess is the first process of a container's process namespace. wasm-shim has no signal handlers, and
// the kernel ignores each signal but SIGKILL for a first process without a handler: so this one takes the signals, and
// hands them to wasm-shim.
package firstprocess

import (
	"errors"
	"fmt"
	"os"
	"os/signal"
	"syscall"
)

// Statuses of a program that cannot be started, as shells have them.
const (
	cannotRun = 126
	notThere  = 127
)

// Run starts a program with these words, the first of which is its path, hands all signals to it, and answers its exit
// status, which is 128 and the signal if one ended it.
func Run(words, environment []string) int {
	if len(words) == 0 {
		fmt.Fprintln(os.Stderr, "feulgama-oci: supervise: no program is named")
		return 2
	}
	signals := make(chan os.Signal, 64)
	signal.Notify(signals)
	child, err := syscall.ForkExec(words[0], words, &syscall.ProcAttr{Env: environment, Files: []uintptr{0, 1, 2}})
	if err != nil {
		fmt.Fprintf(os.Stderr, "feulgama-oci: start %s: %v\n", words[0], err)
		if errors.Is(err, syscall.ENOENT) {
			return notThere
		}
		return cannotRun
	}
	go forward(signals, child)
	return wait(child)
}

func forward(signals <-chan os.Signal, child int) {
	for s := range signals {
		if number, ok := s.(syscall.Signal); ok && isForChild(number) {
			// The child may have ended; then its end is what counts.
			_ = syscall.Kill(child, number)
		}
	}
}

// isForChild leaves out what the kernel and Go's runtime send to this process itself.
func isForChild(number syscall.Signal) bool {
	switch number {
	case syscall.SIGCHLD, syscall.SIGURG, syscall.SIGPIPE, syscall.SIGWINCH:
		return false
	}
	return true
}

// wait waits for the child. Other processes that end meanwhile are children that lost their parent.
func wait(child int) int {
	for {
		var status syscall.WaitStatus
		ended, err := syscall.Wait4(-1, &status, 0, nil)
		switch {
		case errors.Is(err, syscall.EINTR):
		case err != nil:
			fmt.Fprintf(os.Stderr, "feulgama-oci: wait for wasm-shim: %v\n", err)
			return 1
		case ended == child && status.Exited():
			return status.ExitStatus()
		case ended == child && status.Signaled():
			return 128 + int(status.Signal())
		}
	}
}
