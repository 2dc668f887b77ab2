// Package apart starts programs that share with their parent neither a user nor a right nor a network.
package apart

import (
	"fmt"
	"os"
	"os/exec"
	"runtime"
	"syscall"

	"golang.org/x/sys/unix"
)

// Nobody is the user of such a program.
const Nobody = 65534

// Attributes are what the program does not share with its parent: its user, and what it could reach of the system.
// Without root it shares the user.
func Attributes() *syscall.SysProcAttr {
	if os.Geteuid() != 0 {
		return &syscall.SysProcAttr{Setsid: true}
	}
	return &syscall.SysProcAttr{
		Setsid:     true,
		Cloneflags: unix.CLONE_NEWNET | unix.CLONE_NEWIPC | unix.CLONE_NEWUTS | unix.CLONE_NEWPID,
		Credential: &syscall.Credential{Uid: Nobody, Gid: Nobody},
	}
}

// Start starts a command from a thread that can gain no right by a program, and has none to hand on.
func Start(command *exec.Cmd) error {
	done := make(chan error)
	go func() {
		runtime.LockOSThread() // for good: the thread ends with this function
		err := giveUpRights()
		if err == nil {
			err = command.Start()
		}
		done <- err
	}()
	return <-done
}

func giveUpRights() error {
	if err := unix.Prctl(unix.PR_SET_NO_NEW_PRIVS, 1, 0, 0, 0); err != nil {
		return fmt.Errorf("forbid new privileges: %w", err)
	}
	if os.Geteuid() != 0 {
		return nil
	}
	for right := uintptr(0); right <= unix.CAP_LAST_CAP; right++ {
		if err := unix.Prctl(unix.PR_CAPBSET_DROP, right, 0, 0, 0); err != nil && err != unix.EINVAL {
			return fmt.Errorf("give up the right %d: %w", right, err)
		}
	}
	return nil
}
