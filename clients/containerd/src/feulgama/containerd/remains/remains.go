// Package remains keeps, in the folder of a container, what has to be cleaned up if the shim is killed, and cleans it up.
package remains

import (
	"encoding/json"
	"errors"
	"fmt"
	"os"
	"path/filepath"
	"strings"
	"syscall"
	"time"

	"github.com/containerd/containerd/mount"

	"feulgama/containerd/group"
)

const (
	name = "feulgama.json"
	// endTime is how long a process that was killed may take to be gone.
	endTime = 2 * time.Second
)

// Record is what a container has on the machine.
type Record struct {
	PID    int       `json:"pid"`
	Began  string    `json:"began"` // so that another process with this id is not taken for it
	Cgroup string    `json:"cgroup"`
	Exit   *uint32   `json:"exit,omitempty"`
	At     time.Time `json:"at"`
}

// Of is the record of a process that runs.
func Of(pid int, cgroup string) Record {
	return Record{PID: pid, Began: began(pid), Cgroup: cgroup}
}

// Write keeps a record in a folder.
func Write(folder string, record Record) error {
	text, err := json.Marshal(record)
	if err != nil {
		return err
	}
	hidden := filepath.Join(folder, "."+name)
	if err := os.WriteFile(hidden, text, 0o600); err != nil {
		return err
	}
	return os.Rename(hidden, filepath.Join(folder, name))
}

// Forget says that nothing has to be cleaned up.
func Forget(folder string) {
	os.Remove(filepath.Join(folder, name))
}

// Clean ends what a container left, and answers its record. All is tried, and the first error is told.
func Clean(folder string) (Record, error) {
	record := Record{}
	err := mount.UnmountAll(filepath.Join(folder, "rootfs"), 0)
	text, readErr := os.ReadFile(filepath.Join(folder, name))
	if errors.Is(readErr, os.ErrNotExist) {
		return record, err
	}
	if readErr == nil {
		readErr = json.Unmarshal(text, &record)
	}
	if readErr != nil {
		return record, fmt.Errorf("read what the container left: %w", readErr)
	}
	if endErr := end(record); err == nil {
		err = endErr
	}
	if record.Cgroup == "" {
		return record, err
	}
	if left, loadErr := group.Load(record.Cgroup); loadErr == nil {
		if deleteErr := left.Delete(); err == nil {
			err = deleteErr
		}
	}
	return record, err
}

// end kills the process of a record, and waits until it is gone.
func end(record Record) error {
	last := time.Now().Add(endTime)
	for record.PID > 0 && record.Began != "" && began(record.PID) == record.Began {
		if err := syscall.Kill(record.PID, syscall.SIGKILL); errors.Is(err, syscall.ESRCH) {
			return nil
		}
		if time.Now().After(last) {
			return fmt.Errorf("process %d does not end", record.PID)
		}
		time.Sleep(time.Millisecond)
	}
	return nil
}

// began is when a process began, in the kernel's words, or nothing if it has ended.
func began(pid int) string {
	text, err := os.ReadFile(fmt.Sprintf("/proc/%d/stat", pid))
	if err != nil {
		return ""
	}
	_, after, _ := strings.Cut(string(text), ") ")
	fields := strings.Fields(after)
	if len(fields) < 20 || fields[0] == "Z" || fields[0] == "X" {
		return ""
	}
	return fields[19]
}
