package firstprocess

import (
	"fmt"
	"os"
	"strings"
	"time"
)

// Await waits until the first process of a container, which Run is, has started its program, or has ended. From then on
// it takes signals. It gives up after some time, or at once with a kernel that does not tell children, since the
// container has been started all the same.
func Await(pid int, most time.Duration) {
	if _, err := os.Stat("/proc/thread-self/children"); err != nil {
		return
	}
	for last := time.Now().Add(most); time.Now().Before(last); time.Sleep(200 * time.Microsecond) {
		if isReady(pid) {
			return
		}
	}
}

// isReady tells whether a process has a child, or has ended. A process that has ended and was not waited for is a zombie.
func isReady(pid int) bool {
	text, err := os.ReadFile(fmt.Sprintf("/proc/%d/stat", pid))
	if err != nil {
		return true
	}
	_, fields, _ := strings.Cut(string(text[strings.LastIndexByte(string(text), ')')+1:]), " ")
	if strings.HasPrefix(fields, "Z") || strings.HasPrefix(fields, "X") {
		return true
	}
	return hasChild(pid)
}

// hasChild looks at all threads of a process, each of which may have made the child.
func hasChild(pid int) bool {
	threads, err := os.ReadDir(fmt.Sprintf("/proc/%d/task", pid))
	if err != nil {
		return true
	}
	for _, thread := range threads {
		children, err := os.ReadFile(fmt.Sprintf("/proc/%d/task/%s/children", pid, thread.Name()))
		if err == nil && len(children) > 0 {
			return true
		}
	}
	return false
}
