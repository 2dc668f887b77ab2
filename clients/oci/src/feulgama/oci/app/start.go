package app

import (
	"encoding/json"
	"errors"
	"fmt"
	"os"
	"os/exec"
	"path/filepath"
	"syscall"
	"time"

	"feulgama/oci/cmdline"
	"feulgama/oci/container"
	"feulgama/oci/firstprocess"
	"feulgama/oci/programs"
)

// readyAfter is how long a start waits at most for the first process of a module's container.
const readyAfter = 2 * time.Second

// state is what `runc state` says of a container.
type state struct {
	Pid    int
	Bundle string
}

// start starts a container by runc, and answers runc's status. It returns once the first process of a module's
// container takes signals: one that comes earlier would be lost, and a host may stop a container at once.
func start(line cmdline.Line, words []string) (int, error) {
	runc, err := programs.Runc()
	if err != nil {
		return 1, err
	}
	before := words[:len(words)-len(line.Rest)-1]
	found, known := ask(runc, before, line.Rest)
	command := exec.Command(runc, words...)
	command.Stdin, command.Stdout, command.Stderr = os.Stdin, os.Stdout, os.Stderr
	if err := command.Run(); err != nil {
		return ending(runc, err)
	}
	if known && isModules(found.Bundle) {
		firstprocess.Await(found.Pid, readyAfter)
	}
	return 0, nil
}

// ending answers the status of a runc that has failed, as a shell has it, and an error where runc itself could not say why.
func ending(runc string, err error) (int, error) {
	var ended *exec.ExitError
	if !errors.As(err, &ended) {
		return 1, fmt.Errorf("run %s: %w", runc, err)
	}
	if status, ok := ended.Sys().(syscall.WaitStatus); ok && status.Signaled() {
		return 128 + int(status.Signal()), fmt.Errorf("run %s: signal %d ended it (%v)", runc, status.Signal(), status.Signal())
	}
	return ended.ExitCode(), nil
}

// ask asks runc for the state of a container. What is wrong with the container is told by the start itself.
func ask(runc string, before, rest []string) (state, bool) {
	var found state
	words := append(append(append([]string{}, before...), "state"), rest...)
	text, err := exec.Command(runc, words...).Output()
	if err != nil || json.Unmarshal(text, &found) != nil {
		return found, false
	}
	return found, found.Pid > 0 && found.Bundle != ""
}

func isModules(bundle string) bool {
	about, err := os.Lstat(filepath.Join(bundle, container.RootName))
	return err == nil && about.IsDir()
}
