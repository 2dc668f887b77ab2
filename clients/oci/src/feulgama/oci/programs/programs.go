// Package programs finds the programs that the adapters need: wasm-shim, runc, and the command feulgama.
package programs

import (
	"errors"
	"fmt"
	"os"
	"os/exec"
	"path/filepath"
	"strings"
)

// Variables of the environment that name the programs.
const (
	ShimVariable    = "FEULGAMA_SHIM"
	RuncVariable    = "FEULGAMA_RUNC"
	CommandVariable = "FEULGAMA_COMMAND"
)

// usual are the folders of programs. podman calls its runtime without any environment when it pauses or stops a
// container, so PATH may be empty.
const usual = "/usr/local/sbin:/usr/local/bin:/usr/sbin:/usr/bin:/sbin:/bin"

// Shim finds wasm-shim: by FEULGAMA_SHIM, which is believed, else beside the file own, by PATH, or as it is installed.
func Shim(own string) (string, error) {
	return find("wasm-shim", ShimVariable, own)
}

// Command finds the command feulgama in the same way, by FEULGAMA_COMMAND.
func Command(own string) (string, error) {
	return find("feulgama", CommandVariable, own)
}

func find(name, variable, own string) (string, error) {
	if named := os.Getenv(variable); named != "" {
		return namedProgram(variable, named)
	}
	beside, installed := filepath.Join(filepath.Dir(own), name), filepath.Join("/usr/bin", name)
	if isProgram(beside) {
		return beside, nil
	}
	if found, err := exec.LookPath(name); err == nil {
		return filepath.Abs(found)
	}
	if isProgram(installed) {
		return installed, nil
	}
	return "", fmt.Errorf("%s was not found: looked for %s, %s in PATH (%s), and %s; set %s to its path",
		name, beside, name, os.Getenv("PATH"), installed, variable)
}

// Runc finds runc: by FEULGAMA_RUNC, which is believed, else by PATH, or in a usual folder of programs.
func Runc() (string, error) {
	if named := os.Getenv(RuncVariable); named != "" {
		return namedProgram(RuncVariable, named)
	}
	if found, err := exec.LookPath("runc"); err == nil {
		return filepath.Abs(found)
	}
	for _, folder := range strings.Split(usual, ":") {
		if found := filepath.Join(folder, "runc"); isProgram(found) {
			return found, nil
		}
	}
	return "", fmt.Errorf("runc was not found: looked in PATH (%s) and in %s; install it, or set %s to its path",
		os.Getenv("PATH"), usual, RuncVariable)
}

func namedProgram(variable, path string) (string, error) {
	if !strings.HasPrefix(path, "/") {
		return "", fmt.Errorf("%s is %q: it has to be an absolute path", variable, path)
	}
	if !isProgram(path) {
		return "", fmt.Errorf("%s is %s: there is no program", variable, path)
	}
	return path, nil
}

func isProgram(path string) bool {
	about, err := os.Stat(path)
	return err == nil && about.Mode().IsRegular() && about.Mode().Perm()&0o111 != 0
}

// What the container's user has to be allowed to do with a file.
const (
	Read = 0o4
	Run  = 0o5
)

// OpenToAll checks that a user without any right may use the file, as the container's user does.
func OpenToAll(path string, rights os.FileMode) error {
	about, err := os.Stat(path)
	if err != nil {
		return fmt.Errorf("look at a file that the container needs: %w", err)
	}
	if !about.Mode().IsRegular() {
		return errors.New(path + " is no regular file")
	}
	if about.Mode().Perm()&rights != rights {
		letters := map[os.FileMode]string{Read: "r", Run: "rx"}[rights]
		return fmt.Errorf("%s has the mode %04o, and the container's user is nobody: chmod o+%s %s",
			path, about.Mode().Perm(), letters, path)
	}
	return nil
}
