// Package group has the cgroup of a container: of version 1 or 2, as the machine has it.
package group

import (
	"errors"
	"fmt"
	"path"
	"strings"
	"time"

	"github.com/containerd/cgroups"
	statsv1 "github.com/containerd/cgroups/stats/v1"
	statsv2 "github.com/containerd/cgroups/v2/stats"
	specs "github.com/opencontainers/runtime-spec/specs-go"
	"golang.org/x/sys/unix"
)

// Beside is the memory that the interpreter may take besides that of the module.
const Beside = 32 << 20

// Group is a cgroup.
type Group interface {
	Add(pid int) error
	// Stats are the metrics in the type that containerd expects of the version.
	Stats() (interface{}, error)
	Delete() error
}

// ErrNone says that the machine has no cgroups.
var ErrNone = errors.New("no cgroups are mounted at /sys/fs/cgroup")

// New makes a cgroup.
func New(name string, limits *specs.LinuxResources) (Group, error) {
	if cgroups.Mode() == cgroups.Unified {
		return newSecond(name, limits)
	}
	return newFirst(name, limits)
}

// Load is a cgroup that is there already.
func Load(name string) (Group, error) {
	if cgroups.Mode() == cgroups.Unified {
		return loadSecond(name)
	}
	return loadFirst(name)
}

// Path is the path of a cgroup in the hierarchy for the path of a config. systemd's form is SLICE:PREFIX:NAME.
func Path(configured, namespace, id string) (string, error) {
	if configured == "" {
		return path.Join("/", namespace, id), nil
	}
	parts := strings.Split(configured, ":")
	if len(parts) != 3 {
		return path.Join("/", configured), nil
	}
	slice, err := expand(parts[0])
	if err != nil {
		return "", err
	}
	name := parts[2]
	if !strings.HasSuffix(name, ".slice") {
		name = parts[1] + "-" + name + ".scope"
	}
	return path.Join("/", slice, strings.ReplaceAll(name, "/", "_")), nil
}

// expand is the folder of a slice: a-b.slice is a.slice/a-b.slice.
func expand(slice string) (string, error) {
	if slice == "" || slice == "-.slice" {
		return "/", nil
	}
	name := strings.TrimSuffix(slice, ".slice")
	if name == slice || strings.Contains(name, "/") {
		return "", fmt.Errorf("%q is no slice of systemd", slice)
	}
	folder, prefix := "/", ""
	for _, part := range strings.Split(name, "-") {
		if part == "" {
			return "", fmt.Errorf("%q is no slice of systemd", slice)
		}
		prefix += part
		folder = path.Join(folder, prefix+".slice")
		prefix += "-"
	}
	return folder, nil
}

// ours are the limits of a config that hold for wasm-shim too. Its memory is that of the module and the interpreter.
func ours(limits *specs.LinuxResources) *specs.LinuxResources {
	kept := &specs.LinuxResources{}
	if limits == nil {
		return kept
	}
	kept.CPU = limits.CPU
	if limits.Memory != nil && limits.Memory.Limit != nil && *limits.Memory.Limit > 0 {
		most := *limits.Memory.Limit + Beside
		kept.Memory = &specs.LinuxMemory{Limit: &most}
	}
	return kept
}

// patience is how long a cgroup may still be in use after its process has ended.
const patience = 100 * time.Millisecond

// remove removes a cgroup, and nothing below it. One that others use too stays.
func remove(folder string) error {
	for rest := time.Millisecond; ; rest *= 2 {
		err := unix.Rmdir(folder)
		switch {
		case err == nil, errors.Is(err, unix.ENOENT):
			return nil
		case !errors.Is(err, unix.EBUSY):
			return fmt.Errorf("remove the cgroup %s: %w", folder, err)
		case rest > patience:
			return nil
		}
		time.Sleep(rest)
	}
}

// Nothing are the metrics of no process at all.
func Nothing() interface{} {
	if cgroups.Mode() == cgroups.Unified {
		return &statsv2.Metrics{CPU: &statsv2.CPUStat{}, Memory: &statsv2.MemoryStat{}, Pids: &statsv2.PidsStat{}}
	}
	return &statsv1.Metrics{
		CPU:    &statsv1.CPUStat{Usage: &statsv1.CPUUsage{}, Throttling: &statsv1.Throttle{}},
		Memory: &statsv1.MemoryStat{Usage: &statsv1.MemoryEntry{}},
	}
}
