package group

import (
	"errors"
	"fmt"

	"github.com/containerd/cgroups"
	specs "github.com/opencontainers/runtime-spec/specs-go"
)

// controllers are those of version 1 that have limits and metrics for wasm-shim.
var controllers = map[cgroups.Name]bool{
	cgroups.Cpu: true, cgroups.Cpuacct: true, cgroups.Cpuset: true, cgroups.Memory: true, cgroups.Pids: true,
}

type first struct {
	cgroups.Cgroup
	name string
}

func newFirst(name string, limits *specs.LinuxResources) (Group, error) {
	made, err := cgroups.New(hierarchy, cgroups.StaticPath(name), ours(limits))
	if errors.Is(err, cgroups.ErrMountPointNotExist) {
		return nil, ErrNone
	}
	if err != nil {
		// The library leaves what it has made by then.
		if left, loadErr := loadFirst(name); loadErr == nil {
			_ = left.Delete()
		}
		return nil, fmt.Errorf("make the cgroup %s: %w", name, err)
	}
	return first{made, name}, nil
}

func loadFirst(name string) (Group, error) {
	found, err := cgroups.Load(hierarchy, cgroups.StaticPath(name))
	if err != nil {
		return nil, err
	}
	return first{found, name}, nil
}

// hierarchy is the machine's, but for tests.
var hierarchy cgroups.Hierarchy = ofTheMachine

func ofTheMachine() ([]cgroups.Subsystem, error) {
	all, err := cgroups.V1()
	if err != nil {
		return nil, err
	}
	var kept []cgroups.Subsystem
	for _, one := range all {
		if controllers[one.Name()] {
			kept = append(kept, one)
		}
	}
	return kept, nil
}

func (f first) Add(pid int) error {
	return f.Cgroup.AddProc(uint64(pid))
}

func (f first) Stats() (interface{}, error) {
	return f.Cgroup.Stat(cgroups.IgnoreNotExist)
}

// Delete removes the cgroup of each controller. The library's own would remove those below it too.
func (f first) Delete() error {
	var first error
	for _, controller := range f.Cgroup.Subsystems() {
		if placed, ok := controller.(interface{ Path(string) string }); ok {
			if err := remove(placed.Path(f.name)); err != nil && first == nil {
				first = err
			}
		}
	}
	return first
}
