package group

import (
	"errors"
	"fmt"
	"path/filepath"

	cgroups "github.com/containerd/cgroups/v2"
	specs "github.com/opencontainers/runtime-spec/specs-go"
)

const mounted = "/sys/fs/cgroup"

type second struct {
	*cgroups.Manager
	name string
}

// wanted are the controllers of version 2 that have limits and metrics for wasm-shim.
var wanted = []string{"cpu", "cpuset", "memory", "pids"}

func newSecond(name string, limits *specs.LinuxResources) (Group, error) {
	made, err := cgroups.NewManager(mounted, name, &cgroups.Resources{})
	if err != nil {
		return nil, fmt.Errorf("make the cgroup %s: %w", name, err)
	}
	if err := limit(made, cgroups.ToResources(ours(limits))); err != nil {
		_ = remove(filepath.Join(mounted, name))
		return nil, fmt.Errorf("limit the cgroup %s: %w", name, err)
	}
	return second{made, name}, nil
}

// limit sets limits by the controllers that the machine has. Where version 1 has some of them too, version 2 has not.
func limit(made *cgroups.Manager, limits *cgroups.Resources) error {
	there, err := made.RootControllers()
	if err != nil {
		return err
	}
	has := map[string]bool{}
	for _, one := range there {
		has[one] = true
	}
	var enabled []string
	for _, one := range wanted {
		if has[one] {
			enabled = append(enabled, one)
		}
	}
	if len(enabled) > 0 {
		if err := made.ToggleControllers(enabled, cgroups.Enable); err != nil {
			return err
		}
	}
	if limits.Memory != nil && !has["memory"] {
		return errors.New("there is no controller of memory")
	}
	if !has["cpu"] || !has["cpuset"] {
		limits.CPU = nil // each config has shares, which are nothing without others
	}
	return made.Update(limits)
}

func loadSecond(name string) (Group, error) {
	found, err := cgroups.LoadManager(mounted, name)
	if err != nil {
		return nil, err
	}
	return second{found, name}, nil
}

func (s second) Add(pid int) error {
	return s.Manager.AddProc(uint64(pid))
}

func (s second) Stats() (interface{}, error) {
	return s.Manager.Stat()
}

// Delete removes the cgroup. The library's own would remove those below it too.
func (s second) Delete() error {
	return remove(filepath.Join(mounted, s.name))
}
