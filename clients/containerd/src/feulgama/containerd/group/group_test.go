package group

import (
	"errors"
	"fmt"
	"os"
	"os/exec"
	"path/filepath"
	"strings"
	"testing"

	"github.com/containerd/cgroups"
	specs "github.com/opencontainers/runtime-spec/specs-go"
)

func TestPaths(t *testing.T) {
	for configured, want := range map[string]string{
		"":                              "/ns/id",
		"/default/one":                  "/default/one",
		"kubepods/pod1/c":               "/kubepods/pod1/c",
		"../../up":                      "/up",
		"system.slice:cri:abc":          "/system.slice/cri-abc.scope",
		"a-b-c.slice:cri-containerd:id": "/a.slice/a-b.slice/a-b-c.slice/cri-containerd-id.scope",
		"a.slice::b.slice":              "/a.slice/b.slice",
		":cri:abc":                      "/cri-abc.scope",
		"a.slice:x:../y":                "/a.slice/x-.._y.scope",
	} {
		if got, err := Path(configured, "ns", "id"); err != nil || got != want {
			t.Errorf("%q: %s, %v", configured, got, err)
		}
	}
	for _, wrong := range []string{"a:b:c", "a--b.slice:x:y", "../a.slice:x:y"} {
		if got, err := Path(wrong, "ns", "id"); err == nil {
			t.Errorf("%q: %s", wrong, got)
		}
	}
}

func TestOurLimits(t *testing.T) {
	some, none := int64(64<<20), int64(-1)
	pids := &specs.LinuxPids{Limit: 1}
	if got := ours(&specs.LinuxResources{Memory: &specs.LinuxMemory{Limit: &some}, Pids: pids}); *got.Memory.Limit != 96<<20 || got.Pids != nil {
		t.Errorf("%+v", got)
	}
	if got := ours(&specs.LinuxResources{Memory: &specs.LinuxMemory{Limit: &none}}); got.Memory != nil {
		t.Errorf("%+v", got)
	}
	if got := ours(nil); got == nil || got.Memory != nil {
		t.Errorf("%+v", got)
	}
}

// controller is one of version 1, in a folder of a test. It refuses limits if it has a reason.
type controller struct {
	name   cgroups.Name
	root   string
	reason error
}

func (c controller) Name() cgroups.Name { return c.name }

func (c controller) Path(path string) string { return filepath.Join(c.root, string(c.name), path) }

func (c controller) Create(path string, _ *specs.LinuxResources) error {
	if err := os.MkdirAll(c.Path(path), 0o700); err != nil {
		return err
	}
	return c.reason
}

func TestALimitThatIsRefusedLeavesNoCgroup(t *testing.T) {
	before := hierarchy
	defer func() { hierarchy = before }()
	for _, reason := range []error{nil, errors.New("it is too low")} {
		root := t.TempDir()
		hierarchy = func() ([]cgroups.Subsystem, error) {
			return []cgroups.Subsystem{controller{cgroups.Cpu, root, nil}, controller{cgroups.Memory, root, reason}}, nil
		}
		_, err := newFirst("/pod/one", nil)
		if !errors.Is(err, reason) {
			t.Errorf("%v, and not %v", err, reason)
		}
		left, globErr := filepath.Glob(filepath.Join(root, "*", "pod", "one"))
		if globErr != nil || (len(left) == 0) != (reason != nil) {
			t.Errorf("%v: %v is left, %v", reason, left, globErr)
		}
	}
}

// A cgroup of the machine's version holds a process, and is gone afterwards.
func TestACgroupOfTheMachine(t *testing.T) {
	if testing.Short() {
		t.Skip("makes a cgroup")
	}
	name := fmt.Sprintf("/feulgama-test-%d", os.Getpid())
	limit := int64(64 << 20)
	made, err := New(name, &specs.LinuxResources{Memory: &specs.LinuxMemory{Limit: &limit}})
	if errors.Is(err, ErrNone) || errors.Is(err, os.ErrPermission) {
		t.Skip(err)
	}
	if err != nil {
		t.Fatal(err)
	}
	command := exec.Command("sleep", "60")
	if err := command.Start(); err != nil {
		t.Fatal(err)
	}
	if err := made.Add(command.Process.Pid); err != nil {
		t.Error(err)
	}
	text, err := os.ReadFile(fmt.Sprintf("/proc/%d/cgroup", command.Process.Pid))
	if err != nil || !strings.Contains(string(text), ":"+name+"\n") {
		t.Errorf("%s, %v", text, err)
	}
	if metrics, err := made.Stats(); err != nil || metrics == nil {
		t.Errorf("%v, %v", metrics, err)
	}
	_ = command.Process.Kill()
	_ = command.Wait()
	deleteAll(t, name)
}

// folders are those of a cgroup, of each controller or of version 2.
func folders(name string) []string {
	first, _ := filepath.Glob("/sys/fs/cgroup/*" + name)
	second, _ := filepath.Glob("/sys/fs/cgroup" + name)
	return append(first, second...)
}

// deleteAll checks that a cgroup stays as long as it has another one in it, which stays too, and is gone afterwards.
func deleteAll(t *testing.T, name string) {
	t.Helper()
	inner, err := New(name+"/inner", nil)
	if err != nil {
		t.Fatal(err)
	}
	outer, err := Load(name)
	if err != nil {
		t.Fatal(err)
	}
	if err := outer.Delete(); err != nil || len(folders(name)) == 0 || len(folders(name+"/inner")) == 0 {
		t.Errorf("%v: %v, %v", err, folders(name), folders(name+"/inner"))
	}
	for _, one := range []Group{inner, outer, outer} {
		if err := one.Delete(); err != nil {
			t.Error(err)
		}
	}
	if left := folders(name); len(left) > 0 {
		t.Errorf("%v are left", left)
	}
}
