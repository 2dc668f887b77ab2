package container

import (
	"bytes"
	"encoding/json"
	"os"
	"path/filepath"
	"strings"
	"testing"

	"github.com/opencontainers/runtime-spec/specs-go"

	"feulgama/oci/config"
)

var module = []byte("\x00asm\x01\x00\x00\x00")

// bundle makes a bundle with an image and a volume, and a config of that text.
func bundle(t *testing.T, text string) *config.Config {
	t.Helper()
	folder := t.TempDir()
	files := map[string]string{
		"rootfs/m.wasm": string(module), "rootfs/srv/m.wasm": string(module) + "srv", "rootfs/bin/m.wasm": string(module) + "bin",
		"rootfs/bin/sh": "#!/bin/sh", "volume/v.wasm": string(module) + "volume", "one.wasm": string(module) + "one",
		"config.json": text,
	}
	for name, content := range files {
		path := filepath.Join(folder, name)
		if err := os.MkdirAll(filepath.Dir(path), 0o755); err != nil {
			t.Fatal(err)
		}
		if err := os.WriteFile(path, []byte(content), 0o644); err != nil {
			t.Fatal(err)
		}
	}
	c, err := config.Load(folder)
	if err != nil {
		t.Fatal(err)
	}
	return c
}

func TestFind(t *testing.T) {
	cases := []struct{ name, process, mounts, want string }{
		{"an absolute name", `"args":["/m.wasm"]`, ``, string(module)},
		{"relative to the folder", `"args":["./m.wasm"],"cwd":"/srv"`, ``, string(module) + "srv"},
		{"by PATH", `"args":["m.wasm"],"env":["A=B","PATH=/none:/bin:/srv"]`, ``, string(module) + "bin"},
		{"by the usual PATH", `"args":["m.wasm"]`, ``, string(module) + "bin"},
		{"another program", `"args":["/bin/sh"]`, ``, ""},
		{"no such file", `"args":["/none"]`, ``, ""},
		{"no words", `"args":[]`, ``, ""},
		{"no process", ``, ``, ""},
		{"in a volume", `"args":["/vol/v.wasm"]`, `{"destination":"/vol","type":"bind","source":"volume"}`,
			string(module) + "volume"},
		{"a volume of one file", `"args":["/x.wasm"]`, `{"destination":"/x.wasm","source":"one.wasm","options":["rbind"]}`,
			string(module) + "one"},
		{"under a volume of one file", `"args":["/x.wasm/y"]`,
			`{"destination":"/x.wasm","source":"one.wasm","options":["rbind"]}`, ""},
		{"hidden by a mount", `"args":["/m.wasm"]`, `{"destination":"/","type":"tmpfs"}`, ""},
		{"the later mount counts", `"args":["/vol/v.wasm"]`,
			`{"destination":"/vol","type":"bind","source":"volume"},{"destination":"/vol","type":"tmpfs"}`, ""},
	}
	for _, c := range cases {
		t.Run(c.name, func(t *testing.T) {
			text := `{"root":{"path":"rootfs"},"process":{` + c.process + `},"mounts":[` + c.mounts + `]}`
			if c.process == "" {
				text = `{"root":{"path":"rootfs"}}`
			}
			found, err := Find(bundle(t, text))
			if err != nil || (found != nil) != (c.want != "") || found != nil && string(found.Content) != c.want {
				t.Errorf("%+v, %v", found, err)
			}
		})
	}
}

const full = `{"ociVersion":"1.0.2","hostname":"h","annotations":{"a":"b"},
"process":{"terminal":true,"user":{"uid":0,"gid":0,"additionalGids":[1,2]},"args":["/app/m.wasm","-x","two words"],
 "env":["PATH=/bin","LD_PRELOAD=/evil.so"],"cwd":"/srv","capabilities":{"bounding":["CAP_CHOWN"],"ambient":["CAP_CHOWN"]},
 "rlimits":[{"type":"RLIMIT_NOFILE","hard":5,"soft":5}],"oomScoreAdj":7},
"root":{"path":"rootfs"},
"mounts":[{"destination":"/proc","type":"proc","source":"proc"},{"destination":"/etc/hosts","type":"bind","source":"/etc/hosts",
 "options":["rbind"]}],
"hooks":{"prestart":[{"path":"/proc/1/exe","args":["libnetwork-setkey","x"]},{"path":"/h","args":["h"]}]},
"linux":{"cgroupsPath":"/c","devices":[{"path":"/dev/sda","type":"b","major":8,"minor":0}],
 "resources":{"memory":{"limit":33554432},"pids":{"limit":9}},"maskedPaths":["/proc/own"],
 "namespaces":[{"type":"pid","path":"/proc/1/ns/pid"},{"type":"network","path":"/run/netns/x"},{"type":"mount"},
  {"type":"cgroup"}]}}`

// contained rewrites a config by programs of this system, and reads the result as strictly as a runtime may.
func contained(t *testing.T, text string, m *Module) (*config.Config, specs.Spec) {
	t.Helper()
	c := bundle(t, text)
	own, err := os.Executable()
	if err != nil {
		t.Fatal(err)
	}
	if err := Contain(c, m, Programs{First: own, Shim: "/bin/true"}); err != nil {
		t.Fatal(err)
	}
	if err := c.Save(); err != nil {
		t.Fatal(err)
	}
	written, err := os.ReadFile(c.InBundle(config.Name))
	if err != nil {
		t.Fatal(err)
	}
	var spec specs.Spec
	decoder := json.NewDecoder(bytes.NewReader(written))
	decoder.DisallowUnknownFields()
	if err := decoder.Decode(&spec); err != nil {
		t.Fatal(err)
	}
	return c, spec
}

func sampleModule() *Module {
	return &Module{Words: []string{"/app/m.wasm", "-x", "two words"}, Env: []string{"PATH=/bin", "LD_PRELOAD=/evil.so"},
		Content: module}
}

func TestTheProcess(t *testing.T) {
	_, spec := contained(t, full, sampleModule())
	want := "/.feulgama/feulgama-oci|supervise|/.feulgama/wasm-shim|run|--explain|--memory|33554432|" +
		"--env|PATH=/bin|--env|LD_PRELOAD=/evil.so|--|/app/m.wasm|-x|two words"
	if got := strings.Join(spec.Process.Args, "|"); got != want {
		t.Errorf("args: %s", got)
	}
	if got := strings.Join(spec.Process.Env, "|"); got != "LD_LIBRARY_PATH=/.feulgama/lib" {
		t.Errorf("env: %s", got)
	}
	p := spec.Process
	if p.User.UID != 65534 || p.User.GID != 65534 || len(p.User.AdditionalGids) != 0 {
		t.Errorf("user: %+v", p.User)
	}
	if p.Capabilities == nil || len(p.Capabilities.Bounding)+len(p.Capabilities.Ambient)+len(p.Capabilities.Effective) != 0 {
		t.Errorf("capabilities: %+v", p.Capabilities)
	}
	if !p.NoNewPrivileges || p.Cwd != "/" || !p.Terminal || len(p.Rlimits) != 1 || *p.OOMScoreAdj != 7 {
		t.Errorf("process: %+v", p)
	}
}

func TestTheRootAndMounts(t *testing.T) {
	c, spec := contained(t, full, sampleModule())
	if spec.Root.Path != RootName || !spec.Root.Readonly {
		t.Errorf("root: %+v", spec.Root)
	}
	var places []string
	for _, mount := range spec.Mounts {
		places = append(places, mount.Destination)
		if mount.Type == "bind" && !strings.Contains(strings.Join(mount.Options, ","), "bind,ro") {
			t.Errorf("a mount that can be written: %+v", mount)
		}
	}
	all := strings.Join(places, " ")
	for _, place := range []string{"/proc", "/dev", "/dev/pts", "/.feulgama/feulgama-oci", "/.feulgama/wasm-shim",
		"/lib64/ld-linux-x86-64.so.2", "/.feulgama/lib/libc.so.6"} {
		if !strings.Contains(" "+all+" ", " "+place+" ") {
			t.Errorf("%s is not mounted: %s", place, all)
		}
	}
	if strings.Contains(all, "/etc/hosts") {
		t.Errorf("a mount of the config is kept: %s", all)
	}
	content, err := os.ReadFile(filepath.Join(c.Bundle(), RootName, "app/m.wasm"))
	if err != nil || !bytes.Equal(content, module) {
		t.Errorf("the module: %q, %v", content, err)
	}
}

func TestNamespacesDevicesAndHooks(t *testing.T) {
	_, spec := contained(t, full, sampleModule())
	var spaces []string
	for _, space := range spec.Linux.Namespaces {
		spaces = append(spaces, string(space.Type)+space.Path)
	}
	if got := strings.Join(spaces, " "); got != "mount pid ipc uts network cgroup" {
		t.Errorf("namespaces: %s", got)
	}
	if len(spec.Linux.Devices) != 0 || spec.Linux.MaskedPaths[0] != "/proc/own" || len(spec.Linux.ReadonlyPaths) != 5 {
		t.Errorf("linux: %+v", spec.Linux)
	}
	if *spec.Linux.Resources.Memory.Limit != 33554432 || spec.Linux.Resources.Pids.Limit != 9 || spec.Linux.CgroupsPath != "/c" {
		t.Errorf("resources: %+v", spec.Linux.Resources)
	}
	if len(spec.Hooks.Prestart) != 1 || spec.Hooks.Prestart[0].Path != "/h" {
		t.Errorf("hooks: %+v", spec.Hooks)
	}
	if spec.Hostname != "h" || spec.Annotations["a"] != "b" {
		t.Errorf("what is not ours: %+v", spec)
	}
}

func TestWithoutALimitAModuleHasAllThatItMayHave(t *testing.T) {
	for _, limit := range []string{`{}`, `{"resources":{"memory":{"limit":-1}}}`, `{"resources":{"memory":{"limit":0}}}`} {
		_, spec := contained(t, `{"ociVersion":"1.0.2","root":{"path":"rootfs"},"process":{"args":["/m.wasm"],"cwd":"/"},"linux":`+
			limit+`}`, &Module{Words: []string{"/m.wasm"}, Content: module})
		if got := strings.Join(spec.Process.Args, " "); !strings.Contains(got, "--memory 16777216 --") {
			t.Errorf("%s: %s", limit, got)
		}
		for _, mount := range spec.Mounts {
			if mount.Destination == "/dev/pts" {
				t.Error("a container without a terminal has /dev/pts")
			}
		}
	}
}

func TestPlacesOfTheModule(t *testing.T) {
	for word, want := range map[string]string{
		"/m.wasm": "m.wasm", "m.wasm": "m.wasm", "./a/m.wasm": "a/m.wasm", "../../m.wasm": "m.wasm", "/a/../b/m.wasm": "b/m.wasm",
		"-m.wasm": "-m.wasm",
	} {
		root := filepath.Join(t.TempDir(), RootName)
		for round := 0; round < 2; round++ {
			if err := makeRoot(root, word, module); err != nil {
				t.Fatal(err)
			}
		}
		// The word leads there also as the kernel reads it, with the root as the current folder.
		for _, path := range []string{filepath.Join(root, want), root + "/" + strings.TrimLeft(word, "./")} {
			if content, err := os.ReadFile(path); err != nil || !bytes.Equal(content, module) {
				t.Errorf("%s: %v", word, err)
			}
		}
	}
}

func TestNothingIsLeftOfAnEarlierRoot(t *testing.T) {
	outside := t.TempDir()
	root := filepath.Join(t.TempDir(), RootName)
	if err := os.Symlink(outside, root); err != nil {
		t.Fatal(err)
	}
	if err := makeRoot(root, "/m", module); err != nil {
		t.Fatal(err)
	}
	if err := makeRoot(root, "/n", module); err != nil {
		t.Fatal(err)
	}
	names, _ := os.ReadDir(root)
	others, _ := os.ReadDir(outside)
	if len(names) != 1 || len(others) != 0 {
		t.Errorf("%v, %v", names, others)
	}
}

func TestRefusals(t *testing.T) {
	own, _ := os.Executable()
	closed := filepath.Join(t.TempDir(), "wasm-shim")
	if err := os.WriteFile(closed, nil, 0o700); err != nil {
		t.Fatal(err)
	}
	good := Programs{First: own, Shim: "/bin/true"}
	mapped := `,"linux":{"uidMappings":[{"containerID":0,"hostID":1000,"size":1},{"containerID":1,"hostID":9,"size":65533}]}`
	for _, c := range []struct {
		name, word, linux, want string
		with                    Programs
	}{
		{"the place of the programs", "/.feulgama/m", "", "another place", good},
		{"the place of the loader", "/lib64", "", "another place", good},
		{"a system's folder", "x/../proc/m", "", "/proc", good},
		{"a user namespace without nobody", "/m", mapped, "/etc/subuid", good},
		{"a program that nobody may run", "/m", "", "chmod o+rx", Programs{First: own, Shim: closed}},
		{"no program", "/m", "", "/nowhere", Programs{First: own, Shim: "/nowhere"}},
	} {
		t.Run(c.name, func(t *testing.T) {
			b := bundle(t, `{"root":{"path":"rootfs"}`+c.linux+`}`)
			err := Contain(b, &Module{Words: []string{c.word}, Content: module}, c.with)
			if err == nil || !strings.Contains(err.Error(), c.want) {
				t.Errorf("%v; want %q", err, c.want)
			}
		})
	}
	whole := `,"linux":{"uidMappings":[{"containerID":0,"hostID":1000,"size":65536}]}`
	if err := Contain(bundle(t, `{"root":{"path":"rootfs"}`+whole+`}`), sampleModule(), good); err != nil {
		t.Errorf("a user namespace with nobody: %v", err)
	}
}
