package container

import (
	"encoding/json"
	"fmt"
	"os"
	"path/filepath"
	"strconv"
	"strings"

	"feulgama/oci/config"
	"feulgama/oci/elfneeds"
	"feulgama/oci/programs"
)

// Places inside a container.
const (
	own        = "/.feulgama"
	ownShim    = own + "/wasm-shim"
	ownFirst   = own + "/feulgama-oci"
	ownLibrary = own + "/lib"
)

// Supervise is the command of feulgama-oci that is the first process of a container.
const Supervise = "supervise"

// defaultMemory is the limit of a module's memory, in bytes, if the config has none: all that a module may have.
const defaultMemory = "16777216"

const nobody = 65534

// Programs are the two programs that run in a container, by their paths on the host.
type Programs struct {
	First string // feulgama-oci
	Shim  string // wasm-shim
}

// Contain rewrites the config for the module and makes the container's root in the bundle. The config is not saved.
func Contain(c *config.Config, module *Module, with Programs) error {
	mounts, err := with.mounts()
	if err != nil {
		return err
	}
	if err := isFree(module.Words[0], mounts); err != nil {
		return err
	}
	if err := checkUser(c); err != nil {
		return err
	}
	if err := makeRoot(filepath.Join(c.Bundle(), RootName), module.Words[0], module.Content); err != nil {
		return err
	}
	setProcess(c, module)
	c.Tree["root"] = config.Tree{"path": RootName, "readonly": true}
	c.Tree["mounts"] = append(systemMounts(c), mounts...)
	setLinux(c)
	dropNetworkHook(c)
	return nil
}

// binds are files of the host that a container sees, to be read only.
type binds struct {
	mounts []config.Mount
	seen   map[string]bool
}

func (b *binds) add(source, destination string, rights os.FileMode) error {
	if b.seen[destination] {
		return nil
	}
	b.seen[destination] = true
	b.mounts = append(b.mounts, config.Mount{Destination: destination, Type: "bind", Source: source,
		Options: []string{"bind", "ro", "nosuid", "nodev"}})
	return programs.OpenToAll(source, rights)
}

// addProgram adds a program, its loader and its libraries.
func (b *binds) addProgram(source, destination string) error {
	if err := b.add(source, destination, programs.Run); err != nil {
		return err
	}
	needs, err := elfneeds.Of(source)
	if err != nil {
		return err
	}
	if needs.Loader != "" {
		if err := b.add(needs.Loader, filepath.Clean(needs.Loader), programs.Run); err != nil {
			return err
		}
	}
	for _, name := range needs.Names() {
		if err := b.add(needs.Libraries[name], ownLibrary+"/"+name, programs.Read); err != nil {
			return err
		}
	}
	return nil
}

// mounts binds both programs and what they need into the container.
func (p Programs) mounts() ([]config.Mount, error) {
	b := binds{mounts: []config.Mount{}, seen: map[string]bool{}}
	if err := b.addProgram(p.First, ownFirst); err != nil {
		return nil, err
	}
	if err := b.addProgram(p.Shim, ownShim); err != nil {
		return nil, err
	}
	return b.mounts, nil
}

// isFree refuses a module whose place in the container is that of something else.
func isFree(word string, mounts []config.Mount) error {
	place := clean(word)
	taken := []string{own, "/proc", "/dev"}
	for _, mount := range mounts {
		taken = append(taken, mount.Destination)
	}
	for _, other := range taken {
		_, in := below(place, other)
		_, over := below(other, place)
		if in || over {
			return fmt.Errorf("the module's name is %s, and the container needs %s for itself: "+
				"give the module another place in the image", word, other)
		}
	}
	return nil
}

// checkUser refuses a user namespace without the user nobody.
func checkUser(c *config.Config) error {
	for _, name := range []string{"uidMappings", "gidMappings"} {
		ranges, ok := config.Object(c.Tree, "linux")[name].([]interface{})
		if !ok || len(ranges) == 0 || isMapped(ranges, nobody) {
			continue
		}
		return fmt.Errorf("linux.%s of the config has no %d, and the module runs as nobody: "+
			"give the user namespace at least %d ids (/etc/subuid, /etc/subgid)", name, nobody, nobody+1)
	}
	return nil
}

func isMapped(ranges []interface{}, id int64) bool {
	for _, item := range ranges {
		one, _ := item.(config.Tree)
		first, size := number(one["containerID"]), number(one["size"])
		if first <= id && id-first < size {
			return true
		}
	}
	return false
}

// number is a whole number of a config, or 0.
func number(value interface{}) int64 {
	text, _ := value.(json.Number)
	n, err := strconv.ParseInt(text.String(), 10, 64)
	if err != nil {
		return 0
	}
	return n
}

// setProcess makes wasm-shim the program. The module's environment is in words, and not in that of wasm-shim, so that
// no image says how the loader loads it.
func setProcess(c *config.Config, module *Module) {
	words := []string{ownFirst, Supervise, ownShim, "run", "--explain", "--memory", memory(c)}
	for _, entry := range module.Env {
		words = append(words, "--env", entry)
	}
	words = append(append(words, "--"), module.Words...)
	process := config.Object(c.Tree, "process")
	process["args"] = words
	process["env"] = []string{"LD_LIBRARY_PATH=" + ownLibrary}
	process["cwd"] = "/"
	process["user"] = config.Tree{"uid": nobody, "gid": nobody}
	process["noNewPrivileges"] = true
	process["capabilities"] = config.Tree{}
	delete(process, "commandLine")
}

// memory is the limit of the module's memory: that of the container, if it has one.
func memory(c *config.Config) string {
	limits := config.Object(config.Object(config.Object(c.Tree, "linux"), "resources"), "memory")
	if limit := number(limits["limit"]); limit > 0 {
		return strconv.FormatInt(limit, 10)
	}
	return defaultMemory
}

// systemMounts are the mounts that runc itself needs.
func systemMounts(c *config.Config) []config.Mount {
	mounts := []config.Mount{
		{Destination: "/proc", Type: "proc", Source: "proc", Options: []string{"nosuid", "noexec", "nodev"}},
		{Destination: "/dev", Type: "tmpfs", Source: "tmpfs",
			Options: []string{"nosuid", "noexec", "strictatime", "mode=755", "size=65536k"}},
	}
	if terminal, _ := config.Object(c.Tree, "process")["terminal"].(bool); terminal {
		mounts = append(mounts, config.Mount{Destination: "/dev/pts", Type: "devpts", Source: "devpts",
			Options: []string{"nosuid", "noexec", "newinstance", "ptmxmode=0666", "mode=0620"}})
	}
	return mounts
}

// Paths of /proc that a container does not see, or cannot write, unless the config says which.
var (
	maskedPaths = []string{"/proc/acpi", "/proc/asound", "/proc/kcore", "/proc/keys", "/proc/latency_stats",
		"/proc/timer_list", "/proc/timer_stats", "/proc/sched_debug", "/proc/scsi", "/sys/firmware"}
	readonlyPaths = []string{"/proc/bus", "/proc/fs", "/proc/irq", "/proc/sys", "/proc/sysrq-trigger"}
)

// setLinux gives the container namespaces of its own, and no devices but those that each one has.
func setLinux(c *config.Config) {
	linux := config.Object(c.Tree, "linux")
	kept := []interface{}{}
	for _, name := range []string{"mount", "pid", "ipc", "uts", "network"} {
		kept = append(kept, config.Tree{"type": name})
	}
	others, _ := linux["namespaces"].([]interface{})
	for _, item := range others {
		one, _ := item.(config.Tree)
		switch one["type"] {
		case "mount", "pid", "ipc", "uts", "network":
		default:
			kept = append(kept, item)
		}
	}
	linux["namespaces"] = kept
	delete(linux, "devices")
	for name, paths := range map[string][]string{"maskedPaths": maskedPaths, "readonlyPaths": readonlyPaths} {
		if there, ok := linux[name].([]interface{}); !ok || len(there) == 0 {
			linux[name] = paths
		}
	}
}

// dropNetworkHook takes away the hook by which docker moves a network interface into the container.
func dropNetworkHook(c *config.Config) {
	hooks, ok := c.Tree["hooks"].(config.Tree)
	if !ok {
		return
	}
	all, _ := hooks["prestart"].([]interface{})
	kept := []interface{}{}
	for _, item := range all {
		one, _ := item.(config.Tree)
		words, _ := one["args"].([]interface{})
		if len(words) > 0 && strings.Contains(fmt.Sprint(words[0]), "libnetwork-setkey") {
			continue
		}
		kept = append(kept, item)
	}
	hooks["prestart"] = kept
}
