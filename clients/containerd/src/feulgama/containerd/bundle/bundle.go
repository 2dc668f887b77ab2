// Package bundle reads what containerd gives for a container: its config, and the module in its image.
package bundle

import (
	"encoding/json"
	"fmt"
	"path/filepath"

	"github.com/containerd/containerd/errdefs"
	"github.com/containerd/containerd/mount"
	specs "github.com/opencontainers/runtime-spec/specs-go"

	"feulgama/lines"
	"feulgama/oci/config"
	"feulgama/oci/container"
	"feulgama/oci/lowering"
)

// Annotations that containerd's CRI writes.
const (
	Sandbox     = "io.kubernetes.cri.sandbox-id"
	kind        = "io.kubernetes.cri.container-type"
	kindSandbox = "sandbox"
)

// memory is the limit of a container that has none: the most that a module can have.
const memory = 16 << 20

// annotation names the module for wasm-shim.
const annotation = "dev.shim.module"

// Bundle is a container that is wanted.
type Bundle struct {
	Cgroup    string
	Resources *specs.LinuxResources
	config    *config.Config
	env       int
}

// Open reads the config of a folder.
func Open(folder string) (*Bundle, error) {
	c, err := config.Load(folder)
	if err != nil {
		return nil, err
	}
	process, err := c.Process()
	if err != nil {
		return nil, err
	}
	b := &Bundle{config: c, env: len(process.Env)}
	// What is wrong in the rest is found by wasm-shim, which says it better.
	var linux specs.Linux
	if text, err := json.Marshal(c.Tree["linux"]); err == nil && json.Unmarshal(text, &linux) == nil {
		b.Cgroup, b.Resources = linux.CgroupsPath, linux.Resources
	}
	return b, nil
}

// Annotation answers an annotation of the config, or nothing.
func (b *Bundle) Annotation(name string) string { return b.config.Annotation(name) }

// IsSandbox tells whether this is the sandbox of a pod, which runs nothing.
func (b *Bundle) IsSandbox() bool {
	return b.Annotation(kind) == kindSandbox
}

// Module answers the module that the first word of the config names. The image is mounted while it is looked for only.
func (b *Bundle) Module(mounts []mount.Mount) (_ []byte, err error) {
	if len(mounts) > 0 {
		root := filepath.Join(b.config.Bundle(), "rootfs")
		defer func() {
			if unmountErr := mount.UnmountAll(root, 0); unmountErr != nil && err == nil {
				err = fmt.Errorf("unmount the image: %w", unmountErr)
			}
		}()
		if err := mount.All(readOnly(mounts), root); err != nil {
			return nil, fmt.Errorf("mount the image: %w", err)
		}
	}
	module, err := container.Find(b.config)
	if err != nil {
		return nil, fmt.Errorf("%v: %w", err, errdefs.ErrInvalidArgument)
	}
	if module == nil {
		return nil, fmt.Errorf("the program of the container, %s, is no WebAssembly module, or is not in the image: %w",
			b.program(), errdefs.ErrInvalidArgument)
	}
	return module.Content, nil
}

// Lower translates a module for wasm-shim, if the config asks for it, and answers what was replaced.
func (b *Bundle) Lower(module []byte) (_ []byte, replaced string, err error) {
	wanted, err := lowering.Wanted(b.Annotation(lowering.Annotation))
	if err != nil {
		return nil, "", fmt.Errorf("%v: %w", err, errdefs.ErrInvalidArgument)
	}
	if !wanted {
		return module, "", nil
	}
	found, err := lowering.Lower(module)
	if err != nil {
		return nil, "", fmt.Errorf("%v: %w", err, errdefs.ErrInvalidArgument)
	}
	return found.Content, found.Replaced, nil
}

// readOnly are mounts that cannot be written. So the kernel has nothing to write out when they are taken away, which could
// take long.
func readOnly(mounts []mount.Mount) []mount.Mount {
	changed := make([]mount.Mount, len(mounts))
	for at, one := range mounts {
		options := []string{"ro"}
		for _, option := range one.Options {
			if option != "rw" && option != "ro" {
				options = append(options, option)
			}
		}
		one.Options = options
		changed[at] = one
	}
	return changed
}

func (b *Bundle) program() string {
	process, err := b.config.Process()
	if err != nil || len(process.Args) == 0 {
		return "which has no name"
	}
	return fmt.Sprintf("%q", process.Args[0])
}

// Config is the text of the config for wasm-shim: with the digest of the module, and with a limit of memory.
func (b *Bundle) Config(digest string) ([]byte, error) {
	config.Object(b.config.Tree, "annotations")[annotation] = digest
	if _, limited := b.Memory(); !limited {
		b.limit()
	}
	return json.Marshal(b.config.Tree)
}

// limit gives the config the default limit, if it has the shape that a config has.
func (b *Bundle) limit() {
	tree := b.config.Tree
	for _, name := range []string{"linux", "resources", "memory"} {
		if value, there := tree[name]; there {
			if _, ok := value.(config.Tree); !ok {
				return
			}
		}
		tree = config.Object(tree, name)
	}
	tree["limit"] = memory
}

// Memory is the limit of the container's memory, if it has one. Runtimes take 0 and less for none.
func (b *Bundle) Memory() (int64, bool) {
	if b.Resources == nil || b.Resources.Memory == nil || b.Resources.Memory.Limit == nil {
		return memory, false
	}
	limit := *b.Resources.Memory.Limit
	return limit, limit > 0
}

// Hint is what a person can do about a refusal of the config, or nothing.
func (b *Bundle) Hint(err error) string {
	if lines.IsRefused(err, lines.BadConfig) && b.env > lines.MostEnv {
		return fmt.Sprintf("; the environment has %d entries, and at most %d are allowed: "+
			"in Kubernetes, enableServiceLinks: false in the pod leaves out those of services", b.env, lines.MostEnv)
	}
	return ""
}
