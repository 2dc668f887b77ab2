// Package config reads and writes the config.json of a bundle. It keeps the properties that it does not know: the
// config is a tree, and only what a caller sets is changed.
package config

import (
	"bytes"
	"encoding/json"
	"errors"
	"fmt"
	"io/fs"
	"os"
	"path/filepath"
	"syscall"
)

// Names of files in a bundle.
const (
	Name     = "config.json"
	Original = "config.json.before-feulgama"
)

// Tree is an object of JSON. Its numbers are json.Number, so that none is rounded.
type Tree = map[string]interface{}

// Config is the config of a bundle.
type Config struct {
	Tree   Tree
	bundle string
	text   []byte // as it was read
}

// Process is what a config says of the container's program.
type Process struct {
	Args []string `json:"args"`
	Env  []string `json:"env"`
	Cwd  string   `json:"cwd"`
}

// Mount is one mount of a config.
type Mount struct {
	Destination string   `json:"destination"`
	Type        string   `json:"type,omitempty"`
	Source      string   `json:"source,omitempty"`
	Options     []string `json:"options,omitempty"`
}

// IsBind tells whether the mount shows files of the host.
func (m Mount) IsBind() bool {
	for _, option := range m.Options {
		if option == "bind" || option == "rbind" {
			return true
		}
	}
	return m.Type == "bind"
}

// Load reads the config of a bundle.
func Load(bundle string) (*Config, error) {
	bundle, err := filepath.Abs(bundle)
	if err != nil {
		return nil, fmt.Errorf("find the bundle: %w", err)
	}
	text, err := os.ReadFile(filepath.Join(bundle, Name))
	if err != nil {
		return nil, fmt.Errorf("read the bundle's config: %w", err)
	}
	c := &Config{bundle: bundle, text: text}
	decoder := json.NewDecoder(bytes.NewReader(text))
	decoder.UseNumber()
	if err := decoder.Decode(&c.Tree); err != nil {
		return nil, fmt.Errorf("read %s: %w", filepath.Join(bundle, Name), err)
	}
	if c.Tree == nil {
		return nil, fmt.Errorf("read %s: it is null, and no object", filepath.Join(bundle, Name))
	}
	return c, nil
}

// Annotation answers an annotation, or nothing if there is no such text.
func (c *Config) Annotation(name string) string {
	annotations, _ := c.Tree["annotations"].(Tree)
	value, _ := annotations[name].(string)
	return value
}

// Bundle is the absolute path of the bundle.
func (c *Config) Bundle() string { return c.bundle }

// InBundle is the path, if it is absolute, or that path inside the bundle.
func (c *Config) InBundle(path string) string {
	if filepath.IsAbs(path) {
		return path
	}
	return filepath.Join(c.bundle, path)
}

// Process answers the process of the config, which may have no words at all.
func (c *Config) Process() (Process, error) {
	process := Process{Cwd: "/"}
	return process, c.read("process", &process)
}

// Root is the absolute path of the container's root.
func (c *Config) Root() (string, error) {
	var root struct{ Path string }
	if err := c.read("root", &root); err != nil {
		return "", err
	}
	if root.Path == "" {
		return "", errors.New("the config has no root.path")
	}
	return c.InBundle(root.Path), nil
}

// Mounts are the mounts of the config, in their order.
func (c *Config) Mounts() ([]Mount, error) {
	var mounts []Mount
	return mounts, c.read("mounts", &mounts)
}

// read decodes a property of the config, if it is there.
func (c *Config) read(property string, into interface{}) error {
	value, ok := c.Tree[property]
	if !ok {
		return nil
	}
	text, err := json.Marshal(value)
	if err == nil {
		err = json.Unmarshal(text, into)
	}
	if err != nil {
		return fmt.Errorf("read %s of the config: %w", property, err)
	}
	return nil
}

// Object is the object under a name, which is made if it is not there.
func Object(tree Tree, name string) Tree {
	if there, ok := tree[name].(Tree); ok {
		return there
	}
	made := Tree{}
	tree[name] = made
	return made
}

// Save keeps the text that was read under the name Original, and writes the config in its place. Whoever reads the
// config meanwhile sees the whole of one of the two.
func (c *Config) Save() error {
	var text bytes.Buffer
	encoder := json.NewEncoder(&text)
	encoder.SetEscapeHTML(false)
	encoder.SetIndent("", "\t")
	if err := encoder.Encode(c.Tree); err != nil {
		return fmt.Errorf("write the config: %w", err)
	}
	about, err := os.Stat(filepath.Join(c.bundle, Name))
	if err != nil {
		return fmt.Errorf("look at the bundle's config: %w", err)
	}
	if err := replace(c.bundle, Original, c.text, about); err != nil {
		return fmt.Errorf("keep the original config: %w", err)
	}
	if err := replace(c.bundle, Name, text.Bytes(), about); err != nil {
		return fmt.Errorf("replace the config: %w", err)
	}
	return nil
}

// replace writes a file by another name and renames it, with mode and owner of the config.
func replace(folder, name string, text []byte, like fs.FileInfo) (err error) {
	file, err := os.CreateTemp(folder, name+".*")
	if err != nil {
		return err
	}
	defer func() {
		if err != nil {
			file.Close()
			os.Remove(file.Name())
		}
	}()
	if _, err = file.Write(text); err != nil {
		return err
	}
	if err = file.Chmod(like.Mode().Perm()); err != nil {
		return err
	}
	if owner, ok := like.Sys().(*syscall.Stat_t); ok && os.Geteuid() == 0 {
		if err = file.Chown(int(owner.Uid), int(owner.Gid)); err != nil {
			return err
		}
	}
	if err = file.Close(); err != nil {
		return err
	}
	return os.Rename(file.Name(), filepath.Join(folder, name))
}
