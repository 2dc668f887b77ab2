// Package container makes of the config of a module's container one whose program is wasm-shim: it finds the module,
// makes a root folder with nothing else in it, and says how runc is to run it.
package container

import (
	"errors"
	"path"
	"path/filepath"
	"strings"

	"feulgama/oci/config"
	"feulgama/oci/modulefile"
)

// Module is the module of a container.
type Module struct {
	Words   []string // the words of the config's process: the module's name, which it sees as its first argument, and others
	Env     []string
	Content []byte
}

// searched is where runc looks for a name without a slash if the environment has no PATH.
const searched = "/usr/local/sbin:/usr/local/bin:/usr/sbin:/usr/bin:/sbin:/bin"

// Find looks at the program of a config, and answers nil if it is no module.
func Find(c *config.Config) (*Module, error) {
	process, err := c.Process()
	if err != nil || len(process.Args) == 0 || process.Args[0] == "" {
		return nil, err
	}
	files, err := newFiles(c)
	if err != nil {
		return nil, err
	}
	for _, name := range candidates(process) {
		content, err := files.look(name)
		switch {
		case errors.Is(err, modulefile.ErrNotThere):
			continue
		case err != nil:
			return nil, err
		case content == nil:
			return nil, nil
		}
		return &Module{Words: process.Args, Env: process.Env, Content: content}, nil
	}
	return nil, nil
}

// candidates are the absolute paths that the first word may mean.
func candidates(process config.Process) []string {
	name := process.Args[0]
	if path.IsAbs(name) {
		return []string{name}
	}
	if strings.Contains(name, "/") {
		return []string{process.Cwd + "/" + name}
	}
	folders := searched
	for _, entry := range process.Env {
		if value, found := cutPrefix(entry, "PATH="); found {
			folders = value
		}
	}
	var names []string
	for _, folder := range strings.Split(folders, ":") {
		if path.IsAbs(folder) {
			names = append(names, folder+"/"+name)
		}
	}
	return names
}

func cutPrefix(text, prefix string) (string, bool) {
	return strings.TrimPrefix(text, prefix), strings.HasPrefix(text, prefix)
}

// files are the files that a container sees: those of its root, and over them its mounts.
type files struct {
	root   string
	mounts []config.Mount // sources are absolute
}

func newFiles(c *config.Config) (files, error) {
	root, err := c.Root()
	if err != nil {
		return files{}, err
	}
	mounts, err := c.Mounts()
	for i := range mounts {
		mounts[i].Source = c.InBundle(mounts[i].Source)
		mounts[i].Destination = path.Clean("/" + mounts[i].Destination)
	}
	return files{root: root, mounts: mounts}, err
}

// look looks at a file in the last mount that is over its path, or in the root. A path with `..` is looked up in the
// root only, since it depends on links which folder that names.
func (f files) look(name string) ([]byte, error) {
	if strings.Contains("/"+name+"/", "/../") {
		return modulefile.Look(f.root, name)
	}
	name = path.Clean(name)
	for i := len(f.mounts) - 1; i >= 0; i-- {
		mount := f.mounts[i]
		switch inside, ok := below(name, mount.Destination); {
		case !ok:
			continue
		case !mount.IsBind():
			return nil, modulefile.ErrNotThere
		case inside == "":
			return modulefile.LookAt(mount.Source)
		default:
			return lookInVolume(mount.Source, inside)
		}
	}
	return modulefile.Look(f.root, name)
}

func lookInVolume(source, inside string) ([]byte, error) {
	content, err := modulefile.Look(source, inside)
	if err != nil && !isFolder(source) {
		return nil, modulefile.ErrNotThere
	}
	return content, err
}

// below tells whether name is folder or in it, and answers the rest of the path.
func below(name, folder string) (string, bool) {
	if name == folder {
		return "", true
	}
	if folder == "/" {
		return name, true
	}
	return cutPrefix(name, folder+"/")
}

// clean is the path of a word relative to the root, without `..` and `.`.
func clean(word string) string {
	return filepath.Clean("/" + word)
}
