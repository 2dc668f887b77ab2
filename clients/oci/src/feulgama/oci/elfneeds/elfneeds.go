// Package elfneeds finds the files that a program needs to be started: its loader and its shared libraries, by the ELF
// files themselves. It starts nothing, as ldd would.
package elfneeds

import (
	"debug/elf"
	"errors"
	"fmt"
	"os"
	"path/filepath"
	"sort"
	"strings"
)

// Needs are the files that a program needs beside itself. Those of a static program are none.
type Needs struct {
	Loader    string            // the path that the program gives for its loader (PT_INTERP); empty if it has none
	Libraries map[string]string // the path of each library on this system, by its name in DT_NEEDED
}

// Names are the names of the libraries, in order.
func (n Needs) Names() []string {
	names := make([]string, 0, len(n.Libraries))
	for name := range n.Libraries {
		names = append(names, name)
	}
	sort.Strings(names)
	return names
}

// folders are where loaders look without a cache, on Debian and on others.
var folders = []string{"/lib/x86_64-linux-gnu", "/usr/lib/x86_64-linux-gnu", "/lib64", "/usr/lib64", "/lib", "/usr/lib"}

// Of reads the ELF file of a program and of its libraries.
func Of(program string) (Needs, error) {
	needs := Needs{Libraries: map[string]string{}}
	file, err := elf.Open(program)
	if err != nil {
		return needs, fmt.Errorf("read the ELF file of %s: %w", program, err)
	}
	defer file.Close()
	if needs.Loader, err = loader(file); err != nil {
		return needs, fmt.Errorf("read the loader's name in %s: %w", program, err)
	}
	return needs, needs.add(file, program)
}

// add adds the libraries that a file needs, and theirs.
func (n *Needs) add(file *elf.File, path string) error {
	names, err := file.ImportedLibraries()
	if err != nil {
		return fmt.Errorf("read the libraries that %s needs: %w", path, err)
	}
	for _, name := range names {
		if _, known := n.Libraries[name]; known || name == filepath.Base(n.Loader) {
			continue
		}
		if strings.Contains(name, "/") {
			return fmt.Errorf("%s needs %s by its path: only libraries that are looked up by name can be given to a container",
				path, name)
		}
		if err := n.find(file, path, name); err != nil {
			return err
		}
	}
	return nil
}

// find finds the first file of that name which is a library for the same machine, and adds it and what it needs.
func (n *Needs) find(user *elf.File, path, name string) error {
	searched := append(runPaths(user, path), folders...)
	for _, folder := range searched {
		found := filepath.Join(folder, name)
		library, err := elf.Open(found)
		if err != nil {
			continue
		}
		defer library.Close()
		if library.Class == user.Class && library.Machine == user.Machine {
			n.Libraries[name] = found
			return n.add(library, found)
		}
	}
	return fmt.Errorf("the library %s, which %s needs, was not found in %s", name, path, strings.Join(searched, ", "))
}

// runPaths are the folders that a file names itself, without those that are not absolute.
func runPaths(file *elf.File, path string) []string {
	var paths []string
	for _, tag := range []elf.DynTag{elf.DT_RPATH, elf.DT_RUNPATH} {
		values, err := file.DynString(tag)
		if err != nil {
			continue
		}
		for _, folder := range strings.Split(strings.Join(values, ":"), ":") {
			origin := filepath.Dir(path)
			folder = strings.NewReplacer("$ORIGIN", origin, "${ORIGIN}", origin).Replace(folder)
			if filepath.IsAbs(folder) {
				paths = append(paths, folder)
			}
		}
	}
	return paths
}

func loader(file *elf.File) (string, error) {
	for _, part := range file.Progs {
		if part.Type != elf.PT_INTERP {
			continue
		}
		if part.Filesz == 0 || part.Filesz > 4096 {
			return "", errors.New("its length is wrong")
		}
		text := make([]byte, part.Filesz)
		if _, err := part.ReadAt(text, 0); err != nil {
			return "", err
		}
		path := strings.TrimRight(string(text), "\x00")
		if !filepath.IsAbs(path) {
			return "", fmt.Errorf("%q is no absolute path", path)
		}
		_, err := os.Stat(path)
		return path, err
	}
	return "", nil
}
