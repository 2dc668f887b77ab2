package container

import (
	"fmt"
	"os"
	"path/filepath"
	"strings"
)

// RootName is the folder in a bundle that is the root of a module's container.
const RootName = "feulgama-root"

func isFolder(path string) bool {
	about, err := os.Stat(path)
	return err == nil && about.IsDir()
}

// makeRoot makes the root anew, with the module where its word leads from the root, and nothing else.
func makeRoot(root, word string, content []byte) error {
	if err := os.RemoveAll(root); err != nil {
		return fmt.Errorf("remove the root of an earlier container: %w", err)
	}
	if err := os.Mkdir(root, 0o755); err != nil {
		return fmt.Errorf("make the root of the container: %w", err)
	}
	folder := root
	words := strings.Split(word, "/")
	for _, name := range words[:len(words)-1] {
		next := filepath.Join(folder, name)
		if name == ".." && folder == root {
			continue
		}
		if err := os.MkdirAll(next, 0o755); err != nil {
			return fmt.Errorf("make the module's folder in the root of the container: %w", err)
		}
		folder = next
	}
	file := filepath.Join(folder, words[len(words)-1])
	if err := os.WriteFile(file, content, 0o444); err != nil {
		return fmt.Errorf("write the module into the root of the container: %w", err)
	}
	return openAll(root)
}

// openAll lets all users read what is in the root, whatever mask the caller has.
func openAll(root string) error {
	return filepath.Walk(root, func(path string, about os.FileInfo, err error) error {
		if err != nil {
			return err
		}
		if about.IsDir() {
			return os.Chmod(path, 0o755)
		}
		return os.Chmod(path, 0o444)
	})
}
