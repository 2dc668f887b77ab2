package fakeshim

import (
	"io"
	"os"
	"path/filepath"
	"testing"
)

// Run runs the tests of a package, or the program, if it is called so: the program of a test is the test's own.
func Run(m *testing.M) int {
	if len(os.Args) > 1 && os.Args[1] == "serve" {
		return Main(os.Args[1:])
	}
	return m.Run()
}

// Program is the path of the program, in a place from which every user can run it.
func Program(t *testing.T) string {
	t.Helper()
	folder, err := os.MkdirTemp("", "feulgama-fake-")
	if err != nil {
		t.Fatal(err)
	}
	t.Cleanup(func() { os.RemoveAll(folder) })
	path := filepath.Join(folder, "wasm-shim")
	if err := copyTo(path); err != nil {
		t.Fatal(err)
	}
	if err := os.Chmod(folder, 0o755); err != nil {
		t.Fatal(err)
	}
	return path
}

func copyTo(path string) error {
	own, err := os.Open("/proc/self/exe")
	if err != nil {
		return err
	}
	defer own.Close()
	file, err := os.OpenFile(path, os.O_CREATE|os.O_WRONLY, 0o755)
	if err != nil {
		return err
	}
	if _, err := io.Copy(file, own); err != nil {
		file.Close()
		return err
	}
	return file.Close()
}
