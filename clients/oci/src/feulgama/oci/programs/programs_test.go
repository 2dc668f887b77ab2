package programs

import (
	"os"
	"path/filepath"
	"strings"
	"testing"
)

func put(t *testing.T, path string, mode os.FileMode) string {
	t.Helper()
	if err := os.MkdirAll(filepath.Dir(path), 0o755); err != nil {
		t.Fatal(err)
	}
	if err := os.WriteFile(path, []byte("#!/bin/sh\n"), mode); err != nil {
		t.Fatal(err)
	}
	if err := os.Chmod(path, mode); err != nil {
		t.Fatal(err)
	}
	return path
}

func TestShimIsLookedForInOrder(t *testing.T) {
	folder := t.TempDir()
	named := put(t, filepath.Join(folder, "named", "any"), 0o755)
	beside := put(t, filepath.Join(folder, "beside", "wasm-shim"), 0o755)
	byPath := put(t, filepath.Join(folder, "path", "wasm-shim"), 0o755)
	own := filepath.Join(folder, "beside", "feulgama-oci")
	t.Setenv("PATH", filepath.Dir(byPath))

	expect := func(want string) {
		t.Helper()
		if found, err := Shim(own); found != want || err != nil {
			t.Errorf("%s, %v; want %s", found, err, want)
		}
	}
	t.Setenv(ShimVariable, named)
	expect(named)
	t.Setenv(ShimVariable, "")
	expect(beside)
	os.Chmod(beside, 0o644)
	expect(byPath)
}

func TestCommandIsLookedForInTheSameWay(t *testing.T) {
	folder := t.TempDir()
	beside := put(t, filepath.Join(folder, "feulgama"), 0o755)
	named := put(t, filepath.Join(folder, "named"), 0o755)
	t.Setenv(ShimVariable, named)
	t.Setenv(CommandVariable, "")
	if found, err := Command(filepath.Join(folder, "feulgama-oci")); found != beside || err != nil {
		t.Errorf("%s, %v", found, err)
	}
	t.Setenv(CommandVariable, named)
	if found, err := Command(filepath.Join(folder, "feulgama-oci")); found != named || err != nil {
		t.Errorf("%s, %v", found, err)
	}
}

func TestShimThatIsNotThere(t *testing.T) {
	const installed = "/usr/bin/wasm-shim"
	if _, err := os.Stat(installed); err == nil {
		t.Skip(installed + " is installed")
	}
	folder := t.TempDir()
	t.Setenv(ShimVariable, "")
	t.Setenv("PATH", folder)
	_, err := Shim(filepath.Join(folder, "feulgama-oci"))
	for _, word := range []string{filepath.Join(folder, "wasm-shim"), installed, "PATH (" + folder + ")", ShimVariable} {
		if err == nil || !strings.Contains(err.Error(), word) {
			t.Errorf("%v does not say %s", err, word)
		}
	}
}

func TestVariablesAreBelieved(t *testing.T) {
	t.Setenv("PATH", filepath.Dir(put(t, filepath.Join(t.TempDir(), "runc"), 0o755)))
	t.Setenv(RuncVariable, "/nowhere/runc")
	if found, err := Runc(); err == nil || !strings.Contains(err.Error(), "/nowhere/runc") {
		t.Errorf("%s, %v", found, err)
	}
	t.Setenv(ShimVariable, "bin/wasm-shim")
	if found, err := Shim("/x"); err == nil || !strings.Contains(err.Error(), "absolute") {
		t.Errorf("%s, %v", found, err)
	}
	t.Setenv(RuncVariable, "")
	if found, err := Runc(); err != nil || filepath.Base(found) != "runc" {
		t.Errorf("%s, %v", found, err)
	}
	t.Setenv("PATH", "")
	found, err := Runc()
	there := false
	for _, folder := range strings.Split(usual, ":") {
		there = there || isProgram(filepath.Join(folder, "runc"))
	}
	if there != (err == nil) || err == nil && !filepath.IsAbs(found) {
		t.Errorf("without PATH: %s, %v", found, err)
	}
	if err != nil && !strings.Contains(err.Error(), "install it") {
		t.Error(err)
	}
}

func TestOpenToAll(t *testing.T) {
	open := put(t, filepath.Join(t.TempDir(), "open"), 0o755)
	library := put(t, filepath.Join(t.TempDir(), "library"), 0o644)
	closed := put(t, filepath.Join(t.TempDir(), "closed"), 0o750)
	for path, rights := range map[string]os.FileMode{open: Run, library: Read} {
		if err := OpenToAll(path, rights); err != nil {
			t.Error(err)
		}
	}
	for _, c := range []struct {
		path, want string
		rights     os.FileMode
	}{{closed, "chmod o+rx " + closed, Run}, {closed, "chmod o+r " + closed, Read}, {library, "chmod o+rx " + library, Run}} {
		if err := OpenToAll(c.path, c.rights); err == nil || !strings.Contains(err.Error(), c.want) {
			t.Errorf("%v; want %q", err, c.want)
		}
	}
	if OpenToAll(t.TempDir(), Run) == nil || OpenToAll(closed+"x", Read) == nil {
		t.Error("a folder and a file that is not there are taken")
	}
}
