package elfneeds

import (
	"os"
	"os/exec"
	"path/filepath"
	"strings"
	"testing"
)

// build compiles a C program, or skips the test where there is no compiler.
func build(t *testing.T, out, source string, options ...string) string {
	t.Helper()
	compiler, err := exec.LookPath("gcc")
	if err != nil {
		t.Skip("gcc is not installed")
	}
	words := append([]string{"-x", "c", "-", "-o", out}, options...)
	command := exec.Command(compiler, words...)
	command.Stdin = strings.NewReader(source)
	if text, err := command.CombinedOutput(); err != nil {
		t.Fatalf("gcc: %v: %s", err, text)
	}
	return out
}

func TestADynamicProgram(t *testing.T) {
	program := build(t, filepath.Join(t.TempDir(), "p"), "int main(void) { return 0; }")
	needs, err := Of(program)
	if err != nil {
		t.Fatal(err)
	}
	if needs.Loader != "/lib64/ld-linux-x86-64.so.2" {
		t.Errorf("loader: %q", needs.Loader)
	}
	if path, ok := needs.Libraries["libc.so.6"]; !ok || len(needs.Libraries) != 1 {
		t.Errorf("libraries: %v", needs.Libraries)
	} else if _, err := os.Stat(path); err != nil {
		t.Error(err)
	}
}

func TestAStaticProgramNeedsNothing(t *testing.T) {
	program := build(t, filepath.Join(t.TempDir(), "p"), "int main(void) { return 0; }", "-static")
	needs, err := Of(program)
	if err != nil || needs.Loader != "" || len(needs.Libraries) != 0 {
		t.Errorf("%+v, %v", needs, err)
	}
}

func TestLibrariesOfLibraries(t *testing.T) {
	folder := t.TempDir()
	build(t, filepath.Join(folder, "libinner.so"), "int inner(void) { return 7; }", "-shared", "-fPIC")
	build(t, filepath.Join(folder, "libouter.so"), "int inner(void); int outer(void) { return inner(); }",
		"-shared", "-fPIC", "-L"+folder, "-linner", "-Wl,-rpath,$ORIGIN")
	program := build(t, filepath.Join(folder, "p"), "int outer(void); int main(void) { return outer(); }",
		"-L"+folder, "-louter", "-Wl,-rpath,$ORIGIN", "-Wl,-rpath-link,"+folder)
	needs, err := Of(program)
	if err != nil {
		t.Fatal(err)
	}
	if got := strings.Join(needs.Names(), " "); got != "libc.so.6 libinner.so libouter.so" {
		t.Errorf("libraries: %s", got)
	}
	if err := os.Remove(filepath.Join(folder, "libinner.so")); err != nil {
		t.Fatal(err)
	}
	if _, err := Of(program); err == nil || !strings.Contains(err.Error(), "libinner.so") {
		t.Errorf("a library that is not there: %v", err)
	}
}

func TestWhatIsNoProgram(t *testing.T) {
	text := filepath.Join(t.TempDir(), "text")
	if err := os.WriteFile(text, []byte("#!/bin/sh\n"), 0o755); err != nil {
		t.Fatal(err)
	}
	for _, path := range []string{text, text + "x", filepath.Dir(text)} {
		if _, err := Of(path); err == nil || !strings.Contains(err.Error(), path) {
			t.Errorf("%s: %v", path, err)
		}
	}
}
