package app

import (
	"bytes"
	"errors"
	"os"
	"os/exec"
	"path/filepath"
	"strconv"
	"strings"
	"testing"

	"feulgama/oci/config"
	"feulgama/oci/container"
	"feulgama/oci/version"
)

// The test's own program is feulgama-oci in a process of its own, if this variable is set.
const isRuntime = "FEULGAMA_TEST_RUNTIME"

func TestMain(m *testing.M) {
	if os.Getenv(isRuntime) != "" {
		os.Exit(Main(os.Args[1:]))
	}
	os.Exit(m.Run())
}

type result struct {
	status   int
	out, err string
}

// setup is a folder with a runc that writes its words, and a bundle whose program has these bytes.
type setup struct {
	folder, bundle, original string
}

func newSetup(t *testing.T, program string) setup {
	t.Helper()
	folder := t.TempDir()
	s := setup{folder: folder, bundle: filepath.Join(folder, "b"),
		original: `{"ociVersion":"1.0.2","process":{"args":["/p"],"cwd":"/"},"root":{"path":"rootfs"}}`}
	runc := "#!/bin/sh\nif [ \"$1\" = --version ]; then echo runc version 9; else echo \"runc $*\"; fi\nexit 3\n"
	for name, text := range map[string]string{"runc": runc, "b/rootfs/p": program, "b/config.json": s.original} {
		path := filepath.Join(folder, name)
		if err := os.MkdirAll(filepath.Dir(path), 0o755); err != nil {
			t.Fatal(err)
		}
		if err := os.WriteFile(path, []byte(text), 0o755); err != nil {
			t.Fatal(err)
		}
	}
	return s
}

func (s setup) run(t *testing.T, words ...string) result {
	t.Helper()
	var out, err bytes.Buffer
	command := exec.Command(os.Args[0], words...)
	command.Env = []string{isRuntime + "=1", "FEULGAMA_RUNC=" + s.folder + "/runc", "FEULGAMA_SHIM=/bin/true",
		"FEULGAMA_COMMAND=" + s.folder + "/feulgama", "STATUS=" + os.Getenv("STATUS")}
	command.Stdout, command.Stderr = &out, &err
	var ended *exec.ExitError
	if fault := command.Run(); fault != nil && !errors.As(fault, &ended) {
		t.Fatal(fault)
	}
	return result{command.ProcessState.ExitCode(), out.String(), err.String()}
}

func (s setup) config(t *testing.T) string {
	t.Helper()
	text, err := os.ReadFile(filepath.Join(s.bundle, config.Name))
	if err != nil {
		t.Fatal(err)
	}
	return string(text)
}

func TestAModule(t *testing.T) {
	for _, command := range []string{"create", "run"} {
		s := newSetup(t, "\x00asm\x01\x00\x00\x00")
		words := []string{"--root", "/r", command, "--bundle", s.bundle, "id"}
		got := s.run(t, words...)
		if want := (result{3, "runc " + strings.Join(words, " ") + "\n", ""}); got != want {
			t.Errorf("%+v; want %+v", got, want)
		}
		if text := s.config(t); !strings.Contains(text, `"/.feulgama/wasm-shim"`) {
			t.Errorf("the config: %s", text)
		}
		kept, err := os.ReadFile(filepath.Join(s.bundle, config.Original))
		if err != nil || string(kept) != s.original {
			t.Errorf("the original: %s, %v", kept, err)
		}
	}
}

func TestAnotherProgramIsLeftAsItIs(t *testing.T) {
	s := newSetup(t, "#!/bin/sh\n")
	if got := s.run(t, "create", "--bundle", s.bundle, "id"); got.status != 3 || got.err != "" {
		t.Errorf("%+v", got)
	}
	names, err := os.ReadDir(s.bundle)
	if s.config(t) != s.original || err != nil || len(names) != 2 {
		t.Errorf("the bundle was changed: %v, %v", names, err)
	}
}

// annotate gives the config an annotation, and makes a script the command feulgama, beside the test's runc.
func (s setup) annotate(t *testing.T, value, script string) {
	t.Helper()
	text := strings.Replace(s.original, "{", `{"annotations":{"dev.shim.lower":"`+value+`"},`, 1)
	for name, text := range map[string]string{"b/config.json": text, "feulgama": "#!/bin/sh\n" + script} {
		if err := os.WriteFile(filepath.Join(s.folder, name), []byte(text), 0o755); err != nil {
			t.Fatal(err)
		}
	}
	for path := s.folder; path != "/" && path != os.TempDir(); path = filepath.Dir(path) {
		if err := os.Chmod(path, 0o755); err != nil {
			t.Fatal(err)
		}
	}
}

func TestAModuleIsLoweredIfThatIsAskedFor(t *testing.T) {
	s := newSetup(t, "\x00asm\x01\x00\x00\x00")
	s.annotate(t, "true", `echo "1 f64.add" >&2; cat; printf lowered`)
	log := filepath.Join(s.folder, "log.json")
	got := s.run(t, "--log", log, "--log-format", "json", "create", "--bundle", s.bundle, "id")
	if got.status != 3 || got.err != "" {
		t.Errorf("%+v", got)
	}
	module, err := os.ReadFile(filepath.Join(s.bundle, container.RootName, "p"))
	if err != nil || string(module) != "\x00asm\x01\x00\x00\x00lowered" {
		t.Errorf("%q, %v", module, err)
	}
	if text, err := os.ReadFile(log); err != nil || !strings.Contains(string(text), "feulgama-oci: /p was lowered: 1 f64.add") {
		t.Errorf("%s, %v", text, err)
	}
}

func TestAModuleThatCannotBeLowered(t *testing.T) {
	s := newSetup(t, "\x00asm\x01\x00\x00\x00")
	for value, want := range map[string]string{
		"true": "the module cannot be lowered: it has vectors", "yes": `dev.shim.lower is "yes"`,
	} {
		s.annotate(t, value, `echo "feulgama: -: it has vectors" >&2; exit 1`)
		got := s.run(t, "create", "--bundle", s.bundle, "id")
		if got.status != 1 || !strings.Contains(got.err, want) {
			t.Errorf("%s: %+v", value, got)
		}
	}
}

func TestARefusalIsInTheLog(t *testing.T) {
	s := newSetup(t, "\x00asm"+strings.Repeat("x", 262144))
	log := filepath.Join(s.folder, "log.json")
	got := s.run(t, "--log", log, "--log-format", "json", "create", "--bundle", s.bundle, "id")
	text, err := os.ReadFile(log)
	if got.status != 1 || got.out != "" || !strings.Contains(got.err, "more than 262144 bytes") || err != nil {
		t.Errorf("%+v, %v", got, err)
	}
	if !strings.Contains(string(text), `"level":"error"`) || !strings.Contains(string(text), "more than 262144 bytes") {
		t.Errorf("the log: %s", text)
	}
	if s.config(t) != s.original {
		t.Error("the config was changed")
	}
}

func TestOtherCommands(t *testing.T) {
	s := newSetup(t, "\x00asm")
	for _, words := range []string{"--root /r kill --all id 9", "--debug delete -f id", "state id", "features",
		"restore --bundle " + s.bundle + " id", "run --help", "help run"} {
		if got := s.run(t, strings.Fields(words)...); got != (result{3, "runc " + words + "\n", ""}) {
			t.Errorf("%s: %+v", words, got)
		}
	}
	if s.config(t) != s.original {
		t.Error("the config was changed")
	}
}

func TestVersionHelpAndFaults(t *testing.T) {
	s := newSetup(t, "")
	got := s.run(t, "--version")
	if got.out != "feulgama-oci version "+version.Number+"\nrunc version 9\n" || got.status != 1 {
		t.Errorf("%+v", got)
	}
	if got := s.run(t, "--help"); got.status != 0 || got.out != usage || got.err != "" {
		t.Errorf("%+v", got)
	}
	if got := s.run(t); got.status != 2 || got.out != "" || !strings.Contains(got.err, "Usage: ") {
		t.Errorf("%+v", got)
	}
	if got := s.run(t, "--strange", "run", "id"); got.status != 1 || !strings.Contains(got.err, "--strange") {
		t.Errorf("%+v", got)
	}
	if got := s.run(t, "run", "--bundle", "/nowhere", "id"); got.status != 1 || !strings.Contains(got.err, "/nowhere/config.json") {
		t.Errorf("%+v", got)
	}
}

func TestStart(t *testing.T) {
	s := newSetup(t, "")
	// A container whose first process never has a child, so that a start waits for as long as it may.
	runc := "#!/bin/sh\nif [ \"$3\" = state ]; then echo '{\"pid\":" + strconv.Itoa(os.Getppid()) +
		",\"bundle\":\"" + s.bundle + "\"}'; exit 0; fi\necho \"runc $*\"\nexit $STATUS\n"
	if err := os.WriteFile(filepath.Join(s.folder, "runc"), []byte(runc), 0o755); err != nil {
		t.Fatal(err)
	}
	for _, status := range []int{0, 5} {
		t.Setenv("STATUS", strconv.Itoa(status))
		if got := s.run(t, "--root", "/r", "start", "id"); got != (result{status, "runc --root /r start id\n", ""}) {
			t.Errorf("%+v", got)
		}
	}
}

// A runc that is killed says nothing itself.
func TestAStartWhoseRuncIsKilled(t *testing.T) {
	s := newSetup(t, "")
	runc := "#!/bin/sh\ncase \"$*\" in *' state id') exit 1 ;; esac\nkill -9 $$\n"
	if err := os.WriteFile(filepath.Join(s.folder, "runc"), []byte(runc), 0o755); err != nil {
		t.Fatal(err)
	}
	log := filepath.Join(s.folder, "log.json")
	got := s.run(t, "--log", log, "--log-format", "json", "start", "id")
	want := "feulgama-oci: run " + s.folder + "/runc: signal 9 ended it (killed)"
	if got != (result{137, "", want + "\n"}) {
		t.Errorf("%+v", got)
	}
	if text, err := os.ReadFile(log); err != nil || !strings.Contains(string(text), want) {
		t.Errorf("the log: %s, %v", text, err)
	}
}

func TestOnlyAModulesContainerIsWaitedFor(t *testing.T) {
	bundle := t.TempDir()
	if isModules(bundle) {
		t.Error("a bundle as runc knows it")
	}
	if err := os.Mkdir(filepath.Join(bundle, container.RootName), 0o755); err != nil {
		t.Fatal(err)
	}
	if !isModules(bundle) {
		t.Error("a bundle of a module")
	}
}
