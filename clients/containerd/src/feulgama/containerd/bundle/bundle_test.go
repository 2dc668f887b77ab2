package bundle

import (
	"encoding/json"
	"errors"
	"os"
	"path/filepath"
	"reflect"
	"strings"
	"testing"

	"github.com/containerd/containerd/errdefs"
	"github.com/containerd/containerd/mount"

	"feulgama/lines"
)

// folder makes a bundle with a config, and a module in its root.
func folder(t *testing.T, config string) string {
	t.Helper()
	made := t.TempDir()
	for name, text := range map[string]string{"config.json": config, "rootfs/m.wasm": "\x00asm and more", "rootfs/native": "\x7fELF"} {
		path := filepath.Join(made, name)
		if err := os.MkdirAll(filepath.Dir(path), 0o755); err != nil {
			t.Fatal(err)
		}
		if err := os.WriteFile(path, []byte(text), 0o644); err != nil {
			t.Fatal(err)
		}
	}
	return made
}

func open(t *testing.T, config string) *Bundle {
	t.Helper()
	b, err := Open(folder(t, config))
	if err != nil {
		t.Fatal(err)
	}
	return b
}

const head = `{"root":{"path":"rootfs"},"process":{"args":["/m.wasm"],"env":["A=b"]},`

func TestTheConfigForTheShim(t *testing.T) {
	for given, want := range map[string]string{
		head + `"x":12345678901234567890}`: head + `"x":12345678901234567890,
			"annotations":{"dev.shim.module":"d"},"linux":{"resources":{"memory":{"limit":16777216}}}}`,
		head + `"annotations":{"a":"b"},"linux":{"resources":{"memory":{"limit":65536}}}}`: head +
			`"annotations":{"a":"b","dev.shim.module":"d"},"linux":{"resources":{"memory":{"limit":65536}}}}`,
		head + `"linux":{"cgroupsPath":"/c","resources":{"memory":{"limit":-1,"swap":7}}}}`: head +
			`"annotations":{"dev.shim.module":"d"},"linux":{"cgroupsPath":"/c","resources":{"memory":{"limit":16777216,"swap":7}}}}`,
		head + `"linux":{"resources":[]}}`: head + `"annotations":{"dev.shim.module":"d"},"linux":{"resources":[]}}`,
	} {
		text, err := open(t, given).Config("d")
		if err != nil {
			t.Fatal(err)
		}
		var got, wanted interface{}
		if err := json.Unmarshal(text, &got); err != nil {
			t.Fatal(err)
		}
		if err := json.Unmarshal([]byte(want), &wanted); err != nil {
			t.Fatal(err)
		}
		if !reflect.DeepEqual(got, wanted) {
			t.Errorf("%s becomes %s", given, text)
		}
		if strings.Contains(given, "12345678901234567890") && !strings.Contains(string(text), "12345678901234567890") {
			t.Errorf("a number was rounded: %s", text)
		}
	}
}

func TestModules(t *testing.T) {
	b := open(t, head+`"x":1}`)
	if module, err := b.Module(nil); err != nil || string(module) != "\x00asm and more" {
		t.Errorf("%q, %v", module, err)
	}
	for _, name := range []string{"/native", "/nothing", "/../../etc/passwd", "/"} {
		b := open(t, strings.ReplaceAll(head, "/m.wasm", name)+`"x":1}`)
		if _, err := b.Module(nil); !errors.Is(err, errdefs.ErrInvalidArgument) {
			t.Errorf("%s: %v", name, err)
		}
	}
	if _, err := open(t, `{"root":{"path":"rootfs"}}`).Module(nil); err == nil || !strings.Contains(err.Error(), "no name") {
		t.Errorf("%v", err)
	}
}

func TestMountsAreReadOnly(t *testing.T) {
	got := readOnly([]mount.Mount{{Type: "bind", Options: []string{"rbind", "rw"}}, {Type: "overlay", Options: []string{"lowerdir=/a"}}})
	for at, want := range [][]string{{"ro", "rbind"}, {"ro", "lowerdir=/a"}} {
		if !reflect.DeepEqual(got[at].Options, want) {
			t.Errorf("%v", got[at].Options)
		}
	}
}

func TestTheHintForTooManyEntries(t *testing.T) {
	many := `["` + strings.Repeat(`A=b","`, 64) + `A=b"]`
	refused := &lines.Refusal{Number: lines.BadConfig, Name: "BadConfig"}
	if hint := open(t, strings.ReplaceAll(head, `["A=b"]`, many)+`"x":1}`).Hint(refused); !strings.Contains(hint, "enableServiceLinks: false") {
		t.Errorf("%q", hint)
	}
	if hint := open(t, head+`"x":1}`).Hint(refused); hint != "" {
		t.Errorf("%q", hint)
	}
	if hint := open(t, strings.ReplaceAll(head, `["A=b"]`, many)+`"x":1}`).Hint(errors.New("other")); hint != "" {
		t.Errorf("%q", hint)
	}
}

func TestWhatAConfigIsOf(t *testing.T) {
	pod := open(t, `{"annotations":{"io.kubernetes.cri.container-type":"sandbox","io.kubernetes.cri.sandbox-id":"p"},
		"linux":{"cgroupsPath":"/c"}}`)
	if !pod.IsSandbox() || pod.Annotation(Sandbox) != "p" || pod.Cgroup != "/c" {
		t.Errorf("%+v", pod)
	}
	if open(t, head+`"annotations":{"io.kubernetes.cri.container-type":"container"}}`).IsSandbox() {
		t.Error("a container is taken for a sandbox")
	}
	for _, wrong := range []string{"", "null", "[]", `{"process":7}`} {
		if b, err := Open(folder(t, wrong)); err == nil {
			t.Errorf("%q is %+v", wrong, b)
		}
	}
}
