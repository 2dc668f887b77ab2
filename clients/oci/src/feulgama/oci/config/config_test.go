package config

import (
	"encoding/json"
	"os"
	"path/filepath"
	"reflect"
	"strings"
	"testing"
)

func bundle(t *testing.T, text string) string {
	t.Helper()
	folder := t.TempDir()
	if err := os.WriteFile(filepath.Join(folder, Name), []byte(text), 0o640); err != nil {
		t.Fatal(err)
	}
	return folder
}

const sample = `{"ociVersion":"1.0.2","strange":{"big":18446744073709551615,"small":1e-7,"text":"<&> é"},
 "process":{"args":["/m","x"],"env":["A=B"],"cwd":"/w","apparmorProfile":"p"},"root":{"path":"rootfs"},
 "mounts":[{"destination":"/a","type":"none","source":"/s","options":["rbind"],"strange":1},{"destination":"/proc","type":"proc"}]}`

func TestWhatIsRead(t *testing.T) {
	folder := bundle(t, sample)
	c, err := Load(folder)
	if err != nil {
		t.Fatal(err)
	}
	process, err := c.Process()
	if want := (Process{Args: []string{"/m", "x"}, Env: []string{"A=B"}, Cwd: "/w"}); err != nil ||
		!reflect.DeepEqual(process, want) {
		t.Errorf("%+v, %v", process, err)
	}
	root, err := c.Root()
	if err != nil || root != filepath.Join(folder, "rootfs") {
		t.Errorf("%s, %v", root, err)
	}
	mounts, err := c.Mounts()
	if err != nil || len(mounts) != 2 || !mounts[0].IsBind() || mounts[1].IsBind() {
		t.Errorf("%+v, %v", mounts, err)
	}
	if c.InBundle("/elsewhere") != "/elsewhere" {
		t.Error("an absolute path is changed")
	}
}

func TestSaveKeepsWhatItDoesNotKnow(t *testing.T) {
	folder := bundle(t, sample)
	c, err := Load(folder)
	if err != nil {
		t.Fatal(err)
	}
	Object(c.Tree, "process")["args"] = []string{"/other"}
	Object(Object(c.Tree, "linux"), "resources")["made"] = true
	if err := c.Save(); err != nil {
		t.Fatal(err)
	}
	kept, err := os.ReadFile(filepath.Join(folder, Original))
	if err != nil || string(kept) != sample {
		t.Errorf("the original: %q, %v", kept, err)
	}
	text, err := os.ReadFile(filepath.Join(folder, Name))
	if err != nil {
		t.Fatal(err)
	}
	for _, word := range []string{"18446744073709551615", "1e-7", "<&> é", `"apparmorProfile": "p"`, `"strange": 1`,
		`"made": true`, `"/other"`} {
		if !strings.Contains(string(text), word) {
			t.Errorf("%s is lost: %s", word, text)
		}
	}
	names, err := os.ReadDir(folder)
	if err != nil || len(names) != 2 {
		t.Errorf("files are left: %v, %v", names, err)
	}
	about, err := os.Stat(filepath.Join(folder, Name))
	if err != nil || about.Mode().Perm() != 0o640 {
		t.Errorf("the mode: %v, %v", about.Mode(), err)
	}
	if !json.Valid(text) {
		t.Error("no JSON")
	}
}

func TestASecondSaveFailsWhole(t *testing.T) {
	folder := bundle(t, sample)
	c, err := Load(folder)
	if err != nil {
		t.Fatal(err)
	}
	c.Tree["bad"] = func() {}
	if err := c.Save(); err == nil {
		t.Error("what is no JSON is written")
	}
	text, err := os.ReadFile(filepath.Join(folder, Name))
	if err != nil || string(text) != sample {
		t.Errorf("the config was changed: %s, %v", text, err)
	}
}

func TestFaults(t *testing.T) {
	for text, word := range map[string]string{
		"":                                 "EOF",
		"null":                             "null",
		"[]":                               "array",
		`{"process":{"args":[1]}}`:         "process",
		`{"process":{},"root":{"path":1}}`: "root",
		`{"root":{}}`:                      "root.path",
		`{"root":{"path":"r"},"mounts":1}`: "mounts",
	} {
		err := all(bundle(t, text))
		if err == nil || !strings.Contains(err.Error(), word) {
			t.Errorf("%s: %v; want %q", text, err, word)
		}
	}
	if _, err := Load(filepath.Join(t.TempDir(), "none")); err == nil {
		t.Error("a bundle that is not there is read")
	}
}

// all reads each part, and answers the first fault.
func all(folder string) error {
	c, err := Load(folder)
	if err != nil {
		return err
	}
	if _, err := c.Process(); err != nil {
		return err
	}
	if _, err := c.Root(); err != nil {
		return err
	}
	_, err = c.Mounts()
	return err
}
