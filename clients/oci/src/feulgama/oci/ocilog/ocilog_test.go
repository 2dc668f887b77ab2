package ocilog

import (
	"bytes"
	"encoding/json"
	"errors"
	"os"
	"path/filepath"
	"strings"
	"testing"
	"time"
)

func TestReport(t *testing.T) {
	file := filepath.Join(t.TempDir(), "log.json")
	if err := os.WriteFile(file, []byte("{\"level\":\"debug\"}\n"), 0o600); err != nil {
		t.Fatal(err)
	}
	var stderr bytes.Buffer
	Report(&stderr, file, "json", errors.New("a \"quoted\" reason"))
	if stderr.String() != "feulgama-oci: a \"quoted\" reason\n" {
		t.Errorf("standard error: %q", stderr.String())
	}
	text, err := os.ReadFile(file)
	if err != nil {
		t.Fatal(err)
	}
	lines := strings.Split(string(text), "\n")
	var entry struct{ Level, Msg, Time string }
	if err := json.Unmarshal([]byte(lines[1]), &entry); err != nil {
		t.Fatal(err)
	}
	if entry.Level != "error" || entry.Msg != "feulgama-oci: a \"quoted\" reason" || entry.Time == "" {
		t.Errorf("entry: %+v", entry)
	}
	if lines[0] != "{\"level\":\"debug\"}" || len(lines) != 3 {
		t.Errorf("lines: %q", lines)
	}
}

func TestTextFormat(t *testing.T) {
	got := line("text", "error", "why", time.Unix(0, 0))
	if got != "time=\"1970-01-01T00:00:00Z\" level=error msg=\"why\"\n" {
		t.Errorf("%q", got)
	}
}

func TestLogThatCannotBeWritten(t *testing.T) {
	var stderr bytes.Buffer
	Report(&stderr, t.TempDir(), "json", errors.New("the reason"))
	if !strings.HasPrefix(stderr.String(), "feulgama-oci: the reason\nfeulgama-oci: write to the log:") {
		t.Errorf("%q", stderr.String())
	}
}

func TestARemarkIsInTheFileOnly(t *testing.T) {
	file := filepath.Join(t.TempDir(), "log")
	var told bytes.Buffer
	Note(&told, file, "json", "done")
	Note(&told, "", "json", "done")
	text, err := os.ReadFile(file)
	var found map[string]string
	if err == nil {
		err = json.Unmarshal(text, &found)
	}
	if err != nil || found["level"] != "info" || found["msg"] != "feulgama-oci: done" || told.Len() != 0 {
		t.Errorf("%s, %q, %v", text, told.String(), err)
	}
}
