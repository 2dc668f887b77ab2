package look

import "testing"

// part is a section: its number, its length and its bytes. All lengths here are below 128.
func part(number byte, content string) string {
	return string([]byte{number, byte(len(content))}) + content
}

func text(word string) string { return string(rune(len(word))) + word }

var module = "\x00asm\x01\x00\x00\x00" +
	part(2, "\x02"+text("wasi")+text("fd_write")+"\x00\x00"+text("wasi")+text("proc_exit")+"\x00\x00") +
	part(7, "\x02"+text("_start")+"\x00\x03"+text("memory")+"\x02\x00") +
	part(0, text("other")+"\xff") +
	part(0, text("name")+
		part(0, text("whole"))+
		part(1, "\x02\x02"+text("add\x1b[31m")+"\x03"+text("main"))+
		part(2, "\x01\x02\x01\x00"+text("count")))

func TestNames(t *testing.T) {
	names := NamesOf([]byte(module))
	for index, want := range map[uint32]string{
		0: "wasi.fd_write", 1: "wasi.proc_exit", 2: "add?[31m", 3: "main", 4: "func4",
	} {
		if got := names.Function(index); got != want {
			t.Errorf("function %d is %q, and not %q", index, got, want)
		}
	}
	if got := names.Local(2, 0); got != "count" {
		t.Errorf("%q", got)
	}
	if got := names.Local(2, 1); got != "local1" {
		t.Errorf("%q", got)
	}
}

// Whatever a module is, reading its names ends, and those before the fault are known.
func TestModulesWithFaults(t *testing.T) {
	for length := range module {
		names := NamesOf([]byte(module[:length]))
		if got := names.Function(2); got != "add?[31m" && got != "func2" {
			t.Errorf("of %d bytes: %q", length, got)
		}
	}
	many := part(7, "\xff\xff\xff\xff\x0f")
	if got := NamesOf([]byte(module[:8] + many)).Function(0); got != "func0" {
		t.Errorf("%q", got)
	}
}

func FuzzNames(f *testing.F) {
	f.Add([]byte(module))
	f.Fuzz(func(t *testing.T, module []byte) {
		if NamesOf(module).Function(0) == "" {
			t.Error("a function has no name")
		}
	})
}
