package cmdline

import (
	"reflect"
	"strings"
	"testing"
)

func TestParse(t *testing.T) {
	cases := []struct {
		name  string
		words string
		want  Line
	}{
		{"nothing", "", Line{Bundle: ".", LogFormat: "text"}},
		{"containerd's create",
			"--root /run/containerd/runc/default --log /b/log.json --log-format json create --bundle /b --pid-file /b/init.pid c1",
			Line{Command: "create", Bundle: "/b", Log: "/b/log.json", LogFormat: "json"}},
		{"conmon's create", "--systemd-cgroup create --bundle /u --no-pivot --pid-file /p c",
			Line{Command: "create", Bundle: "/u", LogFormat: "text"}},
		{"bundle by its short name", "run -b /b c", Line{Command: "run", Bundle: "/b", LogFormat: "text"}},
		{"values after an equals sign", "--log=/l run --bundle=/b c",
			Line{Command: "run", Bundle: "/b", Log: "/l", LogFormat: "text"}},
		{"options after the id", "run c --bundle /b", Line{Command: "run", Bundle: "/b", LogFormat: "text"}},
		{"a value that looks like a command", "--root create run c",
			Line{Command: "run", Bundle: ".", LogFormat: "text"}},
		{"one dash", "-log /l -debug create -bundle /b c",
			Line{Command: "create", Bundle: "/b", Log: "/l", LogFormat: "text"}},
		{"a switch that is off", "--help=false run c", Line{Command: "run", Bundle: ".", LogFormat: "text"}},
		{"version", "--version", Line{Version: true, Bundle: ".", LogFormat: "text"}},
		{"help of a command", "run --help", Line{Command: "run", Help: true, Bundle: ".", LogFormat: "text"}},
		{"another command is not looked at", "kill --all c 9", Line{Command: "kill", Bundle: ".", LogFormat: "text"}},
	}
	for _, c := range cases {
		t.Run(c.name, func(t *testing.T) {
			got, err := Parse(strings.Fields(c.words))
			got.Rest = nil
			if err != nil || !reflect.DeepEqual(got, c.want) {
				t.Errorf("%q: %+v, %v; want %+v", c.words, got, err, c.want)
			}
		})
	}
}

func TestParseErrors(t *testing.T) {
	for words, want := range map[string]string{
		"--log":                       "option --log needs a value",
		"--log /l create --bundle":    "create: option --bundle needs a value",
		"--log /l run --strange id":   "run: unknown option --strange",
		"--log /l --strange run id":   "unknown option --strange",
		"--log /l create c --strange": "create: unknown option --strange",
	} {
		line, err := Parse(strings.Fields(words))
		if err == nil || !strings.Contains(err.Error(), want) {
			t.Errorf("%q: %v; want %q", words, err, want)
		}
		if strings.HasPrefix(words, "--log /l") && line.Log != "/l" {
			t.Errorf("%q: the log is lost", words)
		}
	}
}

func TestRestIsWhatFollowsTheCommand(t *testing.T) {
	line, err := Parse([]string{"--debug", "exec", "-t", "c", "sh"})
	if err != nil || !reflect.DeepEqual(line.Rest, []string{"-t", "c", "sh"}) {
		t.Errorf("%v, %v", line.Rest, err)
	}
}
