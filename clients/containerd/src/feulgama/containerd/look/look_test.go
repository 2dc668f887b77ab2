package look

import (
	"errors"
	"fmt"
	"strings"
	"testing"

	"feulgama/lines"
)

func TestWordsThatAreNoLook(t *testing.T) {
	for _, words := range []string{
		"", "sh", "inspect now", "state 1", "peek", "peek 1", "peek 1 2 3", "peek a 1", "peek -1 1", "peek 0 4097",
		"peek 0 0x1001", "peek 0x100000001 1", "peek 1 99999999999999999999",
	} {
		if look, err := Parse(strings.Fields(words)); err == nil {
			t.Errorf("%q is %+v", words, look)
		}
	}
}

// replies answers each request by its line.
func replies(answers map[string]string) func([]byte) (lines.Reply, error) {
	return func(request []byte) (lines.Reply, error) {
		answer, known := answers[strings.TrimSpace(string(request))]
		if !known {
			return lines.Reply{}, fmt.Errorf("nobody expects %s", request)
		}
		return lines.Read([]byte(answer))
	}
}

func TestTexts(t *testing.T) {
	names := &Names{functions: map[uint32]string{1: "count"}, locals: map[uint32]map[uint32]string{1: {0: "steps"}}}
	for _, c := range []struct{ words, request, reply, want string }{
		{"state", `{"op":"state","id":"a"}`, `{"id":"a","n":5,"ok":true,"status":"paused"}`, "running, after 5 instructions\n"},
		{"state", `{"op":"state","id":"a"}`, `{"cause":"exit","exit":7,"id":"a","n":2,"ok":true,"status":"stopped"}`,
			"stopped: it called proc_exit, exit status 7, after 2 instructions\n"},
		{"state", `{"op":"state","id":"a"}`,
			`{"cause":"trap","exit":134,"id":"a","n":9,"ok":true,"status":"stopped","trap":"unreachable"}`,
			"stopped: trap, unreachable, exit status 134, after 9 instructions\n"},
		{"state", `{"op":"state","id":"a"}`, `{"cause":"kill","exit":143,"id":"a","n":9,"ok":true,"signal":15,"status":"stopped"}`,
			"stopped: killed by signal 15, exit status 143, after 9 instructions\n"},
		{"inspect", `{"op":"inspect","id":"a"}`, `{"frames":[],"id":"a","n":9,"ok":true}`,
			"running, after 9 instructions\nno frames: the module has ended\n"},
		{"inspect", `{"op":"inspect","id":"a"}`,
			`{"frames":[{"func":2,"labels":[],"locals":[],"next":0,"operands":[]},` +
				`{"func":1,"labels":[3,1],"locals":["i32:0","i64:-1"],"next":"end","operands":["i32:5","i32:6"]}],"id":"a","n":6,"ok":true}`,
			"running, after 6 instructions\n#0 func2, function 2, at instruction 0\n#1 count, function 1, at instruction end\n" +
				"    steps = 0 (i32)\n    local1 = -1 (i64)\n    operands: 5 (i32), 6 (i32)\n    in the blocks at: 3, 1\n"},
		{"peek 0x10 3", `{"op":"peek","id":"a","address":16,"length":3}`, `{"hex":"004100","id":"a","ok":true}`,
			"00000010  00 41 00                                          |.A.|\n"},
		{"peek 8 0", "", "", ""},
	} {
		look, err := Parse(strings.Fields(c.words))
		if err != nil {
			t.Fatal(err)
		}
		task := Task{ID: "a", Status: lines.Running, Names: names, Ask: replies(map[string]string{c.request: c.reply})}
		if got, err := look.At(task); err != nil || got != c.want {
			t.Errorf("%s: %q, and not %q; %v", c.words, got, c.want, err)
		}
	}
}

func TestALongPeekIsSeveralRequests(t *testing.T) {
	look, err := Parse([]string{"peek", "0", "300"})
	if err != nil {
		t.Fatal(err)
	}
	answers := map[string]string{}
	for address, length := range map[int]int{0: 256, 256: 44} {
		answers[fmt.Sprintf(`{"op":"peek","id":"a","address":%d,"length":%d}`, address, length)] =
			fmt.Sprintf(`{"hex":"%s","id":"a","ok":true}`, strings.Repeat("61", length))
	}
	text, err := look.At(Task{ID: "a", Ask: replies(answers)})
	if rows := strings.Count(text, "\n"); err != nil || rows != 19 || !strings.Contains(text, "\n00000120  61") {
		t.Errorf("%d rows, %v:\n%s", rows, err, text)
	}
}

func TestARefusalIsTold(t *testing.T) {
	look, err := Parse([]string{"peek", "0", "1"})
	if err != nil {
		t.Fatal(err)
	}
	refuse := func([]byte) (lines.Reply, error) {
		return lines.Reply{}, &lines.Refusal{Number: 13, Name: "OutOfRange"}
	}
	var refusal *lines.Refusal
	if _, err := look.At(Task{ID: "a", Ask: refuse}); !errors.As(err, &refusal) {
		t.Errorf("%v", err)
	}
}
