package lines

import (
	"bytes"
	"errors"
	"reflect"
	"testing"
)

func TestRequests(t *testing.T) {
	for want, got := range map[string][]byte{
		`{"op":"start","id":"a"}`:                             Of(Start, "a"),
		`{"op":"put","hex":"616263"}`:                         Put([]byte("abc")),
		`{"op":"create","id":"a","config":"{\"x\":\"\\n\"}"}`: Create("a", []byte(`{"x":"\n"}`)),
		`{"op":"kill","id":"a","signal":15}`:                  Kill("a", SIGTERM),
		`{"op":"output","id":"a","stream":2}`:                 Output("a", Stderr),
		`{"op":"peek","id":"a","address":65532,"length":4}`:   Peek("a", 65532, 4),
		`{"op":"inspect","id":"0123.-_"}`:                     Of(Inspect, "0123.-_"),
		`{"op":"step","id":"a","count":1000}`:                 Step("a", 1000),
		`{"op":"break","id":"a","func":1,"place":5}`:          Break("a", Breakpoint{1, 5}),
		`{"op":"unbreak","id":"a","func":0,"place":16777216}`: Unbreak("a", Breakpoint{0, 16777216}),
	} {
		if !bytes.Equal(got, []byte(want+"\n")) {
			t.Errorf("%s, and not %s", got, want)
		}
	}
}

// The lines are those of docs/PROTOCOL.md.
func TestReplies(t *testing.T) {
	for line, want := range map[string]Reply{
		`{"id":"a","ok":true,"status":"running"}`: {ID: "a", Status: Running},
		`{"cause":"exit","exit":4294967295,"id":"a","n":2,"ok":true,"status":"stopped"}`: {
			ID: "a", Status: Stopped, Cause: "exit", Exit: 4294967295, Turns: 2},
		`{"cause":"trap","exit":134,"id":"a","n":65537,"ok":true,"status":"stopped","trap":"exhausted"}`: {
			ID: "a", Status: Stopped, Cause: "trap", Exit: 134, Turns: 65537, Trap: "exhausted"},
		`{"frames":[{"func":1,"labels":[3],"locals":["i32:0"],"next":"end","operands":[]},` +
			`{"func":2,"labels":[],"locals":[],"next":16777216,"operands":["i64:-1"]}],"id":"a","n":6,"ok":true}`: {
			ID: "a", Turns: 6, Frames: []Frame{
				{Func: 1, Labels: []uint32{3}, Locals: []string{"i32:0"}, Next: "end", Operands: []string{}},
				{Func: 2, Labels: []uint32{}, Locals: []string{}, Next: "16777216", Operands: []string{"i64:-1"}},
			}},
	} {
		if got, err := Read([]byte(line)); err != nil || !reflect.DeepEqual(got, want) {
			t.Errorf("%s: %+v, %v", line, got, err)
		}
	}
}

func TestARefusalIsAnError(t *testing.T) {
	_, err := Read([]byte(`{"error":"NotFound","number":4,"ok":false}`))
	var refusal *Refusal
	if !errors.As(err, &refusal) || refusal.Number != 4 || err.Error() != "refused 4 NotFound" {
		t.Errorf("%v", err)
	}
	if !IsRefused(err, 4) || IsRefused(err, 5) || IsRefused(nil, 4) {
		t.Error("a number is mistaken for another")
	}
}

func TestOtherLinesAreNoReplies(t *testing.T) {
	for _, line := range []string{``, `{}`, `[]`, `null`, `{"ok":1}`, `{"ok":true,"frames":[{"next":{}}]}`, `{"ok":true`} {
		if reply, err := Read([]byte(line)); err == nil {
			t.Errorf("%q is read as %+v", line, reply)
		}
	}
}

func TestBytes(t *testing.T) {
	if got, err := (Reply{Hex: "6869"}).Bytes(); err != nil || string(got) != "hi" {
		t.Errorf("%q, %v", got, err)
	}
	if _, err := (Reply{Hex: "6"}).Bytes(); err == nil {
		t.Error("half a byte is taken")
	}
}
