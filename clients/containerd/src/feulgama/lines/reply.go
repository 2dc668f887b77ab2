package lines

import (
	"encoding/hex"
	"encoding/json"
	"fmt"
)

// Statuses of a task.
const (
	Created = "created"
	Running = "running"
	Pausing = "pausing"
	Paused  = "paused"
	Stopped = "stopped"
)

// Reply is what `serve` answers to an accepted request. Each request has some of the fields.
type Reply struct {
	ID     string  `json:"id"`
	Status string  `json:"status"`
	Turns  uint64  `json:"n"`
	Cause  string  `json:"cause"`
	Exit   uint32  `json:"exit"`
	Signal uint32  `json:"signal"`
	Trap   string  `json:"trap"`
	Digest string  `json:"digest"`
	Hex    string  `json:"hex"`
	Size   uint64  `json:"size"`
	Frames []Frame `json:"frames"`
}

// Frame is a call that has not returned.
type Frame struct {
	Func     uint32   `json:"func"`
	Labels   []uint32 `json:"labels"`
	Locals   []string `json:"locals"`
	Next     Place    `json:"next"`
	Operands []string `json:"operands"`
}

// Place is the number of an instruction, or the word `end`.
type Place string

// UnmarshalJSON takes a number or a text.
func (p *Place) UnmarshalJSON(text []byte) error {
	var value interface{}
	if err := json.Unmarshal(text, &value); err != nil {
		return err
	}
	switch value := value.(type) {
	case string:
		*p = Place(value)
	case float64:
		*p = Place(string(text))
	default:
		return fmt.Errorf("a place is a number or a text, and not %s", text)
	}
	return nil
}

// Bytes are the bytes of an output or a peek.
func (r Reply) Bytes() ([]byte, error) {
	return hex.DecodeString(r.Hex)
}

// Read reads a line of `serve`. A refusal is an error of the type *Refusal.
func Read(line []byte) (Reply, error) {
	var answer struct {
		OK     *bool  `json:"ok"`
		Error  string `json:"error"`
		Number int    `json:"number"`
		Reply
	}
	if err := json.Unmarshal(line, &answer); err != nil {
		return Reply{}, fmt.Errorf("read a reply of wasm-shim: %w", err)
	}
	if answer.OK == nil {
		return Reply{}, fmt.Errorf("read a reply of wasm-shim: %q is no reply", line)
	}
	if !*answer.OK {
		return Reply{}, &Refusal{Number: answer.Number, Name: answer.Error}
	}
	return answer.Reply, nil
}
