// Package lines has the lines of the protocol of `wasm-shim serve` (docs/PROTOCOL.md): the requests that adapters send,
// the replies, and what each refusal means to containerd.
package lines

import (
	"encoding/hex"
	"encoding/json"
)

// Op is a request that has no other key than the id of a task.
type Op string

// The requests of a task.
const (
	Start   Op = "start"
	Pause   Op = "pause"
	Resume  Op = "resume"
	Delete  Op = "delete"
	State   Op = "state"
	Wait    Op = "wait"
	Inspect Op = "inspect"
)

// Signals that a task can be killed by.
const (
	SIGKILL = 9
	SIGTERM = 15
)

// Streams that a task writes to.
const (
	Stdout = 1
	Stderr = 2
)

// Limits of the protocol that an adapter has to know.
const (
	Requests   = 16384   // that a shim answers
	MostPeek   = 256     // bytes of a peek
	MostID     = 64      // characters of an id
	MostOutput = 65536   // bytes of a stream
	MostEnv    = 64      // entries of an environment
	MostReply  = 8 << 20 // more bytes than any reply has
)

type named struct {
	Op Op     `json:"op"`
	ID string `json:"id"`
}

// Of is a request for a task.
func Of(op Op, id string) []byte {
	return line(named{op, id})
}

// Put stores a content.
func Put(content []byte) []byte {
	return line(struct {
		Op  Op     `json:"op"`
		Hex string `json:"hex"`
	}{"put", hex.EncodeToString(content)})
}

// Create makes a task from the text of a config.
func Create(id string, config []byte) []byte {
	return line(struct {
		named
		Config string `json:"config"`
	}{named{"create", id}, string(config)})
}

// Kill ends a task by a signal.
func Kill(id string, signal uint32) []byte {
	return line(struct {
		named
		Signal uint32 `json:"signal"`
	}{named{"kill", id}, signal})
}

// Output asks for what a task has written to a stream.
func Output(id string, stream int) []byte {
	return line(struct {
		named
		Stream int `json:"stream"`
	}{named{"output", id}, stream})
}

// Peek asks for bytes of a task's memory.
func Peek(id string, address, length uint64) []byte {
	return line(struct {
		named
		Address uint64 `json:"address"`
		Length  uint64 `json:"length"`
	}{named{"peek", id}, address, length})
}

// Step makes turns of a task that is paused.
func Step(id string, count uint64) []byte {
	return line(struct {
		named
		Count uint64 `json:"count"`
	}{named{"step", id}, count})
}

// Breakpoint is an instruction: the index of its function, and its number there.
type Breakpoint struct {
	Func  uint32 `json:"func"`
	Place uint32 `json:"place"`
}

// Break sets a breakpoint.
func Break(id string, at Breakpoint) []byte {
	return line(struct {
		named
		Breakpoint
	}{named{"break", id}, at})
}

// Unbreak takes a breakpoint away.
func Unbreak(id string, at Breakpoint) []byte {
	return line(struct {
		named
		Breakpoint
	}{named{"unbreak", id}, at})
}

// line is a request with its line feed. None of the types above can fail to be written.
func line(request interface{}) []byte {
	text, err := json.Marshal(request)
	if err != nil {
		panic(err)
	}
	return append(text, '\n')
}
