// Package fakeshim speaks as `wasm-shim serve --caller ..` does, for tests of what happens when it is killed, is full, or
// does not do what it should. A module is a text here: what the task is to do.
package fakeshim

import (
	"bufio"
	"crypto/sha256"
	"encoding/hex"
	"encoding/json"
	"fmt"
	"os"
	"strings"
	"sync"
	"time"
)

// Modules that the program knows, after eight bytes of a module's head.
const (
	Head   = "\x00asm\x01\x00\x00\x00"
	Hello  = Head + "hello"  // writes a line, and ends with 7
	Loop   = Head + "loop"   // writes a line, and runs until it is killed
	Refuse = Head + "refuse" // is refused
	Deaf   = Head + "deaf"   // is not ended by a kill
	Die    = Head + "die"    // ends the program when it starts
	Noise  = Head + "noise"  // answers a line that is no reply, when it starts
	Full   = Head + "full"   // answers nothing more once it has started, as a shim whose journal is full
	Trap   = Head + "trap"   // writes a line to each stream, and traps
	Mute   = Head + "mute"   // does as Trap, and what it has written to standard output is not answered
)

// Slow is what a module of Short may end with: a slice of it lasts until its end is waited for.
const Slow = " slow"

// Short is a module that does as Loop, while memory runs out: the first requests of an op find none. The wait of the
// second caller is "watch" here. A pause is answered as one of a task with a slice out.
func Short(op string, requests int) string {
	return fmt.Sprintf("%sshort %s %d", Head, op, requests)
}

// StepsToTheEnd is how many turns of a debugger end a task, with the status 7.
const StepsToTheEnd = 5000

// What modules write: all of them to standard output, and those that trap to standard error too.
const (
	Written    = "begun\n"
	Complained = "it goes wrong\n"
)

// Main is the program. It returns when the lines of the first caller have ended.
func Main(words []string) int {
	board := &board{contents: map[string]string{}, breaks: map[[2]int]bool{}}
	board.changed = sync.NewCond(&board.mu)
	owner := make(chan struct{})
	first := true
	for number, word := range words {
		if word != "--caller" {
			continue
		}
		input, output, _ := strings.Cut(words[number+1], ":")
		read, err := os.Open(input)
		if err != nil {
			fmt.Fprintln(os.Stderr, err)
			return 1
		}
		write, err := os.OpenFile(output, os.O_WRONLY, 0)
		if err != nil {
			fmt.Fprintln(os.Stderr, err)
			return 1
		}
		go func(owns bool) {
			board.serve(input, owns, read, write)
			if owns {
				close(owner)
			}
		}(first)
		first = false
	}
	<-owner
	return 0
}

type request struct {
	Op, ID, Hex, Config   string
	Signal, Stream, Count int
	Func, Place           int
}

type board struct {
	mu       sync.Mutex
	changed  *sync.Cond
	contents map[string]string
	module   string
	status   string
	cause    string // of the end, as those below
	exit     uint32
	signal   int
	turns    int // made by steps
	breaks   map[[2]int]bool
	shortOf  string // the op that finds no memory
	refusals int    // that are left of it
}

type object map[string]interface{}

func (b *board) serve(input string, owns bool, read, write *os.File) {
	lines := bufio.NewScanner(read)
	lines.Buffer(nil, 2<<20)
	for number := 1; lines.Scan(); number++ {
		var r request
		answer := object{"ok": false, "number": 1, "error": "BadRequest"}
		if json.Unmarshal(lines.Bytes(), &r) == nil {
			answer = b.answer(r, owns, fmt.Sprintf("%s line %d", input, number))
		}
		text, _ := json.Marshal(answer)
		if r.Op == "start" && b.is(Noise) {
			text = []byte("this is no reply")
		}
		write.Write(append(text, '\n'))
	}
}

func (b *board) is(module string) bool {
	b.mu.Lock()
	defer b.mu.Unlock()
	return b.module == module
}

func (b *board) answer(r request, owns bool, line string) object {
	b.mu.Lock()
	defer b.mu.Unlock()
	defer b.changed.Broadcast()
	if b.module == Full && b.status == "running" {
		return object{"ok": false, "number": 15, "error": "JournalFull"}
	}
	if b.findsNoMemory(r.Op, owns) {
		return object{"ok": false, "number": 17, "error": "NoMemory"}
	}
	switch r.Op {
	case "put":
		content, _ := hex.DecodeString(r.Hex)
		digest := fmt.Sprintf("sha256:%x", sha256.Sum256(content))
		b.contents[digest] = string(content)
		return object{"ok": true, "digest": digest, "size": len(content)}
	case "create":
		return b.create(r, line)
	case "wait":
		if b.status == "pausing" && owns {
			b.status = "paused"
		}
		for b.status == "running" || b.status == "pausing" {
			b.changed.Wait()
		}
	case "kill":
		if b.status == "stopped" {
			return wrongStatus()
		}
		if b.module != Deaf {
			b.stop("kill", uint32(128+r.Signal), r.Signal)
		}
	case "output", "peek", "inspect":
		return b.shown(r)
	case "step", "break", "unbreak":
		return b.debugged(r)
	default:
		if !b.change(r.Op) {
			return wrongStatus()
		}
	}
	answer := b.state(r.ID)
	if r.Op == "pause" && b.shortOf != "" {
		answer["status"] = "pausing"
	}
	return answer
}

// findsNoMemory tells whether a request is one of those of a module of Short.
func (b *board) findsNoMemory(op string, owns bool) bool {
	if op == "wait" && !owns {
		op = "watch"
	}
	if b.shortOf != op || b.refusals == 0 {
		return false
	}
	b.refusals--
	return true
}

// shown answers what only shows something.
func (b *board) shown(r request) object {
	switch r.Op {
	case "output":
		if b.module == Mute && r.Stream == 1 {
			return object{"ok": false, "number": 15, "error": "JournalFull"}
		}
		written := b.written(r.Stream)
		return object{"ok": true, "id": r.ID, "hex": hex.EncodeToString([]byte(written)), "size": len(written)}
	case "peek":
		return object{"ok": true, "id": r.ID, "hex": strings.Repeat("2a", 4)}
	case "inspect":
		return object{"ok": true, "id": r.ID, "n": 3 + b.turns, "frames": []object{{"func": 0, "next": 1, "locals": []string{"i64:5"},
			"labels": []int{}, "operands": []string{}}}}
	}
	return wrongStatus()
}

// written is what the task has written to a stream.
func (b *board) written(stream int) string {
	switch {
	case b.status == "created":
		return ""
	case stream == 1:
		return Written
	case b.module == Trap || b.module == Mute:
		return Complained
	}
	return ""
}

// debugged answers what a debugger asks of a task that is paused.
func (b *board) debugged(r request) object {
	at := [2]int{r.Func, r.Place}
	switch {
	case b.status != "paused":
		return wrongStatus()
	case r.Op == "step":
		b.turns += r.Count
		if b.turns >= StepsToTheEnd {
			b.stop("exit", 7, 0)
		}
		return b.state(r.ID)
	case r.Op == "break":
		b.breaks[at] = true
	case !b.breaks[at]:
		return object{"ok": false, "number": 4, "error": "NotFound"}
	default:
		delete(b.breaks, at)
	}
	return object{"ok": true, "id": r.ID}
}

// change moves the task by start, pause, resume or delete, if its status lets it.
func (b *board) change(op string) bool {
	from := map[string]string{"start": "created", "pause": "running", "resume": "paused", "delete": "stopped"}[op]
	if from != "" && b.status != from {
		return false
	}
	switch op {
	case "start":
		b.start()
	case "pause":
		b.status = "paused"
		if strings.HasSuffix(b.module, Slow) {
			b.status = "pausing"
		}
	case "resume":
		b.status = "running"
		if len(b.breaks) > 0 {
			b.status = "paused" // it meets one at once
		}
	}
	return true
}

func (b *board) start() {
	b.status = "running"
	switch b.module {
	case Die:
		os.Exit(3)
	case Hello:
		go b.stopSoon("exit", 7)
	case Trap, Mute:
		go b.stopSoon("trap", 134)
	}
}

// stopSoon ends the task by itself.
func (b *board) stopSoon(cause string, exit uint32) {
	time.Sleep(10 * time.Millisecond)
	b.mu.Lock()
	defer b.mu.Unlock()
	b.stop(cause, exit, 0)
	b.changed.Broadcast()
}

func (b *board) create(r request, line string) object {
	var config struct{ Annotations map[string]string }
	_ = json.Unmarshal([]byte(r.Config), &config)
	b.module = b.contents[config.Annotations["dev.shim.module"]]
	if b.module == Refuse {
		fmt.Fprintf(os.Stderr, "why: %s, 7 BadModule: create: it is written so\n", line)
		return object{"ok": false, "number": 7, "error": "BadModule"}
	}
	_, _ = fmt.Sscanf(strings.TrimPrefix(b.module, Head), "short %s %d", &b.shortOf, &b.refusals) // no other has them
	b.status = "created"
	return b.state(r.ID)
}

func (b *board) stop(cause string, exit uint32, signal int) {
	b.status, b.cause, b.exit, b.signal = "stopped", cause, exit, signal
}

func (b *board) state(id string) object {
	answer := object{"ok": true, "id": id, "status": b.status, "n": 3 + b.turns}
	if b.status == "stopped" {
		answer["cause"], answer["exit"] = b.cause, b.exit
		if b.signal != 0 {
			answer["signal"] = b.signal
		}
		if b.cause == "trap" {
			answer["trap"] = "unreachable"
		}
	}
	return answer
}

func wrongStatus() object {
	return object{"ok": false, "number": 11, "error": "WrongStatus"}
}
