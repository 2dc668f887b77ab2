// Package look answers, as text for a person, what a task is doing: its state, its frames, and bytes of its memory.
package look

import (
	"encoding/hex"
	"fmt"
	"strconv"
	"strings"

	"feulgama/lines"
)

// most is how many bytes one look shows.
const most = 4096

// Usage says what can be asked.
const Usage = "inspect, peek ADDRESS LENGTH, or state"

// Look is something that was asked for.
type Look struct {
	word            string
	address, length uint64
}

// Parse reads the words of a look. An error says what is wrong with them.
func Parse(words []string) (*Look, error) {
	if len(words) == 0 {
		return nil, fmt.Errorf("no word says what to look at")
	}
	look := &Look{word: words[0]}
	counts := map[string]int{"inspect": 1, "state": 1, "peek": 3}
	count, known := counts[look.word]
	if !known {
		return nil, fmt.Errorf("there is no program %q in the container of a module", look.word)
	}
	if len(words) != count {
		return nil, fmt.Errorf("%s has %d words after it, and not %d", look.word, count-1, len(words)-1)
	}
	if look.word == "peek" {
		for number, into := range []*uint64{&look.address, &look.length} {
			value, err := strconv.ParseUint(words[number+1], 0, 64)
			if err != nil {
				return nil, fmt.Errorf("%q is no number", words[number+1])
			}
			*into = value
		}
		if look.length > most {
			return nil, fmt.Errorf("%d bytes are more than %d", look.length, most)
		}
		if look.address > 1<<32 {
			return nil, fmt.Errorf("a memory has no address %d", look.address)
		}
	}
	return look, nil
}

// Task is what a look needs of a task that stands still.
type Task struct {
	ID     string
	Status string // before it was made to stand still
	Names  *Names
	Ask    func(request []byte) (lines.Reply, error)
}

// At looks at a task, and answers a text.
func (l *Look) At(task Task) (string, error) {
	switch l.word {
	case "inspect":
		return inspect(task)
	case "peek":
		return l.peek(task)
	}
	return state(task)
}

func state(task Task) (string, error) {
	reply, err := task.Ask(lines.Of(lines.State, task.ID))
	if err != nil {
		return "", err
	}
	text := task.Status
	if reply.Status == lines.Stopped {
		text = fmt.Sprintf("%s: %s, exit status %d", reply.Status, cause(reply), reply.Exit)
	}
	return fmt.Sprintf("%s, after %d instructions\n", text, reply.Turns), nil
}

func cause(reply lines.Reply) string {
	switch reply.Cause {
	case "return":
		return "its entry returned"
	case "exit":
		return "it called proc_exit"
	case "trap":
		return "trap, " + reply.Trap
	}
	return fmt.Sprintf("killed by signal %d", reply.Signal)
}

func inspect(task Task) (string, error) {
	reply, err := task.Ask(lines.Of(lines.Inspect, task.ID))
	if err != nil {
		return "", err
	}
	var text strings.Builder
	fmt.Fprintf(&text, "%s, after %d instructions\n", task.Status, reply.Turns)
	for depth, frame := range reply.Frames {
		fmt.Fprintf(&text, "#%d %s, function %d, at instruction %s\n",
			depth, task.Names.Function(frame.Func), frame.Func, frame.Next)
		for index, value := range frame.Locals {
			fmt.Fprintf(&text, "    %s = %s\n", task.Names.Local(frame.Func, uint32(index)), typed(value))
		}
		if len(frame.Operands) > 0 {
			fmt.Fprintf(&text, "    operands: %s\n", strings.Join(all(frame.Operands, typed), ", "))
		}
		if len(frame.Labels) > 0 {
			numbers := make([]string, len(frame.Labels))
			for at, label := range frame.Labels {
				numbers[at] = strconv.FormatUint(uint64(label), 10)
			}
			fmt.Fprintf(&text, "    in the blocks at: %s\n", strings.Join(numbers, ", "))
		}
	}
	if len(reply.Frames) == 0 {
		text.WriteString("no frames: the module has ended\n")
	}
	return text.String(), nil
}

// typed writes i32:5 as 5 (i32).
func typed(value string) string {
	kind, number, found := strings.Cut(value, ":")
	if !found {
		return value
	}
	return number + " (" + kind + ")"
}

func all(values []string, change func(string) string) []string {
	changed := make([]string, len(values))
	for at, value := range values {
		changed[at] = change(value)
	}
	return changed
}

// peek shows bytes as hexdump -C does, with the addresses of the memory.
func (l *Look) peek(task Task) (string, error) {
	var data []byte
	for uint64(len(data)) < l.length {
		length := l.length - uint64(len(data))
		if length > lines.MostPeek {
			length = lines.MostPeek
		}
		reply, err := task.Ask(lines.Peek(task.ID, l.address+uint64(len(data)), length))
		if err != nil {
			return "", err
		}
		part, err := reply.Bytes()
		if err != nil {
			return "", err
		}
		if uint64(len(part)) != length {
			return "", fmt.Errorf("%d bytes came in place of %d", len(part), length)
		}
		data = append(data, part...)
	}
	var text strings.Builder
	for at := 0; at < len(data); at += 16 {
		row := data[at:]
		if len(row) > 16 {
			row = row[:16]
		}
		// The row without its own address, which counts from 0.
		fmt.Fprintf(&text, "%08x%s", l.address+uint64(at), hex.Dump(row)[8:])
	}
	return text.String(), nil
}
