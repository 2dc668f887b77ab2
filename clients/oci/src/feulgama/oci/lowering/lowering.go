// Package lowering translates the module of an image to what wasm-shim runs, by the command `feulgama lower`. An image is
// not trusted, so the command runs as nobody, without a network, and with limits of time and address space.
package lowering

import (
	"bytes"
	"errors"
	"fmt"
	"os"
	"os/exec"
	"strings"
	"syscall"
	"time"
	"unicode"

	"feulgama/oci/apart"
	"feulgama/oci/modulefile"
	"feulgama/oci/programs"
)

// Annotation is what a container's config asks for it by.
const Annotation = "dev.shim.lower"

// The limits of the command. A module of the largest size takes some seconds, and less than half of the address space.
var (
	processorTime = uint64(30) // seconds
	wholeTime     = 90 * time.Second
	addressSpace  = uint64(1 << 30)
)

const mostSaid = 16 << 10 // bytes of what it says

// Lowered is what a module was translated to.
type Lowered struct {
	Content  []byte
	Replaced string // what was, in words; "nothing to lower" if it is the same module
}

// Wanted tells whether the value of the annotation, which is nothing without one, asks for it.
func Wanted(value string) (bool, error) {
	switch value {
	case "", "false":
		return false, nil
	case "true":
		return true, nil
	}
	return false, fmt.Errorf("the annotation %s is %q, and it can be true or false", Annotation, value)
}

// Lower translates a module. An error says why it cannot be translated.
func Lower(module []byte) (*Lowered, error) {
	own, err := os.Executable()
	if err != nil {
		return nil, fmt.Errorf("find the own file: %w", err)
	}
	program, err := programs.Command(own)
	if err != nil {
		return nil, fmt.Errorf("%w; it is asked for by the annotation %s", err, Annotation)
	}
	out, said := &limited{most: modulefile.Most}, &limited{most: mostSaid}
	words := append(limits(), program, "lower", "--list", "-o", "-", "-")
	command := &exec.Cmd{
		Path: limiter, Args: words, Dir: "/",
		Env:   []string{"PATH=/usr/bin:/bin", "LC_ALL=C.UTF-8", "PYTHONDONTWRITEBYTECODE=1"},
		Stdin: bytes.NewReader(module), Stdout: out, Stderr: said, SysProcAttr: apart.Attributes(),
	}
	if err := run(command); err != nil {
		return nil, failure(err, string(said.kept))
	}
	if out.over {
		return nil, fmt.Errorf("the lowered module has more than %d bytes", modulefile.Most)
	}
	return &Lowered{Content: out.kept, Replaced: strings.Join(lines(string(said.kept)), ", ")}, nil
}

// limiter gives a program limits. It is in Debian's util-linux, which each system has.
const limiter = "/usr/bin/prlimit"

// limits are the words that take from the command what a translation does not need. The system ends it a second after
// the first warning.
func limits() []string {
	return []string{"prlimit", fmt.Sprintf("--cpu=%d:%d", processorTime, processorTime+1),
		fmt.Sprintf("--as=%d:%d", addressSpace, addressSpace), "--fsize=0:0", "--core=0:0"}
}

func run(command *exec.Cmd) error {
	if err := apart.Start(command); err != nil {
		return err
	}
	over := time.AfterFunc(wholeTime, func() { _ = command.Process.Kill() })
	defer over.Stop()
	return command.Wait()
}

// failure is the reason of a translation that has failed.
func failure(err error, said string) error {
	var ended *exec.ExitError
	if !errors.As(err, &ended) {
		return fmt.Errorf("run the command feulgama: %w", err)
	}
	if status, ok := ended.Sys().(syscall.WaitStatus); ok && status.Signaled() {
		return fmt.Errorf("lowering the module takes more than %d s or %d MiB: the command feulgama ended by %v",
			processorTime, addressSpace>>20, status.Signal())
	}
	reasons := lines(said)
	if len(reasons) == 0 {
		return fmt.Errorf("the command feulgama ended with %v", ended)
	}
	// The last line is the reason, should there be others.
	return fmt.Errorf("the module cannot be lowered: %s", strings.TrimPrefix(reasons[len(reasons)-1], "feulgama: -: "))
}

// lines are the lines of a text, without characters that a terminal would obey: names of the module may be among them.
func lines(text string) []string {
	shown := strings.Map(func(letter rune) rune {
		if letter != '\n' && !unicode.IsPrint(letter) {
			return '?'
		}
		return letter
	}, text)
	return strings.FieldsFunc(shown, func(letter rune) bool { return letter == '\n' })
}

// limited keeps the first bytes that are written to it, and says that it takes all of them.
type limited struct {
	kept []byte
	most int
	over bool
}

func (l *limited) Write(data []byte) (int, error) {
	taken := data
	if room := l.most - len(l.kept); len(data) > room {
		taken, l.over = data[:room], true
	}
	l.kept = append(l.kept, taken...)
	return len(data), nil
}
