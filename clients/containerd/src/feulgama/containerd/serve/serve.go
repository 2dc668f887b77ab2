// Package serve runs `wasm-shim serve` for one container, and speaks with it: one caller controls the task, and another
// waits for its end (docs/PROTOCOL.md, "Live callers").
package serve

import (
	"errors"
	"fmt"
	"os"
	"os/exec"
	"strings"
	"sync"
	"sync/atomic"
	"syscall"
	"time"

	"feulgama/lines"
	"feulgama/oci/apart"
)

// How many requests are kept back, so that a container can always be ended.
const (
	ForDebuggers = 4096 // a debugger is answered while more than these are left
	ForCopies    = 256  // what only shows something is asked while more than these are left
	ForPauses    = 16   // a pause is asked while more than these are left
)

// reasonTime is how long the reason of a refusal may be behind the refusal.
const reasonTime = 100 * time.Millisecond

// How often a request is sent again that found no memory, and the time before each.
const (
	askTries  = 25   // other requests for the container may be held up meanwhile
	waitTries = 1000 // none are
	restTime  = 10 * time.Millisecond
)

// ErrEnded says that the process has ended.
var ErrEnded = errors.New("wasm-shim has ended")

// Process is a running `wasm-shim serve`.
type Process struct {
	command *exec.Cmd
	control *caller
	waiter  *caller
	reasons *reasons
	left    int64
	ended   chan struct{}
	status  syscall.WaitStatus
	reap    sync.Once
}

// Start starts the program, and gives its id to join before the first request is sent.
func Start(program string, join func(pid int) error) (*Process, error) {
	p := &Process{left: lines.Requests, ended: make(chan struct{})}
	pipes, err := openPipes()
	if err != nil {
		return nil, fmt.Errorf("make pipes: %w", err)
	}
	p.command = command(program, pipes)
	err = apart.Start(p.command)
	pipes.closeTheirs()
	if err != nil {
		pipes.closeOurs()
		return nil, fmt.Errorf("start %s: %w", program, err)
	}
	p.reasons = readReasons(pipes.reasons)
	p.control, p.waiter = newCaller(pipes.control), newCaller(pipes.waiter)
	p.control.begin(pipes.control.read, p.reapSoon)
	p.waiter.begin(pipes.waiter.read, p.reapSoon)
	if err := join(p.PID()); err != nil {
		p.Kill()
		<-p.ended
		return nil, err
	}
	return p, nil
}

// command is the command of the program, whose pipes are its descriptors from 3 on.
func command(program string, pipes *pipes) *exec.Cmd {
	return &exec.Cmd{
		Path: program,
		Args: []string{"wasm-shim", "serve", "--workers", "1", "--explain",
			"--caller", "/dev/fd/3:/dev/fd/4", "--caller", "/dev/fd/5:/dev/fd/6"},
		Env: []string{}, Dir: "/",
		Stderr:      pipes.theirs[0],
		ExtraFiles:  pipes.theirs[1:],
		SysProcAttr: apart.Attributes(),
	}
}

// PID is the id of the process.
func (p *Process) PID() int { return p.command.Process.Pid }

// Left is how many requests may still be sent.
func (p *Process) Left() int { return int(atomic.LoadInt64(&p.left)) }

// Spend counts requests as sent that were not, so that tests come near the last one.
func (p *Process) Spend(requests int) { atomic.AddInt64(&p.left, -int64(requests)) }

// Ended is closed when the process has ended.
func (p *Process) Ended() <-chan struct{} { return p.ended }

// Status is how the process ended, in the way of a shell: 128 and the signal, or its exit status.
func (p *Process) Status() uint32 {
	<-p.ended
	if p.status.Signaled() {
		return 128 + uint32(p.status.Signal())
	}
	return uint32(p.status.ExitStatus())
}

// Kill ends the process itself, whatever its task does.
func (p *Process) Kill() {
	_ = p.command.Process.Kill() // it has ended already otherwise
}

// Ask sends a request by the caller that controls, and answers the reply. A refusal has its reason.
func (p *Process) Ask(request []byte) (lines.Reply, error) {
	return p.ask(p.control, request, askTries)
}

// AskLong is Ask where nothing is held up meanwhile: a request that finds no memory is sent again for as long as a wait is.
func (p *Process) AskLong(request []byte) (lines.Reply, error) {
	return p.ask(p.control, request, waitTries)
}

// Wait sends a request by the caller that waits. Requests by the other one are heard meanwhile.
func (p *Process) Wait(request []byte) (lines.Reply, error) {
	return p.ask(p.waiter, request, waitTries)
}

// Relay sends a request by the caller that controls, and answers the line of the reply too. A refusal has no reason.
func (p *Process) Relay(request []byte) ([]byte, lines.Reply, error) {
	text, _, reply, err := p.send(p.control, request, askTries)
	return text, reply, err
}

func (p *Process) ask(by *caller, request []byte, tries int) (lines.Reply, error) {
	_, number, reply, err := p.send(by, request, tries)
	var refusal *lines.Refusal
	if errors.As(err, &refusal) {
		refusal.Why = p.reasons.find(by.input, number, reasonTime)
	}
	return reply, err
}

// send answers the line of a reply, the number of the request's line, and what the reply says. A request that found no
// memory has changed nothing and does not count, and is sent again.
func (p *Process) send(by *caller, request []byte, tries int) ([]byte, int, lines.Reply, error) {
	for ; ; tries-- {
		atomic.AddInt64(&p.left, -1)
		text, number, err := by.ask(request)
		if err != nil {
			return nil, 0, lines.Reply{}, err
		}
		reply, err := lines.Read(text)
		if !lines.IsRefused(err, lines.NoMemory) {
			return text, number, reply, err
		}
		atomic.AddInt64(&p.left, 1)
		if tries == 0 {
			return text, number, reply, err
		}
		time.Sleep(restTime)
	}
}

// reapSoon takes the status of the process once its pipes have ended.
func (p *Process) reapSoon() {
	p.reap.Do(func() {
		go func() {
			p.control.close()
			p.waiter.close()
			p.reasons.ended()
			_ = p.command.Wait() // the status says it
			if status, ok := p.command.ProcessState.Sys().(syscall.WaitStatus); ok {
				p.status = status
			}
			close(p.ended)
		}()
	})
}

// Said is what the program has written to standard error besides reasons, for a log.
func (p *Process) Said() string {
	return strings.TrimSpace(p.reasons.rest())
}

// pipes are the ends of the pipes: ours, and those of the program in the order of its descriptors from 2 on.
type pipes struct {
	control, waiter pair
	reasons         *os.File
	theirs          []*os.File
}

// pair is what a caller writes to, and what it reads from.
type pair struct {
	input string // as the program calls it
	write *os.File
	read  *os.File
}

func openPipes() (_ *pipes, err error) {
	p := &pipes{}
	defer func() {
		if err != nil {
			p.closeOurs()
			p.closeTheirs()
		}
	}()
	reasons, write, err := os.Pipe()
	if err != nil {
		return nil, err
	}
	p.reasons = reasons
	p.theirs = append(p.theirs, write)
	for number, one := range []*pair{&p.control, &p.waiter} {
		one.input = fmt.Sprintf("/dev/fd/%d", 3+2*number)
		read, write, err := os.Pipe()
		if err != nil {
			return nil, err
		}
		one.write = write
		p.theirs = append(p.theirs, read)
		if one.read, write, err = os.Pipe(); err != nil {
			return nil, err
		}
		p.theirs = append(p.theirs, write)
	}
	for _, file := range p.theirs {
		// The program opens its pipes by name, as a user of its own.
		if err := file.Chown(apart.Nobody, apart.Nobody); err != nil && os.Geteuid() == 0 {
			return nil, err
		}
	}
	return p, nil
}

func (p *pipes) closeTheirs() {
	for _, file := range p.theirs {
		file.Close()
	}
}

func (p *pipes) closeOurs() {
	for _, file := range []*os.File{p.reasons, p.control.write, p.control.read, p.waiter.write, p.waiter.read} {
		if file != nil {
			file.Close()
		}
	}
}
