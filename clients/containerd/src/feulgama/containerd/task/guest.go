package task

import (
	"bufio"
	"encoding/hex"
	"encoding/json"
	"errors"
	"fmt"
	"net"
	"sync"
	"time"

	events "github.com/containerd/containerd/api/events"
	"github.com/containerd/containerd/runtime"
	"github.com/sirupsen/logrus"

	"feulgama/containerd/serve"
	"feulgama/lines"
)

const (
	// guestProtocol is the version of what a debugger and the shim say to each other (docs/CONTAINERS.md).
	guestProtocol = 1
	mostLine      = 4096        // bytes of a line of a debugger
	sayTime       = time.Second // that a debugger may take to read a line
)

// guest is a debugger that is attached to a container. The container stands still, but for what the debugger asks.
type guest struct {
	of         *container
	connection net.Conn
	ran        bool // before, so that it runs on afterwards
	breaks     map[lines.Breakpoint]bool
	saying     sync.Mutex
}

// greeting is the first line that a debugger gets: all that it needs to make the task once more, and what it is doing.
type greeting struct {
	OK        bool            `json:"ok"`
	Protocol  int             `json:"protocol"`
	Container string          `json:"container"`
	Ran       bool            `json:"ran"`
	State     json.RawMessage `json:"state"`
	Left      int             `json:"left"` // requests that it may send
	Module    string          `json:"module"`
	Original  string          `json:"original,omitempty"` // if the module was lowered
	Config    string          `json:"config"`
}

// answerTheDoor lets debuggers in until the container is removed.
func (c *container) answerTheDoor() {
	for {
		connection, err := c.door.Let()
		if err != nil {
			return
		}
		go c.receive(connection)
	}
}

// receive answers a debugger until it leaves.
func (c *container) receive(connection net.Conn) {
	defer connection.Close()
	g := &guest{of: c, connection: connection, breaks: map[lines.Breakpoint]bool{}}
	if !g.greet() {
		return
	}
	defer g.leave()
	reader := bufio.NewReaderSize(connection, mostLine)
	for {
		line, isPart, err := reader.ReadLine()
		if err != nil || isPart {
			return
		}
		answer, err := g.answer(line)
		if err != nil {
			return
		}
		g.say(json.RawMessage(answer))
	}
}

// greet attaches a debugger and writes its first line, and answers whether it is attached. The end of the task may be told at
// once, and comes after that line.
func (g *guest) greet() bool {
	g.saying.Lock()
	defer g.saying.Unlock()
	first, err := g.of.attach(g)
	if err != nil {
		g.write(map[string]interface{}{"ok": false, "error": err.Error()})
		return false
	}
	g.write(first)
	return true
}

// attach makes a debugger the one of the container, which stands still then.
func (c *container) attach(g *guest) (*greeting, error) {
	c.mu.Lock()
	defer c.mu.Unlock()
	switch {
	case c.guest != nil:
		return nil, errors.New("another debugger is attached to it")
	case c.status == lines.Created:
		return nil, errors.New("it was not started yet")
	case c.process.Left() < serve.ForDebuggers:
		return nil, errFewLeft
	}
	if c.status == lines.Running {
		status, err := c.halt()
		if err != nil && !lines.IsRefused(err, lines.WrongStatus) { // refused if it has ended
			return nil, err
		}
		g.ran = err == nil && status == lines.Paused
	}
	state, _, err := c.process.Relay(lines.Of(lines.State, c.task))
	if g.ran {
		c.status = lines.Paused
		c.copyNow()
		c.events.Tell(runtime.TaskPausedEventTopic, &events.TaskPaused{ContainerID: c.request.ID})
	}
	if err != nil {
		if g.ran {
			g.resume()
		}
		return nil, err
	}
	c.guest = g
	return &greeting{
		OK: true, Protocol: guestProtocol, Container: c.request.ID, Ran: g.ran, State: state,
		Left: c.process.Left() - serve.ForDebuggers, Module: hex.EncodeToString(c.module),
		Original: hex.EncodeToString(c.original), Config: string(c.config),
	}, nil
}

// say writes a line, once others are written.
func (g *guest) say(what interface{}) {
	g.saying.Lock()
	defer g.saying.Unlock()
	g.write(what)
}

// write writes a line. Who does not read in time is not attached any more. Whoever calls it holds saying.
func (g *guest) write(what interface{}) {
	text, err := json.Marshal(what)
	if err != nil {
		panic(err) // none of them can fail to be written
	}
	_ = g.connection.SetWriteDeadline(time.Now().Add(sayTime))
	if _, err := g.connection.Write(append(text, '\n')); err != nil {
		g.connection.Close()
	}
}

// tellGuest tells a debugger how the task has ended, since the container may be gone before it asks.
func (c *container) tellGuest(end lines.Reply) {
	c.mu.Lock()
	g := c.guest
	c.mu.Unlock()
	if g == nil {
		return
	}
	state := map[string]interface{}{
		"ok": true, "id": end.ID, "status": end.Status, "n": end.Turns, "cause": end.Cause, "exit": end.Exit,
	}
	if end.Trap != "" {
		state["trap"] = end.Trap
	}
	if end.Signal != 0 {
		state["signal"] = end.Signal
	}
	g.say(map[string]interface{}{"ended": state})
}

// wish is a request of a debugger: a line of docs/PROTOCOL.md. Its task is always that of the container.
type wish struct {
	Op              lines.Op
	Stream          int
	Count           uint64
	Address, Length uint64
	lines.Breakpoint
}

// line is the request for wasm-shim. It is nothing if a debugger has no right to it.
func (w wish) line(task string) []byte {
	switch w.Op {
	case lines.State, lines.Inspect, lines.Pause, lines.Resume:
		return lines.Of(w.Op, task)
	case "output":
		return lines.Output(task, w.Stream)
	case "peek":
		return lines.Peek(task, w.Address, w.Length)
	case "step":
		return lines.Step(task, w.Count)
	case "break":
		return lines.Break(task, w.Breakpoint)
	case "unbreak":
		return lines.Unbreak(task, w.Breakpoint)
	}
	return nil
}

// answer answers a line of a debugger. It fails if wasm-shim has ended.
func (g *guest) answer(line []byte) ([]byte, error) {
	var wanted wish
	if err := json.Unmarshal(line, &wanted); err != nil {
		return refusal(1, "BadRequest"), nil
	}
	c := g.of
	request := wanted.line(c.task)
	if request == nil {
		return refusal(1, "BadRequest"), nil
	}
	c.mu.Lock()
	defer c.mu.Unlock()
	if c.process.Left() < serve.ForDebuggers {
		return refusal(lines.JournalFull, "JournalFull"), nil
	}
	text, reply, err := c.process.Relay(request)
	if err == nil && reply.Status == lines.Pausing {
		if text, reply, err = c.process.Relay(lines.Of(lines.Wait, c.task)); err != nil {
			_ = c.goOn() // the debugger is told that it does not stand still
		}
	}
	var refused *lines.Refusal
	if errors.As(err, &refused) {
		return text, nil
	}
	if err == nil {
		g.note(wanted, reply)
	}
	return text, err
}

// note keeps what a request has changed. Whoever calls it holds the container's mu.
func (g *guest) note(done wish, reply lines.Reply) {
	c := g.of
	switch done.Op {
	case "break":
		g.breaks[done.Breakpoint] = true
	case "unbreak":
		delete(g.breaks, done.Breakpoint)
	case lines.Resume:
		c.status = lines.Running
		c.wake()
		return
	}
	switch reply.Status {
	case lines.Paused:
		c.status = lines.Paused
	case lines.Stopped:
		c.wake() // the watcher tells the end
	}
	if done.Op == lines.Pause {
		c.copyNow()
	}
}

// isAtBreakpoint tells whether a task that stands still is at a breakpoint of the debugger, which a resume would pass.
func (g *guest) isAtBreakpoint() bool {
	if len(g.breaks) == 0 {
		return false
	}
	reply, err := g.of.process.Ask(lines.Of(lines.Inspect, g.of.task))
	if err != nil || len(reply.Frames) == 0 {
		return false
	}
	for at := range g.breaks {
		if at.Func == reply.Frames[0].Func && fmt.Sprint(at.Place) == string(reply.Frames[0].Next) {
			return true
		}
	}
	return false
}

// leave takes the breakpoints away, and lets a container that ran before run on.
func (g *guest) leave() {
	c := g.of
	c.mu.Lock()
	defer c.mu.Unlock()
	c.guest = nil
	if c.end.is() {
		return
	}
	if err := g.clear(); err != nil {
		logrus.WithError(err).Errorf("take the breakpoints of %s away", c.request.ID)
		c.process.Kill() // nobody would see that it stands still at one
		return
	}
	c.copyNow()
	if g.ran {
		g.resume()
	}
}

// clear takes the breakpoints away. A task has to stand still for that.
func (g *guest) clear() error {
	c := g.of
	if c.status == lines.Running {
		_, err := c.halt()
		switch {
		case err == nil, lines.IsRefused(err, lines.WrongStatus):
			c.status = lines.Paused
		case len(g.breaks) > 0 && !hasEnded(err):
			return err
		}
	}
	for at := range g.breaks {
		if _, err := c.process.Ask(lines.Unbreak(c.task, at)); err != nil && !hasEnded(err) {
			return err
		}
	}
	return nil
}

// resume lets the container run on.
func (g *guest) resume() {
	c := g.of
	if err := c.goOn(); err != nil {
		logrus.WithError(err).Debug("resume after a debugger") // the task has ended
		return
	}
	c.status = lines.Running
	c.events.Tell(runtime.TaskResumedEventTopic, &events.TaskResumed{ContainerID: c.request.ID})
}

func refusal(number int, name string) []byte {
	return []byte(fmt.Sprintf(`{"error":%q,"number":%d,"ok":false}`, name, number))
}
