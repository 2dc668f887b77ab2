package task

import (
	"context"
	"crypto/sha256"
	"encoding/hex"
	"fmt"
	"regexp"
	"time"

	"github.com/containerd/containerd/mount"
	api "github.com/containerd/containerd/runtime/v2/task"
	"github.com/sirupsen/logrus"

	"feulgama/containerd/bundle"
	"feulgama/containerd/door"
	"feulgama/containerd/group"
	"feulgama/containerd/output"
	"feulgama/containerd/remains"
	"feulgama/containerd/serve"
	"feulgama/lines"
)

// create makes a container for good, and tells containerd.
func (s *Service) create(ctx context.Context, r *api.CreateTaskRequest) (unit, error) {
	b, err := bundle.Open(r.Bundle)
	if err != nil {
		return nil, err
	}
	if b.IsSandbox() {
		made := newSandbox(r, s.events)
		return made, s.keep(ctx, r, made)
	}
	return s.createContainer(ctx, r, b)
}

func (s *Service) createContainer(ctx context.Context, r *api.CreateTaskRequest, b *bundle.Bundle) (unit, error) {
	c := &container{
		request: r, namespace: s.namespace, events: s.events, task: taskID(r.ID),
		status: lines.Created, wakes: make(chan struct{}, 1), end: newEnding(), looks: map[string]*looking{},
	}
	// The module is looked for while wasm-shim starts.
	var moduleErr error
	looked := make(chan struct{})
	go func() {
		defer close(looked)
		moduleErr = c.findModule(b, mounts(r))
	}()
	err := c.open(s, b)
	<-looked
	if moduleErr != nil {
		err = moduleErr
	}
	if err == nil {
		err = c.load(b)
	}
	if err == nil {
		var doorErr error
		if c.door, doorErr = door.Open(r.Bundle); doorErr != nil {
			logrus.WithError(doorErr).Warn("let debuggers in")
		}
		err = s.keep(ctx, r, c)
	}
	if err != nil {
		err = c.fault(err)
		c.letGo()
		return nil, err
	}
	go c.watch()
	if c.door != nil {
		go c.answerTheDoor()
	}
	return c, nil
}

// findModule finds the module of the image, and translates it if that is asked for.
func (c *container) findModule(b *bundle.Bundle, image []mount.Mount) error {
	found, err := b.Module(image)
	if err != nil {
		return err
	}
	module, replaced, err := b.Lower(found)
	if err != nil {
		return err
	}
	c.module = module
	if replaced != "" {
		c.original = found
		logrus.Infof("the module of %s was lowered: %s", c.request.ID, replaced)
	}
	return nil
}

// open gives a container all that it has on the machine. What it has when this fails has to be let go.
func (c *container) open(s *Service, b *bundle.Bundle) error {
	program, err := s.program()
	if err != nil {
		return err
	}
	cgroup, err := group.Path(b.Cgroup, s.namespace, c.request.ID)
	if err != nil {
		return err
	}
	// It is written first, so that whoever cleans up after a shim that is killed now finds the cgroup.
	if err := remains.Write(c.request.Bundle, remains.Record{Cgroup: cgroup}); err != nil {
		return err
	}
	if c.group, err = s.newGroup(cgroup, b.Resources); err != nil {
		return err
	}
	c.process, err = serve.Start(program, func(pid int) error {
		c.record = remains.Of(pid, cgroup)
		if err := remains.Write(c.request.Bundle, c.record); err != nil {
			return err
		}
		return c.group.Add(pid)
	})
	if err != nil {
		return err
	}
	c.streams, err = output.Open(output.Wish{
		ID: c.request.ID, Namespace: s.namespace, Stdout: c.request.Stdout, Stderr: c.request.Stderr,
		Terminal: c.request.Terminal,
	})
	return err
}

// load makes the task in wasm-shim, which is ended if it takes too long over a module.
func (c *container) load(b *bundle.Bundle) error {
	limit := time.AfterFunc(loadTime, c.process.Kill)
	defer limit.Stop()
	put, err := c.process.Ask(lines.Put(c.module))
	if err != nil {
		return err
	}
	if c.config, err = b.Config(put.Digest); err != nil {
		return err
	}
	if _, err = c.process.Ask(lines.Create(c.task, c.config)); err != nil {
		return fmt.Errorf("%w%s", err, b.Hint(err))
	}
	return nil
}

func mounts(r *api.CreateTaskRequest) []mount.Mount {
	var wanted []mount.Mount
	for _, one := range r.Rootfs {
		wanted = append(wanted, mount.Mount{Type: one.Type, Source: one.Source, Options: one.Options})
	}
	return wanted
}

var wellFormed = regexp.MustCompile(`^[A-Za-z0-9][A-Za-z0-9._-]*$`)

// taskID is the id of a container in its wasm-shim: the same, or a hash of one that is too long.
func taskID(id string) string {
	if len(id) <= lines.MostID && wellFormed.MatchString(id) {
		return id
	}
	sum := sha256.Sum256([]byte(id))
	return hex.EncodeToString(sum[:])
}
