// Package plugin tells containerd's library that the task service is there.
package plugin

import (
	"context"
	"errors"
	"fmt"
	"os"

	"github.com/containerd/containerd/namespaces"
	"github.com/containerd/containerd/pkg/shutdown"
	"github.com/containerd/containerd/plugin"
	"github.com/containerd/containerd/runtime/v2/shim"
	"golang.org/x/sys/unix"

	"feulgama/containerd/events"
	"feulgama/containerd/serve"
	"feulgama/containerd/task"
	"feulgama/oci/programs"
)

func init() {
	plugin.Register(&plugin.Registration{
		Type:     plugin.TTRPCPlugin,
		ID:       "task",
		Requires: []plugin.Type{plugin.EventPlugin, plugin.InternalPlugin},
		InitFn:   start,
	})
}

func start(ic *plugin.InitContext) (interface{}, error) {
	if err := serve.Seal(); err != nil {
		return nil, fmt.Errorf("keep the shim's files to itself: %w", err)
	}
	// The library waits for the end of its own publisher, which is not used: it changes the order of events.
	publisher, err := ic.GetByID(plugin.EventPlugin, "publisher")
	if err != nil {
		return nil, err
	}
	down, err := ic.GetByID(plugin.InternalPlugin, "shutdown")
	if err != nil {
		return nil, err
	}
	namespace, err := namespaces.NamespaceRequired(ic.Context)
	if err != nil {
		return nil, err
	}
	queue, err := events.New(ic.TTRPCAddress, namespace)
	if err != nil {
		return nil, err
	}
	ends := down.(shutdown.Service)
	ends.RegisterCallback(func(context.Context) error {
		queue.Close()
		return publisher.(shim.Publisher).Close()
	})
	// The library removes it too, if the folder of the shim's first container is still there to say its name.
	if socket, err := socketPath(); err == nil {
		ends.RegisterCallback(func(context.Context) error { return shim.RemoveSocket("unix://" + socket) })
	}
	return task.New(namespace, queue, program, ends), nil
}

// socketPath is the name of the socket with which the shim was started, its descriptor 3.
func socketPath() (string, error) {
	address, err := unix.Getsockname(3)
	if err != nil {
		return "", err
	}
	if named, ok := address.(*unix.SockaddrUnix); ok && named.Name != "" {
		return named.Name, nil
	}
	return "", errors.New("the socket has no name")
}

// program finds wasm-shim, which has to be one that nobody can run.
func program() (string, error) {
	own, err := os.Executable()
	if err != nil {
		return "", fmt.Errorf("find the file of the shim: %w", err)
	}
	found, err := programs.Shim(own)
	if err != nil {
		return "", err
	}
	return found, programs.OpenToAll(found, programs.Run)
}
