// Package manager answers the calls of the shim's program by which containerd starts a shim, and cleans up after one.
package manager

import (
	"context"
	"encoding/json"
	"errors"
	"fmt"
	"net"
	"os"
	"os/exec"
	"path/filepath"
	"strings"
	"syscall"
	"time"

	"github.com/containerd/containerd/namespaces"
	"github.com/containerd/containerd/runtime/v2/shim"
	"golang.org/x/sys/unix"

	"feulgama/containerd/bundle"
	"feulgama/containerd/remains"
)

// Manager starts shims. Its value is the name of the runtime.
type Manager string

var _ shim.Manager = Manager("")

// Name is the name of the runtime.
func (m Manager) Name() string { return string(m) }

// Start answers the address of the shim for a container: that of its pod, if it runs, or else of a new one. The folder
// of the container is the current one.
func (m Manager) Start(ctx context.Context, id string, opts shim.StartOpts) (string, error) {
	group, err := groupOf(id)
	if err != nil {
		return "", err
	}
	address, err := addressOf(ctx, opts.Address, group)
	if err != nil {
		return "", err
	}
	sweep(filepath.Dir(strings.TrimPrefix(address, scheme)))
	socket, err := listen(ctx, address, timeToEnd(id, group))
	if err != nil {
		return "", err
	}
	// It is written before the shim begins, which removes the socket that it finds here.
	if err := shim.WriteAddress("address", address); err != nil {
		return "", fmt.Errorf("write the address of the shim: %w", err)
	}
	if socket == nil {
		return address, nil
	}
	defer socket.Close()
	if err := startShim(ctx, id, opts, socket); err != nil {
		_ = shim.RemoveSocket(address)
		return "", err
	}
	return address, nil
}

// groupOf is the pod of a container, which has one shim, or else the container.
func groupOf(id string) (string, error) {
	var config struct {
		Annotations map[string]string `json:"annotations"`
	}
	text, err := os.ReadFile("config.json")
	if err == nil {
		err = json.Unmarshal(text, &config)
	}
	if err != nil {
		return "", fmt.Errorf("read the config of %s: %w", id, err)
	}
	if pod := config.Annotations[bundle.Sandbox]; pod != "" {
		return pod, nil
	}
	return id, nil
}

// timeToEnd is how long a shim that answers for a container is given to end. containerd makes no container that is there.
// So a shim at the container's own address had it before, and ends. That of a pod is used at once by other containers.
func timeToEnd(id, group string) time.Duration {
	if group == id {
		return endTime
	}
	return 0
}

const (
	scheme = "unix://"
	prefix = "feulgama-" // of the names of sockets, beside those of other shims
	// oldAge is the age at which a socket that nobody listens at is not one that is just being made.
	oldAge = 5 * time.Second
	// endTime is how long a shim may take to end once its last container is deleted, and restTime the time between looks.
	endTime  = 3 * time.Second
	restTime = 10 * time.Millisecond
)

// addressOf is the library's address of a shim, with a name that says whose it is.
func addressOf(ctx context.Context, containerd, group string) (string, error) {
	address, err := shim.SocketAddress(ctx, containerd, group)
	if err != nil {
		return "", err
	}
	path := strings.TrimPrefix(address, scheme)
	return scheme + filepath.Join(filepath.Dir(path), prefix+filepath.Base(path)), nil
}

// dial is another one in tests.
var dial = func(path string) (net.Conn, error) { return net.DialTimeout("unix", path, time.Second) }

// sweep removes the sockets of shims that were killed before containerd knew of them, for which it calls nobody.
func sweep(folder string) {
	entries, err := os.ReadDir(folder)
	if err != nil {
		return // there are none yet
	}
	for _, entry := range entries {
		path := filepath.Join(folder, entry.Name())
		if !strings.HasPrefix(entry.Name(), prefix) || !isOld(path) {
			continue
		}
		connection, err := dial(path)
		if err == nil {
			connection.Close()
		} else if errors.Is(err, syscall.ECONNREFUSED) && isOld(path) { // another start may have made it anew meanwhile
			os.Remove(path)
		}
	}
}

// isOld tells whether a socket is there that is not just being made.
func isOld(path string) bool {
	about, err := os.Lstat(path)
	return err == nil && time.Since(about.ModTime()) >= oldAge
}

// listen answers a new socket, or none if a shim answers there, and still does after some time.
func listen(ctx context.Context, address string, patience time.Duration) (*os.File, error) {
	socket, err := shim.NewSocket(address)
	last := time.Now().Add(patience)
	for shim.SocketEaddrinuse(err) && time.Now().Before(last) && answers(address) {
		select {
		case <-ctx.Done():
			return nil, fmt.Errorf("wait for the end of the shim before: %w", ctx.Err())
		case <-time.After(restTime):
		}
		socket, err = shim.NewSocket(address)
	}
	if err != nil && shim.SocketEaddrinuse(err) {
		if answers(address) {
			return nil, nil
		}
		if err := shim.RemoveSocket(address); err != nil && !errors.Is(err, os.ErrNotExist) {
			return nil, fmt.Errorf("remove the socket of a shim that has ended: %w", err)
		}
		socket, err = shim.NewSocket(address)
	}
	if err != nil {
		return nil, fmt.Errorf("make the socket of a shim: %w", err)
	}
	file, err := socket.File()
	if err != nil {
		return nil, err
	}
	socket.SetUnlinkOnClose(false) // the shim has it now
	return file, socket.Close()
}

// answers tells whether a shim listens at an address. One that is just being started may not listen yet.
func answers(address string) bool {
	for tries := 0; tries < 5; tries++ {
		if shim.CanConnect(address) {
			return true
		}
		time.Sleep(restTime)
	}
	return false
}

// startShim starts this program once more, to stay.
func startShim(ctx context.Context, id string, opts shim.StartOpts, socket *os.File) error {
	namespace, err := namespaces.NamespaceRequired(ctx)
	if err != nil {
		return err
	}
	own, err := os.Executable()
	if err != nil {
		return fmt.Errorf("find the file of the shim: %w", err)
	}
	words := []string{"-namespace", namespace, "-id", id, "-address", opts.Address}
	if opts.Debug {
		words = append(words, "-debug")
	}
	command := exec.Command(own, words...)
	command.ExtraFiles = []*os.File{socket}
	command.SysProcAttr = &syscall.SysProcAttr{Setpgid: true}
	if err := command.Start(); err != nil {
		return fmt.Errorf("start the shim: %w", err)
	}
	if err := shim.AdjustOOMScore(command.Process.Pid); err != nil {
		_ = command.Process.Kill()
		_ = command.Wait()
		return fmt.Errorf("tell the kernel what to end first when memory runs out: %w", err)
	}
	return nil
}

// Stop cleans up after a container whose shim is gone. containerd also calls it when the container was deleted.
func (m Manager) Stop(_ context.Context, id string) (shim.StopStatus, error) {
	current, err := os.Getwd()
	if err != nil {
		return shim.StopStatus{}, fmt.Errorf("find the folder of %s: %w", id, err)
	}
	folder := filepath.Join(filepath.Dir(current), id)
	// First the socket, so that it is gone even if something else stays.
	if address, err := shim.ReadAddress(filepath.Join(folder, "address")); err == nil && !shim.CanConnect(address) {
		_ = shim.RemoveSocket(address) // it may be gone
	}
	record, err := remains.Clean(folder)
	if err != nil {
		return shim.StopStatus{}, fmt.Errorf("clean up after %s: %w", id, err)
	}
	status := shim.StopStatus{Pid: record.PID, ExitStatus: 128 + int(unix.SIGKILL), ExitedAt: time.Now()}
	if record.Exit != nil {
		status.ExitStatus, status.ExitedAt = int(*record.Exit), record.At
	}
	return status, nil
}
