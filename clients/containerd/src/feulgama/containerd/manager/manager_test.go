package manager

import (
	"context"
	"errors"
	"net"
	"os"
	"path/filepath"
	"strings"
	"testing"
	"time"

	"github.com/containerd/containerd/namespaces"
)

var background = context.Background()

// socket makes a socket that is as old as is said. Nobody listens at it, unless it is to live.
func socket(t *testing.T, path string, age time.Duration, lives bool) {
	t.Helper()
	listener, err := net.ListenUnix("unix", &net.UnixAddr{Name: path, Net: "unix"})
	if err != nil {
		t.Fatal(err)
	}
	listener.SetUnlinkOnClose(false)
	if lives {
		t.Cleanup(func() { listener.Close() })
	} else {
		listener.Close()
	}
	made := time.Unix(time.Now().Unix(), 0).Add(-age)
	if err := os.Chtimes(path, made, made); err != nil {
		t.Fatal(err)
	}
}

func TestSweepRemovesOldSocketsOfDeadShims(t *testing.T) {
	folder := t.TempDir()
	for name, left := range map[string]bool{"feulgama-dead": false, "feulgama-alive": true, "feulgama-new": true, "other-dead": true} {
		age := time.Minute
		if name == "feulgama-new" {
			age = 0
		}
		path := filepath.Join(folder, name)
		socket(t, path, age, name == "feulgama-alive")
		sweep(folder)
		if _, err := os.Lstat(path); errors.Is(err, os.ErrNotExist) == left {
			t.Errorf("%s: %v", name, err)
		}
	}
	sweep(filepath.Join(folder, "nothing")) // the first shim of a machine
}

// Another start may do so between two looks at the socket.
func TestSweepLeavesASocketThatIsMadeAnew(t *testing.T) {
	path := filepath.Join(t.TempDir(), "feulgama-dead")
	socket(t, path, time.Minute, false)
	before := dial
	defer func() { dial = before }()
	dial = func(path string) (net.Conn, error) {
		connection, err := before(path)
		if err := os.Remove(path); err != nil {
			t.Fatal(err)
		}
		socket(t, path, 0, true)
		return connection, err
	}
	sweep(filepath.Dir(path))
	if connection, err := before(path); err != nil {
		t.Errorf("nobody answers: %v", err)
	} else {
		connection.Close()
	}
}

func TestAddresses(t *testing.T) {
	ctx := namespaces.WithNamespace(context.Background(), "here")
	one, err := addressOf(ctx, "/run/c.sock", "pod")
	if err != nil || !strings.HasPrefix(one, "unix:///run/containerd/s/feulgama-") {
		t.Errorf("%s, %v", one, err)
	}
	if length := len(strings.TrimPrefix(one, scheme)); length > 106 {
		t.Errorf("the kernel takes no socket with a name of %d bytes", length)
	}
	for _, other := range []struct{ namespace, group string }{{"here", "other"}, {"there", "pod"}} {
		two, err := addressOf(namespaces.WithNamespace(ctx, other.namespace), "/run/c.sock", other.group)
		if err != nil || two == one {
			t.Errorf("%v has the address %s, %v", other, two, err)
		}
	}
	if _, err := addressOf(context.Background(), "/run/c.sock", "pod"); err == nil {
		t.Error("an address without a namespace")
	}
}

func TestAShimThatListensIsUsedAgain(t *testing.T) {
	path := filepath.Join(t.TempDir(), "s")
	first, err := listen(background, scheme+path, 0)
	if err != nil || first == nil {
		t.Fatalf("%v, %v", first, err)
	}
	if about, err := os.Stat(path); err != nil || about.Mode().Perm() != 0o600 {
		t.Errorf("%v, %v", about, err)
	}
	for _, patience := range []time.Duration{0, 50 * time.Millisecond} {
		if second, err := listen(background, scheme+path, patience); err != nil || second != nil {
			t.Errorf("a second shim gets a socket after %v: %v, %v", patience, second, err)
		}
	}
	gone, cancel := context.WithCancel(background)
	cancel()
	if _, err := listen(gone, scheme+path, time.Minute); !errors.Is(err, context.Canceled) {
		t.Errorf("%v", err)
	}
	first.Close()
	for _, patience := range []time.Duration{0, time.Minute} {
		third, err := listen(background, scheme+path, patience)
		if err != nil || third == nil {
			t.Fatalf("the socket of a dead shim is in the way: %v", err)
		}
		third.Close()
	}
}

// A container may be made again under its name while the shim that had it still answers.
func TestAShimThatEndsIsNotUsedAgain(t *testing.T) {
	path := filepath.Join(t.TempDir(), "s")
	last, err := net.Listen("unix", path)
	if err != nil {
		t.Fatal(err)
	}
	go func() {
		if connection, err := last.Accept(); err == nil {
			connection.Close()
		}
		last.Close() // its socket is gone then
	}()
	next, err := listen(background, scheme+path, time.Minute)
	if err != nil || next == nil {
		t.Fatalf("%v, %v", next, err)
	}
	defer next.Close()
	if !answers(scheme + path) {
		t.Error("the next shim has no socket")
	}
}

// in runs a test in a folder with a config.
func in(t *testing.T, config string) {
	t.Helper()
	before, err := os.Getwd()
	if err != nil {
		t.Fatal(err)
	}
	if err := os.Chdir(t.TempDir()); err != nil {
		t.Fatal(err)
	}
	t.Cleanup(func() { _ = os.Chdir(before) })
	if err := os.WriteFile("config.json", []byte(config), 0o600); err != nil {
		t.Fatal(err)
	}
}

// Also if something else of the container cannot be cleaned up.
func TestStopLeavesNoSocket(t *testing.T) {
	in(t, `{}`)
	current, err := os.Getwd()
	if err != nil {
		t.Fatal(err)
	}
	folder := filepath.Join(filepath.Dir(current), "one")
	if err := os.Mkdir(folder, 0o700); err != nil {
		t.Fatal(err)
	}
	for record, good := range map[string]bool{`{"pid":0}`: true, "{": false} {
		path := filepath.Join(folder, "s")
		socket(t, path, 0, false)
		for name, text := range map[string]string{"address": scheme + path, "feulgama.json": record} {
			if err := os.WriteFile(filepath.Join(folder, name), []byte(text), 0o600); err != nil {
				t.Fatal(err)
			}
		}
		if _, err := Manager("").Stop(context.Background(), "one"); (err == nil) != good {
			t.Errorf("%s: %v", record, err)
		}
		if _, err := os.Lstat(path); !errors.Is(err, os.ErrNotExist) {
			t.Errorf("%s: the socket is left: %v", record, err)
		}
	}
}

func TestGroups(t *testing.T) {
	for config, want := range map[string]string{
		`{}`: "one", `{"annotations":{"other":"x"}}`: "one", `{"annotations":{"io.kubernetes.cri.sandbox-id":"pod"}}`: "pod",
	} {
		in(t, config)
		got, err := groupOf("one")
		if err != nil || got != want {
			t.Errorf("%s: %s, %v", config, got, err)
		}
		if ends := timeToEnd("one", got) > 0; ends != (want == "one") {
			t.Errorf("%s: a shim that answers is taken for one that ends: %v", config, ends)
		}
	}
	in(t, "{")
	if _, err := groupOf("one"); err == nil {
		t.Error("a config that is none is read")
	}
}
